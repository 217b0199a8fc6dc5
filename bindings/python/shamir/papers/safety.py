"""What the system does against leaks of what the program holds, and what the owner should know before the first question."""
from __future__ import annotations

import ctypes
import os
import pathlib
import resource
import signal
import sys
from typing import Collection, Iterator, List, Optional

from shamir.papers.texts import say

MLOCK_CURRENT, MLOCK_FUTURE = 1, 2
PR_SET_DUMPABLE = 4
RECORDERS = {"script", "scriptlive", "ttyrec", "asciinema", "termrec"}
SSH = {"sshd", "sshd-session"}
# With these, every block of memory that Python frees is overwritten at once: Python takes all of its memory from the C library,
# and that of GNU overwrites what is freed.
OVERWRITING = {"PYTHONMALLOC": "malloc", "GLIBC_TUNABLES": "glibc.malloc.perturb=85:glibc.malloc.tcache_count=0"}


def start_overwriting() -> None:
    """Starts the program anew, in the same process, so that freed memory is overwritten. It does nothing the second time."""
    if all(os.environ.get(name) == value for name, value in OVERWRITING.items()) or not sys.executable:
        return
    # Ctrl-C waits until the new start heeds it. Before that, Python would answer it with a traceback.
    signal.pthread_sigmask(signal.SIG_BLOCK, [signal.SIGINT])
    try:
        os.execve(sys.executable, [sys.executable, *sys.orig_argv[1:]], {**os.environ, **OVERWRITING})
    except OSError:
        # Then freed memory keeps what it holds.
        pass


def protect() -> List[str]:
    """Locks the memory, and forbids core files and attaching. Returns what the system didn't let it do, in words."""
    library = ctypes.CDLL(None, use_errno=True)
    told = []
    if not _lock(library):
        told.append(say("safety.lock"))
    if library.prctl(PR_SET_DUMPABLE, *[ctypes.c_ulong(0)] * 4):
        told.append(say("safety.attach"))
    try:
        resource.setrlimit(resource.RLIMIT_CORE, (0, 0))
    except (OSError, ValueError):
        told.append(say("safety.core"))
    return told


def _lock(library: ctypes.CDLL) -> bool:
    """Locks all memory, now and later. With a limit, memory that is taken later couldn't be had, so then it doesn't try."""
    try:
        hard = resource.getrlimit(resource.RLIMIT_MEMLOCK)[1]
        resource.setrlimit(resource.RLIMIT_MEMLOCK, (hard, hard))
    except (OSError, ValueError):
        return False
    if hard != resource.RLIM_INFINITY and os.geteuid() != 0:
        return False
    return not library.mlockall(MLOCK_CURRENT | MLOCK_FUTURE)


def warnings(kind: str, keeps_lines: Optional[bool]) -> List[str]:
    """Returns what the owner should know of this machine and this terminal. `kind` is the terminal's, and `keeps_lines` says whether it ignores
    the alternate screen, if it tells."""
    return [*_warnings(), *_warnings_of(kind, keeps_lines)]


def _warnings() -> Iterator[str]:
    networks = _networks()
    if networks:
        yield say("safety.network", names=", ".join(networks))
    if len(_text("/proc/swaps").splitlines()) > 1:
        yield say("safety.swap")
    # `sudo` and `su` take these variables away.
    if os.environ.get("SSH_CONNECTION") or os.environ.get("SSH_TTY") or _above(SSH):
        yield say("safety.ssh")
    recorder = _above(RECORDERS)
    if recorder:
        yield say("safety.recorded", name=recorder)


def _warnings_of(kind: str, keeps_lines: Optional[bool]) -> Iterator[str]:
    multiplexer = "screen" if os.environ.get("STY") else "tmux" if os.environ.get("TMUX") else ""
    if kind in ("", "dumb", "unknown"):
        yield say("safety.plain", kind=kind)
    elif keeps_lines:
        yield say("safety.kept")
        if multiplexer:
            yield say(f"safety.kept.{multiplexer}")
    elif keeps_lines is None and multiplexer == "screen":
        yield say("safety.screen")
    elif keeps_lines is None and _has_no_screen(kind):
        yield say("safety.kept.unknown", kind=kind)


def _has_no_screen(kind: str) -> bool:
    """Whether a terminal is known to have no alternate screen. The console of Linux has none, but what it keeps can be cleared."""
    try:
        import curses
    except ImportError:
        return False
    try:
        curses.setupterm(kind, 1)
        return curses.tigetstr("smcup") is None and not kind.startswith("linux")
    except curses.error:
        return False


def _text(path: str) -> str:
    """Returns what a file of the system says, or nothing if it can't be read."""
    try:
        return pathlib.Path(path).read_text("ascii", "replace")
    except OSError:
        return ""


def _networks() -> List[str]:
    """Returns the names of the networks that are up, except the one inside the machine."""
    try:
        names = sorted(os.listdir("/sys/class/net"))
    except OSError:
        return []
    return [name for name in names if name != "lo" and _is_up(f"/sys/class/net/{name}")]


def _is_up(folder: str) -> bool:
    """Whether a network is up. Some don't say so, and then it counts whether they are connected."""
    state = _text(f"{folder}/operstate").strip()
    return state == "up" or (state == "unknown" and _text(f"{folder}/carrier").strip() == "1")


def _above(programs: Collection[str]) -> Optional[str]:
    """Returns the name of a program above this one that is one of these."""
    number, steps = os.getppid(), 0
    while number > 1 and steps < 64:
        name, _, rest = _text(f"/proc/{number}/stat").partition("(")[2].rpartition(")")
        if name in programs:
            return name
        fields = rest.split()
        if len(fields) < 2:
            return None
        number, steps = int(fields[1]), steps + 1
    return None
