"""Runs a program, and reads all of its memory that it can write when it is about to end."""
import ctypes
import os
import pathlib
import re
import resource
import signal
import subprocess
import tempfile
from dataclasses import dataclass
from typing import List, Tuple

import devices

LIBC = ctypes.CDLL(None, use_errno=True)
LIBC.ptrace.restype = ctypes.c_long
LIBC.ptrace.argtypes = [ctypes.c_long, ctypes.c_long, ctypes.c_void_p, ctypes.c_void_p]
TRACE_ME, CONTINUE, SET_OPTIONS = 0, 7, 0x4200
STOP_AT_EXIT, END_WITH_TRACER = 1 << 6, 1 << 20
ADDRESS = 8
AT_EXIT = signal.SIGTRAP | 6 << 8
WRITABLE = re.compile(r"^([0-9a-f]+)-([0-9a-f]+) rw\S+ +\S+ +\S+ +\S+ *(.*)$", re.MULTILINE)


@dataclass(frozen=True)
class Area:
    """A part of memory, and what the system calls it."""

    name: str
    begin: int
    memory: bytes


@dataclass(frozen=True)
class End:
    """What a program answered, and its memory at its end."""

    status: int
    output: bytes
    errors: bytes
    areas: List[Area]
    words_at: int

    def lowest(self, area: Area) -> int:
        """Returns how many bytes below the words of the command the lowest byte of the stack is that isn't 0. Of other areas this
        is 0. The clearing itself leaves an address at the lowest place that it reaches, which doesn't count.
        """
        below = area.memory.lstrip(b"\0")[ADDRESS:].lstrip(b"\0")
        return max(0, self.words_at - (area.begin + len(area.memory) - len(below))) if area.name == "[stack]" else 0


def trace(request: int, number: int, options: int = 0) -> None:
    if LIBC.ptrace(request, number, None, options) == -1:
        raise OSError(ctypes.get_errno(), "ptrace")


def can_trace() -> bool:
    """Says whether this process may trace a program."""
    try:
        return ended(["true"], b"", "/").status == 0
    except (OSError, subprocess.SubprocessError):
        return False


def areas_of(number: int) -> List[Area]:
    """Returns the memory that a stopped process can write."""
    found = []
    with open(f"/proc/{number}/mem", "rb", buffering=0) as memory:
        for begin, end, name in WRITABLE.findall(pathlib.Path(f"/proc/{number}/maps").read_text()):
            memory.seek(int(begin, 16))
            found.append(Area(name or "without a name", int(begin, 16), memory.read(int(end, 16) - int(begin, 16))))
    return found


def words_of(number: int) -> int:
    """Returns where the system put the words of a command, above its stack."""
    return int(pathlib.Path(f"/proc/{number}/stat").read_text().rpartition(")")[2].split()[25])


def ended(words: List[str], given: bytes, folder: str, how: devices.How = devices.How()) -> End:
    """Runs a program in a folder."""
    with tempfile.TemporaryFile() as output, tempfile.TemporaryFile() as errors, devices.opened(given, how, output) as (reader, writer):
        run = subprocess.Popen(
            words,
            cwd=folder,
            stdin=reader,
            stdout=writer,
            stderr=errors,
            env={"PATH": os.environ["PATH"], **how.variables},
            preexec_fn=lambda: trace(TRACE_ME, 0),
        )
        areas, words_at = stopped_at_exit(run.pid, how.stack)
        status = run.wait()
        output.seek(0)
        errors.seek(0)
        return End(status, output.read(), errors.read(), areas, words_at)


def limit(number: int, stack: int) -> None:
    """Lets the stack of a process grow to this many bytes only. A signal then ends the process, which leaves no core file."""
    resource.prlimit(number, resource.RLIMIT_STACK, (stack, stack))
    resource.prlimit(number, resource.RLIMIT_CORE, (1, 1))


def stopped_at_exit(number: int, stack: int) -> Tuple[List[Area], int]:
    """Lets a traced process run to its end. Returns its memory there, and where the words of its command are."""
    os.waitpid(number, 0)
    trace(SET_OPTIONS, number, STOP_AT_EXIT | END_WITH_TRACER)
    if stack:
        limit(number, stack)
    signals = 0
    while True:
        trace(CONTINUE, number, signals)
        _, status = os.waitpid(number, 0)
        if status >> 8 == AT_EXIT:
            found = areas_of(number), words_of(number)
            trace(CONTINUE, number)
            return found
        if not os.WIFSTOPPED(status):
            raise OSError(f"the program ended with the wait status {status}")
        signals = os.WSTOPSIG(status)
