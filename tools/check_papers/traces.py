"""What the program leaves: files, calls of the system, the memory of its process, and what the system was asked to forbid."""
import os
import pathlib
import re
import shlex
import shutil
import subprocess
import tempfile

from hands import PATIENCE, PROGRAM, Failed, environment, habits, say
from tasks import Owner, change, check_check, check_new, check_recover, check_what, end_by_keys, make, paper_prompt, started

from samples import FINGERPRINT, THREE_GROUPS, changed, fingerprint_of, secret_of

# A passphrase that nothing else has.
OWN_PASSPHRASE = "7mQ zebra-crossing 4tV"
# These calls write a file, make one, reach another machine, or start a program.
WRITING = re.compile(r"O_WRONLY|O_RDWR|O_CREAT|O_APPEND|O_TMPFILE")
FORBIDDEN = {"creat", "mkdir", "mkdirat", "mknod", "rename", "renameat", "renameat2", "link", "linkat", "symlink", "symlinkat", "truncate", "socket", "connect", "fork", "vfork", "memfd_create"}


def check_files():
    """Goes through two tasks under strace: no file is written, no connection opened, no other program started."""
    if not shutil.which("strace"):
        return "strace isn't here, so the calls of the system aren't looked at"
    with tempfile.TemporaryDirectory() as folder:
        log = pathlib.Path(folder, "log")
        before = ["strace", "-f", "-qq", "-e", "signal=none", "-e", "trace=%file,%network,%process,memfd_create,ftruncate", "-o", str(log)]
        papers, noted = traced(before, log, lambda: check_new(None))
        traced(before, log, lambda: check_check(papers, noted))
    return ""


def with_how(how, task):
    """Returns what a task gives whose sessions have further arguments."""
    earlier = getattr(habits, "how", {})
    habits.how = {**earlier, **how}
    try:
        return task()
    finally:
        habits.how = earlier


def traced(before, log, task):
    found = with_how({"before": before}, task)
    look_at(log.read_text())
    return found


def look_at(text):
    """Checks the calls of a run."""
    calls = [(name, line) for line in text.splitlines() for name in re.findall(r"^(?:\d+ +)?(\w+)\(", line)]
    if not any(name == "openat" for name, _ in calls):
        raise Failed("strace shows no file that is opened, so this check sees nothing")
    started = [line for name, line in calls if name == "execve" and " = 0" in line]
    written = [line for name, line in calls if name in FORBIDDEN or (name in ("open", "openat") and WRITING.search(line))]
    written += [line for name, line in calls if name in ("clone", "clone3") and "CLONE_THREAD" not in line]
    if written:
        raise Failed(f"the program writes or reaches out: {written[:3]}")
    # The program starts itself once more, so that freed memory is overwritten.
    if len(started) > 2:
        raise Failed(f"programs are started: {started}")


def memory_of(number):
    """Yields each part of the memory of a process that it can write."""
    with open(f"/proc/{number}/maps") as maps, open(f"/proc/{number}/mem", "rb", buffering=0) as memory:
        for line in maps:
            begin, end, kind = re.match(r"([0-9a-f]+)-([0-9a-f]+) (\S+)", line).groups()
            if kind.startswith("rw"):
                memory.seek(int(begin, 16))
                try:
                    yield memory.read(int(end, 16) - int(begin, 16))
                except OSError:
                    # The kernel's own parts can't be read.
                    continue


def look_for(session, texts):
    """Returns which of these texts are in the memory of a session's process."""
    found = set()
    for part in memory_of(session.run.pid):
        found |= {what for what, text in texts.items() if text in part}
    return found


def of_papers(papers):
    """Returns what would show papers: four words that follow one another, of each paper. The first four say little."""
    return {f"words from {at} on of paper {number}": " ".join(line.split()[at : at + 4]).encode() for at in (5, 9) for number, line in enumerate(papers, 1)}


def check_memory():
    """Looks at the memory of the process at the last question of 'new' and of 'check': no passphrase is there, and after 'new' no
    secret and no paper. Before that, when it is typed again, the passphrase is found, or this check sees nothing."""
    if os.geteuid() != 0:
        return "only root may look at the memory of the program, so it isn't looked at"
    seen = {}

    def at_question(session, prompt):
        if prompt == say("new.passphrase.again"):
            seen["typed"] = look_for(session, {"passphrase": OWN_PASSPHRASE.encode()})
        if prompt == say("screen.end"):
            seen["memory"] = b"".join(memory_of(session.run.pid))

    with started("new", "2of3") as owner:
        habits.at_question = at_question
        try:
            papers, noted = make(owner, OWN_PASSPHRASE, "2of3")
        finally:
            del habits.at_question
    if not seen.get("typed"):
        raise Failed("a passphrase that the program holds isn't found in its memory, so this check sees nothing")
    secret = secret_of(papers, OWN_PASSPHRASE)
    texts = {"the passphrase": OWN_PASSPHRASE.encode(), "the digits of the secret": secret.encode(), **of_papers(papers)}
    texts["the secret"] = bytes.fromhex(secret)
    left = [what for what, text in texts.items() if text in seen["memory"]]
    if left:
        raise Failed(f"after a backup was made, the memory of the program still has {', '.join(left)}")
    check_memory_of_check(papers, noted, secret)
    check_memory_of_change(papers, noted, secret)
    return ""


def check_memory_of_change(papers, noted, secret):
    """At the last question of 'change', old and new papers are gone, and so is the secret, which papers without the flag are made of."""
    flagless = [changed(line, extendable=0) for line in papers]
    for old, fingerprint in [(papers, noted), (flagless, fingerprint_of(flagless, OWN_PASSPHRASE))]:
        with started("change") as owner:
            owner.collect(old[1:])
            if old is flagless:
                owner.passphrase(OWN_PASSPHRASE, fingerprint)
            new = change(owner, "2of3", "1" if old is flagless else "")
            owner.passphrase(OWN_PASSPHRASE, fingerprint)
            owner.wait(say("screen.end"))
            digits = secret_of(old, OWN_PASSPHRASE)
            texts = {"the passphrase": OWN_PASSPHRASE.encode(), "the digits of the secret": digits.encode(), "the secret": bytes.fromhex(digits)}
            left = look_for(owner, {**texts, **of_papers(old[1:]), **{f"new {what}": text for what, text in of_papers(new).items()}})
            if left:
                raise Failed(f"after the plan was changed, the memory of the program still has {', '.join(left)}")
            owner.finish(say("screen.end"))


def check_memory_of_check(papers, noted, secret):
    """After a drill, papers are still there, and no secret, also where quorums are tried one by one."""
    slow = [changed(line, exponent=5) for line in papers]
    for lines, fingerprint, digits in [(papers, noted, secret), (slow, fingerprint_of(slow, OWN_PASSPHRASE), secret_of(slow, OWN_PASSPHRASE))]:
        with started("check") as owner:
            owner.collect(lines)
            owner.passphrase(OWN_PASSPHRASE, fingerprint)
            owner.wait(say("next.good"))
            texts = {"the passphrase": OWN_PASSPHRASE.encode(), "the digits of the secret": digits.encode(), "the secret": bytes.fromhex(digits)}
            left = look_for(owner, texts)
            if left:
                raise Failed(f"after a check, the memory of the program still has {', '.join(left)}")
            owner.finish(say("next.good"))


def check_forbidden():
    """No core is written, the memory is locked, and nobody but root may attach."""
    with started("check") as owner:
        owner.wait(paper_prompt(1))
        process = pathlib.Path(f"/proc/{owner.run.pid}")
        if not re.search(r"Max core file size +0 +0 ", (process / "limits").read_text()):
            raise Failed("a core file could be written")
        status = (process / "status").read_text()
        locked = int(re.search(r"VmLck:\s+(\d+)", status)[1])
        if locked == 0 and say("safety.lock") not in owner.emulator.all_seen():
            raise Failed("the memory isn't locked, and the program doesn't say so")
        end_by_keys(owner)


def check_other_processes():
    """A process of the same user can't read the memory of the program. (Root can.)"""
    as_nobody = ["setpriv", "--reuid=65534", "--regid=65534", "--clear-groups"]
    if os.geteuid() != 0 or not shutil.which("setpriv") or subprocess.run([*as_nobody, *PROGRAM, "--version"], env=environment(), capture_output=True).returncode:
        return "it isn't tried whether another process of the same user can read the program's memory: that needs root, setpriv, and a folder that all may read"
    with started("check", command=[*as_nobody, *PROGRAM, "check"]) as owner:
        owner.wait(paper_prompt(1))
        told = subprocess.run([*as_nobody, "head", "-c", "1", f"/proc/{owner.run.pid}/environ"], capture_output=True, text=True, env={"LC_ALL": "C", "PATH": os.environ["PATH"]})
        if "Permission denied" not in told.stderr:
            raise Failed(f"another process of the same user reads the program's memory: {told}")
        end_by_keys(owner)
    return ""


def check_warnings():
    """What is said before the first question: ssh, GNU screen, and a program that records the terminal."""
    kept = [say(f"safety.kept{it}") for it in ("", ".screen", ".tmux")]
    for how, told in [({"STY": "1.here"}, kept[:2]), ({"TMUX": "/tmp/here,1,0"}, [kept[0], kept[2]]), ({"TERM": "vt100"}, kept[:1])]:
        for has_other in (False, True):
            with Owner("check", SSH_CONNECTION="192.0.2.1 1 192.0.2.2 22", has_other=has_other, **how) as owner:
                owner.wait(say("safety.go"))
                owner.expect(say("safety.ssh"))
                if [it for it in kept if " ".join(it.split()) in owner.emulator.all_seen()] != ([] if has_other else told):
                    raise Failed(f"that there is a second screen: {has_other}, with {how}: the program says {owner.screen()}")
                end_by_keys(owner)
    for how, told in [({"STY": "1.here"}, say("safety.screen")), ({"TERM": "vt100"}, say("safety.kept.unknown", kind="vt100"))]:
        with Owner("check", has_other=None, **how) as owner:
            owner.wait(say("safety.go"))
            owner.expect(told)
            owner.type("\x03")
            owner.run.wait(PATIENCE)
    if not shutil.which("script"):
        return "script isn't here, so it isn't tried whether the program notices it"
    with tempfile.TemporaryDirectory() as folder:
        with Owner("check", command=["script", "-q", "-e", "-c", shlex.join([*PROGRAM, "check"]), f"{folder}/typescript"]) as owner:
            owner.wait(say("safety.go"))
            owner.expect(say("safety.recorded", name="script"))
            owner.type("\x03")
            owner.run.wait(PATIENCE)
    return ""


def check_no_second_screen():
    """Where there is no alternate screen, what was shown isn't kept: after whole tasks, and, if the scrollback can't be cleared, as long as no
    line leaves the screen."""
    with_how({"has_other": False}, lambda: check_recover(*check_new(None)))
    with_how({"has_other": False, "clears_kept": False}, lambda: check_what([*THREE_GROUPS, THREE_GROUPS[0]], FINGERPRINT))
    return ""


def check(see):
    told = [one() for one in (check_no_second_screen, check_files, check_memory, check_forbidden, check_other_processes, check_warnings)]
    return [text for text in told if text]
