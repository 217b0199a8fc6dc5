"""How the program ends: by the owner at each question, by a signal, with the terminal, and where there is none."""
import concurrent.futures
import os
import pathlib
import pty
import re
import shutil
import signal
import subprocess
import sys
import tempfile
import termios

from hands import END, PATIENCE, PROGRAM, ROOT, Failed, Interrupted, Session, environment, habits, say
from tasks import TASKS, Owner, check_new, end_by_keys, paper_prompt, started

import plain
from samples import FINGERPRINT, PASSPHRASE, THREE_GROUPS, with_words
from tool import waited

AT_ONCE = 4
# The fields of a paper that is a quorum alone, and takes long.
SLOW = {"id": 7, "extendable": 0, "exponent": 12, "group_threshold": 1, "group_count": 4, "group": 0, "member": 0, "member_threshold": 1, "value": bytes(16)}


def end_at(task, number, keys):
    """Goes through a task up to a question, and ends it there. Returns the question, or None if there are fewer questions."""
    count = 0
    ended = []

    def at_question(session, prompt):
        nonlocal count
        count += 1
        if count == number:
            session.type(keys)
            session.end(130)
            ended.append(prompt)
            raise Interrupted

    habits.at_question = at_question
    try:
        task()
    except Interrupted:
        pass
    finally:
        del habits.at_question
    return ended[0] if ended else None


def questions_of(task):
    """Returns the numbers of the questions of a task. Of questions that differ only in a number, only the first counts."""
    seen = []
    habits.at_question = lambda session, prompt: seen.append(re.sub(r"\d+", "", prompt))
    try:
        task()
    finally:
        del habits.at_question
    return [at + 1 for at, prompt in enumerate(seen) if prompt not in seen[:at]]


def check_keys(see):
    """Ctrl-C and Ctrl-D at each question of each task: nothing is kept, and the terminal is as before."""
    papers, noted = check_new(see)
    tasks = [lambda: check_new(see), *(lambda it=it: it(papers, noted) for it in TASKS)]
    with concurrent.futures.ThreadPoolExecutor(AT_ONCE) as pool:
        numbers = list(pool.map(questions_of, tasks))
        jobs = [(task, number, "\x03" if at % 3 else "\x04") for task, found in zip(tasks, numbers) for at, number in enumerate(found)]
        ended = list(pool.map(lambda job: end_at(*job), jobs))
    if None in ended or len(set(ended)) < 20:
        raise Failed(f"only these questions were reached: {set(ended)}")
    return len(jobs)


def check_in_the_middle():
    """Ctrl-C in the middle of a line, after a word that was typed."""
    with started("check") as owner:
        owner.wait(paper_prompt(1))
        owner.type("shadow pistol")
        owner.wait_shown(lambda: "pistol" in owner.screen(), "a word that was typed isn't shown")
        owner.type("\x04")
        owner.pull(0.2)
        end_by_keys(owner)


def check_signals():
    """TERM and HUP end the program as they ask, and QUIT as Ctrl-C does."""
    for number, status in [(signal.SIGTERM, -signal.SIGTERM), (signal.SIGHUP, -signal.SIGHUP), (signal.SIGINT, 130), (signal.SIGQUIT, 130)]:
        with started("check") as owner:
            owner.answer(paper_prompt(1), THREE_GROUPS[0])
            owner.wait(paper_prompt(2))
            owner.run.send_signal(number)
            owner.end(status)


def wait_working(owner):
    """Waits until the program says how long the library works already."""
    owner.wait_shown(lambda: "so far" in owner.screen(), "no work goes on")


def stop(owner):
    """Presses the key that asks whether to stop while the library works. The work goes on if that isn't meant."""
    for answer in ("n", "y"):
        owner.type("s")
        owner.answer(f"{say('work.sure')} (y/n)", answer)


def settle_slow(owner, exponent):
    """Takes the plan, the wallet and a high exponent for a new secret."""
    owner.settle()
    owner.answer(say("new.secret"), "m")
    owner.answer(say("new.exponent"), exponent)
    owner.answer("Is that right? (y/n)", "y")


def drill_slowly(owner):
    """Makes a backup with a high exponent, up to its drill."""
    settle_slow(owner, "8")
    owner.draw(PASSPHRASE)
    owner.type_back(owner.written())
    owner.answer(say("noted.done"), "")
    owner.prove(owner.noted(), PASSPHRASE)


def check_work():
    """Ctrl-C while the library works for long, and the key that stops that."""
    with started("new", "2of3") as owner:
        settle_slow(owner, "15")
        owner.answer(say("new.secret"), "")
        owner.answer(say("new.passphrase"), "TREZOR")
        owner.answer(say("new.passphrase.again"), "TREZOR")
        wait_working(owner)
        owner.expect(say("time.about", time="").rstrip(" ."))
        owner.expect("left. This is an estimate.")
        stop(owner)
        owner.wait(say("new.secret"))
        owner.expect(say("make.stopped"))
        owner.answer(say("new.secret"), "")
        owner.answer(say("new.passphrase"), "TREZOR")
        owner.answer(say("new.passphrase.again"), "TREZOR")
        wait_working(owner)
        end_by_keys(owner)


def check_stopped_drill():
    """A drill that is stopped says of no quorum that it is right. Each of these papers is a quorum with a secret of its own. Enter stops
    nothing."""
    with started("check") as owner:
        owner.collect([plain.mnemonic({**SLOW, "group": group, "value": bytes([group]) * 16}) for group in range(4)])
        owner.passphrase("", "01234567")
        wait_working(owner)
        for count, key in enumerate(["x", "\n"], 1):
            owner.type(key)
            owner.wait_shown(lambda: owner.emulator.all_seen().count(say("work.key")) >= count, "it isn't said that only one key does something")
        stop(owner)
        owner.wait(say("next.again"))
        owner.expect(say("check.done.stopped"))
        owner.expect(say("drill.tried", tried=0, total=4))
        owner.expect(say("time.long", exponent=12, time="").split("about")[0])
        owner.finish(say("next.again"))


def own_secrets(count, exponent):
    """Returns papers, each of which is a quorum with a secret of its own."""
    fields = {**SLOW, "exponent": exponent, "group_count": count}
    return [plain.mnemonic({**fields, "group": group, "value": bytes([group]) * 16}) for group in range(count)]


def check_slow_drill():
    """A slow drill shows how many quorums were tried, and how far the next one is. If it is stopped, what was tried counts."""
    with started("check") as owner:
        owner.collect(own_secrets(12, 8))
        owner.passphrase("", "")
        for tried in (0, 1, 2):
            shown = [f"{say('drill.tried', tried=tried, total=12)} {say('drill.next', rounds=rounds)}" for rounds in (1, 2, 3)]
            owner.wait_shown(lambda: any(it in owner.screen() for it in shown), f"it isn't shown how far the quorum after {tried} is")
        stop(owner)
        owner.wait(say("next.again"))
        owner.expect(say("check.done.stopped"))
        # While the owner answers, one more may have been tried.
        tried = 3 if say("drill.tried", tried=3, total=12) in owner.screen() else 2
        owner.expect(say("drill.tried", tried=tried, total=12))
        owner.expect(say("verdict.several", quorums=f"{tried} quorums", secrets=f"{tried} different secrets"))
        owner.finish(say("next.again"))


def check_many_secrets():
    """Of many fingerprints, those that aren't named are counted."""
    with started("check") as owner:
        owner.collect(own_secrets(12, 0))
        owner.passphrase("", "")
        owner.wait(say("next.papers"))
        owner.expect(say("verdict.several", quorums="12 quorums", secrets="12 different secrets"))
        owner.expect(say("verdict.gave.others", fingerprints="4 more fingerprints", quorums="4 quorums"))
        end_by_keys(owner)


def check_unproved():
    """A new backup whose drill was stopped is no finished one, and the program says so at its end."""
    # The drill takes ten times as long as the making.
    with started("new", "3of5") as owner:
        drill_slowly(owner)
        wait_working(owner)
        stop(owner)
        owner.wait(say("make.failed.again"))
        owner.expect(say("make.unproved"))
        owner.finish(say("make.failed.again"), "closed.unfinished")


def check_two_signals():
    """A second signal doesn't keep the terminal from being restored. The stop lets both come at once."""
    with started("check") as owner:
        owner.collect([plain.mnemonic({**SLOW, "exponent": 15})])
        owner.passphrase("", "01234567")
        wait_working(owner)
        for number in (signal.SIGSTOP, signal.SIGTERM, signal.SIGHUP, signal.SIGCONT):
            owner.send(number)
        owner.end(-signal.SIGHUP)


def check_stopped():
    """After a stop that the program couldn't notice, the screen is shown again, and the echo is off."""
    with started("check") as owner:
        owner.collect([THREE_GROUPS[3], THREE_GROUPS[4]])
        owner.wait(say("passphrase.ask"))
        shown, modes = owner.screen(), termios.tcgetattr(owner.theirs)
        owner.send(signal.SIGSTOP)
        os.waitid(os.P_PID, owner.run.pid, os.WSTOPPED | os.WNOWAIT)
        termios.tcsetattr(owner.theirs, termios.TCSANOW, owner.modes)
        os.write(owner.theirs, b"\x1b[H\x1b[2J$ ")
        owner.wait_shown(lambda: owner.screen() == "$", "the screen isn't the shell's")
        owner.send(signal.SIGCONT)
        owner.wait(say("passphrase.ask"))
        if (owner.screen(), termios.tcgetattr(owner.theirs)) != (shown, modes):
            raise Failed(f"after a stop the screen shows {owner.screen()!r}, and not {shown!r}, or the modes are others")
        owner.type("\x04")
        owner.end(130)


def check_closed():
    """A terminal that is closed ends the program."""
    with started("check") as owner:
        owner.wait(paper_prompt(1))
        os.close(owner.theirs)
        os.close(owner.ours)
        owner.theirs = owner.ours = -1  # another thread may get these numbers
        if owner.run.wait(PATIENCE) != -signal.SIGHUP:
            raise Failed(f"a closed terminal ends the program with status {owner.run.returncode}")


def check_no_terminal():
    """Where standard input or output is no terminal, the program says which command is for scripts."""
    ours, theirs = pty.openpty()
    words = [sys.executable, "-m", "shamir.papers", "check"]
    for how, stream in [({"stdin": subprocess.DEVNULL, "stdout": theirs}, "input"), ({"stdin": theirs, "stdout": subprocess.DEVNULL}, "output")]:
        done = subprocess.run(words, **how, stderr=subprocess.PIPE, text=True, env=environment())
        wanted = say("needs.terminal", stream=stream, command="shamir drill --fingerprint") + "\n"
        if (done.returncode, done.stderr) != (2, wanted):
            raise Failed(f"without a terminal the status is {done.returncode}, and the message {done.stderr!r}")
    os.close(ours)
    os.close(theirs)
    shown = [(["--version"], "shamir-papers 1.0.0\n"), (["--help"], "usage: shamir-papers"), (["new", "--help"], "usage: shamir-papers new")]
    refused = [["nothing"], ["check", "more"], ["new", "2of3", "more"], ["--exponent"]]
    for options, status, wanted in [*((it, 0, text) for it, text in shown), *((it, 2, "") for it in refused)]:
        done = subprocess.run([*words[:3], *options], capture_output=True, text=True, env=environment(), stdin=subprocess.DEVNULL)
        if done.returncode != status or not done.stdout.startswith(wanted):
            raise Failed(f"{options} gives the status {done.returncode} and {done.stdout!r}")
    for options, _ in shown:
        with open("/dev/full", "w") as full:
            done = subprocess.run([*words[:3], *options], stdout=full, stderr=subprocess.PIPE, text=True, env=environment())
        if (done.returncode, done.stderr) != (1, ""):
            raise Failed(f"{options} into a full disk gives the status {done.returncode} and the message {done.stderr!r}")


def check_early():
    """The script that starts the program ignores Ctrl-C, which Python would answer with a traceback until the program heeds it."""
    with tempfile.TemporaryDirectory() as folder:
        shutil.copy(ROOT / "packaging" / "shamir-papers", folder)
        library, stub = pathlib.Path(folder, "bindings", "python", "shamir", "library.so"), pathlib.Path(folder, "stub")
        library.parent.mkdir(parents=True)
        library.touch()
        stub.write_text("#!/bin/sh\nkill -INT $$\necho alive\n")
        stub.chmod(0o755)
        done = subprocess.run([f"{folder}/shamir-papers"], capture_output=True, text=True, env={**os.environ, "PYTHON": str(stub)})
    if done.stdout != "alive\n":
        raise Failed(f"Ctrl-C while Python starts gives the status {done.returncode}")


def check_echo():
    """What is typed while the program starts doesn't show, from the first moment on if the script starts it. At the end, also an early one, the
    terminal's modes are as before."""
    early = "academic acid\n"
    with tempfile.TemporaryDirectory() as folder:
        launcher, stub, broken = (pathlib.Path(folder, name) for name in ("shamir-papers", "stub", "broken"))
        shutil.copy(ROOT / "packaging" / "shamir-papers", folder)
        os.mkdir(f"{folder}/bindings")
        os.symlink(environment()["PYTHONPATH"], f"{folder}/bindings/python")
        # Python starts late, or fails.
        stub.write_text(f'#!/bin/sh\ntouch {folder}/begun\nsleep 1\nexec {sys.executable} "$@"\n')
        broken.write_text(f'#!/bin/sh\nexec {sys.executable} -S -X frozen_modules=off -c "import sys; sys.modules[\'shamir\'] = None; exec(sys.argv[1])" "$3"\n')
        for python in (stub, broken):
            python.chmod(0o755)
        # Where no script starts it, Python starts the program twice.
        starts = [([f"{launcher}", "check"], lambda _: os.path.exists(f"{folder}/begun"))]
        starts += [([*PROGRAM, "check"], lambda owner: b"PYTHONMALLOC" in pathlib.Path(f"/proc/{owner.run.pid}/environ").read_bytes())]
        for command, has_begun in starts:
            with Owner("check", command=command, PYTHON=str(stub)) as owner:
                if not waited(lambda: has_begun(owner), PATIENCE):
                    raise Failed("the program doesn't start")
                owner.type(early)
                owner.wait(say("safety.go"))
                owner.lacks("academic")
                if "academic" in owner.emulator.kept():
                    raise Failed("what is typed while the program starts shows")
                end_by_keys(owner)
        for python, words, status in [(stub, ["--version"], 0), (stub, ["nothing"], 2), (broken, ["check"], 1)]:
            with Session(command=[f"{launcher}", *words], PYTHON=str(python)) as owner:
                owner.run.wait(PATIENCE)
                if (owner.run.returncode, termios.tcgetattr(owner.theirs)) != (status, owner.modes):
                    raise Failed(f"{words} ends with the status {owner.run.returncode}, or leaves the terminal in other modes")


def check_menu():
    """Without a task, the program asks for one, by its number or its word. Help answers questions."""
    with started() as owner:
        owner.answer(say("home.choose"), "h")
        owner.answer(say("help.choose"), "")
        owner.answer(say("help.choose"), "4")
        owner.wait(say("help.choose"))
        owner.expect(f"{say('help.lost')} {say('help.lost.answer')}")
        owner.answer(say("help.choose"), "b")
        owner.wait(say("home.choose"))
        owner.type("\x04")
        owner.end(130)
    for answer in ("2", "check"):
        with started() as owner:
            owner.answer(say("home.choose"), "9")
            owner.answer(say("home.choose"), answer)
            owner.wait(paper_prompt(1))
            owner.type("\x04")
            owner.end(130)


def stay(owner, keys, prompt):
    """Presses Ctrl-C or Ctrl-D, and stays: the question comes again, and the screen is as it was."""
    shown = owner.screen()
    owner.type(keys)
    owner.wait(END)
    if re.search(r"\d+\. [a-z]+", owner.screen()):
        raise Failed("the words of a paper show beside another question")
    owner.answer(END, "n")
    owner.wait(prompt)
    if owner.screen() != shown:
        raise Failed(f"after the question the screen shows {owner.screen()!r}, and not {shown!r}")


def leave(owner, keys, status, said, is_asked=True):
    """Ends the program, and checks what it says of the papers, and whether it asks before."""
    owner.type(keys)
    owner.end(status, said)
    if owner.was_asked != is_asked:
        raise Failed(f"the program asked before it ended: {owner.was_asked}")


def made_until(owner, prompt):
    """Makes a backup of one paper, up to this question. What is typed of it stays, if the owner doesn't end."""
    owner.settle()
    line = owner.draw(PASSPHRASE)
    for ask, typed in [(say("new.write"), ""), (say("screen.next"), ""), (say("back.ask", name="0.0"), line), (say("noted.done"), ""), (say("screen.end"), "")]:
        owner.wait(ask)
        if ask == prompt:
            return
        if ask == say("noted.done"):
            found = owner.noted()
            owner.answer(ask, "")
            owner.prove(found, PASSPHRASE)
            continue
        if typed:
            half = len(line) // 2
            owner.type(typed[:half])
            owner.wait_shown(lambda: owner.screen().endswith(line[:half].strip()[-3:]), "words that were typed aren't shown")
            owner.type("\x03")
            owner.answer(END, "n")
            typed = typed[half:]
        owner.type(typed + "\n")


def check_written():
    """Once a paper was shown to be written, Ctrl-C and Ctrl-D ask, and the program says what the papers are that were written."""
    for prompt in (say("new.write"), say("screen.next"), say("back.ask", name="0.0")):
        with started("new", "1of1") as owner:
            made_until(owner, prompt)
            stay(owner, "\x03", prompt)
            stay(owner, "\x04", prompt)
            leave(owner, "\x03", 130, "ended.unfinished")
    with started("new", "1of1") as owner:
        made_until(owner, say("noted.done"))
        leave(owner, "\x04", 130, "ended.unfinished")
    with started("new", "1of1") as owner:
        made_until(owner, say("screen.end"))
        leave(owner, "\x03", 130, "ended.made", False)
    with started("new", "1of1") as owner:
        made_until(owner, say("new.write"))
        owner.type("\x03")
        owner.wait(END)
        leave(owner, "\x03", 130, "ended.unfinished", False)
    with started("new", "1of1") as owner:
        made_until(owner, say("new.write"))
        owner.send(signal.SIGTERM)
        owner.end(-signal.SIGTERM, "ended.unfinished")


def check_written_again():
    """The same for papers that are written again, and for a drill that runs."""
    with started("repair") as owner:
        owner.answer(say("damaged.ask"), with_words(THREE_GROUPS[0], {10: "?"}))
        owner.answer(say("damaged.menu"), "w")
        owner.answer(f"{say('damaged.sure', name='0.0')} (y/n)", "y")
        owner.wait(say("new.write"))
        stay(owner, "\x03", say("new.write"))
        leave(owner, "\x03", 130, "ended.repaired")
    for is_drilled in (False, True):
        with started("replace") as owner:
            owner.answer(say("replace.how"), "1")
            owner.collect([THREE_GROUPS[0], *THREE_GROUPS[3:]])
            owner.answer(say("replace.choose"), "0.1")
            owner.answer(say("new.write"), "")
            owner.answer(say("back.ask", name="0.1"), THREE_GROUPS[1])
            owner.wait(say("replace.choose"))
            if is_drilled:
                owner.answer(say("replace.choose"), "d")
                owner.passphrase(PASSPHRASE, FINGERPRINT)
                owner.wait(say("next.good"))
            leave(owner, "\x03", 130, "ended" if is_drilled else "ended.replaced", not is_drilled)
    check_held_drill()


def check_held_drill():
    """Ctrl-C while the drill of a new backup runs: the drill goes on if the owner stays."""
    with started("new", "1of1") as owner:
        drill_slowly(owner)
        owner.expect(say("time.long", exponent=8, time="").split("about")[0])
        owner.type("\x03")
        owner.wait(END)
        owner.expect(say("end.unfinished"))
        owner.answer(END, "n")
        owner.wait(say("screen.end"))
        leave(owner, "\x03", 130, "ended.made", False)


CHECKS = [
    check_written,
    check_written_again,
    check_in_the_middle,
    check_signals,
    check_work,
    check_stopped_drill,
    check_slow_drill,
    check_many_secrets,
    check_unproved,
    check_two_signals,
    check_stopped,
    check_closed,
    check_no_terminal,
    check_early,
    check_echo,
    check_menu,
]


def check(see):
    check_keys(see)
    for one in CHECKS:
        one()
