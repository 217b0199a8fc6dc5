"""The program as plain C: builds of it, what they are compared with, its heap, and what it leaves in memory."""
import dataclasses
import functools
import pathlib
import re
import sys
from typing import Callable, List, Optional, Tuple

import builds
import planted
from builds import ROOT, Target, run

Check = Tuple[Target, Callable[[str], Optional[str]]]

# So many generated command lines are made on this machine, by each emulator, and under valgrind.
LINES, EMULATED_LINES, VALGRIND_LINES = 300, 1000, 50
NATIVE = Target("the program", "gcc", ["-O2"])
# What is compiled without optimisation is compiled in seconds.
OTHERS = [
    Target("the program with clang -O1", "clang", ["-O1"]),
    Target("the program with SHAMIR_CHECKED", "gcc", ["-O1", "-DSHAMIR_CHECKED"]),
]
# The program frees all that it takes, so here a report of a leak counts.
SANITIZERS = [dataclasses.replace(it, name=f"the program and {it.name}", environment={}) for it in builds.SANITIZERS]
VALGRIND = dataclasses.replace(NATIVE, name="the program under valgrind", emulators=["valgrind"], environment={"VALGRIND_OPTS": "--quiet --leak-check=full"})
EMULATED = [dataclasses.replace(it, name=f"the program on {it.name}") for it in builds.EMULATED]
# These tools look at what the program answers and says, and at how it takes files, a terminal, a lack of memory, and devices that fail.
TOOLS = ["texts", "values", "terminal", "faults --allocations", "faults --examples= --each=1"]
# Without one of these lines of program.c, something is left in memory.
CLEARINGS = [
    ("the memory of the module", "status = module_main(m, 0, 0);\n", "    clear(PLACE(m, 0), (size_t)m->end);\n"),
    ("the stack", "", "    clear_stack((FRAME() > m.deepest ? (size_t)(FRAME() - m.deepest) : 0) + FRAMES_BYTES);\n"),
]


def compiled(compiler: str, *words: str) -> str:
    """Compiles program.c without a warning, once for each compiler and its words, and returns the program. It says its name, which has to
    be shamir."""
    folder = builds.OBJECTS / re.sub("[^A-Za-z0-9]+", "-", " ".join(["program", compiler, *words]))
    path = folder / ("shamir.exe" if "mingw" in compiler else "shamir")
    with builds.LOCKS[("program", compiler, *words)]:
        if not path.exists():
            folder.mkdir()
            run([compiler, "-std=c99", "-pedantic", *builds.STRICT, "-Wno-overlength-strings", *words, str(builds.DIST / "program.c"), "-o", str(path)])
    return str(path)


def built(target: Target, folder: str) -> List[str]:
    """Builds the program for a target, and returns the words that run it. It ran once then, since wine tells of its first start in a folder."""
    words = builds.words_of(target, compiled(target.compiler, *target.words), folder)
    run([*words, "--version"])
    return words


def agrees(target: Target, lines: int, folder: str) -> str:
    """Compares the program with the native one on generated command lines. Returns what tools/command says."""
    words = [str(ROOT / "tools" / "command"), "--lines", str(lines), "--command", ",".join(built(target, folder))]
    # Windows has other errors, with texts of its own.
    said = run([*words, "--foreign"] if "mingw" in target.compiler else words).decode()
    return f"{target.name}: {said.strip()}"


def agrees_with_vectors(target: Target, lines: int, folder: str) -> str:
    """Also asks the program for the vectors of vectors/."""
    said = run([sys.executable, "-B", str(ROOT / "tools" / "vectors"), "--program", ",".join(built(target, folder))]).decode()
    return f"{agrees(target, lines, folder)}\n{target.name}: {said.strip()}"


def passes(tool: str, folder: str) -> str:
    """Lets a tool check this program as it checks the native one. Returns what the tool says."""
    name, *options = tool.split(" ")
    said = run([str(ROOT / "tools" / name), *options, "--program", compiled(NATIVE.compiler, *NATIVE.words)], stdin=None).decode()
    return f"the program: {said.strip().splitlines()[-1]}"


def leaves_nothing(program: str) -> str:
    """Sees that the program leaves nothing secret in its memory. Returns what tools/leftovers says."""
    return run([sys.executable, "-B", str(ROOT / "tools" / "leftovers"), "--plain-c", program]).decode().strip()


def is_cleared(target: Target, folder: str) -> str:
    return leaves_nothing(compiled(target.compiler, *target.words))


def without_clearing(folder: pathlib.Path, before: str, clearing: str) -> Callable[[], object]:
    """Compiles the program without one of its clearings. Returns what looks for what it leaves."""
    text = (builds.DIST / "program.c").read_text()
    (folder / "program.c").write_text(planted.changed(text, before + clearing, before, "program.c"))
    run(["gcc", "-O1", "-w", str(folder / "program.c"), "-o", str(folder / "shamir")])
    return functools.partial(leaves_nothing, str(folder / "shamir"))


def has_right_heap(folder: str) -> str:
    """Takes, changes and gives back blocks of the program's heap by chance, beside a plain one (heap.c)."""
    program = f"{folder}/heap"
    words = ["-O0", *builds.SANITIZED, "-DSHAMIR_CHECKED", "-DSHAMIR_MEMORY_BYTES_MAX=2097152u"]
    run(["gcc", "-std=c99", *words, f"-I{builds.DIST}", str(builds.HERE / "heap.c"), "-o", program])
    return run([program]).decode().strip()


def named(what: str, target: Target = NATIVE) -> Target:
    return dataclasses.replace(target, name=f"the program {what}")


def checks(is_whole: bool) -> List[Check]:
    """Returns what is checked: all of it, or what an x86-64 machine shows without an emulator in a few minutes."""
    found: List[Check] = [(NATIVE, functools.partial(agrees, NATIVE, LINES))]
    found += [(named(f"by tools/{it}"), functools.partial(passes, it)) for it in TOOLS]
    found.append((named("and its heap"), has_right_heap))
    found.append((named("at its end"), functools.partial(is_cleared, NATIVE)))
    return found + further() if is_whole else found


def further() -> List[Check]:
    """Returns what is checked by hand alone, as it takes long."""
    found: List[Check] = [(it, functools.partial(agrees, it, LINES)) for it in [*OTHERS, *SANITIZERS]]
    found.append((VALGRIND, functools.partial(agrees, VALGRIND, VALGRIND_LINES)))
    found += [(it, functools.partial(agrees_with_vectors, it, EMULATED_LINES)) for it in EMULATED]
    found.append((named("by tools/faults"), functools.partial(passes, "faults --examples=")))
    found.append((named("at its end with clang", OTHERS[0]), functools.partial(is_cleared, OTHERS[0])))
    found.append((named("without its clearings"), lambda folder: planted.check(CLEARINGS, without_clearing)))
    return found
