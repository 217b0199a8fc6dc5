"""Makes the library as plain C from shamir32.wasm, as `make portable` does, checks it, and compares it with libshamir.so.

    python3 tools/check_portable [--cases N] [--seed S] [--only WORD..]
    python3 tools/check_portable --program
    python3 tools/check_portable --speed

In an empty folder, `cc` builds the library and runs the vectors in test.c, and CMake installs it. Compilers of C and C++ take it without
warnings. It exports the calls of the header alone. On generated calls, the builds for each processor and system give the
answers of libshamir.so, without writing past an output: on x86-64 with gcc, clang, their sanitizers and threads, for other processors
under qemu, and for Windows under wine, where these vectors run too. Without memory each call refuses, each needs as much as
docs/LIBRARY.md says, and the memory of a call is clear when it is freed. If the stack of the module overflows, the program stops. On x86-64, no call leaves anything secret on the C stack, or
needs more of it than the header says, and no branch and no address depends on secret bytes but as timing.py says. For no processor, a frame
is so large that a call could clear too little. --only names words: the parts run whose names have one of them.

Of the program as plain C, its output, messages and status are those of ./shamir on generated command lines, in the same builds and under
valgrind, and on other processors and systems those of the vectors. Tools that check ./shamir check it too, its heap is tried beside a plain
one, and it leaves nothing secret in memory, as it would without any one of its clearings. With --program, only what is quick of this is
checked, and only on x86-64.

With --speed, it measures calls beside those of libshamir.a, and checks nothing.

The tool says what it leaves out if a program isn't here. It exits with status 1 if something is wrong.
"""
import argparse
import functools
import pathlib
import platform
import shutil
import sys
import tempfile
from typing import Callable, List, Optional, Tuple

sys.dont_write_bytecode = True
sys.path[:0] = [str(pathlib.Path(__file__).resolve().parent), str(pathlib.Path(__file__).resolve().parents[1])]

import agreement  # noqa: E402
import builds  # noqa: E402
import driver  # noqa: E402
import install  # noqa: E402
import programs  # noqa: E402
import sources  # noqa: E402
import speed  # noqa: E402
import stack  # noqa: E402
import timing  # noqa: E402
from left_out import is_here, left_out  # noqa: E402
from parts import Part, all_pass, in_folder  # noqa: E402


def with_programs(what: str, programs: List[str], check: Callable[[str], Optional[str]]) -> List[Part]:
    """Returns a part, or says that it is left out because a program isn't here."""
    are_here = all(is_here(it, f"{what} of dist/c isn't checked") for it in programs)
    return [Part(what, in_folder(check))] if are_here else []


def builds_to_compare(calls: List[str], right: List[str]) -> List[Part]:
    """Returns a part for each build whose answers are compared with those of the native library."""
    count = len(calls)
    groups: List[Tuple[List[builds.Target], int, Callable[..., None]]] = [
        (builds.EMULATED, count, agreement.agreed_with_vectors),
        (builds.SANITIZERS, agreement.SANITIZED, agreement.agreed),
        (builds.THREADS, agreement.THREADED, agreement.agreed_in_threads),
        (builds.NATIVE, count, agreement.agreed),
        (builds.SLOW, agreement.SLOW, agreement.agreed),
    ]
    found: List[Part] = []
    for targets, most, check in groups:
        for target in targets:
            if target.missing():
                left_out(f"{target.missing()} isn't here, so dist/c isn't compared with libshamir.so: {target.name}")
            else:
                found.append(Part(target.name, in_folder(functools.partial(check, target, calls[:most], right[:most]))))
    return found


def on_x86_64() -> List[Part]:
    """Returns a part for each build in which the stack is looked at, or branches are that may depend on secrets."""
    if platform.machine() != "x86_64":
        left_out("this isn't x86-64, so nothing looks for what dist/c leaves on the stack, or for branches of it that depend on secrets")
        return []
    looked = [(target, [target.compiler], stack.is_cleared) for target in stack.TARGETS]
    looked += [(target, [target.compiler], stack.has_room) for target in stack.DEEP]
    looked += [(target, [target.compiler, "valgrind"], timing.is_even) for target in timing.TARGETS]
    return [part for target, programs, check in looked for part in with_programs(target.name, programs, functools.partial(check, target))]


def frames_to_look_at() -> List[Part]:
    """Returns a part for each build in which the frames of functions are looked at. It is for those that are compared too."""
    targets = [it for it in [*builds.NATIVE, *builds.EMULATED] if shutil.which(it.compiler)]
    return [Part(f"the frames of {it.name}", in_folder(functools.partial(stack.has_small_frames, it))) for it in targets]


def other_parts() -> List[Part]:
    return [
        *on_x86_64(),
        *frames_to_look_at(),
        *with_programs("the empty folder", ["cc"], sources.works_in_an_empty_folder),
        *with_programs("what shamir.c exports", ["gcc", "nm"], sources.has_right_symbols),
        *with_programs("the form", ["gcc"], sources.compiles_strictly),
        *with_programs("a lack of memory", ["gcc"], sources.refuses_without_memory),
        *with_programs("the memory of a call", ["gcc"], sources.takes_little_memory),
        *with_programs("an overflow of the stack", ["gcc"], sources.stops_at_an_overflow),
        *with_programs("the worked examples", ["gcc"], sources.has_worked_examples),
        *with_programs("the installation", ["cmake", "cc"], install.is_installed),
    ]


def of_program(is_whole: bool) -> List[Part]:
    """Returns the parts that check the program."""
    return [part for it, check in programs.checks(is_whole) if not said_missing(it) for part in [Part(it.name, in_folder(check))]]


def said_missing(target: builds.Target) -> bool:
    if target.missing():
        left_out(f"{target.missing()} isn't here, so this isn't checked: {target.name}")
    return bool(target.missing())


def main() -> None:
    words = argparse.ArgumentParser()
    words.add_argument("--cases", type=int, default=2000)
    words.add_argument("--seed", type=int, default=39)
    words.add_argument("--only", nargs="*", default=[""])
    words.add_argument("--program", action="store_true")
    words.add_argument("--speed", action="store_true")
    given = words.parse_args()
    if not all(is_here(it, "the library as plain C isn't checked") for it in ["gcc", "wasm2c", "wasm-opt"]):
        return
    with tempfile.TemporaryDirectory() as folder:
        builds.use(pathlib.Path(folder))
        sources.made(builds.DIST)
        if given.speed:
            speed.measure()
        elif given.program:
            if not all_pass(of_program(False)):
                sys.exit("tools/check_portable: something is wrong with the program")
        else:
            check(given.cases, given.seed, given.only)


def check(count: int, seed: int, only: List[str]) -> None:
    """Runs the parts whose names have one of these words."""
    calls = agreement.calls_of(count, seed)
    with tempfile.TemporaryDirectory() as folder:
        right = driver.answers([builds.native(folder)], calls)
    parts = [it for it in [*builds_to_compare(calls, right), *other_parts(), *of_program(True)] if any(word in it.name for word in only)]
    if not all_pass(parts):
        sys.exit("tools/check_portable: something is wrong")
    print(f"dist/c: {len(calls)} generated calls agree with libshamir.so in each build, and {len(parts)} checks passed")


if __name__ == "__main__":
    main()
