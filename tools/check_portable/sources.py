"""Checks the files of dist/c: that they are made of the module that is here, that compilers take them without a warning, what shamir.c
exports and takes, and that an empty folder with them gives a working library."""
import pathlib
import re
import shutil
import signal
import subprocess

import builds
import driver
import shamir_h
import worked
from builds import ROOT, Failed, run
from tool import symbols_of

LIBC = {"memcpy", "memmove", "memset", "malloc", "free"}
# A compiler takes these for a position-independent file, and for guards that the system asks for by default.
OF_COMPILER = {"_GLOBAL_OFFSET_TABLE_", "__stack_chk_fail"}
FIRST_CALL = r"0\.0\+0\.1 ([0-9a-f]{8})\n0\.0\+0\.2 \1\n0\.1\+0\.2 \1\nend\n"
NO_MEMORY = worked.Answer(4, "no memory left for the call")
IN_CXX = """
#include "shamir.h"
int main()
{
    char text[SHAMIR_TEXT_BYTES_MAX];
    return shamir_version(text, sizeof text).code != SHAMIR_DONE;
}
"""


def made(folder: pathlib.Path) -> None:
    """Makes the files in a folder, as `make portable` does. If dist/c is here, it must have the same files."""
    run(["python3", "-B", str(ROOT / "tools" / "portable"), "--folder", str(folder)])
    unnamed = [path.name for path in folder.iterdir() if path.suffix in (".c", ".h", ".hpp", ".in", ".txt") and b"SPDX-License-Identifier: " not in path.read_bytes()]
    if unnamed or not {"LICENSE", "NOTICE"} <= {path.name for path in folder.iterdir()}:
        raise Failed(f"dist/c lacks LICENSE or NOTICE, or its licence isn't named in {unnamed}")
    if builds.COMMITTED.exists():
        for path in folder.iterdir():
            if path.read_bytes() != (builds.COMMITTED / path.name).read_bytes():
                raise Failed(f"dist/c/{path.name} isn't what `make portable` makes of shamir32.wasm and the sources")


def has_right_symbols(folder: str) -> None:
    """Sees that shamir.c exports the calls of the header alone, and takes a few functions of the C library."""
    calls = set(shamir_h.calls((builds.DIST / "shamir.h").read_text()))
    for option in ["-O2", "-Os", "-O0"]:
        file = builds.compiled("gcc", option)
        exported, needed = (symbols_of(file, "-g", f"--{it}-only") for it in ["defined", "undefined"])
        if exported != calls:
            raise Failed(f"with {option}, shamir.c exports {sorted(exported ^ calls)} or lacks them")
        if needed - LIBC - OF_COMPILER:
            raise Failed(f"with {option}, shamir.c takes {sorted(needed - LIBC - OF_COMPILER)}")


def compiles_strictly(folder: str) -> None:
    """Sees that compilers of C and of C++ take the files without a warning."""
    for compiler in ["gcc", "clang"]:
        if shutil.which(compiler):
            builds.compiled(compiler, "-O2")
            words = ["-std=c99", "-pedantic", *builds.STRICT, "-Wno-overlength-strings", "-O2", "-c"]
            run([compiler, *words, str(builds.DIST / "test.c"), "-o", f"{folder}/test.o"])
    if shutil.which("g++"):
        run(["g++", *builds.STRICT, "-O0", "-x", "c++", "-c", str(builds.DIST / "shamir.c"), "-o", f"{folder}/cxx.o"])
        pathlib.Path(folder, "user.cpp").write_text(IN_CXX)
        library = builds.compiled("gcc", "-O2")
        run(["g++", *builds.STRICT, f"-I{builds.DIST}", f"{folder}/user.cpp", library, "-o", f"{folder}/user"])
        run([f"{folder}/user"])


def works_in_an_empty_folder(folder: str) -> str:
    """Runs the vectors as README.md says, and its first call. Returns what the vectors say."""
    empty = pathlib.Path(folder, "empty")
    empty.mkdir()
    for name in ["shamir.c", "shamir.h", "test.c"]:
        shutil.copy(builds.DIST / name, empty)
    run(["sh", "-c", "cc -O2 test.c shamir.c"], cwd=empty)
    said = run(["./a.out"], cwd=empty).decode()
    page = (builds.DIST / "README.md").read_text()
    [first] = re.findall(r"```c\n(.*?)```", page, re.DOTALL)
    (empty / "first.c").write_text(first)
    run(["cc", "-O2", "first.c", builds.compiled("gcc", "-O2"), "-o", "first"], cwd=empty)
    if not re.fullmatch(FIRST_CALL, run(["./first"], cwd=empty).decode()):
        raise Failed("the first call of dist/c/README.md doesn't list the quorums of a new backup")
    return said.strip()


def refuses_without_memory(folder: str) -> None:
    """Makes the first worked example of each call, with an allocator that counts its blocks. Without memory, each is refused and
    changes nothing. Only the text of this refusal needs no memory."""
    firsts = {it.call: it for it in reversed([*worked.examples()]) if it.answer.code == 0}.values()
    made = [call for it in firsts for call in worked.calls_of(it)]
    told = worked.example("text", [NO_MEMORY.code, 0, 0, 0, 0, 0], worked.DONE, NO_MEMORY.told)
    refused = [(line, worked.wanted(NO_MEMORY)) for line, _ in made] + [*worked.calls_of(told)][:2]
    for words in [["-O2"], ["-O0", *builds.SANITIZED]]:
        program = driver.built(f"{folder}/driver", ["gcc"], *words, f"-I{builds.DIST}", str(builds.HERE / "no_memory.c"))
        driver.check(["env", "ASAN_OPTIONS=detect_leaks=0", program], made)
        driver.check(["env", "ASAN_OPTIONS=detect_leaks=0", "MOST=0", program], refused)


def takes_little_memory(folder: str) -> str:
    """Makes the worked examples of each call with as much memory as LIBRARY.md says, and with 2 kB less, with which the largest call of
    a row is refused. Returns how much the least call takes."""
    page = (ROOT / "docs" / "LIBRARY.md").read_text()
    rows = re.findall(r"^\| ((?:`\w+`(?:, )?)+) \| \d+ \| (\d+) \| ", page, re.MULTILINE)
    program = driver.built(f"{folder}/driver", ["gcc"], "-O2", "-DSHAMIR_CHECKED", f"-I{builds.DIST}", str(builds.HERE / "no_memory.c"))
    for names, kilobytes in rows:
        made = [(it.call, call) for it in worked.examples() if f"`{it.call}`" in names for call in worked.calls_of(it)]
        if {name for name, _ in made} != set(re.findall(r"\w+", names)):
            raise Failed(f"a call of the row {names} in LIBRARY.md has no worked example")
        driver.check(["env", f"MOST={kilobytes}000", program], [call for _, call in made])
        answers = driver.answers(["env", f"MOST={int(kilobytes) - 2}000", program], [line for _, (line, _) in made])
        if not any(it.startswith("4 ") for it in answers):
            raise Failed(f"no call of the row {names} in LIBRARY.md takes {kilobytes} kB")
    return f"the memory of a call: {len(rows)} rows of LIBRARY.md are right, from {min(int(it) for _, it in rows)} kB on"


def stops_at_an_overflow(folder: str) -> None:
    """Moves the stack pointer of the module to the ends of its stack and past them. The generated part must move it in no other way."""
    source = (builds.DIST / "shamir.c").read_text()
    sizes = {name: int(it) for name, it in re.findall(r"^#define (\w*STACK_BYTES) (\d+)u$", source, re.MULTILINE)}
    stack, needed = sizes["STACK_BYTES"], sizes["PARSE_STACK_BYTES"]
    # SET_POINTER moves it, and a call lets it begin.
    if source.count("pointer = ") != 2:
        raise Failed("shamir.c moves the stack pointer of the module without a look at the ends of the stack")
    program = f"{folder}/overflow"
    run(["gcc", "-O1", "-std=c99", f"-I{builds.DIST}", str(builds.HERE / "overflow.c"), "-o", program])
    for inside, pointers in [(True, [stack - needed, stack]), (False, [0, stack - needed - 16, stack + 1, 2**32, 2**64 - 16])]:
        for pointer in pointers:
            status = subprocess.run([program, str(pointer)]).returncode
            if status != (0 if inside else -signal.SIGILL):
                raise Failed(f"with the stack pointer {pointer} of {stack}, the program ends with status {status}")


def has_worked_examples(folder: str) -> None:
    """Makes the worked examples with the library as plain C."""
    driver.check([driver.built(f"{folder}/driver", ["gcc"], "-O2", f"-I{builds.DIST}", builds.compiled("gcc", "-O2"))], worked.calls())
