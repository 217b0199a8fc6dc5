"""Looks for what calls of the library as plain C leave on the stack, as tools/leftovers does for the native library, and how much they need."""
import pathlib
import sys

import builds
import driver
import largest
from builds import ROOT, Failed

sys.path[:0] = [str(ROOT / "tools" / "leftovers"), str(ROOT / "tools")]

import calls  # noqa: E402

TARGETS = [
    builds.Target("the stack with gcc -O2", "gcc", ["-O2"]),
    builds.Target("the stack with gcc -Os", "gcc", ["-Os"]),
    builds.Target("the stack with clang -O2", "clang", ["-O2"]),
    builds.Target("the stack with gcc -O3", "gcc", ["-O3", "-DNDEBUG"]),
    builds.Target("the stack with clang -O3", "clang", ["-O3", "-DNDEBUG"]),
    builds.Target("the stack with gcc -O0", "gcc", ["-O0"]),
]
DEEP = [
    builds.Target("the largest calls with gcc -O2", "gcc", ["-O2"]),
    builds.Target("the largest calls with gcc -O0", "gcc", ["-O0"]),
    builds.Target("the largest calls with clang -O2", "clang", ["-O2"]),
]
# The lengths of the secrets.
LENGTHS = [16, 128]
# Only so many bytes below the caller may be other than 0: the frame of the call itself, which has nothing secret.
FRAME = 1024
# Without optimisation, the function that clears at last has so many bytes of its own there, which are addresses and its arguments.
PLAIN_LAST = 64
# A call clears FRAMES_BYTES of packaging/portable/adapter.c below the deepest frame that it notes, with room for four of these.
LARGEST_FRAME = 4096
SHOWN = 8


def is_cleared(target: builds.Target, folder: str) -> str:
    """Sees that no call leaves anything secret on the stack, and all of it 0 below its own frame. Returns how many calls were made."""
    compiler = [target.compiler, *target.words, f"-I{builds.DIST}"]
    library = builds.compiled(target.compiler, *target.words)
    last = PLAIN_LAST if "-O0" in target.words else calls.ADDRESS
    told, count, deepest = calls.all_leftovers(compiler, library, LENGTHS, FRAME, last=last)
    if told:
        raise Failed(f"{target.name}: something is left on the stack\n  " + "\n  ".join(told[:SHOWN]))
    return f"{target.name}: after each of {count} calls, nothing secret is left on the stack; below {deepest} bytes, all of it is 0"


def has_room(target: builds.Target, folder: str) -> str:
    """Makes the largest calls on a stack of the size that the header names, and compares their answers. Returns how much of it they touch."""
    words = [target.compiler, "-O1", "-DTHREADED", "-pthread", f"-I{builds.DIST}"]
    program = driver.built(f"{folder}/driver", words, builds.compiled(target.compiler, *target.words))
    return f"{target.name}: they touch {largest.touched(program)} bytes of the stack"


def has_small_frames(target: builds.Target, folder: str) -> str:
    """Sees that no frame of a build is so large that a call could clear too little."""
    usage = pathlib.Path(builds.compiled(target.compiler, *target.words)).with_suffix(".su").read_text()
    largest = max(int(line.split("\t")[1]) for line in usage.splitlines())
    if largest > LARGEST_FRAME:
        raise Failed(f"{target.name}: a frame has {largest} bytes")
    return f"{target.name}: the largest frame has {largest} bytes"
