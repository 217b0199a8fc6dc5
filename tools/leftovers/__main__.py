"""Checks that each call of the library leaves nothing secret on the stack below its caller, and that the program leaves nothing
secret in its memory.

    python3 tools/leftovers [--archive PATH] [--program PATH] [--keys PATH]
    python3 tools/leftovers --plain-c PATH      checks only the program as plain C (program.c of dist/c), compiled for x86-64

Of the library, it makes calls by tools/check_portable/driver.c, which gives what then lies below the frame of the caller. There, the
tool searches for the secret, the encrypted secret, the passphrase, the random bytes and the values of shares: their bytes and digits,
and any eight of these in a row. It also searches for any three words of a mnemonic in a row, and for any four as numbers of 16 bits. And it
checks that what the call touched is 0. Only the highest FRAMES bytes may be others, where the frames of the call and of the clearing
are, and the lowest eight, where the clearing puts the address to which its last step returns.

It also adds up the frames of the functions that a call reaches, as objdump shows them. A call must clear as much, whatever it is
given. The tool needs a C compiler for x86-64 and objdump. It says what it doesn't check without them.

Of the program, it runs each command: with good ends, with each kind of refusal, with devices that fail, with values in files and in
lines of the input, at a terminal, if memory runs out, and if a read of a file fails after bytes of it came. It stops the program when it
is about to end, and searches all memory that it can write for the same as above. It also checks that on the stack all is 0 below the frames of `main`. With too small a stack, a
signal must end the native program before it has read anything secret or written anything, and the program as plain C must need no more
than each program is given. Blocks that this program frees are searched too, and mustn't have its constants, as it clears them whole. For all
this, the tool needs the right to trace a program, and for a lack of memory a C compiler, as tools/faults.c refuses the allocations.

In the same way, it looks at the end of crates/keys_shown for master secrets, private keys and chain codes. This program derives keys and
clears its stack, as a caller of the crates of keys has to.

It exits with status 1 if something is found, if a call or a run answers something else than it must, or if a call can reach further
than it clears.
"""
import argparse
import os
import pathlib
import platform
import sys
import tempfile
from typing import List

ROOT = pathlib.Path(__file__).resolve().parents[2]
sys.path[:0] = [str(ROOT / "tools" / "leftovers"), str(ROOT / "tools")]
sys.dont_write_bytecode = True

import calls  # noqa: E402
import cases  # noqa: E402
import ends  # noqa: E402
import exits  # noqa: E402
import frames  # noqa: E402
import keys  # noqa: E402
from left_out import is_here, left_out  # noqa: E402
from tool import faults_library  # noqa: E402

COMPILER = os.environ.get("CC", "cc").split()
INCLUDED = ["-O1", f"-I{ROOT}/include"]
FRAMES = 384
SHOWN = 20


def of_calls(archive: pathlib.Path) -> List[str]:
    """Checks the calls of the library. Returns what is wrong."""
    if not is_here(COMPILER[0], "nothing looks for what the calls of the library leave on the stack"):
        return []
    told, count, deepest = calls.all_leftovers([*COMPILER, *INCLUDED], str(archive), cases.LENGTHS, FRAMES)
    if is_here("objdump", "nothing says how far down a call can reach"):
        told += frames.too_deep(frames.sizes_of(str(archive), cases.CALLS))
    if not told:
        print(f"after each of {count} calls of the library, nothing secret is left on its stack; below {deepest} bytes, all of it is 0")
    return told


def of_runs(program: pathlib.Path, is_plain_c: bool) -> List[str]:
    """Checks the runs of the native program, or of the one as plain C. Returns what is wrong."""
    if not exits.can_trace():
        left_out("programs can't be traced here, so nothing looks for what the program leaves in its memory")
        return []
    with tempfile.TemporaryDirectory() as folder:
        shim = faults_library(folder, COMPILER) if is_here(COMPILER[0], "the program isn't run without memory") else ""
        told, count, deepest = ends.all_leftovers(program, shim, is_plain_c)
    if not told:
        name = "the program as plain C" if is_plain_c else "the program"
        print(f"at the end of each of {count} runs of {name}, nothing secret is in its memory; below {deepest} bytes, all of its stack is 0")
    return told


def of_keys(program: pathlib.Path) -> List[str]:
    """Checks the runs of the program that derives keys. Returns what is wrong."""
    if not exits.can_trace():
        return []
    told, count, deepest = keys.all_leftovers(program)
    if not told:
        print(f"at the end of each of {count} runs that derive keys, no secret and no private key is in memory; below {deepest} bytes, all of the stack is 0")
    return told


def main() -> None:
    words = argparse.ArgumentParser()
    words.add_argument("--archive", type=pathlib.Path, default=ROOT / "libshamir.a")
    words.add_argument("--program", type=pathlib.Path, default=ROOT / "shamir")
    words.add_argument("--plain-c", type=pathlib.Path)
    words.add_argument("--keys", type=pathlib.Path, default=ROOT / "crates" / "keys_shown" / "out" / "keys")
    given = words.parse_args()
    if platform.machine() != "x86_64":
        left_out("this isn't x86-64, so nothing looks for what the library and the program leave in memory")
        return
    told = of_runs(given.plain_c, True) if given.plain_c else of_calls(given.archive) + of_runs(given.program, False) + of_keys(given.keys)
    if told:
        more = [f"and {len(told) - SHOWN} more"] if len(told) > SHOWN else []
        sys.exit("tools/leftovers: something is left in memory\n  " + "\n  ".join(told[:SHOWN] + more))


if __name__ == "__main__":
    main()
