"""Looks with memcheck for branches and addresses of the library as plain C that depend on secrets, as tools/timing does for the native library.

The names of its functions are numbers, and compilers put functions into each other. So what counts is how many functions have such an instruction."""
from typing import Dict, List, Set, Tuple

import builds
import driver
from builds import Failed
from tool import tool

timing = tool("timing")

TARGETS = [builds.Target("timing with gcc -O2", "gcc", ["-O2"])]
WRITTEN = ["the function that writes words, by how many letters each has", "the one that writes lines", "the one that copies the output, by its length"]
PRINTABLE = "the one that sees whether the passphrase is printable"
SAME_IDENTIFIER = "the one that sees whether the random bytes give the identifier of the old backup"
# For each call, and what is marked: the functions that may have such instructions.
ALLOWED: Dict[Tuple[str, str], List[str]] = {
    ("create", "secret"): WRITTEN,
    ("create", "passphrase"): [*WRITTEN, PRINTABLE],
    ("resplit", "secret"): [*WRITTEN, SAME_IDENTIFIER],
    ("create_from_encrypted", "secret"): [*WRITTEN, SAME_IDENTIFIER],
    ("recover", "passphrase"): [PRINTABLE],
    ("decrypt", "secret"): [],
    ("decrypt", "passphrase"): [PRINTABLE],
    ("decrypt_round", "secret"): [],
    ("decrypt_round", "passphrase"): [PRINTABLE],
    ("fingerprint", "secret"): [],
}
# The tool must see these two instructions of driver.c.
CONTROL = {"jump in control", "address in control"}


def places(program: str, call: str, marked: str) -> Set[str]:
    """Returns the places that depend on what is marked. Of the lengths of secrets, the least and the greatest are tried."""
    lines = list(timing.calls_of(call, marked))
    given = "".join(line + "\n" for line in dict.fromkeys([lines[0], lines[-1]]))
    found, written = timing.memcheck([program], input=given.encode())
    if any(not line.startswith(b"0 ") for line in written.splitlines()):
        raise Failed(f"{call} of marked {marked} is refused: {written[:300]!r}")
    return {place for place, _ in found}


def is_even(target: builds.Target, folder: str) -> str:
    """Sees that no function but those of ALLOWED has a branch or an address that depends on what is marked."""
    words = [target.compiler, "-O1", "-DMARKED", f"-I{builds.DIST}"]
    program = driver.built(f"{folder}/driver", words, builds.compiled(target.compiler, *target.words))
    if places(program, "control", "secret") != CONTROL:
        raise Failed(f"{target.name}: memcheck doesn't see what it must see")
    seen: Set[str] = set()
    for (call, marked), allowed in ALLOWED.items():
        found = {place.split()[-1] for place in places(program, call, marked)}
        if len(found) > len(allowed):
            raise Failed(f"{target.name}: {call} of marked {marked} depends on it in {sorted(found)}, and {len(allowed)} functions are allowed")
        seen |= found
    return f"{target.name}: no branch and no address depends on secret bytes, but in {len(seen)} functions, for the reasons in timing.py"
