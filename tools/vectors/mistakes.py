"""Wrong readings of the standard, each of which is the plain one (tools/plain.py) with a few words of its text changed.

`READING` and `SETS` have what a reader of mnemonics can get wrong, and `WRITING` what a writer can.
"""
import functools
import hashlib
import types
from dataclasses import dataclass
from typing import Tuple

import plain
import planted
from wrong_reading import READING
from wrong_sets import SETS
from wrong_writing import WRITING

# No case has an exponent above this where it is decrypted, so a mistaken copy that asks for more iterations is stopped.
MOST_ITERATIONS = 20000


@dataclass(frozen=True)
class Mistake:
    """A mistake: whether a reader or a writer makes it, its name, what that one does, and which texts of the plain reading become
    which others.
    """

    of: str
    name: str
    does: str
    changes: Tuple[Tuple[str, str], ...]


MISTAKES = [Mistake(of, name, does, tuple(changes)) for of, rows in [("reader", READING + SETS), ("writer", WRITING)] for name, does, *changes in rows]


@functools.lru_cache(None)
def derived(name, password, salt, iterations, count):
    if iterations > MOST_ITERATIONS:
        raise ValueError("too many iterations")
    return hashlib.pbkdf2_hmac(name, password, salt, iterations, count)


# Most key derivations of the plain reading and of its copies are the same, so they are kept.
KEPT = types.SimpleNamespace(sha256=hashlib.sha256, pbkdf2_hmac=derived)
plain.hashlib = KEPT


@functools.lru_cache(None)
def mistaken(mistake):
    """Returns a copy of the plain reading with a mistake in it."""
    text = (plain.ROOT / "tools" / "plain.py").read_text()
    for old, new in mistake.changes:
        text = planted.changed(text, old, new, f"for {mistake.name}, tools/plain.py")
    reader = types.ModuleType(f"plain with {mistake.name}")
    reader.__file__ = plain.__file__
    exec(compile(text, f"<{reader.__name__}>", "exec"), reader.__dict__)
    reader.hashlib = KEPT
    return reader
