"""Looks for what crates/keys_shown leaves in memory at its end, of a master secret and of the keys on a path.

The crates of keys clear nothing. They take no memory but the stack below their caller, and the program clears this, as a caller has to.
"""
import importlib
import pathlib
import random
from typing import Any, Iterator, List, Tuple

import backups
import exits

plain_keys: Any = importlib.import_module("plain_keys")

HARDENED = 2**31
PATHS = [[], [HARDENED, 1], [HARDENED + 84, HARDENED, HARDENED, 0, 5], [HARDENED + 44, HARDENED + 60, HARDENED, 1, HARDENED - 1]]
LENGTHS = [16, 32, 37, 64]
# HMAC-SHA512 takes a key with each byte xored with one of these.
PADS = [0x36, 0x5C]
# Below the words of the command, this many bytes of the stack may be other than 0: the frames of `main` and of those that call it.
FRAMES = 1024


def private_texts(key: Any) -> Iterator[Tuple[str, bytes]]:
    """Yields an extended private key as bytes, as text, and as the digits of this, which a sum gives from its letters."""
    data = plain_keys.serialized(key, plain_keys.XPRV, plain_keys.private_bytes(key))
    text = plain_keys.base58check(data)
    # What comes before the key is known.
    yield "an extended private key", data[13:]
    yield "the text of an extended private key", text[20:].encode()
    yield "the digits of an extended private key", bytes(map(plain_keys.LETTERS_58.index, text[20:]))


def values(secret: bytes, path: List[int]) -> Iterator[Tuple[str, bytes]]:
    """Yields what is secret of a master secret and of the keys on a path, each with its name."""
    yield "the master secret", secret
    parent = 0
    for key in plain_keys.keys_on(secret, path):
        yield "a private key", key["key"].to_bytes(32, "big")
        yield "what is added to a private key", ((key["key"] - parent) % plain_keys.ORDER).to_bytes(32, "big")
        yield "a chain code", key["chain"]
        for pad in PADS:
            yield "a chain code with a pad", bytes(byte ^ pad for byte in key["chain"])
        yield from private_texts(key)
        parent = key["key"]


def forms(value: bytes) -> Iterator[bytes]:
    """Yields a value as its bytes, as a number whose lowest byte comes first, and as the words of 64 and 32 bits into which SHA-2 takes it,
    at each alignment."""
    yield value
    yield value[::-1]
    for size in (8, 4):
        for begin in range(size):
            whole = value[begin : len(value) - (len(value) - begin) % size]
            yield b"".join(whole[at : at + size][::-1] for at in range(0, len(whole), size))


def needles_of(secret: bytes, path: List[int]) -> Iterator[Tuple[bytes, str]]:
    """Yields what a search looks for, with its name."""
    for name, value in values(secret, path):
        for form in forms(value):
            for window in backups.windows(form):
                yield window, name


def left(program: pathlib.Path, what: str, secret: bytes, path: List[int], needles: backups.Needles) -> Tuple[List[str], int]:
    """Runs the program. Returns what is left, and how many bytes below the words of the command the lowest is that isn't 0."""
    words = [str(program.resolve()), what, str(len(secret)), *map(str, path)]
    run = " ".join(["keys_shown", *words[1:]])
    end = exits.ended(words, secret, "/")
    if end.status or len(end.output) < 78:
        return [f"{run} ends with the status {end.status}: {end.errors!r}"], 0
    told = {f"{run} leaves {name} in {area.name}" for area in end.areas for _, name in needles.within(area.memory)}
    lowest = max(end.lowest(area) for area in end.areas)
    if lowest > FRAMES:
        told.add(f"{run} leaves bytes other than 0 on the stack, {lowest} bytes below the words of the command")
    return sorted(told), lowest


def all_leftovers(program: pathlib.Path) -> Tuple[List[str], int, int]:
    """Makes all runs. Returns what they leave, how many they are, and the lowest byte of the stack that one leaves other than 0."""
    told: List[str] = []
    count = deepest = 0
    for length in LENGTHS:
        secret = random.Random(length).randbytes(length)
        for path in PATHS:
            needles = backups.Needles(needles_of(secret, path))
            for what in ("private", "public"):
                found, lowest = left(program, what, secret, path, needles)
                told += found
                count, deepest = count + 1, max(deepest, lowest)
    return told, count, deepest
