"""Generated calls of the library, as lines that driver.c reads. What is right for them comes from the native library."""
import random
from typing import Callable, Dict, List

import driver
import shamir_h
from generated_cases import compare, judge_case


ENOUGH = {**shamir_h.ENOUGH, "drill": 65536}
CODES = [*range(0, 35), 41, 42, 43, 44, 51, 52, *range(61, 69), 71, 72, 99, 2**32 - 1]
FORMS = [0, 0, 1, 2, 2, 3]
Kind = Callable[[random.Random], str]


def call(rng: random.Random, name: str, *arguments: "bytes | str | int") -> str:
    """Returns the line of a call, with NULL for what is empty. Now and then the room for its output is short, or longer than it needs."""
    room = ENOUGH.get(name, 0)
    if rng.random() < 0.15:
        room = rng.choice([0, 1, rng.randrange(room + 1), rng.randrange(min(room, 200) + 1), room + rng.randrange(1000)])
    return driver.line(name, [it if isinstance(it, int) else it or None for it in arguments], room)


def of_lines(name: str) -> Kind:
    """Returns what makes calls that take the lines of a backup, and nothing else."""
    return lambda rng: call(rng, name, compare.made_backup(rng)[0])


def parse_call(rng: random.Random) -> str:
    return call(rng, "parse", compare.first_line(compare.made_backup(rng)[0]))


def random_needed_call(rng: random.Random) -> str:
    return call(rng, "random_needed", compare.made_plan(rng), rng.choice([len(compare.made_secret(rng)), rng.randrange(140)]))


def create_call(rng: random.Random) -> str:
    plan, secret, passphrase = compare.made_plan(rng), compare.made_secret(rng), compare.made_passphrase(rng)
    count = max(0, compare.random_needed(plan, secret) + rng.choice([0] * 12 + [-1, 1, 30]))
    return call(rng, "create", plan, secret, passphrase, rng.choice([0] * 12 + [1, 16]), rng.randrange(3), rng.randbytes(count))


def recover_call(rng: random.Random) -> str:
    data, passphrase = compare.made_backup(rng)
    expected = compare.fingerprint_of(rng, data, passphrase) if rng.random() < 0.4 else ""
    return call(rng, "recover", data, passphrase, rng.choice([15, 15, 15, 0, 2**32 - 1]), expected)


def drill_call(rng: random.Random) -> str:
    data, passphrase = compare.made_backup(rng)
    after = compare.cursor_of(rng, data) if rng.random() < 0.4 else ""
    form = rng.choice(FORMS)
    expected = compare.fingerprint_of(rng, data, passphrase) if form == 2 or rng.random() < 0.1 else ""
    limit = rng.choice([1, 2, 3, 7, 50, 1000, 1000, 2**32 - 1] * 4 + [0])
    return call(rng, "drill", data, passphrase, rng.choice([15, 15, 15, 0]), after, limit, form, expected)


def parameters(rng: random.Random) -> List[int]:
    return [rng.choice([rng.randrange(2**15)] * 9 + [2**15, 2**16 - 1]), rng.choice([0, 1] * 9 + [2, 255]), rng.choice([0] * 12 + [1, 16, 255])]


def decrypt_call(rng: random.Random) -> str:
    value, passphrase = compare.made_secret(rng), compare.made_passphrase(rng)
    expected = rng.choice(["", "", "00000000", "x"])
    return call(rng, "decrypt", *parameters(rng), value, passphrase, expected)


def decrypt_round_call(rng: random.Random) -> str:
    value, passphrase = compare.made_secret(rng), compare.made_passphrase(rng)
    return call(rng, "decrypt_round", *parameters(rng), rng.choice([0, 1, 2, 3] * 4 + [4, 255]), value, passphrase)


def create_from_encrypted_call(rng: random.Random) -> str:
    plan, value, (identifier, extendable, exponent) = compare.made_plan(rng), compare.made_secret(rng), parameters(rng)
    count = max(0, compare.random_needed(plan, value) + rng.choice([0] * 12 + [-1, 1, 30]))
    drawn = rng.choice([b"", b"", b"", identifier.to_bytes(2, "big")]) + rng.randbytes(count)
    return call(rng, "create_from_encrypted", plan, identifier, extendable, exponent, value, drawn[:count])


def judge_call(rng: random.Random) -> str:
    case = judge_case(rng)
    return call(rng, "judge", case.data, bytes.fromhex(case.words[1]))


def reissue_call(rng: random.Random) -> str:
    data, _ = compare.made_backup(rng)
    plan = compare.plan_of(rng, data)
    return call(rng, "reissue", plan, compare.names_of(rng, plan), data)


def resplit_call(rng: random.Random) -> str:
    data, _ = compare.made_backup(rng)
    plan = compare.made_plan(rng)
    return call(rng, "resplit", plan, data, compare.random_for(rng, plan, data))


def repair_call(rng: random.Random) -> str:
    return call(rng, "repair", compare.first_line(compare.repair_case(rng).data))


def fingerprint_call(rng: random.Random) -> str:
    return call(rng, "fingerprint", rng.choice([compare.made_secret(rng), rng.randbytes(rng.randrange(140))]))


def words_call(rng: random.Random) -> str:
    letters = rng.choice(compare.plain.WORDS)[: rng.randrange(9)]
    return call(rng, "words", rng.choice([letters, letters, letters.upper(), letters + rng.choice("aeiou\n\x00é")]))


def text_call(rng: random.Random) -> str:
    # Only the library as plain C has a text for 4.
    code = rng.choice([it for it in CODES if it != 4])
    numbers = [rng.choice([0, 1, 2, 15, 16, 17, 255, 256, 65535, rng.randrange(2**32)]) for _ in range(4)]
    return call(rng, "text", code, rng.randrange(9), *numbers)


def version_call(rng: random.Random) -> str:
    return call(rng, "version")


def wipe_call(rng: random.Random) -> str:
    given = rng.randbytes(rng.randrange(300))
    return driver.line("wipe", [given or None], len(given))


# How often each call is made. Those that decrypt take longest under an emulator.
KINDS: Dict[Kind, int] = {
    parse_call: 18, random_needed_call: 8, create_call: 5, recover_call: 6, drill_call: 5, of_lines("status"): 12, reissue_call: 12,
    repair_call: 14, fingerprint_call: 6, words_call: 6, text_call: 6, version_call: 1, wipe_call: 1,
    judge_call: 10, of_lines("quorums"): 6, resplit_call: 8, of_lines("encrypted"): 8, decrypt_call: 4, create_from_encrypted_call: 8,
    decrypt_round_call: 4,
}  # fmt: skip


def made(count: int, seed: int) -> List[str]:
    """Returns this many calls, the same for the same seed."""
    rng = random.Random(seed)
    kinds = rng.choices(list(KINDS), weights=list(KINDS.values()), k=count)
    return [kind(rng) for kind in kinds]
