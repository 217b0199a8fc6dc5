"""Generated cases of the library's calls, and what is right for them by a plain reading of the standard (tools/plain.py). Readers are programs
that make the calls in another language. They are compared on the same cases.

A reader gets a line for each case: a command and its values. A value is a point and hexadecimal digits, or - for none. It writes a line
for each: what the command writes to standard output, and its refusal without the name of the command, both in this form.
"""
import random
import subprocess
import sys
from dataclasses import dataclass
from typing import Any, Callable, List, Tuple

import plain
from tool import tool, workers

compare = tool("compare")

# A reader gets this many cases at a time.
BATCH = 50


def show_case(rng):
    """Returns a case of one line, as `parse` takes no others."""
    return compare.Case(["show"], compare.first_line(compare.made_backup(rng)[0]))


def repair_case(rng):
    """Returns a case of one line, as `repair` takes no others."""
    return compare.Case(["repair"], compare.first_line(compare.repair_case(rng).data))


def words_case(rng):
    """Returns the beginning of a word. Now and then it has a capital letter, or is none."""
    letters = rng.choice(plain.WORDS)[: rng.randint(0, 8)]
    if rng.random() < 0.3:
        letters = rng.choice([letters.upper(), letters.title(), letters + rng.choice("aeiouxyz -\x00é"), rng.choice("abcdefghijklmnopqrstuvwxyz")])
    found = [word for word in plain.WORDS if word.startswith(letters.lower())]
    return compare.Case(["words", letters], b"", ("".join(word + "\n" for word in found), "", 0))


def encrypted_case(rng):
    data, _ = compare.made_backup(rng)
    return compare.Case(["encrypted"], data, plain.run_encrypted(data))


def decrypt_case(rng):
    """Returns a case whose data are an encrypted secret. Most have a secret with a fingerprint that is expected."""
    params = {"id": rng.choice([rng.randrange(2**15)] * 9 + [0, 2**15 - 1, 2**15, 2**16 - 1]), "extendable": rng.randrange(2)}
    params["exponent"] = rng.choice([0] * 12 + [1, 2, 16, 255])
    value, passphrase = compare.made_secret(rng), compare.made_passphrase(rng)
    words = ["decrypt", f"--id={params['id']}", f"--exponent={params['exponent']}", *["--extendable"] * params["extendable"], *compare.options(passphrase)]
    expected = None
    if rng.random() < 0.6:
        secret = plain.run_decrypt(params, value, passphrase.encode())[0].strip() or bytes(16).hex()
        expected = compare.noted(rng, plain.told(bytes.fromhex(secret), True))
        words.append(f"--expect={expected}")
    return compare.Case(words, value, plain.run_decrypt(params, value, passphrase.encode(), expected))


def decrypt_round_case(rng):
    """Returns a case whose data are an encrypted secret, and whose word is a round."""
    params = {"id": rng.choice([rng.randrange(2**15)] * 9 + [2**15]), "extendable": rng.randrange(2), "exponent": rng.choice([0] * 9 + [1, 16])}
    value, passphrase, number = compare.made_secret(rng), compare.made_passphrase(rng), rng.choice([0, 1, 2, 3] * 4 + [4, 255])
    words = ["decrypt_round", str(number), f"--id={params['id']}", f"--exponent={params['exponent']}", *["--extendable"] * params["extendable"]]
    return compare.Case([*words, *compare.options(passphrase)], value, plain.run_decrypt_round(params, number, value, passphrase.encode()))


def create_from_encrypted_case(rng):
    """Returns a case whose data are an encrypted secret. Now and then the random bytes are of a wrong number, or give its identifier. No case has
    both a wrong number and a wrong plan, as a plan is made first in Rust."""
    params = {"id": rng.choice([rng.randrange(2**15)] * 9 + [2**15]), "extendable": int(rng.random() < 0.9), "exponent": rng.choice([0] * 9 + [15, 16])}
    is_right = params["id"] < 2**15 and params["exponent"] < 16
    plan, value = compare.made_plan(rng) if is_right else "2of3", compare.made_secret(rng)
    count = max(0, compare.random_needed(plan, value) + rng.choice([0] * 9 + [-1, 1]))
    drawn = (rng.choice([b"", b"", b"", params["id"].to_bytes(2, "big")]) + rng.randbytes(count))[:count]
    words = ["create_from_encrypted", plan, f"--id={params['id']}", f"--exponent={params['exponent']}", f"--random={drawn.hex()}"]
    words += ["--extendable"] * params["extendable"]
    return compare.Case(words, value, plain.run_create_from_encrypted(plan, params, value, drawn))


def judge_case(rng):
    """Returns a case whose data are lines of one backup or of two, and whose word is another line in hexadecimal digits. This is one of them,
    most often taken out of them, and now and then forged or not a mnemonic."""
    lines = compare.made_backup(rng)[0].split(b"\n")
    if rng.random() < 0.4:
        lines += compare.made_backup(rng)[0].split(b"\n")
        rng.shuffle(lines)
    line = rng.choice([line for line in lines if line] or [b""])
    if line and rng.random() < 0.7:
        lines.remove(line)
    if rng.random() < 0.25:
        line = forged_line(rng, line)
    if rng.random() < 0.05:
        line = rng.choice([line + b"\n\n", compare.spoiled(rng, line.decode("latin-1")).encode("latin-1"), b"", b"# a note"])
    data = b"\n".join(lines)
    return compare.Case(["judge", line.hex()], data, plain.run_judge(data, line))


def forged_line(rng, line):
    """Returns a mnemonic with another field or value, or the line itself if it isn't a mnemonic."""
    try:
        return plain.mnemonic(compare.forged(rng, plain.parse(line))).encode()
    except plain.Refusal:
        return line


# The commands have none of these calls.
LIBRARY_KINDS = {"words": words_case, "encrypted": encrypted_case, "decrypt": decrypt_case, "judge": judge_case}
LIBRARY_KINDS |= {"create_from_encrypted": create_from_encrypted_case, "decrypt_round": decrypt_round_case}
KINDS = {"show": show_case, "repair": repair_case, **LIBRARY_KINDS}
KINDS |= {
    name: getattr(compare, f"{name}_case")
    for name in ["create", "recover", "drill", "expecting_recover", "expecting_drill", "status", "reissue", "resplit"]
}


def made(seed, kinds):
    rng = random.Random(seed)
    return KINDS[rng.choice(kinds)](rng)


# All that these calls take is in the words of a case.
WITHOUT_DATA = ("words", "random_needed")


def request(case):
    """Returns a case as a line for a reader."""
    kind, words, options = plain.parts(case.words)
    passphrase, most = options.get("passphrase", ""), options.get("max-exponent", "15")
    flag = {name: "1" if options.get(name) else "" for name in plain.FLAGS}
    values = {
        "create": lambda: [*words, bytes.fromhex(options["master-secret"]), passphrase, options.get("exponent", "0"), flag["extendable"]],
        "recover": lambda: [passphrase, options.get("expect"), flag["fingerprint"], most],
        "drill": lambda: [passphrase, options.get("after"), options.get("expect"), options.get("limit", str(2**31)), flag["fingerprint"], most],
        "resplit": lambda: [*words, bytes.fromhex(options["random"])],
        "judge": lambda: [bytes.fromhex(*words)],
        "create_from_encrypted": lambda: [*words, options["id"], flag["extendable"], options["exponent"], bytes.fromhex(options["random"])],
        "decrypt": lambda: [options["id"], flag["extendable"], options["exponent"], passphrase, options.get("expect")],
        "decrypt_round": lambda: [*words, options["id"], flag["extendable"], options["exponent"], passphrase],
    }.get(kind, lambda: words)()
    given = [value.encode() if isinstance(value, str) else value for value in [*values, *([] if kind in WITHOUT_DATA else [case.data])]]
    return " ".join([kind, *("-" if value is None else "." + value.hex() for value in given)])


def expected(case):
    """Returns what the command writes, and its refusal without the name of the command. A line of its own has no number."""
    output, told, _ = case.expected
    told = told.removeprefix("shamir: ").removesuffix("\n")
    return output, told.removeprefix("line 1: ") if case.words[0] in ("show", "repair") else told


def every(case):
    return True


@dataclass(frozen=True)
class Reader:
    """The name of a reader, the words that run it, what is right for it, and which cases it takes."""

    name: str
    words: List[str]
    right: Callable[[Any], Tuple[str, str]] = expected
    takes: Callable[[Any], bool] = every


def differences(cases, readers):
    """Returns how many of the numbered cases the readers take, and how one of them differs, or nothing."""
    count = 0
    for reader in readers:
        taken = [(number, case) for number, case in cases if reader.takes(case)]
        lines = "".join(request(case) + "\n" for _, case in taken)
        done = subprocess.run(reader.words, input=lines, capture_output=True, text=True)
        answers = done.stdout.splitlines()
        if done.returncode or len(answers) != len(taken):
            told = f"{' '.join(reader.words)} ends with status {done.returncode} after {len(answers)} of {len(taken)} cases:\n{done.stderr}"
            return count, told
        for (number, case), answer in zip(taken, answers):
            found = tuple(bytes.fromhex(part[1:]).decode() for part in answer.split(" "))
            if found != reader.right(case):
                line = " ".join(map(repr, case.words))
                told = f"case {number} differs: {line}\ninput: {case.data!r}\n{reader.name}: {found!r}\nplain: {case.expected!r}"
                return count, told
        count += len(taken)
    return count, ""


def of_batch(batch):
    """Returns what `differences` does of the generated cases of a batch."""
    numbers, seed, kinds, readers = batch
    return differences([(number, made(f"{seed}/{number}", kinds)) for number in numbers], readers)


def compare_all(readers, count, seed, kinds=tuple(KINDS)):
    """Compares readers on so many cases, side by side. Returns how many they take. At the first difference, the tool prints it and exits."""
    batches = [(range(at, min(at + BATCH, count)), seed, kinds, readers) for at in range(0, count, BATCH)]
    tried = 0
    with workers() as pool:
        for more, told in pool.map(of_batch, batches):
            tried += more
            if told:
                sys.exit(told)
    return tried
