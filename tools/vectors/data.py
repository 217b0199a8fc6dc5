"""What `vectors/` holds: all cases with what is right for them, the mistakes with the cases that catch them, and the cases that
the format of the standard's own vectors can say.
"""
import functools
import hashlib
import hmac
import itertools
import json
import re

import encrypted
import one_mnemonic
import plain
import recovery
import resplits
import sets
from backups import PASSPHRASE
from case import Case, answer, differs, wrong_answer
from mistakes import MISTAKES, Mistake, mistaken
from tool import workers

FOLDER = plain.ROOT / "vectors"
KINDS = one_mnemonic.KINDS | sets.KINDS | recovery.KINDS | resplits.KINDS | encrypted.KINDS
# So many of the cases that catch a mistake are listed. Those that the standard's rules decide come first.
MOST_LISTED = 5
# What a writer is asked.
WRITTEN = ("create", "resplit", "create_from_encrypted")
# BIP-32 makes keys of seeds of 16 to 64 bytes.
MOST_SEED_BYTES = 64
# No case is decrypted with a greater exponent, so that a reader is done in seconds.
MOST_EXPONENT = 3


@functools.lru_cache(None)
def cases():
    """Returns each case with its kind and what is right for it, by the plain reading of the standard."""
    found = [(kind, case, answer(plain, case)) for kind, made in KINDS.items() for case in made()]
    if len({case.id for _, case, _ in found}) != len(found):
        raise ValueError("two cases have the same id")
    return found


def entry(kind, case, right):
    says = {name: getattr(case, name) for name in ("asks", "about", "finds", "standard", "given")}
    return {"id": case.id, "kind": kind} | says | {"right": right}


@functools.lru_cache(None)
def published():
    """Returns the standard's own vectors as cases, with what is right for them. The plain reading has to give what they say."""
    text = (plain.ROOT / "crates" / "s39_tests_backups" / "src" / "published.rt").read_text()
    blocks = re.search(r'^const PUBLISHED: &str = "(.*?)";$', text, re.MULTILINE | re.DOTALL)[1].strip().split("\n\n")
    found = []
    for number, block in enumerate(blocks, 1):
        says, *mnemonics = block.split("\n")
        case = Case(f"published-{number}", "recover", "", "", None, {"mnemonics": mnemonics, "passphrase": PASSPHRASE})
        right = answer(plain, case)
        if not says.split("; ")[0].endswith(right.get("secret") or f"{right['refused']['code']} {right['refused']['text']}"):
            raise ValueError(f"vector {number} of the standard says {says!r}, and the plain reading {right}")
        found.append((case, right))
    return found


@functools.lru_cache(None)
def in_published_form():
    """Returns the cases that the standard's format can say, with what is right for them."""
    asked = filter(None, (asked_to_recover(case) for _, case, _ in cases()))
    return [(case, answer(plain, case)) for case in asked if is_said(case)]


def catching(reader, among):
    """Yields the ids of the cases that catch a reader."""
    return (case.id for case, right in among if differs(wrong_answer(reader, case), right))


def tried(mistake):
    """Returns a mistake with the first cases that catch it, and whether the standard's vectors and those in their form do.

    A writer isn't asked to recover, so vectors that only recover can't catch one.
    """
    reader = mistaken(mistake)
    asked = [(case, right) for _, case, right in cases() if mistake.of == "reader" or case.asks in WRITTEN]
    caught = list(itertools.islice(catching(reader, sorted(asked, key=lambda found: found[0].standard is None)), MOST_LISTED))
    others = {"caught_by_slip_0039": in_published_form(), "caught_by_published": published()}
    found = {name: mistake.of == "reader" and any(catching(reader, among)) for name, among in others.items()}
    return {"of": mistake.of, "name": mistake.name, "does": mistake.does, "caught_by": caught} | found


def mistakes():
    """Returns each mistake with the cases that catch it."""
    # The processes below inherit the key derivations that are kept by now.
    if any(tried(Mistake("reader", "none", "is right", ())).get(name) for name in ("caught_by", "caught_by_slip_0039", "caught_by_published")):
        raise ValueError("a case catches an unchanged copy of the plain reading")
    with workers() as pool:
        return list(pool.map(tried, MISTAKES))


def is_idle(place):
    """Whether a case catches none of the mistakes."""
    _, case, right = cases()[place]
    asked = (mistake for mistake in MISTAKES if mistake.of == "reader" or case.asks in WRITTEN)
    return not any(differs(wrong_answer(mistaken(mistake), case), right) for mistake in asked)


def idle(found):
    """Returns the ids of the cases that catch none of the mistakes."""
    listed = {id for mistake in found for id in mistake["caught_by"]}
    places = [place for place, (_, case, _) in enumerate(cases()) if case.id not in listed]
    with workers() as pool:
        return [cases()[place][1].id for place, catches_none in zip(places, pool.map(is_idle, places, chunksize=8)) if catches_none]


def master_key(secret):
    """Returns the master key of BIP-32 with this seed, as text (xprv)."""
    digest = hmac.digest(b"Bitcoin seed", secret, "sha512")
    data = bytes.fromhex("0488ade4") + bytes(9) + digest[32:] + bytes(1) + digest[:32]
    data += hashlib.sha256(hashlib.sha256(data).digest()).digest()[:4]
    number, text = int.from_bytes(data, "big"), ""
    while number:
        number, digit = divmod(number, 58)
        text = "123456789ABCDEFGHJKLMNPQRSTUVWXYZabcdefghijkmnopqrstuvwxyz"[digit] + text
    return text


def asked_to_recover(case):
    """Returns a case as one that recovers with the passphrase of the standard's vectors, or None if it can't be one."""
    if case.standard is None or case.asks not in ("parse", "recover"):
        return None
    given = {"passphrase": PASSPHRASE, "mnemonics": [case.given["mnemonic"]]} if case.asks == "parse" else case.given
    return Case(case.id, "recover", case.about, case.finds, case.standard, given) if given["passphrase"] == PASSPHRASE else None


def published_form():
    """Returns these cases in that form: description, mnemonics, secret or an empty text, and master key or an empty text."""
    found = []
    for case, right in in_published_form():
        secret = right.get("secret", "")
        found.append([f"{case.id}: {case.about}", case.given["mnemonics"], secret, master_key(bytes.fromhex(secret)) if secret else ""])
    return found


def is_said(case):
    """Whether the format can say this: what is refused, or one quorum that is quick to decrypt, and gives the seed of a key."""
    mnemonics = case.given["mnemonics"]
    try:
        backup = plain.set_of("\n".join(mnemonics).encode())
        quorums = plain.quorums(backup)
    except plain.Refusal:
        return True
    first = next(iter(backup.values()))
    is_quick = first["exponent"] <= MOST_EXPONENT and len(first["value"]) <= MOST_SEED_BYTES
    return is_quick and quorums == [tuple(sorted(backup))] and len(backup) == len(mnemonics)


def as_text(value):
    return json.dumps(value, indent=1) + "\n"


def table(found):
    """Returns the page of mistakes."""
    lines = [
        "# Mistakes that the vectors find", "",
        "`tools/vectors` writes this page. Each row is a wrong reader or writer: a small change of the plain reading of the standard (`tools/plain.py`). "
        f"The third column names the first cases of [vectors.json](vectors.json) that catch it, at most {MOST_LISTED}. "
        "Cases that a rule of the standard decides come before others. "
        "The last two columns say whether [slip-0039.json](slip-0039.json) and the 45 vectors that the standard publishes catch it.", "",
        "| Mistake | The reader or writer | Caught by | slip-0039.json | published |", "|---|---|---|---|---|",
    ]
    for one in found:
        others = ["yes" if one[name] else "no" for name in ("caught_by_slip_0039", "caught_by_published")]
        lines.append(f"| {one['name']} | {one['does']} | {', '.join(one['caught_by'])} | {' | '.join(others)} |")
    return "\n".join(lines) + "\n"


def files():
    """Returns the text of each file that the tool writes, and the mistakes."""
    found = mistakes()
    document = {"cases": [entry(*case) for case in cases()], "mistakes": found}
    texts = {"vectors.json": as_text(document), "slip-0039.json": as_text(published_form()), "MISTAKES.md": table(found)}
    return texts, found
