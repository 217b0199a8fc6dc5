"""Cases about backups whose encrypted secret is split anew, by another plan, without the secret and without a passphrase."""
import plain

from backups import backup, drawn, flipped, mnemonics, sizes
from case import Case

SHARING = "Shamir's secret sharing"
SAME = "a new backup that gives another secret than the old one, or has other fields"


def resplit(id, shares, about, finds, plan, *, standard=SHARING, random=None):
    """Returns a case of a split anew. Its random bytes are drawn from its name, as many as are needed, unless they are given."""
    random = drawn(f"{id}: new random", plain.random_needed(sizes(plan), len(shares[0]["value"]))) if random is None else random
    return Case(id, "resplit", about, finds, standard, {"plan": plan, "mnemonics": mnemonics(shares), "random": random.hex()})


def resplits():
    """Extendable backups of many plans and lengths, split anew."""
    for old, new in [
        ("2of3", "3of5"), ("2of3", "2of3"), ("1of1", "2of3"), ("3of5", "1of1"), ("2of2", "2/2of3,1of1,1of1"), ("2/2of3,1of1,1of1", "2of3"),
        ("2/2of2,2of2", "3/1of1,2of3,3of5,1of1"), ("2of16", "16of16"),
    ]:
        name = "-to-".join(plan.replace("/", "-of-groups-").replace(",", "-") for plan in (old, new))
        shares = list(backup(f"resplits-{name}", old, extendable=True).values())
        yield resplit(f"resplits-{name}", shares, f"All mnemonics of {old} are there, and the new plan is {new}.", SAME, new)
    for length in (18, 32, 66, 128):
        shares = list(backup(f"resplits-{length}-bytes", "2of3", length=length, extendable=True).values())
        yield resplit(f"resplits-{length}-bytes", shares[1:], f"The secret has {length} bytes, and a quorum is there.", SAME, "3of4")
    for exponent in (1, 3, 15):
        shares = [share | {"exponent": exponent} for share in backup(f"resplits-exponent-{exponent}", "2of3", extendable=True).values()]
        finds = "an exponent that is lost, or iterations, which no split takes"
        yield resplit(f"resplits-exponent-{exponent}", shares[:2], f"The exponent is {exponent}.", finds, "2of2")
    shares = list(backup("resplits-quorum", "2of4", extendable=True).values())
    shares[3] = shares[3] | {"value": flipped(shares[3]["value"], 64)}
    about = "The fourth member is wrong, and isn't in the first quorum."
    yield resplit("resplits-first-quorum", shares, about, "another quorum than the first", "2of3", standard=None)
    shares = list(backup("resplits-identifier", "2of3", extendable=True, id=0x1234).values())
    given = bytes.fromhex("9235") + drawn("resplits-identifier: random", 12)
    about = "The first random bit isn't in the identifier. The others give one that differs from the old one in its last bit."
    yield resplit("resplits-identifier", shares, about, "an identifier of 16 bits, or that of the old backup", "2of3", random=given)


def refused_resplits():
    """Backups that can't be split anew, and random bytes with which they aren't."""
    shares = list(backup("refused-resplits-fixed", "2of3").values())
    about = "The backup isn't extendable, so with another identifier each passphrase would give another secret."
    yield resplit("refused-resplits-not-extendable", shares, about, "a flag that isn't looked at", "2of3", standard="Encryption of the master secret")
    shares = list(backup("refused-resplits", "2of3", extendable=True, id=0x1234).values())
    for first in ("1234", "9234"):
        about = f"The first two random bytes are {first}. Without their highest bit they are the identifier of the old backup."
        given = bytes.fromhex(first) + drawn("refused-resplits: random", 12)
        finds = "mnemonics of two backups that have one identifier"
        yield resplit(f"refused-resplits-identifier-{first}", shares, about, finds, "2of3", standard=None, random=given)
    for count in (0, 13, 15):
        about, given = f"{count} random bytes are given, and 14 are needed.", drawn("refused-resplits: few", count)
        yield resplit(f"refused-resplits-{count}-random-bytes", shares, about, "other random bytes than the caller thinks", "2of3", standard=None, random=given)


def sealed():
    """Yields the id of each backup that is split anew, a quorum of it and one of the new backup, and the encrypted secret of both."""
    for case in resplits():
        old = plain.set_of("\n".join(case.given["mnemonics"]).encode())
        shares = plain.resplit(plain.parse_plan(case.given["plan"]), "\n".join(case.given["mnemonics"]).encode(), bytes.fromhex(case.given["random"]))
        new = {(share["group"], share["member"]): share for share in shares}
        quorums = [[backup[name] for name in plain.quorums(backup)[0]] for backup in (old, new)]
        yield case.id, quorums, plain.combined(old, plain.quorums(old)[0])


KINDS = {"resplits": resplits, "refused resplits": refused_resplits}
