"""Cases about encrypted secrets: what mnemonics combine to, what a passphrase makes of it, at once or round by round, and new mnemonics of it."""
import plain

from backups import PASSPHRASE, backup, drawn, flipped, mnemonics, sizes
from case import Case

SHARING = "Shamir's secret sharing"
ENCRYPTION = "Encryption of the master secret"
PASSPHRASES = "Passphrase"
COMBINED = "an encrypted secret that was decrypted, or parameters that belong to another backup"


def combining(id, shares, about, finds=COMBINED, standard=SHARING):
    return Case(id, "encrypted", about, finds, standard, {"mnemonics": mnemonics(shares)})


def encrypted_secrets():
    """Backups of several plans and parameters, whose mnemonics are combined without a passphrase."""
    for name, plan, options in [
        ("1of1", "1of1", {"id": 0}), ("3of5", "3of5", {"extendable": True, "id": 32767}), ("groups", "2/2of3,1of1,1of1", {"length": 18}),
        ("128-bytes", "2of3", {"length": 128, "extendable": True}),
    ]:
        shares = list(backup(f"encrypted-{name}", plan, **options).values())
        yield combining(f"encrypted-{name}", shares, f"All mnemonics of {plan} are there.")
    for flag in (0, 1):
        shares = [share | {"exponent": 15} for share in backup(f"encrypted-exponent-{flag}", "2of2", extendable=bool(flag)).values()]
        yield combining(f"encrypted-exponent-{flag}", shares, f"The flag is {flag}, and the exponent is 15.", "iterations, which no combination takes")
    shares = list(backup("encrypted-quorum", "2of4").values())
    wrong = {"value": flipped(shares[3]["value"], 64)}
    about = "The fourth member is wrong, and isn't in the first quorum."
    yield combining("encrypted-first-quorum", [*shares[:3], shares[3] | wrong], about, "another quorum than the first", None)
    yield combining("encrypted-mismatch", [shares[0], shares[1] | {"value": wrong["value"]}], "A value is wrong.", "a digest that isn't compared")


def decrypting(id, about, finds, *, number=7945, extendable=False, exponent=0, length=16, passphrase=PASSPHRASE, standard=ENCRYPTION):
    """Returns a case of an encrypted secret. Those of the same length are the same."""
    given = {"identifier": number, "extendable": extendable, "exponent": exponent, "value": drawn(f"decrypted: {length}", length).hex()}
    return Case(id, "decrypt", about, finds, standard, given | {"passphrase": passphrase})


def decryptions():
    """Encrypted secrets that were kept, and are decrypted with a passphrase."""
    for number in (0, 32767):
        for flag in (False, True):
            how = "is in the salt, without the flag" if not flag else "isn't in the salt, with the flag"
            about = f"The identifier {number} {how}."
            yield decrypting(f"decrypted-{number}-{int(flag)}", about, "a salt that is another one", number=number, extendable=flag)
    for exponent in (1, 3):
        yield decrypting(f"decrypted-exponent-{exponent}", f"The exponent is {exponent}.", "a wrong number of iterations", exponent=exponent)
    for length in (66, 128):
        yield decrypting(f"decrypted-{length}-bytes", f"The encrypted secret has {length} bytes.", "a second block of PBKDF2", length=length)
    yield decrypting("decrypted-no-passphrase", "The passphrase is empty.", "a passphrase that can't be empty", passphrase="")
    about = "The passphrase isn't printable ASCII."
    yield decrypting("decrypted-accent", about, "a passphrase that isn't checked", passphrase="Z\u00fcrich", standard=PASSPHRASES)


def undoing(id, about, finds, number, value, *, identifier=7945, extendable=False, passphrase=PASSPHRASE, standard=ENCRYPTION):
    """Returns a case of one round of a decryption."""
    given = {"identifier": identifier, "extendable": extendable, "exponent": 0, "value": value.hex(), "passphrase": passphrase, "round": number}
    return Case(id, "decrypt_round", about, finds, standard, given)


def undone():
    """Encrypted secrets of which one round is undone, and rounds that are refused."""
    for flag in (0, 1):
        value = drawn(f"undone: {flag}", 16)
        for number in (3, 2, 1, 0):
            about = f"The flag is {flag}, and round {number} is undone" + (f" of what round {number + 1} leaves." if number < 3 else ".")
            finds = "halves that change places" if number == 0 else "halves that stay in their places"
            yield undoing(f"undone-{number}-flag-{flag}", about, finds, number, value, extendable=bool(flag))
            value = plain.decrypt_round(value, number, PASSPHRASE.encode(), {"id": 7945, "extendable": flag, "exponent": 0})
    yield undoing("undone-32-bytes", "The value has 32 bytes.", "halves of another length", 2, drawn("undone: 32", 32))
    value = drawn("undone: refused", 16)
    yield undoing("undone-refused-round", "The round is 4, and the last of four rounds is 3.", "a round that isn't checked", 4, value)
    about = "The identifier is 32768, which has 16 bits."
    yield undoing("undone-refused-identifier", about, "an identifier that isn't checked", 3, value, identifier=32768)
    about, finds = "The passphrase isn't printable ASCII.", "a passphrase that isn't checked"
    yield undoing("undone-refused-accent", about, finds, 3, value, passphrase="Z\u00fcrich", standard=PASSPHRASES)
    yield undoing("undone-refused-17-bytes", "The value has 17 bytes.", "a length that isn't checked", 3, drawn("undone: 17", 17))


def splitting(id, about, finds, plan, *, number=7945, extendable=True, exponent=0, length=16, standard=SHARING, random=None):
    """Returns a case of a backup of an encrypted secret. Its random bytes are drawn from its name, as many as are needed, unless they are given."""
    random = drawn(f"{id}: random", plain.random_needed(sizes(plan), length)) if random is None else random
    given = {"plan": plan, "identifier": number, "extendable": extendable, "exponent": exponent, "value": drawn(f"split: {length}", length).hex()}
    return Case(id, "create_from_encrypted", about, finds, standard, given | {"random": random.hex()})


def splits():
    """Encrypted secrets that were kept, and are split by a plan."""
    for name, plan, length in [("1of1", "1of1", 16), ("2of3", "2of3", 32), ("groups", "2/2of3,1of1,1of1", 18)]:
        about = f"The plan is {plan}, and the encrypted secret has {length} bytes."
        yield splitting(f"split-{name}", about, "an encrypted secret that is encrypted again, or has other fields", plan, length=length)
    for exponent in (3, 15):
        yield splitting(f"split-exponent-{exponent}", f"The exponent is {exponent}.", "an exponent that is lost", "2of2", exponent=exponent)
    about = "The first random bit isn't in the identifier. The others give one that differs from the old one in its last bit."
    given = bytes.fromhex("9235") + drawn("split-identifier: random", 12)
    yield splitting("split-identifier", about, "an identifier of 16 bits, or that of the old backup", "2of3", number=0x1234, random=given)


def refused_splits():
    """Encrypted secrets that can't be split, and random bytes with which they aren't."""
    about = "The backup isn't extendable, so with another identifier each passphrase would give another secret."
    yield splitting("refused-splits-not-extendable", about, "a flag that isn't looked at", "2of3", extendable=False, standard=ENCRYPTION)
    about, given = "The first two random bytes give the old identifier.", bytes.fromhex("9234") + drawn("refused-splits: random", 12)
    finds = "mnemonics of two backups that have one identifier"
    yield splitting("refused-splits-identifier", about, finds, "2of3", number=0x1234, standard=None, random=given)
    for count in (13, 15):
        about, given = f"{count} random bytes are given, and 14 are needed.", drawn("refused-splits: few", count)
        yield splitting(f"refused-splits-{count}-random-bytes", about, "other random bytes than the caller thinks", "2of3", standard=None, random=given)


def sealed():
    """Yields the id of each backup whose mnemonics combine, a quorum of it, and its encrypted secret."""
    for case in encrypted_secrets():
        backup = plain.set_of("\n".join(case.given["mnemonics"]).encode())
        first = plain.quorums(backup)[0]
        if case.id != "encrypted-mismatch":
            yield case.id, [[backup[name] for name in first]], plain.combined(backup, first)


KINDS = {"encrypted secrets": encrypted_secrets, "decryptions": decryptions, "rounds": undone}
KINDS |= {"split secrets": splits, "refused split secrets": refused_splits}
