"""Cases about what sound mnemonics recover: interpolation, key derivation, and the quorums of a drill."""
import plain

from backups import backup, drawn, lone, sizes, PASSPHRASE
from case import Case
from sets import asking, recover

SHARING, ENCRYPTION, PASSPHRASES = "Shamir's secret sharing", "Encryption of the master secret", "Passphrase"


def last(name, plan, *groups, **options):
    """Returns the last members of groups, as many as their thresholds."""
    shares = backup(name, plan, **options)
    members = sizes(plan)[1]
    return [shares[(group, member)] for group in groups for member in range(members[group][1] - members[group][0], members[group][1])]


def interpolation():
    """The greatest indices, all indices, every order, and shares with bytes that are 0."""
    index = "an index that is cut short, counted from 1, or taken from the order of the mnemonics"
    for plan in ["2of2", "2of9", "2of16", "3of16", "5of16", "8of16", "9of16", "15of16", "16of16"]:
        name = f"interpolation-members-{plan}"
        yield recover(name, last(name, plan, 0), f"The last members of {plan} are there.", index, SHARING)
    groups = ",".join(["1of1"] * 16)
    for threshold in (2, 3, 9, 16):
        name, plan = f"interpolation-groups-{threshold}-of-16", f"{threshold}/{groups}"
        yield recover(name, last(name, plan, *range(16 - threshold, 16)), f"The last {threshold} of 16 groups are there.", index, SHARING)
    name, plan = "interpolation-both", "2/2of16,2of2,3of16"
    yield recover(name, last(name, plan, 0, 2), "Groups 0 and 2 are there, each with its last members.", index, SHARING)
    shares = list(backup("interpolation-order", "4of7").values())
    for how, chosen in [("descending", [6, 4, 3, 1]), ("mixed", [3, 6, 0, 5]), ("rotated", [5, 6, 0, 1])]:
        yield recover(f"interpolation-{how}", [shares[place] for place in chosen], f"Members {chosen} are there, in this order.", index, SHARING)
    for how, byte in [("0", 0), ("255", 255), ("1", 1)]:
        name = f"interpolation-bytes-{how}"
        shares = list(backup(name, "4of5", random=lambda needed: bytes(2) + bytes([byte]) * (needed - 2)).values())
        yield recover(name, shares[:4], f"All bytes of two shares are {byte}.", "a logarithm of 0, or another slip in the field", SHARING)
    lone_one = lone("interpolation-zero", value=bytes(16))
    yield recover("interpolation-zero-value", [lone_one], "One mnemonic is enough, and its value is zero.", "a value without its leading zeros", SHARING)


def group_indices():
    """Groups whose indices aren't below the group count."""
    finds = "a group index that is compared with the group count"
    yield recover("group-indices-5-of-1", [lone("group-indices-5-of-1", group=5)], "The group index is 5, and the group count is 1.", finds, None)
    shares = backup("group-indices", "2/1of1,1of1,1of1,1of1,1of1,1of1,1of1,1of1")
    given = [shares[(group, 0)] | {"group_count": 2} for group in (3, 7)]
    yield recover("group-indices-3-and-7-of-2", given, "The group indices are 3 and 7, and the group count is 2.", finds, None)


def passphrases():
    """Passphrases of printable ASCII, empty ones, long ones, and ones that are refused."""
    for how, text, about, finds in [
        ("empty", "", "The passphrase is empty.", "a passphrase that isn't empty by default"),
        ("space", " ", "The passphrase is one space, which is the first character allowed.", "a passphrase without its spaces"),
        ("tilde", "~", "The passphrase is one tilde, which is the last character allowed.", "a bound that is off by one"),
        ("spaces-around", "  TREZOR ", "The passphrase begins and ends with spaces.", "a passphrase without its spaces"),
        ("lower-case", "trezor", "The passphrase has lower-case letters.", "a passphrase in capitals"),
        ("all-characters", "".join(map(chr, range(32, 127))), "The passphrase has all 95 characters.", "a character that is refused or replaced"),
        ("quotes", "\"'\\%s$(x)`&;", "The passphrase has quotes and signs of a shell.", "a passphrase that a shell or a format changes"),
        *((f"{count}-bytes", "x" * (count - 1) + "y", f"The passphrase has {count} bytes. With the round's byte before it, the key has {count + 1}.",
           "a key of HMAC that is cut at its block of 64 bytes, or a passphrase that is cut short") for count in (31, 32, 62, 63, 64, 65, 100, 127, 128, 256)),
    ]:
        extendable = len(text) % 2 == 0
        shares = list(backup(f"passphrases-{how}", "2of3", passphrase=text, extendable=extendable).values())
        yield recover(f"passphrases-{how}", shares[1:], about, finds, PASSPHRASES, text)
    shares = list(backup("passphrases-refused", "2of3").values())[:2]
    for how, text, about in [
        ("31", "a\x1fb", "Byte 31 is below the first character allowed."), ("127", "\x7f", "Byte 127 is above the last character allowed."),
        ("tab", "TREZOR\t", "A tab isn't printable."), ("line-feed", "TREZOR\n", "A line feed isn't printable."),
        ("accent", "Z\u00fcrich", "A letter with an accent isn't ASCII."), ("combined", "Zu\u0308rich", "A combining character isn't ASCII."),
    ]:
        yield recover(f"passphrases-refused-{how}", shares, about, "a passphrase that isn't checked, though another program can't take it", PASSPHRASES, text)
    for how, text in [("longer", PASSPHRASE + " "), ("none", "")]:
        about = "The passphrase isn't the one of the backup. This isn't detected, and gives another secret."
        yield recover(f"passphrases-another-{how}", shares, about, "a wrong passphrase that is refused or ignored", PASSPHRASES, text)


def exponents():
    """The exponents 0 to 3, with both flags."""
    for exponent in range(4):
        for flag in (0, 1):
            for length in (16, 32):
                name = f"exponents-{exponent}-flag-{flag}-{length}-bytes"
                share = lone(name, length=length, exponent=exponent, extendable=flag)
                about = f"The exponent is {exponent}, so each of four rounds takes {2500 << exponent} iterations."
                yield recover(name, [share], about, "a wrong number of iterations", ENCRYPTION)


def salts():
    """The identifier is in the salt if the flag is 0, and isn't if it is 1."""
    for flag in (0, 1):
        for id in [0, 1, 255, 256, 258, 513, 16384, 32767]:
            share = lone("salts", id=id, extendable=flag)
            where = "isn't in the salt" if flag else "is in the salt, in two bytes"
            about = f"The flag is {flag}, so the identifier {id} {where}. All cases of this kind have one value."
            finds = "a salt that doesn't depend on the flag, or has the identifier in another form"
            yield recover(f"salts-{id}-flag-{flag}", [share], about, finds, ENCRYPTION)


def secret_lengths():
    """Secrets of 16 to 128 bytes. A half of more than 32 bytes takes two blocks of PBKDF2."""
    for length in [*range(16, 36, 2), 40, 48, 56, 60, 62, 64, 66, 68, 96, 126, 128]:
        name = f"secret-lengths-{length}"
        about = f"The secret has {length} bytes, and each half {length // 2}."
        finds = "a second block of PBKDF2 that is wrong or missing" if length > 64 else "a reader that knows only some of the lengths"
        yield recover(name, last(name, "2of3", 0, length=length, extendable=length // 2 % 2 == 0), about, finds, ENCRYPTION)
    some = drawn("secret-lengths: some bytes", 12)
    for how, secret, about in [
        ("first", bytes(4) + some, "The first four bytes of the secret are 0."), ("last", some + bytes(4), "The last four bytes of the secret are 0."),
        ("all", bytes(16), "All bytes of the secret are 0."),
    ]:
        name = f"secret-lengths-{how}-bytes-0"
        yield recover(name, last(name, "2of3", 0, secret=secret), about, "a secret without bytes that are 0, such as one that was a number", ENCRYPTION)


def quorums():
    """All quorums of sound backups, in order."""
    for how, plan, left_out in [
        ("2of3", "2of3", []), ("1of1", "1of1", []), ("3of5", "3of5", [(0, 1)]), ("groups", "2/2of3,1of1,1of1", []),
        ("incomplete-group", "2/2of3,3of3,1of1", [(1, 1)]), ("two-levels", "2/2of3,2of2,3of4", [(0, 0)]),
    ]:
        shares = backup(f"quorums-{how}", plan)
        given = [share for name, share in shares.items() if name not in left_out]
        yield asking("quorums", f"quorums-{how}", given, f"All quorums of {len(given)} mnemonics of {plan}.", "sets that aren't minimal, or are left out", None)
    shares = backup("quorums-ten", "2of12")
    given = [shares[(0, member)] for member in (11, 2, 10)]
    yield asking("quorums", "quorums-ten", given, "Names are ordered as numbers: 0.2 comes before 0.10.", "names that are ordered as texts", None)
    yield asking("quorums", "quorums-none", given[:1], "One of two members is there.", "an empty list in place of a refusal", None)


def create(id, about, finds, plan, *, standard="Sharing a secret", length=16, passphrase=PASSPHRASE, exponent=0, extendable=False, secret=None, random=None):
    """Returns a case of a creation. Its random bytes are drawn from its name, as many as are needed, unless they are given."""
    secret = drawn(f"{id}: secret", length) if secret is None else secret
    random = drawn(f"{id}: random", max(0, plain.random_needed(sizes(plan), len(secret)))) if random is None else random
    given = {"plan": plan, "secret": secret.hex(), "passphrase": passphrase, "exponent": exponent, "extendable": extendable, "random": random.hex()}
    return Case(id, "create", about, finds, standard, given)


def creations():
    """Backups with given random bytes, of many plans, lengths and options."""
    wrong = "a split whose shares, digests or groups are in another order"
    groups = ["2/2of3,1of1,1of1", "1/2of3,3of4", "2/2of2,2of2", "3/1of1,2of3,3of5,1of1", "16/" + ",".join(["1of1"] * 16)]
    for plan in ["1of1", "2of2", "2of3", "3of3", "3of5", "2of16", "5of16", "16of16", *groups]:
        name = plan.replace("/", "-of-groups-").replace(",", "-") if len(plan) < 30 else "16-groups"
        yield create(f"creations-{name}", f"The plan is {plan}.", wrong, plan)
    for length in (18, 32, 64, 66, 128):
        about, finds = f"The secret has {length} bytes.", "a second block of PBKDF2, or padding that isn't as long"
        yield create(f"creations-{length}-bytes", about, finds, "2of3", length=length, extendable=length % 4 == 2)
    for exponent in (1, 2):
        about, finds = f"The exponent is {exponent}.", "a wrong number of iterations"
        yield create(f"creations-exponent-{exponent}", about, finds, "2of3", exponent=exponent, extendable=exponent == 1)
    high = b"\xff\xff" + drawn("creations-identifier", 12)
    yield create("creations-identifier", "The first random bit isn't in the identifier, which has 15 bits.", "an identifier of 16 bits", "2of3", random=high)
    zero = bytes(plain.random_needed(plain.parse_plan("4of6"), 16))
    yield create("creations-zeros", "The secret and the random bytes are zero.", "a logarithm of 0", "4of6", secret=bytes(16), random=zero)


def refused_creations():
    """Plans, secrets, passphrases and random bytes that are refused."""
    groups = ",".join(["1of1"] * 17)
    for how, plan, about in [
        ("one-of-many", "1of3", "One of three members would be enough."), ("one-of-many-group", "2/2of3,1of2", "The second group is one of two."),
        ("threshold", "4of3", "The member threshold is above the number of members."),
        ("group-threshold", "3/1of1,1of1", "The group threshold is above the number of groups."),
        ("members", "2of17", "A group has 17 members."), ("groups", f"2/{groups}", "There are 17 groups."),
    ]:
        yield create(f"refused-creations-{how}", about, "a plan that isn't checked", plan, standard="Generating the shares")
    for length, about in [
        (0, "The secret is empty."), (14, "The secret has fewer than 128 bits."), (15, "The secret has an odd number of bytes, and fewer than 16."),
        (17, "The secret has an odd number of bytes."), (33, "The secret has an odd number of bytes."),
    ]:
        plan, standard = "2of3" if length else "1of1", "Generating the shares"
        yield create(f"refused-creations-{length}-bytes", about, "a length that isn't checked", plan, standard=standard, length=length)
    for how, text in [("31", "\x1f"), ("127", "TREZOR\x7f"), ("accent", "Z\u00fcrich")]:
        about, finds = "The passphrase isn't printable ASCII.", "a passphrase that isn't checked, though another program can't take it"
        yield create(f"refused-creations-passphrase-{how}", about, finds, "2of3", standard=PASSPHRASES, passphrase=text)
    for count in (13, 15):
        yield create(
            f"refused-creations-{count}-random-bytes", f"{count} random bytes are given, and 14 are needed.",
            "a creation with other random bytes than the caller thinks", "2of3", standard=None, random=drawn("few", count),
        )


KINDS = {
    "interpolation": interpolation, "group indices": group_indices, "passphrases": passphrases, "exponents": exponents, "salts": salts,
    "secret lengths": secret_lengths, "quorums": quorums, "creations": creations, "refused creations": refused_creations,
}
