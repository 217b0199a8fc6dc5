"""Backups and mnemonics of which the cases are made. All bytes are drawn from names, so they are the same each time."""
import hashlib

import plain

PASSPHRASE = "TREZOR"


def drawn(name, count):
    """Returns bytes that look random and depend on the name alone."""
    return hashlib.shake_256(f"shamir vectors: {name}".encode()).digest(count)


def sizes(plan):
    """Returns the group threshold of a plan, and the member threshold and the number of members of each group, unchecked."""
    threshold, _, groups = plan.rpartition("/")
    return int(threshold or 1), [tuple(map(int, group.split("of"))) for group in groups.split(",")]


def backup(name, plan, *, length=16, passphrase=PASSPHRASE, exponent=0, extendable=False, random=None, id=None, secret=None):
    """Returns the shares of a backup, by their names, in the order of groups and members."""
    needed = plain.random_needed(sizes(plan), length)
    given = drawn(f"{name}: random", needed) if random is None else random(needed)
    if id is not None:
        given = id.to_bytes(2, "big") + given[2:]
    secret = drawn(f"{name}: secret", length) if secret is None else secret
    shares = plain.create(sizes(plan), secret, passphrase.encode(), exponent, extendable, given)
    return {(share["group"], share["member"]): share for share in shares}


def lone(name, *, length=16, **fields):
    """Returns a share that needs no other, unless the fields say something else. It is the share of some secret."""
    share = {"id": int.from_bytes(drawn(f"{name}: id", 2), "big") >> 1, "extendable": 0, "exponent": 0, "group": 0, "group_threshold": 1}
    share |= {"group_count": 1, "member": 0, "member_threshold": 1, "value": drawn(f"{name}: value", length)}
    return share | fields


def customization(share):
    return bytes(plain.customization(share["extendable"]))


def spelled(share, count=None, number=None):
    """Returns the mnemonic of a share, or one with this number as its padded value, in `count` words. The checksum is right."""
    return plain.closed(plain.data_of(share, count, number), customization(share))


def changed(mnemonic, place, by=1):
    """Returns a mnemonic with other bits in the index of one of its words."""
    data = plain.indices_of(mnemonic.split(" "))
    data[place] ^= by
    return plain.spelled(data)


def flipped(value, bit):
    """Returns bytes with one bit changed. Bit 0 is the lowest of the last byte."""
    return (int.from_bytes(value, "big") ^ 1 << bit).to_bytes(len(value), "big")


def split(name, secret, threshold, count, digest_share):
    """Returns the shares of a split whose digest share is given, so that it can be a wrong one."""
    first = [drawn(f"{name}: share {place}", len(secret)) for place in range(threshold - 2)]
    points = list(enumerate(first)) + [(254, digest_share), (255, secret)]
    return first + [plain.interpolate(points, place) for place in range(threshold - 2, count)]


def digest_share(name, secret):
    key = drawn(f"{name}: key", len(secret) - 4)
    return plain.digest(key, secret) + key


def mnemonics(shares):
    return [plain.mnemonic(share) for share in shares]
