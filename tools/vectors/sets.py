"""Cases about several mnemonics: which belong together, which are enough, and what the digests say."""
from backups import backup, digest_share, drawn, flipped, lone, mnemonics, split, PASSPHRASE
from case import Case

FORMAT, SHARING, RECOVERY = "Format of the share mnemonic", "Sharing a secret", "Recovery of the secret"


def asking(asks, id, shares, about, finds, standard=FORMAT, passphrase=PASSPHRASE):
    lines = [share if isinstance(share, str) else mnemonics([share])[0] for share in shares]
    return Case(id, asks, about, finds, standard, {"mnemonics": lines, "passphrase": passphrase})


def recover(*given, **options):
    return asking("recover", *given, **options)


def agreement():
    """Each field that must agree, differing alone: in the last of three mnemonics, the first of three, one that is needed, and one
    of another group.
    """
    shares = list(backup("agreement", "1/2of3,2of3").values())
    for what, other in [
        ("identifier", lambda share: {"id": share["id"] ^ 1}),
        ("extendable-flag", lambda share: {"extendable": 1}),
        ("exponent", lambda share: {"exponent": 1}),
        ("group-threshold", lambda share: {"group_threshold": 2}),
        ("group-count", lambda share: {"group_count": 3}),
        ("length", lambda share: {"value": share["value"] + bytes(2)}),
        ("member-threshold", lambda share: {"member_threshold": 3}),
    ]:
        field, needless = what.replace("-", " "), "The first two would be enough."
        finds = f"a reader that doesn't compare the {field} of all mnemonics"
        first, needed, last, elsewhere = (share | other(share) for share in shares[:4])
        yield recover(f"agreement-{what}-last", [*shares[:2], last], f"The third mnemonic has another {field}. {needless}", finds)
        yield recover(f"agreement-{what}-first", [first, *shares[1:3]], f"The first mnemonic has another {field} than the other two.", finds)
        yield recover(f"agreement-{what}-needed", [shares[0], needed], f"Two mnemonics are needed, and the second has another {field}.", finds)
        if what != "member-threshold":
            about, finds = f"A mnemonic of a group that isn't needed has another {field}.", f"a reader that compares the {field} only within a group"
            yield recover(f"agreement-{what}-other-group", [*shares[:2], elsewhere], about, finds)
    upper = shares[2] | {"id": shares[2]["id"] ^ 1 << 14}
    yield recover(
        "agreement-identifier-first-word", [*shares[:2], upper], "The third mnemonic has another identifier, and only its first word tells.",
        "a reader that compares only a part of the identifier",
    )
    mixed = backup("agreement-thresholds", "2/2of3,3of4")
    given = [mixed[name] for name in [(0, 0), (0, 2), (1, 0), (1, 1), (1, 3)]]
    yield recover(
        "agreement-member-thresholds", given, "The two groups have different member thresholds.", "a reader that wants one member threshold for all groups",
    )


def group_thresholds():
    """Group thresholds above the group count, in mnemonics that would be enough."""
    shares = backup("group-thresholds", "2/1of1,1of1,1of1")
    finds = "a group threshold that isn't compared with the group count"
    given = [share | {"group_count": 1} for share in shares.values()]
    yield recover("group-thresholds-2-of-1", given[:2], "The group threshold is 2, the group count is 1, and two groups are there.", finds)
    most = backup("group-thresholds-most", "16/" + ",".join(["1of1"] * 16))
    given = [share | {"group_count": 15} for share in most.values()]
    yield recover("group-thresholds-16-of-15", given, "The group threshold is 16, the group count is 15, and 16 groups are there.", finds)


def duplicates():
    """The same mnemonic twice, and the same name with another value."""
    shares = list(backup("duplicates", "2of3").values())
    other = shares[0] | {"value": flipped(shares[0]["value"], 77)}
    twice = "a reader that counts a repeated mnemonic twice"
    yield recover("duplicates-not-enough", [shares[0], shares[0]], "The same mnemonic twice isn't two members.", twice, SHARING)
    for how, given in [("second", [shares[0], shares[0], shares[2]]), ("last", [shares[0], shares[2], shares[2]]), ("all", [shares[0], shares[2]] * 2)]:
        yield recover(
            f"duplicates-repeated-{how}", given, "A repeated mnemonic changes nothing.",
            "a reader that refuses a repeated mnemonic, or interpolates with it twice", None,
        )
    capitals = mnemonics(shares)[0].upper()
    yield recover("duplicates-in-capitals", [shares[0], capitals], "The same mnemonic in capitals isn't another member.", twice, None)
    several = [lone("duplicates-one-of-many", member=member) for member in range(3)]
    yield recover(
        "duplicates-one-of-many", several[1:], "A group with the member threshold 1 has several members, all with the same value.",
        "a reader that wants just one member in such a group", None,
    )
    conflict = "a reader that takes the first or the last of two values for one name"
    for how, given in [("last", [shares[0], shares[1], other]), ("first", [other, shares[1], shares[0]]), ("middle", [shares[0], other, shares[1]])]:
        yield recover(f"duplicates-other-value-{how}", given, "Two mnemonics have the same name and different values.", conflict)
    yield recover(
        "duplicates-other-value-alone", [other, shares[0]], "There are only two mnemonics, with the same name and different values.",
        "a reader that counts two values of one name as two members",
    )
    groups = backup("duplicates-groups", "1/2of2,2of2")
    spare = groups[(1, 0)] | {"value": flipped(groups[(1, 0)]["value"], 3)}
    yield recover("duplicates-other-group", [groups[(0, 0)], groups[(0, 1)], groups[(1, 0)], spare], "The conflict is in a group that isn't needed.", conflict)
    renamed = shares[0] | {"member": 1}
    yield recover(
        "duplicates-other-name", [shares[0], renamed], "Two members have the same value, so that the digest doesn't match.", "a digest that isn't compared",
        RECOVERY,
    )


def incomplete():
    """Too few members, too few groups, and the right number in the wrong places."""
    shares = backup("incomplete", "2/2of3,3of4,1of1")
    of = lambda *names: [shares[name] for name in names]
    finds = "a reader that counts mnemonics or groups, and not complete groups"
    for how, given, about in [
        ("one-group", of((0, 0), (0, 1)), "One of two groups is complete."),
        ("one-group-all-members", of((1, 0), (1, 1), (1, 2), (1, 3)), "One group is there with all of its members, and two are needed."),
        ("one-each", of((0, 0), (1, 0)), "No group is complete."),
        ("second-group-short", of((0, 0), (0, 1), (1, 0), (1, 2)), "The second group has two of three members."),
        ("spread", of((0, 2), (1, 1), (2, 0)), "Three groups have members, and one is complete."),
    ]:
        yield recover(f"incomplete-{how}", given, about, finds, SHARING)
    yield recover("incomplete-none", [], "There are no mnemonics.", "a reader that fails on an empty list", SHARING)
    for how, given, about in [
        ("beside-a-quorum", of((0, 0), (0, 2), (1, 0), (2, 0)), "A member of an incomplete group is there beside a quorum."),
        ("beyond-members", of((0, 0), (0, 1), (0, 2), (2, 0)), "A group has one member more than needed."),
        ("beyond-groups", of((0, 0), (0, 1), (1, 0), (1, 1), (1, 2), (2, 0)), "A group is complete beyond those that are needed."),
    ]:
        yield recover(f"incomplete-not-{how}", given, about, "a reader that uses an incomplete group, or all shares at once", None)
    everything = [shares[name] for name in sorted(shares, reverse=True)]
    yield recover(
        "incomplete-not-everything", everything, "All mnemonics are there, the last first.",
        "a reader that uses the mnemonics in the order in which they come", None,
    )


def members_with(name, digest, secret, threshold=2, count=3):
    """Returns the members of a group. The group share and its digest share are given."""
    values = split(name, secret, threshold, count, digest)
    return [lone(name, member=member, member_threshold=threshold, value=value) for member, value in enumerate(values)]


def groups_with(name, digest, secret, threshold=2, count=3):
    """Returns groups of one member each. The encrypted secret and its digest share are given."""
    values = split(name, secret, threshold, count, digest)
    return [lone(name, group=group, group_threshold=threshold, group_count=count, value=value) for group, value in enumerate(values)]


LEVELS = [("members", members_with), ("groups", groups_with)]


def digests():
    """Digests that are wrong in one bit, at each level, and a right one for comparison."""
    for level, made in LEVELS:
        name = f"digests-{level}"
        secret = drawn(f"{name}: secret", 16)
        right = digest_share(name, secret)
        yield recover(
            f"{name}-right", made(name, right, secret)[:2], f"The digest of the {level} is right.", "a digest that is computed in another way", RECOVERY,
        )
        for bit in [0, 7, 8, 15, 16, 23, 24, 31]:
            shares = made(name, flipped(right, 96 + bit), secret)
            yield recover(
                f"{name}-bit-{bit}", shares[1:], f"Bit {bit} of the four bytes of the digest is wrong, counted from the lowest.",
                f"a digest of {level} that is compared in part, or not at all", RECOVERY,
            )
        for bit in [0, 95]:
            shares = made(name, flipped(right, bit), secret)
            yield recover(f"{name}-key-{bit}", shares[::2], f"Bit {bit} of the digest's key is wrong.", "a digest that is computed without its key", RECOVERY)
        rotated = made(name, right[1:4] + right[:1] + right[4:], secret)
        yield recover(
            f"{name}-rotated", rotated[:2], "The four bytes of the digest are right, and in another order.",
            "a digest whose bytes are compared in any order, or by their sum", RECOVERY,
        )
        for threshold in (3, 16):
            name = f"digests-{level}-threshold-{threshold}"
            secret = drawn(f"{name}: secret", 16)
            shares = made(name, flipped(digest_share(name, secret), 96), secret, threshold, threshold)
            yield recover(
                name, shares, f"The digest of the {level} is wrong in one bit, and their threshold is {threshold}.",
                "a digest that is compared only if the threshold is 2", RECOVERY,
            )
    yield second_group()


def second_group():
    """A digest that is wrong in the second of two groups. So that no other digest tells, the group share is right."""
    name = "digests-second-group"
    secret = drawn(f"{name}: secret", 16)
    made = []
    for group, share in enumerate(split(name, secret, 2, 2, digest_share(name, secret))):
        digest = digest_share(f"{name}: group {group}", share)
        digest = flipped(digest, 96) if group else digest
        made += [member | {"group": group, "group_threshold": 2, "group_count": 2} for member in members_with(name, digest, share, 2, 2)]
    return recover(
        name, made, "The digest of the second group's members is wrong in one bit, and the digest of the groups is right.",
        "a reader that compares the digest of one group, and of the groups", RECOVERY,
    )


def digest_over_another():
    """Digests that are right over a wrong share."""
    shares = backup("digest-over-another", "2/2of3,1of1,2of3")
    value = drawn("digest-over-another: group share", 16)
    forged = split("digest-over-another", value, 2, 3, digest_share("digest-over-another", value))
    group = [shares[(2, member)] | {"value": forged[member]} for member in range(3)]
    given = [shares[(0, 0)], shares[(0, 1)], *group[:2]]
    finds = "a reader that checks the members' digest and not the groups'"
    yield recover(
        "digest-over-another-group-share", given, "The members' digest is right over another group share, so the groups' digest isn't.", finds, RECOVERY,
    )
    yield recover(
        "digest-over-another-unused", [shares[(0, 0)], shares[(0, 2)], shares[(1, 0)], *group[:2]], "The wrong group isn't in the first quorum.",
        "a reader that changes its answer for shares that it doesn't use", None,
    )
    alone = backup("digest-over-another-secret", "2of3")
    made = [alone[(0, member)] | {"value": forged[member]} for member in range(3)]
    yield recover(
        "digest-over-another-secret", made[:2], "Somebody made all shares anew for another secret. A digest is no signature, so this gives that secret.",
        "a reader that takes a digest for more than it is", RECOVERY,
    )


def wrong_member():
    """A wrong member beyond the first quorum: what is recovered, and what each quorum gives."""
    shares = list(backup("wrong-member", "2of4").values())
    shares[3] = shares[3] | {"value": flipped(shares[3]["value"], 64)}
    finds = "a reader that doesn't try each quorum"
    yield recover(
        "wrong-member-unused", shares, "The fourth member is wrong, and the first two are enough.",
        "a reader that interpolates with more members than needed", None,
    )
    yield recover("wrong-member-used", shares[2:], "The second of two members is wrong.", "a digest that isn't compared", RECOVERY)
    yield asking("quorums", "wrong-member-quorums", shares, "Of six quorums, the three with the fourth member don't match.", finds, None)


KINDS = {
    "agreement": agreement, "group thresholds": group_thresholds, "duplicates": duplicates, "incomplete": incomplete, "digests": digests,
    "digest over another": digest_over_another, "wrong member": wrong_member,
}
