"""Mistakes of a writer: a creation from a plan, a secret and random bytes, or a backup whose encrypted secret is split anew."""

IDENTIFIER = 'int.from_bytes(two, "big") % 2**15'
DIGEST = "(254, digest(key, secret) + key)"
CHECK = 'closed(data_of(share), customization(share["extendable"]))'
VALUE = 'number = int.from_bytes(share["value"], "big")'
LENGTH = "if n % 2 or not 16 <= n <= MAX_SECRET_BYTES:"
GROUPS = "if len(groups) > 16 or threshold > len(groups):"
NEW = '"id": identifier_of(take(2)), "extendable": old["extendable"], "exponent": old["exponent"]}'

WRITING = [
    ("written-padding-behind", "writes the padding behind the value", (VALUE, f'{VALUE} << 10 * count - 8 * len(share["value"])')),
    ("written-checksum-old", "writes the checksum of the flag 0 for every flag", (CHECK, 'closed(data_of(share), b"shamir")')),
    ("written-checksum-constant", "leaves out the last step of the checksum", (CHECK, CHECK.replace('"]))', '"]), 0)'))),
    ("written-identifier", "takes the upper 15 bits of the random bytes for the identifier", (IDENTIFIER, 'int.from_bytes(two, "big") >> 1')),
    (
        "written-group-count", "writes the greatest index of a group in place of the group count",
        ('"group_count": len(groups), "member": m', '"group_count": max(1, len(groups) - 1), "member": m'),
    ),
    ("written-rounds", "encrypts with the rounds in the order of decryption", ("params, range(4))", "params, range(3, -1, -1))")),
    ("written-unencrypted", "splits the secret unencrypted", ("(plan, encrypt(secret, passphrase, params), params, take)", "(plan, secret, params, take)")),
    ("written-digest-behind", "has the digest behind its key", (DIGEST, "(254, key + digest(key, secret))")),
    ("written-no-digest", "splits without a digest", (DIGEST, "(254, bytes(4) + key)")),
    (
        "written-secret-at-0", "has the secret at 0",
        (
            "(255, secret)]\n    return shares + [interpolate(points, i) for i in range(threshold - 2, count)]",
            "(0, secret)]\n    return shares + [interpolate(points, i + 1) for i in range(threshold - 2, count)]",
        ),
    ),
    (
        "written-by-group-threshold", "splits each group by the group threshold",
        ("enumerate(split(t, count, group_shares[g], take))", "enumerate(split(min(threshold, count), count, group_shares[g], take))"),
    ),
    ("written-one-of-many", "makes several members of which one is enough", ("if t == 1 and n > 1:", "if False:")),
    ("written-member-threshold", "takes a member threshold above the number of members", ("if n > 16 or t > n:", "if n > 16:")),
    ("written-members", "makes more than 16 members", ("if n > 16 or t > n:", "if t > n:")),
    ("written-group-threshold", "takes a group threshold above the number of groups", (GROUPS, "if len(groups) > 16:")),
    ("written-groups", "makes more than 16 groups", (GROUPS, "if threshold > len(groups):")),
    ("written-odd-length", "takes a secret of an odd number of bytes", (LENGTH, "if not 16 <= n <= MAX_SECRET_BYTES:")),
    ("written-short-secret", "takes a secret of fewer than 128 bits", (LENGTH, "if n % 2 or not 8 <= n <= MAX_SECRET_BYTES:")),
    ("written-any-length", "takes a secret of any length", (LENGTH, "if n > MAX_SECRET_BYTES:")),
    ("written-empty-secret", "takes an empty secret", (LENGTH, "if n and (n % 2 or not 16 <= n <= MAX_SECRET_BYTES):")),
    ("written-more-random", "takes more random bytes than needed", ("if len(random) != needed:", "if len(random) < needed:")),
    ("written-fewer-random", "takes fewer random bytes than needed", ("if len(random) != needed:", "if len(random) > needed:")),
    ("resplit-flag", "leaves the extendable flag out of a backup that is split anew", (NEW, NEW.replace('old["extendable"]', "0"))),
    ("resplit-exponent", "gives a backup that is split anew the exponent 0", (NEW, NEW.replace('old["exponent"]', "0"))),
    ("resplit-identifier", "gives a backup that is split anew the identifier of the old one", (NEW, NEW.replace("identifier_of(take(2))", 'old["id"]'))),
    ("resplit-random-twice", "uses the first two random bytes twice in a backup that is split anew", (NEW, NEW.replace("take(2)", "random[:2]"))),
    ("resplit-secret", "splits the decrypted secret anew", ("encrypted = combined(backup, quorum)", 'encrypted = outcome(backup, quorum, b"TREZOR")')),
    (
        "resplit-last-quorum", "splits anew what the last quorum combines to",
        ("quorum = quorums(backup)[0]\n    encrypted", "quorum = quorums(backup)[-1]\n    encrypted"),
    ),
    ("resplit-not-extendable", "splits a backup anew that isn't extendable", ('if not old["extendable"]:', "if False:")),
    ("resplit-same-identifier", "splits a backup anew under the same identifier", ('if params["id"] == old["id"]:', "if False:")),
]
