"""Mistakes of a reader about several mnemonics, and about what they recover."""

CONFLICT = 'if name in backup and backup[name]["value"] != share["value"]:'
KEPT = "    backup[name] = share\n"
POINT = 'points = [(name[1], backup[name]["value"]) for name in members]'
GROUP = "        shares.append((group, share))\n    first"
COMPLETE = "complete = [group for group in groups if len(groups[group]) >= thresholds[group]]"
CHOICES = "thresholds[group]) for group in chosen]"
LISTED = "for parts in itertools.product(*choices))\n    return sorted(found)"
REQUIRED = 'required = next(iter(backup.values()))["group_threshold"]\n    complete'
FIRST = "first = backup[quorum[0]]"
THRESHOLDS = 'thresholds = {share["group"]: share["member_threshold"] for share in backup.values()}'
MEMBER_THRESHOLD = 'if other["group"] == share["group"] and other["member_threshold"]'
DIGEST = "return secret if digest(key[4:], secret) == key[:4] else None"
LENGTH = 'if len(other["value"]) != len(share["value"]):'
COMBINED = 'share = combine(backup[members[0]]["member_threshold"], points)'
COMBINED_GROUPS = 'encrypted = combine(first["group_threshold"], shares)'
HMAC = 'return hmac.digest(key, secret, "sha256")[:4]'
PLACES = "secret, key = interpolate(shares, 255), interpolate(shares, 254)"
PRODUCT = "POWER[(log + LOG[b]) % 255] if b else 0"
PREFIX = 'prefix = b"" if params["extendable"] else b"shamir" + params["id"].to_bytes(2, "big")'
PASSWORD = "bytes([i]) + passphrase, prefix"
KEY = 'return hashlib.pbkdf2_hmac("sha256", bytes([i]) + passphrase, prefix + half, 2500 << params["exponent"], len(half))'
ITERATIONS = '2500 << params["exponent"]'
SINGLE = "return undone[len(text) // 2 :] + undone[: len(text) // 2] if number else undone"
PRINTABLE = "if not 32 <= byte <= 126:"
COMPARED = "if other[name] != share[name]:"
AGREEING = [
    (21, "id", "identifier"), (22, "extendable", "extendable flag"), (23, "exponent", "exponent"),
    (24, "group_threshold", "group threshold"), (25, "group_count", "group count"),
]


def uncompared(code, field, what):
    return f'            ({code}, "{field}", "{what}"),\n', ""


def in_groups(field):
    return COMPARED, f'if (name != "{field}" or other["group"] == share["group"]) and other[name] != share[name]:'


def part_of_identifier(part):
    return COMPARED, f'if other[name] != share[name] and (name != "id" or (other["id"] ^ share["id"]) {part}):'


AGREEMENT = [
    *((f"{what.replace(' ', '-')}-uncompared", f"doesn't compare the {what}", uncompared(code, field, what)) for code, field, what in AGREEING),
    *((f"{what.replace(' ', '-')}-in-groups", f"compares the {what} only within a group", in_groups(field)) for _, field, what in AGREEING),
    ("identifier-first-word", "compares only the ten bits of the identifier that the first word has", part_of_identifier(">> 5")),
    ("identifier-second-word", "compares only the five bits of the identifier that the second word has", part_of_identifier("& 31")),
    ("length-uncompared", "doesn't compare lengths", (LENGTH, "if False:")),
    ("length-in-groups", "compares lengths only within a group", (LENGTH, LENGTH.replace("if", 'if other["group"] == share["group"] and'))),
    (
        "last-group-threshold", "doesn't compare group thresholds, and takes that of the last mnemonic",
        uncompared(24, "group_threshold", "group threshold"), (REQUIRED, REQUIRED.replace("next(iter(backup.values()))", "list(backup.values())[-1]")),
        (FIRST, "first = list(backup.values())[-1]"),
    ),
    ("member-threshold-uncompared", "doesn't compare member thresholds", (MEMBER_THRESHOLD, 'if False and other["member_threshold"]')),
    (
        "first-member-threshold", "doesn't compare member thresholds, and takes that of the first mnemonic of a group",
        (MEMBER_THRESHOLD, 'if False and other["member_threshold"]'), (THRESHOLDS, THRESHOLDS.replace("backup.values()", "[*backup.values()][::-1]")),
    ),
    ("member-thresholds-all-compared", "wants one member threshold in all groups", (MEMBER_THRESHOLD, 'if other["member_threshold"]')),
]

SET = [
    ("last-of-two", "takes the last of two values for one name", (CONFLICT, "if False:")),
    ("first-of-two", "takes the first of two values for one name", (CONFLICT, "if False:"), (KEPT, "    backup.setdefault(name, share)\n")),
    ("repeats-refused", "refuses a repeated mnemonic", (CONFLICT, "if name in backup:")),
    (
        "repeats-counted", "counts a repeated mnemonic twice",
        (KEPT, "    backup[(name[0], name[1] + 16 if name in backup else name[1])] = share\n"),
        (POINT, POINT.replace("(name[1],", "(name[1] % 16,")),
    ),
    (
        "values-counted", "counts two values of one name as two members, and fails", (CONFLICT, "if False:"),
        (KEPT, "    backup[(name[0], name[1] + 16 if name in backup else name[1])] = share\n"),
        (POINT, POINT.replace("(name[1],", "(name[1] % 16,")),
    ),
    ("empty-list", "fails on an empty list", ('raise Refusal(29, "no shares")', "pass")),
    ("one-group-enough", "ignores the group threshold", ('["group_threshold"]\n    complete = [', '["group_threshold"] and 1\n    complete = [')),
    ("groups-counted", "counts groups that aren't complete", (COMPLETE, "complete = list(groups)")),
    (
        "mnemonics-counted", "counts mnemonics, and not complete groups",
        (COMPLETE, COMPLETE + "\n    complete = list(groups) if len(backup) >= required + max(thresholds.values()) - 1 else complete"),
    ),
    ("all-members", "uses all members of a group", (CHOICES, "len(groups[group])) for group in chosen]")),
    ("first-groups", "tries only the first complete groups", ("itertools.combinations(complete, required)", "[complete[:required]]")),
    ("last-quorum-left-out", "leaves out the last quorum", (LISTED, f"{LISTED}[:-1] or found")),
    ("names-as-texts", "orders names as texts", (LISTED, LISTED.replace("(found)", "(found, key=written)"))),
    ("all-mnemonics-listed", "lists the set of all mnemonics as a quorum", (LISTED, LISTED.replace("(found)", "({*found, tuple(sorted(backup))})"))),
    ("no-quorums", "lists no quorums in place of a refusal", ('raise Refusal(30, f"incomplete: {len(complete)} of {required} groups")', "return []")),
]


def matching(condition):
    return DIGEST, f"return secret if {condition} else None"


def part_of_digest(part):
    return matching(f"digest(key[4:], secret)[{part}] == key[:4][{part}]")


DIGESTS = [
    ("digest-unchecked", "ignores digests", (DIGEST, "return secret")),
    ("member-digest-unchecked", "ignores the digests of members", (COMBINED, "share = points[0][1] if len(points) == 1 else interpolate(points, 255)")),
    (
        "group-digest-unchecked", "ignores the digest of groups",
        (COMBINED_GROUPS, "encrypted = shares[0][1] if len(shares) == 1 else interpolate(shares, 255)"),
    ),
    *((f"digest-{how}", f"compares only {what} of the digest", part_of_digest(part)) for how, what, part in [
        ("first-byte", "the first byte", ":1"), ("first-three-bytes", "the first three bytes", ":3"),
        ("last-three-bytes", "the last three bytes", "1:"), ("outer-bytes", "the first and the last byte", "::3"),
    ]),
    (
        "digest-seven-bits", "compares only seven bits of each byte of the digest",
        matching("all((a ^ b) & 127 == 0 for a, b in zip(digest(key[4:], secret), key[:4]))"),
    ),
    ("digest-any-order", "takes the bytes of the digest in any order", matching("sorted(digest(key[4:], secret)) == sorted(key[:4])")),
    ("digest-of-two", "ignores digests if the threshold is above 2", (DIGEST, DIGEST.replace("if digest", "if threshold > 2 or digest"))),
    (
        "digest-of-first-group", "compares the digest of the first group only, and that of the groups",
        (COMBINED, f"{COMBINED} if not shares or len(points) == 1 else interpolate(points, 255)"),
    ),
    ("digest-key-is-secret", "swaps the key and the message of the digest", (HMAC, 'return hmac.digest(secret, key, "sha256")[:4]')),
    ("digest-hash", "takes a plain hash for the digest", (HMAC, "return hashlib.sha256(key + secret).digest()[:4]")),
    ("digest-end", "takes the last four bytes of the HMAC", (HMAC, 'return hmac.digest(key, secret, "sha256")[-4:]')),
    ("digest-whole-key", "takes the whole digest share for the key", matching("digest(key, secret) == key[:4]")),
    ("digest-of-one", "wants a digest of a share that needs no other", ("    if threshold == 1:\n        return shares[0][1]\n", "")),
]

INTERPOLATION = [
    ("secret-at-0", "takes the secret at 0", (PLACES, PLACES.replace("255", "0"))),
    ("places-swapped", "swaps the places of the secret and the digest", (PLACES, "key, secret = interpolate(shares, 255), interpolate(shares, 254)")),
    ("indices-from-1", "counts members from 1", (POINT, POINT.replace("name[1],", "name[1] + 1,"))),
    ("groups-from-1", "counts groups from 1", (GROUP, GROUP.replace("(group,", "(group + 1,"))),
    ("indices-by-order", "takes the order of members for their indices", (POINT, 'points = list(enumerate(backup[name]["value"] for name in members))')),
    ("member-place-cut", "takes three bits of a member's place", (POINT, POINT.replace("name[1],", "name[1] & 7,"))),
    ("group-place-cut", "takes three bits of a group's place", (GROUP, GROUP.replace("(group,", "(group & 7,"))),
    ("other-field", "has another modulus for the field", ("a ^= 0x11B", "a ^= 0x11D")),
    ("logarithm-of-0", "takes 0 for 1 in products", (PRODUCT, "POWER[(log + LOG.get(b, 0)) % 255]")),
    ("negative-logarithms", "reduces negative logarithms to 0", (PRODUCT, "POWER[max(0, log + LOG[b]) % 255] if b else 0")),
    ("logarithms-not-reduced", "reduces logarithms modulo 256", (PRODUCT, "(POWER + [1])[(log + LOG[b]) % 256] if b else 0")),
]

ENCRYPTION = [
    ("rounds-forwards", "decrypts with the rounds in the order of encryption", ("range(3, -1, -1)", "range(4)")),
    ("first-zeros", "leaves out bytes of the secret that are 0 at its beginning", ("return right + left", "return (right + left).lstrip(bytes(1))")),
    ("last-zeros", "leaves out bytes of the secret that are 0 at its end", ("return right + left", "return (right + left).rstrip(bytes(1))")),
    ("halves-not-swapped", "doesn't swap the halves at the end", ("return right + left", "return left + right")),
    ("round-halves-swapped", "swaps the halves in the last of single rounds", (SINGLE, SINGLE.replace(" if number else undone", ""))),
    ("round-halves-kept", "never swaps the halves in single rounds", (SINGLE, "return undone")),
    ("round-unchecked", "takes a fifth round", ("if number > 3:", "if number > 4:")),
    ("identifier-unchecked", "takes an identifier of 16 bits", ('if params["id"] >= 2**15 or', 'if params["id"] >= 2**16 or')),
    ("length-unchecked", "takes a value of an odd number of bytes", ("if n % 2 or not 16 <= n", "if not 16 <= n")),
    ("iterations-not-divided", "takes all iterations in each round", (ITERATIONS, ITERATIONS.replace("2500", "10000"))),
    ("exponent-ignored", "ignores the exponent", (ITERATIONS, "2500")),
    ("exponent-as-factor", "takes the exponent as a factor", (ITERATIONS, '2500 * (params["exponent"] + 1)')),
    ("salt-with-identifier", "always has the identifier in the salt", (PREFIX, 'prefix = b"shamir" + params["id"].to_bytes(2, "big")')),
    ("salt-without-identifier", "never has the identifier in the salt", (PREFIX, 'prefix = b""')),
    ("salt-identifier-backwards", "has the identifier in the salt with its lower byte first", (PREFIX, PREFIX.replace('"big"', '"little"'))),
    (
        "salt-identifier-short", "has an identifier below 256 in the salt as one byte",
        (PREFIX, PREFIX.replace("to_bytes(2,", 'to_bytes(2 if params["id"] > 255 else 1,')),
    ),
    (
        "salt-shifted-identifier", "has the identifier in the salt as it is stored in 16 bits with the flag",
        (PREFIX, PREFIX.replace('params["id"]', '(params["id"] << 1)')),
    ),
    ("salt-with-string", "has the customization string in the salt if the flag is 1", (PREFIX, PREFIX.replace('b"" if', 'b"shamir_extendable" if'))),
    ("salt-behind", "has the half before the identifier in the salt", (KEY, KEY.replace("prefix + half", "half + prefix"))),
    ("round-behind", "has the round's number behind the passphrase", (PASSWORD, "passphrase + bytes([i]), prefix")),
    ("rounds-from-1", "counts rounds from 1", (PASSWORD, "bytes([i + 1]) + passphrase, prefix")),
    ("one-block", "computes one block of PBKDF2 and repeats it", (KEY, KEY.replace("len(half))", "min(32, len(half))) * 2"))),
    (
        "second-block-zero", "computes one block of PBKDF2 and fills up with zeros",
        (KEY, KEY.replace("len(half))", "min(32, len(half))).ljust(len(half), bytes(1))")),
    ),
]


def phrase(by):
    return PASSWORD, f"bytes([i]) + {by}, prefix"


PASSPHRASES = [
    ("passphrase-cut-at-31", "takes 31 bytes of the passphrase", phrase("passphrase[:31]")),
    ("passphrase-cut-at-block", "takes 64 bytes of the round's number and the passphrase", phrase("passphrase[:63]")),
    ("passphrase-cut-at-100", "takes 100 bytes of the passphrase", phrase("passphrase[:100]")),
    ("passphrase-cut-at-128", "takes 128 bytes of the passphrase", phrase("passphrase[:128]")),
    ("passphrase-stripped", "leaves out spaces around the passphrase", phrase("passphrase.strip()")),
    ("passphrase-in-capitals", "takes the passphrase in capitals", phrase("passphrase.upper()")),
    (
        "passphrase-hashed", "hashes a long passphrase before the round's number is joined",
        phrase("(hashlib.sha256(passphrase).digest() if len(passphrase) > 64 else passphrase)"),
    ),
    ("passphrase-ignored", "ignores the passphrase", phrase('b"TREZOR"')),
    ("passphrase-by-default", "takes a word for an empty passphrase", phrase('(passphrase or b"TREZOR")')),
    ("passphrase-unchecked", "takes any passphrase", (PRINTABLE, "if False:")),
    ("passphrase-with-31", "takes byte 31 in a passphrase", (PRINTABLE, "if not 31 <= byte <= 126:")),
    ("passphrase-with-127", "takes byte 127 in a passphrase", (PRINTABLE, "if not 32 <= byte <= 127:")),
    ("passphrase-without-space", "refuses spaces in a passphrase", (PRINTABLE, "if not 33 <= byte <= 126:")),
    ("passphrase-without-tilde", "refuses tildes in a passphrase", (PRINTABLE, "if not 32 <= byte < 126:")),
    ("passphrase-with-space-signs", "takes tabs and line feeds in a passphrase", (PRINTABLE, "if not 32 <= byte <= 126 and byte not in (9, 10):")),
    ("passphrase-in-unicode", "takes letters outside ASCII in a passphrase", (PRINTABLE, "if not 32 <= byte or byte == 127:")),
]

SETS = [*AGREEMENT, *SET, *DIGESTS, *INTERPOLATION, *ENCRYPTION, *PASSPHRASES]
