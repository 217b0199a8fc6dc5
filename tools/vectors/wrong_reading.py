"""Mistakes of a reader about one mnemonic. Each is a name, what the reader does, and texts of tools/plain.py with what becomes of them."""

SPLIT = 'words = re.split(rb"[ \\t\\r]+", line.lower())'
NOT_EMPTY = "return [word for word in words if word]"
LENGTHS = "if bits < 128 or padding > 8 or (bits - padding)"
PADDING = "if value >> bits - padding:"
# Without its padding bits, the value fits into its bytes.
MASKED = ('share["value"] = value.to_bytes', 'share["value"] = (value & (1 << bits - padding) - 1).to_bytes')
REGISTER = 'polymod(customization(share["extendable"]) + indices)'
CHECK = f"if {REGISTER} != 1:"
ABOVE = 'if share["group_threshold"] > share["group_count"]:'
FIELD = "share[name] = (header & (1 << width) - 1)"
ORDER = '"group", "group_threshold", "group_count", "member", "member_threshold"]'
LESS = '{"group_threshold", "group_count", "member_threshold"}'
NEAR = """
def meant(word):
    near = [other for other in INDEX if len(other) == len(word) and sum(a != b for a, b in zip(word, other)) == 1]
    return near[0] if word not in INDEX and len(near) == 1 else word


"""


def exchanged(one, other):
    return ORDER, ORDER.replace(f"{one}, {other}", f"{other}, {one}")


def cut(field, bits):
    return FIELD, f'share[name] = (header & (1 << ({bits} if name == "{field}" else width)) - 1)'


WORDS = [
    (
        "four-letters", "takes each word by its first four letters",
        (NOT_EMPTY, NOT_EMPTY.replace("[word", "[FOUR.get(word[:4], word)")),
        ("GENERATOR = [", "FOUR = {word[:4]: word for word in INDEX}\nGENERATOR = ["),
    ),
    ("commas", "ignores commas", (SPLIT, SPLIT.replace("line", 'line.replace(b",", b" ")'))),
    ("small-letters", "takes no capitals", (SPLIT, SPLIT.replace(".lower()", ""))),
    ("unicode-letters", "takes letters and spaces as Unicode defines them", (SPLIT, "words = [word.encode() for word in line.decode().lower().split()]")),
    ("single-spaces", "takes only spaces between words", (SPLIT, 'words = line.lower().split(b" ")')),
    (
        "word-numbers", "takes indices in place of words",
        (SPLIT, SPLIT + "\n    words = [WORDS[int(word)].encode() if word.isdigit() else word for word in words]"),
    ),
    (
        "one-letter", "takes a word for the only one that differs from it in one letter",
        (NOT_EMPTY, NOT_EMPTY.replace("[word", "[meant(word)")),
        ("GENERATOR = [", NEAR + "GENERATOR = ["),
    ),
    ("byte-order-mark", "skips a byte order mark and zero bytes", (SPLIT, 'words = re.split(rb"[ \\t\\r\\0]+|\\xef\\xbb\\xbf", line.lower())')),
]

LENGTH = [
    ("short-values", "takes values of fewer than 128 bits", (LENGTHS, "if padding > 8 or (bits - padding)")),
    ("more-padding", "takes more than 8 padding bits", (LENGTHS, "if bits < 128 or (bits - padding)")),
    ("any-length", "takes any number of words", (LENGTHS, "if -(bits - padding)")),
    ("less-padding", "takes at most 7 padding bits", (LENGTHS, "if bits < 128 or padding >= 8 or (bits - padding)")),
    ("two-lengths", "takes only 20 or 33 words", (LENGTHS, "if count not in (20, 33) or (bits - padding)")),
    ("32-bytes", "takes values of at most 32 bytes", ("MAX_SECRET_BYTES = 128", "MAX_SECRET_BYTES = 32")),
    ("130-bytes", "takes values of more than 128 bytes", ("MAX_SECRET_BYTES = 128", "MAX_SECRET_BYTES = 130")),
    ("whole-words", "takes only values of a multiple of 4 bytes", (LENGTHS, "if bits < 128 or padding > 8 or (bits - padding) % 32 or (bits - padding)")),
]

PADDINGS = [
    ("padding-unchecked", "ignores padding bits", (PADDING, "if False:"), MASKED),
    ("padding-first-bit", "looks only at the first padding bit", (PADDING, "if padding and value >> bits - 1:"), MASKED),
    ("padding-last-bit", "looks only at the last padding bit", (PADDING, "if padding and value >> bits - padding & 1:"), MASKED),
    ("padding-first-two-bits", "looks only at the first two padding bits", (PADDING, "if value >> bits - min(2, padding):"), MASKED),
    ("padding-last-four-bits", "looks only at the last four padding bits", (PADDING, "if value >> bits - padding & 15:"), MASKED),
    ("padding-parity", "looks at the parity of the padding bits", (PADDING, 'if bin(value >> bits - padding).count("1") % 2:'), MASKED),
    ("padding-all-bits", "refuses padding only if all of its bits are set", (PADDING, "if padding and value >> bits - padding == (1 << padding) - 1:"), MASKED),
    ("padding-behind", "takes the padding from the end of the value", (PADDING, "value, spare = value >> padding, value & (1 << padding) - 1\n    if spare:")),
    ("padding-one-too-many", "takes one bit of the value for padding", (PADDING, "if value >> bits - padding - 1:")),
]


def checked(condition):
    return CHECK, f"if {condition}:"


def without(place):
    other = f"indices[:{place}] + [indices[{place}] ^ 1] + indices[{place + 1}:]"
    return checked(f"1 not in [{REGISTER.replace('indices', 'words')} for words in (indices, {other})]")


def swapped(places):
    other = "indices[:i] + indices[i:i + 2][::-1] + indices[i + 2:]"
    return checked(f"1 not in [{REGISTER.replace('indices', other)} for i in {places}]")


CHECKSUMS = [
    ("checksum-unchecked", "ignores the checksum", checked("False")),
    ("checksum-old", "knows only the customization string `shamir`", checked('polymod(list(b"shamir") + indices) != 1')),
    ("checksum-new", "knows only the customization string `shamir_extendable`", checked('polymod(list(b"shamir_extendable") + indices) != 1')),
    ("checksum-either", "takes the checksum of either flag", checked("1 not in [polymod(customization(flag) + indices) for flag in (0, 1)]")),
    ("checksum-other", "takes the flag for its opposite in the checksum", checked('polymod(customization(not share["extendable"]) + indices) != 1')),
    ("checksum-no-string", "also takes a checksum without a customization string", checked(f"1 not in [{REGISTER}, polymod(indices)]")),
    ("checksum-zero", "also takes a register of 0", checked(f"{REGISTER} > 1")),
    ("checksum-any-constant", "takes a register below 4", checked(f"{REGISTER} > 3")),
    ("checksum-last-two-words", "compares only the last two words of the checksum", checked(f"{REGISTER} & 0xFFFFF != 1")),
    ("checksum-first-two-words", "compares only the first two words of the checksum", checked(f"{REGISTER} >> 10")),
    ("checksum-outer-words", "compares only the first and the last word of the checksum", checked(f"{REGISTER} & 0x3FF003FF != 1")),
    ("checksum-29-bits", "compares only 29 bits of the checksum", checked(f"{REGISTER} & 0x1FFFFFFF != 1")),
    ("checksum-of-two-lengths", "compares the checksum only of 20 or 33 words", checked(f"len(indices) in (20, 33) and {REGISTER} != 1")),
    ("checksum-backwards", "computes the checksum from the last word on", checked(f"{REGISTER.replace('indices', 'indices[::-1]')} != 1")),
    ("checksum-generator", "has one bit wrong in the generator", ("0x3F3F120", "0x3F3F121")),
    ("checksum-order", "also takes a mnemonic with two words swapped", swapped(range(8, 11))),
    *((f"checksum-without-word-{place}", f"also takes a mnemonic whose word {place} is wrong in its last bit", without(place - 1)) for place in (1, 2, 10)),
]

FIELDS = [
    ("group-threshold-unchecked", "doesn't compare the group threshold with the group count", (ABOVE, "if False:")),
    (
        "group-index-checked", "refuses a group index that isn't below the group count",
        (ABOVE, ABOVE.replace(":", ' or share["group"] >= share["group_count"]:')),
    ),
    (
        "group-threshold-below", "refuses a group threshold that is equal to the group count",
        (ABOVE, 'if share["group_threshold"] >= share["group_count"] > 1:'),
    ),
    (
        "member-index-checked", "refuses a member index that isn't below the member threshold",
        (ABOVE, ABOVE.replace(":", ' or share["member"] >= share["member_threshold"]:')),
    ),
    ("numbers-as-stored", "reads thresholds and counts as they are stored", (LESS, "set()")),
    ("member-threshold-as-stored", "reads the member threshold as it is stored", (LESS, '{"group_threshold", "group_count"}')),
    ("indices-less-one", "takes indices for numbers that are stored less one", (LESS, LESS.replace("}", ', "member", "group"}'))),
    ("five-bits-of-exponent", "takes the flag for a bit of the exponent", ("WIDTHS = [15, 1, 4,", "WIDTHS = [15, 0, 5,")),
    ("group-fields-swapped", "swaps group threshold and group count", exchanged('"group_threshold"', '"group_count"')),
    ("member-fields-swapped", "swaps member index and member threshold", exchanged('"member"', '"member_threshold"')),
    ("exponent-cut", "reads three bits of the exponent", cut("exponent", 3)),
    ("identifier-cut", "reads 14 bits of the identifier", cut("id", 14)),
    ("member-index-cut", "reads three bits of the member index", cut("member", 3)),
    ("group-index-cut", "reads three bits of the group index", cut("group", 3)),
    ("member-threshold-cut", "reads three bits of the member threshold", cut("member_threshold", 3)),
]

READING = [*WORDS, *LENGTH, *PADDINGS, *CHECKSUMS, *FIELDS]
