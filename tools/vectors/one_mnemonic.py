"""Cases about one mnemonic: its length, padding, checksum, fields, and how its words are written."""
import plain

from backups import changed, customization, drawn, lone, spelled
from case import Case

FORMAT, CHECKSUM, LIST = "Format of the share mnemonic", "Checksum", "Wordlist"


def parse(id, mnemonic, about, finds, standard=FORMAT):
    return Case(id, "parse", about, finds, standard, {"mnemonic": mnemonic})


def padding():
    """All lengths of padding, each bit of it set alone, and values whose first bits are set."""
    for bits, length in [(0, 20), (2, 16), (4, 22), (4, 32), (6, 18), (8, 24), (8, 64)]:
        name = f"padding-{length}-bytes"
        share = lone(name, length=length, value=b"\xff" * 2 + drawn(name, length - 2), extendable=length // 2 % 2)
        none = f"none of its {bits} padding bits is" if bits else "it has no padding bits"
        yield parse(f"{name}-none", spelled(share), f"The first bits of the value are set, and {none}.", "padding taken from the value, or from its other end")
        number = int.from_bytes(share["value"], "big")
        for bit in range(bits):
            about = f"Of {bits} padding bits, bit {bit + 1} is set, counted from the value."
            yield parse(f"{name}-bit-{bit + 1}", spelled(share, number=number | 1 << 8 * length + bit), about, "a padding bit that isn't looked at")
        if bits:
            every, about = number | (1 << bits) - 1 << 8 * length, f"All of the {bits} padding bits are set."
            yield parse(f"{name}-all", spelled(share, number=every), about, "padding that is checked by a sum or a parity of its bits")


def of_words(count):
    """Returns a mnemonic of so many words. Its checksum is right, and the upper bits of its value are 0."""
    name = f"length-{count}-words"
    share, room = lone(name, extendable=count % 2), 10 * (count - 7)
    if count < 7:
        return " ".join(spelled(share).split(" ")[:count])
    number = int.from_bytes(drawn(name, room // 8 + 1), "big") & (1 << room - room % 16) - 1
    return spelled(share, count - 7, number)


def length():
    """Every number of words from 20 to 110, which are 16 to 128 bytes, and some that are too short or too long."""
    for count in [0, 1, 4, 7, 8, 12, 15, 17, 19, *range(20, 113)]:
        spare, standard = 10 * (count - 7) % 16, FORMAT
        few = f"{count} words are fewer than 20."
        if count in (0, 8, 112):
            about = few if count < 20 else f"{count} words would have {spare} padding bits, and at most 8 are allowed."
            finds = "a reader that takes any number of words"
        elif count == 111:
            about, finds, standard = "111 words have 130 bytes, and this repository takes at most 128.", "a reader that has another greatest length", None
        elif count < 20:
            about, finds = few, "a reader that takes values of fewer than 128 bits"
        elif spare > 8:
            about, finds = f"{count} words would have {spare} padding bits, and at most 8 are allowed.", "a reader that takes more than 8 padding bits"
        else:
            about = f"{count} words have {(10 * (count - 7) - spare) // 8} bytes and {spare} padding bits."
            finds = "a reader that knows only some of the lengths"
        yield parse(f"length-{count}-words", of_words(count), about, finds, standard)


def checksum():
    """Checksums of the other flag, with another constant, and with changed words."""
    other = {0: b"shamir_extendable", 1: b"shamir"}
    for length in (16, 32):
        for flag in (0, 1):
            name = f"checksum-{length}-bytes-flag-{flag}"
            share = lone(name, length=length, extendable=flag)
            data = plain.data_of(share)
            about = f"The flag is {flag}, and the checksum is that of"
            yield parse(name, spelled(share), f"{about} this flag.", "another generator or customization string", CHECKSUM)
            yield parse(f"{name}-other", plain.closed(data, other[flag]), f"{about} the other flag.", "a checksum that doesn't depend on the flag", CHECKSUM)
            about = "The customization string is left out of the checksum."
            yield parse(f"{name}-none", plain.closed(data, b""), about, "a missing customization string", CHECKSUM)
    share = lone("checksum-constant")
    for constant in (0, 2, 3, 1 | 1 << 10, 1 | 1 << 20, 1 | 1 << 29):
        about = f"The register of the checksum ends at {constant}, and not at 1."
        wrong = plain.closed(plain.data_of(share), customization(share), constant)
        finds = "a wrong last step of the checksum, or a part of it that isn't compared"
        yield parse(f"checksum-constant-{constant}", wrong, about, finds, CHECKSUM)
    sound = spelled(lone("checksum-word"))
    for place in range(20):
        about = f"The lowest bit in the index of word {place + 1} of 20 is changed."
        yield parse(f"checksum-word-{place + 1}", changed(sound, place), about, "a word that isn't in the checksum", CHECKSUM)
    for length in (22, 64, 128):
        name = f"checksum-{length}-bytes-changed"
        about = f"A word in the middle of a mnemonic with {length} bytes is changed."
        yield parse(name, changed(spelled(lone(name, length=length)), 12), about, "a checksum that isn't compared for every length", CHECKSUM)
    swapped = sound.split(" ")
    swapped[9:11] = swapped[10:8:-1]
    yield parse("checksum-swapped", " ".join(swapped), "Words 10 and 11 are swapped.", "a checksum that doesn't depend on the order of words", CHECKSUM)
    yield parse("checksum-backwards", backwards(), "The words are in reverse order.", "a checksum that is read from the other end", CHECKSUM)


def backwards():
    """Returns a mnemonic in reverse order, of which only the checksum is wrong."""
    for number in range(1000):
        sound = spelled(lone(f"checksum-backwards-{number}"))
        reverse = plain.indices_of(sound.split(" ")[::-1])
        try:
            if not plain.parse(plain.closed(reverse[:-3], b"shamir").encode())["extendable"]:
                return plain.spelled(reverse)
        except plain.Refusal:
            pass
    raise ValueError("no mnemonic can be read in reverse order")


def thresholds():
    """Thresholds at their bounds, and group thresholds above the group count."""
    for threshold, count in [(1, 1), (1, 2), (1, 16), (2, 2), (2, 3), (8, 9), (9, 9), (15, 16), (16, 16), (2, 1), (3, 2), (9, 8), (16, 1), (16, 15)]:
        name = f"thresholds-groups-{threshold}-of-{count}"
        is_low = threshold <= count
        about = f"The group threshold is {threshold}, and the group count is {count}."
        finds = "a threshold or a count that is read as it is stored, less one" if is_low else "a group threshold that isn't compared with the group count"
        yield parse(name, spelled(lone(name, group_threshold=threshold, group_count=count)), about, finds)
    for threshold, member in [(1, 0), (1, 15), (2, 1), (2, 15), (8, 7), (9, 8), (15, 14), (16, 0), (16, 15)]:
        name = f"thresholds-member-{member}-of-{threshold}"
        about = f"Member {member} is in a group with the member threshold {threshold}."
        yield parse(
            name, spelled(lone(name, member=member, member_threshold=threshold)), about,
            "a member threshold that is read as it is stored, or compared with the member index",
        )


def fields():
    """Every other field at its bounds."""
    for field, what, values in [
        ("id", "identifier", [0, 1, 255, 256, 16383, 16384, 32767]),
        ("extendable", "extendable flag", [0, 1]),
        ("exponent", "iteration exponent", [0, 1, 7, 8, 15]),
        ("member", "member index", [0, 1, 7, 8, 15]),
    ]:
        for value in values:
            name = f"fields-{what.replace(' ', '-')}-{value}"
            yield parse(name, spelled(lone(name, **{field: value})), f"The {what} is {value}.", "a field that is cut short")
    for group, count in [(0, 16), (1, 2), (7, 8), (8, 16), (15, 16)]:
        name = f"fields-group-index-{group}"
        yield parse(
            name, spelled(lone(name, group=group, group_count=count)), f"The group index is {group}, and the group count is {count}.",
            "a field that is cut short",
        )


def group_index():
    """A group index that isn't below the group count. This repository's rules don't compare the two."""
    for group, count in [(1, 1), (2, 2), (15, 1), (15, 15)]:
        name = f"group-index-{group}-of-{count}"
        about = f"The group index is {group}, and the group count is {count}, so there is no such group."
        yield parse(name, spelled(lone(name, group=group, group_count=count)), about, "a group index that is compared with the group count", None)


def is_near(one, other):
    return len(one) == len(other) and sum(a != b for a, b in zip(one, other)) == 1


def mistyped(word):
    """Returns a word with another second letter, from which no other word of the list differs in one letter."""
    made = (word[0] + chr(letter) + word[2:] for letter in range(ord("a"), ord("z") + 1))
    return next(one for one in made if [other for other in plain.WORDS if is_near(one, other)] == [word])


def same_letters():
    """Words that aren't in the list, though four letters or all but one agree with one that is."""
    sound = spelled(lone("same-letters")).split(" ")
    for place, how, word in [
        (3, "longer", sound[3] + "s"), (5, "shorter", sound[5][:-1]), (8, "four-letters", sound[8][:4]), (19, "another-end", sound[19][:4] + "zz"),
        (0, "with-comma", sound[0] + ","), (12, "a-number", str(plain.INDEX[sound[12].encode()])), (15, "mistyped", mistyped(sound[15])),
    ]:
        if word.encode() in plain.INDEX:
            raise ValueError(f"{word} is a word of the list")
        agrees = "differs from it in one letter" if how == "mistyped" else "begins with the same four letters"
        about = f"Word {place + 1} is {word!r}, which isn't in the list. Only the word {sound[place]!r} {agrees}."
        about = about if how != "a-number" else f"Word {place + 1} is the index of a word."
        yield parse(
            f"same-letters-{how}", " ".join([*sound[:place], word, *sound[place + 1 :]]), about,
            "a reader that compares only a part of a word, and doesn't say that the rest is wrong", LIST,
        )


def writing():
    """Capital letters, spaces, and characters of Unicode, by this repository's rules of how a mnemonic is typed."""
    # The first word is "kidney", as it has the upper ten bits of the identifier.
    sound = spelled(lone("writing", id=plain.INDEX[b"kidney"] << 5))
    for how, mnemonic, about in [
        ("capitals", sound.upper(), "All letters are capitals, and mean the same."),
        ("first-capitals", sound.title(), "Each word begins with a capital."),
        ("spaces", f"  {sound.replace(' ', '   ')} ", "There are more spaces than needed."),
        ("tabs", sound.replace(" ", "\t"), "Tabs separate the words."),
        ("carriage-return", sound + "\r", "The line ends with a carriage return."),
    ]:
        yield parse(f"writing-{how}", mnemonic, about, "a reader that asks for one way of writing", None)
    for how, mnemonic, about in [
        ("kelvin-sign", "\u212a" + sound[1:], "A letter k is the sign of the unit kelvin, whose lower case in Unicode is k."),
        ("no-break-space", sound.replace(" ", "\u00a0", 1), "A no-break space separates two words."),
        ("byte-order-mark", "\ufeff" + sound, "A byte order mark comes first."),
        ("zero-byte", sound + "\0", "A zero byte comes last."),
    ]:
        yield parse(f"writing-{how}", mnemonic, about, "characters outside ASCII or zero bytes that are taken for others", None)


KINDS = {
    "padding": padding, "length": length, "checksum": checksum, "thresholds": thresholds, "fields": fields, "group index": group_index,
    "same letters": same_letters, "writing": writing,
}
