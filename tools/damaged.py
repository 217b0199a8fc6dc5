"""Makes lines of damaged papers: mnemonics of which words can't be read, are misread or exchanged, or are missing. Their words are
20 to 59, or 110, with both values of the extendable flag, and some have bad padding or bad thresholds. tools/compare and
tools/generated_cases.py use these lines.
"""
import plain


def made_share(rng):
    """Returns a share with random fields, and a value of 16 to 64 bytes, or of 128. Now and then its group threshold is above its count."""
    count = rng.randint(1, 16)
    return {
        "id": rng.getrandbits(15),
        "extendable": rng.getrandbits(1),
        "exponent": rng.getrandbits(4),
        "group": rng.getrandbits(4),
        "group_threshold": rng.randint(1, 16 if rng.random() < 0.1 else count),
        "group_count": count,
        "member": rng.getrandbits(4),
        "member_threshold": rng.randint(1, 16),
        "value": rng.randbytes(2 * rng.choice([*range(8, 33), plain.MAX_SECRET_BYTES // 2])),
    }


def with_bad_padding(rng, words):
    """Returns these words with one of the bits before the value set, and with the checksum of the changed words."""
    indices = plain.indices_of(words[:-3])
    padding = 10 * (len(indices) - 4) % 16
    if padding:
        indices[4] ^= 1 << rng.randint(10 - padding, 9)
    return plain.closed(indices, plain.customization(indices[1] >> 4 & 1)).split(" ")


def opened(rng, word):
    """Returns a mark that stands for a word: `?`, or letters of its beginning, often all that is unclear."""
    letters = rng.choice([0, 0, 0, 1, 1, 2, 2, 3, 4, len(word)])
    return word[:letters] + "?"


def misread(rng, word):
    """Returns another word, which often begins like the right one."""
    alike = [other for other in plain.WORDS if other[:2] == word[:2]]
    return rng.choice(alike if rng.random() < 0.3 else plain.WORDS)


def unknown(rng, word):
    """Returns a mark that stands for no word, or a mark that is almost a word."""
    at = rng.randrange(len(word))
    return rng.choice([word[:-1], word + "s", "??", "?" + word[1:], word[:at] + "?" + word[at + 1 :], "zz?", word + "??", "x", "é?", word + "\0"])


def damaged(rng, words):
    """Returns marks of a paper on which these words stand."""
    marks = list(words)
    for place in rng.sample(range(len(marks)), rng.choice([0, 0, 1, 1, 2, 2, 3, 3, 3, 4])):
        marks[place] = opened(rng, marks[place])
    if rng.random() < 0.1:
        for place in {1} | set(rng.sample(range(len(marks)), 2)):
            marks[place] = "?"
    for place in rng.sample(range(len(marks)), rng.choice([0] * 12 + [1, 1, 2, 3])):
        marks[place] = misread(rng, words[place])
    if rng.random() < 0.03:
        marks[1] = misread(rng, words[1])
    if rng.random() < 0.05:
        place, other = rng.sample(range(len(marks)), 2)
        marks[place], marks[other] = marks[other], marks[place]
    if rng.random() < 0.04:
        del marks[rng.randrange(len(marks))]
    if rng.random() < 0.04:
        marks.insert(rng.randrange(len(marks)), rng.choice(["?", rng.choice(plain.WORDS)]))
    if rng.random() < 0.04:
        place = rng.randrange(len(marks))
        marks[place] = unknown(rng, words[min(place, len(words) - 1)])
    return marks


def misread_alone(rng, words):
    """Returns these words with one or two of them misread, and no mark that is unclear."""
    marks = list(words)
    for place in rng.sample(range(len(marks)), rng.choice([1, 1, 2])):
        marks[place] = misread(rng, marks[place])
    if rng.random() < 0.2:
        marks[1] = misread(rng, words[1])
    return marks


def spelled(rng, marks):
    """Returns a line of these marks, often with other separators, capitals, or a whole word as a beginning of itself."""
    if rng.random() < 0.2:
        marks = [mark if "?" in mark else mark[:4] + "?" for mark in marks]
    if rng.random() < 0.2:
        marks = [mark.upper() if rng.random() < 0.3 else mark for mark in marks]
    if rng.random() < 0.2:
        return rng.choice(["", " ", "\t"]) + rng.choice([" ", "  ", "\t", " \r"]).join(marks) + rng.choice(["", " ", "\r"])
    return " ".join(marks)


def made_line(rng):
    words = plain.mnemonic(made_share(rng)).split(" ")
    if rng.random() < 0.15:
        words = with_bad_padding(rng, words)
    marks = misread_alone(rng, words) if rng.random() < 0.25 else damaged(rng, words)
    return spelled(rng, marks).encode()
