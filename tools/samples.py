"""The papers and backups of the walks through shamir.html (tools/check_page) and shamir-papers (tools/check_papers), and what must be said of
them. They are from outside: from examples/, from tools/plain.py, or from ./shamir.
"""
import subprocess
import tempfile

import plain
from tool import ROOT, Failed

PROGRAM = str(ROOT / "shamir")
PASSPHRASE = "TREZOR"
SECRET, FINGERPRINT = "bb54aac4b89dc868ba37d9cc21b2cece", "df41d8fe"
# The plans of generated backups.
PLANS = ["2of3", "3of5", "1of1", "2/2of3,1of1,1of1", "2/3of5,1of1", "3/2of2,3of4,1of1,2of3"]


def example(name):
    return [line for line in (ROOT / "examples" / name).read_text().splitlines() if line and not line.startswith("#")]


# ---- papers


THREE_GROUPS = example("three-groups.txt")
TWO = example("two-needed.txt")
SOUND_PAPER = example("one-of-one.txt")[0]
# Published vectors of SLIP-0039. In the first, word 20 is wrong.
BAD_CHECKSUM = SOUND_PAPER.replace("keyboard", "kidney")
EXCHANGED = SOUND_PAPER.replace("length solution", "solution length")
BAD_PADDING = "duckling enlarge academic academic email result length solution fridge kidney coal piece deal husband erode duke ajar music cargo fitness"
LONG = (
    "theory painting academic academic armed sweater year military elder discuss acne wildlife boring employer fused large satoshi "
    "bundle carbon diagnose anatomy hamster leaves tracks paces beyond phantom capital marvel lips brave detect luck"
)
BIP39 = "legal winner thank year wave sausage worth useful legal winner thank yellow"
BIP39_LONG = "abandon ability able about above absent absorb abstract absurd abuse access accident " * 2


def changed(line, **fields):
    """Returns the mnemonic of a share with other fields."""
    return plain.mnemonic(plain.parse(line.encode()) | fields)


def with_words(line, changes):
    """Returns a paper with other words at some places, counted from 1."""
    words = line.split()
    for place, word in changes.items():
        words[place - 1] = word
    return " ".join(words)


def swapped(line, place):
    """Returns a paper of which this word and the next one changed places."""
    words = line.split()
    return with_words(line, {place: words[place], place + 1: words[place - 1]})


def swappable(line):
    """Returns the place of a word that isn't the next one too."""
    words = line.split()
    return next(place for place in range(3, len(words)) if words[place - 1] != words[place])


def name_of(line):
    share = plain.parse(line.encode())
    return f"{share['group']}.{share['member']}"


def named(lines):
    return ", ".join(map(name_of, lines))


def opening(line, count=2):
    """Returns how a paper begins: its first two words are those of all papers of its backup."""
    return " ".join(line.split()[:count])


def papers_of(plan, passphrase="", exponent=0, is_extendable=False, secret=bytes(range(16))):
    """Returns the papers of a backup, by the plain reading."""
    plan = plain.parse_plan(plan)
    random = bytes(at % 256 for at in range(plain.random_needed(plan, len(secret))))
    return [plain.mnemonic(share) for share in plain.create(plan, secret, passphrase.encode(), exponent, is_extendable, random)]


# ---- what the plain reading says of papers


def data_of(lines):
    return "".join(line + "\n" for line in lines).encode()


def recovered(lines, passphrase, by_fingerprint):
    told, refused, _ = plain.run_recover(passphrase.encode(), data_of(lines), by_fingerprint)
    if refused:
        raise Failed(f"the plain reading recovers nothing: {refused}")
    return told.strip()


def secret_of(lines, passphrase):
    return recovered(lines, passphrase, False)


def fingerprint_of(lines, passphrase):
    return recovered(lines, passphrase, True)


def secrets_of(lines, passphrase):
    """Returns what the quorums of papers give, each answer once."""
    told, _, _ = plain.run_drill(passphrase.encode(), None, 1000, data_of(lines))
    return {line.partition(" ")[2] for line in told.splitlines()[:-1]}


def names_of(plan):
    return [f"{group}.{member}" for group, (_, members) in enumerate(plain.parse_plan(plan)[1]) for member in range(members)]


def check_papers_of(lines, plan, extendable, exponent, words=20):
    """Checks that these are the papers of a plan, in their order, and that each has this flag, this exponent and so many words."""
    needed, groups = plain.parse_plan(plan)
    found = [(name_of(line), share, len(line.split())) for line, share in ((line, plain.parse(line.encode())) for line in lines)]
    if [name for name, _, _ in found] != names_of(plan):
        raise Failed(f"the papers of {plan} are {[name for name, _, _ in found]}, and not {names_of(plan)}")
    for name, it, count in found:
        shown = (it["group_threshold"], it["group_count"], it["member_threshold"], it["extendable"], it["exponent"], count)
        wanted = (needed, len(groups), groups[it["group"]][0], extendable, exponent, words)
        if shown != wanted:
            raise Failed(f"thresholds, flag, exponent and words of paper {name} of {plan} are {shown}, and not {wanted}")


def check_backups(old, new, plan, extendable, passphrase=PASSPHRASE):
    """Checks the new papers of a changed plan: they have another identifier than the old ones, and their exponent and length. Each quorum of them
    gives the old secret, with each passphrase if both backups are extendable, and else with this one alone."""
    first = plain.parse(old[0].encode())
    check_papers_of(new, plan, extendable, first["exponent"], len(old[0].split()))
    if any(plain.parse(line.encode())["id"] == first["id"] for line in new):
        raise Failed("the new papers have the old identifier")
    for tried in dict.fromkeys([passphrase, "", "another"]):
        is_same = secrets_of(new, tried) == {secret_of(old, tried)}
        if is_same != (tried == passphrase or extendable == first["extendable"] == 1):
            raise Failed(f"with the passphrase {tried!r}, old and new papers {'agree' if is_same else 'differ'}")


def refused_beside(line):
    """Returns papers that are sound, and that are refused beside this one, whose identifier they have. Each comes with the number of the refusal,
    and the values of its sentence."""
    value = plain.parse(line.encode())["value"]
    return [
        (changed(line, extendable=1), 22, {}),
        (changed(line, exponent=3), 23, {}),
        (changed(line, group_threshold=1), 24, {}),
        (changed(line, group_count=4), 25, {}),
        (changed(line, value=value + value), 26, {}),
        (changed(line, member=5, member_threshold=3), 27, {"first": 0}),
        (changed(line, value=value[::-1]), 28, {"first": 0, "second": 0}),
    ]


def said_kind(line, say, counted):
    """Returns what must be said of one paper, in the sentences of the page or of the terminal."""
    share = plain.parse(line.encode())
    members, groups = share["member_threshold"] - 1, share["group_threshold"] - 1
    papers, whole = counted(members, "paper"), counted(groups, "whole")
    others = {
        (False, False): say("what.others.none"),
        (True, False): say("what.others.papers" if share["group_count"] == 1 else "what.others.group", papers=papers, group=share["group"]),
        (False, True): say("what.others.groups", groups=whole),
        (True, True): say("what.others.both", papers=papers, group=share["group"], groups=whole),
    }[members > 0, groups > 0]
    first, second = line.split()[:2]
    return [
        say("what.backup", first=first, second=second),
        others,
        say("what.flag" if share["extendable"] else "what.flag.none"),
        say("what.exponent", exponent=share["exponent"]),
        say("what.secret", bytes=len(share["value"])),
    ]


# ---- generated backups


class Generated:
    """A backup that ./shamir makes: its plan, secret, passphrase and papers, and the fingerprint of its secret. What is random comes from `source`."""

    def __init__(self, source, plans=PLANS, sizes=(16, 32)):
        self.source, self.plan, self.secret = source, source.choice(plans), source.randbytes(source.choice(sizes))
        self.passphrase = "".join(chr(source.randrange(32, 127)) for _ in range(source.randrange(12)))
        self.exponent, self.extendable = source.randrange(2), source.random() < 0.5
        words = ["create", self.plan, "--master-secret", self.secret.hex(), "--exponent", str(self.exponent)]
        words += ["--extendable"] if self.extendable else []
        needed = self.told(words, b"")[1].split()
        self.random = source.randbytes(int(needed[-2]))
        self.papers = self.told(words, self.random)[0].splitlines()
        self.noted = self.told(["recover", "--fingerprint"], data_of(self.papers))[0].strip()

    def told(self, words, data):
        """Returns the output of ./shamir, its message and its status."""
        with tempfile.NamedTemporaryFile() as file:
            file.write(self.passphrase.encode())
            file.flush()
            options = ["--passphrase-file", file.name] if words[0] in ("create", "recover", "drill") else []
            done = subprocess.run([PROGRAM, *words, *options], input=data, capture_output=True)
        return done.stdout.decode(), done.stderr.decode(), done.returncode
