"""Checks what vectors/README.md says: its kinds and counts, its example, and how Electrum answers. Checks the files by the schema."""
import collections
import re
import sys

import plain
from left_out import left_out, python_with
from tool import ran

import data
import encrypted
import readers
import resplits
from case import differs

PAGE = data.FOLDER / "README.md"
# Another Electrum may answer in another way, and the page doesn't speak of it.
ELECTRUM = "4.3.4"
# Compares a file with its schema.
VALIDATE = """
import json, sys
from jsonschema import Draft202012Validator as Validator

schema, given = (json.load(open(name)) for name in sys.argv[1:])
Validator.check_schema(schema)
Validator(schema).validate(given)
"""


def rows(text, heading):
    """Returns the cells of each row of the table below a heading."""
    section = text.partition(f"\n## {heading}\n")[2].partition("\n## ")[0]
    return [line.strip("| ").split(" | ") for line in section.splitlines() if line.startswith("| ")][1:]


def check(mistakes):
    text = PAGE.read_text()
    counts = collections.Counter(kind for kind, _, _ in data.cases())
    told = {kind: int(count) for kind, count, _ in rows(text, "Kinds")}
    if told != counts:
        sys.exit(f"vectors/README.md counts {sorted(told.items() - counts.items())}, and there are {sorted(counts.items() - told.items())}")
    of_readers = [one for one in mistakes if one["of"] == "reader"]
    for sentence in [
        f"has {len(data.cases())} cases",
        f"has {len(data.published_form())} cases",
        f"{len(of_readers)} mistakes of readers and {len(mistakes) - len(of_readers)} of writers",
        f"The standard's 45 vectors catch {sum(one['caught_by_published'] for one in of_readers)} of the mistakes of readers",
        f"catches {sum(one['caught_by_slip_0039'] for one in of_readers)} of them",
    ]:
        if sentence not in " ".join(text.split()):
            sys.exit(f"vectors/README.md doesn't say that {sentence!r}")
    check_keys()
    check_schema()


def check_keys():
    """Compares the computing of master keys with the first test vector of BIP-32."""
    wanted = "xprv9s21ZrQH143K3QTDL4LXw2F7HEK3wJUD2nW2nRk4stbPy6cq3jPPqjiChkVvvNKmPGJxWUtg6LnF5kejMRNNU3TGtRBeJgk33yuGBxrMPHi"
    if data.master_key(bytes(range(16))) != wanted:
        sys.exit("the master key of BIP-32's first test vector is another one")


def check_schema():
    python = python_with("jsonschema")
    if python is None:
        left_out("no Python here has jsonschema, so vectors.json isn't compared with its schema")
        return
    ran([python, "-c", VALIDATE, "schema.json", "vectors.json"], cwd=data.FOLDER)


def has_flag(case):
    """Whether a mnemonic of a case has the extendable flag, which is a bit of its second word."""
    mnemonics = [case.given["mnemonic"]] if case.asks == "parse" else case.given["mnemonics"]
    seconds = [line.lower().split(" ")[1:2] for line in mnemonics]
    return any(plain.INDEX.get(second[0].encode(), 0) >> 4 & 1 for second in seconds if second)


def check_electrum():
    """Compares what Electrum answers with the rows of the page, if it is the Electrum of which the page speaks."""
    asked = [(case, right) for _, case, right in data.cases() if case.asks in ("parse", "recover")]
    found = readers.of_electrum([(case.asks, case.given) for case, _ in asked])
    if found is None:
        left_out("Electrum isn't here (Debian: python3-electrum), so it isn't asked")
        return
    version, answers = found
    other = {case.id: has_flag(case) for (case, right), answer in zip(asked, answers) if differs(answer, right)}
    if version != ELECTRUM:
        left_out(f"Electrum {version} is here, so its answers aren't compared with what vectors/README.md says of Electrum {ELECTRUM}")
        return
    text = PAGE.read_text()
    told = set(re.findall(r"`([a-z0-9-]+)`", " ".join(cells[1] for cells in rows(text, "What Electrum answers"))))
    sentence = f"Of the {len(asked)} cases that ask to parse or to recover, it differs in {len(other)}. In {sum(other.values())} of these"
    without = {id for id, flag in other.items() if not flag}
    if told != without or sentence not in text:
        sys.exit(f"vectors/README.md says of Electrum {sorted(told)}, and it differs in {sorted(without)}. {sentence!r}")


def old_flag(share):
    """Returns a mnemonic as an Electrum reads it that doesn't know the extendable flag: with the checksum of other mnemonics."""
    return plain.closed(plain.data_of(share), b"shamir")


def check_sealed():
    """Checks that Electrum combines quorums to the encrypted secrets that are right: of the cases that ask for one, and of each backup that
    is split anew together with the new one."""
    asked, wanted = [], []
    for id, quorums, value in [*encrypted.sealed(), *resplits.sealed()]:
        asked += [("combine", {"mnemonics": list(map(old_flag, quorum))}) for quorum in quorums]
        wanted += [(id, {"encrypted": value.hex()})] * len(quorums)
    found = readers.of_electrum(asked)
    if found is None:
        left_out("Electrum isn't here (Debian: python3-electrum), so it doesn't combine what is split anew")
        return
    for (id, right), answer in zip(wanted, found[1], strict=True):
        if answer != right:
            sys.exit(f"{id}: Electrum combines mnemonics to {answer}, and right is {right}")
