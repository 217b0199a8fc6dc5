"""Writes the cases of vectors/ as inputs of the targets.

    python3 tools/fuzz/corpus.py FOLDER
"""
import itertools
import json
import pathlib
import sys
from typing import Iterator

ROOT = pathlib.Path(__file__).resolve().parents[2]
# The numbers by which the targets know the calls, and that of the largest room.
PARSE, RECOVER, ENCRYPTED, DECRYPT, DRILL, STATUS, REISSUE, RESPLIT, REPAIR, FINGERPRINT, CREATE, JUDGE, FROM_ENCRYPTED, ROUND, WORDS = range(15)
LARGEST = 9
ASKED = {"parse": PARSE, "recover": RECOVER, "quorums": DRILL, "encrypted": ENCRYPTED, "decrypt": DECRYPT, "create": CREATE, "resplit": RESPLIT}
ASKED |= {"create_from_encrypted": FROM_ENCRYPTED, "decrypt_round": ROUND}


def inputs() -> Iterator[bytes]:
    """Yields two inputs for each case: what it asks, and another call of the same lines."""
    others = itertools.cycle([PARSE, REPAIR, STATUS, JUDGE, ENCRYPTED, REISSUE, RESPLIT, FROM_ENCRYPTED])
    for case in json.loads((ROOT / "vectors" / "vectors.json").read_text())["cases"]:
        given = case["given"]
        lines = "\n".join(given.get("mnemonics", [given.get("mnemonic", given.get("value", given.get("secret", "")))]))
        texts = dict.fromkeys([RECOVER, DECRYPT, ROUND], given.get("passphrase", "")) | {DRILL: "", JUDGE: lines.partition("\n")[0]}
        for call in (ASKED[case["asks"]], next(others)):
            text = texts.get(call, given.get("plan", "2of3"))
            yield bytes([call, LARGEST]) + f"{text}\0{lines}".encode()
    yield from (bytes([call, LARGEST]) + b"em\0sixteen bytes or" for call in (WORDS, FINGERPRINT))


def write(folder: pathlib.Path) -> int:
    """Writes each input into a file of a folder. Returns how many there are."""
    found = sorted(set(inputs()))
    for number, data in enumerate(found):
        (folder / f"vector-{number}").write_bytes(data)
    return len(found)


if __name__ == "__main__":
    print(write(pathlib.Path(sys.argv[1])), "inputs")
