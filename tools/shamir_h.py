"""Reads include/shamir.h: its calls with their parameters, its structs, its codes and numbers, and what its comments say."""
import re
from typing import Dict, Iterator, List, NamedTuple, Set, Tuple

from tool import ROOT

PATH = ROOT / "include" / "shamir.h"
TEXT = PATH.read_text()
[VERSION] = re.findall(r'^#define SHAMIR_VERSION "(.*)"$', TEXT, re.MULTILINE)
# The numbers and codes in their order, by their names without SHAMIR_ or SHAMIR_E_.
NUMBERS = {name: int(number) for name, number in re.findall(r"^#define SHAMIR_(\w+) (\d+)$", TEXT, re.MULTILINE)}
CODES = {name: int(number) for name, number in re.findall(r"^    SHAMIR_(?:E_|(?=DONE ))(\w+) = (\d+)\b", TEXT, re.MULTILINE)}
# How much room is enough for the output of each call that has one.
ENOUGH = dict.fromkeys(["parse", "recover", "encrypted", "decrypt", "decrypt_round"], NUMBERS["SECRET_BYTES_MAX"])
ENOUGH |= dict.fromkeys(["create", "create_from_encrypted", "resplit", "reissue"], NUMBERS["MNEMONICS_BYTES_MAX"])
ENOUGH |= dict.fromkeys(["status", "judge"], NUMBERS["STATUS_BYTES_MAX"]) | dict.fromkeys(["text", "version"], NUMBERS["TEXT_BYTES_MAX"])
ENOUGH |= {"drill": NUMBERS["LISTING_BYTES_ENOUGH"], "repair": NUMBERS["REPAIRED_BYTES_MAX"]}
ENOUGH |= {"fingerprint": NUMBERS["FINGERPRINT_BYTES_MAX"], "words": NUMBERS["WORDS_BYTES_MAX"]}
# A comment of the header, and what it is about: the lines up to the next blank one.
COMMENTED = re.compile(r"^/\*((?:(?!\*/)[\s\S])*)\*/\n((?:.+\n)+)", re.MULTILINE)


def commented(text: str = TEXT) -> Iterator[Tuple[List[str], str]]:
    """Yields the paragraphs of each comment of the header, and what it is about."""
    for says, about in COMMENTED.findall(text):
        yield re.sub(r"^ \* ?", "", says, flags=re.MULTILINE).strip().split("\n\n"), about


def calls(text: str = TEXT) -> Dict[str, Tuple[str, List[str], List[str]]]:
    """Returns each call of the header with the type of its result, its parameters and the paragraphs of its comment."""
    found = {}
    for says, about in commented(text):
        for kind, name, given in re.findall(r"^SHAMIR_CALL.*\n(shamir_answer|void) (\w+)\(([^;]*)\);", about):
            found[name] = kind, [" ".join(one.split()) for one in given.split(",")], says
    return found


class Declared(NamedTuple):
    """A parameter or a field: its type, without the space before the name, and its name."""

    kind: str
    name: str


def parameters(text: str = TEXT) -> Dict[str, List[Declared]]:
    """Returns the parameters of each call."""
    return {call: [declared(one) for one in given] for call, (_, given, _) in calls(text).items()}


def structs(text: str = TEXT) -> Dict[str, List[Declared]]:
    """Returns the fields of each struct that a call of the library reads or fills."""
    bodies = dict(re.findall(r"^typedef struct (shamir_\w+) \{\n(.*?)^\}", text, re.MULTILINE | re.DOTALL))
    named = {name for given in parameters(text).values() for kind, _ in given for name in re.findall(r"shamir_\w+", kind)} | {"shamir_answer"}
    return {name: [declared(one) for one in re.findall(r"^    ([^;/]+);", bodies[name], re.MULTILINE)] for name in sorted(named)}


def declared(text: str) -> Declared:
    kind, name = re.fullmatch(r"(.*?)(\w+)", " ".join(text.split())).groups()  # type: ignore[union-attr]
    return Declared(kind.strip(), name)


def listed(text: str) -> Set[int]:
    """Returns the codes of a list such as `2 (a limit of 0), 11 to 15, 1`. What stands in brackets and isn't such a list is left out."""
    outside = re.sub(r"\((?![\d ,to]+\))[^)]*\)", "", text)
    ranges = ((int(first), int(last or first)) for first, last in re.findall(r"\b(\d+)(?: to (\d+))?\b", outside))
    return {code for first, last in ranges for code in CODES.values() if first <= code <= last}


def refusals(text: str = TEXT) -> Dict[str, Set[int]]:
    """Returns the codes that the comment of each call lists."""
    found = {}
    for call, (_, _, says) in calls(text).items():
        lists = [it for it in says if it.startswith(("The call refuses with the first of these that applies: ", "The only refusal is "))]
        first, *_ = re.split(r"\.(?: |$)", " ".join(lists[0].split())) if lists else [""]
        found[call] = listed(first)
    return found
