"""What a check of a crate says of each of its functions."""
import dataclasses
import re

ERROR = re.compile(r"(?:\./)?(proofs/(\S+)/(?:Answers|Invariants|Proof)\.antt|(?:src|specs|proofs)/\S+?):\d+:\d+: error: (.*)")
LINE = re.compile(r"(?:fn|struct|enum|impl|trait|cycle) (\S+): (.*)")
NAMES = re.compile(r"has no field|is not in scope|has no `|was not admitted|was rejected, w")
UNREAD = re.compile(r"is not in scope|has no field|is no name|operand is missing|expected the end|cannot continue")


@dataclasses.dataclass(frozen=True)
class Verdict:
    said: str
    is_proved: bool
    # Whether the prover judged the crate. It doesn't if the code can't be compiled, or an edited text can't be read.
    is_judged: bool
    # The functions of the crate, and those that are refused for their own body, with what the prover says of each.
    functions: frozenset[str]
    refused: dict[str, list[str]]
    # The files of lemmas in which the prover refuses one for its value. Such a lemma is often the first that a wrong definition reaches.
    lemmas: list[str]

    def by_names(self, function: str) -> bool:
        """Returns whether a function is refused only because its proof names what isn't there any more."""
        return all(NAMES.search(it) for it in self.refused[function])

    def refuses(self, function: str | None) -> bool:
        """Returns whether a function is refused for a value, in its own proof or in a lemma."""
        return function in self.refused and (bool(self.lemmas) or not self.by_names(function))


def is_unread(file: str, text: str) -> bool:
    """Returns whether an error says that a file of src/ or specs/ can't be read, and not that a statement is false."""
    if not file.startswith(("src/", "specs/")):
        return False
    named = re.match(r"`[^`]*`: ", text)
    return not named or bool(UNREAD.search(re.sub(r"`[^`]*`", "", text[named.end() :])))


def verdict(crate: str, said: str) -> Verdict:
    lines = said.splitlines()
    last = next((it for it in reversed(lines) if it.startswith(("logic=", "only="))), "")
    errors: dict[str, list[str]] = {}
    lemmas: dict[str, None] = {}
    unread = False
    for line in lines:
        if found := ERROR.match(line):
            file, path, text = found.groups()
            if path:
                errors.setdefault(path.replace("/", "::"), []).append(text)
            elif file.startswith("proofs/") and not NAMES.search(text):
                lemmas[file] = None
            unread = unread or is_unread(file, text)
    functions: set[str] = set()
    refused: dict[str, list[str]] = {}
    for line in lines:
        if found := LINE.match(line):
            path, status = found[1].removeprefix(f"{crate}::"), found[2]
            functions.add(path)
            if status.startswith("no proof: expected") or status == "not proved" or status.startswith("not proved") and path in errors:
                refused[path] = errors.get(path, [status])
    only = re.match(r"only=(\d+) proved=(\d+)", last)
    is_proved = last.startswith("logic=proved") or bool(only and only[1] == only[2])
    return Verdict(said, is_proved, bool(last) and not unread, frozenset(functions), refused, list(lemmas))
