"""The wrong bodies of crates, each an edit of the sources, their twins, and the functions that they change."""
import dataclasses
import pathlib
import re

# The wrong bodies of a crate, but those that `rt ci` tries.
LIST = "wrong-bodies.edits"
# `rt fmt` writes each function with its first line and its last brace at one indentation.
FUNCTION = re.compile(r"^( *)(?:pub(?:\([a-z:_ ]+\))? )?(?:final |const |unsafe |extern \"C\" )*fn (\w+)")
IMPL = re.compile(r"^impl(?:<[^{]*?>)? (?:([\w:]+)(<.*>)? for )?&?(?:'\w+ )?(?:\w+::)*(\w+)")


class Unfit(Exception):
    """An edit can't be read, or an `old:` text of it doesn't occur exactly once in its file."""


@dataclasses.dataclass(frozen=True)
class Pair:
    file: str
    old: str
    new: str
    twin: str | None


@dataclasses.dataclass(frozen=True)
class Edit:
    crate: str
    folder: str
    name: str
    pairs: tuple[Pair, ...]
    reason: str | None
    law: str | None

    @property
    def has_twin(self) -> bool:
        return any(pair.twin is not None for pair in self.pairs)

    def twin(self) -> "Edit":
        """Returns the right body of the same shape, as an edit."""
        pairs = tuple(Pair(it.file, it.old, it.new if it.twin is None else it.twin, None) for it in self.pairs)
        return dataclasses.replace(self, folder="twins", pairs=pairs, reason=None)

    def __str__(self) -> str:
        return f"{self.crate}/{self.name}"


def of_lines(crate: str, folder: str, name: str, lines: list[str]) -> Edit:
    pairs: list[Pair] = []
    file = old = ""
    reason = law = None
    for line in lines:
        word, _, text = line.partition(":")
        text = text.removeprefix(" ")
        if word == "file":
            file = text.strip()
        elif word == "old":
            old = text
        elif word == "new":
            pairs.append(Pair(file, old, text, None))
        elif word == "twin":
            pairs[-1] = dataclasses.replace(pairs[-1], twin=text)
        elif word == "twin-none":
            reason = text
        elif word == "law":
            law = text.strip()
        elif folder == LIST:
            raise Unfit(f"{crate}/{LIST}: no line of an edit begins as this one does: {line}")
    return Edit(crate, folder, name, tuple(pairs), reason, law)


def listed(text: str, crate: str) -> list[Edit]:
    """Returns the edits of a list. Each is a paragraph, whose first line is `edit: NAME`."""
    found = []
    for first, *lines in (it.split("\n") for it in re.split(r"\n{2,}", text.strip("\n")) if it):
        if not (named := re.fullmatch(r"edit: (\w+)", first)):
            raise Unfit(f"{crate}/{LIST}: a paragraph begins with '{first}' and not with the name of an edit")
        found.append(of_lines(crate, LIST, named[1], lines))
    return found


def of_crate(folder: pathlib.Path, *kinds: str) -> list[Edit]:
    """Returns the edits of the crate in this folder, of `must-fail`, of its list, or of both, by their names."""
    found = [it for kind in kinds if kind == LIST and (folder / LIST).exists() for it in listed((folder / LIST).read_text(encoding="utf-8"), folder.name)]
    for path in (folder / "must-fail").glob("*.edit") if "must-fail" in kinds else ():
        found.append(of_lines(folder.name, "must-fail", path.stem, path.read_text(encoding="utf-8").splitlines()))
    names = [it.name for it in found]
    if twice := {it for it in names if names.count(it) > 1}:
        raise Unfit(f"{folder.name}: two edits have the name {', '.join(sorted(twice))}")
    return sorted(found, key=lambda it: it.name)


def written(edit: Edit, folder: pathlib.Path, texts: dict[str, str]) -> dict[str, str]:
    """Returns the texts by file, with the edit in them, over `texts` and over the crate in this folder."""
    texts = dict(texts)
    for pair in edit.pairs:
        text = texts.get(pair.file) or (folder / pair.file).read_text(encoding="utf-8")
        if text.count(pair.old) != 1:
            raise Unfit(f"{edit}: an 'old:' text is {text.count(pair.old)} times in {pair.file}, and not once")
        texts[pair.file] = text.replace(pair.old, pair.new)
    return texts


def owner(lines: list[str], at: int) -> str:
    """Returns the type of the `impl` or the trait round this line, with the trait that it implements, or nothing."""
    for line in reversed(lines[:at]):
        if line.startswith("trait ") or line.startswith("pub trait "):
            return line.split("trait ", 1)[1].split("<")[0].split(":")[0].split(" ")[0]
        if found := IMPL.match(line):
            of, given, name = found.groups()
            parts = [name, (of or "").rpartition(":")[2], *re.findall(r"\w+", given or "")]
            return "".join(it[:1].upper() + it[1:] for it in parts)
        if line.startswith("}"):
            return ""
    return ""


def function_at(file: str, lines: list[str], at: int) -> str | None:
    """Returns the path, below the crate, of the function that this line is in, or None if it is in none."""
    for first in range(at, -1, -1):
        if found := FUNCTION.match(lines[first]):
            indent, name = found.groups()
            ends = (it for it in range(first, len(lines)) if lines[it].startswith(f"{indent}}}") or it == first and lines[it].endswith("}"))
            if next(ends, len(lines)) < at:
                return None
            modules = [it for it in file.removeprefix("src/").removesuffix(".rt").split("/") if it not in ("lib", "main", "mod")]
            return "::".join([*modules, *([owner(lines, first)] if indent else []), name])
    return None


def functions(edit: Edit, folder: pathlib.Path) -> set[str] | None:
    """Returns the paths, below the crate, of the functions that the edit changes or adds. Returns None if it changes anything else,
    such as a constant, a type or a definition."""
    found: set[str] = set()
    texts: dict[str, str] = {}
    for pair in edit.pairs:
        text = texts.get(pair.file) or (folder / pair.file).read_text(encoding="utf-8")
        at = text.count("\n", 0, text.index(pair.old)) if pair.old in text else 0
        texts[pair.file] = text.replace(pair.old, pair.new)
        lines = texts[pair.file].split("\n")
        inside = function_at(pair.file, lines, at)
        added = [function_at(pair.file, [*lines[:at], f"fn {name}() {{}}"], at) for name in re.findall(r"\bfn (\w+)", pair.new)]
        found |= {it for it in [inside, *added] if it}
        if inside is None and not added and not re.match(r" *(\*/ *)?//", lines[at]):
            return None
    return found
