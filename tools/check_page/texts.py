"""What the page says: the table of page/texts.js."""
import json
import pathlib
import re

ROOT = pathlib.Path(__file__).resolve().parent.parent.parent


def read(folder):
    """Returns the table. It is JSON between its first and its last line."""
    source = (folder / "texts.js").read_text()
    return json.loads(source[source.index("{\n", source.index("export const TEXTS")) : source.index("\n};") + 2])


TABLE = read(ROOT / "page")


def say(key, **values):
    return re.sub(r"\{(\w+)\}", lambda found: str(values[found[1]]), TABLE[key])


def counted(n, noun):
    return say(f"{noun}.{'one' if n == 1 else 'many'}", n=n)
