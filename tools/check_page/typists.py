"""How many papers go wrong that are typed in several ways, with and without a key after each word.

    python3 tools/check_page/typists.py [--papers N] [--browser NAME] [--page FILE] [WAY..]    500 papers in each way, if N isn't given

A paper that isn't as it was typed is told if the page marks a word, or if a field has no word of the list, so that the owner sees it. If nothing but
the checksum would show it, it goes wrong silently, and the check fails. A paper with a typo in one word is right if that word is marked, and all
others stand in their fields.
"""
import argparse
import json
import pathlib
import sys

sys.dont_write_bytecode = True
sys.path.insert(0, str(pathlib.Path(__file__).resolve().parent))

from browsers import NAMES, Failed, browser, workplace  # noqa: E402
from hands import Page  # noqa: E402
from texts import ROOT, say  # noqa: E402

import plain  # noqa: E402

SCRIPT = (pathlib.Path(__file__).resolve().parent / "typists.js").read_text()
# How much of each word is typed, and what follows it. In turn, one paper is typed whole, and of the next one four letters of each word. In the
# last one, both change from word to word. With a typo, words are typed whole, and one of them isn't as it should be. If answers are late, it is the
# last word, after whose first letters the paper is read, and the answer comes while more is typed.
ENDS = ["space", "Enter", "Tab"]
WAYS = [f"{short}, {end}" for short in ("least", "four", "whole") for end in ("nothing", *ENDS)] + [f"{what}, {end}" for what in ("typo", "late") for end in ENDS] + ["in turn, space", "mixed"]
# With a key after each word, all papers must be right.
SURE = [way for way in WAYS if way.endswith((", space", ", Enter", ", Tab"))]
PAPERS = 500
# So many papers of each way are typed in a check, and so many at most at a time.
FEW, PART = 6, 20


def measured(page, way, papers):
    """Types papers in one way. Returns how many are right, told and silent, and examples of those that aren't right."""
    all_found = {"right": 0, "told": 0, "silent": 0, "examples": []}
    for done in range(0, papers, PART):
        found = json.loads(page.evaluate(f"{SCRIPT.strip()}({json.dumps(plain.WORDS)}, {json.dumps(way)}, {min(PART, papers - done)}, {done + 1})"))
        all_found = {key: value + found[key] for key, value in all_found.items()}
    # Those that nothing but the checksum would show come first.
    all_found["examples"].sort(key=lambda it: it.startswith("told"))
    return all_found


def check(page, _, papers=FEW, ways=WAYS, tell=lambda text: None):
    """No paper goes wrong silently, and none at all that is typed in a sure way."""
    page.wait_title(say("home.title"))
    wrong = {}
    for way in ways:
        found = measured(page, way, papers)
        tell(f"{way}: {found['right']} right, {found['told']} told, {found['silent']} silent {found['examples'][:2]}")
        if found["silent"] or (way in SURE and found["told"]):
            wrong[way] = found
    if wrong:
        raise Failed(f"papers that are typed so go wrong: {wrong}")
    page.call("browsingContext.reload", wait="complete")
    page.wait_title(say("home.title"))


def main():
    parser = argparse.ArgumentParser(prog="tools/check_page/typists.py")
    parser.add_argument("--papers", type=int, default=PAPERS)
    parser.add_argument("ways", nargs="*", metavar="WAY", choices=[[], *WAYS])
    parser.add_argument("--browser", choices=NAMES, default="firefox")
    parser.add_argument("--page", type=pathlib.Path, default=ROOT / "shamir.html")
    given = parser.parse_args()
    with workplace(), browser(given.browser) as it:
        check(Page(it, given.page.resolve().as_uri()), None, given.papers, given.ways or WAYS, lambda text: print(text, flush=True))


if __name__ == "__main__":
    main()
