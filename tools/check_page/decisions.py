"""What the page decides by itself, beside tools/decisions.json, which shamir-papers is tested with too. Node runs the page's modules, without a browser."""
import json
import pathlib
import shutil
import subprocess
import tempfile

from browsers import Failed
from left_out import is_here
from samples import PLANS, SOUND_PAPER, THREE_GROUPS, changed, papers_of
from texts import ROOT
from tool import ran

TABLE = ROOT / "tools/decisions.json"
# Papers that agree, that a digest tells apart, and some of which give other secrets.
SETS = [THREE_GROUPS, THREE_GROUPS[1:], [changed(THREE_GROUPS[0], value=bytes(16)), *THREE_GROUPS[1:]], [*THREE_GROUPS[:3], changed(THREE_GROUPS[3], value=bytes(16)), THREE_GROUPS[4]]]
SETS += [papers_of(plan) for plan in PLANS]
SETS += [[changed(SOUND_PAPER, group_count=5, group=group, value=bytes([group]) * 16) for group in range(5)]]
RUNNER = pathlib.Path(__file__).resolve().parent / "decisions.mjs"


def engine():
    """Returns the module that the page has in it, or, if none is built, the one that needs no build."""
    return next(path for path in (ROOT / "shamir32.wasm", ROOT / "dist/shamir32.wasm") if path.exists())


def check(root=ROOT):
    """Compares each case of the table with what the page in a folder decides."""
    if not is_here("node", "what the page decides isn't compared with tools/decisions.json"):
        return
    with tempfile.TemporaryDirectory() as name:
        folder = pathlib.Path(name)
        shutil.copytree(root / "page", folder / "page", ignore=shutil.ignore_patterns("out"))
        shutil.copytree(root / "bindings/js", folder / "bindings/js", ignore=shutil.ignore_patterns("node_modules"))
        # So Node takes the sources for modules.
        (folder / "package.json").write_text('{ "type": "module" }\n')
        (folder / "sets.json").write_text(json.dumps(SETS))
        *different, count = ran(["node", RUNNER, folder, engine(), TABLE, folder / "sets.json"], stderr=subprocess.PIPE).splitlines()
    if different:
        raise Failed(f"{len(different)} decisions of the page aren't those of tools/decisions.json, such as {different[0][:900]}")
    if int(count) != sum(map(len, json.loads(TABLE.read_text()).values())):
        raise Failed(f"only {count} cases of tools/decisions.json were compared")
