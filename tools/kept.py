"""The wrong bodies that passed in earlier runs of tools/edits on this machine.

A pass is kept under a sum of all that it rests on: the edit, the sources of its crate and of the crates below, their lines of
crates.txt, what the kit says of itself, and the tools that judge. So a pass counts only as long as all of these are the same. The passes
are in ~/.cache/shamir/edits, in one small file for each crate and sum. Without this folder, nothing is kept.
"""
import contextlib
import functools
import hashlib
import os
import pathlib
import subprocess
import time

import crates

TOOLS = pathlib.Path(__file__).resolve().parent
JUDGES = ("edits", "edit.py", "verdict.py", "prover.py", "kept.py", "crates.py")
FOLDER = pathlib.Path(os.environ.get("XDG_CACHE_HOME") or "~/.cache").expanduser() / "shamir" / "edits"
# A file that no run has read for so long is removed.
DAYS = 60


def sum_of(parts: list[bytes]) -> str:
    """Returns a sum of these parts. It covers where each ends."""
    return hashlib.sha256(b"".join(b"%d:%b" % (len(it), it) for it in parts)).hexdigest()


def sources(name: str) -> str:
    """Returns a sum of the sources of a crate and of those below it, and of their lines of crates.txt."""
    parts = []
    for it in [*crates.below(name, crates.listed()), name]:
        folder = crates.LIST.parent / "crates" / it
        files = sorted(file for part in ("src", "specs", "proofs") for file in (folder / part).rglob("*") if file.is_file())
        parts += [crates.lines()[it].encode(), *(text for file in files for text in (os.fsencode(file.relative_to(folder)), file.read_bytes()))]
    return sum_of(parts)


@functools.cache
def judges() -> str:
    """Returns a sum of what the kit says of itself and of the tools that judge, as they were when the tool began."""
    rt = os.environ.get("RT", "rt")
    version, page = (subprocess.run([rt, it], capture_output=True, check=True).stdout for it in ("version", "doc"))
    parts = sorted(pathlib.Path(os.fsdecode(page.strip())).parent.glob("WHAT*"))
    return sum_of([version, *(it.read_bytes() for it in parts), *((TOOLS / it).read_bytes() for it in JUDGES)])


def sum_over(crate: str) -> str:
    """Returns the sum of all that a pass of an edit of this crate rests on, beside the edit."""
    return sum_of([judges().encode(), sources(crate).encode()])


def sum_of_edit(edit: object) -> str:
    return sum_of([repr(edit).encode()])


class Passes:
    """The edits of a crate that passed in runs of these kinds: in a gate, over what the gate had proved, or in another check."""

    def __init__(self, crate: str, kinds: list[str]):
        self.crate, self.sum = crate, sum_over(crate)
        self.file = FOLDER / f"{crate}-{self.sum}"
        self.passed: set[str] = set()
        with contextlib.suppress(OSError):
            lines = (it.split(" ") for it in self.file.read_text(errors="replace").splitlines())
            self.passed = {it[1] for it in lines if len(it) == 2 and it[0] in kinds}
            os.utime(self.file)

    def has(self, edit: object) -> bool:
        return sum_of_edit(edit) in self.passed

    def keep(self, edits: list[object], in_gate: bool) -> None:
        """Keeps that these edits passed, if the sources are still those that the run began with."""
        if sum_over(self.crate) == self.sum:
            with contextlib.suppress(OSError):
                FOLDER.mkdir(parents=True, exist_ok=True)
                with open(self.file, "ab", buffering=0) as file:
                    file.write("".join(f"{'gate' if in_gate else 'check'} {sum_of_edit(it)}\n" for it in edits).encode())

    def forget(self) -> None:
        """Forgets what passed, and keeps nothing more: the prover refuses a right body, too."""
        self.sum = ""
        with contextlib.suppress(OSError):
            self.file.unlink()


def clear() -> None:
    """Removes the files that no run has read for long."""
    with contextlib.suppress(OSError):
        for it in FOLDER.iterdir():
            if it.stat().st_mtime < time.time() - DAYS * 86400:
                it.unlink()
