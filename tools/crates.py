"""What crates.txt lists: the crates of this repository, and the crates and libraries that each uses."""
import os
import pathlib
import subprocess

LIST = pathlib.Path(__file__).resolve().parent.parent / "crates.txt"


def lines() -> dict[str, str]:
    """Returns the line of each crate, without its comment, by the crate's name."""
    found = [line.partition("#")[0] for line in LIST.read_text().splitlines()]
    return {it.replace(":", " ").split()[0]: it for it in found if ":" in it}


def listed() -> dict[str, list[str]]:
    """Returns what each crate uses, by the crate's name."""
    return {name: line.partition(":")[2].split() for name, line in lines().items()}


def static() -> list[str]:
    """Returns the crates that are static libraries."""
    return [name for name, line in lines().items() if line.partition(":")[0].endswith(" staticlib")]


def below(name: str, uses: dict[str, list[str]]) -> list[str]:
    """Returns the crates of the repository that this one uses, directly or indirectly, each after those that it uses itself."""
    found: list[str] = []
    for it in uses[name]:
        if it in uses:
            found += [crate for crate in [*below(it, uses), it] if crate not in found]
    return found


def bring_up_to_date(names: list[str]) -> None:
    """Sees that out/rlib has the crates below these, by `rt lib`, which leaves those as they are that haven't changed."""
    uses = listed()
    under = {it for name in names for it in below(name, uses)}
    covered = {it for name in under for it in below(name, uses)}
    for name in sorted(under - covered):
        subprocess.run([os.environ.get("RT", "rt"), "lib"], cwd=LIST.parent / "crates" / name, check=True, stdout=subprocess.DEVNULL)
