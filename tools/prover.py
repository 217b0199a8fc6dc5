"""The kit's command `rattle`, for a crate of this repository over the crates that it uses as they are in out/rlib."""
import contextlib
import functools
import json
import os
import pathlib
import re
import shutil
import subprocess

import crates
import kept

ROOT = pathlib.Path(__file__).resolve().parent.parent
# A check takes one to two and a half gigabytes.
BYTES_OF_A_CHECK = 3_000_000_000
GROUP = pathlib.Path("/sys/fs/cgroup")


def of_group(file: str, pattern: str) -> list[int]:
    """Returns the numbers that a file of the control group has so, or none if nothing is limited there."""
    with contextlib.suppress(OSError):
        found = re.search(pattern, (GROUP / file).read_text(), re.MULTILINE)
        return [int(it) for it in found.groups()] if found else []
    return []


def lanes() -> int:
    """Returns how many checks the machine can run at a time, or the container that this runs in."""
    free = next(int(line.split()[1]) * 1024 for line in open("/proc/meminfo") if line.startswith("MemAvailable"))
    most, used = of_group("memory.max", r"^(\d+)$"), of_group("memory.stat", r"^anon (\d+)$")
    if most and used:
        free = min(free, most[0] - used[0])
    processors, share = len(os.sched_getaffinity(0)), of_group("cpu.max", r"^(\d+) (\d+)$")
    if share:
        processors = min(processors, share[0] // share[1])
    return max(1, min(processors, free // BYTES_OF_A_CHECK))


def copied_file(one: str, other: str) -> None:
    """Copies a file that a proof left. A proof itself gets a link, as `rattle` writes it anew and never into it. It does write into
    other files."""
    try:
        if one.endswith(".oantt"):
            return os.link(one, other)
    except OSError:
        # There are no links from one disk to another.
        pass
    shutil.copy2(one, other)


def copied(folder: pathlib.Path, to: pathlib.Path) -> None:
    """Copies what a proof left."""
    shutil.copytree(folder, to, symlinks=True, copy_function=copied_file)


@functools.cache
def kit() -> pathlib.Path:
    doc = [os.environ.get("RT", "rt"), "doc"]
    return pathlib.Path(subprocess.run(doc, capture_output=True, text=True, check=True).stdout.strip()).parent


@functools.cache
def uses() -> dict[str, list[str]]:
    return crates.listed()


def built(name: str) -> pathlib.Path:
    return ROOT / "crates" / name / "out" / "rlib" / f"{name}.rlib"


def note_sources(to: pathlib.Path) -> None:
    """Writes the sum of each crate's sources into a file, before `rt ci` begins."""
    to.write_text(json.dumps({it: kept.sources(it) for it in uses()}))


def are_of_gate(noted: pathlib.Path, names: list[str]) -> bool:
    """Returns whether out/rlib has each of these crates as an `rt ci` made it that began after `note_sources` wrote this file, and
    whether their sources are still the same. The files of a crate may be older than the run, if `rt ci` took them from what an
    earlier one kept; the folder isn't."""
    began, sums = noted.stat().st_mtime_ns, json.loads(noted.read_text() or "{}")
    made = [(it, built(it)) for it in names]
    return all((at / "format").is_file() and at.stat().st_mtime_ns >= began and sums.get(it) == kept.sources(it) for it, at in made)


def root_file(name: str) -> str:
    """Returns the file that a crate begins with: that of a program, or that of a library."""
    return "src/main.rt" if (ROOT / "crates" / name / "src" / "main.rt").exists() else "src/lib.rt"


def words(verb: str, name: str, *options: str) -> list[str]:
    """Returns the command that checks or builds a crate. It runs in a folder that has the crate's src, specs and proofs."""
    given = [f"{kit()}/bin/rattle", verb, "--crate-name", name, root_file(name)]
    of_kit = ["std", *(it for it in uses()[name] if it not in uses())]
    given += [word for it in of_kit for word in ("--extern", f"{it}={kit()}/rlibs/{it}.rlib")]
    given += ["-L", f"dependency={kit()}/rlibs"]
    given += [word for it in uses()[name] if it in uses() for word in ("--extern", f"{it}={built(it)}")]
    given += [word for it in crates.below(name, uses()) for word in ("-L", f"dependency={built(it).parent}")]
    given += ["--antt-project", f"{kit()}/rattle/logic/antt-project.json", "--logic-built", f"{kit()}/logic_built"]
    return [*given, "--links", f"{name}=", *options]


def kind(name: str) -> list[str]:
    """Returns the options that say what kind of crate this is: a static library, or nothing."""
    return ["--crate-type", "staticlib"] if name in crates.static() else []


def ran(name: str, command: list[str]) -> str:
    """Runs a command in the folder of a crate, and returns what it prints. If the command fails, exits with status 2."""
    done = subprocess.run(command, cwd=ROOT / "crates" / name, stdout=subprocess.PIPE, stderr=subprocess.STDOUT, text=True)
    if done.returncode:
        print(done.stdout, f"{' '.join(command[:2])} ended with status {done.returncode}", sep="\n", flush=True)
        raise SystemExit(2)
    return done.stdout


def compiled(name: str, to: str, *options: str, toolchain: pathlib.Path | None = None) -> None:
    """Proves a crate and compiles it into a file, with the kit's toolchain or with one of its form in another folder."""
    by = ["--toolchain", str(toolchain or kit() / "toolchain"), "--backend", "llvm"]
    said = ran(name, words("build", name, *kind(name), *options, *by, "-o", to))
    if not any(line.startswith("logic=proved ") for line in said.splitlines()):
        print(said, f"{name} isn't proved", sep="\n", flush=True)
        raise SystemExit(2)


def linked(name: str, target: str, to: str, files: list[str], *options: str) -> None:
    """Links what was compiled into a file."""
    link = [f"{kit()}/bin/rattle-link", "--target", target, "--toolchain", f"{kit()}/toolchain"]
    ran(name, [*link, *options, "-o", to, *files])
