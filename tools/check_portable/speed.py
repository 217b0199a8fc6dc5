"""Measures the library as plain C beside libshamir.a, in one run. No time makes it fail."""
import importlib
import tempfile
from typing import Any, Dict, List

import builds
import driver
from builds import ROOT, run

plain: Any = importlib.import_module("plain")

REPEATS = 5
DRILLED = 12870


def calls() -> Dict[str, "tuple[str, int]"]:
    """Returns the calls that are measured, each with how often it is made."""
    plan, drawn = plain.parse_plan("8of16"), bytes((91 * i + 17) % 256 for i in range(1000))
    shares = plain.create(plan, bytes(32), b"", 0, True, drawn[: plain.random_needed(plan, 32)])
    lines = [plain.mnemonic(share) for share in shares]
    backup = "".join(line + "\n" for line in lines)
    return {
        "parse": (driver.line("parse", [lines[0]], 128), 20000),
        "recover": (driver.line("recover", [backup, None, 15, None], 128), 20),
        f"drill of {DRILLED:,} quorums": (driver.line("drill", [backup, None, 15, None, DRILLED, 1, None], 4 << 20), 1),
    }


def libraries() -> Dict[str, List[str]]:
    """Returns the words with which each library is compiled."""
    source = str(builds.DIST / "shamir.c")
    return {"libshamir.a": [str(ROOT / "libshamir.a")], "plain C": [source], "plain C, checked": ["-DSHAMIR_CHECKED", source]}


def times_of(program: str) -> List[float]:
    return [float(time) for line, count in calls().values() for time in driver.answers([program], [line], "times", str(count))]


def measure() -> None:
    """Prints the best times of calls, and how they compare with those of libshamir.a; and the size for 32-bit ARM."""
    with tempfile.TemporaryDirectory() as folder:
        programs: Dict[str, str] = {}
        for name, words in libraries().items():
            programs[name] = driver.built(f"{folder}/{len(programs)}", ["gcc", "-O2", f"-I{builds.DIST}"], *words)
        # The programs take turns, so that what else runs slows down all of them.
        found = [{name: times_of(program) for name, program in programs.items()} for _ in range(REPEATS)]
        best = {name: [min(times) for times in zip(*(turn[name] for turn in found))] for name in programs}
        for name, times in best.items():
            for call, time, native in zip(calls(), times, best["libshamir.a"]):
                print(f"{name}, {call}: {time:.1f} us, {time / native:.2f} times that of libshamir.a")
        run(["arm-linux-gnueabihf-gcc", "-std=c99", "-Os", "-c", str(builds.DIST / "shamir.c"), "-o", f"{folder}/arm.o"])
        text = int(run(["size", f"{folder}/arm.o"]).split()[6])
        print(f"plain C for 32-bit ARM with -Os: {text / 1000:.0f} kB")
