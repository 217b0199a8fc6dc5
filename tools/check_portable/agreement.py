"""Compares the library as plain C with the native library, on generated calls and for each build."""
import multiprocessing
import pathlib
import sys
from typing import List

sys.path.insert(0, str(pathlib.Path(__file__).resolve().parents[1]))

import builds  # noqa: E402
import driver  # noqa: E402
import generated  # noqa: E402

PARTS = 20
# So many of the calls the sanitizers, the code without optimisation, and the threads make.
SANITIZED, SLOW, THREADED, THREADS = 400, 400, 60, 8


def part(numbers: "tuple[int, int]") -> List[str]:
    count, seed = numbers
    return generated.made(count, seed)


def calls_of(count: int, seed: int) -> List[str]:
    """Returns the generated calls, made side by side."""
    each = -(-count // PARTS)
    with multiprocessing.get_context("fork").Pool() as pool:
        return [line for lines in pool.map(part, [(each, seed * PARTS + number) for number in range(PARTS)]) for line in lines]


def agreed(target: builds.Target, calls: List[str], right: List[str], folder: str, *how: str) -> None:
    """Sees that a build gives the answers of the native library."""
    driver.check(builds.words_of(target, builds.built(target, folder), folder), [*zip(calls, right)], *how)


def agreed_with_vectors(target: builds.Target, calls: List[str], right: List[str], folder: str) -> None:
    """Sees that a build gives the answers of the native library, and those of the vectors in test.c."""
    agreed(target, calls, right, folder)
    builds.run(builds.words_of(target, builds.with_vectors(target, folder), folder))


def agreed_in_threads(target: builds.Target, calls: List[str], right: List[str], folder: str) -> None:
    """Sees that threads that make the same calls at once get the answers of the native library, and no race."""
    agreed(target, calls, right, folder, "threads", str(THREADS))
