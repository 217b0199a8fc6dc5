"""Feeds calls of the library with inputs that nobody wrote, which begin as the cases of vectors/.

    python3 tools/fuzz c [--seconds N] [WORD..]        libFuzzer over dist/c, with clang and its sanitizers (target.c)
    python3 tools/fuzz python [--seconds N] [--seed S]  the Python package beside a plain reading of the standard (tools/plain.py)

bindings/rust/fuzz has a target for `cargo fuzz`, with the same inputs.

It takes a minute by default, and exits with another status than 0 if something is wrong. Further words go to libFuzzer. What it finds is left in
this folder as crash-SUM. The target in C takes half a minute to build.
"""
import argparse
import pathlib
import random
import shutil
import subprocess
import sys
import tempfile
import time
from typing import List

sys.dont_write_bytecode = True
HERE = pathlib.Path(__file__).resolve().parent
ROOT = HERE.parent.parent
sys.path[:0] = [str(HERE), str(ROOT / "tools")]

import corpus  # noqa: E402


def fuzz_c(seconds: int, words: List[str]) -> int:
    """Lets libFuzzer run the target for C. The library is checked by its own checks of addresses, and what it takes and gives by ASan."""
    if not shutil.which("clang"):
        sys.exit("tools/fuzz: clang isn't here")
    with tempfile.TemporaryDirectory() as folder:
        inputs = pathlib.Path(folder, "inputs")
        inputs.mkdir()
        corpus.write(inputs)
        dist = ROOT / "dist" / "c"
        library = ["clang", "-O1", "-fsanitize=fuzzer-no-link", "-DSHAMIR_CHECKED", "-c", str(dist / "shamir.c"), "-o", f"{folder}/shamir.o"]
        subprocess.run(library, check=True)
        sanitizers = ["-fsanitize=fuzzer,address,undefined", "-fno-sanitize-recover=all"]
        target = ["clang", "-O1", "-g", *sanitizers, f"-I{dist}", str(HERE / "target.c"), f"{folder}/shamir.o", "-o", f"{folder}/target"]
        subprocess.run(target, check=True)
        limits = [f"-max_total_time={seconds}", "-max_len=4000", "-timeout=60", "-print_final_stats=1"]
        return subprocess.run([f"{folder}/target", *limits, *words, str(inputs)]).returncode


def mutated(rng: random.Random, inputs: List[bytes]) -> bytes:
    """Returns the lines of an input with a few changes: of bytes, of words, or with lines of another input."""
    data = rng.choice(inputs).partition(b"\0")[2]
    for _ in range(rng.choice([0, 1, 1, 2, 4])):
        at = rng.randrange(len(data) + 1)
        way = rng.randrange(5)
        if way == 0:
            data = data[:at] + rng.randbytes(1) + data[at + 1 :]
        elif way == 1:
            data = data[:at] + rng.choice([b" ", b"\n", b"?", b"# ", b"\r\n", b"\t", b"\0", b"\xff"]) + data[at:]
        elif way == 2:
            data += b"\n" + rng.choice(inputs).partition(b"\0")[2]
        else:
            words = data.split(b" ")
            words[rng.randrange(len(words))] = rng.choice([*rng.choice(inputs).split(b" "), b"?", b"ac?"])
            data = b" ".join(words)
    return data


def fuzz_python(seconds: int, seed: int) -> int:
    """Compares what the package gives for changed inputs with the plain reading."""
    import plain
    from tool import tool

    library = tool("library")
    rng, inputs = random.Random(seed), sorted(set(corpus.inputs()))
    # A recovery could take the iterations of a high exponent.
    right = {"status": plain.run_status, "encrypted": plain.run_encrypted, "show": plain.run_show, "repair": plain.run_repair}
    end, tried = time.monotonic() + seconds, 0
    while time.monotonic() < end:
        name, data = rng.choice([*right]), mutated(rng, inputs)
        if name in ("show", "repair"):
            data = library.compare.first_line(data)
        expected = right[name](data)
        found = library.printed([name], data)
        if found != expected[:2]:
            sys.exit(f"{name} of {data!r} gives {found}, in place of {expected}")
        tried += 1
    print(f"python: {tried} calls agree with the plain reading (seed {seed})")
    return 0


def main() -> None:
    words = argparse.ArgumentParser()
    words.add_argument("target", choices=["c", "python"])
    words.add_argument("--seconds", type=int, default=60)
    words.add_argument("--seed", type=int, default=None)
    given, others = words.parse_known_args()
    if given.target == "python":
        sys.exit(fuzz_python(given.seconds, random.randrange(2**32) if given.seed is None else given.seed))
    sys.exit(fuzz_c(given.seconds, others))


if __name__ == "__main__":
    main()
