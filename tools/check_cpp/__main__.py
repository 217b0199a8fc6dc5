"""Checks include/shamir.hpp, with g++ and clang++.

    python3 tools/check_cpp [--cases N] [--seed S]

The header compiles without a warning. Over libshamir.a, with the compilers' sanitizers, and over dist/c,
tests.cpp finds the values that other programs computed, and nothing secret in memory that is freed. answers.cpp gives what the worked examples
of tools/worked.py say, and on generated cases what a plain reading of the standard in Python gives (tools/plain.py). The tool says what it leaves out if a compiler isn't here. It exits with
status 1 if something differs.
"""
import argparse
import pathlib
import re
import subprocess
import sys
import tempfile

sys.dont_write_bytecode = True
HERE = pathlib.Path(__file__).resolve().parent
ROOT = HERE.parent.parent
sys.path.insert(0, str(HERE.parent))

import generated_cases  # noqa: E402
import plain  # noqa: E402
import worked_cases  # noqa: E402
from left_out import is_here  # noqa: E402
from tool import ran  # noqa: E402

HEADERS = ROOT / "include"
COMPILERS = {"g++": "gcc", "clang++": "clang"}
STRICT = ["-Wall", "-Wextra", "-Wpedantic", "-Wshadow", "-Wconversion", "-Wsign-conversion", "-Werror", f"-I{HEADERS}"]
SANITIZED = ["-fsanitize=address,undefined", "-fno-sanitize-recover=all", "-D_GLIBCXX_DEBUG"]
# The library as plain C takes its memory from the tests, which can refuse it.
MEMORY = ["-include", "stdlib.h", "-DSHAMIR_ALLOCATE(bytes)=({ extern void *given_block(size_t); given_block(bytes); })", "-DSHAMIR_RELEASE(block)=free(block)"]
# A misuse that a compiler must refuse.
MISUSED = {
    "a text that is taken for a secret": 'shamir::fingerprint("0123456789abcdef")',
    "a secret that is taken for a text": "shamir::recover(shamir::Secret(16))",
    "an answer that nobody looks at": '(shamir::recover("academic"), 0)',
    "lines of mnemonics that are gone": "shamir::Mnemonics().lines()",
    "lines of an answer that is gone": 'shamir::repair("academic ?")->lines()',
    "a source whose failure nobody looks at": 'shamir::resplit("1of1", "academic", [](void *, std::size_t) { return -1; })',
}
# A cursor or names that aren't written in this form can't be given as pairs.
NAMES = re.compile(r"(?:(?:0|[1-9]\d{0,8})\.(?:0|[1-9]\d{0,8})(?:\+(?!$)|$))*")


def check_misuse(compiler):
    """Checks that the compiler refuses mistakes, and takes the same source without one."""
    for what, call in {"": '!shamir::recover("academic")', **MISUSED}.items():
        source = f'#include "shamir.hpp"\nint main() {{ static_cast<void>(0); auto it = {call}; return sizeof it == 0; }}\n'
        words = [compiler, "-std=c++17", "-fsyntax-only", "-x", "c++", *STRICT, "-"]
        done = subprocess.run(words, input=source, cwd=ROOT, capture_output=True, text=True)
        if bool(done.returncode) != bool(what):
            sys.exit(f"{compiler} takes {what}: {call}" if what else f"{compiler} refuses {call}: {done.stderr}")


def check_macros(compiler):
    """Checks that the header compiles after one with the macros min and max, such as that of Windows."""
    included = re.findall(r"^#include <.*>$", (HEADERS / "shamir.hpp").read_text(), re.MULTILINE)
    source = "\n".join([*included, "#define min(a, b) a", "#define max(a, b) a", '#include "shamir.hpp"', ""])
    ran([compiler, "-std=c++17", "-fsyntax-only", "-x", "c++", *STRICT, "-"], stdin=None, input=source)


def check_compiler(compiler, folder):
    """Runs the tests over both libraries."""
    portable = f"{folder}/{compiler}.o"
    ran([COMPILERS[compiler], "-O0", *MEMORY, "-c", ROOT / "dist" / "c" / "shamir.c", "-o", portable])
    for standard, flags, library in [("c++17", SANITIZED, ROOT / "libshamir.a"), ("c++20", ["-O2"], portable)]:
        program = f"{folder}/tests-{compiler}-{standard}"
        ran([compiler, f"-std={standard}", *STRICT, *flags, HERE / "tests.cpp", library, "-o", program])
        ran([program])
    check_misuse(compiler)
    check_macros(compiler)


def can_be_said(case):
    """Returns whether a case gives its names as pairs."""
    _, words, options = plain.parts(case.words)
    after = options.get("after")
    return NAMES.fullmatch(words[1] if case.words[0] == "reissue" else "" if after is None else after or "-") is not None


def check_cases(compiler, folder, count, seed):
    """Compares worked examples and generated cases, and returns how many of each."""
    program = f"{folder}/answers"
    ran([compiler, "-std=c++17", *STRICT, *SANITIZED, HERE / "answers.cpp", ROOT / "libshamir.a", "-o", program])
    reader = generated_cases.Reader("shamir.hpp", [program], takes=can_be_said)
    return worked_cases.compare_with(reader), generated_cases.compare_all([reader], count, seed)


def main():
    parser = argparse.ArgumentParser()
    parser.add_argument("--cases", type=int, default=400)
    parser.add_argument("--seed", type=int, default=39)
    args = parser.parse_args()
    here = [it for it in COMPILERS if is_here(it, "it doesn't compile include/shamir.hpp")]
    if not here:
        return
    if not (ROOT / "libshamir.a").exists():
        sys.exit("tools/check_cpp: libshamir.a isn't here: 'make lib' builds it")
    with tempfile.TemporaryDirectory() as folder:
        for compiler in here:
            check_compiler(compiler, folder)
        examples, tried = check_cases(here[0], folder, args.cases, args.seed)
    print(f"shamir.hpp: its tests pass with {' and '.join(here)}, and {examples} worked examples and {tried} generated cases agree")


if __name__ == "__main__":
    main()
