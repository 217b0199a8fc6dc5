"""Makes the vectors of `vectors/` anew, and checks them.

    python3 tools/vectors           compares the files of vectors/ with what the tool makes, and asks all readers that are here
    python3 tools/vectors --write   writes these files anew. The same sources give the same bytes each time
    python3 tools/vectors --program WORD,..     asks only the program that these words run, such as one with its emulator

What is right comes from a plain reading of the standard in Python (tools/plain.py). The library, by its Python binding, and the
program have to agree with every case. So has `shamir.mnemonic`, for the cases in the standard's own form. Each planted mistake
has to be caught by a case, and each case has to catch one. Electrum, if it is here, has to answer as vectors/README.md says, and to
combine the mnemonics of a backup that is split anew to what the new ones combine to. The tool exits with status 1 if something differs.
"""
import argparse
import functools
import os
import pathlib
import sys

ROOT = pathlib.Path(__file__).resolve().parents[2]
os.environ["SHAMIR_LIBRARY"] = str(ROOT / "libshamir.so")
sys.path[:0] = [str(ROOT / "tools" / "vectors"), str(ROOT / "tools"), str(ROOT / "bindings" / "python")]
sys.dont_write_bytecode = True

import data  # noqa: E402
import page  # noqa: E402
import readers  # noqa: E402
from tool import workers  # noqa: E402


def check_files(texts):
    """Checks that the files are as the tool makes them, and that they meet the schema."""
    for name, text in texts.items():
        if (data.FOLDER / name).read_text() != text:
            sys.exit(f"vectors/{name} isn't what the tool makes: run 'python3 tools/vectors --write', and look at what changed")


def check_caught(mistakes):
    escaped = [one["name"] for one in mistakes if not one["caught_by"]]
    if escaped:
        sys.exit(f"no case catches {' and '.join(escaped)}")
    idle = data.idle(mistakes)
    if idle:
        sys.exit(f"no mistake is caught by {' and '.join(idle)}")


def difference_of_library(place):
    """Returns what the library answers to a case, if it isn't what is right."""
    import shamir

    return difference("the library", place, functools.partial(readers.library, shamir))


def difference_of_program(words, place):
    """Returns what the program that these words run answers to a case, if it isn't what is right."""
    return difference("the program", place, functools.partial(readers.of_program, words))


def difference(name, place, read):
    _, case, right = data.cases()[place]
    found = read(case)
    return f"{case.id}: {name} answers {found}, and right is {right}" if found not in (None, right) else None


def check_agreement(*differences):
    with workers() as pool:
        for of_reader in differences:
            for differs in pool.map(of_reader, range(len(data.cases())), chunksize=8):
                if differs:
                    sys.exit(differs)


def check_reference_calls():
    """Checks that `shamir.mnemonic` recovers what the cases in the standard's form say."""
    from shamir.mnemonic import MnemonicError, combine_mnemonics

    for description, mnemonics, secret, _ in data.published_form():
        try:
            found = combine_mnemonics(mnemonics, b"TREZOR").hex()
        except MnemonicError:
            found = ""
        if found != secret:
            sys.exit(f"{description}: shamir.mnemonic answers {found!r}, and right is {secret!r}")


def main():
    parser = argparse.ArgumentParser(prog="python3 tools/vectors", description="Makes the vectors of vectors/ anew, and checks them.")
    parser.add_argument("--write", action="store_true", help="write the files of vectors/")
    parser.add_argument("--program", help="the words that run the program, if it alone is asked")
    args = parser.parse_args()
    if args.program:
        check_agreement(functools.partial(difference_of_program, args.program.split(",")))
        print(f"vectors: the program agrees with {sum(readers.has_command(case) for _, case, _ in data.cases())} cases")
        return
    texts, mistakes = data.files()
    check_caught(mistakes)
    if args.write:
        for name, text in texts.items():
            (data.FOLDER / name).write_text(text)
    check_files(texts)
    page.check(mistakes)
    check_agreement(difference_of_library, functools.partial(difference_of_program, [str(ROOT / "shamir")]))
    check_reference_calls()
    page.check_electrum()
    page.check_sealed()
    print(f"vectors: {len(data.cases())} cases agree with ./shamir and the library, and catch all of {len(mistakes)} planted mistakes")


if __name__ == "__main__":
    main()
