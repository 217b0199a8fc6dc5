"""Checks shamir-papers in terminals of its own.

    python3 tools/check_papers [--cases N] [--faults] [PART..]

PART is one of entry, tasks, refusals, steps, slips, keys, astray, pasted, repaired, apart, change, ends, traces, scrollback, looks
and agreement; without one, all of them run.
`agreement` compares N generated backups with ./shamir, 20 if N isn't given. `--faults` plants faults in copies of the program instead, and checks
that each is found. A part whose tool is missing says so. The status is 1 if something fails. A part that fails beside others is tried
once more, by itself.
"""
import argparse
import importlib
import os
import pathlib
import sys

sys.dont_write_bytecode = True
ROOT = pathlib.Path(__file__).resolve().parent.parent.parent
sys.path[:0] = [str(ROOT / "tools" / "check_papers"), str(ROOT / "tools")]
from left_out import left_out, say_skipped  # noqa: E402
from parts import AT_ONCE, Part, all_pass, tried  # noqa: E402
from tool import tested  # noqa: E402

LIBRARY = ROOT / "bindings" / "python" / "shamir" / "libshamir.so"
# This library is checked, whatever the environment names.
os.environ["SHAMIR_LIBRARY"] = str(LIBRARY)
PARTS = ["looks", "ends", "refusals", "slips", "keys", "astray", "pasted", "repaired", "apart", "change", "steps", "tasks", "traces", "scrollback", "entry", "agreement"]


def check_entry(_):
    """Runs the unit tests, which need no terminal, and sees that faults can still be planted."""
    import faults

    faults.check_places()
    tests = sorted(map(str, (ROOT / "bindings" / "python" / "tests").glob("test_papers*.py")))
    say_skipped(tested([sys.executable, "-B", "-m", "unittest", "--verbose", *tests]))


def part(name, cases):
    """Returns a part, which says what it leaves out. Each but `entry` has a module of its name, which loads the library."""
    check = check_entry if name == "entry" else importlib.import_module(name).check
    given = [None, cases] if name == "agreement" else [None]

    def run():
        for text in check(*given) or []:
            left_out(text)

    return Part(name, run, waits=True)


def main():
    parser = argparse.ArgumentParser(prog="tools/check_papers")
    parser.add_argument("--faults", action="store_true")
    parser.add_argument("--cases", type=int, default=20)
    parser.add_argument("parts", nargs="*", metavar="PART", choices=[[], *PARTS])
    given = parser.parse_args()
    if not LIBRARY.exists():
        sys.exit(f"tools/check_papers: {LIBRARY} isn't here: 'make lib' puts it there")
    from hands import SEED

    print(f"the seed of the random cases is {SEED}", flush=True)
    if given.faults:
        import faults

        return 0 if tried(Part("faults", faults.check)) else 1
    wanted = [part(name, given.cases) for name in PARTS if name in (given.parts or PARTS)]
    return 0 if all_pass(wanted, AT_ONCE) else 1


if __name__ == "__main__":
    sys.exit(main())
