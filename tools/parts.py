"""Runs the parts of a check side by side, and says of each whether it passed."""
import os
import tempfile
import time
import traceback
from concurrent.futures import ThreadPoolExecutor
from typing import Callable, NamedTuple, Optional, Sequence

PROCESSORS = len(os.sched_getaffinity(0))
# So many browsers or terminals run side by side.
AT_ONCE = min(4, PROCESSORS)


class Part(NamedTuple):
    """A part of a check. What it returns is said, unless it is nothing. If it `waits` for a browser or a terminal, it can miss something on
    a busy machine. So if it fails beside others, it is tried once more, by itself."""

    name: str
    check: Callable[[], Optional[str]]
    waits: bool = False


def in_folder(check: Callable[[str], Optional[str]]) -> Callable[[], Optional[str]]:
    """Turns a check that takes a folder into one that gets a new folder each time."""

    def checked() -> Optional[str]:
        with tempfile.TemporaryDirectory() as folder:
            return check(folder)

    return checked


def tried(part: Part) -> bool:
    """Runs a part. Says what is wrong, or how many seconds it took, and returns whether it passed."""
    begun = time.monotonic()
    try:
        said = part.check()
    except SystemExit as fault:
        print(f"{part.name}: {fault}", flush=True)
        return False
    except Exception:
        print(f"{part.name}: the check itself failed\n{traceback.format_exc()}", flush=True)
        return False
    before = f"{said}\n" if said else ""
    print(f"{before}{part.name}: passed in {time.monotonic() - begun:.0f} seconds", flush=True)
    return True


def all_pass(parts: Sequence[Part], at_once: int = PROCESSORS) -> bool:
    """Runs parts side by side, says how many passed if there are several, and returns whether all did."""
    # `make` runs other checks beside each.
    is_beside = len(parts) > 1 or "MAKELEVEL" in os.environ
    with ThreadPoolExecutor(at_once) as pool:
        first = list(pool.map(tried, parts))
    passed = [good or (part.waits and is_beside and tried(part)) for part, good in zip(parts, first)]
    if len(passed) > 1:
        print(f"{sum(passed)} passed, {len(passed) - sum(passed)} failed", flush=True)
    return all(passed)
