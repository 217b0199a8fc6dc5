"""Plants faults in copies of what is checked. Each must be found by its check, or that check is worth nothing."""
import pathlib
import tempfile
from concurrent.futures import ThreadPoolExecutor
from typing import Any, Callable, Sequence

from tool import Failed

# Plants a fault in a copy, in a new folder, as the columns of its row say. Returns what looks for it.
Plant = Callable[..., Callable[[], object]]


def changed(text: str, old: str, new: str, where: str, times: int = 1) -> str:
    """Returns a text with a fault in it. What the fault takes the place of must stand there so many times."""
    if text.count(old) != times:
        raise Failed(f"{where} has {old!r} {text.count(old)} times, and not {times}, so nothing can be planted there")
    return text.replace(old, new)


def is_found(plant: Plant, what: str, *row: Any) -> bool:
    """Plants a fault, and returns whether its check finds it."""
    with tempfile.TemporaryDirectory() as folder:
        look = plant(pathlib.Path(folder), *row)
        try:
            look()
        except Failed as found:
            print(f"planted: {what}: {str(found)[:150]!r}", flush=True)
            return True
    return False


def check(faults: Sequence[Sequence[Any]], plant: Plant, at_once: int = 1) -> None:
    """Plants each fault, so many side by side. A row has what is planted, and what `plant` takes. Raises Failed if a check doesn't find one."""
    with ThreadPoolExecutor(at_once) as pool:
        found = list(pool.map(lambda row: is_found(plant, *row), faults))
    missed = [row[0] for row, good in zip(faults, found) if not good]
    if missed:
        raise Failed(f"these planted faults aren't found: {', '.join(missed)}")
