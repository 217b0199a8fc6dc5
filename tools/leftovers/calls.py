"""What calls of the library leave on the stack below their caller."""
import tempfile
from concurrent.futures import ThreadPoolExecutor
from typing import List, Sequence, Tuple

import backups
import cases
import driver

# The last call, which clears, has its return address at the lowest bytes.
ADDRESS = 8


def answered(program: List[str], case: cases.Case) -> Tuple[int, bytes]:
    """Makes a call by a program, which may be an emulator's first argument. Returns its code, and what it touched of the stack below
    the caller."""
    *arguments, room = case.arguments
    answer, touched = driver.answers(program, [driver.line(case.call, arguments, int(room))])
    return int(answer.split()[0]), bytes.fromhex(touched)


def leftovers(program: List[str], case: cases.Case, needles: backups.Needles, most: int, last: int) -> Tuple[List[str], int]:
    """Returns what a call leaves, and how many bytes below the caller the lowest is that it leaves other than 0. Only so many may be,
    beside so many of the last function that is called."""
    name = f"shamir_{case.call} with the code {case.code}"
    code, touched = answered(program, case)
    if code != case.code:
        return [f"{name} answers {code}"], 0
    found = sorted({what: len(touched) - at for at, what in needles.within(touched)}.items())
    told = [f"{name} leaves {what}, {below} bytes below the caller" for what, below in found]
    lowest = len(touched[last:].lstrip(b"\0"))
    if lowest > most:
        told.append(f"{name} leaves bytes other than 0, {lowest} bytes below the caller")
    return told, lowest


def all_leftovers(compiler: List[str], library: str, lengths: List[int], most: int, emulator: Sequence[str] = (), last: int = ADDRESS) -> Tuple[List[str], int, int]:
    """Makes all calls of a library, with secrets of these lengths. The words of an emulator, if there is one, stand before the program.
    Returns what they leave, how many they are, and the lowest byte that one leaves other than 0, above so many `last` ones."""
    told: List[str] = []
    count = deepest = 0
    with tempfile.TemporaryDirectory() as folder, ThreadPoolExecutor() as pool:
        program = [*emulator, driver.built(f"{folder}/driver", compiler, "-DOBSERVED", library)]
        for backup, made in cases.all_cases():
            if len(backup.secret) not in lengths:
                continue
            needles = backups.Needles(backups.needles_of(backup))
            for found, lowest in pool.map(lambda case: leftovers(program, case, needles, most, last), made):
                told += [f"{len(backup.secret)} bytes: {it}" for it in found]
                count, deepest = count + 1, max(deepest, lowest)
    return told, count, deepest
