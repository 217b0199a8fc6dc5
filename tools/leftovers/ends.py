"""Looks for what the program leaves in memory at its end."""
import pathlib
import re
import tempfile
from dataclasses import dataclass, replace
from typing import Iterator, List, Tuple

import backups
import commands
import exits
from tool import workers

REFUSAL = re.compile(rb"^shamir: (?:line \d+: )?(\d\d) ", re.MULTILINE)
# Below the words of the command, this many bytes of the stack may be other than 0: the frames of `main` and of those that call
# it, and what ends the process.
FRAMES = 1024
OUT_OF_MEMORY, READ_FAILED = 4, 3
# Of the reads of a file, so many fail, each in a run of its own.
FAILED_READS = 5
# The memory of the program as plain C is one large block. The C library would give it back to the system when it is freed, and nothing of
# it could be searched.
KEPT = {"MALLOC_MMAP_MAX_": "0", "MALLOC_TRIM_THRESHOLD_": str(1 << 40)}
# The constants of the program have this text. It is nothing secret, but where it is left in the heap, a block wasn't cleared.
CONSTANT = b"mnemonic"
# A line of what tools/faults.c logs.
CALL = re.compile(rb"^(allocation|file|read) \d+ -?\d+$", re.MULTILINE)


@dataclass(frozen=True)
class Search:
    """A search in the memory of the program at its end."""

    program: str
    needles: backups.Needles
    is_plain_c: bool

    def __call__(self, run: commands.Run) -> Tuple[List[str], int]:
        """Runs the program. Returns what is left, and how many bytes below the words of the command the lowest is that isn't 0."""
        end = ended(self.program, run)
        found = REFUSAL.search(end.errors)
        code = int(found[1]) if found else 0
        if code != run.code or end.status != run.status and (code, run.status, end.status) != (0, 0, 1):
            return [f"{run.name} ends with the code {code} and the status {end.status}"], 0
        told = {f"{run.name} leaves {what} in {area.name}" for area in end.areas for _, what in self.needles.within(area.memory)}
        if self.is_plain_c and any(CONSTANT in area.memory for area in end.areas if area.name == "[heap]"):
            told.add(f"{run.name} leaves the memory of the program as it was")
        if run.status < 0:
            # A signal ended it, before it could clear anything.
            return sorted(told | {f"{run.name} has written" for _ in end.output[:1]}), 0
        lowest = max(end.lowest(area) for area in end.areas)
        if lowest > FRAMES:
            told.add(f"{run.name} leaves bytes other than 0 on the stack, {lowest} bytes below the words of the command")
        return sorted(told), lowest


def ended(program: str, run: commands.Run) -> exits.End:
    """Runs the program, with its values in files."""
    with tempfile.TemporaryDirectory() as folder:
        words = [program]
        for word in run.words:
            if word.startswith(commands.IN_FILE):
                path = pathlib.Path(folder, f"value{len(words)}")
                path.write_bytes(word[len(commands.IN_FILE) :].encode("latin-1"))
                word = path.name
            words.append(word)
        return exits.ended(words, run.given, folder, run.how)


def with_variables(run: commands.Run, **variables: str) -> commands.Run:
    return replace(run, how=replace(run.how, variables={**run.how.variables, **variables}))


def refused_allocations(program: str, shim: str, run: commands.Run) -> Iterator[commands.Run]:
    """Yields runs like this one: in each, another allocation is refused, of the last one before the first read and all after it."""
    calls = CALL.findall(ended(program, with_variables(run, LD_PRELOAD=shim)).errors)
    before = next((at for at, call in enumerate(calls) if call != b"allocation"), len(calls))
    for number in range(before, calls.count(b"allocation") + 1):
        yield replace(with_variables(run, LD_PRELOAD=shim, FAULT_ALLOCATION=str(number)), status=OUT_OF_MEMORY)


def failed_reads(program: str, shim: str, run: commands.Run) -> Iterator[commands.Run]:
    """Yields runs like this one: in each, another read of a file fails, after bytes of it came."""
    count = CALL.findall(ended(program, with_variables(run, LD_PRELOAD=shim)).errors).count(b"file")
    for number in range(2, count + 1, -(-count // FAILED_READS)):
        yield replace(with_variables(run, LD_PRELOAD=shim, FAULT_FILE=str(number)), status=READ_FAILED)


def with_faults(program: str, shim: str, runs: List[commands.Run]) -> Iterator[commands.Run]:
    """Yields what the first sound run does of each command, with each kind of devices, if memory runs out, or if a read of a file fails."""
    firsts = {(run.words[0], run.has_files, run.how.told): run for run in reversed(runs) if run.is_sound}
    for run in firsts.values():
        yield from refused_allocations(program, shim, run)
        yield from failed_reads(program, shim, run) if run.has_files else ()


SEARCHES: List[Search] = []


def begin(search: Search) -> None:
    """Begins a process that makes runs. It gets the search as it starts, which is quicker than with each run."""
    SEARCHES[:] = [search]


def searched(run: commands.Run) -> Tuple[List[str], int]:
    return SEARCHES[0](run)


def all_leftovers(program: pathlib.Path, shim: str, is_plain_c: bool) -> Tuple[List[str], int, int]:
    """Makes all runs of the native program, or of the one as plain C. Returns what they leave, how many they are, and the lowest byte of the
    stack that one leaves other than 0. `shim` is tools/faults.c as a library, or nothing.
    """
    told: List[str] = []
    count = deepest = 0
    for backup, runs in commands.all_runs(is_plain_c):
        search = Search(str(program.resolve()), backups.Needles(backups.needles_of(backup)), is_plain_c)
        if is_plain_c:
            runs = [with_variables(run, **KEPT) for run in runs]
        if shim:
            runs += with_faults(search.program, shim, runs)
        # Each process traces its own runs, since only the thread that started a program may trace it.
        with workers(initializer=begin, initargs=(search,)) as pool:
            for found, lowest in pool.map(searched, runs, chunksize=4):
                told += [f"{len(backup.secret)} bytes: {it}" for it in found]
                count, deepest = count + 1, max(deepest, lowest)
    return told, count, deepest
