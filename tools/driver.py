"""Calls of the library as lines that tools/check_portable/driver.c reads, and what it answers."""
import subprocess
from typing import List, Optional, Sequence, Tuple, Union

from tool import ROOT as ROOT
from tool import Failed as Failed

SOURCE = ROOT / "tools" / "check_portable" / "driver.c"
STRICT = ["-std=c99", "-Wall", "-Wextra", "-Wconversion", "-Werror"]

# Bytes or a text, a number, or NULL.
Argument = Union[bytes, str, int, None]
# The line of a call, and the line that the driver must write, or its beginning.
Made = Tuple[str, str]
# A message has so many calls, and shows so much of each line.
MOST, SHOWN = 10, 3000


class Secret(bytes):
    """Bytes that are undefined for memcheck."""


def word_of(argument: Argument) -> str:
    if argument is None or isinstance(argument, int):
        return "-" if argument is None else str(argument)
    kind = "X" if isinstance(argument, Secret) else "x"
    return kind + (argument.encode() if isinstance(argument, str) else argument).hex()


def line(call: str, arguments: Sequence[Argument], room: Optional[int]) -> str:
    """Returns the line of a call with room for this many bytes of output, or with NULL for it."""
    return " ".join([call, *map(word_of, arguments), word_of(room)])


def built(program: str, compiler: Sequence[str], *words: str) -> str:
    """Compiles the program with a library, which is among the words, and returns its path."""
    done = subprocess.run([*compiler, *STRICT, str(SOURCE), *words, "-o", program], capture_output=True, text=True)
    if done.returncode:
        raise Failed(f"driver.c can't be built: {done.stderr}")
    return program


def answers(program: Sequence[str], lines: Sequence[str], *how: str) -> List[str]:
    """Makes calls with the program, whose words may begin with those of an emulator. Returns the lines that it writes."""
    done = subprocess.run([*program, *how], input="".join(it + "\n" for it in lines), capture_output=True, text=True)
    if done.returncode:
        raise Failed(f"{' '.join([*program, *how])} ends with status {done.returncode}: {done.stderr}")
    return done.stdout.splitlines()


def check(program: Sequence[str], made: Sequence[Made], *how: str) -> List[str]:
    """Makes calls with the program, and says which of them it answers otherwise. Returns the lines that it writes after the answers."""
    found = answers(program, [line for line, _ in made], *how)
    wrong = [(line, right, one) for (line, right), one in zip(made, found) if not one.startswith(right) or one.endswith("changed")]
    # One line more says how much of the stack was touched.
    if wrong or len(found) != len(made) + ("stack" in how):
        told = [f"{line[:SHOWN]}\n  gives  {one[:SHOWN]}\n  wanted {right[:SHOWN]}" for line, right, one in wrong[:MOST]]
        raise Failed("\n".join([f"{len(found)} lines answer {len(made)} calls, {len(wrong)} of them otherwise than they must", *told]))
    return found[len(made) :]
