"""Adds up the frames of functions, from what objdump shows of an archive: how far down a function reaches, whatever its input."""
import functools
import re
import subprocess
from dataclasses import dataclass, field
from typing import Callable, Dict, List, Set

WORD = 8
# These functions of the C library use less than this, even if a call is the first one: then the loader looks for the function, and
# keeps all registers on the stack meanwhile.
OUTSIDE = {"memcpy": 4096, "memmove": 4096, "memset": 4096}
# A function that calls none may use as much below its frame.
RED_ZONE = 128
CLEARING = re.compile(r"s39_clearing::stack::(?:clear_stack|zero_words)::<=(\d+)>")


@dataclass
class Function:
    """The bytes of the frame of a function with its return address, what it calls, and what can't be told of it."""

    frame: int = WORD
    calls: Set[str] = field(default_factory=set)
    unclear: str = ""


def lowered(instructions: List[str]) -> int:
    """Returns by how much the instructions of a function lower the stack pointer at most.

    In a large frame each page is touched, in a loop: r11 is where it ends, and the loop lowers the stack pointer by a page.
    """
    depth = at = 0
    while at < len(instructions):
        if re.fullmatch(r"push +\S+", instructions[at]):
            depth += WORD
        elif found := re.fullmatch(r"sub +\$0x([0-9a-f]+),%(rsp|r11)", instructions[at]):
            if found[2] == "rsp" or instructions[at - 1] == "mov %rsp,%r11":
                depth += int(found[1], 16)
            at += found[2] == "r11"
        elif found := re.fullmatch(r"and +\$0xf+([0-9a-f]{2}),%rsp", instructions[at]):
            depth += 256 - int(found[1], 16)
        at += 1
    return depth


def functions_of(archive: str) -> Dict[str, Function]:
    """Returns the functions of an archive by their names."""
    shown = subprocess.run(["objdump", "-dr", "--no-show-raw-insn", archive], capture_output=True, text=True, check=True).stdout
    found: Dict[str, Function] = {}
    for name, body in re.findall(r"^[0-9a-f]+ <(.*)>:\n((?:.+\n)*)", shown, re.MULTILINE):
        function = found[name] = Function()
        lines = [" ".join(line.split()[1:]) for line in body.splitlines()]
        function.frame += lowered([line for line in lines if not line.startswith("R_")])
        for line, following in zip(lines, lines[1:] + [""]):
            if line.startswith(("call", "j")) and following.startswith("R_"):
                function.calls.add(re.sub(r"^R_\S+ (\.text\.(unlikely\.)?)?|-0x4$", "", following))
            elif re.match(r"call +\*|(sub|add|and|mov|lea) .*[^,]*,%rsp$", line) and not re.match(r"(sub|add|and) +\$", line):
                function.unclear = line
    return found


def depth_in(functions: Dict[str, Function]) -> Callable[[str], int]:
    """Returns a function that gives how far down a function of these reaches, with all that it calls."""

    @functools.cache
    def depth(name: str) -> int:
        if name in OUTSIDE:
            return OUTSIDE[name]
        function = functions[name]
        if function.unclear:
            raise ValueError(f"{name} has '{function.unclear}', so nothing tells how far down it reaches")
        return function.frame + max(map(depth, function.calls), default=RED_ZONE)

    return depth


@dataclass(frozen=True)
class Sizes:
    """How many bytes a call of the library reaches down below its caller, and how many it clears."""

    reached: int
    cleared: int


def sizes_of(archive: str, calls: List[str]) -> Dict[str, Sizes]:
    """Returns the sizes of calls of the library."""
    return sizes_in(functions_of(archive), calls)


def too_deep(sizes: Dict[str, Sizes]) -> List[str]:
    """Returns which calls can reach further down than they clear."""
    return [f"shamir_{call} can reach {it.reached} bytes down, and clears {it.cleared}" for call, it in sizes.items() if it.reached > it.cleared]


def sizes_in(functions: Dict[str, Function], calls: List[str]) -> Dict[str, Sizes]:
    """Returns the sizes of calls by the functions that there are. One that clears nothing clears 0 bytes."""
    depth = depth_in(functions)
    found = {}
    for call in calls:
        function = functions[f"shamir_{call}"]
        clearings = [CLEARING.fullmatch(called) for called in function.calls]
        below = max((depth(called) for called in function.calls if not CLEARING.fullmatch(called)), default=0)
        found[call] = Sizes(function.frame + below, max((int(it[1]) * WORD for it in clearings if it), default=0))
    return found
