"""The inputs and outputs of a program: files, terminals, and devices that fail."""
import contextlib
import socket
import tempfile
from dataclasses import dataclass, field
from typing import IO, Dict, Iterator, Tuple

from running import END_OF_INPUT, typed


@dataclass(frozen=True)
class How:
    """How a program is run. If `is_cut`, reads fail at the end of its input, and if `is_full`, its writes fail. If `is_typed`, its input
    is typed at a terminal, and if `is_shown`, its output goes to one. `stack` is how many bytes its stack may have, or 0, and
    `variables` are in its environment.
    """

    is_cut: bool = False
    is_full: bool = False
    is_typed: bool = False
    is_shown: bool = False
    stack: int = 0
    variables: Dict[str, str] = field(default_factory=dict)

    @property
    def told(self) -> str:
        """Returns what a message tells of this."""
        found = [", typed at a terminal" * self.is_typed, ", shown at a terminal" * self.is_shown, ", short of stack" * bool(self.stack)]
        return "".join(found + [f", with {name}={value}" for name, value in self.variables.items()])


def cut_off(given: bytes) -> socket.socket:
    """Returns an input whose read fails after these bytes."""
    near, far = socket.socketpair()
    near.setsockopt(socket.SOL_SOCKET, socket.SO_SNDBUF, 1 << 20)
    far.sendall(b"unread")
    near.sendall(given)
    near.close()
    return far


@contextlib.contextmanager
def opened(given: bytes, how: How, kept: IO[bytes]) -> Iterator[Tuple[int, int]]:
    """Opens the input and the output of a program. Yields their descriptors. The output goes to a file, if it's no other device."""
    with contextlib.ExitStack() as stack:
        whole = stack.enter_context(tempfile.TemporaryFile())
        whole.write(given)
        whole.seek(0)
        reader, writer = whole.fileno(), kept.fileno()
        if how.is_cut:
            reader = stack.enter_context(cut_off(given)).fileno()
        if how.is_full:
            writer = stack.enter_context(open("/dev/full", "wb")).fileno()
        if how.is_typed or how.is_shown:
            # The end of the input is typed twice, as it only ends a line that isn't empty.
            theirs = stack.enter_context(typed(given + 2 * END_OF_INPUT if how.is_typed else b""))
            reader = theirs if how.is_typed else reader
            writer = theirs if how.is_shown else writer
        yield reader, writer
