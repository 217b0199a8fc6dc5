"""One way to run a program, and to open what it gets: terminals, and streams that are closed or fail."""
import contextlib
import fcntl
import os
import pty
import select
import signal
import subprocess
import tempfile
import termios
import time
from typing import Any, Callable, Dict, Iterable, Iterator, List, NamedTuple, Sequence, Tuple

from tool import Failed

# A run may take this many seconds, and an answer at a terminal this many. Even a busy machine needs less.
LIMIT, PATIENCE = 600, 120
END_OF_INPUT = b"\x04"
STREAMS = ("stdin", "stdout", "stderr")


class Answer(NamedTuple):
    """What a program writes to standard output and to standard error, and its exit status."""

    output: str
    errors: str
    status: int


def answer(words: Sequence[str], data: bytes = b"", **how: Any) -> Answer:
    """Runs a program with this input, if no other one is given, and returns its answer. Bytes that are no UTF-8 stay apart in it."""
    options: Dict[str, Any] = {"stdout": subprocess.PIPE, "stderr": subprocess.PIPE, "timeout": LIMIT, **how}
    done = subprocess.run(words, **options if "stdin" in how else {**options, "input": data})
    output, errors = ((it or b"").decode(errors="surrogateescape") for it in (done.stdout, done.stderr))
    return Answer(output, errors, done.returncode)


def lines_of(texts: Iterable[str]) -> bytes:
    """Returns the input that has these lines."""
    return "".join(f"{it}\n" for it in texts).encode()


def redirected(words: Sequence[str], redirections: str) -> List[str]:
    """Returns the words that run a program with redirections of a shell, such as `2>&-`, which closes standard error."""
    return ["sh", "-c", f'exec "$@" {redirections}', "sh", *words]


@contextlib.contextmanager
def file_with(data: bytes) -> Iterator[str]:
    """Yields the name of a new file with these bytes."""
    with tempfile.NamedTemporaryFile() as file:
        file.write(data)
        file.flush()
        yield file.name


@contextlib.contextmanager
def closed_pipe() -> Iterator[int]:
    """Yields where one writes into a pipe that nobody reads."""
    reader, writer = os.pipe()
    os.close(reader)
    try:
        yield writer
    finally:
        os.close(writer)


def terminal() -> Tuple[int, int]:
    """Opens a terminal that neither echoes nor changes line feeds. Returns our end and the program's end."""
    ours, theirs = pty.openpty()
    modes = termios.tcgetattr(theirs)
    modes[1] &= ~termios.OPOST
    modes[3] &= ~termios.ECHO
    termios.tcsetattr(theirs, termios.TCSANOW, modes)
    return ours, theirs


@contextlib.contextmanager
def typed(text: bytes) -> Iterator[int]:
    """Opens a terminal at which this is typed, and yields the program's end. Nobody reads ours: the terminal keeps some thousand bytes each way."""
    ours, theirs = terminal()
    try:
        os.set_blocking(ours, False)
        if os.write(ours, text) < len(text):
            raise OSError("the terminal doesn't take all that is typed")
        yield theirs
    finally:
        os.close(theirs)
        os.close(ours)


def read_until(descriptor: int, is_enough: Callable[[bytes], bool], what: str, patience: float = PATIENCE) -> bytes:
    """Reads until the bytes are enough or the input ends, and returns them."""
    came, deadline = b"", time.monotonic() + patience
    while not is_enough(came):
        if not select.select([descriptor], [], [], max(0, deadline - time.monotonic()))[0]:
            raise Failed(f"{what}: nothing came after {came!r}")
        try:
            piece = os.read(descriptor, 1 << 16)
        except OSError:
            # The last process that had the other end of the terminal is gone.
            piece = b""
        if not piece:
            break
        came += piece
    return came


def is_never(_: bytes) -> bool:
    return False


def feed(stream: Any, data: bytes) -> None:
    """Writes all data, and closes the stream. A program that ends before it has read all takes no more."""
    with contextlib.suppress(BrokenPipeError):
        stream.write(data)
    with contextlib.suppress(BrokenPipeError):
        stream.close()


def own(theirs: int) -> None:
    """Makes a terminal the one that controls this new session, so that its keys send signals. A shell's background ignores Ctrl-C."""
    fcntl.ioctl(theirs, termios.TIOCSCTTY, 0)
    signal.signal(signal.SIGINT, signal.SIG_DFL)


class AtTerminal(contextlib.AbstractContextManager["AtTerminal"]):
    """A program with some of its streams at a terminal, of which we have the other end. The others are pipes, if nothing else is given.
    If the terminal `is_own`, it controls the program. An answer may take `patience` seconds.
    """

    def __init__(self, words: Sequence[str], *at: str, is_own: bool = False, patience: float = PATIENCE, **how: Any) -> None:
        self.ours, theirs = terminal()
        self.patience, self.is_typed = patience, "stdin" in at
        if is_own:
            how = {**how, "start_new_session": True, "preexec_fn": lambda: own(theirs)}
        streams: Dict[str, Any] = {**dict.fromkeys(STREAMS, subprocess.PIPE), **how, **dict.fromkeys(at, theirs)}
        self.process: "subprocess.Popen[bytes]" = subprocess.Popen(words, **streams)
        os.close(theirs)
        self.shown = self.ours if at or self.process.stdout is None else self.process.stdout.fileno()

    def __exit__(self, *_: object) -> None:
        """Ends the program, if it still runs."""
        self.process.kill()
        with contextlib.suppress(BrokenPipeError), self.process:
            os.close(self.ours)

    def press(self, keys: bytes) -> None:
        os.write(self.ours, keys)

    def type(self, data: bytes) -> None:
        """Gives the program a part of its input, which is typed or comes through a pipe."""
        if self.is_typed or self.process.stdin is None:
            self.press(data)
        else:
            os.write(self.process.stdin.fileno(), data)

    def end_input(self, data: bytes = b"") -> None:
        """Gives the program the rest of its input, and the end of it."""
        if self.is_typed:
            self.press(data + END_OF_INPUT)
        else:
            feed(self.process.stdin, data)

    def status(self) -> int:
        """Waits for the end of the program."""
        return self.process.wait(self.patience)

    def until(self, is_enough: Callable[[bytes], bool], what: str) -> bytes:
        """Returns what the terminal shows until it's enough, or until the end. If no stream is there, it's what comes through the pipe."""
        return read_until(self.shown, is_enough, what, self.patience)

    def expect(self, wanted: bytes, what: str) -> None:
        """Waits for what must be shown next."""
        came = self.until(lambda came: len(came) >= len(wanted), what)
        if came != wanted:
            raise Failed(f"{what} is answered by {came!r}, and not by {wanted!r}")

    def expect_end(self, wanted: bytes, status: int, what: str) -> None:
        """Waits for the end of the program, before which this must be shown."""
        came = self.until(is_never, what)
        if (came, self.status()) != (wanted, status):
            raise Failed(f"{what} is answered by {came!r} and status {self.process.returncode}, and not by {wanted!r} and status {status}")
