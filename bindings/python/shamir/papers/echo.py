"""The echo of the terminal, which is off before the first question, so that nothing shows of what is typed while the program starts."""
from __future__ import annotations

import os
import signal
import termios
from typing import Any, List

# Whoever turns the echo off, such as the script that starts Python, notes here the modes that the terminal had, as `stty -g` does. The program
# starts itself once more, and finds them here.
MODES = "SHAMIR_PAPERS_MODES"
LOCAL = 3


def hide() -> None:
    """Turns the echo off, if that isn't done yet. Ctrl-C waits until there is who restores it."""
    signal.pthread_sigmask(signal.SIG_BLOCK, [signal.SIGINT])
    if MODES in os.environ or not os.isatty(0) or not os.isatty(1):
        return
    modes = termios.tcgetattr(0)
    os.environ[MODES] = ":".join(f"{it:x}" for it in modes[: LOCAL + 1])
    modes[LOCAL] &= ~termios.ECHO
    termios.tcsetattr(0, termios.TCSANOW, modes)


def restored(modes: List[Any]) -> List[Any]:
    """Returns the modes of a terminal as they were before the echo was turned off."""
    noted = os.environ.get(MODES, "").split(":")
    if len(noted) > LOCAL:
        modes[LOCAL] = modes[LOCAL] & ~termios.ECHO | int(noted[LOCAL], 16) & termios.ECHO
    return modes


def show() -> None:
    """Turns the echo on again, if it was on."""
    if MODES in os.environ and os.isatty(0):
        termios.tcsetattr(0, termios.TCSANOW, restored(termios.tcgetattr(0)))
    signal.pthread_sigmask(signal.SIG_UNBLOCK, [signal.SIGINT])
