"""Four clients of the library. The first line of standard input is the passphrase, except for `repair`. Papers are the lines after it, or
those of a file. FINGERPRINT is what `make` told. Ctrl-C stops a drill. To stay short, it shows what is typed, and clears nothing. A wallet
hides the passphrase, and uses `recover_into` and bytearrays. `python3 wallet.py make 2of3` runs the first, if `shamir` is in PYTHONPATH."""
import os
import signal
import sys
import threading
from typing import Any, Callable, Dict

import shamir


def make(passphrase: str, plan: str) -> None:
    secret = os.urandom(16)
    print(*shamir.create(plan, secret, passphrase=passphrase), sep="\n")
    print("# fingerprint", shamir.fingerprint(secret))


def recover(passphrase: str, noted: str) -> None:
    papers = shamir.Papers()
    for paper in sys.stdin:
        print(papers.add_and_tell(paper))
        if not papers.enough:
            continue
        try:
            found = papers.recover(passphrase=passphrase, expect=noted)
            return print(*(f"doubtful {name}" for name in found.doubtful), f"fingerprint {shamir.fingerprint(found.secret)}", sep="\n")
        except shamir.Refusal as refusal:
            if refusal.code != shamir.Code.DIGEST_MISMATCH:
                raise
            print(refusal)
    sys.exit("more papers are needed")


def drill(passphrase: str, noted: str, file: str) -> None:
    papers = open(file).read()
    quorums = shamir.quorums(papers)
    stopped = threading.Event()
    signal.signal(signal.SIGINT, lambda *_: stopped.set())
    for number, outcome in enumerate(shamir.drill(papers, passphrase=passphrase, expect=noted), 1):
        print(f"{number} of {quorums}: {outcome.names} {'as expected' if outcome.expected else 'NOT as expected'}", flush=True)
        if stopped.is_set():
            return print("stopped after", outcome.names)


def repair(line: str) -> None:
    print(*shamir.repair(line), sep="\n")


CLIENTS: Dict[Any, Callable[..., None]] = {("make", 3): make, ("recover", 3): recover, ("drill", 4): drill, ("repair", 2): repair}
client = CLIENTS.get((*sys.argv[1:2], len(sys.argv)))
line = sys.stdin.readline() if client else ""
if not client or not line:
    sys.exit("give make PLAN, recover FINGERPRINT, drill FINGERPRINT FILE or repair, and a line of input")
try:
    client(line.rstrip("\n"), *sys.argv[2:])
except (OSError, shamir.Refusal) as refused:
    sys.exit(str(refused))
