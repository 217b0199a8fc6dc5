"""The drill: each quorum of the papers that were typed, and what they say together."""
from __future__ import annotations

import time
from dataclasses import dataclass, field
from typing import Callable, Iterable, List, Sequence, Tuple

import shamir
from shamir.papers.desk import Desk, Paper, derivation_seconds
from shamir.papers.quorums import COUNTED_MOST, TRIED_FIRST, TRIED_WHOLE, Tried, fingerprints, gives, suspects
from shamir.papers.screen import Screen, Stopped
from shamir.papers.texts import counted, one_or_many, said_time, say
from shamir.papers.trial import SLOW_SECONDS, Trial

# From this exponent on, a task says how long it takes.
LONG_EXPONENT = 5
NAMED_MAX = 8


@dataclass
class Verdict:
    """What a drill found: 'good', 'stopped', or that all quorums give another secret than the expected one ('other'), that none gives
    it ('none'), that some don't ('some'), or that they give several secrets ('several'). With it the sentences that say so, the names of
    the papers that were tried, and of those that are in a right quorum, or, without one, belong together as a digest says, and whether a
    passphrase was typed. `is_own` says that the secret wasn't compared with what the owner noted, but with the one that was just
    backed up. `fingerprint` is that of the right secret, as far as it is known. `part` says how many quorums were tried, if not all
    were, `is_wrong` that one of these is wrong, and `is_other` that all give one other secret."""

    result: str
    sentences: List[str]
    names: Tuple[str, ...] = ()
    right: Tuple[str, ...] = ()
    has_passphrase: bool = True
    is_own: bool = False
    fingerprint: str = field(default="", repr=False)
    part: str = ""
    is_wrong: bool = False
    is_other: bool = False


def measured() -> float:
    """Returns how many seconds 10,000 iterations of the key derivation take here."""
    begun = time.monotonic()
    shamir.create("1of1", bytes(16), exponent=0)
    return time.monotonic() - begun


def remaining(seconds: float) -> Callable[[], str]:
    """Returns a call that says how long a work still takes, if it takes so many seconds from now."""
    end = time.monotonic() + seconds

    def said() -> str:
        left = end - time.monotonic()
        return say("work.left", time=said_time(left)) if left > 0 else say("work.longer")

    return said


def recovery_seconds(paper: Paper) -> float:
    """Returns how long one recovery takes here, by an estimate."""
    return derivation_seconds(measured(), paper.exponent, paper.secret_bytes)


def warned_time(screen: Screen, paper: Paper) -> Callable[[], str]:
    """Says how long one recovery takes, if that is long. Returns a call that says how much of one is left, if it begins now."""
    if paper.exponent < LONG_EXPONENT:
        return lambda: ""
    seconds = recovery_seconds(paper)
    screen.tell(say("time.long", exponent=paper.exponent, time=said_time(seconds)))
    return remaining(seconds)


def run_drill(screen: Screen, desk: Desk, noted: str, is_own: bool = False, is_new: bool = False) -> Verdict:
    """Runs a drill, with progress, and returns what it found. The library's refusal of the passphrase is raised.

    `noted` is the expected fingerprint, or empty. `is_own` says that it is that of the secret that was just backed up. `is_new` says that
    the papers take the place of others.
    """
    total, trial = desk.quorums(), desk.trial(noted)
    screen.tell(say("drill.what"))
    screen.tell(said_quorums(total))
    warned_time(screen, desk.papers[0])
    is_slow, is_stopped = recovery_seconds(desk.papers[0]) > SLOW_SECONDS, False
    try:
        screen.work(lambda: trial.run(total <= TRIED_WHOLE, is_slow), lambda: said_tried(trial, total), is_stoppable=True)
    except Stopped:
        is_stopped = True
    finally:
        trial.stop()
    return verdict_of([*trial.outcomes], total, noted, is_own, is_stopped, bool(desk.passphrase), is_new)


def said_tried(trial: Trial, total: int) -> str:
    """Says how many quorums were tried, and how far the next one is."""
    told = say("drill.tried", tried=f"{len(trial.outcomes):,}", total=said_total(total))
    return f"{told} {say('drill.next', rounds=trial.rounds)}" if trial.rounds else told


def said_quorums(total: int) -> str:
    """Says how many quorums there are, and how many are tried if these are too many."""
    return say("drill.count" if total <= TRIED_WHOLE else "drill.count_part", total=said_total(total), first=f"{TRIED_FIRST:,}")


def said_total(total: int) -> str:
    """Says how many quorums there are, up to the number up to which the library counts."""
    return say("number.least", number=f"{total:,}") if total == COUNTED_MOST else f"{total:,}"


def verdict_of(
    tried: Sequence[Tried], total: int, noted: str, is_own: bool, is_stopped: bool, has_passphrase: bool = True, is_new: bool = False
) -> Verdict:
    """Returns what the outcomes of a drill say together."""
    found = fingerprints(tried)
    which = ("same" if not noted else "own" if is_own else "noted") + (".new" if is_new else "")
    result, sentences = _verdict(tried, total, noted, which, found) if tried else ("none", list[str]())
    if result == "other" and not has_passphrase:
        sentences = [say("verdict.other.none", quorums=counted(len(tried), "quorum"), noted=noted)]
    part = say("drill.tried", tried=f"{len(tried):,}", total=said_total(total)) if is_stopped or len(tried) != total else ""
    is_wrong = result != "good" and bool(tried)
    wanted = _wanted(noted, found)
    right = _names(it for it in tried if gives(it, wanted)) or _names(it for it in tried if it.mismatch is None and len(it.names) > 1)
    return Verdict("stopped" if is_stopped else result, sentences, _names(tried), right, has_passphrase, is_own, wanted, part, is_wrong, result == "other")


def tell_verdict(screen: Screen, verdict: Verdict, good: str) -> None:
    """Says how many quorums were tried, if not all were, and what they gave. `good` is the style of what isn't wrong."""
    if verdict.part:
        screen.tell(verdict.part)
    for sentence in verdict.sentences:
        screen.tell(sentence, "bad" if verdict.is_wrong else good)


def _wanted(noted: str, found: List[Tuple[str, int]]) -> str:
    """Returns the fingerprint of the right secret: the noted one, or else the one that most quorums give."""
    return noted or (found[0][0] if found else "")


def _names(tried: Iterable[Tried]) -> Tuple[str, ...]:
    """Returns the names of the papers in quorums, each once."""
    return tuple({name: None for it in tried for name in it.names})


def _verdict(tried: Sequence[Tried], total: int, noted: str, which: str, found: List[Tuple[str, int]]) -> Tuple[str, List[str]]:
    """Returns what a drill found, and says it. `which` names the sentence that says that all quorums are right."""
    wanted = _wanted(noted, found)
    right = [it for it in tried if gives(it, wanted)]
    wrong = [it for it in tried if not gives(it, wanted)]
    quorums = counted(len(tried), "quorum")
    if not wrong:
        # Inside one paper alone, nothing is compared.
        is_alone = len(tried[0].names) == len(tried) == 1 and which in ("same", "own.new")
        whole = "one" if is_alone else "all" if len(tried) == total else "tried"
        return "good", [say(f"verdict.{whole}.{which}", quorums=quorums, fingerprint=wanted)]
    return _wrong(right, wrong, found, noted, quorums)


def _wrong(right: List[Tried], wrong: List[Tried], found: List[Tuple[str, int]], noted: str, quorums: str) -> Tuple[str, List[str]]:
    """Says which quorums are wrong, and which papers may be."""
    if not right:
        mismatched = sum(it.mismatch is not None for it in wrong)
        # The passphrase changes nothing about papers that don't belong together.
        if mismatched == len(wrong):
            return "some", [say("verdict.nothing", quorums=quorums)]
        result = "none" if mismatched else "other"
        return result, [say(f"verdict.{result}", quorums=quorums, noted=noted)]
    if not noted and len(found) > 1:
        return "several", [say("verdict.several", quorums=quorums, secrets=counted(len(found), "secret")), *_gave([*right, *wrong], found)]
    sentences = [say("verdict.some" if noted else "verdict.some.unnoted", wrong=len(wrong), quorums=quorums), _named(wrong)]
    names = suspects(right, wrong)
    if names:
        sentences.append(say(f"verdict.suspects.{one_or_many(names)}", names=", ".join(names)))
    return "some", sentences


def _named(wrong: Sequence[Tried]) -> str:
    """Names the quorums that are wrong, or the first of them."""
    names = ", ".join("+".join(it.names) for it in wrong[:NAMED_MAX])
    more = len(wrong) - NAMED_MAX
    return say("verdict.wrong.more", names=names, more=more) if more > 0 else say(f"verdict.wrong.{one_or_many(wrong)}", names=names)


def _gave(tried: Sequence[Tried], found: List[Tuple[str, int]]) -> List[str]:
    """Says for the first fingerprints how many quorums give each, and one that does, and counts the others."""
    said = []
    for fingerprint, times in found[:NAMED_MAX]:
        names = next("+".join(it.names) for it in tried if gives(it, fingerprint))
        said.append(say("verdict.gave", fingerprint=fingerprint, quorums=counted(times, "quorum"), names=names))
    others = [times for _, times in found[NAMED_MAX:]]
    if others:
        said.append(say("verdict.gave.others", fingerprints=counted(len(others), "fingerprint"), quorums=counted(sum(others), "quorum")))
    return said
