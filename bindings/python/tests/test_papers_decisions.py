"""Tests what `shamir.papers` decides by itself with tools/decisions.json, a table of cases that the page is tested with too. Its values are
worked out by hand, by the standard and by tools/plain.py."""
import json
import pathlib
import re
import sys
import types
import unittest

ROOT = pathlib.Path(__file__).resolve().parent.parent.parent.parent
sys.path.insert(0, str(ROOT / "bindings" / "python"))

if sys.version_info < (3, 10):
    raise unittest.SkipTest("shamir.papers needs Python 3.10")

import shamir  # noqa: E402
from shamir.papers import check, desk, drill, found, plan, quorums, refusals, replace, secret, spelling, standing, texts, what, which  # noqa: E402

TABLE = ROOT / "tools" / "decisions.json"
if not TABLE.exists():
    raise unittest.SkipTest("the table of decisions is only in the repository")
CASES = json.loads(TABLE.read_text("utf-8"))
# A terminal has no table of quorums, so it names the wrong ones, and one for each secret.
OF_A_TERMINAL = ("verdict.wrong.", "verdict.gave")
# What a result says of the papers.
OF_PAPERS = ("verdict.papers", "damaged.doubt", "damaged.suspect.", "damaged.right.", "damaged.keep", "replace.right.", "replace.lone.", "replace.tried.")
# The answer that stands first at the question after a result.
LIKELY = {"e": "end", "t": "again", "p": "papers"}


def said(key, values):
    return texts.say(key, **values)


def fault(row):
    return said(*row) if row else ""


def is_of(text, keys):
    """Whether a text is a sentence of one of these keys, or of keys that begin so."""
    found = (re.sub(r"\\\{\w+\\\}", ".+", re.escape(sentence)) for key, sentence in texts.TABLE.items() if key.startswith(keys))
    return any(re.fullmatch(pattern, text) for pattern in found)


def status_of(row):
    groups = tuple(shamir.GroupStatus(it["group"], it["threshold"], tuple(it["names"])) for it in row["groups"])
    status = shamir.Status(row["complete"], row["required"], groups)
    assert status.enough == row["enough"], row
    return status


def names_of(quorum):
    return tuple(quorum.split("+"))


def refusal_of(row):
    return shamir.Refusal(shamir._code(row["code"]), None, tuple(row["details"]), "")


def paper_of(name, **fields):
    """Returns a paper of which only its name and the given fields matter."""
    group = int(name.split(".")[0])
    given = {"exponent": 0, "secret_bytes": 16, "group_count": 1, "group_threshold": 1, "member_threshold": 1, **fields}
    return desk.Paper(line="academic acid", name=name, id=0, group=group, **given)


class Told:
    """A screen that keeps what it is told. Each question is answered by its first answer."""

    def __init__(self):
        self.texts, self.asked = [], ""

    def tell(self, text, style=""):
        self.texts.append(text)

    def hold(self, text):
        pass

    def choose(self, prompt, answers):
        self.asked = prompt
        return prompt[0]


class DecisionTests(unittest.TestCase):
    def test_decisions(self):
        """Each decision of the table has a method here with its name, which takes a case."""
        for name, cases in CASES.items():
            self.assertTrue(cases, name)
            for case in cases:
                with self.subTest(decision=name, case=case):
                    getattr(self, name)(case)

    def counts(self, case):
        total = int(case["total"])
        self.assertEqual(drill.said_quorums(total), said(*case["said"]))
        self.assertEqual((total <= quorums.TRIED_WHOLE, quorums.TRIED_FIRST), (case["whole"], case["first"]))

    def quorum_with(self, case):
        names = quorums.quorum_with(status_of(case["status"]), case["name"])
        self.assertEqual(names and list(names), case["names"])

    def suspects(self, case):
        right, wrong = ([quorums.Tried(names_of(it), None, None) for it in case[which]] for which in ("right", "wrong"))
        self.assertEqual(quorums.suspects(right, wrong), case["names"])

    def tried(self, names, gave):
        if isinstance(gave, bool):
            return quorums.Tried(names_of(names), None, None, gave)
        return quorums.Tried(names_of(names), gave, None) if isinstance(gave, str) else quorums.Tried(names_of(names), None, gave)

    def verdicts(self, case):
        tried = [self.tried(*row) for row in case["tried"]]
        how = {"has_passphrase": case["passphrase"], "is_new": case["new"]}
        verdict = drill.verdict_of(tried, int(case["total"]), case["noted"], case["own"], case["stopped"], **how)
        self.assertEqual([it for it in verdict.sentences if not is_of(it, OF_A_TERMINAL)], [said(*row) for row in case["said"]])
        found = verdict.result, list(verdict.right), list(verdict.names), verdict.fingerprint, bool(verdict.part)
        self.assertEqual(found, tuple(case[it] for it in ("result", "right", "names", "fingerprint", "part")))

    def results(self, case):
        anew = case["repaired"] + case["written"]
        lone = case.get("lone", [])
        how = [{"is_repaired": it in case["repaired"], "is_rewritten": it in anew, "is_answered": it in lone} for it in case["here"]]
        papers = [paper_of(name, **it) for name, it in zip(case["here"], how)]
        groups = sorted({paper.group for paper in papers})
        status = shamir.Status(0, 1, tuple(shamir.GroupStatus(it, 1, tuple(one.name for one in papers if one.group == it)) for it in groups))
        written = "repaired" if case["repaired"] else "replaced" if case["written"] else ""
        left = ["academic " * 10] if case["left"] else []
        here = types.SimpleNamespace(papers=papers, others=[], left_out=left, damaged=[], written=written, status=lambda: status, prove=lambda names: None)
        verdict = drill.Verdict(case["result"], [], tuple(case["tried"]), tuple(case["right"]), case["passphrase"])
        screen = Told()
        check._tell(screen, here, verdict, "df41d8fe" if case["noted"] else "")
        self.assertEqual(screen.texts[0], texts.say(case["title"]))
        self.assertEqual(LIKELY[screen.asked[0]], case["next"])
        self.assertEqual(sorted(it for it in screen.texts if is_of(it, OF_PAPERS)), sorted(said(*row) for row in case["said"]))

    def plans(self, case):
        it = plan.plan_of(case["plan"])
        self.assertEqual(plan.survived(it), (case["lost"], case["stolen"]))
        for call, name in [(plan.said_dangers, "dangers"), (plan.said_singles, "singles")]:
            self.assertEqual(call(it), " ".join(said(*row) for row in case[name]))
        for name, rows in case["takes"].items():
            self.assertEqual(plan.said_takes(it, name), " ".join(said(*row) for row in rows))

    def missing(self, case):
        status, count = status_of(case["status"]), case["groups"]
        self.assertEqual([list(it) for it in which._candidates(status, count)], case["offered"])
        self.assertEqual(which.untried(status, count), [said(*row) for row in case["untried"]])
        for typed, wrong in case["typed"]:
            self.assertEqual(which._fault_of(typed.strip().lower(), status, count), fault(wrong), typed)
        here = types.SimpleNamespace(papers=[paper_of("0.0", group_count=count, group_threshold=case["needed"])])
        for name, needed, wanted in case["plans"]:
            self.assertEqual(which._plan_with(here, status, int(name.split(".")[0]), needed).text, wanted)

    def may_determine(self, case):
        self.assertEqual(replace._may_determine(status_of(case["status"])), case["may"])

    def tasks_of_66(self, case):
        self.assertEqual(replace._task_of(plan.plan_of(case["plan"])), case["task"])

    def refusals(self, case):
        self.assertEqual(refusals.said_refusal(refusal_of(case), case["task"]), said(*case["said"]))

    def foreign(self, case):
        self.assertEqual(refusals.said_foreign(refusal_of(case), case["repaired"]), said(*case["said"]))

    def whole(self, case):
        self.assertEqual(standing.said_whole(status_of(case["status"]), case["groups"], case["task"]), said(*case["said"]))

    def same(self, case):
        self.assertEqual(desk.is_same(desk.paper_of(case["one"]), desk.paper_of(case["other"])), case["same"])

    def near(self, case):
        self.assertEqual(spelling.nearest(case["typed"])[0], case["first"])

    def bip39(self, case):
        self.assertEqual(spelling.seems_bip39(case["words"]), case["likely"])

    def marks(self, case):
        marks = [mark for _, mark in spelling.parts_of(case["text"])]
        self.assertEqual((marks, found.opened(marks)), (case["marks"], case["open"]))

    def begun(self, case):
        here = desk.Desk()
        here.leave_out(case["words"])
        self.assertEqual(len(here.left_out), int(case["begun"]))

    def alike(self, case):
        self.assertEqual([desk.resembles(case[a], case[b]) for a, b in ("one other".split(), "other one".split())], [case["alike"]] * 2)

    def digits(self, case):
        self.assertEqual(secret._fault_of(bytearray(case["typed"].encode())), fault(case["fault"]))

    def doubts(self, case):
        self.assertEqual(secret._doubts(bytearray.fromhex(case["digits"]), case["words"]), [said(*row) for row in case["said"]])

    def seconds(self, case):
        self.assertEqual(desk.derivation_seconds(case["measured"], case["exponent"], case["bytes"]), case["seconds"])
        self.assertEqual(case["exponent"] >= drill.LONG_EXPONENT, case["long"])

    def times(self, case):
        self.assertEqual(texts.said_time(case["seconds"]), said(*case["said"]))

    def others(self, case):
        counts = {"group_count": case["groupCount"], "group_threshold": case["groupThreshold"], "member_threshold": case["memberThreshold"]}
        self.assertEqual(what.said_others(paper_of(case["name"], **counts)), said(*case["said"]))


if __name__ == "__main__":
    unittest.main()
