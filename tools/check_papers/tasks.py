"""Each task from its start to its end, as an owner goes through it. The values that must be shown are from outside (tools/samples.py)."""
import contextlib
import re

from hands import Failed, Session, counted, say

from samples import PASSPHRASE, SOUND_PAPER, check_backups, check_papers_of, fingerprint_of, name_of, names_of, said_kind, secret_of, with_words
from shamir.papers.screen import BACK

SIGN = "-"


def short(line):
    """Returns the first four letters of each word."""
    return " ".join(word[:4] for word in line.split())


class Owner(Session):
    """An owner who goes through a task. `answers` counts the answers other than words and passphrases, `keys` those of words."""

    def __init__(self, *words, **how):
        super().__init__(*words, **how)
        self.answers = self.keys = self.count = 0
        self.prompts = []

    def reply(self, prompt, text):
        self.answers += 1
        self.prompts.append(prompt)
        self.answer(prompt, text)

    def question(self, key):
        """Returns a question, as a terminal gets it that can't be cleared, or any other."""
        return say(f"{key}.plain" if self.is_plain else key)

    def prepare(self):
        self.reply(say("safety.go"), "")

    def settle(self, wallet="1"):
        """Takes the plan, also if one paper of it is dangerous, and says which wallet reads the papers. A new secret has 20 words."""
        if self.wait(say("new.plan.sure"), say("new.wallet")) == say("new.plan.sure"):
            self.reply(say("new.plan.sure"), "u")
        self.reply(say("new.wallet"), wallet)
        self.reply(say("new.words"), "")

    def draw(self, passphrase=""):
        """Takes a new secret, and this passphrase. Returns the words of the first paper."""
        self.answer(say("new.secret"), "")
        self.answer(say("new.passphrase"), passphrase)
        if passphrase:
            self.answer(say("new.passphrase.again"), passphrase)
        else:
            self.answer(f"{say('new.passphrase.none')} {say('screen.yes.back')}", "y")
        self.wait(self.question("new.write"))
        return self.words()

    def prove(self, noted, passphrase):
        """Types what was noted, as the program asks before it says that a backup is made."""
        self.reply(say("proof.ask", sign=SIGN), noted)
        self.hide(say("passphrase.ask"), passphrase, has_back=False)

    def noted(self):
        """Returns the fingerprint that is shown to be noted."""
        shown = f"{self.screen()} {self.emulator.all_seen()}"
        return re.findall(rf"(?:{say('noted.title')}|{say('noted.title.own')}): ([0-9a-f]{{8}})", shown)[-1]

    def type_paper(self, prompt, line):
        self.prompts.append(prompt)
        self.answer(prompt, short(line))
        self.keys += len(short(line)) + 1
        self.count += len(line.split())

    def hidden(self, prompt, text):
        self.prompts.append(prompt)
        self.answer(prompt, text)

    def hide(self, prompt, passphrase, has_back=True):
        """Types a passphrase. A space at its beginning or end is meant, and so is the letter that goes back elsewhere."""
        self.hidden(prompt, passphrase)
        if passphrase.lower() == BACK:
            self.reply(f"{say('passphrase.back')} {say('screen.yes.back' if has_back else 'screen.yes')}", "y")
        for key, edge in [("passphrase.space.first", passphrase[:1]), ("passphrase.space.last", passphrase[-1:])]:
            if edge == " ":
                self.reply(f"{say(key)} (y/n)", "y")

    def passphrase(self, passphrase, noted):
        self.hide(say("passphrase.ask"), passphrase)
        self.reply(say("noted.ask"), noted)
        if passphrase and not noted:
            self.hidden(say("new.passphrase.again"), passphrase)

    def collect(self, lines, first=1):
        """Types papers, of which the first has this number, and ends their typing."""
        for number, line in enumerate(lines, first):
            self.type_paper(paper_prompt(number), line)
        self.reply(paper_prompt(first + len(lines)), "")

    def written(self):
        """Reads the papers that are shown to be written down, until they are to be typed back."""
        papers = []
        write = self.question("new.write")
        while self.wait(write, say("screen.next")) == write:
            papers.append(self.words())
            self.reply(write, "")
        return papers

    def type_back(self, papers):
        """Types all papers back that were shown."""
        self.reply(say("screen.next"), "")
        for line in papers:
            self.type_paper(say("back.ask", name=name_of(line)), line)

    def finish(self, prompt, said=""):
        """Ends at a question that offers to end. `said` is the key of what the program must say then, if it matters."""
        self.reply(prompt, "e")
        self.end(0, said)

    def within(self, most):
        """Checks that no more was to be typed than an owner was promised: five keys a word, and so many answers."""
        if self.answers > most or self.keys > 5 * self.count:
            raise Failed(f"{self.answers} answers and {self.keys} keys for {self.count} words: {self.prompts}")


@contextlib.contextmanager
def started(*words, has="1", **how):
    """Starts the program with these words, and goes on to its first question. `has` is the number of what the owner of a new backup has, or
    nothing to stay at the question for that."""
    with Owner(*words, **how) as owner:
        owner.prepare()
        if words[:1] == ("new",) and has:
            owner.reply(say("has.choose"), has)
        yield owner


# What an owner has who types the digits of a secret.
DIGITS = "3"


def end_by_keys(owner):
    owner.type("\x03")
    owner.end(130)


def paper_prompt(number):
    return say("entry.paper.first") if number == 1 else say("entry.paper", number=number)


def make(owner, passphrase, plan, secret=None, known=""):
    """Goes through the task 'new' from the secret on. `known` is the fingerprint that was noted of the owner's own secret. Returns the
    papers and the fingerprint."""
    owner.settle()
    owner.reply(say("new.secret"), "")
    if secret is not None:
        owner.reply(say("secret.from.choose"), "1")
        owner.hidden(say("new.secret.digits"), secret)
        owner.hidden(say("new.secret.again"), secret)
        if len(secret) != 32:
            owner.reply(f"{say('secret.sure')} (y/n)", "y")
        owner.reply(say("noted.ask"), known)
    owner.hide(say("new.passphrase"), passphrase, has_back=secret is None)
    if passphrase:
        owner.hidden(say("new.passphrase.again"), passphrase)
    else:
        owner.reply(f"{say('new.passphrase.none')} {say('screen.yes' if secret else 'screen.yes.back')}", "y")
    papers = owner.written()
    check_papers_of(papers, plan, 1, 1, 33 if secret and len(secret) > 32 else 20)
    owner.type_back(papers)
    noted = say("noted.done.own" if secret else "noted.done")
    owner.wait(noted)
    owner.expect(say("noted.apart" if passphrase else "noted.papers"))
    found = owner.noted()
    if found != fingerprint_of(papers, passphrase):
        raise Failed(f"the fingerprint {found} isn't that of the papers")
    owner.reply(noted, "")
    if secret:
        owner.reply(say("proof.ask.own", sign=SIGN), found if known else SIGN)
        owner.hide(say("passphrase.ask"), passphrase, has_back=False)
    else:
        owner.prove(found, passphrase)
    owner.expect(say("make.done"))
    if secret is None:
        owner.expect(f"{say('make.done')} {say('make.empty')}")
    else:
        owner.lacks(say("make.empty"), "of an own secret, the wallet is said to be empty")
    owner.finish(say("screen.end"))
    return papers, found


def check_new(see):
    with started("new", "2/3of5,1of1") as owner:
        papers, noted = make(owner, PASSPHRASE, "2/3of5,1of1")
        owner.within(16)
    return papers, noted


def check_check(papers, noted):
    with started("check") as owner:
        owner.collect(papers)
        owner.passphrase(PASSPHRASE, noted)
        owner.wait(say("next.good"))
        owner.expect(say("verdict.all.noted", quorums="10 quorums", fingerprint=noted))
        owner.finish(say("next.good"))
        owner.within(12)


def check_recover(papers, noted):
    with started("recover") as owner:
        owner.collect([papers[1], papers[5], papers[3], papers[4]])
        owner.passphrase(PASSPHRASE, noted)
        owner.reply(f"{say('recover.show')} (y/n)", "y")
        owner.expect(say("recover.same"))
        owner.wait(owner.question("recover.clear"))
        digits = "".join(re.findall(r"\b[0-9a-f]{8}\b", owner.screen()))
        if digits != secret_of(papers, PASSPHRASE):
            raise Failed("the digits that are shown aren't those of the secret")
        owner.reply(owner.question("recover.clear"), "")
        owner.wait(say("next.good"))
        owner.expect(say("recover.next"))
        owner.finish(say("next.good"))
        owner.within(12)


def check_replace(papers, noted):
    lost, rest = papers[1], [papers[at] for at in (0, 2, 4, 5)]
    with started("replace") as owner:
        owner.reply(say("replace.how"), "1")
        owner.collect(rest)
        owner.wait(say("replace.choose"))
        for name, key in [("0.1", "between"), ("0.3", "between"), ("0.5", "after")]:
            owner.expect(f"{name} {say(f'which.{key}')}")
        owner.reply(say("replace.choose"), "0.1")
        owner.wait(owner.question("new.write"))
        if owner.words() != lost:
            raise Failed("the paper that is written again has other words")
        owner.reply(owner.question("new.write"), "")
        owner.type_paper(say("back.ask", name="0.1"), lost)
        owner.reply(say("replace.choose"), "d")
        owner.passphrase(PASSPHRASE, noted)
        owner.wait(say("next.good"))
        owner.expect(say("verdict.all.noted", quorums="4 quorums", fingerprint=noted))
        owner.expect(f"[ok] {say('replace.right.one', names='0.1')}")
        owner.finish(say("next.good"))
        owner.within(12)


def change(owner, plan, wallet=""):
    """Goes through the task 'change' from the choice of the plan on, until the new papers are typed back. Returns them. `wallet` says which
    wallet will read them, if that is asked."""
    owner.reply(say("new.plan.choose"), plan)
    if owner.wait(say("new.plan.sure"), say("new.wallet"), owner.question("new.write")) == say("new.plan.sure"):
        owner.reply(say("new.plan.sure"), "u")
    if wallet:
        owner.reply(say("new.wallet"), wallet)
    papers = owner.written()
    owner.expect(say("change.mark"))
    if list(map(name_of, papers)) != names_of(plan):
        raise Failed(f"the papers {names_of(plan)} were expected, and {list(map(name_of, papers))} are shown")
    owner.type_back(papers)
    return papers


def check_change(papers, noted):
    """The papers of an extendable backup give others, by another plan. For each passphrase, these give the secret that the old ones give,
    which never shows."""
    old = [papers[at] for at in (1, 2, 4, 5)]
    with started("change") as owner:
        owner.collect(old)
        new = change(owner, "2of3")
        owner.passphrase(PASSPHRASE, noted)
        owner.wait(say("screen.end"))
        owner.expect(say("change.done"))
        owner.expect(f"[ok] {say('verdict.all.noted.new', quorums='3 quorums', fingerprint=noted)} {say('change.same')}")
        owner.expect(say("change.old"))
        owner.expect(say("change.mixed"))
        owner.finish(say("screen.end"))
        owner.within(13)
        check_changed(owner, old, new, "2of3", 1)


def check_changed(owner, old, new, plan, extendable, passphrase=PASSPHRASE):
    """Checks new papers beside the old ones, and that no secret was shown."""
    check_backups(old, new, plan, extendable, passphrase)
    for tried in (passphrase, "", "another"):
        if secret_of(old, tried) in "".join(owner.raw.decode().split()):
            raise Failed("the secret is shown")


def check_repair(papers, noted):
    words = papers[0].split()
    with started("repair") as owner:
        owner.answer(say("damaged.ask"), with_words(papers[0], {4: "?", 10: words[9][:2] + "?"}))
        owner.wait(say("damaged.menu"))
        owner.expect(say("damaged.one", name="0.0"))
        for number in (4, 10):
            owner.expect(f"{say('entry.place', number=number)}: {words[number - 1]}")
        owner.reply(say("damaged.menu"), "w")
        owner.reply(f"{say('damaged.sure', name='0.0')} (y/n)", "y")
        owner.reply(owner.question("new.write"), "")
        owner.type_paper(say("back.ask", name="0.0"), papers[0])
        owner.collect([papers[1]], 2)
        owner.reply(say("more.papers"), "e")
        owner.expect(say("damaged.too_few"))
        owner.end(0, "closed.repaired")


def check_what(papers, noted):
    """One paper says what it is, by the plain reading, and asks for nothing else. The flag and the other papers that it needs are told."""
    with started("what") as owner:
        for line in (papers[0], papers[5], SOUND_PAPER):
            owner.forget()
            owner.type_paper(say("what.ask"), line)
            owner.wait(say("what.next"))
            for text in (say("what.found", name=name_of(line)), *said_kind(line, say, counted)):
                owner.expect(text)
            owner.reply(say("what.next"), "b" if line != SOUND_PAPER else "e")
        owner.end(0)


def in_turn(checks):
    """Returns the part that has these checks."""

    def check(_):
        for one in checks:
            one()

    return check


# What is done with the papers of a new backup, and its fingerprint.
TASKS = [check_check, check_recover, check_replace, check_change, check_repair, check_what]


def check(see):
    """Goes through all tasks with one new backup."""
    papers, noted = check_new(see)
    for task in TASKS:
        task(papers, noted)
