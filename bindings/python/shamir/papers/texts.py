"""The sentences: those of the page, from its own table, and those that only a terminal needs."""
from __future__ import annotations

import json
import pathlib
import re
from typing import Dict, Sized, Union

Value = Union[str, int]


HERE = pathlib.Path(__file__).resolve().parent
# A wheel and a package have a copy of the page's table beside this module. In a checkout, the table stands in the page's folder.
TABLES = [HERE / "texts.js", HERE.parents[3] / "page" / "texts.js"]
# The tasks: the word of the command for each, and the key of what it is called.
TASKS = {
    "new": "home.make",
    "check": "home.check",
    "recover": "home.recover",
    "replace": "home.replace",
    "change": "home.change",
    "repair": "home.damaged",
    "what": "home.what",
}


def _page() -> Dict[str, str]:
    """Returns the page's table. It is JSON between its first and its last line."""
    source = next(path for path in TABLES if path.exists()).read_text("utf-8")
    begin, end = source.index("{\n", source.index("export const TEXTS")), source.index("\n};") + 2
    table: Dict[str, str] = json.loads(source[begin:end])
    named = {f"'{table[key]}'": task for task, key in TASKS.items()}
    return {key: _of_terminal(text, named) for key, text in table.items()}


def _of_terminal(text: str, named: Dict[str, str]) -> str:
    """Returns a sentence of the page as a terminal says it: what the page says of itself is true of this program too, and a task is
    named as the menu names it, with the word of its command."""
    text = re.sub(r"\b([Tt]he|[Tt]his) page\b", r"\1 program", text).replace(" on the first screen", "")
    return re.sub("|".join(map(re.escape, named)), lambda found: f"{found[0]} ({named[found[0]]})", text)


# What a terminal says in other words than the page, or what only a terminal says.
OWN: Dict[str, str] = {
    "home.choose": "Number or word (h: help; Ctrl-C ends):",
    "help.choose": "The number of a question (b: back):",
    "screen.more": "(Enter: more)",
    "screen.long": "More was typed than a line can have, so it isn't taken. Type it again.",
    "screen.answers": "Type one of these: {answers}.",
    "screen.dropped": "What you typed or pasted before this isn't taken.",
    "screen.kept": "This is no answer. It is kept, and read as papers after this question.",
    "screen.lines": "This takes one line, and several were pasted. Type it again.",
    "line.keys": "The cursor doesn't move here. Backspace takes the last letter away, Ctrl-W the last word, and Ctrl-U all that was typed.",
    "screen.yes": "(y/n)",
    "screen.yes.back": "(y/n; b: back)",
    "screen.next": "Enter: go on",
    "screen.end": "e: end.",
    "work.passed": "{time} so far.",
    "work.stop": "s: stop.",
    "work.key": "Only s does something here: it asks whether to stop.",
    "work.sure": "Stop this?",
    "end.title": "You aren't finished",
    "end.ask": "End now (Ctrl-C again ends too)?",
    "end.typed": "If you end now, the program forgets the papers that you typed.",
    "end.unfinished": "If you end now, the program forgets the papers. Those that you have written so far are no finished backup. You would have to destroy them, and begin again.",
    "end.replaced": "If you end now, destroy only a paper written now and not typed back. Keep all others: your old ones, and those typed back.",
    "end.repaired": "No drill has shown yet that all words of the damaged paper are right. If you end now, keep it too.",
    "ended": "shamir-papers: nothing was kept.",
    "ended.unfinished": "shamir-papers: ended. The papers that you have written so far are no finished backup: destroy them.",
    "ended.made": "shamir-papers: ended. The backup is made, and its papers are right: keep them.",
    "ended.replaced": "shamir-papers: ended. Destroy only a paper written now and not typed back. Keep all others: your old ones, and those typed back.",
    "ended.repaired": "shamir-papers: ended. No drill has shown yet that all words of the damaged paper are right, so keep it too.",
    "ended.close": "Close this terminal now: it may remember what it showed.",
    "closed": "shamir-papers: done. Close this terminal now: it may remember what it showed.",
    "closed.unfinished": "shamir-papers: ended. No whole drill has shown that the new papers are right, so they are no finished backup. Close this terminal now: it may remember what it showed.",
    "closed.repaired": "shamir-papers: done. No drill has shown that all words of the damaged paper are right, so keep it too. Close this terminal now: it may remember what it showed.",
    "failed": "shamir-papers: the program failed here.",
    "needs.terminal": "shamir-papers asks at a terminal, and standard {stream} isn't one. In scripts, use the program shamir: {command} (see 'man shamir')",
    "safety.title": "Before you begin",
    "safety.good": "This machine seems to have no network and no swap.",
    "safety.network": "A network is up ({names}). Switch it off until you are done: pull out the cable, and switch the wireless network off.",
    "safety.swap": "Swap is on, so memory may be written to a disk. As root, 'swapoff -a' switches it off.",
    "safety.ssh": "You seem to work over ssh. The machine at your end and its terminal see all that you type and read.",
    "safety.recorded": "This terminal is recorded by '{name}'. End that first.",
    "safety.plain": "This terminal (TERM={kind}) can't be cleared, so what is shown stays in it. Close it at the end.",
    "safety.kept": "This terminal has no second screen, so lines that leave the screen go to its scrollback. From the next screen on, that is cleared too, with what was there before, if the terminal does that. Close it at the end.",
    "safety.kept.unknown": "This terminal (TERM={kind}) has no second screen, so lines that leave it may stay in its memory. Close it at the end.",
    "safety.kept.screen": "GNU screen clears no scrollback, and has a second screen: end this, press Ctrl-A, type ':altscreen on', and begin again.",
    "safety.kept.tmux": "tmux can have a second screen: end this, run 'tmux set -w alternate-screen on', and begin again.",
    "safety.screen": "You work in GNU screen, which may keep what is shown. First press Ctrl-A, and type ':altscreen on'.",
    "safety.lock": "The system doesn't let this program lock its memory, so what you type may reach a disk if memory runs short.",
    "safety.attach": "The system doesn't let this program forbid other programs of yours to read its memory.",
    "safety.core": "The system doesn't let this program forbid a copy of its memory on disk if it fails.",
    "safety.seen": "Make sure that nobody sees the screen, and that no camera does.",
    "safety.go": "Enter: go on. Ctrl-C: end, now and at any time.",
    "new.plan.choose": "1, 2 or 3, or a plan (b: back):",
    "new.plan.other": "Another plan: for one group, type TofN, such as 2of3. For groups, type how many of them are needed, a slash, and the groups, such as 2/3of5,1of1.",
    "new.plan.groups": "For groups, type first how many of them are needed. If all are needed, type {plan}.",
    "has.choose": "1, 2, 3, 4 or 5 (b: back):",
    "has.make.choose": "n: make papers of a new wallet. b: back.",
    "new.secret": "Enter: go on. m: more choices. b: back.",
    "secret.from.choose": "1 or 2 (b: back):",
    "secret.sure": "Is that right?",
    "new.secret.digits": "The digits of the secret (they don't show; s: show them; b: back):",
    "new.secret.digits.shown": "The digits of the secret (they show; b: back):",
    "new.secret.again": "The same digits again:",
    "new.secret.count": "You typed {digits} digits, for {bytes} bytes.",
    "make.passphrase": "Make a backup: the passphrase",
    "new.chosen": "Iteration exponent: {exponent}.",
    "new.wallet": "1, 2 or 3 (b: back):",
    "new.words": "20 or 33 (Enter alone: 20; b: back):",
    "new.plan.sure": "u: use this plan all the same. b: change the plan.",
    "new.exponent.each": "Each step from there doubles that.",
    "new.exponent": "Iteration exponent, 0 to 15 (Enter: 1, as usual; b: back):",
    "new.exponent.long": "With the iteration exponent {exponent}, each recovery takes about {time} on this machine, and much longer on a hardware wallet. Is that right?",
    "new.passphrase": "Passphrase (it doesn't show; Enter alone: none):",
    "new.passphrase.again": "The same again:",
    "new.passphrase.long": "A new passphrase has at most {most} bytes, because the program shamir can't read more from a file.",
    "new.passphrase.none": "No passphrase: is that right (the answer doesn't show)?",
    "new.write": "Enter: I have written it. The words are cleared then.",
    "new.write.plain": "Enter: I have written it. The words stay in this terminal until you close it.",
    "new.write.alone": "Nothing is typed here: press Enter alone when you have written the paper. You type it back later.",
    "paper.how": "Write 'SLIP-0039', the name {name} and the words with their numbers, in block letters. Never photograph a paper.",
    "back.ask": "Paper {name} (Enter alone: show it again):",
    "noted.ask": "The fingerprint that you noted (it shows; Enter alone: none; b: back):",
    "noted.wrong": "This isn't a fingerprint. A fingerprint has exactly 8 characters, each of which is a digit or a letter from a to f. Compare it with your note. If you have noted none, press Enter alone.",
    "noted.again": "The fingerprint that you noted (it shows; b: type the digits again):",
    "noted.again.wrong": "This isn't a fingerprint. A fingerprint has exactly 8 characters, each of which is a digit or a letter from a to f. Compare it with your note.",
    "secret.other": "No paper was made. The digits that you typed have the fingerprint {fingerprint}, and not the {noted} that you noted. So the digits aren't those of your secret, or you noted the fingerprint wrongly. Compare the fingerprint with your note. If you mistyped it, type it again. If it is right, go back, and type the digits again.",
    "proof.next.both": "Next, you type the fingerprint and the passphrase from your note.",
    "proof.why": "Type the fingerprint and the passphrase as you noted them. The program then tries the papers with them, which shows whether they are right. Only after that is the backup made.",
    "proof.ask": "The fingerprint that you noted (it shows; Enter alone: show it again):",
    "proof.ask.own": "The fingerprint that you noted (it shows; Enter alone: show it again; {sign} alone: you note none):",
    "noted.done": "Enter: I have noted it",
    "noted.done.own": "Enter: go on",
    "passphrase.space.first": "The passphrase begins with a space. Is that right (the answer doesn't show)?",
    "passphrase.space.last": "The passphrase ends with a space. Is that right (the answer doesn't show)?",
    "passphrase.ask": "Passphrase (it doesn't show; Enter alone: none):",
    "passphrase.back": "You typed only the letter that goes back from other questions. Is that the passphrase (the answer doesn't show)?",
    "entry.how": "Type the words in their order, in one line or several. The first 4 letters of a word are enough, and Tab completes a word. Type ? for a word that you can't read, or its first letters and ?.",
    "entry.how.whole": "You may type them in one line or several. The first 4 letters of a word are enough, and Tab completes a word.",
    "entry.paper": "Paper {number} (Enter alone: no more):",
    "entry.paper.first": "Paper 1 (begin with any; b: back):",
    "entry.on": "{typed} Word {number} and on ({sign} alone: begin this paper again):",
    "entry.count.wanted": "Typed: {count} of {words}, so {missing}.",
    "entry.count.few": "Typed: {count}. Most papers have {few} or {many} words, so {missing}, or {others}.",
    "entry.count.between": "Typed: {count}. Most papers have {few} or {many} words, so {excess}, or {missing}.",
    "entry.count.beyond": "Typed: {count}. Most papers have {few} or {many} words, so {excess}, or several papers were typed as one.",
    "entry.count.over": "Typed: {count}. Each paper of this backup has {words}, so {excess}: perhaps a word was typed twice, or 2 papers were typed as one.",
    "entry.compare": "Compare them with your paper. If they aren't its words, type {sign} alone, and begin this paper again.",
    "entry.on.many": "{typed} Word {number} and on (a number alone: take that word out; {sign} alone: begin this paper again):",
    "entry.over": "The number of a word that is too many ({sign} alone: begin this paper again):",
    "entry.over.numbers": "Type the number of a word, from 1 to {count}, or the whole paper.",
    "entry.left_out": "Or a word was left out: compare the numbers with those on your paper. Then type {sign} alone, and begin this paper again.",
    "entry.wordless": "There is no word of a paper in this.",
    "entry.kept": "The words that you typed stay. Type those again that don't fit, or ? for a word that you can't read.",
    "entry.gap": "Typed: {count}. Up to number {last}, these are missing: {numbers}. Type them with their numbers ({sign} alone: begin this paper again):",
    "entry.twice": "Several words have the number {number}: {words}. Type them again, each with its number.",
    "entry.beyond": "No word of a paper has the number {number}: {words}. Look at the numbers on your paper.",
    "entry.unknown": "Word {number}, {word}, isn't in the word list{nearest}.",
    "entry.several": "Word {number}, {word}, isn't complete. Some of the words that begin so: {nearest}.",
    "entry.mark": "Word {number}, {word}, stands for no word of the list. The question mark comes last. If you can't read the beginning, type ? alone.",
    "entry.mark.none": "Word {number}, {word}, isn't a word. Here each word is to be read from the paper. If you can't read it, look at the paper again on the screen, and write it anew.",
    "entry.word": "Word {number} (? if it stands so; {sign} alone: begin again):",
    "entry.word.back": "Word {number} (Enter alone: show the paper again; {sign} alone: type it anew):",
    "entry.one": "Type word {number} alone: the others stay as you typed them.",
    "entry.numbered": "Number and word, such as '7 acid' or '7 ?' ({sign} alone: begin again):",
    "entry.numbered.back": "Number and word, such as '7 acid' (Enter alone: show the paper again; {sign} alone: type it anew):",
    "entry.numbers": "Type the number of a word, from 1 to {count}, and the word.",
    "entry.stays": "What you typed stays in the line, so that you can change it. Ctrl-U empties the line.",
    "entry.longer": "If the paper has more than {count} words, type those that follow.",
    "entry.typed": "These words were typed:",
    "entry.place": "Word {number}",
    "entry.place.typed": "(you typed {word})",
    "entry.fits": "These words were found:",
    "entry.miswritten": "If the paper says what you typed, and not the word that was found, the paper is miswritten there.",
    "entry.take.which": "Which of them can be what was meant on the paper, and has its name, if it bears one? (1, 2, or 0 for none)",
    "what.ask": "The paper (b: back):",
    "what.next": "e: end. b: type another paper.",
    "what.repaired": "Words of paper {name} were found and not read, so only a drill shows whether it is right.",
    "entry.drop": "To take a paper out again, type {sign} and its name, such as {sign}{name}.",
    "entry.drop.none": "No paper {name} is here.",
    "entry.drop.which": "Which paper {name} is to be taken out (0: none)?",
    "paste.taken": "Pasted, sound and taken: {names}.",
    "paste.taken.backup": "Pasted, sound and taken, of the papers that begin with '{begin}': {names}.",
    "paste.repeated": "Pasted, and here already: {names}.",
    "paste.repeated.backup": "Pasted, and here already, of the papers that begin with '{begin}': {names}.",
    "paste.none": "None of the pasted papers is taken.",
    "paste.left": "Not taken: the paper that begins with '{begin}'. {why}",
    "paste.cut": "More was pasted than all papers of a backup have. What comes after '{end}' isn't taken.",
    "paste.mend": "Enter: mend those that aren't taken",
    "paste.now": "The paper that begins with '{begin}':",
    "paste.gap": "Word {number} is missing, or several words have that number.",
    "paste.open": "Words of it are open.",
    "paste.only": "You pasted {papers}. Only one is asked for here, so only the first is read. The others aren't taken.",
    "collect.dropped": "Paper {name} is taken out.",
    "backup.which": "These papers are of several backups. Which one do you mean? The papers of the others stay here, and are left out.",
    "backup.choose": "The number of a backup (b: type more papers):",
    "word.one": "1 word",
    "word.many": "{n} words",
    "missing.one": "1 word is missing",
    "missing.many": "{n} words are missing",
    "excess.one": "1 word is too many",
    "excess.many": "{n} words are too many",
    "status.line": "{group}. {told}",
    "verdict.wrong.one": "This quorum doesn't give it: {names}.",
    "verdict.wrong.many": "These quorums don't give it: {names}.",
    "verdict.wrong.more": "These quorums don't give it, and {more} more: {names}.",
    "verdict.some": "Some quorums don't give a secret with the fingerprint that you noted: {wrong} of {quorums}. The others give your secret.",
    "verdict.some.unnoted": "Some quorums give no secret: {wrong} of {quorums}. The others all give the same secret.",
    "verdict.gave": "{fingerprint}: {quorums}, such as {names}",
    "verdict.gave.others": "Not listed: {fingerprints}, from {quorums}",
    "fingerprint.one": "1 more fingerprint",
    "fingerprint.many": "{n} more fingerprints",
    "drill.next": "Next: {rounds}/4.",
    "next.good": "e: end. p: go back to the papers.",
    "next.unnoted": "e: end. t: try again with the same papers. p: go back to the papers.",
    "next.again": "t: try again with the same papers. p: go back to the papers. e: end.",
    "next.papers": "p: go back to the papers. t: try again with the same papers. e: end.",
    "more.papers": "Enter: type more papers. e: end.",
    "make.failed.again": "t: type the passphrase again, and drill. e: end.",
    "recover.show": "Show the secret?",
    "recover.clear": "Enter: clear the digits",
    "recover.clear.plain": "Enter: go on. The digits stay in this terminal until you close it.",
    "change.extendable": "The old papers have the extendable flag. So this takes no passphrase: each passphrase goes on giving the wallet that it gives now.",
    "change.bare.none": "If you don't have them here, press Enter alone at both questions.",
    "change.repaired": "Words of the old papers were found, and not read, and nothing was compared with a fingerprint that you noted. So nothing shows that these words are right.",
    "change.repaired.flagless": "Words of the old papers were found, and not read, and nothing was compared with a fingerprint that you noted. So nothing shows that these words and the passphrase are right. If they aren't, the new papers are of another wallet.",
    "change.agree": "Each quorum that was tried, of the new papers as of the old ones, gives one and the same secret.",
    "change.failed.then": "If the result stays the same, keep the old papers, and destroy the new ones.",
    "end.changing": "If you end now, the program forgets the new papers. Those that you have written so far are no finished backup: destroy them, and keep the old ones.",
    "ended.changing": "shamir-papers: ended. The new papers that you have written so far are no finished backup: destroy them, and keep the old ones.",
    "ended.changed": "shamir-papers: ended. Keep the new papers, and the old ones until a wallet that you restored from the new ones has shown your addresses.",
    "closed.changing": "shamir-papers: ended. No whole drill has shown that old and new papers agree, so keep the old ones. Close this terminal now: it may remember what it showed.",
    "replace.choose": "The missing paper, such as 0.2 (d: try the papers together; b: back):",
    "replace.choose.only": "The missing paper, such as 0.2 or 2 (d: try the papers together; b: back):",
    "replace.choose.none": "d: try the papers together. b: back.",
    "replace.new.choose": "c: change the plan now. e: end. b: back.",
    "which.ask.needed": "How many papers of group {group} are needed (1 to 16; b: back)?",
    "replace.how": "1 or 2 (b: back):",
    "damaged.intro": "Type the words that you can read. You may leave up to 3 words open. A question mark stands for what you can't read.",
    "damaged.ask": "The damaged paper (b: back):",
    "damaged.menu": "w: write it anew. c: change words that you typed. t: drop these words, and type it again. e: end.",
    "damaged.menu.two": "1 or 2: write it anew. c: change words that you typed. t: drop these words, and type it again. e: end.",
    "damaged.menu.none": "c: change words that you typed. t: drop these words, and type it again. e: end.",
    "damaged.anew.one": "Paper {names} can't be read in full, or is miswritten. Write it anew, before more of it is lost: 'Read a damaged paper' (repair) shows all its words.",
    "damaged.anew.many": "The papers {names} can't be read in full, or are miswritten. Write them anew, before more of them is lost: 'Read a damaged paper' (repair) shows all words of one.",
    "damaged.refused.13": "At least 2 words are wrong, or 2 changed places, so the program can't find the place. Look at each word on the paper again. For a word that you aren't sure of, type ? or its first letters and ?. If the paper says the same, it is itself wrong: type ? for up to 3 words that may be wrong.",
    "refused.13": "The words don't belong together, and more than one of them is wrong, or 2 changed places. Compare each word with your paper. If they agree, the paper itself is wrong: type ? for up to 3 words that may be wrong. Or type - alone, and leave this paper out.",
    "refused.repaired.new": "This paper can't be of one backup with the others. Most likely it is wrong, since words of it were found and not read. It is left out. Look at the damaged paper again.",
    "refused.repaired.apart": "This paper can't be of one backup with the others. Either it is of another backup, or it is wrong, since words of it were found and not read. It is left out. Look at the damaged paper again, or first type another paper of its backup.",
    "refused.18": "The words don't belong together. If only one of them is wrong, it is word {first}. Look at word {first} on your paper, and type it again. If the paper says the same, it is miswritten: type ?, and the program finds the word that was meant.",
    "refused.31": "This isn't a plan. Plans are typed so: 2of3, or 2/3of5,1of1 with groups.",
}
TABLE = {**_page(), **OWN}


def has_text(key: str) -> bool:
    return key in TABLE


def say(key: str, **values: Value) -> str:
    """Returns the sentence of a key, with the values in their places."""
    return re.sub(r"\{(\w+)\}", lambda found: str(values[found[1]]), TABLE[key])


def counted(n: int, noun: str) -> str:
    """Returns a number with its noun."""
    return say(f"{noun}.{'one' if n == 1 else 'many'}", n=f"{n:,}")


def one_or_many(things: Sized) -> str:
    """Returns the end of the key of a sentence that says something of one thing, or of many."""
    return "one" if len(things) == 1 else "many"


def said_time(seconds: float) -> str:
    """Returns a time in words. Halves are rounded up."""
    if seconds < 1:
        return say("time.short")
    if seconds < 90:
        return counted(int(seconds + 0.5), "second")
    return counted(int(seconds / 60 + 0.5), "minute") if seconds < 5400 else counted(int(seconds / 3600 + 0.5), "hour")
