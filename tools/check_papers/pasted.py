"""Papers that are pasted at once, or typed by a machine: each is judged, and nothing is dropped without a word."""
import time

from hands import END, Failed, counted, say
from refusals import rows_of, word_prompt
from tasks import SIGN, Owner, end_by_keys, in_turn, paper_prompt, started

from samples import changed, name_of, named, opening, papers_of, with_words
from shamir.papers.marks import said_count

# As many papers as fit no screen.
MANY = "16/" + ",".join(["2of3"] * 16)
SIZES = [(80, 24), (120, 40)]


def check_many():
    """48 papers at once, at two sizes: all are taken, and named on one screen."""
    papers = papers_of(MANY)
    for columns, rows in SIZES:
        with started("check", columns=columns, rows=rows) as owner:
            owner.wait(paper_prompt(1))
            owner.type("".join(f"{line}\n" for line in papers))
            owner.wait(paper_prompt(49))
            owner.expect(say("paste.taken", names=named(papers)))
            owner.expect(say("status.enough"))
            end_by_keys(owner)


def check_misspelt():
    """The first of 48 papers is misspelt, one is forged, and one lacks a word: the others are taken, and the owner mends those two."""
    papers = papers_of(MANY)
    wrong, short, forged = with_words(papers[0], {5: "acdemic"}), " ".join(papers[7].split()[:-1]), changed(papers[1], value=bytes(16))
    with started("check") as owner:
        owner.wait(paper_prompt(1))
        owner.type("".join(f"{line}\n" for line in [wrong, *papers[1:7], short, forged, *papers[8:]]))
        owner.answer(say("paste.mend"), "")
        owner.expect(say("paste.taken", names=named([*papers[1:7], *papers[8:]])))
        for line, why in [(wrong, "Word 5, acdemic, isn't in the word list (academic"), (short, said_count(19, 20)), (forged, say("refused.28", first=0, second=1))]:
            owner.expect(f"Not taken: the paper that begins with '{opening(line, 4)}'. {why}")
        owner.answer(word_prompt(5), papers[0].split()[4])
        owner.answer(say("entry.on", typed=said_count(19, 20), number=20, sign=SIGN), papers[7].split()[-1])
        owner.wait(paper_prompt(49))
        owner.expect(say("paste.now", begin=opening(short, 4)))
        owner.expect(say("collect.taken", name="0.0"))
        owner.expect(say("collect.taken", name=name_of(papers[7])))
        end_by_keys(owner)


def check_rows():
    """Papers in several lines: with headings, with numbers, and neither; the last line has no end. A title is no paper."""
    papers = papers_of("3of5")
    rows = [rows_of(line) for line in papers]
    plain_rows = [[" ".join(line.split()[at : at + 6]) for at in range(0, 20, 6)] for line in papers]
    headed = [["SLIP-0039", f"Paper {name_of(line)}", "", *of] for line, of in zip(papers, rows)]
    for blocks in (rows, headed, plain_rows, [[*of, ""] for of in plain_rows]):
        with started("check") as owner:
            owner.wait(paper_prompt(1))
            owner.type("\n".join("\n".join(block) for block in blocks))
            while owner.pull(0.5):
                pass
            owner.type("\n")
            owner.wait(paper_prompt(6))
            owner.expect(say("paste.taken", names=named(papers)))
            end_by_keys(owner)
    with started("check") as owner:
        owner.wait(paper_prompt(1))
        owner.type("\n".join(["Our wallet", *papers[:2], "keep them apart", papers[2]]) + "\n")
        owner.wait(paper_prompt(4))
        owner.expect(say("paste.taken", names=named(papers[:3])))
        owner.expect("Not taken: the paper that begins with 'our wallet'.")
        end_by_keys(owner)


def check_elsewhere():
    """Papers that are pasted where more are asked for, and where only one is."""
    papers = papers_of("3of5")
    lines = "".join(f"{line}\n" for line in papers[1:])
    with started("check") as owner:
        owner.collect(papers[:1])
        owner.wait(say("more.papers"))
        owner.type(lines)
        owner.wait(paper_prompt(6))
        owner.expect(say("paste.taken", names=named(papers[1:])))
        end_by_keys(owner)
    with started("repair") as owner:
        owner.wait(say("damaged.ask"))
        owner.type(lines)
        owner.wait(say("damaged.menu"))
        owner.expect(say("paste.only", papers=counted(4, "paper")))
        owner.expect(say("damaged.one", name="0.1"))
        end_by_keys(owner)


def check_dropped():
    """What is typed before a question is seen answers nothing, and the program says so. An Enter isn't told."""
    papers = papers_of("2of3")
    for early, is_told in [("perhaps\n", True), ("\n\n", False)]:
        with started("check") as owner:
            owner.answer(paper_prompt(1), with_words(papers[0], {5: "acdemic"}))
            owner.wait(word_prompt(5))
            owner.forget()
            owner.type(f"acdmic\n{early}")
            owner.expect("Word 5, acdmic, isn't in the word list")
            owner.wait(word_prompt(5))
            if (say("screen.dropped") in owner.emulator.all_seen()) != is_told:
                raise Failed(f"{early!r} before a question: told is {not is_told}")
            end_by_keys(owner)


def check_back():
    """All papers are pasted where the first one is typed back: only that is taken, and the next screen says so too."""
    with started("new", "2of3") as owner:
        owner.settle()
        owner.draw()
        papers = owner.written()
        owner.answer(say("screen.next"), "")
        owner.wait(say("back.ask", name="0.0"))
        owner.type("".join(f"{line}\n" for line in papers))
        owner.wait(say("back.ask", name="0.1"))
        if say("paste.only", papers="3 papers") not in " ".join(owner.screen().replace("[!]", "").split()):
            raise Failed(f"the screen doesn't say that two pasted papers aren't taken: {owner.screen()}")
        end_by_keys(owner)


def check_cut():
    """More is pasted than all papers of a backup have: what comes after that isn't taken, and the program says so."""
    with started("check") as owner:
        owner.wait(paper_prompt(1))
        owner.type(("acid " * 15 + "\n") * 900)
        owner.expect(say("paste.cut", end="acid acid"))
        owner.type("\n")
        owner.expect("words are too many")
        end_by_keys(owner)


def check_answers():
    """Papers that are pasted where an answer is asked for, such as whether to end: they are dropped as a whole, which is told once."""
    papers = papers_of("2of3")
    for first_line in ("", "academic\n"):
        with started("check") as owner:
            owner.answer(paper_prompt(1), papers[0])
            owner.wait(paper_prompt(2))
            owner.type("\x03")
            owner.wait(END)
            owner.forget()
            owner.type(first_line + "".join(f"{line}\n" for line in papers[1:]))
            owner.expect(say("screen.dropped"))
            owner.wait(END)
            if owner.emulator.all_seen().count(say("screen.answers", answers="y, yes, n, no")) != 1:
                raise Failed(f"lines of a paste that begins with {first_line!r} are taken as answers")
            owner.answer(END, "n")
            owner.answer(paper_prompt(2), papers[1])
            owner.wait(paper_prompt(3))
            end_by_keys(owner)


def on(count, wanted):
    """Returns the question for the words that follow so many."""
    return say("entry.on", typed=said_count(count, wanted), number=count + 1, sign=SIGN)


def check_amid():
    """The other papers are pasted where a word of the first one is asked for, which is misspelt, or where its last words are: each is judged
    on one screen, and the owner then mends the first one."""
    papers = papers_of(MANY)
    words = papers[0].split()
    half, wrong, anew = opening(papers[0], 15), with_words(papers[0], {5: "acdemic"}), with_words(papers[0], {6: "acdemic"})
    unknown = "Word {}, acdemic, isn't in the word list (academic"
    for typed, asked, pasted, why, mended, answer in [
        (wrong, word_prompt(5), papers[1:], unknown.format(5), word_prompt(5), words[4]),
        (wrong, word_prompt(5), [anew, *papers[1:]], unknown.format(6), word_prompt(6), words[5]),
        (half, on(15, None), papers[1:], said_count(15, None), on(15, 20), " ".join(words[15:])),
    ]:
        with started("check") as owner:
            owner.answer(paper_prompt(1), typed)
            owner.wait(asked)
            owner.forget()
            owner.type("".join(f"{line}\n" for line in pasted))
            owner.answer(say("paste.mend"), "")
            owner.expect(say("paste.taken", names=named(papers[1:])))
            owner.expect(f"Not taken: the paper that begins with '{opening(typed, 4)}'. {why}")
            owner.answer(mended, answer)
            owner.wait(paper_prompt(49))
            owner.expect(say("collect.taken", name="0.0"))
            end_by_keys(owner)


def check_amid_rest():
    """The rest of a paper is pasted with the other papers: all are taken."""
    papers = papers_of("3of5")
    words = papers[0].split()
    with started("check") as owner:
        owner.answer(paper_prompt(1), " ".join(words[:15]))
        owner.wait(on(15, None))
        owner.type("\n".join([" ".join(words[15:]), *papers[1:]]) + "\n")
        owner.wait(paper_prompt(6))
        owner.expect(say("paste.taken", names=named(papers)))
        end_by_keys(owner)


def check_early():
    """Papers that are pasted where only Enter is asked for, or a line that doesn't show: none is taken, and the program says so."""
    papers = papers_of("2of3")
    lines = "".join(f"{line}\n" for line in papers)
    with Owner("check") as owner:
        owner.wait(say("safety.go"))
        owner.type(lines)
        owner.wait(paper_prompt(1))
        owner.expect(say("screen.dropped"))
        owner.collect(papers[:2])
        owner.wait(say("passphrase.ask"))
        owner.forget()
        owner.type(lines)
        owner.expect(say("screen.lines"))
        owner.answer(say("passphrase.ask"), "")
        owner.wait(say("noted.ask"))
        owner.forget()
        owner.type(lines)
        owner.expect(say("noted.wrong"))
        owner.wait(say("noted.ask"))
        owner.expect(say("screen.dropped"))
        if owner.emulator.all_seen().count(say("noted.wrong")) != 1:
            raise Failed("lines of a paste are taken as fingerprints")
        end_by_keys(owner)


def check_tab():
    """A tab that is pasted in a passphrase is a character of it, so the passphrase is refused, and isn't taken without the tab."""
    with started("check") as owner:
        owner.collect(papers_of("2of3")[:2])
        owner.answer(say("passphrase.ask"), "ab\tcd")
        owner.wait(say("passphrase.ask"))
        owner.expect(say("refused.41", first=3))
        end_by_keys(owner)


def type_paced(owner, lines, pause):
    """Types lines as a machine does, with a pause after each."""
    for line in lines:
        owner.type(f"{line}\n")
        deadline = time.monotonic() + pause
        while time.monotonic() < deadline:
            owner.pull(max(0, deadline - time.monotonic()))


def mend(owner, number, word, count):
    """Types a word again that was misspelt, which is the last thing to be done for so many papers."""
    owner.answer(word_prompt(number), word)
    owner.wait(paper_prompt(count + 1))


def check_paced():
    """A machine types papers line by line, in one line or several, at a pause. One has a misspelt word, which takes no other one away, and
    an empty line between two isn't the end."""
    papers = papers_of("2of3")
    whole = [[line] for line in papers]
    apart = [[line, ""] for line in papers]
    plain_rows = [[" ".join(line.split()[at : at + 6]) for at in range(0, 20, 6)] for line in papers]
    headed = [["SLIP-0039", f"Paper {name_of(line)}", "", *rows_of(line), ""] for line in papers]
    right = papers[0].split()[4]
    for blocks, pause in [(whole, 0.3), (whole, 1), (apart, 0.8), ([rows_of(line) for line in papers], 0.5), (plain_rows, 0.3), (headed, 0.3)]:
        lines = [line for block in blocks for line in block]
        at = next(at for at, line in enumerate(lines) if right in line)
        lines[at] = lines[at].replace(right, "acdemic")
        with started("check") as owner:
            owner.wait(paper_prompt(1))
            type_paced(owner, lines, pause)
            owner.answer(say("paste.mend"), "")
            owner.expect(say("paste.taken", names=named(papers[1:])))
            owner.expect("Not taken: the paper that begins with")
            owner.lacks(say("screen.dropped"))
            mend(owner, 5, right, 3)
            end_by_keys(owner)


def check_paced_late():
    """Papers that come later, where those that aren't taken are to be mended, and where a word is asked for again: all are taken, or listed."""
    papers = papers_of("3of5")
    wrong, short = with_words(papers[0], {5: "acdemic"}), " ".join(papers[4].split()[:-1])
    with started("check") as owner:
        owner.wait(paper_prompt(1))
        type_paced(owner, [wrong, papers[1]], 2)
        owner.wait(say("paste.mend"))
        type_paced(owner, [papers[2], short, papers[3]], 2)
        owner.wait(say("paste.mend"))
        owner.expect(say("paste.taken", names=named(papers[1:4])))
        for line, why in [(wrong, "Word 5, acdemic, isn't in the word list (academic"), (short, said_count(19, 20))]:
            owner.expect(f"Not taken: the paper that begins with '{opening(line, 4)}'. {why}")
        owner.answer(say("paste.mend"), "")
        owner.answer(word_prompt(5), papers[0].split()[4])
        owner.answer(on(19, 20), papers[4].split()[-1])
        owner.wait(paper_prompt(6))
        owner.lacks(say("screen.dropped"))
        end_by_keys(owner)


def check_paced_letters():
    """A machine types letter by letter: those that come before a question begin its answer, and show. A whole answer that comes before is none."""
    paper = papers_of("2of3")[0]
    with started("check") as owner:
        owner.answer(paper_prompt(1), with_words(paper, {5: "acdemic"}))
        owner.wait(word_prompt(5))
        owner.type(f"acdmic\n{paper.split()[4][:3]}")
        owner.wait_shown(lambda: owner.screen().endswith(f"{word_prompt(5)} {paper.split()[4][:3]}"), "letters that came before a question are lost")
        owner.type(f"{paper.split()[4][3:]}\n")
        owner.wait(paper_prompt(2))
        end_by_keys(owner)


def check_paced_amid():
    """Papers that come while the program says that a word is wrong, or asks whether a word that was found is right."""
    papers = papers_of("3of5")
    with started("check") as owner:
        owner.answer(paper_prompt(1), with_words(papers[0], {5: "?"}))
        sure = f"{say('damaged.sure', name=name_of(papers[0]))} (y/n)"
        owner.wait(sure)
        type_paced(owner, papers[1:3], 0.3)
        owner.wait(sure)
        owner.expect(say("screen.kept"))
        owner.type("y\n")
        owner.wait(paper_prompt(4))
        for text in (say("collect.row.repaired", name="0.0", words=20), say("paste.taken", names=named(papers[1:3]))):
            owner.expect(text)
        # When the owner begins a paper again, others are there already.
        owner.answer(paper_prompt(4), with_words(papers[3], {5: "acdemic"}))
        owner.wait(word_prompt(5))
        owner.type("\n".join([SIGN, *papers[3:]]) + "\n")
        owner.wait(paper_prompt(6))
        owner.lacks(say("screen.dropped"))
        end_by_keys(owner)


CHECKS = [check_paced, check_paced_late, check_paced_letters, check_paced_amid, check_amid, check_amid_rest, check_early, check_tab, check_answers, check_many, check_misspelt, check_rows, check_elsewhere, check_dropped, check_back, check_cut]
check = in_turn(CHECKS)
