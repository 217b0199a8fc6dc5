"""Where an owner who reads only the screen could go astray: papers that don't work, results that say too much, and what may be destroyed."""
import plain
from browsers import Failed
from looks import check_screen
from samples import FINGERPRINT, PASSPHRASE, SOUND_PAPER, THREE_GROUPS, TWO, changed, fingerprint_of, name_of, named, opening, papers_of, swapped, with_words
from tasks import answer_passphrase, begin, begin_replace, clear, drill, end, found_words, paste, read_paper, take, take_all, type_damaged, type_paper
from tasks import write_anew
from texts import counted, say


def leave_out(page, papers):
    """Pastes paper 0.3 with a wrong word, and paper 0.4 with two words that changed places, and empties the fields."""
    paste(page, with_words(papers[3], {17: "acid"}))
    page.wait_text("If the paper says the same, it is miswritten: 'Read a damaged paper'")
    page.push(say("entry.empty"))
    paste(page, swapped(papers[4], 9))
    page.wait_text("If all agree, the paper itself is wrong")
    page.push(say("entry.empty"))


def check_left_out(page, see):
    """Papers that were begun and left out are counted in the result, until they are typed soundly. Those that were tried are named."""
    papers = papers_of("2/3of5,1of1")
    noted = fingerprint_of(papers, "")
    begin(page, "check")
    page.wait_text("Have the passphrase at hand too, if there is one, and the fingerprint that you noted.")
    page.lacks("Type the words in their order")
    leave_out(page, papers)
    take(page, [*papers[:3], papers[5]])
    for left, more in [(2, [papers[3]]), (1, [papers[4]]), (0, [])]:
        page.push(say("collect.end"))
        drill(page, None, noted)
        page.wait_title(say("check.done.left_out" if left else "check.done.good"))
        tried = [line for line in papers if line in papers[:3] + papers[5:] or line == papers[3] and left < 2 or not left]
        page.wait_text(say("verdict.papers", names=named(tried)))
        if left:
            page.wait_text(counted(left, "left"))
            see(f"{left} papers that were left out")
            page.push(say("collect.back"), to=say("check.title"))
            take(page, more)
        else:
            page.lacks("left out")
    end(page)
    begin(page, "recover")
    take(page, papers[:1])
    paste(page, changed(papers[1], exponent=3))
    page.wait_text(say("refused.23"))
    page.push(say("entry.empty"))
    page.fill(say("entry.word", number=1), " ".join(papers[2].split()[:12]) + " ")
    page.push(say("collect.end"))
    page.push(say("collect.unread.drop"), to=say("recover.few"))
    page.wait_text(counted(1, "left"), say("left.sound.one", names="0.1"))
    end(page)


def check_impossible(page, see):
    """A paper that no backup has is never offered, though its words fit. If it is typed, its group is shown. A line stands for what can't
    be read."""
    line = changed(SOUND_PAPER, group=12, group_count=10, group_threshold=7)
    begin(page, "damaged")
    paste(page, with_words(line, {5: "?", 6: "?", 7: "?"}))
    page.wait_text(say("damaged.impossible", name="12.0", groups=counted(10, "group")))
    page.lacks(say("damaged.write", name="12.0"))
    page.lacks(say("damaged.one", name="12.0"))
    see("a paper that no backup has")
    clear(page)
    # Two papers fit, and no backup has one of them. So perhaps no word that was typed is wrong.
    begin(page, "damaged")
    paste(page, with_words(SOUND_PAPER, {2: "?", 3: "?", 6: "?"}))
    page.wait_text(say("damaged.sure", name="0.0"))
    page.lacks("So a word that you typed is wrong")
    clear(page)
    begin(page, "check")
    paste(page, line)
    page.wait_text(say("what.impossible", name="12.0", groups=counted(10, "group")), say("status.group", group=12))
    clear(page)
    begin(page, "damaged")
    type_damaged(page, with_words(SOUND_PAPER, {7: "_", 9: "fr__"}))
    page.wait_text(say("damaged.sure", name="0.0"))
    page.wait(lambda: "length" in found_words(page) and "fridge" in found_words(page), "the words in place of lines")
    clear(page)


def check_repaired(page, see):
    """A repaired paper that is wrong: it's blamed, and not the good ones. If no drill shows that it is right, the damaged one is to be kept."""
    line = changed(THREE_GROUPS[0], value=bytes(16))
    begin(page, "damaged")
    paste(page, with_words(line, {6: "?"}))
    page.push(say("damaged.write", name="0.0"), to=say("paper.title", name="0.0"))
    read_paper(page)
    page.push(say("clear"))
    page.wait_text("destroy only a paper written now and not typed back. Keep all others: your old ones, and those typed back.")
    page.lacks(say("clear.unfinished"))
    page.push(say("clear.stay"))
    page.push(say("paper.written"))
    paste(page, line)
    page.wait_title(say("damaged.check.title"))
    paste(page, changed(THREE_GROUPS[1], exponent=3))
    page.wait_text("Most likely paper 0.0 is wrong, of which words were found and not read.")
    page.lacks("is of another backup, or forged")
    see("a repaired paper is blamed")
    page.push(say("entry.empty"))
    take_all(page, THREE_GROUPS[1:4])
    drill(page, PASSPHRASE, FINGERPRINT)
    page.wait_title(say("check.done.some"))
    page.wait_text(say("damaged.keep"))
    page.wait_text(say("damaged.suspect.one", names="0.0"))
    end(page)


def check_blamed(page, see):
    """What isn't in doubt isn't blamed: a paper of which no word was found, one of another backup, and one that fits another, as its digest says."""
    papers = papers_of("2of3")
    begin(page, "damaged")
    write_anew(page, papers[0], " ".join(word[:4] for word in papers[0].split()))
    paste(page, changed(papers[1], exponent=3))
    page.wait_text(say("refused.23"))
    page.push(say("entry.empty"))
    see("a whole paper isn't blamed")
    page.push(say("damaged.another"))
    write_anew(page, papers[1])
    page.wait_text(say("collect.row.repaired", name="0.1", words=20))
    paste(page, changed(papers[2], exponent=3))
    page.wait_text(say("refused.23"))
    page.push(say("entry.empty"))
    paste(page, TWO[0])
    page.wait_text(say("collect.apart", count=2))
    paste(page, changed(TWO[1], exponent=3))
    page.wait_text(say("refused.23"))
    page.lacks("Most likely paper 0.1 is wrong")
    page.push(say("entry.empty"))
    page.push(say("collect.drop.of", name=name_of(TWO[0]), begin=opening(TWO[0])))
    take(page, [changed(papers[2], value=bytes(16))])
    page.push(say("collect.end"))
    drill(page, "mistyped", fingerprint_of(papers, ""))
    page.wait_title(say("check.done.none"))
    page.lacks("Most likely paper 0.1 is wrong")
    page.wait_text(say("damaged.keep"))
    see("a repaired paper that fits another one")
    end(page)


def check_untried(page, see):
    """Only a drill that has a repaired paper, and that gives the noted fingerprint, shows that the damaged one isn't needed any more."""
    papers = papers_of("1/2of3,2of3")
    noted, wrong = fingerprint_of(papers[:2], ""), changed(papers[3], value=bytes(16))
    right, keep = say("damaged.right.one", names="1.0"), say("damaged.keep")
    for line, others, fingerprint, title, wanted, unwanted, *read in [
        (wrong, papers[:2], noted, "check.done.left_out", [keep, say("verdict.papers.none", names="1.0")], [right]),
        (wrong, papers[4:5], noted, "check.done.some", [keep, say("damaged.suspect.one", names="1.0")], [right]),
        (papers[3], papers[4:5], None, "check.done.same", [keep], [right]),
        (papers[3], papers[4:5], noted, "check.done.good", [right], [keep]),
        (papers[3], papers[4:5], None, "check.done.same", [keep], [right], papers[3]),
        (papers[3], papers[4:5], noted, "check.done.written", [say("replace.right.one", names="1.0")], [keep, right], papers[3]),
        (papers[3], papers[:2], noted, "check.done.left_out", [keep], [right], papers[3]),
    ]:
        begin(page, "damaged")
        write_anew(page, line, *read)
        take_all(page, others)
        page.wait_title(say("damaged.passphrase"))
        drill(page, None, fingerprint)
        page.wait_title(say(title))
        for text in wanted:
            page.wait_text(text)
        for text in unwanted:
            page.lacks(text)
        see(f"what a drill shows of a repaired paper {title}")
        end(page)
    begin(page, "damaged")
    write_anew(page, papers[3], papers[3])
    take(page, papers[:2])
    page.push(say("collect.drop", name="1.0"))
    page.wait_text(say("collect.dropped", name="1.0"))
    page.push(say("collect.end"))
    drill(page, None, noted)
    page.wait_title(say("check.done.good"))
    page.wait_text(keep)
    see("a copy that was taken out")
    end(page)


def check_untyped(page, see):
    """What wasn't typed is named in the box that says that no fault was found: a paper before others, a group without papers, or any other."""
    two, five = papers_of("2of3"), papers_of("2/2of4,1of1,1of1")
    for lines, passphrase, noted, told in [
        ([two[0], two[2]], None, fingerprint_of(two, ""), f"{say('verdict.untried.one', names='0.1')} {say('verdict.untried.others')}"),
        (two[:2], None, fingerprint_of(two, ""), say("verdict.untried.others")),
        ([five[0], five[3], five[4]], None, fingerprint_of(five, ""), f"{say('verdict.untried.many', names='0.1, 0.2')} {say('verdict.untried.group.one', names='2')} {say('verdict.untried.others')}"),
    ]:
        begin(page, "check")
        take_all(page, lines)
        drill(page, passphrase, noted)
        page.wait_title(say("check.done.good"))
        said = page.evaluate("document.querySelector('.verdict .good').innerText")
        if not said.startswith(say("verdict.all.noted", quorums=counted(1, "quorum"), fingerprint=noted)) or not said.endswith(f". {told}"):
            raise Failed(f"the box that says what was found doesn't end with {told!r}: {said!r}")
        see("what wasn't tried")
        end(page)


def check_alone(page, see):
    """Inside a backup of one paper, nothing is compared. So the words that were found in it are in doubt before its passphrase is, or the
    fingerprint, and no quorums are said to agree."""
    paper, wrong = papers_of("1of1", PASSPHRASE)[0], changed(papers_of("1of1")[0], value=bytes(16))
    noted = fingerprint_of([paper], PASSPHRASE)
    for line, fingerprint, title, sentence in [
        (wrong, None, "check.done.doubt", say("verdict.one.same", fingerprint=fingerprint_of([wrong], PASSPHRASE))),
        (wrong, noted, "check.done.doubt", say("verdict.other", quorums=counted(1, "quorum"), noted=noted)),
        (paper, noted, "check.done.good", say("damaged.right.one", names="0.0")),
    ]:
        begin(page, "damaged")
        write_anew(page, line)
        page.push(say("collect.end"))
        drill(page, PASSPHRASE, fingerprint)
        page.wait_title(say(title))
        page.wait_text(sentence)
        first = page.evaluate("document.querySelector('#main > h1 ~ *').innerText")
        if (first == say("damaged.doubt", names="0.0")) != (line == wrong):
            raise Failed(f"of a repaired paper that is a backup alone, this is said first: {first!r}")
        see(f"a repaired paper that is a backup alone {title}")
        end(page)


def check_alike(page, see):
    """A copy takes the place of a wrong one of the same damaged paper, also if that began otherwise, and never that of another paper, also if
    most of its words are the same."""
    keep, papers = say("damaged.keep"), papers_of("1/1of1,1of1")
    begin(page, "damaged")
    write_anew(page, papers[0])
    page.push(say("damaged.another"))
    write_anew(page, papers[1])
    page.wait_text(say("collect.row.repaired", name="0.0", words=20), say("collect.row.repaired", name="1.0", words=20))
    see("two damaged papers with the same value")
    clear(page, say("clear.repaired"))
    papers = papers_of("2of3")
    wrong = changed(papers[0], id=(plain.parse(papers[0].encode())["id"] + 1) % 2**15)
    begin(page, "damaged")
    write_anew(page, wrong)
    page.push(say("collect.drop", name="0.0"))
    page.wait_text(say("collect.dropped", name="0.0"))
    take(page, papers[1:2])
    page.push(say("damaged.another"))
    write_anew(page, papers[0])
    page.push(say("collect.end"))
    drill(page, None, fingerprint_of(papers, ""))
    page.wait_title(say("check.done.good"))
    page.wait_text(say("damaged.right.one", names="0.0"))
    page.lacks(keep)
    # Nothing is in doubt, so nothing is asked.
    clear(page)


def check_lost(page, see):
    """The only paper of a group without which nothing is recovered: nothing else gives it. No more is said to be there than is known."""
    papers = papers_of("2/3of5,1of1")
    begin_replace(page, "other")
    page.wait_text("The lost paper doesn't work together with the new ones.")
    page.wait_text("or if you don't have enough of them to recover it. Then make a new wallet while the old one still works")
    page.push(say("back"))
    page.choose(say("replace.destroyed"))
    page.push(say("continue"))
    take_all(page, papers[:4])
    page.choose(say("which.paper", name="1.0"))
    page.fill(say("which.needed"), "1", "spinbutton")
    page.push(say("which.write"))
    page.wait_text(f"{say('which.untold', name='1.0')} No other papers give it. If your wallet still works, make a new wallet, and move your money to it.")
    page.lacks("Or it takes")
    see("a paper that nothing else gives")
    page.choose(say("which.paper", name="0.4"))
    page.push(say("which.write"), to=say("paper.title", name="0.4"))
    page.push(say("paper.written"))
    type_paper(page, papers[4])
    page.wait_title(say("replace.which"))
    page.push(say("replace.end"), to=say("replace.done"))
    end(page)
    begin_replace(page)
    take_all(page, papers_of("2of3")[:2])
    page.choose(say("which.paper", name="0.2"))
    page.push(say("which.write"), to=say("paper.title", name="0.2"))
    page.wait_text(say("takes.papers", needed=2))
    page.lacks("of the 16 papers")
    clear(page, is_asked=True)


def check_without(page, see):
    """A passphrase that wasn't typed isn't said to be mistyped."""
    for task, title, text in [
        ("check", "check.done.other.none", "the backup most likely has a passphrase, and you typed none."),
        ("recover", "recover.done.other", "the backup most likely has a passphrase: try again, and type it."),
    ]:
        begin(page, task)
        take_all(page, THREE_GROUPS[:4])
        answer_passphrase(page, None, FINGERPRINT)
        if task == "check":
            page.push(say("drill.start"))
        page.wait_title(say(title))
        page.wait_text(text)
        page.lacks("passphrase is mistyped")
        see(f"{task} without the passphrase")
        end(page)


def check_apart(page, see):
    """Papers of several backups are kept apart, also if the first one is the wrong one. The owner goes on with those of one, and the result
    tells of the others."""
    own, other, third = map(opening, (THREE_GROUPS[0], SOUND_PAPER, TWO[0]))
    begin(page, "check")
    take(page, [SOUND_PAPER])
    paste(page, THREE_GROUPS[0])
    page.wait_text(say("collect.taken.apart", name="0.0", begin=own))
    page.wait_text(say("collect.apart", count=2))
    page.lacks(say("collect.end"))
    see("the first paper of another backup")
    for line in THREE_GROUPS[1:4]:
        paste(page, line)
        page.wait_text(say("collect.taken.of", name=name_of(line), begin=own))
    paste(page, SOUND_PAPER)
    page.wait_text(say("collect.repeated", name="0.0"))
    paste(page, TWO[0])
    page.wait_text(say("collect.taken.apart", name=name_of(TWO[0]), begin=third))
    page.wait_text(say("collect.apart", count=3))
    paste(page, changed(THREE_GROUPS[4], exponent=3))
    page.wait_text(say("refused.23"))
    page.push(say("entry.empty"))
    check_screen(page, "papers of three backups", see)
    # Papers of two backups have one name. Only the one that is meant is taken out, and comes back.
    page.push(say("collect.drop.of", name="0.0", begin=own))
    page.wait_text(say("collect.dropped", name="0.0"))
    page.wait(lambda: page.text().count(say("collect.row", name="0.0", words=20)) == 1, "the other paper of this name")
    page.push(say("collect.undo", name="0.0"))
    page.wait_text(say("collect.undone", name="0.0"))
    page.push(say("collect.end.of", begin=own))
    drill(page, PASSPHRASE, FINGERPRINT)
    page.wait_title(say("check.done.left_out"))
    page.wait_text(say("verdict.all.noted", quorums=counted(3, "quorum"), fingerprint=FINGERPRINT))
    page.wait_text(say("left.backup.one", names="0.0", begin=other), say("left.backup.one", names=name_of(TWO[0]), begin=third))
    page.wait_text(say("left.sound.one", names="2.0"))
    see("a result beside papers of other backups")
    page.push(say("collect.back"))
    page.wait_text(say("collect.apart", count=3))
    page.push(say("collect.drop.of", name=name_of(TWO[0]), begin=third))
    page.wait_text(say("collect.apart", count=2))
    page.push(say("collect.drop.of", name="0.0", begin=other))
    page.wait(lambda: say("status.backup", begin=own) not in page.text(), "the papers of one backup, as they are without others")
    page.push(say("collect.end"), to=say("check.passphrase"))
    clear(page)
    # The backup that is chosen is the one that is too few.
    begin(page, "recover")
    take(page, TWO[:1])
    paste(page, SOUND_PAPER)
    page.wait_text(say("collect.taken.apart", name="0.0", begin=other))
    page.push(say("collect.end.of", begin=third), to=say("recover.few"))
    page.wait_text(say("left.backup.one", names="0.0", begin=other))
    page.push(say("collect.more"))
    page.push(say("collect.end.of", begin=other))
    answer_passphrase(page, PASSPHRASE, FINGERPRINT)
    page.wait_title(say("recover.done.same"))
    end(page)


def check_several_repaired(page, see):
    """Several damaged papers of a backup: each is blamed or called right by what the drill shows of it. One that can't be of their backup isn't
    offered, and one of another backup is told."""
    papers = papers_of("2of3")
    noted, wrong = fingerprint_of(papers[:2], ""), changed(papers[2], value=bytes(16))
    unsure = say("backup.paper", name="0.1", begin=opening(papers[1]))
    for third, title, texts in [
        (papers[2], "check.done.good", [say("damaged.right.many", names="0.1, 0.2")]),
        (wrong, "check.done.some", [say("damaged.suspect.one", names="0.2"), say("damaged.keep")]),
    ]:
        begin(page, "damaged")
        write_anew(page, papers[1])
        paste(page, SOUND_PAPER)
        page.wait_text(f"{say('collect.taken.apart', name='0.0', begin=opening(SOUND_PAPER))} {say('collect.unsure.one', names=unsure)}")
        page.push(say("collect.drop.of", name="0.0", begin=opening(SOUND_PAPER)))
        page.push(say("damaged.another"))
        write_anew(page, third)
        page.wait_text(say("collect.row.repaired", name="0.1", words=20))
        page.wait_text(say("collect.row.repaired", name="0.2", words=20))
        paste(page, SOUND_PAPER)
        # Two of one backup agree in its identifier, so a third one isn't theirs.
        page.wait_text(say("collect.taken.apart", name="0.0", begin=opening(SOUND_PAPER)))
        page.lacks("of which words were found")
        page.push(say("collect.drop.of", name="0.0", begin=opening(SOUND_PAPER)))
        take(page, papers[:1])
        page.push(say("damaged.another"), to=say("damaged.title"))
        paste(page, with_words(changed(papers[2], exponent=3), {6: "?"}))
        page.wait_text(say("damaged.apart", name="0.2"))
        page.lacks(say("damaged.write", name="0.2"))
        see("a damaged paper that can't be of the others' backup")
        page.push(say("back"))
        page.push(say("entry.lost.go"), to=say("damaged.check.title"))
        # A paper that was read has the same identifier, so it isn't in doubt any more.
        paste(page, SOUND_PAPER)
        page.wait_text(say("collect.taken.apart", name="0.0", begin=opening(SOUND_PAPER)))
        page.lacks("of which words were found")
        page.push(say("collect.drop.of", name="0.0", begin=opening(SOUND_PAPER)))
        see("several repaired papers")
        page.push(say("collect.end"))
        drill(page, None, noted)
        page.wait_title(say(title))
        for text in texts:
            page.wait_text(text)
        see(f"what a drill shows of several repaired papers {title}")
        if third == wrong:
            # A right copy takes the place of the wrong one.
            page.push(say("collect.back"), to=say("damaged.check.title"))
            page.push(say("collect.drop", name="0.2"))
            page.wait_text(say("collect.dropped", name="0.2"))
            page.push(say("damaged.another"))
            write_anew(page, papers[2])
            page.push(say("collect.end"))
            drill(page, None, noted)
            page.wait_title(say("check.done.good"))
            page.wait_text(say("damaged.right.many", names="0.1, 0.2"))
            page.lacks(say("damaged.keep"))
        end(page)


CHECKS = [check_apart, check_several_repaired, check_left_out, check_impossible, check_repaired, check_blamed, check_untried, check_untyped, check_alone, check_alike, check_lost, check_without]
