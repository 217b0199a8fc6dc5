"""Generated backups through the dialogue, beside ./shamir on the same papers."""
import concurrent.futures
import os
import random
import re

from hands import SEED, Failed, counted, say
from tasks import DIGITS, change, check_changed, end_by_keys, make, paper_prompt, started

import plain
from samples import PLANS, PROGRAM, Generated, changed, data_of, name_of

CASES = 20
AT_ONCE = min(4, len(os.sched_getaffinity(0)))
# Whether a wallet, by the answer that names it, gets papers with the flag. Of an extendable backup, that isn't asked.
FLAGS = {"": 1, "1": 1, "2": 0, "3": 0}


def some(case):
    """Returns some of the papers, in any order. One of them may be forged."""
    chosen = case.source.sample(case.papers, case.source.randint(max(1, len(case.papers) - 2), len(case.papers)))
    if case.source.random() < 0.3:
        at = case.source.randrange(len(chosen))
        value = plain.parse(chosen[at].encode())["value"]
        chosen[at] = changed(chosen[at], value=case.source.randbytes(len(value)))
    return chosen


def typed(chance, line):
    """Returns a way to type a paper in one line: in its order, or with its numbers, in rows of columns that are read downwards."""
    words = [word[: chance.randint(4, len(word))] for word in line.split()]
    numbered = [f"{number}. {word}" for number, word in enumerate(words, 1)]
    height = chance.choice([0, 0, 5, 10])
    if height:
        return " ".join(cell for row in range(height) for cell in numbered[row::height])
    return " ".join(chance.choice([word, word.upper(), with_number]) for word, with_number in zip(words, numbered))


def collect(owner, case, papers):
    for number, line in enumerate(papers, 1):
        owner.answer(paper_prompt(number), typed(case.source, line))
        owner.wait(paper_prompt(number + 1))
        owner.expect(say("collect.taken", name=name_of(line)))
    owner.answer(paper_prompt(len(papers) + 1), "")


def expect_too_few(owner, case, papers):
    """Checks what is said of too few papers, by what `status` says."""
    said = case.told(["status"], data_of(papers))[0].splitlines()
    owner.wait(say("more.papers"))
    for line in said[1:]:
        _, group, _, members, _, threshold, names = line.split(" ")
        owner.expect(say("status.here", names=names.replace("+", ", ")))
        if int(members) < int(threshold):
            owner.expect(say("status.missing", more=counted(int(threshold) - int(members), "paper")))
    owner.finish(say("more.papers"))


def expected_verdict(case, lines):
    """Returns the sentence that a drill's lines lead to."""
    found = [line.split(" ") for line in lines]
    right = [names for names, *gave in found if gave == [case.noted]]
    others = [names for names, *gave in found if len(gave) == 1 and gave != [case.noted]]
    quorums = counted(len(found), "quorum")
    if len(right) == len(found):
        return say("verdict.all.noted", quorums=quorums, fingerprint=case.noted)
    if right:
        return say("verdict.some", wrong=len(found) - len(right), quorums=quorums)
    other = "verdict.other" if case.passphrase else "verdict.other.none"
    return say(other if len(others) == len(found) else "verdict.none" if others else "verdict.nothing", quorums=quorums, noted=case.noted)


def compare_check(case):
    papers = some(case)
    output, message, status = case.told(["drill", "--fingerprint"], data_of(papers))
    with started("check") as owner:
        collect(owner, case, papers)
        if status == 1 and not output:
            return expect_too_few(owner, case, papers)
        owner.passphrase(case.passphrase, case.noted)
        owner.wait(say("next.good"), say("next.again"), say("next.papers"))
        owner.expect(expected_verdict(case, output.splitlines()[:-1]))
        end_by_keys(owner)


def compare_recover(case):
    papers = some(case)
    output, message, status = case.told(["recover"], data_of(papers))
    with started("recover") as owner:
        collect(owner, case, papers)
        if " 30 " in message:
            return expect_too_few(owner, case, papers)
        owner.passphrase(case.passphrase, "")
        if status:
            owner.wait(say("next.papers"))
            code, *group = re.findall(r"\d+", message)
            owner.expect(say(f"refused.{code}", first=group[0]) if group else say(f"refused.{code}.groups"))
            end_by_keys(owner)
            return None
        owner.answer(f"{say('recover.show')} (y/n)", "y")
        owner.wait(say("recover.clear"))
        if "".join(re.findall(r"\b[0-9a-f]{8}\b", owner.screen())) != output.strip():
            raise Failed(f"{case.plan}: the dialogue shows other digits than ./shamir")
        end_by_keys(owner)


def compare_replace(case):
    """Writes a missing paper again, as `reissue` does, or hears why not."""
    lost = case.source.choice(case.papers)
    rest = [line for line in case.papers if line != lost]
    if not rest:
        return compare_check(case)
    output, message, status = case.told(["reissue", case.plan, name_of(lost)], data_of(rest))
    groups, group = re.findall(r"(\d+)of", case.plan), int(name_of(lost).split(".")[0])
    choose = say("replace.choose" if len(groups) > 1 else "replace.choose.only")
    with started("replace") as owner:
        owner.answer(say("replace.how"), "1")
        collect(owner, case, rest)
        if owner.wait(say("more.papers"), choose) == say("more.papers"):
            if status == 0:
                raise Failed(f"{case.plan}: ./shamir writes a paper that the dialogue calls undetermined")
            return end_by_keys(owner)
        owner.answer(choose, name_of(lost))
        if group not in [int(name_of(line).split(".")[0]) for line in rest]:
            owner.answer(say("which.ask.needed", group=group), groups[group])
        if status == 0:
            owner.wait(say("new.write"))
            if owner.words() != output.strip():
                raise Failed(f"{case.plan}: the dialogue writes another paper than ./shamir")
        else:
            owner.wait(choose)
            owner.expect(say("which.untold", name=name_of(lost)))
        end_by_keys(owner)


def compare_change(case):
    """Makes papers of another plan. ./shamir recovers from them what the old papers give, and with another passphrase too if the backup is
    extendable."""
    plan, is_extendable = case.source.choice(PLANS), bool(plain.parse(case.papers[0].encode())["extendable"])
    old = case.source.sample(case.papers, len(case.papers))
    with started("change") as owner:
        collect(owner, case, old)
        if not is_extendable:
            owner.passphrase(case.passphrase, case.noted)
        wallet = "" if is_extendable else case.source.choice("123")
        papers = change(owner, plan, wallet)
        owner.passphrase(case.passphrase, case.noted)
        owner.wait(say("screen.end"))
        end_by_keys(owner)
    before, after = [case.told(["recover", "--fingerprint"], data_of(lines)) for lines in (old, papers)]
    if before != after or before[0].strip() != case.noted:
        raise Failed(f"{case.plan} to {plan}: ./shamir recovers another secret from the new papers")
    check_changed(owner, old, papers, plan, FLAGS[wallet], case.passphrase)


def compare_repair(case):
    """Reads a paper of which up to three words can't be read, as `repair` does."""
    words = case.source.choice(case.papers).split()
    for at in case.source.sample(range(len(words)), case.source.randint(1, 3)):
        words[at] = words[at][: case.source.randrange(4)] + "?"
    told = case.told(["repair"], (" ".join(words) + "\n").encode())[0].splitlines()
    # The dialogue takes no paper that no backup has.
    fits = [fit for fit in told if (fields := plain.parse(fit.encode()))["group"] < fields["group_count"]]
    with started("repair") as owner:
        owner.answer(say("damaged.ask"), " ".join(words))
        owner.wait(say("damaged.menu"), say("damaged.menu.two"))
        owner.expect(say("damaged.two") if len(fits) == 2 else say("damaged.one", name=name_of(fits[0])))
        for fit in fits:
            found = [(number, word) for number, (word, mark) in enumerate(zip(fit.split(), words), 1) if word != mark]
            owner.expect(" ".join(f"- {say('entry.place', number=number)}: {word}" for number, word in found))
        end_by_keys(owner)


def compare_new(case):
    """Makes a backup of the owner's own secret. ./shamir recovers that secret from the papers that are shown."""
    secret = case.secret.hex()
    with started("new", case.plan, has=DIGITS) as owner:
        papers, noted = make(owner, case.passphrase, case.plan, secret, case.source.choice(["", case.noted]))
    if noted != case.noted or case.told(["recover"], data_of(papers))[0].strip() != secret:
        raise Failed(f"{case.plan}: ./shamir recovers another secret from papers of the dialogue")


COMPARE = [compare_check, compare_check, compare_check, compare_recover, compare_replace, compare_change, compare_repair, compare_new]


def compare(number):
    source = random.Random(number)
    case = Generated(source)
    one = source.choice(COMPARE)
    try:
        one(case)
    except Failed as fault:
        raise Failed(f"case {number}, {one.__name__}, plan {case.plan}: {fault}") from None


def check(see, count=CASES):
    """Compares so many cases. They are others in each run."""
    if count < 1:
        raise Failed("no case is compared")
    if not os.path.exists(PROGRAM):
        return ["./shamir isn't here, so generated backups aren't compared with it"]
    source = random.Random(SEED)
    numbers = [source.randrange(1 << 32) for _ in range(count)]
    with concurrent.futures.ThreadPoolExecutor(AT_ONCE) as pool:
        list(pool.map(compare, numbers))
    return []
