"""Faults that are planted in copies of the program. Each must be found by a check, or that check is worth nothing."""
import pathlib
import shutil
import tempfile

import apart
import astray
import change
import ends
import hands
import keys
import looks
import pasted
import planted
import refusals
import repaired
import scrollback
import slips
import steps
import tasks
import traces
from hands import BINDING, ROOT, Failed, habits

# What is planted: its name, the module, what stands there, what takes its place, and the check that must fail.
FAULTS = [
    ("a paper is shown outside the alternate screen", "terminal", 'self._put(ENTER_SCREEN + clear)', "self._put(clear)", tasks.check),
    ("the screen isn't cleared at the end", "terminal", 'self._put(self._clear + (CLEAR_KEPT if self._is_console else "") + LEAVE_SCREEN)', "self._put(LEAVE_SCREEN)", tasks.check),
    ("a second screen is taken for granted", "terminal", "            self.keeps_lines = self._ignores_screen()\n", "            pass\n", scrollback.check),
    ("lines that left the screen stay in the scrollback", "terminal", '(CLEAR_KEPT if self._clears_kept else "")', '""', scrollback.check),
    ("what is cleared goes to the scrollback", "terminal", "(CLEAR_BACKWARDS if self.keeps_lines else CLEAR)", "CLEAR", lambda see: traces.check_no_second_screen()),
    ("that a scrollback keeps lines isn't told", "safety", "    elif keeps_lines:\n", "    elif False:\n", lambda see: traces.check_warnings()),
    ("Ctrl-Z leaves the screen as it is", "terminal", "        self._leave()\n        signal.signal(signal.SIGTSTP, signal.SIG_DFL)", "        signal.signal(signal.SIGTSTP, signal.SIG_DFL)", scrollback.check),
    ("the echo stays off", "terminal", "self._set(termios.TCSAFLUSH, self._saved)", "pass", tasks.check),
    ("a passphrase is shown", "line", "        if not self._is_hidden:\n            self._terminal.write(_shown(more))", "        self._terminal.write(_shown(more))", lambda see: check_hidden()),
    ("a wrong word is taken for the nearest", "entry", "marks = [mark if word is None else word", "from shamir.papers.spelling import nearest\n            marks = [nearest(mark)[0] if word is None else word", lambda see: refusals.check_words()),
    ("a wrong paper is taken when it is typed back", "shown", "    if is_same(paper, typed):", "    if True:", lambda see: steps.check_new()),
    ("a paper of another backup is taken", "desk", "shamir.judge([it.line for it in self._kept], paper.line)", "shamir.judge([], paper.line)", lambda see: refusals.check_others()),
    ("papers of two backups are one backup", "desk", "[paper for paper in self._kept if paper.id == self._id]", "[*self._kept]", lambda see: apart.check_first()),
    ("the backup isn't chosen", "backups", "    if len(backups) < 2:\n", "    if True:\n", lambda see: apart.check_first()),
    ("another backup is drilled than the chosen one", "desk", "        self._id = id\n", "        pass\n", lambda see: apart.check_each()),
    ("papers of another backup aren't told at the end", "collect", "    for papers in desk.others:\n", "    for papers in list[list[Paper]]():\n", lambda see: apart.check_first()),
    ("papers of another backup don't count as left out", "check", "desk.left_out or desk.others or", "desk.left_out or", lambda see: apart.check_first()),
    ("of two papers with one name, the first one is taken out", "backups", "    if len(found) < 2:\n", "    if True:\n", lambda see: apart.check_names()),
    ("the first paper says how many words each has", "desk", "            return counts.get(\" \".join(opening))\n", "            pass\n", lambda see: apart.check_counts()),
    ("found words make another backup", "collect", "        if is_apart and paper.is_repaired:\n", "        if False:\n", lambda see: apart.check_found()),
    ("a sound paper is blamed for found words", "desk", "if paper.is_doubtful and not others]", "for paper in [paper, *others] if paper.is_doubtful]", lambda see: apart.check_found()),
    ("every quorum is said to be right", "quorums", "return tried.fingerprint == fingerprint if tried.expected is None else tried.expected", "return True", lambda see: refusals.check_mixed()),
    ("what was pasted answers a question that nobody saw", "screen", "        self.drop_typed()\n        self.tell(text, \"bad\")", "        self.tell(text, \"bad\")", lambda see: refusals.check_pasted()),
    ("a file is written", "desk", "        self._kept.append(paper)", "        self._kept.append(paper)\n        open(__file__ + '.planted', 'w').close()", lambda see: traces.check_files()),
    ("freed memory keeps what it holds", "safety", '"glibc.malloc.perturb=85:glibc.malloc.tcache_count=0"', '"glibc.malloc.tcache_count=0"', lambda see: traces.check_memory()),
    ("Ctrl-C ends with the status 0", "__main__", "os._exit(130)", "os._exit(0)", lambda see: ends.check_in_the_middle()),
    ("a standard input that is no terminal is taken", "__main__", '[("input", 0), ("output", 1)]', '[("output", 1)]', lambda see: ends.check_no_terminal()),
    ("numbers before words aren't obeyed", "spelling", "number = number + 1 if given is None else given", "number = number + 1", lambda see: refusals.check_numbers()),
    ("without a noted fingerprint, no fault is found", "check", '"same" if verdict.result == "good" and not noted else verdict.result', "verdict.result", lambda see: refusals.check_passphrases()),
    ("digits aren't compared with the noted fingerprint", "secret", "while not gives(Tried((), fingerprint, None), noted):", "while False:", lambda see: steps.check_new()),
    ("a paper that is here is written again", "which", "if name in here.names else", "if False else", lambda see: slips.check_number()),
    ("a number alone is a name where there are groups", "which", "(found[1] is None and count > 1)", "False", lambda see: steps.check_replace()),
    ("a missing paper between others isn't named", "which", '"which.between" if member < last else "which.after"', '"which.after"', tasks.check),
    ("Enter alone drops words that were found", "repair", '{"w": "0"}), "c": "change", "t": "again"', '{"w": "0"}), "c": "change", "": "again", "t": "again"', lambda see: steps.check_repair()),
    ("an answer where the screen is full is lost", "screen", "            self._begun += key\n", "            pass\n", lambda see: steps.check_full()),
    ("the last line is wider than the screen", "__main__", "wrapped(text, max(1, terminal.size.columns - 1))", "[text]", looks.check),
    ("a damaged paper isn't named at the end", "collect", "    names = desk.damaged\n", "    names: list[str] = []\n", lambda see: slips.check_damaged()),
    ("papers beyond the named ones aren't told", "which", 'any(why == "which.after" for _, why in missing)', "False", lambda see: repaired.check_untyped()),
    ("of found words without the flag, the passphrase isn't in doubt", "change", 'if is_extendable else "change.repaired.flagless"', 'if True else ""', lambda see: change.check_unnoted()),
    ("the way back forgets the plan that the command named", "new", "if plan.text != given:", "if True:", lambda see: steps.check_back()),
    ("an Enter too many leaves the missing papers", "which", "if typed == DRILL:", 'if typed in ("", DRILL):', lambda see: slips.check_number()),
    ("a backup with the flag is made anew from its secret", "change", "if desk.papers[0].is_extendable else", "if False else", tasks.check),
    ("another secret than the noted one is backed up anew", "change", "if not noted or gives(Tried((), fingerprint, None), noted):", "if True:", lambda see: change.check_flagless()),
    ("the exponent of old papers is lost", "change", "Choices(exponent=desk.papers[0].exponent)", "Choices()", lambda see: change.check_flagless()),
    ("new papers aren't compared with the old ones", "agree", "run_drill(screen, new, first.fingerprint, is_own=not noted, is_new=True)", 'run_drill(screen, new, "", is_own=not noted)', lambda see: change.check_flagless()),
    ("old papers aren't compared with the note", "agree", 'if first.result != "good":', "if False:", lambda see: change.check_refused()),
    ("a wrong old paper isn't told from the others", "agree", 'if first.result in ("some", "several"):', "if False:", lambda see: change.check_wrong()),
    ("what wasn't compared with a note is said to be right", "change", '"" if verdict.is_own else "good"', '"good"', lambda see: change.check_unnoted()),
    ("old papers are to be destroyed though nothing was compared", "change", "is_unproved = not is_proved(", "is_unproved = False and is_proved(", lambda see: change.check_unnoted()),
    ("old papers aren't to be marked", "change", '    screen.tell_next(say("change.mark"), "strong")\n', "", lambda see: change.check_unnoted()),
    ("a paper that is written again isn't named", "check", "    _tell_written(screen, desk, verdict, result, good)\n", "", tasks.check),
    ("old papers aren't kept before new ones are proved", "change", 'desk.written = "changing"', 'desk.written = "unfinished"', lambda see: change.check_ways()),
    ("old papers stay in the memory", "change", '    desk.clear()\n    screen.clear(say("change.done', '    screen.clear(say("change.done', lambda see: traces.check_memory()),
    ("without a noted fingerprint, a passphrase is typed once", "questions", "        if noted or not desk.passphrase:", "        if True:", lambda see: slips.check_twice()),
    ("Ctrl-C ends half written papers at once", "screen", "self._held, self._terminal.is_held = text, bool(text)", 'self._held, self._terminal.is_held = "", False', lambda see: ends.check_written()),
    ("a backup that is made is called unfinished", "new", '        desk.written = "made"\n', "", lambda see: ends.check_written()),
    ("a paper isn't shown again while it is typed back", "entry", "            if not text.strip() and self._show is not None:", "            if False:", lambda see: slips.check_written_wrongly()),
    ("typing back asks for question marks", "shown", 'Entry(screen, lambda marks: count, "back", show_again)', 'Entry(screen, lambda marks: count, "", show_again)', lambda see: slips.check_written_wrongly()),
    ("words that are typed too early clear a paper", "shown", "        return is_alone\n", "        return True\n", lambda see: slips.check_written_wrongly()),
    ("long words that have no place are lost", "entry", 'begun = f"{text.rstrip()} " if len(text.split()) > SHORT else ""', 'begun = ""', lambda see: refusals.check_words()),
    ("a refused answer stays in the line", "entry", "if len(text.split()) > SHORT", "if text.split()", lambda see: refusals.check_words()),
    ("the sign behind a refused line is a word of it", "entry", "or (begun and text.split()[-1:] == [DROP])", "", lambda see: refusals.check_checksum()),
    ("a paste isn't read to its end", "paste", "while screen.is_pasted(PASTE_SECONDS) or (not _is_sound(text, counting) and screen.goes_on()):", "while False:", lambda see: pasted.check_many()),
    ("lines that a machine types are judged one by one", "paste", " or (not _is_sound(text, counting) and screen.goes_on())", "", lambda see: pasted.check_paced()),
    ("papers that come where others are to be mended are lost", "collect", 'ask_whole(screen, say("paste.mend"), desk.word_count)', '(screen.pause(say("paste.mend")), "")[1]', lambda see: pasted.check_paced_late()),
    ("papers that come at a question are lost", "screen", "is_kept = self._keeps and", "is_kept = False and", lambda see: pasted.check_paced_amid()),
    ("letters that come before a question are lost", "screen", '("\\n" in text and len(parts_of(text)) < KEPT_LEAST)', "len(parts_of(text)) < KEPT_LEAST", lambda see: pasted.check_paced_letters()),
    ("papers that come before a fault is told are lost", "screen", "            self._terminal.put_back(kept)\n            return False\n", "            pass\n", lambda see: pasted.check_paced_amid()),
    ("a paste is read as one paper", "entry", "        if len(texts) > 1:", "        if False:", lambda see: pasted.check_rows()),
    ("papers that are pasted in place of a word take the place of the paper", "entry", "            self._heed_others(text, is_continued)\n", "            pass\n", lambda see: pasted.check_amid()),
    ("the rest of a paper that is pasted is no part of it", "entry", "if len(marks[0]) < LEAST and is_continued:", "if False:", lambda see: pasted.check_amid_rest()),
    ("what is pasted in place of Enter is dropped without a word", "screen", "if not is_alone and not self.drop_typed():", "if False:", lambda see: pasted.check_early()),
    ("the first of several lines is taken for a passphrase", "screen", "if not self.is_pasted(PASTE_SECONDS) or not self.drop_typed():", "if True:", lambda see: pasted.check_early()),
    ("what a terminal answers is typed", "keys", "0x20 <= found[-1] < 0x40", 'found[-1] in b"0123456789;"', lambda see: keys.check_answers()),
    ("the rest of an arrow is typed if it comes late", "keys", "SPLIT_SECONDS if found else JOINED_SECONDS", "JOINED_SECONDS", lambda see: keys.check_answers()),
    ("what a terminal answers in a paste is taken for words", "screen", 'SEQUENCE.sub(b"", read)', "read", lambda see: keys.check_pasted()),
    ("a key that moves nothing says nothing", "line", "        if hint:\n", "        if False:\n", lambda see: keys.check_hint()),
    ("a tab of a passphrase is lost", "line", "key == TAB and not self._is_hidden", "key == TAB", lambda see: pasted.check_tab()),
    ("pasted papers that are wrong are forgotten", "judged", "            found.faults.append((begin(text), why))\n", "            pass\n", lambda see: pasted.check_misspelt()),
    ("pasted papers that are wrong can't be mended", "judged", "found.left += [text] if len(words) >= BEGUN_LEAST else []", "pass", lambda see: pasted.check_misspelt()),
    ("pasted papers that aren't asked for are dropped without a word", "entry", 'self._screen.tell_seen(say("paste.only", papers=counted(len(texts), "paper")))', "pass", lambda see: pasted.check_elsewhere()),
    ("what is typed ahead is dropped without a word", "screen", "or is_begun\n        if is_dropped:", "or is_begun\n        if False:", lambda see: pasted.check_dropped()),
    ("what isn't taken is told where nobody sees it", "screen", "        for told in self._unseen if title else []:\n            self.tell(*told)\n", "", lambda see: pasted.check_back()),
    ("a slow drill shows nothing until a part of it is listed", "trial", "if is_slow else self._listed(list(self._papers))", "if False else self._listed(list(self._papers))", lambda see: ends.check_slow_drill()),
    ("how far a quorum is doesn't show", "trial", "            self.rounds = done % ROUNDS\n", "", lambda see: ends.check_slow_drill()),
    ("what was tried is lost at a stop", "drill", "return verdict_of([*trial.outcomes], total", "return verdict_of([] if is_stopped else [*trial.outcomes], total", lambda see: ends.check_slow_drill()),
    ("fingerprints that aren't named are left out", "drill", "    if others:\n", "    if False:\n", lambda see: ends.check_many_secrets()),
    ("a quorum has the secret of another one", "trial", "self._found.get(bytes(kept.value))", "next(iter(self._found.values()), None)", lambda see: ends.check_slow_drill()),
    ("what is typed while the program starts shows", "echo", "    modes[LOCAL] &= ~termios.ECHO\n", "", lambda see: ends.check_echo()),
    ("the echo stays off after help", "__main__", "        echo.show()\n        raise\n", "        raise\n", lambda see: ends.check_echo()),
    ("the echo stays off after the end", "terminal", "echo.restored(termios.tcgetattr(source))", "termios.tcgetattr(source)", lambda see: ends.check_echo()),
    ("a key stops a drill at once", "screen", 'if self.agree(say("work.sure")) and', "if True and", lambda see: ends.check_stopped_drill()),
    ("an Enter too many asks whether to stop", "screen", "is_stop = chr(self._terminal.key(False)).lower() == STOP", "is_stop = chr(self._terminal.key(False)).lower() in (STOP, '\\n', '\\r')", lambda see: ends.check_stopped_drill()),
    ("an Enter too many ends", "check", 'for it in ("ep" if likely == "good" else "etp")', 'for it in ["", *("ep" if likely == "good" else "etp")]', lambda see: refusals.check_passphrases()),
    ("a passphrase that no file gives is taken", "questions", "if len(typed) > most else", "if False else", lambda see: astray.check_letter()),
    ("a noted fingerprint isn't compared before a backup is made", "proof", "elif not gives(Tried((), made.fingerprint, None), typed):", "elif False:", lambda see: steps.check_new()),
    ("a passphrase isn't typed again before a backup is made", "proof", 'desk.set_passphrase(ask_right(screen, say("passphrase.ask"), False))', "ask_right(screen, say('passphrase.ask'), False)", lambda see: steps.check_new()),
    ("a mistyped fingerprint takes the digits away", "secret", "        if not noted or _is_noted(screen, shamir.fingerprint(secret), noted):", "        if not noted or gives(Tried((), shamir.fingerprint(secret), None), noted):", lambda see: steps.check_new()),
    ("a dangerous plan is taken at once", "plan_choice", "    if not dangers:\n", "    if True:\n", lambda see: slips.check_plans()),
    ("each wallet is said to know the flag", "secret", '{"1": True, "2": False, "3": False}', '{"1": True, "2": True, "3": True}', lambda see: steps.check_new()),
    ("what wasn't compared is said to be equal", "check", 'good if result == "good" else ""', 'good', lambda see: refusals.check_passphrases()),
    ("a paper says another number of others", "what", "paper.member_threshold - 1", "paper.member_threshold", tasks.check),
    ("all words with a number that is there twice are lost", "entry", "        return found\n\n    def _whole", "        if misplaced:\n            raise Begun\n        return found\n\n    def _whole", lambda see: refusals.check_numbers()),
    ("words that don't fit are lost", "entry", "            return self._whole(self._again(marks, None))", "            raise Begun", lambda see: refusals.check_open_words()),
    ("a word that is too many can't be taken out", "entry", "            if len(shorter) < len(marks):", "            if False:", lambda see: refusals.check_counts()),
    ("a sign alone ends the papers", "entry", "if not text.strip():", "if not parts:", lambda see: slips.check_sign()),
    ("a space at the end of a passphrase isn't told", "questions", '("passphrase.space.last", typed[-1:])', '("passphrase.space.last", typed[:1])', lambda see: slips.check_spaces()),
    ("a paper without which nothing is recovered isn't told", "plan", "    if plan.needed < len(plan.groups):", "    if True:", lambda see: slips.check_plans()),
    ("a plan without the number of groups isn't explained", "plan_choice", "if GROUPS.fullmatch(text) and", "if False and", lambda see: slips.check_plans()),
    ("a wrong digit is shown", "secret", 'say("secret.not_hex", place=wrong)', 'say("secret.not_hex", place=typed.decode())', lambda see: steps.check_new()),
    ("a paper that was left out is forgotten", "entry", "        self._screen.drop_typed()\n        self._leave([mark for mark in self._marks if mark])\n", "", lambda see: astray.check_left_out()),
    ("a repaired paper that no quorum has counts as right", "check", 'tried = [paper for paper in repaired if paper.name in verdict.names]', "tried = repaired", lambda see: repaired.check_untried()),
    ("a wrong repaired paper isn't blamed", "check", 'if paper.name not in verdict.right]', "if False]", lambda see: repaired.check_repaired()),
    ("a long exponent is taken at once", "secret", "if exponent < LONG_EXPONENT or", "if True or", lambda see: steps.check_new()),
    ("a paper that is refused beside others is forgotten", "collect", "    desk.leave_out([*paper.words[:-1], \"?\"] if paper.is_repaired else paper.words)\n", "", lambda see: astray.check_refused()),
    ("a word that the paper says isn't told", "found", 'if typed.get(number, word) != word else ""', 'if False else ""', lambda see: repaired.check_miswritten()),
    ("a letter is taken for a passphrase", "questions", "if typed.lower() == BACK.encode() and", "if False and", lambda see: astray.check_letter()),
    ("what is typed in place of an answer shows", "questions", "if edge == b\" \" and not screen.agree(say(key), is_hidden=True):", "if edge == b\" \" and not screen.agree(say(key)):", lambda see: astray.check_letter()),
    ("a paper that no backup has is offered", "desk", "return self.group < self.group_count", "return True", lambda see: repaired.check_impossible()),
    ("a good paper is blamed for a repaired one", "refusals", "    if repaired:", "    if False:", lambda see: repaired.check_repaired()),
    ("the damaged paper isn't kept", "__main__", 'in ("repaired", "changing", "unfinished")', 'in ("changing", "unfinished")', lambda see: repaired.check_repaired()),
    ("a backup without a whole drill is called done", "__main__", 'in ("repaired", "changing", "unfinished")', 'in ("repaired", "changing")', lambda see: ends.check_unproved()),
    ("a second signal keeps the terminal as it is", "terminal", "            self._is_ending = True\n            raise", "            raise", lambda see: ends.check_two_signals()),
    ("after a stop, what is typed shows", "terminal", "        if self._is_shown and not self._is_ending:\n", "        if False:\n", lambda see: ends.check_stopped()),
    ("a program that is stopped clears the shell's screen", "terminal", "        if self._is_shown and self._is_ours():\n", "        if True:\n", scrollback.check),
    ("an empty line of a paste ends the papers", "paste", 'text = "\\n".join([text, *lines, ask(last) if last else ""])', 'text = text or lines[0]', lambda see: astray.check_pasted_papers()),
    ("a sound paper is blamed for a new one", "collect", "said_foreign(refusal, doubtful, paper.is_repaired)", "said_foreign(refusal, doubtful)", lambda see: repaired.check_refused_repaired()),
    ("a paper that is read in full stays damaged", "desk", "is_repaired=here.is_repaired and paper.is_repaired", "is_repaired=here.is_repaired", lambda see: repaired.check_read_later()),
    ("a passphrase is cut", "line", "            self.is_cut = True\n", "            pass\n", lambda see: astray.check_letter()),
    ("a drill without the repaired paper counts for it", "check", "is_there and all(paper.name in verdict.names for paper in repaired)", "is_there", lambda see: repaired.check_untried()),
    ("only what was written anew is to be kept", "check", "len(right) < len(repaired) or (", "(", lambda see: repaired.check_untried()),
    ("a drill without the paper that was written anew counts for it", "check", "is_rewritten and paper.name in verdict.names for", "is_rewritten for", lambda see: repaired.check_whole()),
    ("a drill without a paper that was taken out counts for it", "check", "is_there = not desk.written or", "is_there = True or", lambda see: repaired.check_taken_out()),
    ("a typed word is called wrong beside a paper that fits", "found", "for fit in [] if found else fits:", "for fit in set(fits) - set(found):", lambda see: repaired.check_impossible()),
    ("a paper that a drill showed to be right is blamed", "check", "        desk.prove(verdict.names)\n", "        pass\n", lambda see: repaired.check_proved()),
    ("of too few papers, words that were found count as right", "check", "if any(it.is_doubtful for it in desk.papers) else too_few", "if False else too_few", lambda see: repaired.check_few()),
    ("that a group needs one paper counts as shown", "check", "answered = [paper for paper in desk.papers if paper.is_answered]", "answered = list[Paper]()", lambda see: repaired.check_lone()),
    ("nobody asks whether there is money in the wallet", "new", "        has = has or _ask_has(screen)\n", '        has = "new"\n', lambda see: steps.check_has()),
    ("the entropy of 12 or 24 words becomes papers", "secret", "        raise Entropy\n", "        pass\n", lambda see: steps.check_doubts()),
    ("a secret that doesn't fit the words is taken at once", "secret", "[] if len(secret) == fit else", "[] if True else", lambda see: steps.check_doubts()),
    ("a secret of one repeated byte is taken at once", "secret", "if len({*secret}) == 1 else []", "if False else []", lambda see: steps.check_doubts()),
    ("digits show that nobody asked to see", "secret", "    is_shown = False\n", "    is_shown = True\n", lambda see: steps.check_doubts()),
    ("12 or 24 words become papers", "new", "                _agree_to_new(screen, has)\n", "                pass\n", lambda see: steps.check_has()),
    ("papers of an empty wallet are made without a word on that", "new", '        screen.tell(say("make.empty"), "strong")\n', "        pass\n", tasks.check),
    ("what wasn't typed isn't named", "check", 'if result in ("good", "same"):\n        more', "if False:\n        more", lambda see: repaired.check_untyped()),
    ("old and new papers are said to agree though nothing was compared", "agree", 'second.result == "good" and is_proved(old, noted)', 'second.result == "good"', lambda see: change.check_unnoted()),
    ("no passphrase is taken for old papers at once", "change", "if not noted and not desk.passphrase and", "if False and", lambda see: change.check_unnoted()),
    ("one paper is said to agree with itself", "drill", "is_alone = len(tried[0].names) == len(tried) == 1 and", "is_alone = False and", lambda see: repaired.check_alone()),
    ("the passphrase is blamed before words that were found", "check", "is_alone = len(verdict.names) == 1 and", "is_alone = False and", lambda see: repaired.check_alone()),
    ("the same at a recovery", "recover", "len(desk.papers) == 1 and", "False and", lambda see: repaired.check_alone()),
    ("what rests on an answer is called right", "check", 'good = "" if answered else "good"', 'good = "good"', lambda see: repaired.check_lone()),
    ("after a wrong answer, no paper is missing", "which", "if paper.is_answered]", "if False]", lambda see: repaired.check_lone()),
    ("a program in the background loses its papers", "terminal", "if error.args[0] != errno.EINTR:", "if True:", scrollback.check),
    ("complete groups are asked for that there can't be", "replace", '"all" if plan.needed == len(plan.groups) else ""', '""', lambda see: astray.check_lost()),
    ("a passphrase that wasn't typed is called mistyped", "drill", 'if result == "other" and not has_passphrase:', "if False:", lambda see: astray.check_unsaid()),
    ("Ctrl-C ends at once though papers were typed", "collect", "    if not screen.is_held:\n", "    if False:\n", lambda see: astray.check_end()),
    ("Ctrl-C ends at once though papers are here", "collect", "    if desk.typed and not screen.is_held:\n", "    if False:\n", lambda see: astray.check_left_out()),
    ("a paper at the question for more is lost", "collect", "if not typed or len(parts) > 1 or any(mark in words for _, mark in parts):", "if not typed:", lambda see: astray.check_too_few()),
    ("a line for an unreadable word is lost", "spelling", 'word = piece.lstrip("0123456789")', 'word = piece.lstrip("0123456789_")', lambda see: astray.check_line()),
    ("another size leaves a full screen as it was", "screen", "            self._terminal.tells_size = True\n", "", lambda see: astray.check_size()),
    ("another size cuts a paper", "terminal", "        if self.tells_size:\n            raise Resized\n", "", lambda see: astray.check_size()),
    ("another size cuts a screen", "terminal", '            self._put("".join([self._clear, *self._written]))', "            pass", lambda see: astray.check_size()),
    ("another size takes a note away", "screen", "        while not is_done:\n            self._notice, self._notice_style = notice\n", "        while not is_done:\n", lambda see: change.check_ways()),
    ("lines of a paste are answers", "screen", "                elif self.is_pasted(PASTE_SECONDS):\n                    self.drop_typed()\n", "", lambda see: pasted.check_answers()),
    ("the wallet's number of words doesn't count", "secret", "else drawn(size)", "else drawn(16)", lambda see: steps.check_back()),
    ("a backup is made without a word on what a quorum is", "new", '    screen.tell(say("quorum.what"))\n', "", lambda see: steps.check_new()),
    ("a recovery ends without what is to be done next", "recover", '    screen.tell(f"{say(\'recover.next.title\')}: {say(\'recover.next\')}")\n', "", tasks.check),
    ("a fingerprint is cleared with the digits", "recover", "yet.\n            screen.tell(*told)\n", "yet.\n", lambda see: slips.check_fingerprint()),
    ("the digits of another secret are shown", "recover", "digits = secret.hex()", "digits = secret[::-1].hex()", tasks.check),
]


def check_hidden():
    """Types a passphrase, and looks whether it was ever shown."""
    papers, noted = tasks.check_new(None)
    shown = habits.ended.raw.decode()
    if tasks.PASSPHRASE in shown:
        raise Failed("a passphrase is shown")


def copied(folder):
    """Copies the program to a folder, with the page's table of sentences. Returns the folder of its package."""
    copy = folder / "python"
    shutil.copytree(BINDING, copy, ignore=shutil.ignore_patterns("__pycache__"))
    shutil.copyfile(ROOT / "page" / "texts.js", copy / "shamir" / "papers" / "texts.js")
    return copy


def look(copy, *checks):
    """Runs checks of a copy in place of the program."""
    habits.how = {"package": copy}
    try:
        for check_it in checks:
            check_it(None)
    finally:
        del habits.how


def plant(folder, module, old, new, check_it):
    """Plants a fault in a module of a copy. Returns what looks for it."""
    copy = copied(folder)
    path = copy / "shamir" / "papers" / f"{module}.py"
    text = planted.changed(path.read_text(), old, new, path.name)
    # A program that doesn't compile fails each check.
    compile(text, str(path), "exec")
    path.write_text(text)
    return lambda: look(copy, check_it)


def check_places():
    """Checks that each fault still has its place."""
    for _, module, old, new, _ in FAULTS:
        planted.changed((BINDING / "shamir" / "papers" / f"{module}.py").read_text(), old, new, f"{module}.py")


def check():
    """Plants each fault. A copy in which nothing is planted has to pass, or each fault would be found."""
    # What a fault keeps from coming is waited for in vain.
    hands.PATIENCE = 8
    with tempfile.TemporaryDirectory() as folder:
        look(copied(pathlib.Path(folder)), lambda _: refusals.check_words(), tasks.check)
    planted.check(FAULTS, plant)
