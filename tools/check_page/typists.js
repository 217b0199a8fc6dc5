// Types papers into an entry of the page by events, and returns how many of them went wrong. An expression, which
// typists.py evaluates in the page: a function of the word list, the way, the number of papers, and a seed.
(async (list, way, papers, seed) => {
  // A generator of numbers below `end`, the same ones for each seed.
  const below = (end) => {
    seed = (Math.imul(seed, 1664525) + 1013904223) >>> 0;
    return Math.floor((seed / 2 ** 32) * end);
  };
  const least = (word) => {
    let count = 1;
    while (list.some((it) => it !== word && it.startsWith(word.slice(0, count)))) count += 1;
    return count;
  };
  const SHORT = { least, four: () => 4, whole: (word) => word.length };
  const isInTurn = way.startsWith("in turn");
  const hasTypo = way.startsWith("typo");
  const isLate = way.startsWith("late");
  const isRead = isInTurn || isLate;
  // A word with a wrong letter, one too many, one too few, or 2 exchanged, after so many right ones. It stands for no word of the list.
  const mistyped = (word, right = 0) => {
    const [at, letter] = [right + below(word.length - right), "abcdefghijklmnopqrstuvwxyz"[below(26)]];
    const [before, after] = [word.slice(0, at), word.slice(at)];
    const typo = [before + letter + after.slice(1), before + letter + after, before + after.slice(1), before + after.slice(1, 2) + after.slice(0, 1) + after.slice(2)][below(4)];
    return list.filter((it) => it.startsWith(typo)).length === 1 || typo === word ? mistyped(word, right) : typo;
  };
  // What stood in the fields when a paper was read. The answer may come only after some more letters.
  let [taken, answer, late] = [null, null, 0];
  const onPaper = async () => {
    taken = shown();
    if (isLate) await new Promise((resolve) => ([answer, late] = [resolve, below(4)]));
    return { isTaken: isRead, text: "" };
  };
  const answered = async () => {
    answer?.();
    answer = null;
    await new Promise((resolve) => setTimeout(resolve));
  };
  // If papers aren't read, one more field takes what is typed after the last word.
  const entry = new in_paper_entry.PaperEntry(list, isRead ? 20 : 21, onPaper);
  document.getElementById("main").replaceChildren(entry.element);
  const fields = () => [...entry.element.querySelectorAll(".word input")];
  const shown = () => fields().map((field) => field.value);
  const letter = async (sign) => {
    const field = document.activeElement;
    field.value += sign;
    field.dispatchEvent(new InputEvent("input", { inputType: "insertText", data: sign, bubbles: true }));
    if (answer && late-- === 0) await answered();
  };
  const named = (key) => {
    const field = document.activeElement;
    if (field.dispatchEvent(new KeyboardEvent("keydown", { key, bubbles: true, cancelable: true })) && key === "Tab") fields()[fields().indexOf(field) + 1]?.focus();
  };
  const type = async (word, count, end) => {
    for (const sign of word.slice(0, count)) await letter(sign);
    if (end === " ") await letter(" ");
    else if (end) named(end);
  };
  const ENDS = ["space", "Enter", "Tab", "nothing"];
  const wayOf = (paper) => {
    if (way === "mixed") return [Object.keys(SHORT)[below(3)], ENDS[below(4)]];
    if (hasTypo || isLate) return ["whole", way.split(", ")[1]];
    return isInTurn ? [paper % 2 ? "four" : "whole", "space"] : way.split(", ");
  };
  const typed = (word, paper) => {
    const [short, end] = wayOf(paper);
    return type(word, SHORT[short](word), end === "space" ? " " : end === "nothing" ? "" : end);
  };
  // Typos whose letters can be read as several words. The first papers have them.
  const TYPOS = [["sister", "sistzer"], ["sister", "bister"], ["zero", "zzero"]];
  const LATE = [["sister", "siszter"], ["sister", "siszter"], ["sister", "sistzer"]];
  const hard = seed !== 1 ? [] : isLate ? LATE : hasTypo ? TYPOS : [];
  const found = { right: 0, told: 0, silent: 0, examples: [] };
  let last = "";
  for (let paper = 0; paper < papers; paper += 1) {
    if (paper === 0 || !isInTurn) in_word_field.forgetTyping();
    taken = null;
    if (paper === 0 || !isLate) {
      entry.clear();
      entry.focus();
    }
    const words = Array.from({ length: 20 }, () => list[below(list.length)]);
    // The next paper begins with the letter that wasn't typed of the last word.
    if (isInTurn && paper % 2) words[19] = list.find((word, at) => word.length === 5 && at >= below(list.length)) ?? "crowd";
    if (isInTurn && last[4]) words[0] = list.filter((word) => word.startsWith(last[4])).at(below(10)) ?? words[0];
    last = words[19].length === 5 ? words[19] : "";
    // In a paper whose answer is late, the last word is clear before its letters go wrong.
    const wrong = hasTypo ? below(20) : isLate ? 19 : -1;
    if (hard[paper]) words[wrong] = hard[paper][0];
    else if (isLate) words[wrong] = list.filter((word) => word.length - least(word) > 1).at(below(600));
    const typo = wrong < 0 ? "" : (hard[paper]?.[1] ?? mistyped(words[wrong], isLate ? least(words[wrong]) : 0));
    for (const [at, word] of words.entries()) await typed(at === wrong ? typo : word, paper);
    // The answer to a paper comes after what called for it.
    if (isRead) await answered();
    const came = taken ?? shown();
    // The field after the last word may hold letters of it.
    const isToLookAt = (at) => entry.element.querySelectorAll(".word")[at].matches(".wrong, .doubt");
    const isRight = words.every((word, at) => came[at] === word || (at === wrong && isToLookAt(at)));
    const isMarked = entry.element.querySelector(".word.wrong, .word.doubt, .answer.fault") !== null;
    // A field that is empty, or whose letters are no word, is named when the paper is read.
    const isTold = isMarked || came.slice(0, 20).some((word) => !list.includes(word));
    found[isRight ? "right" : isTold ? "told" : "silent"] += 1;
    const example = `${isTold ? "told" : "silent"}: ${words.join(" ")} => ${came.join(" ")}`;
    if (!isRight && !isTold) found.examples.unshift(example);
    else if (!isRight && found.examples.length < 3) found.examples.push(example);
  }
  return JSON.stringify(found);
})
