"""The worked examples of tools/worked.py as cases for each language: command lines with inputs, which readers of tools/generated_cases.py take, and
the Python package.

A language can't say all that C can. Its calls have no room for the output, no number for a flag or a form, and no empty text that stands for none,
and they take a line feed at the end of one mnemonic. Examples with these are left out, and so are those of `text`, `version` and `wipe`: the text of
each refusal is compared anyway.
"""
import sys
from typing import Any, Callable, Dict, List, Optional, Tuple

import generated_cases
import worked
from generated_cases import compare

plain: Any = worked.plain

# An example's words after the command, and its input.
Said = Tuple[List[str], bytes]


def text(given: Optional[bytes]) -> str:
    return (given or b"").decode("latin-1")


def expecting(fingerprint: Optional[bytes]) -> List[str]:
    return [f"--expect={text(fingerprint)}"] if fingerprint else []


def numbers(extendable: int, exponent: int) -> List[str]:
    return [*["--extendable"] * extendable, f"--exponent={exponent}"]


def one_line(line: Optional[bytes]) -> Optional[Said]:
    return None if text(line).endswith("\n") else ([], line or b"")


def of_lines(lines: Optional[bytes]) -> Said:
    return [], lines or b""


def random_needed(plan: Optional[bytes], size: int) -> Said:
    return [text(plan), str(size)], b""


def create(plan: Optional[bytes], secret: Optional[bytes], key: Optional[bytes], exponent: int, extendable: int, drawn: Optional[bytes]) -> Said:
    return [text(plan), f"--master-secret={(secret or b'').hex()}", *compare.options(text(key)), *numbers(extendable, exponent)], drawn or b""


def recover(lines: Optional[bytes], key: Optional[bytes], most: int, expected: Optional[bytes]) -> Said:
    return [*compare.options(text(key)), f"--max-exponent={most}", *expecting(expected)], lines or b""


def drill(lines: Optional[bytes], key: Optional[bytes], most: int, after: Optional[bytes], limit: int, form: int, expected: Optional[bytes]) -> Optional[Said]:
    if limit == 0 or form > worked.EXPECTED or expected and form != worked.EXPECTED:
        return None
    forms: List[List[str]] = [[], ["--fingerprint"], [f"--expect={text(expected)}"]]
    cursor = [f"--after={text(after)}"] if after else []
    return [*compare.options(text(key)), f"--max-exponent={most}", *cursor, f"--limit={limit}", *forms[form]], lines or b""


def decrypt(id: int, extendable: int, exponent: int, value: Optional[bytes], key: Optional[bytes], expected: Optional[bytes]) -> Said:
    return [f"--id={id}", *numbers(extendable, exponent), *compare.options(text(key)), *expecting(expected)], value or b""


def decrypt_round(id: int, extendable: int, exponent: int, number: int, value: Optional[bytes], key: Optional[bytes]) -> Said:
    return [str(number), f"--id={id}", *numbers(extendable, exponent), *compare.options(text(key))], value or b""


def judge(lines: Optional[bytes], line: Optional[bytes]) -> Optional[Said]:
    return None if text(line).endswith("\n") else ([(line or b"").hex()], lines or b"")


def reissue(plan: Optional[bytes], names: Optional[bytes], lines: Optional[bytes]) -> Said:
    return [text(plan), text(names)], lines or b""


def resplit(plan: Optional[bytes], lines: Optional[bytes], drawn: Optional[bytes]) -> Said:
    return [text(plan), f"--random={(drawn or b'').hex()}"], lines or b""


def create_from_encrypted(plan: Optional[bytes], id: int, extendable: int, exponent: int, value: Optional[bytes], drawn: Optional[bytes]) -> Said:
    return [text(plan), f"--id={id}", *numbers(extendable, exponent), f"--random={(drawn or b'').hex()}"], value or b""


def words(letters: Optional[bytes]) -> Said:
    return [text(letters)], b""


SAID: Dict[str, Callable[..., Optional[Said]]] = {
    "parse": one_line, "repair": one_line, "random_needed": random_needed, "create": create, "recover": recover, "encrypted": of_lines, "decrypt": decrypt,
    "decrypt_round": decrypt_round, "drill": drill, "status": of_lines, "judge": judge, "quorums": of_lines, "reissue": reissue, "resplit": resplit,
    "create_from_encrypted": create_from_encrypted, "fingerprint": of_lines, "words": words,
}  # fmt: skip
# The place of the flag among the arguments.
FLAGS = {"create": 4, "decrypt": 1, "decrypt_round": 1, "create_from_encrypted": 2}


def answer(it: worked.Example) -> Tuple[str, str, int]:
    """Returns what a command that makes the call prints: its output, its errors and its status."""
    if it.answer.code:
        line = it.answer.line or int(it.call in ("parse", "repair"))
        return "", plain.Refusal(it.answer.code, it.answer.told, line).message(), 1
    fields = dict(zip(plain.FIELDS, it.fields))
    told = {
        "parse": lambda: plain.shown(fields | {"value": it.output}),
        "judge": lambda: f"{'again' if it.fields[8] else 'new'} {plain.fields_of(fields)}\n{text(it.output)}",
        "encrypted": lambda: plain.kept(fields, it.output),
        "fingerprint": lambda: text(it.output) + "\n",
    }
    told |= dict.fromkeys(["recover", "decrypt", "decrypt_round"], lambda: it.output.hex() + "\n")
    told |= dict.fromkeys(["random_needed", "quorums"], lambda: f"{it.answer.first}\n")
    return told.get(it.call, lambda: text(it.output))(), "", 0


def is_cut(it: worked.Example) -> bool:
    """Returns whether the room ends a listing before its limit."""
    return it.call == "drill" and b"more after" in it.output and it.output.count(b"\n") <= it.arguments[4]


def case_of(it: worked.Example) -> Optional[Any]:
    """Returns an example as a case, or nothing if a language can't say it."""
    if it.call not in SAID or it.answer.code == worked.TOO_SHORT or is_cut(it) or it.call in FLAGS and it.arguments[FLAGS[it.call]] > 1:
        return None
    said = SAID[it.call](*it.arguments)
    return said and compare.Case([{"parse": "show"}.get(it.call, it.call), *said[0]], said[1], answer(it))


def cases() -> List[Any]:
    """Returns each example that a language can say, once."""
    every = {(it.call, repr(it.arguments)): it for it in worked.examples()}
    return [case for it in every.values() if (case := case_of(it))]


def compare_with(*readers: generated_cases.Reader) -> int:
    """Compares readers on the cases. Returns how many they take. At the first difference, the tool prints it and exits."""
    count, told = generated_cases.differences(list(enumerate(cases())), readers)
    if told:
        sys.exit(told)
    return int(count)
