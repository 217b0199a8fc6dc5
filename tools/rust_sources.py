"""Checks the sources of bindings/rust without Cargo, for tools/rust."""
import re
import sys

import shamir_h
from tool import ROOT

CRATE = ROOT / "bindings" / "rust"
FOREIGN = "ffi.rs"
# What stands for a type of C in the declarations.
TYPES = {
    "const char *": "*const c_char", "char *": "*mut c_char", "const uint8_t *": "*const u8", "uint8_t *": "*mut u8", "size_t": "usize",
    "uint8_t": "u8", "uint32_t": "u32", "void *": "*mut u8", "shamir_share *": "*mut Fields", "const shamir_answer *": "*const Answer",
    "shamir_parameters *": "*mut Parameters", "const shamir_parameters *": "*const Parameters", "shamir_judgement *": "*mut Judged",
}
FIELDS = {"uint8_t": "u8", "uint16_t": "u16", "uint32_t": "u32", "uint64_t": "u64", "shamir_share": "Fields"}
STRUCTS = {"shamir_answer": "Answer", "shamir_share": "Fields", "shamir_parameters": "Parameters", "shamir_judgement": "Judged"}
# The crate has no use for these numbers of the header.
UNUSED = {"NAMES_BYTES_MAX", "MNEMONIC_BYTES_MAX", "MNEMONICS_MAX", "GROUPS_MAX", "LINE_BYTES_MAX", "FINGERPRINT_BYTES_MAX"}
UNUSED |= {"LISTING_BYTES_ENOUGH", "STACK_BYTES", "VERSION_NUMBER"}


def sources():
    """Returns the text of each source of the crate, by its name."""
    return {path.name: path.read_text() for path in sorted((CRATE / "src").glob("*.rs"))}


def in_line(text):
    return " ".join(text.split())


def check_declarations(foreign):
    """Checks that the crate declares the calls and structs of the header."""
    declared = {}
    for name, given, result in re.findall(r"^    fn (shamir_\w+)\(([^)]*)\)( -> Answer)?;$", foreign, re.MULTILINE):
        declared[name] = [in_line(one) for one in given.strip().rstrip(",").split(",")] + [result]
    wanted = {call: [f"{it.name}: {TYPES[it.kind]}" for it in given] for call, given in shamir_h.parameters().items()}
    for call, (result, _, _) in shamir_h.calls().items():
        wanted[call].append(" -> Answer" if result == "shamir_answer" else "")
    if not wanted or declared != wanted:
        sys.exit(f"bindings/rust and include/shamir.h declare these calls differently, or one of them doesn't: {difference(declared, wanted)}")
    for struct, given in shamir_h.structs().items():
        ours = re.search(rf"^#\[repr\(C\)\]\n.*\npub\(crate\) struct {STRUCTS[struct]} \{{\n(.*?)^\}}", foreign, re.MULTILINE | re.DOTALL)[1]
        if re.findall(r"^    pub\(crate\) (\w+): (\w+),$", ours, re.MULTILINE) != [(it.name, FIELDS[it.kind]) for it in given]:
            sys.exit(f"bindings/rust has other fields for {struct}")


def difference(ours, wanted):
    """Returns the names under which two dicts have different values."""
    return [name for name in ours.keys() | wanted.keys() if ours.get(name) != wanted.get(name)]


def check_unsafe(texts):
    """Checks that unsafe code stands in one module, and that each block rests on a sentence of the header."""
    header = in_line(re.sub(r"^ \*/?", "", shamir_h.TEXT, flags=re.MULTILINE))
    for name, text in texts.items():
        code = re.sub(r"//.*", "", text)
        if name != FOREIGN and re.search(r"\bunsafe\b|unsafe_code", code):
            sys.exit(f"bindings/rust/src/{name} has unsafe code")
    lines = texts[FOREIGN].splitlines()
    for number, line in enumerate(lines):
        if not re.search(r"\bunsafe \{", line):
            continue
        said = re.fullmatch(r' *// SAFETY: (.*)', lines[number - 1])
        if said is None:
            sys.exit(f"bindings/rust/src/{FOREIGN}:{number + 1}: the unsafe block doesn't say why it is right")
        quoted = re.fullmatch(r'"(.*)"', said[1])
        if quoted is None or quoted[1] not in header:
            sys.exit(f"bindings/rust/src/{FOREIGN}:{number + 1}: include/shamir.h doesn't say {said[1]}")


def check_numbers(texts):
    """Checks the numbers that the crate shares with the header."""
    crate = "".join(texts.values())
    found = {name: int(number) for name, number in re.findall(r"^(?:pub |pub\(crate\) )?const (\w+): \w+ = (\d+);$", crate, re.MULTILINE)}
    wrong = [name for name, number in shamir_h.NUMBERS.items() if name not in UNUSED and found.get(name) != number]
    if wrong:
        sys.exit(f"bindings/rust lacks {' and '.join(wrong)} of include/shamir.h, or has another number")


ITEM = re.compile(r"^ *pub (?:const |unsafe )*(?:fn|struct|enum|trait|type|const|static|macro) (\w+)")


def check_examples(texts):
    """Checks that each public item has an example in its doc comment."""
    count = 0
    for name, text in texts.items():
        comment = []
        for line in text.splitlines():
            stripped = line.strip()
            if stripped.startswith("///"):
                comment.append(stripped)
                continue
            if ITEM.match(line):
                count += 1
                if not any("```" in said for said in comment):
                    sys.exit(f"bindings/rust/src/{name}: {ITEM.match(line)[1]} has no example")
            if not stripped.startswith("#["):
                comment = []
    return count


def check_sources():
    """Checks the sources without Cargo, and returns how many public items they have."""
    texts = sources()
    check_declarations(texts[FOREIGN])
    check_unsafe(texts)
    check_numbers(texts)
    return check_examples(texts)
