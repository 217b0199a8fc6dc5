"""A case, what is right for it by a reading of the standard, and when a reader's answer is another one."""
from dataclasses import dataclass
from typing import Optional

FIELDS = {
    "identifier": "id", "extendable": "extendable", "exponent": "exponent", "group_index": "group", "group_threshold": "group_threshold",
    "group_count": "group_count", "member_index": "member", "member_threshold": "member_threshold",
}


@dataclass(frozen=True)
class Case:
    """What is asked, in words and as a reader gets it; the mistake that the case finds; and the section of the standard whose
    rule decides, or None if a rule of this repository does.
    """

    id: str
    asks: str
    about: str
    finds: str
    standard: Optional[str]
    given: dict


def parsed(reader, given):
    share = reader.parse(given["mnemonic"].encode())
    fields = {name: share[short] for name, short in FIELDS.items()}
    return {"share": fields | {"extendable": bool(share["extendable"]), "value": share["value"].hex()}}


def set_of(reader, given):
    reader.check_passphrase(given["passphrase"].encode())
    return reader.set_of("\n".join(given["mnemonics"]).encode())


def recovered(reader, given):
    backup = set_of(reader, given)
    first = reader.quorums(backup)[0]
    return {"secret": reader.outcome(backup, first, given["passphrase"].encode()).hex()}


def drilled(reader, given):
    backup, found = set_of(reader, given), []
    for quorum in reader.quorums(backup):
        try:
            told = {"secret": reader.outcome(backup, quorum, given["passphrase"].encode()).hex()}
        except reader.Refusal as refused:
            told = {"mismatch": refused.text.removeprefix("digest mismatch in ").removeprefix("digest mismatch of ")}
        found.append({"names": reader.written(quorum)} | told)
    return {"quorums": found}


def combined(reader, given):
    backup = reader.set_of("\n".join(given["mnemonics"]).encode())
    first = reader.quorums(backup)[0]
    share, value = backup[first[0]], reader.combined(backup, first)
    return {"encrypted": {"identifier": share["id"], "extendable": bool(share["extendable"]), "exponent": share["exponent"], "value": value.hex()}}


def parameters(given):
    return {"id": given["identifier"], "extendable": given["extendable"], "exponent": given["exponent"]}


def decrypted(reader, given):
    reader.check_passphrase(given["passphrase"].encode())
    return {"secret": reader.decrypt(bytes.fromhex(given["value"]), given["passphrase"].encode(), parameters(given)).hex()}


def round_undone(reader, given):
    params, value = parameters(given), bytes.fromhex(given["value"])
    reader.check_params(params)
    reader.check_round(given["round"])
    reader.check_passphrase(given["passphrase"].encode())
    reader.check_secret(value)
    return {"undone": reader.decrypt_round(value, given["round"], given["passphrase"].encode(), params).hex()}


def created_from_encrypted(reader, given):
    plan, value, random = reader.parse_plan(given["plan"]), bytes.fromhex(given["value"]), bytes.fromhex(given["random"])
    return {"mnemonics": [reader.mnemonic(share) for share in reader.split_encrypted(plan, parameters(given), value, random)]}


def created(reader, given):
    plan = reader.parse_plan(given["plan"])
    secret, random = bytes.fromhex(given["secret"]), bytes.fromhex(given["random"])
    shares = reader.create(plan, secret, given["passphrase"].encode(), given["exponent"], given["extendable"], random)
    return {"mnemonics": [reader.mnemonic(share) for share in shares]}


def split_anew(reader, given):
    plan, data = reader.parse_plan(given["plan"]), "\n".join(given["mnemonics"]).encode()
    return {"mnemonics": [reader.mnemonic(share) for share in reader.resplit(plan, data, bytes.fromhex(given["random"]))]}


ASKED = {
    "parse": parsed, "recover": recovered, "quorums": drilled, "create": created, "resplit": split_anew, "encrypted": combined, "decrypt": decrypted,
    "create_from_encrypted": created_from_encrypted, "decrypt_round": round_undone,
}


def refused(refusal):
    line = {"line": refusal.line} if refusal.line else {}
    return {"refused": {"code": int(refusal.code)} | line | {"text": refusal.text}}


def answer(reader, case):
    """Returns what a reading of the standard answers: the module `plain`, or a changed copy of it."""
    try:
        return ASKED[case.asks](reader, case.given)
    except reader.Refusal as refusal:
        return refused(refusal)


def wrong_answer(reader, case):
    """Returns the answer of a changed copy. If the copy fails in another way than by a refusal, that is its answer."""
    try:
        return answer(reader, case)
    except Exception as failure:
        return {"failed": type(failure).__name__}


def compared(right):
    """Returns an answer without the reasons why something is refused. Readers needn't agree on these."""
    if "refused" in right:
        return "refused"
    if "quorums" in right:
        return [quorum | ({"mismatch": ""} if "mismatch" in quorum else {}) for quorum in right["quorums"]]
    return right


def differs(found, right):
    return compared(found) != compared(right)
