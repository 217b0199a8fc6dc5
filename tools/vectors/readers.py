"""Asks other readers and writers what they answer: the library through its Python binding, the program, and Electrum."""
import json
import re
import subprocess

from case import FIELDS, refused
from left_out import python_with
from running import answer, file_with
from tool import ran

NUMBERS = ["identifier", "extendable", "exponent", "group", "group-threshold", "group-count", "member", "member-threshold"]
SHOWN = re.compile("".join(rf"{name} (\d+) " for name in NUMBERS) + r"value ([0-9a-f]+)\n")
READER = """
import json, sys
from electrum import ELECTRUM_VERSION, slip39

def parsed(given):
    share = slip39.decode_mnemonic(given["mnemonic"])
    names = ["identifier", "group_index", "group_threshold", "group_count", "member_index", "member_threshold"]
    fields = {name: getattr(share, name) for name in names}
    return {"share": fields | {"extendable": False, "exponent": share.iteration_exponent, "value": share.share_value.hex()}}

def recovered(given):
    sealed = slip39.recover_ems(given["mnemonics"])
    if sealed.iteration_exponent > 3:
        return {"exponent": sealed.iteration_exponent}
    return {"secret": sealed.decrypt(given["passphrase"]).hex()}

def combined(given):
    return {"encrypted": slip39.recover_ems(given["mnemonics"]).encrypted_master_secret.hex()}

def answer(asks, given):
    try:
        return {"parse": parsed, "recover": recovered, "combine": combined}[asks](given)
    except slip39.Slip39Error as error:
        return {"refused": str(error)}
    except Exception as error:
        return {"failed": type(error).__name__}

json.dump([ELECTRUM_VERSION, [answer(*case) for case in json.load(sys.stdin)]], sys.stdout)
"""


def library(shamir, case):
    """Returns what the library answers, by a call of its Python binding."""
    given = case.given
    try:
        if case.asks == "parse":
            share = shamir.parse(given["mnemonic"])
            return {"share": {name: getattr(share, {"identifier": "id"}.get(name, name)) for name in FIELDS} | {"value": share.value.hex()}}
        if case.asks == "recover":
            return {"secret": shamir.recover(given["mnemonics"], passphrase=given["passphrase"]).hex()}
        if case.asks == "quorums":
            return {"quorums": [of_outcome(shamir, outcome) for outcome in shamir.drill(given["mnemonics"], passphrase=given["passphrase"])]}
        if case.asks == "encrypted":
            found = shamir.encrypted(given["mnemonics"])
            numbers = {"identifier": found.id, "extendable": found.extendable, "exponent": found.exponent}
            return {"encrypted": numbers | {"value": found.value.hex()}}
        if case.asks in ("decrypt", "decrypt_round", "create_from_encrypted"):
            kept = shamir.EncryptedSecret(given["identifier"], given["extendable"], given["exponent"], bytes.fromhex(given["value"]))
            if case.asks == "decrypt":
                return {"secret": shamir.decrypt(kept, passphrase=given["passphrase"]).hex()}
            if case.asks == "decrypt_round":
                return {"undone": shamir.decrypt_round(kept, given["round"], passphrase=given["passphrase"]).hex()}
            return {"mnemonics": shamir.create_from_encrypted(given["plan"], kept, random=bytes.fromhex(given["random"]))}
        if case.asks == "resplit":
            return {"mnemonics": shamir.resplit(given["plan"], given["mnemonics"], random=bytes.fromhex(given["random"]))}
        options = {name: given[name] for name in ("passphrase", "exponent", "extendable")}
        return {"mnemonics": shamir.create(given["plan"], bytes.fromhex(given["secret"]), random=bytes.fromhex(given["random"]), **options)}
    except shamir.Refusal as refusal:
        return refused(refusal)


def of_outcome(shamir, outcome):
    if outcome.mismatch is None:
        return {"names": outcome.names, "secret": outcome.secret.hex()}
    return {"names": outcome.names, "mismatch": "groups" if outcome.mismatch == shamir.OF_GROUPS else f"group {outcome.mismatch}"}


def words_and_input(case, random):
    """Returns the words of the command that asks the program for a case, and its input. `random` is the name of a file with random bytes."""
    given = case.given
    lines = "".join(line + "\n" for line in given.get("mnemonics", [])).encode()
    passphrase = [f"--passphrase={given['passphrase']}"] if given.get("passphrase") else []
    if case.asks == "parse":
        return ["show"], given["mnemonic"].encode()
    if case.asks == "resplit":
        return ["resplit", given["plan"], "--random-file", random], lines
    if case.asks == "create":
        words = ["create", given["plan"], f"--master-secret={given['secret']}", *passphrase, "--exponent", str(given["exponent"])]
        return [*words, *["--extendable"][: given["extendable"]]], bytes.fromhex(given["random"])
    return [{"recover": "recover", "quorums": "drill"}[case.asks], *passphrase], lines


def has_command(case):
    """Returns whether the program can be asked for a case. An empty mnemonic is no line of an input."""
    return case.asks not in ("encrypted", "decrypt", "decrypt_round", "create_from_encrypted") and (case.asks != "parse" or bool(case.given["mnemonic"]))


def of_program(program, case):
    """Returns what the program that these words run answers, or None if it can't be asked."""
    if not has_command(case):
        return None
    with file_with(bytes.fromhex(case.given.get("random", ""))) as random:
        words, data = words_and_input(case, random)
        output, errors, _ = answer([*program, *words], data)
    told = re.fullmatch(r"shamir: (?:line (\d+): )?(\d+) (.*)\n", errors)
    if told:
        line = {} if told[1] is None or case.asks == "parse" else {"line": int(told[1])}
        return {"refused": {"code": int(told[2])} | line | {"text": told[3]}}
    return {"failed": errors} if errors else PRINTED[case.asks](output)


def of_show(output):
    found = SHOWN.fullmatch(output)
    if found is None:
        return {"failed": output}
    *numbers, value = found.groups()
    fields = dict(zip(FIELDS, map(int, numbers)))
    return {"share": fields | {"extendable": bool(fields["extendable"]), "value": value}}


def of_drill(output):
    *lines, last = output.splitlines()
    if last != "end":
        return {"failed": last}
    found = []
    for line in lines:
        names, _, told = line.partition(" ")
        mismatch = re.fullmatch(r"digest mismatch (?:in|of) (.*)", told)
        found.append({"names": names} | ({"mismatch": mismatch[1]} if mismatch else {"secret": told}))
    return {"quorums": found}


PRINTED = {
    "parse": of_show,
    "recover": lambda output: {"secret": output.strip()},
    "quorums": of_drill,
    "create": lambda output: {"mnemonics": output.splitlines()},
    "resplit": lambda output: {"mnemonics": output.splitlines()},
}


def of_electrum(cases):
    """Returns the version of Electrum and its answers to cases, each what it asks and what is given. Returns None if it isn't here."""
    python = python_with("electrum.slip39")
    if python is None:
        return None
    return json.loads(ran([python, "-c", READER], stdin=None, input=json.dumps(cases), stderr=subprocess.PIPE))
