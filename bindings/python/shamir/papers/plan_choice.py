"""The question for the plan of new papers, until the library takes it and the owner means it."""
from __future__ import annotations

import re
from typing import Optional

import shamir
from shamir.papers.plan import Plan, plain_plan, plan_of, said_dangers, said_plan
from shamir.papers.refusals import said_refusal
from shamir.papers.screen import Back, Screen
from shamir.papers.texts import say

PROPOSALS = {"1": ("two", "2of3"), "2": ("three", "3of5"), "3": ("home", "2/2of3,1of1,1of1")}
GROUPS = re.compile(r"\d+of\d+(,\d+of\d+)+")


def _fault_of(text: str) -> str:
    """Returns why the library refuses a plan, in words, or nothing."""
    try:
        shamir.random_needed(text, 16)
        return ""
    except shamir.Refusal as refusal:
        # In a plan of groups, what comes before them is easily forgotten.
        whole = f"{text.count(',') + 1}/{text}"
        hint = say("new.plan.groups", plan=whole) if GROUPS.fullmatch(text) and not _fault_of(whole) else ""
        return " ".join(filter(None, [said_refusal(refusal), hint]))


def ask_plan(screen: Screen, title: str, told: str = "", given: Optional[str] = None) -> Plan:
    """Asks for a plan that the library takes, and that the owner means. `told` is said before that, and `given` is the plan that the
    command named, if it did. The owner may go back."""
    while True:
        fault = _fault_of(given) if given is not None else ""
        plan = plan_of(given) if given is not None and not fault else _choose_plan(screen, title, f"{given}: {fault}" if fault else "", told)
        given = None
        try:
            _ask_dangers(screen, plan)
            return plan
        except Back:
            continue


def _ask_dangers(screen: Screen, plan: Plan) -> None:
    """Asks whether a plan is meant if one paper of it is the whole secret, or if the loss of one is the loss of the secret."""
    dangers = said_dangers(plan)
    if not dangers:
        return
    screen.clear(say("plan.sure.title"))
    screen.tell(said_plan(plan))
    screen.tell(dangers, "bad")
    screen.tell(say("plan.sure"))
    screen.choose(say("new.plan.sure"), {"u": None}, has_back=True)


def _choose_plan(screen: Screen, title: str, fault: str, told: str) -> Plan:
    """Asks for a plan that the library takes. `fault` says what is wrong with the one that the command named."""
    screen.clear(title)
    if fault:
        screen.tell(fault, "bad")
    if told:
        screen.tell(told)
    screen.tell(say("plan.what"))
    for number, (key, text) in PROPOSALS.items():
        screen.item(f"{say(f'plan.{key}')} ({text}). {say(f'plan.{key}.hint')}", f"{number}  ")
    screen.gap()
    screen.tell(say("new.plan.other"))
    if not fault and not told:
        screen.tell(say("names.sentence"))
    while True:
        typed = screen.ask(say("new.plan.choose"), has_back=True).strip()
        text = PROPOSALS[typed][1] if typed in PROPOSALS else plain_plan(typed)
        fault = _fault_of(text)
        if not fault:
            return plan_of(text)
        screen.fault(fault)
