"""Which cause a check of a journal has: its decision, and what of the laws gave its pause."""
from __future__ import annotations

from journals.events import Decision
from journals.reasons import Reason
from laws.decision import Rule
from laws.sentences import DOMAINS, STRICT_FREE, Asked
from laws.strict import Held, strict_position

from .causes import NOT_TOLD, Cause

NO_RATE = "{why}: its rate is 0, so the longest pause"
AT_HARD = "{domain} is at its hard limit or above"
AT_OWN = "its context is at its own threshold or above"
NO_MIDDLE = "its context's own freerun is 0, or its own threshold"
TOO_SLOW = "the rate limit times the position ratio is less than a page a second"
ASKED = "what its rate asks for{whose} is {rule}"

BY_RATE = (Rule.WANTED, Rule.CUT, Rule.PAID)
"""Rules that compare what a writer's rate asks for with the least and the longest pause."""


def cause_of(decision: Decision, reason: Reason) -> Cause:
    """The cause, as far as the journal tells it."""
    verdict, asked = reason.verdict, reason.asked
    if verdict is None:
        return Cause(decision.value, NOT_TOLD)
    if verdict.rule is Rule.RATE_IS_ZERO:
        return Cause(decision.value, NO_RATE.format(why=why_no_rate(asked)))
    if verdict.rule in BY_RATE:
        whose = f" by {slower(asked, [it.ratio for it in verdict.positions])}" if len(asked.reads) > 1 else ""
        return Cause(decision.value, ASKED.format(whose=whose, rule=verdict.rule.value))
    is_by_own = asked.is_strict and decision is Decision.FREE
    return Cause(decision.value, STRICT_FREE if is_by_own else verdict.rule.value)


def slower(asked: Asked, ratios: list[int]) -> str:
    """The domain with the smaller ratio, which is the one that holds the writer."""
    ratios = [strict_position(read, asked.context_dirty).ratio for read in asked.reads] if asked.is_strict else ratios
    return DOMAINS[ratios.index(min(ratios))]


def why_no_rate(asked: Asked) -> str:
    """Which domain leaves no rate, or which rule of strict devices."""
    for name, read in zip(DOMAINS, asked.reads):
        if read.dirty >= read.limits.hard:
            return AT_HARD.format(domain=name)
    if asked.is_strict:
        found = {strict_position(read, asked.context_dirty).held for read in asked.reads}
        if Held.AT_OWN in found:
            return AT_OWN
        if Held.NO_MIDDLE in found:
            return NO_MIDDLE
    return TOO_SLOW
