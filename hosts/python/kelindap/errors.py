"""The exception of what the library refuses."""

from __future__ import annotations

from typing import Optional

from .names import Outcome, Rule


class Refused(ValueError):
    """The library refused, and nothing has changed.

    `outcome` is its number, whose words begin the message; `field` is the argument that was wrong, where it was one, and `detail` says
    what was wrong with it; `rule` is the rule that a sheet breaks.
    """

    outcome: Outcome
    field: Optional[str]
    detail: Optional[str]
    rule: Optional[Rule]

    def __init__(self, outcome: int, field: Optional[str] = None, detail: Optional[str] = None, rule: Optional[Rule] = None) -> None:
        """A refusal by its number."""
        super().__init__(outcome, field, detail, rule)
        self.outcome, self.field, self.detail, self.rule = Outcome(outcome), field, detail, rule

    def __str__(self) -> str:
        """Words, number, and what was wrong: "no PDU that can be written (13): property_read n=16: 0 to 15"."""
        told = f"{self.outcome.words} ({self.outcome})"
        return f"{told}: {self.detail}" if self.detail else told


def refuse_sheet(rule: Rule) -> Refused:
    """The refusal of a sheet that gets this rule from the check."""
    if rule is Rule.OLD:
        return Refused(Outcome.OLD_SHEET, "sheet", rule=rule)
    return Refused(Outcome.BAD_SHEET, "sheet", f"S{rule}, {rule.words}", rule)


def must(outcome: int, field: Optional[str] = None, detail: Optional[str] = None) -> None:
    """Raises Refused unless it was carried out."""
    if not Outcome(outcome).carried_out:
        raise Refused(outcome, field, detail)
