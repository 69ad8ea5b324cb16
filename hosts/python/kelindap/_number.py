"""What the enumerations of `names` rest on: a number of the headers, with its words."""

from __future__ import annotations

from enum import IntEnum


class Number(IntEnum):
    """A number of the headers by name. It counts, prints and compares as the number; `words` has it for a person."""

    words: str

    def __new__(cls, number: int, words: str = "") -> Number:
        """A member: its number, and its words."""
        member = int.__new__(cls, number)
        member._value_ = number
        member.words = words
        return member

    # the same in every version of Python

    def __str__(self) -> str:
        """The number."""
        return str(int(self))

    def __format__(self, form: str) -> str:
        """The number, in a form."""
        return format(int(self), form)


class Result(Number):
    """A number that says whether something was done."""

    @property
    def carried_out(self) -> bool:
        """Whether it was done: 0 with an answer, 1 without. Any other number is a refusal, and nothing has changed."""
        return self <= 1
