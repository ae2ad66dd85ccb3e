"""What the calls raise."""
from __future__ import annotations

from typing import Tuple, Union

Step = Union[str, int, bool]


class TeraError(Exception):
    """What a call answers where it does not do what it is for."""


class BadLine(TeraError):
    """A line says no call, and nothing has changed. Its text is the report of the line, which calls it line 1 and ends in a
    line feed."""

    def __init__(self, report: str) -> None:
        super().__init__(report)
        self.report = report


class Refused(TeraError):
    """A call refuses what it was given, and nothing has changed. Its text is that of the refusal."""


class NoReply(TeraError, MemoryError):
    """The line was run, and no memory was found for its reply: what it was to change may have changed."""


class NotAName(TeraError, ValueError):
    """A name that is set, or that a call takes, is an ASCII letter or `_`, and then letters, digits and `_`."""


class Unfit(TeraError):
    """What is no value of the library. `steps` are the keys and places that lead to it, in what was given."""

    def __init__(self, why: str) -> None:
        super().__init__(why)
        self.steps: Tuple[Step, ...] = ()

    def inside(self, step: Step) -> None:
        """Notes that it stands at this key or place."""
        self.steps = (step, *self.steps)

    def __str__(self) -> str:
        where = "".join(f"[{step!r}]" for step in self.steps)
        return f"at {where}: {self.args[0]}" if where else str(self.args[0])


class NotAValue(Unfit, TypeError):
    """Its type is none that a value has, as that of a float."""


class NotAKey(Unfit, TypeError):
    """A key is no `str`, `int` or `bool`."""


class OutOfRange(Unfit, OverflowError):
    """An integer is below -2**127 or above 2**128 - 1; or a bound of a slice is above 2**127 - 1."""


class LoneSurrogate(Unfit, ValueError):
    """A text has a surrogate, which no UTF-8 has."""


class HoldsItself(Unfit, ValueError):
    """A list or a dict holds itself."""


class TooDeep(Unfit, ValueError):
    """More than 64 lists and dicts stand one inside another."""
