"""Answers. Each has its `verdict`, its exit `status` as the command line has it, and as `str` the line there."""

from __future__ import annotations

from dataclasses import dataclass
from typing import ClassVar, Dict, Optional, Tuple, Union

#: Why tables are refused: the names of the C header and a sentence for each.
REFUSALS: Dict[int, Tuple[str, str]] = {
    1: ("SHORT", "the table has fewer than 8 bytes"),
    2: ("VERSION", "the version is not 1, 2 or 3, or byte 7 isn't 0"),
    3: ("LIMITS", "there are more than 32 agents or more than 128 rows"),
    4: ("LENGTH", "the table hasn't as many bytes as its header says"),
    5: ("CODE", "a code of the row is out of range"),
    6: ("KIND_FIT", "the row has fields that its kind may not have"),
    7: ("EXTENT", "the row has a length or a start that its access may not have"),
    8: ("CLASS", "the row's reference has another class in an earlier row"),
    9: ("SOURCE", "the row's source is no row that it can have read, or a blank where none may be"),
    10: ("RANK", "the row has the rank of an earlier writer that is mutually-ordered with it"),
    11: ("BUFFER", "a lent buffer is shorter than the call needs"),
    12: ("MOMENTS", "these aren't two different moments of the table"),
    13: ("ROOM", "the buffer is shorter than the table that is to be written"),
    14: ("INSTANCE", "the control barrier doesn't fit the other rows of its instance"),
    15: ("RUN", "the row's rank is too far from those of its location for a counter of 16 bits"),
    16: ("AGENT_KIND", "an agent is no shader, host or queue agent, or isn't one of this version"),
    17: ("DEPENDENCIES", "there are more dependencies than there may be"),
    18: ("DEPENDENCY", "a dependency names a row that isn't there"),
    19: ("AGENT_ROW", "the row's agent may not have a row of this kind"),
    20: ("OPERATION_FIT", "a queue agent's row has a field that it may not have"),
    40: ("ROWS", "the second piece isn't whole rows of 16 bytes"),
}


@dataclass(frozen=True)
class Refused:
    """A rule of form that is broken, and the row that breaks it, 0 where it is no row's."""

    number: int
    row: int

    verdict: ClassVar[str] = "refused"
    status: ClassVar[int] = 3

    @property
    def name(self) -> str:
        """As in `enum stramashly_refusal`, without the prefix."""
        return REFUSALS[self.number][0]

    @property
    def sentence(self) -> str:
        return REFUSALS[self.number][1]

    def __str__(self) -> str:
        return f"refused {self.number} {self.row}"


class Refusal(Exception):
    """Raised by what gives values and has no answer for a refused table; `refused` is the refusal."""

    refused: Refused

    def __init__(self, refused: Refused) -> None:
        super().__init__(f"{refused}: {refused.sentence}")
        self.refused = refused


@dataclass(frozen=True)
class RaceFree:
    verdict: ClassVar[str] = "race-free"
    status: ClassVar[int] = 0

    def __str__(self) -> str:
        return self.verdict


@dataclass(frozen=True)
class Race:
    """The first pair of rows that races, and its lowest byte without order."""

    first: int
    second: int
    byte: int

    verdict: ClassVar[str] = "race"
    status: ClassVar[int] = 1

    def __str__(self) -> str:
        return f"race {self.first} {self.second} {self.byte}"


@dataclass(frozen=True)
class Overwritten:
    """The run is impossible: the writer wrote over what the reader read, before it read."""

    reader: int
    writer: int
    byte: int

    verdict: ClassVar[str] = "overwritten"
    status: ClassVar[int] = 2

    def __str__(self) -> str:
        return f"overwritten {self.reader} {self.writer} {self.byte}"


@dataclass(frozen=True)
class Cycle:
    """The run is impossible: each row comes before the next, and the last before the first."""

    rows: Tuple[int, ...]
    edges: Tuple[int, ...]

    verdict: ClassVar[str] = "cycle"
    status: ClassVar[int] = 2

    def __str__(self) -> str:
        return " ".join(map(str, ["cycle", len(self.rows), "rows", *self.rows, "edges", *self.edges]))


@dataclass(frozen=True)
class Filled:
    """A source for each row."""

    sources: Tuple[int, ...]

    verdict: ClassVar[str] = "filled"
    status: ClassVar[int] = 0

    def __str__(self) -> str:
        return " ".join(map(str, ["filled", *self.sources]))


@dataclass(frozen=True)
class NoFilling:
    """No sources make the run possible."""

    verdict: ClassVar[str] = "none"
    status: ClassVar[int] = 2

    def __str__(self) -> str:
        return self.verdict


@dataclass(frozen=True)
class Report:
    """Conflicting pairs of rows and what became of them. `share` is None where no pair conflicts."""

    conflicting: int
    mutual: int
    ordered: int
    racing: int
    share: Optional[float]

    verdict: ClassVar[str] = "report"

    @property
    def status(self) -> int:
        return 1 if self.racing else 0

    def __str__(self) -> str:
        share = "no-share" if self.share is None else repr(self.share)
        return f"report {self.conflicting} {self.mutual} {self.ordered} {self.racing} {share}"


@dataclass(frozen=True)
class ProgramOrder:
    """Program order is the reason."""

    verdict: ClassVar[str] = "program-order"
    status: ClassVar[int] = 0

    def __str__(self) -> str:
        return self.verdict


@dataclass(frozen=True)
class Chain:
    """A chain of steps for one class set is the reason; a step is 512 times its case plus the moment reached."""

    classes: int
    steps: Tuple[int, ...]

    verdict: ClassVar[str] = "chain"
    status: ClassVar[int] = 0

    def __str__(self) -> str:
        return " ".join(map(str, ["chain", int(self.classes), *self.steps]))


@dataclass(frozen=True)
class NotBefore:
    verdict: ClassVar[str] = "not-before"
    status: ClassVar[int] = 1

    def __str__(self) -> str:
        return self.verdict


@dataclass(frozen=True)
class Accepted:
    verdict: ClassVar[str] = "accepted"
    status: ClassVar[int] = 0

    def __str__(self) -> str:
        return self.verdict


@dataclass(frozen=True)
class NotAccepted:
    verdict: ClassVar[str] = "not-accepted"
    status: ClassVar[int] = 1

    def __str__(self) -> str:
        return self.verdict


CheckAnswer = Union[RaceFree, Race, Overwritten, Cycle, Refused]
FillAnswer = Union[Filled, Race, NoFilling, Refused]
ReportAnswer = Union[Report, Overwritten, Cycle, Refused]
Derivation = Union[ProgramOrder, Chain]
DeriveAnswer = Union[ProgramOrder, Chain, NotBefore, Refused]
AcceptsAnswer = Union[Accepted, NotAccepted, Refused]
