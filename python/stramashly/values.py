"""What tables are made of: the numbers of FORMAT.md by name."""

from __future__ import annotations

import enum
import struct
from dataclasses import dataclass, field
from typing import ClassVar, List, NamedTuple, Tuple

#: Source of a row that doesn't read, and of one that read the initial value.
INITIAL: int = 65535
#: Source of a plain read that a fill is to decide.
BLANK: int = 65534
#: Most rows, agents and dependencies of a table, and bytes of a row and of a table.
MAX_ROWS: int = 128
MAX_AGENTS: int = 32
MAX_DEPENDENCIES: int = 64
ROW_BYTES: int = 16
MAX_TABLE_BYTES: int = 2570


class Kind(enum.IntEnum):
    """What a row does; from AVAILABILITY_TO_HOST on of queue agents in version 3."""

    PLAIN_READ = 0
    PLAIN_WRITE = 1
    ATOMIC_READ = 2
    ATOMIC_WRITE = 3
    READ_MODIFY_WRITE = 4
    BARRIER = 5
    CONTROL_BARRIER = 6
    AVAILABILITY_TO_HOST = 7
    AVAILABILITY_TO_DEVICE = 8
    VISIBILITY_FROM_HOST = 9
    VISIBILITY_FROM_DEVICE = 10
    DOMAIN_HOST_TO_DEVICE = 11
    DOMAIN_DEVICE_TO_HOST = 12


class Order(enum.IntEnum):
    RELAXED = 0
    ACQUIRE = 1
    RELEASE = 2
    ACQUIRE_RELEASE = 3


class Scope(enum.IntEnum):
    INVOCATION = 0
    SUBGROUP = 1
    WORKGROUP = 2
    QUEUE_FAMILY = 3
    DEVICE = 4


class Class(enum.IntEnum):
    """The class of memory that a row accesses."""

    UNIFORM = 0
    WORKGROUP = 1
    IMAGE = 2
    OUTPUT = 3


class Semantics(enum.IntFlag):
    """The classes that an atomic, a barrier or a derivation is for."""

    NONE = 0
    UNIFORM = 1
    WORKGROUP = 2
    IMAGE = 4
    OUTPUT = 8


class Flags(enum.IntFlag):
    NONE = 0
    NON_PRIVATE = 1
    MAKE_AVAILABLE = 2
    MAKE_VISIBLE = 4


class AgentKind(enum.IntEnum):
    SHADER = 0
    HOST = 1
    QUEUE = 2


class Place(NamedTuple):
    """An agent: where it runs, and what it is; before version 3 all are shaders."""

    family: int = 0
    workgroup: int = 0
    subgroup: int = 0
    kind: int = AgentKind.SHADER


@dataclass(frozen=True)
class Row:
    """A row as numbers. The enumerations here are numbers too; nothing is judged before `write`."""

    kind: int = Kind.PLAIN_READ
    agent: int = 0
    order: int = Order.RELAXED
    scope: int = Scope.INVOCATION
    semantics: int = Semantics.NONE
    flags: int = Flags.NONE
    #: The class accessed; of a control barrier the execution scope.
    class_or_execution: int = Class.UNIFORM
    length: int = 0
    #: The first byte accessed; of a control barrier the instance.
    start: int = 0
    reference: int = 0
    source: int = INITIAL
    rank: int = 0

    _LAYOUT: ClassVar[struct.Struct] = struct.Struct(">8B4H")

    def to_bytes(self) -> bytes:
        """The sixteen bytes; struct.error if a number has no room."""
        return self._LAYOUT.pack(
            self.kind,
            self.agent,
            self.order,
            self.scope,
            self.semantics,
            self.flags,
            self.class_or_execution,
            self.length,
            self.start,
            self.reference,
            self.source,
            self.rank,
        )

    @classmethod
    def from_bytes(cls, data: bytes) -> Row:
        """The row of sixteen bytes, its codes as enumerations where they have a name."""
        kind, agent, order, scope, semantics, flags, class_or_execution, *rest = cls._LAYOUT.unpack(data)
        of_class = Scope if kind == Kind.CONTROL_BARRIER else Class
        return cls(
            _named(Kind, kind),
            agent,
            _named(Order, order),
            _named(Scope, scope),
            Semantics(semantics) if semantics < 16 else semantics,
            Flags(flags) if flags < 8 else flags,
            _named(of_class, class_or_execution),
            *rest,
        )


def _named(names: type, number: int) -> int:
    try:
        return names(number)
    except ValueError:
        return number


@dataclass(frozen=True)
class Table:
    """The values of a table, as `write` takes them and `read` gives them."""

    version: int = 1
    places: List[Place] = field(default_factory=list)
    rows: List[Row] = field(default_factory=list)
    dependencies: List[Tuple[int, int]] = field(default_factory=list)
