"""Questions about tables, answered by the proved library."""

from __future__ import annotations

import ctypes
import os
from typing import Any, Iterable, List, NamedTuple, Optional, Sequence, Tuple, Union

from . import library as lib
from .answers import (
    Accepted,
    AcceptsAnswer,
    Chain,
    CheckAnswer,
    Cycle,
    Derivation,
    DeriveAnswer,
    Filled,
    FillAnswer,
    NoFilling,
    NotAccepted,
    NotBefore,
    Overwritten,
    ProgramOrder,
    Race,
    RaceFree,
    Refusal,
    Refused,
    Report,
    ReportAnswer,
)
from .values import MAX_TABLE_BYTES, ROW_BYTES, Place, Row, Semantics, Table

#: What a table may come in.
Buffer = Union[bytes, bytearray, memoryview]


class _Packed(NamedTuple):
    code: int
    a: int
    b: int
    c: int


def _unpacked(answer: int) -> _Packed:
    return _Packed(answer >> 48, answer >> 32 & 0xFFFF, answer >> 16 & 0xFFFF, answer & 0xFFFF)


def _bytes(buffer: Buffer) -> bytes:
    """As the library takes them; `bytes(5)` would be five zeros, so only buffers will do."""
    return buffer if isinstance(buffer, bytes) else bytes(memoryview(buffer))


def _numbers(values: Iterable[int]) -> Any:
    values = list(values)
    if any(not 0 <= value <= 0xFFFF for value in values):
        raise ValueError("a number isn't from 0 to 65535")
    return (ctypes.c_uint16 * len(values))(*values)


def _number(value: int, most: int) -> int:
    if not 0 <= value <= most:
        raise ValueError(f"{value} isn't from 0 to {most}")
    return value


class Checker:
    """Answers questions about tables, in buffers of its own. Threads need one each.

    Every question takes `then`, the second piece of a table: rows of 16 bytes that come after the table's own.
    """

    def __init__(self, chains: bool = False, library: Optional[Union[str, os.PathLike]] = None) -> None:
        """`chains`: whether the device reports vulkanMemoryModelAvailabilityVisibilityChains."""
        self._library = lib.load(library)
        self._chains = int(chains)
        self._work = (ctypes.c_uint64 * lib.WORK_WORDS)()
        self._cycle = (ctypes.c_uint16 * lib.CYCLE_NUMBERS)()
        self._sources = (ctypes.c_uint16 * lib.SOURCE_NUMBERS)()
        self._chain = (ctypes.c_uint16 * lib.CHAIN_NUMBERS)()

    def _call(self, name: str, table: Buffer, then: Optional[Buffer], *arguments: Any) -> _Packed:
        first = _bytes(table)
        if then is None:
            return _unpacked(getattr(self._library, f"stramashly_{name}")(first, len(first), *arguments))
        second = _bytes(then)
        function = getattr(self._library, f"stramashly_{name}2")
        return _unpacked(function(first, len(first), second, len(second), *arguments))

    def _in_work(self, numbers: Any) -> Tuple[Any, ...]:
        return self._work, len(self._work), numbers, len(numbers)

    def check(self, table: Buffer, then: Optional[Buffer] = None) -> CheckAnswer:
        """Whether the run could have happened, and whether it is free of races."""
        packed = self._call("check", table, then, self._chains, *self._in_work(self._cycle))
        return self._judged(packed)

    def _judged(self, packed: _Packed) -> CheckAnswer:
        code, a, b, c = packed
        if code == lib.RACE_FREE:
            return RaceFree()
        if code == lib.RACE:
            return Race(a, b, c)
        if code == lib.OVERWRITTEN:
            return Overwritten(a, b, c)
        if code == lib.CYCLE:
            edges = self._cycle[lib.CYCLE_EDGES : lib.CYCLE_EDGES + a]
            return Cycle(tuple(self._cycle[:a]), tuple(edges))
        return _refused(packed)

    def fill(self, table: Buffer, then: Optional[Buffer] = None) -> FillAnswer:
        """Which write each plain read has read, where the record left that blank."""
        packed = self._call("fill", table, then, self._chains, *self._in_work(self._sources))
        code, a, b, c = packed
        if code == lib.FILLED:
            return Filled(tuple(self._sources[:a]))
        if code == lib.RACE:
            return Race(a, b, c)
        if code == lib.NONE:
            return NoFilling()
        return _refused(packed)

    def report(self, table: Buffer, then: Optional[Buffer] = None) -> ReportAnswer:
        """How many pairs of rows conflict, and what became of them."""
        share = ctypes.c_double()
        packed = self._call("report", table, then, self._chains, *self._in_work(self._cycle), ctypes.byref(share))
        code, a, b, c = packed
        if code == lib.REPORT:
            return Report(a + b + c, a, b, c, share.value)
        if code == lib.NO_PAIRS:
            return Report(0, 0, 0, 0, None)
        if code == lib.OVERWRITTEN:
            return Overwritten(a, b, c)
        if code == lib.CYCLE:
            edges = self._cycle[lib.CYCLE_EDGES : lib.CYCLE_EDGES + a]
            return Cycle(tuple(self._cycle[:a]), tuple(edges))
        return _refused(packed)

    def derive(self, table: Buffer, first: int, second: int, then: Optional[Buffer] = None) -> DeriveAnswer:
        """Why a moment happens before another: moments are 3 * row + 0 before, 1 at, 2 after it."""
        moments = _number(first, 0xFFFF), _number(second, 0xFFFF)
        packed = self._call("derive", table, then, *moments, *self._in_work(self._chain))
        if packed.code == lib.DERIVATION and packed.a == lib.PROGRAM_ORDER:
            return ProgramOrder()
        if packed.code == lib.DERIVATION:
            return Chain(Semantics(packed.a), tuple(self._chain[: packed.b]))
        if packed.code == lib.NOT_BEFORE:
            return NotBefore()
        return _refused(packed)

    def accepts(
        self, table: Buffer, first: int, second: int, derivation: Derivation, then: Optional[Buffer] = None
    ) -> AcceptsAnswer:
        """Whether a derivation, whoever wrote it, leads from the first moment to the second."""
        moments = _number(first, 0xFFFF), _number(second, 0xFFFF)
        if isinstance(derivation, ProgramOrder):
            classes, steps = lib.PROGRAM_ORDER, _numbers([])
        else:
            classes, steps = _number(derivation.classes, 0xFF), _numbers(derivation.steps)
        packed = self._call("accepts", table, then, *moments, classes, steps, len(steps))
        if packed.code == lib.ACCEPTED:
            return Accepted()
        if packed.code == lib.NOT_ACCEPTED:
            return NotAccepted()
        return _refused(packed)

    def write(
        self,
        version: int,
        places: Sequence[Place],
        rows: Sequence[Row],
        dependencies: Sequence[Tuple[int, int]] = (),
    ) -> bytes:
        """The table of these values, or Refusal."""
        numbers = _numbers(number for place in places for number in Place(*place))
        ends = _numbers(end for pair in dependencies for end in pair)
        data = b"".join(row.to_bytes() for row in rows)
        out = (ctypes.c_uint8 * MAX_TABLE_BYTES)()
        answer = self._library.stramashly_write(
            _number(version, 0xFF), numbers, len(numbers), data, len(data), ends, len(ends), out, len(out)
        )
        packed = _unpacked(answer)
        if packed.code == lib.WRITTEN:
            return bytes(out[: packed.a])
        raise Refusal(_refused(packed))

    def read(self, table: Buffer) -> Table:
        """The values of a table, of which `write` gives the same bytes, or Refusal."""
        places = (ctypes.c_uint16 * lib.READ_PLACES)()
        rows = (ctypes.c_uint8 * lib.READ_ROWS)()
        ends = (ctypes.c_uint16 * lib.READ_DEPENDENCIES)()
        packed = self._call("read", table, None, places, len(places), rows, len(rows), ends, len(ends))
        if packed.code != lib.READ:
            raise Refusal(_refused(packed))
        version, agents = packed.a >> 8, packed.a & 0xFF
        data = bytes(rows[: ROW_BYTES * packed.b])
        return Table(
            version,
            [Place(*places[at : at + 4]) for at in range(0, 4 * agents, 4)],
            [Row.from_bytes(data[at : at + ROW_BYTES]) for at in range(0, len(data), ROW_BYTES)],
            [(ends[at], ends[at + 1]) for at in range(0, 2 * packed.c, 2)],
        )

    def rows(self, table: Buffer) -> List[Row]:
        """The rows of a table, or Refusal."""
        return self.read(table).rows

    def row_of_pieces(self, first: Buffer, second: Buffer, number: int) -> Optional[bytes]:
        """A row's sixteen bytes from whichever piece holds it; None where neither does."""
        pieces = _bytes(first), _bytes(second)
        arguments = pieces[0], len(pieces[0]), pieces[1], len(pieces[1]), _number(number, 0xFFFF)
        packed = _unpacked(self._library.stramashly_row2(*arguments))
        if packed.code != lib.ROW_PLACE:
            return None
        return pieces[packed.a][packed.b : packed.b + ROW_BYTES]


def _refused(packed: _Packed) -> Refused:
    if packed.code != lib.REFUSED:
        raise OSError(f"the library gave an answer that this package doesn't have: {packed}")
    return Refused(packed.a, packed.b)
