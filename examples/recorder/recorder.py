"""A recorder: a small simulated device runs a dispatch, notes what each invocation does, and has the library judge
the tables that come of it. The same as recorder.c, which says what the shader does, and with the same tables.

    python3 recorder.py                              table 0: 31 rows, 8 agents, 0 blanks: race-free
    python3 recorder.py --forget-available           table 0: 31 rows, 8 agents, 0 blanks: race ...
    python3 recorder.py --workgroups 16 --seed 7     more than a table holds: several
    python3 recorder.py --out FOLDER                 the tables as files, run-0.table and on
"""

import argparse
import os
import sys
from dataclasses import replace

from stramashly import BLANK, INITIAL, MAX_AGENTS, MAX_ROWS, Checker, Class, Flags, Kind, Order, Place, Row, Scope, Semantics

PER_WORKGROUP = 4
# References: a number for each variable of the shader.
SHARED, PARTIAL, TICKET, RESULT = 1, 2, 3, 4
# Where the variables lie among the 65,536 bytes that a table speaks of.
SHARED_AT, PARTIAL_AT, TICKET_AT, RESULT_AT = 0, 0x8000, 0x9000, 0x9004


class Recorder:
    """One table in the making; begins another where the next row has no room."""

    def __init__(self, folder=None):
        self.checker = Checker()
        self.folder = folder
        self.number = 0
        self.highest = 0
        # Which row of which table wrote a byte last.
        self.writers = {}
        self.begin()

    def begin(self):
        self.agents, self.places, self.rows, self.blanks = {}, [], [], 0

    def end(self):
        """Writes the table, has it judged, and begins another."""
        if not self.rows:
            return
        # Version 2: the ranks are a counter that may start again at 0.
        table = self.checker.write(2, self.places, self.rows)
        if self.folder:
            with open(os.path.join(self.folder, f"run-{self.number}.table"), "wb") as file:
                file.write(table)
        # With blanks only a fill will do, which tells of races as a check does.
        answer = self.checker.fill(table) if self.blanks else self.checker.check(table)
        shown = {"filled": "filled", "none": "inconsistent", "cycle": "inconsistent", "overwritten": "inconsistent"}
        counts = f"{len(self.rows)} rows, {len(self.places)} agents, {self.blanks} blanks"
        print(f"table {self.number}: {counts}: {shown.get(answer.verdict, answer)}")
        self.highest = max(self.highest, answer.status)
        self.number += 1
        self.begin()

    def make_room(self, invocations):
        """Begins a table unless this one has room for one row of each of these."""
        new = sum(invocation not in self.agents for invocation in invocations)
        if len(self.rows) + len(invocations) > MAX_ROWS or len(self.places) + new > MAX_AGENTS:
            self.end()

    def agent(self, invocation):
        if invocation not in self.agents:
            self.agents[invocation] = len(self.places)
            # Subgroups of two.
            self.places.append(Place(0, invocation // PER_WORKGROUP, invocation % PER_WORKGROUP // 2))
        return self.agents[invocation]

    def source(self, start, is_plain):
        """The row that wrote the bytes last. One of an earlier table can't be named: a plain read leaves it blank,
        an atomic says that it read the initial value. Every access here is of four bytes that are written together."""
        table, row = self.writers.get(start, (None, INITIAL))
        if table in (None, self.number):
            return row
        if not is_plain:
            return INITIAL
        self.blanks += 1
        return BLANK

    def add(self, row):
        """Adds a row, which the table has room for, and notes what it wrote."""
        if row.kind in (Kind.PLAIN_WRITE, Kind.READ_MODIFY_WRITE):
            for byte in range(row.start, row.start + row.length):
                self.writers[byte] = self.number, len(self.rows)
        self.rows.append(row)

    def access(self, invocation, kind, reference, start):
        """Four bytes, with the memory operand NonPrivatePointer."""
        self.make_room([invocation])
        return Row(
            kind,
            self.agent(invocation),
            flags=Flags.NON_PRIVATE,
            class_or_execution=Class.WORKGROUP if reference == SHARED else Class.UNIFORM,
            length=4,
            start=start,
            reference=reference,
        )

    def store(self, invocation, reference, start):
        """OpStore."""
        self.add(self.access(invocation, Kind.PLAIN_WRITE, reference, start))

    def load(self, invocation, reference, start):
        """OpLoad."""
        row = self.access(invocation, Kind.PLAIN_READ, reference, start)
        self.add(replace(row, source=self.source(start, True)))

    def atomic_add(self, invocation, reference, start, rank, forgets_available, is_relaxed):
        """OpAtomicIAdd Device, AcquireRelease | UniformMemory | MakeAvailable | MakeVisible."""
        row = self.access(invocation, Kind.READ_MODIFY_WRITE, reference, start)
        row = replace(row, scope=Scope.DEVICE, rank=rank, source=self.source(start, False))
        if not is_relaxed:
            flags = row.flags | Flags.MAKE_VISIBLE | (Flags.NONE if forgets_available else Flags.MAKE_AVAILABLE)
            row = replace(row, order=Order.ACQUIRE_RELEASE, semantics=Semantics.UNIFORM, flags=flags)
        self.add(row)

    def barrier(self, workgroup):
        """OpControlBarrier Workgroup Workgroup, AcquireRelease | WorkgroupMemory | MakeAvailable | MakeVisible: the
        rows of all that meet, when the last one has come, so that no table ends among them."""
        invocations = range(workgroup * PER_WORKGROUP, (workgroup + 1) * PER_WORKGROUP)
        self.make_room(invocations)
        for invocation in invocations:
            self.add(
                Row(
                    Kind.CONTROL_BARRIER,
                    self.agent(invocation),
                    Order.ACQUIRE_RELEASE,
                    Scope.WORKGROUP,
                    Semantics.WORKGROUP,
                    Flags.MAKE_AVAILABLE | Flags.MAKE_VISIBLE,
                    class_or_execution=Scope.WORKGROUP,
                    start=workgroup,
                )
            )


class Device:
    """Memory, and invocations that take one step at a time: a generator each, which stops before each instruction."""

    def __init__(self, words, recorder):
        self.words = words
        self.recorder = recorder
        self.memory = {}
        # How many of each workgroup have come to the barrier.
        self.come = {}

    def invocation(self, at):
        recorder, memory, words = self.recorder, self.memory, self.words
        workgroup, item = divmod(at, PER_WORKGROUP)
        shared = SHARED_AT + 4 * PER_WORKGROUP * workgroup
        yield
        memory[shared + 4 * item] = at + 1
        recorder.store(at, SHARED, shared + 4 * item)
        if not words.forget_barrier:
            yield
            self.come[workgroup] = self.come.get(workgroup, 0) + 1
            if self.come[workgroup] == PER_WORKGROUP:
                recorder.barrier(workgroup)
            else:
                yield workgroup
        if item != 0:
            return
        total = 0
        for other in range(PER_WORKGROUP):
            yield
            recorder.load(at, SHARED, shared + 4 * other)
            total += memory.get(shared + 4 * other, 0)
        yield
        memory[PARTIAL_AT + 4 * workgroup] = total
        recorder.store(at, PARTIAL, PARTIAL_AT + 4 * workgroup)
        yield
        # The counter of the ticket's writes begins near its end, to show that it may wrap.
        ticket = memory.get(TICKET_AT, 0)
        rank = (65535 + ticket) % 65536
        recorder.atomic_add(at, TICKET, TICKET_AT, rank, words.forget_available, words.relaxed)
        memory[TICKET_AT] = ticket + 1
        if ticket + 1 < words.workgroups:
            return
        total = 0
        for other in range(words.workgroups):
            yield
            recorder.load(at, PARTIAL, PARTIAL_AT + 4 * other)
            total += memory.get(PARTIAL_AT + 4 * other, 0)
        yield
        memory[RESULT_AT] = total
        recorder.store(at, RESULT, RESULT_AT)

    def run(self):
        """Steps of invocations that can take one, in an order that the seed decides."""
        running = {}
        # The barrier, by its workgroup, that an invocation waits at.
        waits = {}

        def go_on(at):
            try:
                waits[at] = next(running[at])
            except StopIteration:
                del running[at]

        for at in range(PER_WORKGROUP * self.words.workgroups):
            running[at] = self.invocation(at)
            go_on(at)
        random = self.words.seed
        while running:
            ready = [at for at in running if waits[at] is None]
            random = (random * 1664525 + 1013904223) % 2**32
            go_on(ready[(random >> 16) % len(ready)])
            for at in [at for at in running if self.come.get(waits[at]) == PER_WORKGROUP]:
                go_on(at)


def main():
    parser = argparse.ArgumentParser(description=__doc__, formatter_class=argparse.RawDescriptionHelpFormatter)
    parser.add_argument("--workgroups", type=int, default=2, choices=range(1, 65), metavar="1 to 64")
    parser.add_argument("--seed", type=int, default=1)
    parser.add_argument("--out", metavar="FOLDER")
    for option in ("--forget-available", "--forget-barrier", "--relaxed"):
        parser.add_argument(option, action="store_true")
    words = parser.parse_args()
    recorder = Recorder(words.out)
    device = Device(words, recorder)
    device.run()
    recorder.end()
    print("result", device.memory.get(RESULT_AT, 0))
    return recorder.highest


if __name__ == "__main__":
    sys.exit(main())
