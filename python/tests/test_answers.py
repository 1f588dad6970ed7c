"""Answers of the library: each verdict, each kind of buffer, values written and read, two pieces."""

import glob
import os
import unittest

from stramashly import (
    BLANK,
    Accepted,
    AgentKind,
    Chain,
    Checker,
    Class,
    Cycle,
    Filled,
    Flags,
    Kind,
    NoFilling,
    NotAccepted,
    NotBefore,
    Order,
    Overwritten,
    Place,
    ProgramOrder,
    Race,
    RaceFree,
    Refusal,
    Refused,
    Report,
    Row,
    Scope,
    Semantics,
    Table,
)

EXAMPLES = os.path.join(os.path.dirname(__file__), "..", "..", "examples")


def example(name):
    with open(os.path.join(EXAMPLES, f"{name}.table"), "rb") as file:
        return file.read()


class Answers(unittest.TestCase):
    def setUp(self):
        self.checker = Checker()

    def test_check(self):
        for name, expected in [
            ("p", RaceFree()),
            ("leak", Race(0, 4, 0)),
            ("p-initial", Cycle((0, 3), (1, 4))),
            ("too-long", Refused(7, 1)),
        ]:
            self.assertEqual(self.checker.check(example(name)), expected, name)
        self.assertIsInstance(self.checker.check(example("overwritten")), Overwritten)

    def test_lines_and_statuses(self):
        for answer, line, status in [
            (RaceFree(), "race-free", 0),
            (Race(0, 4, 16), "race 0 4 16", 1),
            (Overwritten(2, 1, 10), "overwritten 2 1 10", 2),
            (Cycle((0, 3), (1, 4)), "cycle 2 rows 0 3 edges 1 4", 2),
            (Refused(9, 3), "refused 9 3", 3),
            (Filled((65535, 0)), "filled 65535 0", 0),
            (NoFilling(), "none", 2),
            (Report(3, 2, 0, 1, 1 / 3), "report 3 2 0 1 0.3333333333333333", 1),
            (Report(0, 0, 0, 0, None), "report 0 0 0 0 no-share", 0),
            (Chain(Semantics.UNIFORM, (1028, 519)), "chain 1 1028 519", 0),
            (ProgramOrder(), "program-order", 0),
            (NotBefore(), "not-before", 1),
            (Accepted(), "accepted", 0),
            (NotAccepted(), "not-accepted", 1),
        ]:
            self.assertEqual((str(answer), answer.status), (line, status))
            self.assertTrue(line.startswith(answer.verdict))

    def test_buffers_of_each_kind(self):
        table = example("leak")
        for buffer in (table, bytearray(table), memoryview(table), memoryview(bytearray(b"x" + table))[1:]):
            self.assertEqual(self.checker.check(buffer), Race(0, 4, 0))
        for wrong in ("race", 84, None, [1, 2]):
            with self.assertRaises(TypeError):
                self.checker.check(wrong)

    def test_damaged_tables_are_refused(self):
        table = example("p")
        self.assertEqual(self.checker.check(b""), Refused(1, 0))
        for length in range(len(table)):
            self.assertIsInstance(self.checker.check(table[:length]), Refused)
        self.assertEqual(self.checker.check(b"\xff" * 100_000), Refused(2, 0))

    def test_fill(self):
        blank = example("fill")
        self.assertEqual(self.checker.check(blank), Refused(9, 3))
        self.assertEqual(self.checker.fill(blank), Filled((65535, 65535, 1, 0)))
        self.assertEqual(self.checker.fill(example("fill-none")), NoFilling())
        self.assertIsInstance(self.checker.fill(example("fill-race")), Race)

    def test_report(self):
        report = self.checker.report(example("leak"))
        self.assertEqual(report.mutual + report.ordered + report.racing, report.conflicting)
        self.assertEqual(report.share, report.racing / report.conflicting)
        self.assertEqual(self.checker.report(example("empty")), Report(0, 0, 0, 0, None))
        self.assertIsInstance(self.checker.report(example("p-initial")), Cycle)
        self.assertIsInstance(self.checker.report(example("overwritten")), Overwritten)

    def test_derivations(self):
        table = example("p")
        chain = self.checker.derive(table, 3, 8)
        self.assertEqual(chain, Chain(Semantics.UNIFORM, (1028, 519, 1544)))
        self.assertEqual(self.checker.accepts(table, 3, 8, chain), Accepted())
        self.assertEqual(self.checker.accepts(table, 3, 8, Chain(1, chain.steps[1:])), NotAccepted())
        self.assertEqual(self.checker.derive(table, 1, 4), ProgramOrder())
        self.assertEqual(self.checker.accepts(table, 1, 4, ProgramOrder()), Accepted())
        self.assertEqual(self.checker.derive(table, 8, 3), NotBefore())
        self.assertEqual(self.checker.derive(table, 1, 1), Refused(12, 0))
        with self.assertRaises(ValueError):
            self.checker.derive(table, 65536, 0)
        with self.assertRaises(ValueError):
            self.checker.accepts(table, 3, 8, Chain(256, ()))

    def test_chains_are_a_switch(self):
        table = example("chain-available")
        self.assertIsInstance(self.checker.check(table), Race)
        self.assertEqual(Checker(chains=True).check(table), RaceFree())

    def test_two_pieces(self):
        table = example("p")
        first = bytes([0, 0, 0, 48, 1, 2, 2, 0]) + table[8:52]
        second = table[52:]
        for then in (second, bytearray(second), memoryview(second)):
            self.assertEqual(self.checker.check(first, then=then), RaceFree())
        self.assertEqual(self.checker.check(first, then=second[1:]), Refused(40, 0))
        self.assertEqual(self.checker.fill(first, then=second), Filled((65535, 65535, 1, 0)))
        self.assertEqual(self.checker.report(first, then=second), self.checker.report(table))
        chain = self.checker.derive(first, 3, 8, then=second)
        self.assertEqual(self.checker.accepts(first, 3, 8, chain, then=second), Accepted())
        self.assertEqual(self.checker.row_of_pieces(first, second, 1), table[36:52])
        self.assertEqual(self.checker.row_of_pieces(first, second, 2), table[52:68])
        self.assertIsNone(self.checker.row_of_pieces(first, second, 4))

    def test_every_example_is_written_as_it_was_read(self):
        read = 0
        for name in sorted(glob.glob(os.path.join(EXAMPLES, "*.table"))):
            with open(name, "rb") as file:
                table = file.read()
            try:
                values = self.checker.read(table)
            except Refusal as refusal:
                self.assertEqual(self.checker.fill(table), refusal.refused, name)
                continue
            again = self.checker.write(values.version, values.places, values.rows, values.dependencies)
            self.assertEqual(again, table, name)
            self.assertEqual(self.checker.rows(table), values.rows)
            read += 1
        self.assertGreater(read, 20)

    def test_values(self):
        table = self.checker.read(example("p"))
        self.assertEqual(table.places, [Place(0, 0, 0), Place(0, 0, 1)])
        release = table.rows[1]
        self.assertEqual(
            release,
            Row(
                Kind.ATOMIC_WRITE,
                order=Order.RELEASE,
                scope=Scope.WORKGROUP,
                semantics=Semantics.UNIFORM,
                flags=Flags.NON_PRIVATE | Flags.MAKE_AVAILABLE,
                class_or_execution=Class.UNIFORM,
                length=4,
                start=4,
                reference=2,
                rank=1,
            ),
        )
        self.assertIsInstance(release.kind, Kind)
        self.assertIsInstance(release.flags, Flags)
        self.assertEqual(Row.from_bytes(release.to_bytes()), release)
        upload = self.checker.read(example("upload"))
        self.assertEqual(upload.places[0].kind, AgentKind.HOST)
        self.assertTrue(upload.dependencies)
        self.assertEqual(Table().version, 1)

    def test_values_are_refused(self):
        with self.assertRaises(Refusal) as raised:
            self.checker.write(1, [], [Row(source=BLANK, length=4)])
        self.assertEqual(raised.exception.refused, Refused(5, 0))
        self.assertEqual(raised.exception.refused.name, "CODE")
        self.assertIn("out of range", str(raised.exception))
        with self.assertRaises(Refusal) as raised:
            self.checker.write(2, [Place(kind=AgentKind.HOST)], [])
        self.assertEqual(raised.exception.refused.name, "AGENT_KIND")
        with self.assertRaises(ValueError):
            self.checker.write(1, [Place(family=65536)], [])
        with self.assertRaises(ValueError):
            self.checker.write(256, [], [])


if __name__ == "__main__":
    unittest.main()
