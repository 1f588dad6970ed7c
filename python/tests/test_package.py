"""The package itself: its names and numbers are the header's, its hints are whole and true, its program ends as told."""

import enum
import inspect
import os
import re
import subprocess
import sys
import typing
import unittest

import stramashly
from stramashly import Checker, Refused, library, values

HERE = os.path.dirname(os.path.abspath(__file__))
ROOT = os.path.join(HERE, "..", "..")


def text(*path):
    with open(os.path.join(ROOT, *path), encoding="utf-8") as file:
        return file.read()


def header():
    """The header's macros and enumerators that are numbers."""
    found = re.findall(r"^#define STRAMASHLY_(\w+) (\d+)$", text("include", "stramashly.h"), re.MULTILINE)
    found += re.findall(r"^  STRAMASHLY_(\w+) = (\d+)", text("include", "stramashly.h"), re.MULTILINE)
    return {name: int(value) for name, value in found}


class Header(unittest.TestCase):
    def test_versions_agree(self):
        version = stramashly.__version__
        self.assertIn(f'#define STRAMASHLY_VERSION "{version}"', text("include", "stramashly.h"))
        self.assertIn(f'version = "{version}"', text("python", "pyproject.toml"))
        self.assertEqual(library.SONAME, "libstramashly.so." + version.rpartition(".")[0])

    def test_enumerations_are_the_headers(self):
        numbers = header()
        for prefix, names in [
            ("KIND", stramashly.Kind),
            ("ORDER", stramashly.Order),
            ("SCOPE", stramashly.Scope),
            ("CLASS", stramashly.Class),
            ("SEMANTICS", stramashly.Semantics),
            ("FLAG", stramashly.Flags),
            ("AGENT", stramashly.AgentKind),
        ]:
            expected = {name: value for name, value in numbers.items() if name.startswith(prefix + "_")}
            found = {f"{prefix}_{member.name}": int(member) for member in names if int(member) or "NONE" != member.name}
            self.assertEqual(found, expected)

    def test_refusals_are_the_headers(self):
        expected = {value: name[8:] for name, value in header().items() if name.startswith("REFUSAL_")}
        self.assertEqual({number: name for number, (name, _) in stramashly.REFUSALS.items()}, expected)
        for number in expected:
            refused = Refused(number, 0)
            self.assertEqual(refused.name, expected[number])
            self.assertTrue(refused.sentence)

    def test_lengths_and_codes_are_the_headers(self):
        numbers = header()
        for name in (
            "WORK_WORDS CYCLE_NUMBERS CYCLE_EDGES SOURCE_NUMBERS CHAIN_NUMBERS READ_PLACES READ_ROWS "
            "READ_DEPENDENCIES PROGRAM_ORDER RACE_FREE RACE OVERWRITTEN CYCLE REFUSED NONE FILLED REPORT DERIVATION "
            "NOT_BEFORE ACCEPTED NOT_ACCEPTED WRITTEN OPENED ROW END ROW_PLACE NO_ROW NO_PAIRS READ"
        ).split():
            self.assertEqual(getattr(library, name), numbers[name], name)
        for name in ("INITIAL", "BLANK", "ROW_BYTES"):
            self.assertEqual(getattr(values, name), numbers[name], name)
        for name in ("ROWS", "AGENTS", "DEPENDENCIES", "TABLE_BYTES"):
            self.assertEqual(getattr(values, f"MAX_{name}"), numbers[name], name)


class Hints(unittest.TestCase):
    """What mypy would ask for first, without mypy: every public call is hinted, and answers are what the hints say."""

    def functions(self):
        for name in stramashly.__all__:
            value = getattr(stramashly, name)
            if inspect.isclass(value) and value.__module__.startswith("stramashly") and not issubclass(value, enum.Enum):
                for member, function in inspect.getmembers(value):
                    function = getattr(function, "fget", function)
                    function = getattr(function, "__func__", function)
                    is_ours = inspect.isfunction(function) and function.__module__ == value.__module__
                    # Those of a dataclass or a named tuple are made, and hinted by the fields.
                    is_made = "<string>" in getattr(getattr(function, "__code__", None), "co_filename", "")
                    if is_ours and not is_made and not (member.startswith("_") and member != "__init__"):
                        yield f"{name}.{member}", function

    def test_every_public_function_is_hinted(self):
        seen = 0
        for name, function in self.functions():
            hints = typing.get_type_hints(function)
            parameters = [key for key in inspect.signature(function).parameters if key not in ("self", "cls")]
            for key in [*parameters, "return"]:
                self.assertIn(key, hints, name)
            seen += 1
        self.assertGreaterEqual(seen, 10)

    def test_answers_are_of_the_hinted_types(self):
        checker = Checker()
        with open(os.path.join(ROOT, "examples", "p.table"), "rb") as file:
            table = file.read()
        chain = checker.derive(table, 3, 8)
        for name, arguments in [
            ("check", (table,)),
            ("fill", (table,)),
            ("report", (table,)),
            ("derive", (table, 3, 8)),
            ("accepts", (table, 3, 8, chain)),
            ("read", (table,)),
            ("row_of_pieces", (table, b"", 0)),
        ]:
            hint = typing.get_type_hints(getattr(Checker, name))["return"]
            for given in (arguments, (b"", *arguments[1:])):
                if name == "read" and not given[0]:
                    continue
                answer = getattr(checker, name)(*given)
                self.assertIsInstance(answer, typing.get_args(hint) or hint, name)

    def test_the_fields_of_answers_are_hinted(self):
        for name in ("Race", "Cycle", "Report", "Refused", "Row", "Table", "Place"):
            self.assertTrue(typing.get_type_hints(getattr(stramashly, name)), name)

    def test_the_package_says_that_it_is_typed(self):
        self.assertTrue(os.path.exists(os.path.join(os.path.dirname(stramashly.__file__), "py.typed")))


class Program(unittest.TestCase):
    def run_program(self, *words, **more):
        command = [sys.executable, "-m", "stramashly", *words]
        environment = {**os.environ, "PYTHONDONTWRITEBYTECODE": "1", **more.pop("env", {})}
        return subprocess.run(command, capture_output=True, text=True, cwd=ROOT, env=environment, **more)

    def setUp(self):
        # The folder of the package as the tests found it, wherever the program runs.
        folder = os.path.dirname(os.path.dirname(stramashly.__file__))
        self.addCleanup(os.environ.__setitem__, "PYTHONPATH", os.environ.get("PYTHONPATH", ""))
        os.environ["PYTHONPATH"] = folder

    def test_statuses(self):
        for name, line, status in [
            ("leak-mended", "race-free", 0),
            ("leak", "race 0 4 0", 1),
            ("p-initial", "cycle 2 rows 0 3 edges 1 4", 2),
            ("too-long", "refused 7 1", 3),
        ]:
            done = self.run_program(f"examples/{name}.table")
            self.assertEqual((done.stdout, done.returncode), (line + "\n", status))

    def test_the_highest_status_counts(self):
        done = self.run_program("examples/p-initial.table", "examples/leak.table")
        self.assertEqual(done.returncode, 2)
        self.assertEqual(done.stdout.splitlines()[1], "examples/leak.table: race 0 4 0")

    def test_trouble_is_4(self):
        self.assertEqual(self.run_program().returncode, 4)
        self.assertEqual(self.run_program("--nothing", "x").returncode, 4)
        done = self.run_program("nowhere", "examples/leak.table")
        self.assertEqual(done.returncode, 4)
        self.assertIn("nowhere: No such file", done.stderr)
        self.assertIn("race 0 4 0", done.stdout)
        done = self.run_program("examples/leak.table", env={"STRAMASHLY_LIBRARY": "/nonexistent.so"})
        self.assertEqual((done.returncode, done.stdout), (4, ""))

    def test_chains_and_version(self):
        self.assertEqual(self.run_program("--chains", "examples/chain-available.table").returncode, 0)
        self.assertEqual(self.run_program("--version").stdout, f"stramashly {stramashly.__version__}\n")


if __name__ == "__main__":
    unittest.main()
