"""Answers files as `stramashly check` does: a line for each, the highest status of all as exit status."""

import argparse
import os
import sys
from typing import List, Optional

from . import MAX_TABLE_BYTES, Checker, __version__

TROUBLE = 4


class _Parser(argparse.ArgumentParser):
    def error(self, message: str) -> None:
        """1 to 3 are verdicts, so that wrong words must not end with 2."""
        self.exit(TROUBLE, f"stramashly: {message}\n")


def main(words: Optional[List[str]] = None) -> int:
    parser = _Parser(prog="python3 -m stramashly", description=__doc__)
    parser.add_argument("--version", action="version", version=f"stramashly {__version__}")
    parser.add_argument("--chains", action="store_true", help="for a device with availability and visibility chains")
    parser.add_argument("files", nargs="+", metavar="FILE", help="a table's bytes; `-` is standard input")
    words = parser.parse_args(words)
    try:
        checker = Checker(chains=words.chains)
    except OSError as error:
        print(f"stramashly: {error}", file=sys.stderr)
        return TROUBLE
    highest = 0
    for name in words.files:
        try:
            # A byte more than any table has is enough to refuse it.
            with sys.stdin.buffer if name == "-" else open(name, "rb") as file:
                answer = checker.check(file.read(MAX_TABLE_BYTES + 1))
        except OSError as error:
            print(f"stramashly: {name}: {error.strerror}", file=sys.stderr)
            highest = TROUBLE
            continue
        print(f"{name}: {answer}" if len(words.files) > 1 else answer)
        highest = max(highest, answer.status)
    return highest


if __name__ == "__main__":
    try:
        status = main()
        sys.stdout.flush()
    except BrokenPipeError:
        # Nobody reads any more; Python would tell it a second time as it ends.
        os.dup2(os.open(os.devnull, os.O_WRONLY), sys.stdout.fileno())
        status = TROUBLE
    sys.exit(status)
