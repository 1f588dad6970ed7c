"""Stramashly: a race checker for recorded runs of a graphics device, from Python.

    from stramashly import Checker
    checker = Checker()                        # Checker(chains=True) for a device with chains
    answer = checker.check(open("run.table", "rb").read())
    print(answer)                              # race 0 4 0
    if answer.verdict == "race":
        print(answer.first, answer.second, answer.byte)

`python3 -m stramashly FILE...` answers files as `stramashly check` does, with its exit statuses.
"""

from .answers import (
    REFUSALS,
    Accepted,
    AcceptsAnswer,
    Chain,
    CheckAnswer,
    Cycle,
    Derivation,
    DeriveAnswer,
    Filled,
    FillAnswer,
    NoFilling,
    NotAccepted,
    NotBefore,
    Overwritten,
    ProgramOrder,
    Race,
    RaceFree,
    Refusal,
    Refused,
    Report,
    ReportAnswer,
)
from .checker import Buffer, Checker
from .values import (
    BLANK,
    INITIAL,
    MAX_AGENTS,
    MAX_DEPENDENCIES,
    MAX_ROWS,
    MAX_TABLE_BYTES,
    ROW_BYTES,
    AgentKind,
    Class,
    Flags,
    Kind,
    Order,
    Place,
    Row,
    Scope,
    Semantics,
    Table,
)

#: The version of this package, and of the library that it calls.
__version__: str = "0.3.0"

__all__ = [name for name in dir() if not name.startswith("_") and name not in ("answers", "checker", "library", "values")]
