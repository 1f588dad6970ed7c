"""The shared library: where it is, and the types of its functions."""

from __future__ import annotations

import ctypes
import ctypes.util
import os
import sys
from typing import Iterator, Optional, Union

WORK_WORDS = 8192
CYCLE_NUMBERS = 256
CYCLE_EDGES = 128
SOURCE_NUMBERS = 128
CHAIN_NUMBERS = 383
READ_PLACES = 128
READ_ROWS = 2048
READ_DEPENDENCIES = 128
PROGRAM_ORDER = 16

# The codes of answers.
RACE_FREE, RACE, OVERWRITTEN, CYCLE, REFUSED, NONE, FILLED, REPORT, DERIVATION, NOT_BEFORE = range(10)
ACCEPTED, NOT_ACCEPTED, WRITTEN, OPENED, ROW, END, ROW_PLACE, NO_ROW, NO_PAIRS, READ = range(10, 20)

#: The library's file: its name holds the numbers that callers depend on.
SONAME = "libstramashly.so.0.3"


def _candidates() -> Iterator[str]:
    """Where the library may be, if nobody says it."""
    found = ctypes.util.find_library("stramashly")
    if found:
        yield found
    # An installation in the prefix of this Python, a virtual environment's too.
    yield os.path.join(sys.prefix, "lib", SONAME)
    yield SONAME


def load(path: Optional[Union[str, os.PathLike]] = None) -> ctypes.CDLL:
    """The library at a path, else the one that $STRAMASHLY_LIBRARY names, else the installed one."""
    path = path or os.environ.get("STRAMASHLY_LIBRARY")
    library = None
    for candidate in [os.fspath(path)] if path else _candidates():
        try:
            library = ctypes.CDLL(candidate)
            break
        except OSError:
            if path:
                raise
    if library is None:
        raise OSError(f"{SONAME} isn't installed; set STRAMASHLY_LIBRARY to its path")
    _declare(library)
    return library


def _declare(library: ctypes.CDLL) -> None:
    """The types of the functions, as the header has them. A piece of a table is bytes and their count."""
    piece = ctypes.c_char_p
    size = ctypes.c_size_t
    byte = ctypes.c_uint8
    number = ctypes.c_uint16
    words = ctypes.POINTER(ctypes.c_uint64)
    numbers = ctypes.POINTER(ctypes.c_uint16)
    out = ctypes.POINTER(ctypes.c_uint8)
    share = ctypes.POINTER(ctypes.c_double)
    for function in (library.stramashly_check, library.stramashly_fill):
        function.argtypes = [piece, size, byte, words, size, numbers, size]
    for function in (library.stramashly_check2, library.stramashly_fill2):
        function.argtypes = [piece, size, piece, size, byte, words, size, numbers, size]
    library.stramashly_report.argtypes = [piece, size, byte, words, size, numbers, size, share]
    library.stramashly_report2.argtypes = [piece, size, piece, size, byte, words, size, numbers, size, share]
    library.stramashly_derive.argtypes = [piece, size, number, number, words, size, numbers, size]
    library.stramashly_derive2.argtypes = [piece, size, piece, size, number, number, words, size, numbers, size]
    library.stramashly_accepts.argtypes = [piece, size, number, number, byte, numbers, size]
    library.stramashly_accepts2.argtypes = [piece, size, piece, size, number, number, byte, numbers, size]
    library.stramashly_write.argtypes = [byte, numbers, size, piece, size, numbers, size, out, size]
    library.stramashly_read.argtypes = [piece, size, numbers, size, out, size, numbers, size]
    library.stramashly_row2.argtypes = [piece, size, piece, size, number]
    for name in "check check2 fill fill2 report report2 derive derive2 accepts accepts2 write read row2".split():
        getattr(library, "stramashly_" + name).restype = ctypes.c_uint64
