"""The library's calls as C has them, over memory that the caller lends: for those who want to keep their own.

A run of words is an `array('I')`, a label an `array('H')`, and bytes to be written an `array('B')`; a file or a label that is only read may be
`bytes`. Nothing is copied, and nothing is refused by an exception: an answer has a number. `words`, `octets` and `chars` make such runs. A run
must not be resized by another thread during a call. Most programs want `jdr.Plan` instead.
"""

from __future__ import annotations

import ctypes
import sys
from array import array
from typing import Callable, TypeVar, Union

from . import _library

ROW_WORDS = 4  # the words of a row of the contents: kind, row of the parent, start and length of its body

Run = Union[array, bytes]

# the chars of the format are 16-bit units of UTF-16, in the machine's order of bytes
ENCODING = f"utf-16-{sys.byteorder[0]}e"


def words(count: int) -> array:
    """A run of so many words, all 0."""
    return array("I", (0,)) * count


def octets(count: int) -> array:
    """A run of so many bytes, all 0."""
    return array("B", (0,)) * count


def chars(text: str) -> bytes:
    """The 16-bit chars of a text, in the machine's order of bytes. Half of a pair that stands alone is a char too."""
    return text.encode(ENCODING, "surrogatepass")


class _Struct(ctypes.Structure):
    """A struct of the library that prints its fields."""

    def __repr__(self) -> str:
        fields = ", ".join(f"{field[0]}={getattr(self, field[0])!r}" for field in self._fields_)
        return f"{type(self).__name__}({fields})"


def _numbers(*names: str) -> list[tuple[str, type]]:
    return [(name, ctypes.c_uint32) for name in names]


class Answer(_Struct):
    """A number (`jdr.numbers` has them), the offset, and the counts of rows and of words in the bodies."""

    _fields_ = _numbers("number", "offset", "rows", "words")


class ColorStruct(_Struct):
    """A colour's kind, and its components in file order."""

    _fields_ = _numbers("kind") + [("c", ctypes.c_float * 5)]


class PaintAnswer(_Struct):
    """A number, and a paint: its form, the gradient's integer, and its colours."""

    _fields_ = _numbers("number", "form", "place") + [("first", ColorStruct), ("second", ColorStruct)]


class TextAnswer(_Struct):
    """A number, and where in the bodies the chars of a text's LaTeX alternative and its own stand, one a word."""

    _fields_ = _numbers("number", "alternative_start", "alternative_length", "text_start", "text_length")


class DescriptionAnswer(_Struct):
    """A number, and where in the bodies the chars of a description stand, one a word."""

    _fields_ = _numbers("number", "start", "length")


class BoxAnswer(_Struct):
    """A number, and a box: the least x and y, then the greatest x and y."""

    _fields_ = _numbers("number") + [(name, ctypes.c_double) for name in ("left", "bottom", "right", "top")]


class SessionStruct(_Struct):
    """What is known so far of a file that comes in pieces: 328 bytes, which may hold anything before `session_open`."""

    _fields_ = (
        _numbers("spent", "depth", "bytes", "number", "offset", "rows", "words", "version", "stage", "width", "segments", "held")
        + [(name, ctypes.c_uint64) for name in ("parts", "run", "x", "y")]
        + [("members", ctypes.c_uint32 * 16), ("buffer", ctypes.c_uint8 * 184)]
    )


_loaded = _library.load()


def _lent(run: Run, size: int) -> tuple[object, int]:
    """The pointer to a run and its length, in elements of this size."""
    if isinstance(run, array):
        if run.itemsize != size:
            raise TypeError(f"a run of elements of {size} bytes is needed, not array('{run.typecode}')")
        return run.buffer_info()
    if not isinstance(run, bytes) or len(run) % size:
        raise TypeError(f"a run of elements of {size} bytes is needed: an array or bytes")
    return run, len(run) // size


def _function(name: str, takes: list[type], answer: type) -> Callable[..., object]:
    """The library's function of this name."""
    try:
        function = getattr(_loaded, name)
    except AttributeError:
        raise ImportError(f"{_loaded._name} has no {name}: it is older than this package") from None
    function.argtypes = takes
    function.restype = answer
    return function


_Given = TypeVar("_Given")


def _call(name: str, does: str, sizes: tuple[int, ...], answer: type[_Given], numbers: int = 0, written: int = 0) -> Callable[..., _Given]:
    """The call of this name, over runs of elements of these sizes and then so many numbers. The last `written` runs are lent for writing."""
    function = _function(name, [ctypes.c_void_p, ctypes.c_size_t] * len(sizes) + [ctypes.c_uint32] * numbers, answer)
    first_written = len(sizes) - written

    def call(*lent):
        if len(lent) != len(sizes) + numbers:
            raise TypeError(f"{name} takes {len(sizes) + numbers} arguments")
        if any(type(run) is bytes for run in lent[first_written : len(sizes)]):
            raise TypeError("bytes cannot be written to")
        arguments: list[object] = []
        for run, size in zip(lent, sizes):
            arguments += _lent(run, size)
        for number in lent[len(sizes) :]:
            # ctypes would take any integer and keep its low bits, which are another row
            if not 0 <= number < 1 << 32:
                raise OverflowError("a row is a number of 32 bits")
            arguments.append(number)
        return function(*arguments)

    call.__name__ = call.__qualname__ = name.removeprefix("jdr_")
    call.__doc__ = does
    return call


_BYTE, _CHAR, _WORD = 1, 2, 4
_TABLE = (_WORD, _WORD)

read = _call("jdr_read", "read(file, contents, bodies): reads a file into a table.", (_BYTE, *_TABLE), Answer, written=2)
check = _call("jdr_check", "check(contents, bodies): whether the two runs are a table.", _TABLE, Answer)
write = _call("jdr_write", "write(contents, bodies, file): writes a table's file.", (*_TABLE, _BYTE), Answer, written=1)
sheet_write = _call("jdr_sheet_write", "sheet_write(contents, bodies, sheet): writes a table's sheet.", (*_TABLE, _BYTE), Answer, written=1)
sheet_read = _call("jdr_sheet_read", "sheet_read(sheet, contents, bodies): reads a sheet into a table.", (_BYTE, *_TABLE), Answer, written=2)
find = _call("jdr_list", "find(contents, bodies, label, entries): stores the rows with a label.", (*_TABLE, _CHAR, _WORD), Answer, written=1)
paint = _call("jdr_paint", "paint(contents, bodies, row, which): a paint of a row's object.", _TABLE, PaintAnswer, numbers=2)
text = _call("jdr_text", "text(contents, bodies, row): where the chars of a row's text stand.", _TABLE, TextAnswer, numbers=1)
description = _call("jdr_description", "description(contents, bodies, row): where the chars of a row's description stand.", _TABLE, DescriptionAnswer, numbers=1)
box = _call("jdr_box", "box(contents, bodies, row): the box around a row's outline.", _TABLE, BoxAnswer, numbers=1)

# `byref` makes the pointer, since ctypes would pass None on as NULL
_SESSION = ctypes.POINTER(SessionStruct)
_open = _function("jdr_session_open", [_SESSION], Answer)
_piece = _function("jdr_session_piece", [_SESSION, ctypes.c_void_p, ctypes.c_size_t], Answer)
_verdict = _function("jdr_session_verdict", [_SESSION], Answer)


def session_open(session: SessionStruct) -> Answer:
    """session_open(session): begins a session, whatever it holds."""
    return _open(ctypes.byref(session))


def session_piece(session: SessionStruct, piece: Run) -> Answer:
    """session_piece(session, piece): gives a session the next bytes of a file."""
    return _piece(ctypes.byref(session), *_lent(piece, _BYTE))


def session_verdict(session: SessionStruct) -> Answer:
    """session_verdict(session): what `read` answers for the bytes so far, with room enough. It spends the session."""
    return _verdict(ctypes.byref(session))
