"""The codes, frames and blocks of DVDs and the sectors of CD-ROMs, by the C library libdvdecc.

Each function of the library is proved to do what its header dvdecc.h promises. This module passes it buffers of the right
lengths; it is tested and not proved.

*Data* is `bytes` or any other object with a buffer of single bytes: `bytearray`, `memoryview`, `mmap`, an array of bytes.
A number, a text, a list, or an array of larger items is refused with TypeError, and a wrong length with ValueError. No
argument is changed, but for the rows of `rows_parity` and `rows_decode`.

*Lost places* are given in one of two forms, by each call that takes them: as data with one byte for each place, which is
lost where that isn't 0; or as a list, a set or a range of the places themselves.

Where a call has a status other than OK, `DvdeccError` is raised with it.

The library is the file that the variable DVDECC_LIBRARY names. Where that is empty or not set, it is libdvdecc.so.0
beside this file, or else the one where the system looks for libraries.
"""

from __future__ import annotations

import array
import ctypes
import enum
import operator
import os
from typing import TYPE_CHECKING, Any, Callable, Iterable, NamedTuple, Optional, Union

if TYPE_CHECKING:
    from _typeshed import ReadableBuffer, WriteableBuffer

    Lost = Union[ReadableBuffer, Iterable[int]]

__all__ = [
    "Block",
    "Decoded",
    "DvdeccError",
    "RowAnswers",
    "Rule",
    "Salvaged",
    "Sectors",
    "Status",
    "block_is_codeword",
    "block_parity",
    "cd_check",
    "cd_edc",
    "cd_make",
    "cd_repair",
    "column_decode",
    "column_is_codeword",
    "column_parity",
    "edc",
    "ied",
    "make_frame",
    "read_block",
    "read_frame",
    "row_decode",
    "row_is_codeword",
    "row_parity",
    "rows_decode",
    "rows_parity",
    "rs_decode",
    "rs_parity",
    "salvage_block",
    "scramble",
    "two_pass",
]
__version__ = "1.1.0"

_ROW, _COLUMN, _ROWS = 182, 208, 208
_CAPTURE, _SECTOR, _FRAME, _CD_SECTOR = 42640, 2048, 2064, 2352


class Status(enum.IntEnum):
    """What a call answers."""

    OK = 0
    UNCORRECTABLE = 1
    NO_MEMORY = 2
    BAD_RULE = 3
    BAD_ADDRESS = 4
    BAD_LENGTH = 5
    ROWS = 6
    COLUMN = 7
    ROW = 8
    IED = 9
    ID = 10
    EDC = 11
    CD_PARITY = 12
    CD_MODE = 13
    CD_ADDRESS = 14
    CD_EDC = 15
    BAD_ID = 16


_MEANINGS = {
    Status.OK: "done",
    Status.UNCORRECTABLE: "no codeword is near the word",
    Status.NO_MEMORY: "there was no memory",
    Status.BAD_RULE: "the call has no scrambling rule of this number",
    Status.BAD_ADDRESS: "the address of a CD-ROM sector is 450,000 or more",
    Status.BAD_LENGTH: "the lengths don't fit",
    Status.ROWS: "more than 16 rows of the block have no codeword near",
    Status.COLUMN: "a column has no codeword near",
    Status.ROW: "a row is no codeword after the columns were corrected",
    Status.IED: "a data frame has a wrong IED",
    Status.ID: "a data frame names another place",
    Status.EDC: "a data frame has a wrong EDC",
    Status.CD_PARITY: "a P word or a Q word is no codeword",
    Status.CD_MODE: "the sector has another mode than 1",
    Status.CD_ADDRESS: "the sector has another address",
    Status.CD_EDC: "the sector has a wrong EDC",
    Status.BAD_ID: "no block of a disk begins with this ID word",
}


class Rule(enum.IntEnum):
    """Which Main Data bytes are scrambled: all, none, or the first 160."""

    WHOLE = 0
    OFF = 1
    FIRST_160 = 2


class DvdeccError(Exception):
    """A status other than OK, and the number that comes with it, if there is one.

    The status is a `Status`, or a plain number where the library is later than this module and has more of them.
    """

    def __init__(self, status: int, number: Optional[int] = None) -> None:
        try:
            status = Status(status)
        except ValueError:
            pass
        # (what is passed on is what an error is made of again where it was pickled)
        super().__init__(status, number)
        self.status, self.number = status, number

    def __str__(self) -> str:
        if isinstance(self.status, Status):
            text = f"{self.status.name}: {_MEANINGS[self.status]}"
        else:
            text = f"status {self.status}, which this module doesn't know"
        return text if self.number is None else f"{text} (number {self.number})"


class Decoded(NamedTuple):
    """A word that was decoded: its bytes, how many of them were wrong, and how many were lost."""

    word: bytes
    errors: int
    erasures: int


class RowAnswers(NamedTuple):
    """What the decoding of many rows came to: three numbers for each row, each kind in a view of numbers of 32 bits.

    A row has the status OK or UNCORRECTABLE, how many of its bytes were wrong, and how many were lost; both are 0 where no
    codeword is near. `list(answers.statuses)` and `sum(answers.errors)` do what they say.
    """

    statuses: memoryview
    errors: memoryview
    erasures: memoryview


class Block(NamedTuple):
    """A block that two passes found: its rows one after the other, the places that were corrected, the rows that failed."""

    rows: bytes
    corrected: int
    failed_rows: int


class Sectors(NamedTuple):
    """A block that was read: its sixteen sectors, the places that were corrected, the rows that failed."""

    sectors: list[bytes]
    corrected: int
    failed_rows: int


class Salvaged(NamedTuple):
    """What was salvaged of a block: its sixteen sectors, zeros where one wasn't, and whether each of them was."""

    sectors: list[bytes]
    saved: list[bool]


class _Correction(ctypes.Structure):
    _fields_ = [("errors", ctypes.c_uint32), ("erasures", ctypes.c_uint32)]


class _Answer(ctypes.Structure):
    _fields_ = [("status", ctypes.c_uint32), ("correction", _Correction)]


class _Report(ctypes.Structure):
    _fields_ = [("corrected", ctypes.c_uint32), ("failed_rows", ctypes.c_uint32), ("number", ctypes.c_uint32)]


_NAME = "libdvdecc.so.0"


def _load() -> ctypes.CDLL:
    beside = os.path.join(os.path.dirname(os.path.abspath(__file__)), _NAME)
    name = os.environ.get("DVDECC_LIBRARY") or (beside if os.path.exists(beside) else _NAME)
    try:
        return ctypes.CDLL(name)
    except OSError as error:
        raise ImportError(
            f"the C library isn't found: {error}. It is the file that the variable DVDECC_LIBRARY names,"
            f" or else {beside}, or else {_NAME} where the system looks for libraries",
            name=__name__,
        ) from error


_library = _load()
_P, _N, _U, _B = ctypes.c_void_p, ctypes.c_size_t, ctypes.c_uint32, ctypes.c_bool


def _call(name: str, result: Any, *parameters: Any) -> Callable[..., Any]:
    try:
        function = _library[name]
    except AttributeError as error:
        raise ImportError(f"{_library._name} isn't the library of this module: it has no {name}", name=__name__) from error
    function.restype, function.argtypes = result, parameters
    return function


_edc = _call("dvdecc_edc", None, _P, _N, _P)
_ied = _call("dvdecc_ied", None, _U, _P)
_cd_edc = _call("dvdecc_cd_edc", None, _P, _N, _P)
_row_parity = _call("dvdecc_row_parity", None, _P)
_row_is_codeword = _call("dvdecc_row_is_codeword", _B, _P)
_row_decode = _call("dvdecc_row_decode", _U, _P, _P, _P)
_column_parity = _call("dvdecc_column_parity", None, _P)
_column_is_codeword = _call("dvdecc_column_is_codeword", _B, _P)
_column_decode = _call("dvdecc_column_decode", _U, _P, _P, _P)
_rows_parity = _call("dvdecc_rows_parity", None, _P, _N)
_rows_decode = _call("dvdecc_rows_decode", _U, _P, _N, _P, _N, _P, _N)
_rs_parity = _call("dvdecc_rs_parity", _U, _P, _N, _U)
_rs_decode = _call("dvdecc_rs_decode", _U, _P, _N, _P, _N, _U, _P)
_block_parity = _call("dvdecc_block_parity", None, _P)
_block_is_codeword = _call("dvdecc_block_is_codeword", _B, _P)
_two_pass = _call("dvdecc_two_pass", _U, _P, _P, _P)
_read_block = _call("dvdecc_read_block", _U, _P, _U, _U, _P, _P)
_salvage_block = _call("dvdecc_salvage_block", _U, _P, _U, _U, _P, _P)
_scramble = _call("dvdecc_scramble", _U, _U, _U, _P)
_make_frame = _call("dvdecc_make_frame", _U, _U, _P, _U, _P, _P)
_read_frame = _call("dvdecc_read_frame", _U, _P, _U, _U, _P, _P)
_cd_make = _call("dvdecc_cd_make", _U, _U, _P, _P)
_cd_check = _call("dvdecc_cd_check", _U, _P, _U, _P)
_cd_repair = _call("dvdecc_cd_repair", _U, _P, _U, _P)


def _view(data: ReadableBuffer, what: str) -> memoryview:
    """The bytes of an object, and of nothing that only looks like them."""
    try:
        view = memoryview(data)
    except TypeError:
        raise TypeError(f"{what} is bytes or another object with a buffer, and not {type(data).__name__}") from None
    if view.itemsize != 1:
        raise TypeError(f"{what} has items of {view.itemsize} bytes: memoryview(..).cast('B') gives its bytes")
    return view


def _given(data: ReadableBuffer, what: str, size: Optional[int] = None) -> bytes:
    """The bytes that a call reads: a copy, where they could change meanwhile."""
    view = _view(data, what)
    if size is not None and view.nbytes != size:
        raise ValueError(f"{what} has {view.nbytes} bytes and not {size}")
    return data if isinstance(data, bytes) else view.tobytes()


def _out(given: Union[bytes, int]) -> ctypes.Array[ctypes.c_char]:
    """A buffer that a call writes: so many zeros, or a copy of what it is given."""
    if isinstance(given, int):
        return (ctypes.c_char * given)()
    return (ctypes.c_char * len(given)).from_buffer_copy(given)


def _number(value: int, what: str) -> int:
    if isinstance(value, bool):
        raise TypeError(f"{what} is a number, and not bool")
    try:
        value = operator.index(value)
    except TypeError:
        raise TypeError(f"{what} is a whole number, and not {type(value).__name__}") from None
    if not 0 <= value < 2**32:
        raise ValueError(f"{what} is {value}, which isn't a number of 32 bits")
    return value


def _marks(lost: Lost, size: int) -> bytes:
    """A byte for each of so many places, by either form of lost places."""
    data: Any = lost
    try:
        memoryview(data)
    except TypeError:
        pass
    else:
        return _given(data, "what is lost", size)
    if isinstance(lost, str) or not isinstance(lost, Iterable):
        raise TypeError(f"what is lost is a byte for each place, or a list of places, and not {type(lost).__name__}")
    marks = bytearray(size)
    for place in lost:
        if _number(place, "a lost place") >= size:
            raise ValueError(f"place {place} isn't one of {size}")
        marks[place] = 1
    return bytes(marks)


def _accept(status: int, number: Optional[int] = None) -> None:
    if status != Status.OK:
        raise DvdeccError(status, number)


def edc(data: ReadableBuffer) -> bytes:
    """The EDC of a list of bytes: of the first 2,060 of a data frame, before scrambling."""
    given, out = _given(data, "data"), _out(4)
    _edc(given, len(given), out)
    return out.raw


def ied(identification: int) -> bytes:
    """The IED of an ID word."""
    out = _out(2)
    _ied(_number(identification, "an ID word"), out)
    return out.raw


def cd_edc(data: ReadableBuffer) -> bytes:
    """The EDC of a list of bytes for a CD-ROM sector: of its first 2,064."""
    given, out = _given(data, "data"), _out(4)
    _cd_edc(given, len(given), out)
    return out.raw


def row_parity(row: ReadableBuffer) -> bytes:
    """The row of 182 bytes with its last 10 set so that it is a codeword."""
    out = _out(_given(row, "a row", _ROW))
    _row_parity(out)
    return out.raw


def row_is_codeword(row: ReadableBuffer) -> bool:
    """Whether a row of 182 bytes is a codeword."""
    return bool(_row_is_codeword(_given(row, "a row", _ROW)))


def row_decode(row: ReadableBuffer, lost: Lost = ()) -> Decoded:
    """The codeword near a row of which some places are lost."""
    out, fix = _out(_given(row, "a row", _ROW)), _Correction()
    _accept(_row_decode(out, _marks(lost, _ROW), ctypes.byref(fix)))
    return Decoded(out.raw, fix.errors, fix.erasures)


def column_parity(column: ReadableBuffer) -> bytes:
    """The column of 208 bytes with its last 16 set so that it is a codeword."""
    out = _out(_given(column, "a column", _COLUMN))
    _column_parity(out)
    return out.raw


def column_is_codeword(column: ReadableBuffer) -> bool:
    """Whether a column of 208 bytes is a codeword."""
    return bool(_column_is_codeword(_given(column, "a column", _COLUMN)))


def column_decode(column: ReadableBuffer, lost: Lost = ()) -> Decoded:
    """The codeword near a column of which some places are lost."""
    out, fix = _out(_given(column, "a column", _COLUMN)), _Correction()
    _accept(_column_decode(out, _marks(lost, _COLUMN), ctypes.byref(fix)))
    return Decoded(out.raw, fix.errors, fix.erasures)


def _in_place(rows: WriteableBuffer) -> tuple[memoryview, int]:
    """The bytes of many rows, and how many rows they are."""
    view = _view(rows, "a list of rows")
    if view.readonly or not view.c_contiguous:
        raise TypeError("rows are set in place: a list of them is a bytearray, or a buffer that can be written, in one piece")
    if view.nbytes % _ROW != 0:
        raise ValueError(f"a list of rows has {view.nbytes} bytes, which isn't a multiple of {_ROW}")
    # (an empty view of several dimensions can't be cast, and has nothing to set)
    return (view.cast("B") if view.nbytes else memoryview(bytearray())), view.nbytes // _ROW


def rows_parity(rows: WriteableBuffer) -> None:
    """Sets the last 10 bytes of each of many rows, one after the other in one buffer, so that it is a codeword."""
    view, count = _in_place(rows)
    if count > 0:
        _rows_parity(ctypes.byref(ctypes.c_char.from_buffer(view)), count)


# As many rows as are decoded by one call where none of their bytes is lost, and their marks.
_STRIDE = 2048
_UNMARKED = bytes(_STRIDE * _ROW)


def rows_decode(rows: WriteableBuffer, lost: Lost = ()) -> RowAnswers:
    """Sets each of many rows, one after the other in one buffer, to the codeword near it, if there is one.

    A row without one stays as it was, and has the status UNCORRECTABLE. Lost places are counted over all the rows: place p
    of row i is 182 i + p. No other thread may write the rows meanwhile.
    """
    view, count = _in_place(rows)
    answers = array.array("I", bytes(12 * count))
    marks = None if isinstance(lost, (tuple, list, set, frozenset)) and not lost else _marks(lost, view.nbytes)
    stride = _STRIDE if marks is None else max(count, 1)
    for first in range(0, count, stride):
        some = min(stride, count - first)
        row = ctypes.byref(ctypes.c_char.from_buffer(view, first * _ROW))
        answer = ctypes.byref(ctypes.c_char.from_buffer(answers, first * 12))
        _accept(_rows_decode(row, some, _UNMARKED if marks is None else marks, some, answer, some))
    numbers = memoryview(answers).toreadonly()
    return RowAnswers(numbers[0::3], numbers[1::3], numbers[2::3])


def rs_parity(word: ReadableBuffer, parity: int) -> bytes:
    """A word of at most 255 bytes with its last 1 to 32 set so that it is a codeword."""
    given = _given(word, "a word")
    out = _out(given)
    _accept(_rs_parity(out, len(given), _number(parity, "the number of parity bytes")))
    return out.raw


def rs_decode(word: ReadableBuffer, parity: int, lost: Lost = ()) -> Decoded:
    """The codeword near a word of at most 255 bytes of which some places are lost."""
    given = _given(word, "a word")
    out, fix, size = _out(given), _Correction(), len(given)
    roots = _number(parity, "the number of parity bytes")
    _accept(_rs_decode(out, size, _marks(lost, size), size, roots, ctypes.byref(fix)))
    return Decoded(out.raw, fix.errors, fix.erasures)


def block_parity(rows: ReadableBuffer) -> bytes:
    """The 208 rows of a block one after the other, with the inner and the outer parity set."""
    out = _out(_given(rows, "a block", _ROWS * _ROW))
    _block_parity(out)
    return out.raw


def block_is_codeword(rows: ReadableBuffer) -> bool:
    """Whether each of the 208 rows of a block, one after the other, and each of its columns is a codeword."""
    return bool(_block_is_codeword(_given(rows, "a block", _ROWS * _ROW)))


def two_pass(capture: ReadableBuffer) -> Block:
    """The block that two passes find in a captured block of the marked form, 42,640 bytes in the order of recording."""
    out, report = _out(_ROWS * _ROW), _Report()
    status = _two_pass(_given(capture, "a captured block", _CAPTURE), out, ctypes.byref(report))
    _accept(status, None if status == Status.NO_MEMORY else report.number)
    return Block(out.raw, report.corrected, report.failed_rows)


def _in_sectors(data: bytes) -> list[bytes]:
    return [data[k : k + _SECTOR] for k in range(0, len(data), _SECTOR)]


_UNNUMBERED = (Status.NO_MEMORY, Status.BAD_RULE, Status.BAD_ID)


def read_block(capture: ReadableBuffer, identification: int, rule: int = Rule.WHOLE) -> Sectors:
    """The sixteen sectors of a captured block that begins with this ID word, each frame of it right.

    Sector 030000 of layer 0 has the ID word 0x00030000. The rule is that of the first frame: WHOLE for all sixteen, or
    FIRST_160, and then OFF for the others. An error IED, ID or EDC has the number of the frame; others have that of
    `two_pass`.
    """
    out, report = _out(16 * _SECTOR), _Report()
    given = _given(capture, "a captured block", _CAPTURE), _number(identification, "an ID word"), _number(rule, "a rule")
    status = _read_block(*given, out, ctypes.byref(report))
    _accept(status, None if status in _UNNUMBERED else report.number)
    return Sectors(_in_sectors(out.raw), report.corrected, report.failed_rows)


def salvage_block(capture: ReadableBuffer, identification: int, rule: int = Rule.WHOLE) -> Salvaged:
    """The sectors of a captured block that pass their checks, also of one that `read_block` refuses."""
    out, saved = _out(16 * _SECTOR), _out(16)
    given = _given(capture, "a captured block", _CAPTURE), _number(identification, "an ID word"), _number(rule, "a rule")
    _accept(_salvage_block(*given, out, saved))
    return Salvaged(_in_sectors(out.raw), [byte == 1 for byte in saved.raw])


def scramble(identification: int, main_data: ReadableBuffer, rule: int = Rule.WHOLE) -> bytes:
    """Main Data combined with the scrambling bytes of an ID word. Done twice, it is undone."""
    out = _out(_given(main_data, "Main Data", _SECTOR))
    _accept(_scramble(_number(identification, "an ID word"), _number(rule, "a rule"), out))
    return out.raw


def make_frame(
    identification: int, main_data: ReadableBuffer, cpr: ReadableBuffer = bytes(6), rule: int = Rule.WHOLE
) -> bytes:
    """The data frame of 2,064 bytes of an ID word."""
    out = _out(_FRAME)
    given = _given(cpr, "CPR_MAI", 6), _number(rule, "a rule"), _given(main_data, "Main Data", _SECTOR)
    _accept(_make_frame(_number(identification, "an ID word"), *given, out))
    return out.raw


def read_frame(frame: ReadableBuffer, identification: int, rule: int = Rule.WHOLE) -> bytes:
    """The Main Data of a data frame with this ID word. An error ID has the number that was found."""
    out, found = _out(_SECTOR), _U()
    given = _given(frame, "a frame", _FRAME), _number(identification, "an ID word"), _number(rule, "a rule")
    status = _read_frame(*given, out, ctypes.byref(found))
    _accept(status, found.value if status == Status.ID else None)
    return out.raw


_NUMBERED = (Status.CD_PARITY, Status.CD_MODE, Status.CD_ADDRESS)


def cd_make(address: int, user: ReadableBuffer) -> bytes:
    """The CD-ROM sector of 2,352 bytes of an address below 450,000."""
    out = _out(_CD_SECTOR)
    _accept(_cd_make(_number(address, "an address"), _given(user, "user data", _SECTOR), out))
    return out.raw


def cd_check(sector: ReadableBuffer, address: int) -> None:
    """Raises the first that a CD-ROM sector lacks."""
    number = _U()
    status = _cd_check(_given(sector, "a sector", _CD_SECTOR), _number(address, "an address"), ctypes.byref(number))
    _accept(status, number.value if status in _NUMBERED else None)


def cd_repair(sector: ReadableBuffer, address: int) -> tuple[bytes, int]:
    """The CD-ROM sector repaired, and how many bytes after the sync changed."""
    out, number = _out(_given(sector, "a sector", _CD_SECTOR)), _U()
    status = _cd_repair(out, _number(address, "an address"), ctypes.byref(number))
    _accept(status, number.value if status in _NUMBERED else None)
    return out.raw, number.value
