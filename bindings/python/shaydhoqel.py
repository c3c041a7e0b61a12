"""The clearing desk of document 01 for programs in Python: calls of the proved library, by ctypes alone.

    >>> opening = Opening(date=250630, currency="pesos", entities=[401, 402, 403])
    >>> try:
    ...     opening.read(b"no file")
    ... except Refusal as refusal:
    ...     print(refusal.number.name, refusal)
    LENGTH refused 201 at 0: file under 188 or over 940,000 bytes, or no multiple of 94; a company's under 250, or no multiple of 250
    >>> day = opening.day([b"no file", b""])
    >>> [int(refusal.number) for refusal in day.answers], day.cells[401].position
    ([201, 201], 0)

`bash bindings/library` writes the library, libshaydhoqel.so. It is looked for beside this file, in ../target/library and in ../../../lib
from here, or is the file that the environment names as SHAYDHOQEL_LIBRARY.

Files, trays, header bodies, LO bodies and motive lists are bytes; any other buffer is copied first, so that no thread can change what the
library reads. What is no number or no buffer is a TypeError before the call, a number of more than 64 bits an OverflowError. Calls let
other threads run.
"""

from __future__ import annotations

import ctypes
import os
from ctypes import POINTER, c_bool, c_char_p, c_int64, c_size_t, c_uint8, c_uint64
from dataclasses import dataclass
from enum import Enum, IntEnum
from itertools import accumulate
from operator import index
from pathlib import Path
from typing import Any, Iterable, Optional, Tuple, Union

# Bytes of a record, and of the longest file.
RECORD = 94
FILE_LIMIT = 940_000
# Bytes of a tray's record, two for its mark; and of the longest tray that a file is stripped to.
TRAY_RECORD = 96
TRAY_ROOM = 960_000
# Bytes of a record of a company's file.
COMPANY_RECORD = 250
# Bytes of the text of a reason, and of a motive list: one hundred lines, R00 first.
TEXT = 44
MOTIVES = 4_400
# Entity numbers 0 to 499; nobody has number 0.
ENTITIES = 500
# Bytes of the longest listing.
LISTING = 33_525
# Figures of a cell.
POSITION = 0
SENT = 1
RECEIVED = 2
FIGURES = 3
# The source of a text, in what the calls say: none, positions 36-79 of its record, or the motive list.
NOWHERE = 0
IN_FILE = 1
IN_MOTIVES = 2
# The place of a refused opening, in what the calls say; None in a Refusal.
OPENING = 18_446_744_073_709_551_615

# Bytes of stack that suffice for a thread that makes any call, or the call named: threading.stack_size takes them.
STACK = 655_360
STACK_READ = 393_216
STACK_DAY = 655_360
STACK_DAY_LISTING = 655_360
STACK_LISTING = 458_752
STACK_EXTRACT = 524_288
STACK_BUILD = 131_072
STACK_STRIP = 524_288
STACK_COMPANY = 131_072
STACK_RECEIVE = 524_288
STACK_SHOW = 524_288
STACK_REASONS = 524_288

Buffer = Union[bytes, bytearray, memoryview]


class Currency(Enum):
    """The currency of a session, or of a company's file; its name, as "pesos", will do for it."""

    PESOS = "pesos"
    DOLLARS = "dollars"


class Fault(IntEnum):
    """What is wrong, by its number in document 01."""

    words: str

    def __new__(cls, number: int, words: str) -> Fault:
        fault = int.__new__(cls, number)
        fault._value_, fault.words = number, words
        return fault

    LENGTH = 201, "file under 188 or over 940,000 bytes, or no multiple of 94; a company's under 250, or no multiple of 250"
    FORMAT = 17, "character, order, fixed field, entity or control wrong"
    AMOUNT = 19, "amount not ten digits, or zero"
    ADDITIONAL = 25, "additional record missing, surplus or wrong"
    COUNTER = 27, "counter out of sequence"
    DATE = 75, "date wrong"
    RESERVED = 77, "individual record, field 4: the reserved zero"
    ACCOUNT = 78, "individual record, field 5: the account"
    REFERENCE = 79, "individual record, field 7: the reference of the debit"
    INFORMATION = 87, "individual record, field 9: the information on the transaction"
    CURRENCY = 203, "entity of the other currency, or a company's detail not of the currency"
    ROSTER = 204, "entity not on the roster"
    ROOM = 206, "output buffer shorter than the output"
    TRAY = 207, "tray, header body or LO body malformed, or motive list not 4,400 bytes"
    ENTITY = 208, "entity number not 1 to 499, or, in a job for one entity, not on the roster"
    IDENTIFIER = 209, "identifier already accepted from this origin"
    REASON = 214, "record asked for is not a rejection's additional record"


class Refusal(Exception):
    """A job was refused. `number` is a Fault. `place` counts records from 0, and is 0 too where the refusal is tied to none; it is None
    where the opening was refused: then nothing else was done, and nothing lent was written."""

    def __init__(self, number: int, place: Optional[int]) -> None:
        super().__init__(number, place)
        self.number = Fault(number)
        self.place = place

    @property
    def opening(self) -> bool:
        """Whether the opening itself was refused."""
        return self.place is None

    def __str__(self) -> str:
        said = f"opening refused {self.number:d}" if self.opening else f"refused {self.number:d} at {self.place}"
        return f"{said}: {self.number.words}"

    def __eq__(self, other: object) -> bool:
        return isinstance(other, Refusal) and self.args == other.args

    def __hash__(self) -> int:
        return hash(self.args)


@dataclass(frozen=True)
class Cell:
    """What a session holds for an entity: its position in cents, negative where it pays, and the individual records sent and received."""

    position: int = 0
    sent: int = 0
    received: int = 0


@dataclass(frozen=True)
class Day:
    """What a day leaves behind: for each file None, or the Refusal that it met; and a cell for each entity number."""

    answers: Tuple[Optional[Refusal], ...]
    cells: Tuple[Cell, ...]


@dataclass(frozen=True)
class Reason:
    """Why a debit came back: the additional record of the rejection, from 0, the R number in it, and the text, 44 bytes of the file or
    of the motive list, as they stand."""

    record: int
    number: int
    text: bytes


@dataclass(frozen=True, init=False)
class Opening:
    """What a session is opened with, for each job anew: a date (AAMMDD, as the number those digits spell), a currency, and the entity
    numbers of the roster, in any order, repeats allowed. Every job refuses a bad date by 75, then a number that is not 1 to 499 by 208."""

    date: int
    currency: Currency
    entities: Tuple[int, ...]

    def __init__(self, date: int, currency: Union[Currency, str], entities: Iterable[int]) -> None:
        object.__setattr__(self, "date", _number(date))
        object.__setattr__(self, "currency", Currency(currency))
        object.__setattr__(self, "entities", tuple(map(_number, entities)))

    def read(self, file: Buffer) -> int:
        """Reads a file, and counts its records."""
        return _counted(self._call("read", *_lent(_bytes(file))))

    def day(self, files: Iterable[Buffer]) -> Day:
        """Presents the files in turn. A refused one changes no cell and uses up no identifier."""
        files = list(map(_bytes, files))
        said = (c_uint64 * (2 * len(files)))()
        figures = (c_int64 * (FIGURES * ENTITIES))()
        _counted(self._call("day", *_joined(files), *_lent(said), *_lent(figures)))
        answers = (_refusal(*answer) for answer in zip(said[0::2], said[1::2]))
        by_figure = (figures[figure * ENTITIES : (figure + 1) * ENTITIES] for figure in (POSITION, SENT, RECEIVED))
        return Day(tuple(answers), tuple(map(Cell, *by_figure)))

    def day_listing(self, files: Iterable[Buffer]) -> bytes:
        """The listing of the session at the end of such a day, whatever the answers were."""
        out = (c_uint8 * LISTING)()
        return bytes(out[: _counted(self._call("day_listing", *_joined(list(map(_bytes, files))), out))])

    def extract(self, entity: int, file: Buffer) -> bytes:
        """What the file holds for one entity: refused by 208, then as the file's reading is."""
        out = bytearray(min(memoryview(file).nbytes, FILE_LIMIT))
        return bytes(out[: self.extract_into(entity, file, out)])

    def extract_into(self, entity: int, file: Buffer, out: Buffer) -> int:
        """Writes the extract at the front of a buffer, and counts its bytes; the rest of the buffer stays. Where it is too short, 206."""
        return _counted(self._call("extract", _number(entity), *_lent(_bytes(file)), *_lent(_writable(out))))

    def build(self, header: Buffer, tray: Buffer) -> bytes:
        """The file built from a header body of 94 bytes and a tray: refused by 207, then by 201, then as the file's reading is."""
        out = bytearray(FILE_LIMIT)
        return bytes(out[: self.build_into(header, tray, out)])

    def build_into(self, header: Buffer, tray: Buffer, out: Buffer) -> int:
        """Writes the file at the front of a buffer, and counts its bytes; the rest of the buffer stays. Where it is too short, 206. Where
        the reading refuses, all bytes that the file would have taken are spaces; after any other refusal nothing was written."""
        return _counted(self._call("build", *_lent(_bytes(header)), *_lent(_bytes(tray)), *_lent(_writable(out))))

    def strip(self, file: Buffer) -> bytes:
        """The tray of a file: refused as the file's reading is."""
        out = bytearray(TRAY_ROOM)
        return bytes(out[: self.strip_into(file, out)])

    def strip_into(self, file: Buffer, out: Buffer) -> int:
        """Writes the tray at the front of a buffer, and counts its bytes; the rest of the buffer stays. Where it is too short, 206."""
        return _counted(self._call("strip", *_lent(_bytes(file)), *_lent(_writable(out))))

    def receive(self, entity: int, file: Buffer) -> int:
        """Reads an extract as the desk of its entity does, and counts its records; nothing is posted. Refused by 208, then as the reading
        is, where another desk's header, a foreign destination or a wrong batch number is 17."""
        return _counted(self._call("receive", _number(entity), *_lent(_bytes(file))))

    def show(self, entity: int, file: Buffer, motives: Buffer, record: int) -> bytes:
        """The text of the reason in one record of an extract, the additional record of a rejection: its positions 36-79 where they are
        not all blank, otherwise the line of its R number in a motive list of 4,400 bytes. Refused by 208, then by 207 for a motive list of
        another length, then as receiving is, then by 214 where the record is no such one."""
        file, motives = _bytes(file), _bytes(motives)
        shown = self._call("show", _number(entity), *_lent(file), *_lent(motives), _number(record))
        _counted(shown)
        return _text(shown.source, shown.at, file, motives)

    def reasons(self, entity: int, file: Buffer, motives: Buffer) -> Tuple[Reason, ...]:
        """The reasons in all records of an extract, in the order of the records. Refused as showing is, but for 214."""
        file, motives = _bytes(file), _bytes(motives)
        texts = (c_uint64 * (2 * (min(len(file), FILE_LIMIT) // RECORD)))()
        _counted(self._call("reasons", _number(entity), *_lent(file), *_lent(motives), *_lent(texts)))
        return tuple(
            Reason(record, int(file[record * RECORD + 4 : record * RECORD + 6]), _text(source, at, file, motives))
            for record, (source, at) in enumerate(zip(texts[0::2], texts[1::2]))
            if source != NOWHERE
        )

    def _call(self, job: str, *arguments: Any) -> Any:
        entities = (c_uint64 * len(self.entities))(*self.entities)
        function = getattr(_LIBRARY, f"shaydhoqel_{job}")
        return function(self.date, self.currency is Currency.DOLLARS, *_lent(entities), *arguments)


def listing(file: Buffer) -> bytes:
    """What the program `positions` prints for this input: the listing of one file, or its refusal."""
    out = (c_uint8 * LISTING)()
    return bytes(out[: _LIBRARY.shaydhoqel_listing(*_lent(_bytes(file)), out)])


def company(currency: Union[Currency, str], lo: Buffer, file: Buffer) -> bytes:
    """The tray of a company's file, details of 250 bytes and a closing record, under an LO body of 94 bytes; no session is opened. Refused
    by 201, then by 207, both at 0, then as the first record at fault is: a detail by 17, 203, 19 or 75, the closing record by 17."""
    held = _bytes(file)
    out = bytearray(len(held) // COMPANY_RECORD * TRAY_RECORD)
    return bytes(out[: company_into(currency, lo, held, out)])


def company_into(currency: Union[Currency, str], lo: Buffer, file: Buffer, out: Buffer) -> int:
    """Writes that tray at the front of a buffer, and counts its bytes; the rest of the buffer stays. Where it is too short, 206."""
    dollars = Currency(currency) is Currency.DOLLARS
    return _counted(_LIBRARY.shaydhoqel_company(dollars, *_lent(_bytes(lo)), *_lent(_bytes(file)), *_lent(_writable(out))))


class _Spoken(ctypes.Structure):
    _fields_ = [("number", c_uint64), ("place", c_uint64)]


class _Shown(ctypes.Structure):
    _fields_ = [("number", c_uint64), ("place", c_uint64), ("source", c_uint64), ("at", c_uint64)]


def _number(value: int) -> int:
    number = index(value)
    if not 0 <= number < 2**64:
        raise OverflowError(f"{number} is negative, or needs more than 64 bits")
    return number


def _bytes(value: Buffer) -> bytes:
    return value if isinstance(value, bytes) else memoryview(value).tobytes()


def _writable(out: Buffer) -> Any:
    view = memoryview(out).cast("B")
    return (c_uint8 * len(view)).from_buffer(view)


def _lent(elements: Any) -> Tuple[Any, int]:
    return elements, len(elements)


def _joined(files: list[bytes]) -> Tuple[Any, int, bytes, int]:
    """Where each file ends, and all files one behind the other."""
    ends = (c_uint64 * len(files))(*accumulate(map(len, files)))
    return (*_lent(ends), *_lent(b"".join(files)))


def _refusal(number: int, place: int) -> Optional[Refusal]:
    if number == 0:
        return None
    try:
        return Refusal(number, None if place == OPENING else place)
    except ValueError:
        raise RuntimeError(f"a library of another version: no refusal known here has number {number}") from None


def _text(source: int, at: int, file: bytes, motives: bytes) -> bytes:
    return (file if source == IN_FILE else motives)[at : at + TEXT]


def _counted(said: Union[_Spoken, _Shown]) -> int:
    refusal = _refusal(said.number, said.place)
    if refusal is not None:
        raise refusal
    return said.place


def _found() -> str:
    """The library's file."""
    named = os.environ.get("SHAYDHOQEL_LIBRARY")
    if named:
        return named
    here = Path(__file__).resolve().parent
    files = [here / folder / "libshaydhoqel.so" for folder in ("", "../target/library", "../../../lib")]
    for file in files:
        if file.is_file():
            return str(file)
    tried = ", ".join(map(str, files))
    raise FileNotFoundError(f"none of {tried}: `bash bindings/library` writes it, or SHAYDHOQEL_LIBRARY names it")


def _loaded() -> ctypes.CDLL:
    """The library, with its functions as include/desk.h declares them."""
    library = ctypes.CDLL(_found())
    opening = (c_uint64, c_bool, POINTER(c_uint64), c_size_t)
    numbers, signed = (POINTER(c_uint64), c_size_t), (POINTER(c_int64), c_size_t)
    read, written = (c_char_p, c_size_t), (POINTER(c_uint8), c_size_t)
    listed = (POINTER(c_uint8 * LISTING),)
    for job, result, parameters in (
        ("read", _Spoken, opening + read),
        ("day", _Spoken, opening + numbers + read + numbers + signed),
        ("day_listing", _Spoken, opening + numbers + read + listed),
        ("listing", c_uint64, read + listed),
        ("extract", _Spoken, opening + (c_uint64,) + read + written),
        ("build", _Spoken, opening + read + read + written),
        ("strip", _Spoken, opening + read + written),
        ("company", _Spoken, (c_bool,) + read + read + written),
        ("receive", _Spoken, opening + (c_uint64,) + read),
        ("show", _Shown, opening + (c_uint64,) + read + read + (c_uint64,)),
        ("reasons", _Spoken, opening + (c_uint64,) + read + read + numbers),
    ):
        function = getattr(library, f"shaydhoqel_{job}")
        function.restype, function.argtypes = result, parameters
    return library


_LIBRARY = _loaded()
