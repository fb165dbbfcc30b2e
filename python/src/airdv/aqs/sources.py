"""Rows of files and frames, as text.

No cell is ever a number on its way: a file is read by `csv` or `json` as text, and a frame's numbers are written out
in full. A file that breaks off in a row is refused.
"""

import contextlib
import csv
import datetime
import decimal
import io
import json
import math
import operator
import pathlib
import zipfile
import zlib
from dataclasses import dataclass, field
from typing import IO, Any, Callable, Iterator, Mapping, Optional, Sequence, Union

import pandas

from airdv.aqs.formats import API, Format, Row, recognised
from airdv.aqs.spelling import BadCell, plain
from airdv.errors import NotAqs, RowRefused

_CODES = ("state", "county", "site", "parameter", "poc", "unit", "duration", "method")
_LOST_DIGITS = ("float16", "float32")


@dataclass
class Answer:
    """The header of an answer of the API. Its address is kept for the checks of an extract alone, and shown nowhere,
    since it holds a user's key."""

    status: str
    rows: Optional[str]
    address: str = field(repr=False)


class Source:
    """A file or a frame: what it is called, its format, and its rows with their numbers.

    `answer` is the header of an answer of the API, and none elsewhere.
    """

    name: str
    format: Format
    answer: Optional[Answer] = None

    def rows(self) -> "Iterator[tuple[int, Row]]":
        """Each row with its number: of a table its line in the file, else its place from 1."""
        raise NotImplementedError

    def place(self, row: int) -> str:
        """Where a row stands, for a reader."""
        return f"{self.name}, row {row}"


def opened(given: Union[str, pathlib.Path, "pandas.DataFrame"], place: int) -> Source:
    """A file by its path, or a frame; `place` counts the frames."""
    if isinstance(given, pandas.DataFrame):
        return FrameSource(given, f"frame {place}")
    path = pathlib.Path(given)
    try:
        with path.open("rb") as file:
            front = file.read(64)
    except OSError as error:
        raise NotAqs(f"{path} cannot be read: {error.strerror}") from None
    if front.removeprefix(b"\xef\xbb\xbf").lstrip()[:1] in (b"{", b"["):
        return AnswerSource(path)
    return TableSource(path, is_zipped=front.startswith(b"PK"))


def _picker(of: Format, header: Sequence[str]) -> "Callable[[Sequence[str]], tuple[str, ...]]":
    """The cells of a row in the order of `Row`; fixed cells stand behind those of the header."""
    names = list(header)
    places = [len(names) + list(of.fixed).index(it) if it in of.fixed else names.index(of.columns[it]) for it in Row._fields]
    return operator.itemgetter(*places)


def _without_missing(of: Format, row: Row) -> Row:
    return Row(*("" if it in of.no_value else it for it in row))


# ---- CSV


@contextlib.contextmanager
def _text(path: pathlib.Path, is_zipped: bool) -> "Iterator[IO[str]]":
    """The text of a CSV, or of the one CSV in a zip. Bytes that are no UTF-8 stay apart in columns that are not read."""
    with contextlib.ExitStack() as stack:
        if is_zipped:
            archive = stack.enter_context(zipfile.ZipFile(path))
            members = [it for it in archive.namelist() if it.lower().endswith(".csv")]
            if len(members) != 1:
                raise NotAqs(f"{path} has {len(members)} CSV files, and not one")
            raw: Any = stack.enter_context(archive.open(members[0]))
        else:
            raw = stack.enter_context(path.open("rb"))
        yield stack.enter_context(io.TextIOWrapper(raw, encoding="utf-8-sig", errors="surrogateescape", newline=""))


@dataclass
class TableSource(Source):
    """A CSV with a header, zipped or not."""

    path: pathlib.Path
    is_zipped: bool

    def __post_init__(self) -> None:
        self.name = str(self.path)
        with self._open() as text:
            self.format = recognised(next(csv.reader(self._whole_lines(text), strict=True), []), self.name)

    def place(self, row: int) -> str:
        return f"{self.name}, line {row}"

    @contextlib.contextmanager
    def _open(self) -> "Iterator[IO[str]]":
        try:
            with _text(self.path, self.is_zipped) as text:
                yield text
        except (OSError, EOFError, csv.Error, zipfile.BadZipFile, zlib.error, RuntimeError) as error:
            raise NotAqs(f"{self.name} cannot be read: {error}") from None

    def _whole_lines(self, text: "IO[str]") -> "Iterator[str]":
        """The lines of a text. One without an end may be a front of itself, and its last number a front of a number."""
        for line in text:
            if not line.endswith(("\n", "\r")):
                raise NotAqs(f"{self.name} breaks off: its last line has no end")
            yield line

    def rows(self) -> "Iterator[tuple[int, Row]]":
        with self._open() as text:
            yield from self._rows(text)

    def _rows(self, text: "IO[str]") -> "Iterator[tuple[int, Row]]":
        reader = csv.reader(self._whole_lines(text), strict=True)
        of = self.format
        header: "list[str]" = next(reader, [])
        pick, width, fixed, missing = _picker(of, header), len(header), list(of.fixed.values()), of.no_value
        for cells in reader:
            if len(cells) != width:
                if not cells:
                    continue
                raise NotAqs(f"{self.name}, line {reader.line_num} has {len(cells)} cells and not {width}: the file breaks off, or is no such table")
            cells += fixed
            row = Row._make(pick(cells))
            yield reader.line_num, _without_missing(of, row) if len(missing) > 1 else row


# ---- answers of the API


def _object(pairs: "list[tuple[str, Any]]") -> "dict[str, Any]":
    made = dict(pairs)
    if len(made) < len(pairs):
        raise ValueError("an object has a name twice")
    return made


def _no_constant(name: str) -> Any:
    raise ValueError(f"{name} is no JSON")


@dataclass
class AnswerSource(Source):
    """An answer of the API, as JSON: its header, and its rows."""

    path: pathlib.Path

    def __post_init__(self) -> None:
        self.name, self.format = str(self.path), API
        self.answer, self.data = self._read()

    def _read(self) -> "tuple[Answer, list[dict[str, Any]]]":
        try:
            text = self.path.read_text(encoding="utf-8-sig")
            whole = json.loads(text, parse_float=str, parse_int=str, parse_constant=_no_constant, object_pairs_hook=_object)
        except (OSError, ValueError, RecursionError) as error:
            # (the text of such an error may have a part of the address)
            raise NotAqs(f"{self.name} is no whole JSON: {type(error).__name__}") from None
        if not isinstance(whole, dict) or not isinstance(whole.get("Header"), list) or not isinstance(whole.get("Data"), list):
            raise NotAqs(f"{self.name} has not the Header and the Data of an answer of the AQS API")
        headers, data = whole["Header"], whole["Data"]
        if len(headers) != 1 or not isinstance(headers[0], dict) or not all(isinstance(it, dict) for it in data):
            raise NotAqs(f"{self.name} has another Header or Data than an answer of the AQS API")
        header = headers[0]
        answer = Answer(str(header.get("status", "")), header.get("rows"), str(header.get("url", "")))
        if answer.rows is not None and str(answer.rows) != str(len(data)):
            raise NotAqs(f"{self.name} has {len(data)} rows, and its header says {answer.rows}")
        return answer, data

    def rows(self) -> "Iterator[tuple[int, Row]]":
        for number, given in enumerate(self.data, 1):
            yield number, Row._make(self._cells(given, number))

    def _cells(self, given: "Mapping[str, Any]", number: int) -> "Iterator[str]":
        for cell in Row._fields:
            if cell in API.fixed:
                yield API.fixed[cell]
                continue
            name = API.columns[cell]
            if name not in given:
                raise NotAqs(f"{self.place(number)} has no {name}, as {API.name} has")
            found = given[name]
            if found is not None and not isinstance(found, str):
                raise RowRefused(f"{self.place(number)}: {name} is neither a text nor a number")
            yield found or ""


# ---- frames


def text_of(cell: str, given: Any) -> str:
    """The text of a frame's cell: numbers in full, and nothing for what is missing."""
    if isinstance(given, str):
        return given
    if given is None or given is pandas.NA or given is pandas.NaT:
        return ""
    if isinstance(given, bool):
        raise BadCell(f"the {cell} is {given}")
    if isinstance(given, int):
        return str(given)
    if isinstance(given, float):
        if math.isnan(given):
            return ""
        if cell in _CODES and given.is_integer():
            # (a column of codes in which some are missing becomes one of such numbers)
            return str(int(given))
        return plain(decimal.Decimal(repr(given)))
    if isinstance(given, decimal.Decimal):
        return "" if given.is_nan() else plain(given)
    if isinstance(given, datetime.datetime):
        return given.date().isoformat() if cell == "date" and given.time() == datetime.time() else given.isoformat()
    if isinstance(given, datetime.date):
        return given.isoformat()
    if isinstance(given, datetime.time):
        return given.strftime("%H:%M") if given == given.replace(second=0, microsecond=0, tzinfo=None) else given.isoformat()
    raise BadCell(f"the {cell} is of the type {type(given).__name__}")


_PIECE = 50_000


@dataclass
class FrameSource(Source):
    """A frame with the columns of a format."""

    frame: Any
    name: str

    def __post_init__(self) -> None:
        self.format = recognised([str(it) for it in self.frame.columns], self.name)

    def rows(self) -> "Iterator[tuple[int, Row]]":
        of = self.format
        for name in of.columns.values():
            if str(self.frame[name].dtype) in _LOST_DIGITS:
                raise NotAqs(f"{self.name}: {name} is of {self.frame[name].dtype}, which has lost digits")
        for begin in range(0, len(self.frame), _PIECE):
            piece = self.frame.iloc[begin:begin + _PIECE]
            columns = [
                [of.fixed[cell]] * len(piece) if cell in of.fixed else piece[of.columns[cell]].tolist()
                for cell in Row._fields
            ]
            for number, cells in enumerate(zip(*columns), begin + 1):
                try:
                    yield number, _without_missing(of, Row._make(map(text_of, Row._fields, cells)))
                except BadCell as error:
                    raise RowRefused(f"{self.place(number)}: {error}") from None
