"""Sheets, as the program prints them or sends them as JSON, and the frames that are made of them.

A sheet that has not the heads and columns of the table of questions is an `UnexpectedReply`.
"""

import csv
import datetime
import io
import json
from dataclasses import dataclass
from decimal import Decimal
from typing import Any, List, Mapping, Optional, Sequence

import pandas

from airdv.errors import UnexpectedReply
from airdv.questions import EXPORT, Form, Kind, Names

MISSING = "-"
# What numbers with places become.
NUMBERS = ("decimal", "float")

Cells = List[Optional[str]]


@dataclass
class Sheet:
    """A sheet's cells as texts; a missing one is none. The order is that of its form."""

    heads: Cells
    rows: "list[Cells]"


# ---- reading


def of_text(text: str, forms: "Sequence[Form]") -> "list[Sheet]":
    """The sheets of what a command printed."""
    lines = text.splitlines()
    sheets = []
    for place, form in enumerate(forms):
        heads: Cells = []
        for name in form.heads:
            word, _, cell = _first(lines).partition(" ")
            if word != name:
                raise UnexpectedReply(f"the sheet has {word!r} where {name} is due")
            heads.append(_cell(cell))
        if _first(lines).split(" ") != list(form.columns):
            raise UnexpectedReply(f"the sheet has not the columns {' '.join(form.columns)}")
        # (no row begins with the name of a head, which is where the next sheet begins)
        following = next(iter(forms[place + 1].heads)) if place + 1 < len(forms) else None
        rows: "list[Cells]" = []
        while lines and lines[0].split(" ")[0] != following:
            rows.append([_cell(it) for it in lines.pop(0).split(" ")])
        sheets.append(_checked(Sheet(heads, rows), form))
    return sheets


def _first(lines: "list[str]") -> str:
    if not lines:
        raise UnexpectedReply("the sheet breaks off")
    return lines.pop(0)


def _cell(text: str) -> Optional[str]:
    return None if text == MISSING else text


def of_json(text: str, forms: "Sequence[Form]") -> "list[Sheet]":
    """The sheets of a reply: an object, or an array of them."""
    try:
        whole = json.loads(text, parse_int=str, parse_float=str)
    except ValueError:
        raise UnexpectedReply("the reply is no JSON") from None
    given = whole if isinstance(whole, list) else [whole]
    if len(given) != len(forms) or not all(isinstance(it, dict) for it in given):
        raise UnexpectedReply(f"the reply has {len(given)} sheets where {len(forms)} are due")
    return [_of_object(it, form) for it, form in zip(given, forms)]


def _of_object(given: "Mapping[str, Any]", form: Form) -> Sheet:
    if set(given) != {*form.heads, "columns", "rows"} or given["columns"] != list(form.columns):
        raise UnexpectedReply(f"the sheet has not the heads {' '.join(form.heads)} and the columns {' '.join(form.columns)}")
    return _checked(Sheet([given[it] for it in form.heads], given["rows"]), form)


def _checked(sheet: Sheet, form: Form) -> Sheet:
    if any(not isinstance(it, list) or len(it) != len(form.columns) for it in sheet.rows):
        raise UnexpectedReply("a row of the sheet has another number of cells than columns")
    if any(not (it is None or isinstance(it, str)) for row in (sheet.heads, *sheet.rows) for it in row):
        raise UnexpectedReply("a cell of the sheet is neither a text nor a number")
    return sheet


# ---- frames


def frame(sheet: Sheet, form: Form, numbers: str) -> "pandas.DataFrame":
    """The rows of a sheet, and its heads under `attrs`."""
    columns = list(zip(*sheet.rows)) if sheet.rows else [()] * len(form.columns)
    made = _frame(form.columns, columns, numbers)
    try:
        made.attrs.update((name, _one(kind, text, numbers)) for (name, kind), text in zip(form.heads.items(), sheet.heads))
    except (ValueError, ArithmeticError) as error:
        raise UnexpectedReply(f"a head of the sheet is of another kind: {error}") from None
    return made


def export_frame(text: str, numbers: str) -> "pandas.DataFrame":
    """What `export` prints. An empty cell is missing, and the null code `NA` is a text."""
    rows = list(csv.reader(io.StringIO(text), strict=True))
    if not rows or rows[0] != list(EXPORT) or any(len(it) != len(EXPORT) for it in rows):
        raise UnexpectedReply("the export has other columns")
    columns = [tuple(it or None for it in column) for column in zip(*rows[1:])] or [()] * len(EXPORT)
    return _frame(EXPORT, columns, numbers)


def _frame(names: Names, columns: "Sequence[Sequence[Optional[str]]]", numbers: str) -> "pandas.DataFrame":
    if numbers not in NUMBERS:
        raise ValueError(f"numbers are {' or '.join(NUMBERS)}, and not {numbers!r}")
    try:
        return pandas.DataFrame({name: _column(kind, cells, numbers) for (name, kind), cells in zip(names.items(), columns)})
    except (ValueError, ArithmeticError) as error:
        raise UnexpectedReply(f"a cell of the sheet is of another kind: {error}") from None


def _column(kind: Kind, cells: "Sequence[Optional[str]]", numbers: str) -> Any:
    return _typed(kind, [_one(kind, it, numbers) for it in cells], numbers)


def repeated(kind: Kind, value: object, count: int, numbers: str) -> Any:
    """A column that has one value in each of so many rows."""
    return _typed(kind, [value] * count, numbers)


def _typed(kind: Kind, values: "list[Any]", numbers: str) -> Any:
    if kind is Kind.INT:
        return pandas.array(values, dtype="Int64")
    if kind is Kind.FIXED:
        return pandas.array(values, dtype="Float64") if numbers == "float" else pandas.Series(values, dtype="object")
    if kind is Kind.TEXT:
        return pandas.array(values, dtype="string")
    return pandas.Series([pandas.NaT if it is pandas.NA else it for it in values], dtype="datetime64[ns]")


def _one(kind: Kind, text: Optional[str], numbers: str) -> Any:
    """A number, a text or a time; NA if it is missing."""
    if text is None:
        return pandas.NA
    if kind is Kind.INT:
        return int(text)
    if kind is Kind.FIXED:
        return float(text) if numbers == "float" else Decimal(text)
    return text if kind is Kind.TEXT else pandas.Timestamp(datetime.datetime.strptime(text, "%Y-%m-%d" if kind is Kind.DAY else "%Y-%m-%dT%H:%M"))
