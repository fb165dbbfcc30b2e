"""From the text of one cell to the text of one field of a line.

Digits are never computed with: a text keeps them, and a number of a frame or in exponents is written out in full by
`decimal`, which is exact. The program cuts them as the standard says. A text that is spelled otherwise than AQS is
assumed to spell it is a `BadCell`, never another number.
"""

import datetime
import decimal
import functools
import re
from typing import NamedTuple, Optional

FIRST_YEAR, LAST_YEAR = 1990, 2059
MOST_QUALIFIERS = 10
# A number written with an exponent beyond these is none that a monitor reports, and would take long to write out.
MOST_EXPONENT = 40

_PLAIN = re.compile(r"[+-]?(?:[0-9]+\.?[0-9]*|\.[0-9]+)")
_WITH_EXPONENT = re.compile(r"[+-]?(?:[0-9]+\.?[0-9]*|\.[0-9]+)[eE][+-]?[0-9]{1,3}")
_DATE = re.compile(r"([0-9]{4})-([0-9]{2})-([0-9]{2})")
_TIME = re.compile(r"([01][0-9]|2[0-3]):([0-5][0-9])")
_CODE = re.compile(r"[A-Z0-9]{1,2}")
_NULL_CODE = re.compile(r"[A-Z0-9]{2}")
_BEFORE_DESCRIPTION = " - "
_SEPARATORS = re.compile(r"\s*[,;|]\s*|\s+")
_ANOTHER_CODE = re.compile(r"(?:^|[,;|]\s*)([A-Z0-9]{1,2}) - ")
_HIDDEN_CODE = re.compile(r"(?<![A-Za-z0-9])[A-Z0-9]{1,2} - ")


class BadCell(ValueError):
    """A cell that is spelled otherwise than is assumed."""


class Day(NamedTuple):
    """A day of the local calendar: as a line spells it, its year, and its place in the year from 0."""

    text: str
    year: int
    place: int


def number(text: str, digits: int, name: str) -> str:
    """A number of a place or a method, filled with zeros to so many digits."""
    if not (text.isascii() and text.isdigit() and len(text) <= digits):
        raise BadCell(f"{name} is {text!r}, and not a number of at most {digits} digits")
    return text.zfill(digits)


def poc(text: str) -> str:
    """A parameter occurrence code, 1 to 99, without leading zeros."""
    filled = number(text, 2, "the POC")
    if filled == "00":
        raise BadCell("the POC is 0")
    return filled.lstrip("0")


@functools.lru_cache(maxsize=65_536)
def day(text: str) -> Optional[Day]:
    """A day that is written as 2024-07-01; none outside 1990 to 2059."""
    found = _DATE.fullmatch(text)
    if not found:
        raise BadCell(f"the date is {text!r}, and not as 2024-07-01")
    try:
        date = datetime.date(*map(int, found.groups()))
    except ValueError:
        raise BadCell(f"there is no day {text}") from None
    if not FIRST_YEAR <= date.year <= LAST_YEAR:
        return None
    return Day("".join(found.groups()), date.year, date.timetuple().tm_yday - 1)


@functools.lru_cache(maxsize=4_096)
def hour(text: str) -> Optional[int]:
    """The hour of a local standard time that is written as 13:00; none if its minutes are not 00."""
    found = _TIME.fullmatch(text)
    if not found:
        raise BadCell(f"the time is {text!r}, and not as 13:00")
    return int(found[1]) if found[2] == "00" else None


@functools.lru_cache(maxsize=65_536)
def value(text: str) -> str:
    """A sample value in plain notation, with the digits that it has. `1e-3` is 0.001."""
    if _PLAIN.fullmatch(text):
        return text
    if not _WITH_EXPONENT.fullmatch(text):
        raise BadCell(f"the value is {text!r}, and no number")
    return plain(decimal.Decimal(text))


def plain(given: decimal.Decimal) -> str:
    """A number without an exponent, with the digits that it has."""
    if not given.is_finite():
        raise BadCell(f"the value is {given}")
    if given and abs(given.adjusted()) > MOST_EXPONENT:
        raise BadCell(f"the value is {given}, whose exponent is beyond {MOST_EXPONENT}")
    if not given and abs(int(given.as_tuple().exponent)) > MOST_EXPONENT:
        raise BadCell(f"the value is {given}, whose exponent is beyond {MOST_EXPONENT}")
    return format(given, "f")


@functools.lru_cache(maxsize=65_536)
def same_value(text: str) -> str:
    """A text that is one for all spellings of a number in plain notation: 0.041, .041 and 0.0410 have one."""
    sign = "-" if text.startswith("-") else ""
    whole, _, places = text.lstrip("+-").partition(".")
    digits = f"{whole.lstrip('0')}.{places.rstrip('0')}"
    return sign + digits if digits != "." else digits


def is_held(text: str, most_digits: int, most_negative_digits: int) -> bool:
    """Whether a line may hold a plain number: it has at most so many digits before its point, leading zeros aside."""
    whole = text.lstrip("+-").partition(".")[0].lstrip("0")
    return len(whole) <= (most_negative_digits if text.startswith("-") else most_digits)


@functools.lru_cache(maxsize=65_536)
def qualifiers(text: str) -> "tuple[str, ...]":
    """The codes of a cell such as `RT - Wildfire-U. S.` or `V`, or of several such in one cell.

    A code is one or two characters of A-Z and 0-9. It is refused, and never cut, if a piece is none or if a further
    code may stand in the words of the first one.
    """
    several = _ANOTHER_CODE.findall(text)
    if len(several) > 1:
        if len(several) != len(_HIDDEN_CODE.findall(text)):
            raise BadCell(f"the qualifier is {text!r}, of which it is not clear what is a code")
        return _distinct(several, text)
    front, behind, words = text.partition(_BEFORE_DESCRIPTION)
    if behind and _HIDDEN_CODE.search(words):
        raise BadCell(f"the qualifier is {text!r}, of which it is not clear what is a code")
    return _distinct([it for it in _SEPARATORS.split(front.strip()) if it], text)


def _distinct(codes: "list[str]", text: str) -> "tuple[str, ...]":
    wrong = [it for it in codes if not _CODE.fullmatch(it)]
    if wrong:
        raise BadCell(f"the qualifier is {text!r}, and {wrong[0]!r} is no code of one or two characters")
    distinct = tuple(dict.fromkeys(codes))
    if len(distinct) > MOST_QUALIFIERS:
        raise BadCell(f"the qualifier is {text!r}, which has more than {MOST_QUALIFIERS} codes")
    return distinct


def null_code(codes: "tuple[str, ...]") -> Optional[str]:
    """The null code of a row without a value: its code, if it has two characters. None if there is no such code."""
    if len(codes) > 1:
        raise BadCell(f"there is no value, and which of the codes {' '.join(codes)} is the null code is not said")
    return codes[0] if codes and _NULL_CODE.fullmatch(codes[0]) else None
