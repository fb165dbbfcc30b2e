"""Which samples were read, so that one which stands twice is told from one that stands twice with other contents.

Contents are kept once each. A monitor's year has a place for each of its hours, or days, of eight bytes.
"""

from array import array
from typing import NamedTuple, Optional

HOURS_OF_A_YEAR = 8_784
DAYS_OF_A_YEAR = 366


class Earlier(NamedTuple):
    """The row that had a sample's key before, and what it said."""

    row: int
    content: str


class Seen:
    """The samples of one monitor by their year and their place in it, each with its row and its content."""

    __slots__ = ("_contents", "_places", "_years")

    def __init__(self, contents: "Contents", places: int) -> None:
        self._contents = contents
        self._places = places
        self._years: "dict[int, tuple[array[int], array[int]]]" = {}

    def add(self, year: int, place: int, row: int, content: str) -> Optional[Earlier]:
        """Keeps a sample, or answers what stands under its key. Rows count from 1."""
        kept = self._years.get(year)
        if kept is None:
            nothing = bytes(4 * self._places)
            kept = self._years[year] = array("I", nothing), array("I", nothing)
        rows, contents = kept
        if rows[place]:
            return Earlier(rows[place], self._contents.text(contents[place]))
        rows[place] = row
        contents[place] = self._contents.number(content)
        return None


class Contents:
    """Texts, each kept once, under numbers."""

    __slots__ = ("_numbers", "_texts")

    def __init__(self) -> None:
        self._numbers: "dict[str, int]" = {}
        self._texts: "list[str]" = []

    def number(self, text: str) -> int:
        found = self._numbers.get(text)
        if found is None:
            found = self._numbers[text] = len(self._texts)
            self._texts.append(text)
        return found

    def text(self, number: int) -> str:
        return self._texts[number]
