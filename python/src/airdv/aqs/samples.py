"""From rows to the lines of samples: what is left out, and why, and what is refused.

What is refused ends the reading with both rows, where there are two: a row that is spelled otherwise than is assumed,
one key with two contents, one monitor with two durations. What is left out is counted by its cause.
"""

from collections import Counter
from dataclasses import dataclass, field
from typing import Iterator, NamedTuple, Optional, Tuple, Union

from airdv.aqs import spelling
from airdv.aqs.choice import Choice
from airdv.aqs.formats import DAY, POLLUTANTS, Format, Row
from airdv.aqs.seen import DAYS_OF_A_YEAR, HOURS_OF_A_YEAR, Contents, Seen
from airdv.aqs.sources import Source
from airdv.errors import RowRefused

# Why a row is left out.
COUNTRY = "state CC, of Canada"
PARAMETER = "another parameter"
UNIT = "another pair of parameter and unit"
DURATION = "another duration"
EVENT = "a summary without the samples of events"
DATE = "a day outside 1990 to 2059"
MINUTES = "other minutes than 00"
NOTHING = "no value and no null code"
BEYOND = "a value beyond what a line may hold"

# A monitor by its site, as 06-037-1103, its parameter and its POC.
MonitorKey = Tuple[str, str, str]


@dataclass(eq=False)
class Monitor:
    """A monitor whose samples are read: its site, parameter, POC and duration, and the years of its samples."""

    site: str
    parameter: str
    poc: str
    duration: str
    row: int
    seen: Seen
    years: "set[int]" = field(default_factory=set)

    @property
    def key(self) -> MonitorKey:
        return self.site, self.parameter, self.poc

    def __str__(self) -> str:
        return f"{self.site} {self.parameter} POC {self.poc}"


class _Stream(NamedTuple):
    """What rows with the same place, parameter, POC, unit, duration and event share."""

    key: MonitorKey
    duration: str
    unit: str
    most: "tuple[int, int]"
    front: str
    is_included: bool


class _Left(NamedTuple):
    """Why such rows are left out, and their monitor if it is known. Without a cause they were not chosen."""

    cause: Optional[str]
    key: Optional[MonitorKey]


@dataclass
class LeftOut:
    """The rows that are left out for one cause: how many, and where the first stands."""

    count: int
    first: str


class Samples:
    """Reads rows, and gives the line of each sample.

    `durations` says for a monitor with samples of an hour and of 24 hours which of them to read, and `only` of which
    duration to read any.
    """

    def __init__(self, choice: Optional[Choice] = None, durations: "Optional[dict[MonitorKey, str]]" = None,
                 only: Optional[str] = None) -> None:
        self.choice = choice or Choice()
        self.monitors: "dict[MonitorKey, Monitor]" = {}
        self.left_out: "dict[str, LeftOut]" = {}
        self.left_out_of: "Counter[MonitorKey]" = Counter()
        self.written = self.not_chosen = self.repeated = self.included = 0
        self._durations = durations or {}
        self._only = only
        self._first_day, self._last_day = "", "9"
        self._contents = Contents()
        self._streams: "dict[tuple[str, ...], Union[_Stream, _Left]]" = {}
        # (a row's number counts all rows of all sources; each source has those above its base)
        self._bases: "list[tuple[int, Source]]" = []
        self._last_row = 0

    def only_days(self, first_day: str, last_day: str) -> None:
        """Passes over all other days; each as 20240701."""
        self._first_day, self._last_day = first_day, last_day

    def lines(self, source: Source) -> "Iterator[tuple[Monitor, str]]":
        """The line of each sample of a source, without its end, and the sample's monitor."""
        base = self._last_row
        self._bases.append((base, source))
        self._streams.clear()
        of = source.format
        for row_number, row in source.rows():
            self._last_row = base + row_number
            try:
                found = self._read(of, row, base + row_number)
            except spelling.BadCell as error:
                raise RowRefused(f"{source.place(row_number)}: {error}") from None
            if found is not None:
                yield found

    def place(self, row: int) -> str:
        """Where a row stands, by its number over all sources."""
        base, source = max((it for it in self._bases if it[0] < row), key=lambda it: it[0])
        return source.place(row - base)

    # ---- one row

    def _read(self, of: Format, row: Row, number: int) -> "Optional[tuple[Monitor, str]]":
        same = row[:8]
        stream = self._streams.get(same)
        if stream is None:
            stream = self._streams[same] = self._stream(of, row)
        if isinstance(stream, _Left):
            if stream.cause is None or not self._is_in_span(row.date):
                self.not_chosen += 1
            else:
                self._leave_out(stream.cause, number, stream.key)
            return None
        day = spelling.day(row.date)
        if day is None:
            self._leave_out(DATE, number, None)
            return None
        if not self._first_day <= day.text <= self._last_day or not self.choice.has_year(day.year):
            self.not_chosen += 1
            return None
        hour = spelling.hour(row.time)
        if hour is None:
            self._leave_out(MINUTES, number, stream.key)
            return None
        codes = spelling.qualifiers(row.qualifier)
        if row.value:
            value = spelling.value(row.value)
            if not spelling.is_held(value, *stream.most):
                self._leave_out(BEYOND, number, stream.key)
                return None
            behind = f"||||{'|'.join(codes)}" if codes else ""
            content = spelling.same_value(value) + behind
            behind = value + behind
        else:
            null = spelling.null_code(codes)
            if null is None:
                self._leave_out(NOTHING, number, stream.key)
                return None
            content = behind = f"|{null}"
        method = spelling.number(row.method or "000", 3, "the method")
        monitor = self._monitor(stream, number)
        is_of_day = stream.duration == DAY
        earlier = monitor.seen.add(day.year, day.place if is_of_day else 24 * day.place + hour, number, f"{stream.unit}|{method}|{content}")
        if earlier is not None:
            self._again(earlier.row, earlier.content, number, f"{stream.unit}|{method}|{content}", f"{monitor} {row.date} {row.time}")
            return None
        monitor.years.add(day.year)
        self.included += stream.is_included
        self.written += 1
        return monitor, f"{stream.front}{method}|{day.text}|{row.time}|{behind}"

    def _stream(self, of: Format, row: Row) -> "Union[_Stream, _Left]":
        if row.state == "CC":
            return _Left(COUNTRY, None)
        parts = spelling.number(row.state, 2, "the state"), spelling.number(row.county, 3, "the county"), spelling.number(row.site, 4, "the site number")
        site = "-".join(parts)
        if not self.choice.has_site(site):
            return _Left(None, None)
        pollutant = POLLUTANTS.get(row.parameter)
        if pollutant is None:
            return _Left(PARAMETER, None)
        poc = spelling.poc(row.poc)
        key = site, row.parameter, poc
        unit = of.units.get(row.unit, "") if of.units is not None else row.unit.zfill(3)
        if unit not in pollutant.units:
            return _Left(UNIT, key)
        duration = of.durations.get(row.duration, "") if of.durations is not None else row.duration
        if duration not in pollutant.durations or self._durations.get(key, duration) != duration or self._only not in (None, duration):
            return _Left(DURATION, key)
        if of.events is not None and row.event not in of.events:
            return _Left(EVENT, key)
        front = f"RD|I|{'|'.join(parts)}|{row.parameter}|{poc}|{duration}|{unit}|"
        return _Stream(key, duration, unit, pollutant.units[unit], front, bool(of.events and of.events[row.event]))

    def _monitor(self, stream: _Stream, number: int) -> Monitor:
        monitor = self.monitors.get(stream.key)
        if monitor is None:
            seen = Seen(self._contents, DAYS_OF_A_YEAR if stream.duration == DAY else HOURS_OF_A_YEAR)
            monitor = self.monitors[stream.key] = Monitor(*stream.key, stream.duration, number, seen)
        elif monitor.duration != stream.duration:
            raise RowRefused(
                f"{monitor} has samples of an hour and of 24 hours, and a monitor's duration never changes: "
                f"{self.place(monitor.row)} (duration {monitor.duration}) and {self.place(number)} (duration {stream.duration}); "
                "say which are meant by --duration")
        return monitor

    def _again(self, earlier_row: int, earlier: str, number: int, content: str, what: str) -> None:
        if earlier != content:
            raise RowRefused(f"{what} stands twice: {self.place(earlier_row)} with {earlier} and {self.place(number)} with {content}")
        self.repeated += 1

    def _leave_out(self, cause: str, number: int, key: Optional[MonitorKey]) -> None:
        found = self.left_out.get(cause)
        if found is None:
            self.left_out[cause] = LeftOut(1, self.place(number))
        else:
            found.count += 1
        if key is not None:
            self.left_out_of[key] += 1

    def _is_in_span(self, date: str) -> bool:
        """Whether a row that is left out is of the span that is asked for: yes, unless its date says otherwise."""
        try:
            day = spelling.day(date)
        except spelling.BadCell:
            return True
        return day is None or self._first_day <= day.text <= self._last_day and self.choice.has_year(day.year)
