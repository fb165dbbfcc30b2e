"""The way into the office: files or frames of AQS become lines that airdv loads."""

import os
from dataclasses import dataclass
from typing import Iterable, Iterator, Optional, Sequence, Union

import pandas

from airdv.aqs import extract, loads
from airdv.aqs.choice import Choice
from airdv.aqs.formats import DAY, HOUR
from airdv.aqs.records import Listed, Records, Seasons, read_monitor_list, records
from airdv.aqs.samples import Monitor, MonitorKey, Samples
from airdv.aqs.sources import Source, opened

Path = Union[str, "os.PathLike[str]"]
Given = Union[Path, "pandas.DataFrame"]


class Conversion:
    """Files or frames that are read once, with what goes before their samples.

    `lines` has to be read to its end before `records` and `said` are asked for.
    """

    def __init__(self, given: "Iterable[Given]", *, choice: Optional[Choice] = None, duration: Optional[str] = None,
                 monitors: bool = False, monitor_list: Optional[Path] = None, seasons: Optional[Path] = None,
                 schedules: bool = False) -> None:
        if duration not in (None, HOUR, DAY):
            raise ValueError(f"a duration is {HOUR} for an hour or {DAY} for 24 hours, and not {duration!r}")
        self._listed: "Optional[dict[MonitorKey, Listed]]" = read_monitor_list(monitor_list) if monitor_list is not None else None
        self._seasons = Seasons(seasons) if seasons is not None else None
        self._monitors, self._schedules = monitors or monitor_list is not None, schedules
        self.sources: "list[Source]" = [opened(it, place) for place, it in enumerate(given, 1)]
        self._choice = choice
        self._span: "Optional[tuple[str, str]]" = None
        self.samples = Samples(choice, self._durations(duration) if duration else None)

    def _durations(self, duration: str) -> "dict[MonitorKey, str]":
        """The monitors with samples of both durations, each with the one that is meant."""
        hours, days = (self._monitors_of(it) for it in (HOUR, DAY))
        return {it: duration for it in hours & days}

    def _monitors_of(self, duration: str) -> "set[MonitorKey]":
        found = Samples(self._choice, only=duration)
        for source in self.sources:
            for _ in found.lines(source):
                pass
        return set(found.monitors)

    def only_days(self, first_day: str, last_day: str) -> None:
        """Makes an extract of these days, each as 20240701: `NotWhole` if an answer does not span them."""
        for source in self.sources:
            extract.check_answer(source, first_day, last_day)
        self._span = first_day, last_day
        self.samples.only_days(first_day, last_day)

    def lines(self) -> "Iterator[tuple[Monitor, str]]":
        """The line of each sample, without its end, and its monitor. Of an extract `NotWhole` comes behind the last."""
        for source in self.sources:
            yield from self.samples.lines(source)
        if self._span:
            extract.check_samples(self.samples)

    def records(self, of: "Optional[Iterable[Monitor]]" = None) -> Records:
        """What goes before the samples of these monitors, or of all that were read."""
        return records(self.samples.monitors.values() if of is None else of, with_monitors=self._monitors,
                       listed=self._listed, seasons=self._seasons, with_schedules=self._schedules)

    def said(self) -> "Iterator[str]":
        """What was read, repeated and left out, by cause."""
        samples = self.samples
        yield f"{samples.written:,} samples of {len(samples.monitors):,} monitors"
        if samples.not_chosen:
            yield f"not chosen: {samples.not_chosen:,} rows"
        if samples.repeated:
            yield f"repeated: {samples.repeated:,} rows that say what an earlier one says"
        if samples.included:
            yield f"included: {samples.included:,} days with samples of events, which no event can exclude"
        for cause, it in samples.left_out.items():
            yield f"left out: {it.count:,} rows: {cause} (the first: {it.first})"


@dataclass(frozen=True)
class Converted:
    """Lines that airdv loads: the agency's own, and those of samples; and what is to be said of them."""

    records: "Sequence[str]"
    samples: "Sequence[str]"
    said: "Sequence[str]"
    left_out: "dict[str, int]"

    @property
    def text(self) -> str:
        """All lines as the text of one load. `TooLong` if it is more than one may have."""
        return loads.one_text([*self.records, *self.samples])

    def loads(self) -> "Iterator[str]":
        """The texts of the loads, to be taken one after the other: records first."""
        yield from loads.texts(self.records)
        yield from loads.texts(self.samples)


def from_aqs(*given: Given, choice: Optional[Choice] = None, duration: Optional[str] = None, monitors: bool = False,
             monitor_list: Optional[Path] = None, seasons: Optional[Path] = None, schedules: bool = False) -> Converted:
    """Lines of the samples of files or frames of AQS: of the API, of `pyaqsapi` and `RAQSAPI`, and of AirData.

    - `choice`: the states, counties, sites and years that are wanted; all else is passed over.
    - `duration`: of a monitor with samples of an hour and of 24 hours those that are meant, `1` or `7`.
    - `monitors`: with an `XM` line of each monitor, and an `XP` line where a site has one of a pollutant: guesses.
      `monitor_list` is AirData's `aqs_monitors.csv`, which says better.
    - `seasons`: a CSV with the columns area, year, first, last, for `XO` lines.
    - `schedules`: with an `XS` line of every day where all monitors of PM at a site are hourly.

    Values keep their digits: ozone in ppm or ppb, PM in µg/m3, hours in local standard time. `NotAqs` for what is none
    of these formats, `RowRefused` for a row that is spelled otherwise or contradicts another one.
    """
    conversion = Conversion(given, choice=choice, duration=duration, monitors=monitors, monitor_list=monitor_list,
                            seasons=seasons, schedules=schedules)
    samples = [line for _, line in conversion.lines()]
    made = conversion.records()
    return Converted(made.lines, samples, [*conversion.said(), *made.said], {cause: it.count for cause, it in conversion.samples.left_out.items()})
