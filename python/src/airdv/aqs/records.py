"""The agency's own lines that go before samples: monitors, primary monitors, seasons and schedules.

The files of AQS say of these what a list of monitors says, and else nothing. So what is written without such a list is
a guess, and each is said. What is not written is said too, since numbers rest on it: without a season the whole year is
the season, and without a schedule no quarter of PM is complete.
"""

import csv
import datetime
import os
import re
from collections import defaultdict
from dataclasses import dataclass, field
from typing import Iterable, Mapping, Optional, Union

from airdv.aqs import spelling
from airdv.aqs.formats import HOUR, OZONE, POLLUTANTS
from airdv.aqs.samples import Monitor, MonitorKey
from airdv.errors import NotAqs

_AREA = re.compile(r"[0-9]{2}(-[0-9]{3}(-[0-9]{4})?)?")
_MONTH_AND_DAY = re.compile(r"[0-9]{2}-[0-9]{2}")


@dataclass
class Records:
    """The lines, and what is to be said of them."""

    lines: "list[str]" = field(default_factory=list)
    said: "list[str]" = field(default_factory=list)


# ---- a list of monitors


@dataclass(frozen=True)
class Listed:
    """What a list of monitors says of one: whether its values count, and whether it is the primary one."""

    is_eligible: bool
    is_primary: bool


_LISTED = {
    "state": "State Code", "county": "County Code", "site": "Site Number", "parameter": "Parameter Code", "poc": "POC",
    "type": "Monitor Type", "primary": "NAAQS Primary Monitor",
}
NOT_REGULATORY = "NON-REGULATORY"


def read_monitor_list(path: "Union[str, os.PathLike[str]]") -> "dict[MonitorKey, Listed]":
    """The monitors of a CSV with the columns of AirData's `aqs_monitors.csv`. A monitor that is listed twice is
    refused if the two rows differ in what is read."""
    found: "dict[MonitorKey, Listed]" = {}
    for place, cells in _table(path, _LISTED):
        if cells["parameter"] not in POLLUTANTS or not cells["state"].isdigit():
            continue
        try:
            site = "-".join((spelling.number(cells["state"], 2, "the state"), spelling.number(cells["county"], 3, "the county"),
                             spelling.number(cells["site"], 4, "the site number")))
            key = site, cells["parameter"], spelling.poc(cells["poc"])
        except spelling.BadCell as error:
            raise NotAqs(f"{place}: {error}") from None
        if cells["primary"] not in ("", "Y", "N"):
            raise NotAqs(f"{place}: NAAQS Primary Monitor is {cells['primary']!r}, and neither Y nor N")
        listed = Listed(NOT_REGULATORY not in cells["type"].upper(), cells["primary"] == "Y")
        if found.setdefault(key, listed) != listed:
            raise NotAqs(f"{place}: {' '.join(key)} is listed twice, otherwise than before")
    return found


# ---- a list of seasons


class Seasons:
    """The ozone seasons of states, counties or sites: what is said of a site goes before what is said of its county,
    and that before its state; what is said of a year before what is said of all."""

    COLUMNS = {it: it for it in ("area", "year", "first", "last")}

    def __init__(self, path: "Union[str, os.PathLike[str]]") -> None:
        self._seasons: "dict[tuple[str, str], tuple[str, str]]" = {}
        for place, cells in _table(path, self.COLUMNS):
            area, year = cells["area"], cells["year"]
            if not _AREA.fullmatch(area):
                raise NotAqs(f"{place}: the area is {area!r}, and neither 06 nor 06-037 nor 06-037-1103")
            if year and not re.fullmatch("[0-9]{4}", year):
                raise NotAqs(f"{place}: the year is {year!r}; leave it empty for all years")
            span = cells["first"], cells["last"]
            for it in span:
                # (a leap year has all days; a season of all years has to be in each)
                if not _MONTH_AND_DAY.fullmatch(it) or not _is_day(f"{year or '2023'}-{it}"):
                    raise NotAqs(f"{place}: {it!r} is no day of {year or 'every year'}, as 03-01 is")
            if span[0] > span[1]:
                raise NotAqs(f"{place}: the season ends before it begins")
            if self._seasons.setdefault((area, year), span) != span:
                raise NotAqs(f"{place}: {area} {year} stands twice, with another season")

    def of(self, site: str, year: int) -> "Optional[tuple[str, str]]":
        """The first and the last day of a site's season, as 20240301; none if nothing is said."""
        for area in (site, site[:6], site[:2]):
            for said in (str(year), ""):
                found = self._seasons.get((area, said))
                if found:
                    first, last = (f"{year}{it.replace('-', '')}" for it in found)
                    return first, last
        return None


def _is_day(text: str) -> bool:
    try:
        datetime.date.fromisoformat(text)
    except ValueError:
        return False
    return True


def _table(path: "Union[str, os.PathLike[str]]", columns: "Mapping[str, str]") -> "Iterable[tuple[str, dict[str, str]]]":
    """The rows of a CSV: where each stands, and its cells in these columns."""
    try:
        with open(path, encoding="utf-8-sig", errors="surrogateescape", newline="") as file:
            reader = csv.reader(file, strict=True)
            header: "list[str]" = next(reader, [])
            for name in columns.values():
                if header.count(name) != 1:
                    raise NotAqs(f"{path} has not one column {name}; it needs {', '.join(columns.values())}")
            for cells in reader:
                if not cells:
                    continue
                if len(cells) != len(header):
                    raise NotAqs(f"{path}, line {reader.line_num} has {len(cells)} cells and not {len(header)}")
                yield f"{path}, line {reader.line_num}", {it: cells[header.index(name)].strip() for it, name in columns.items()}
    except (OSError, csv.Error) as error:
        raise NotAqs(f"{path} cannot be read: {error}") from None


# ---- the lines


def records(monitors: "Iterable[Monitor]", *, with_monitors: bool = False, listed: "Optional[Mapping[MonitorKey, Listed]]" = None,
            seasons: Optional[Seasons] = None, with_schedules: bool = False) -> Records:
    """The lines of the agency's own for these monitors, by form, and what is to be said of them."""
    made = Records()
    sites: "dict[tuple[str, str], list[Monitor]]" = defaultdict(list)
    for monitor in sorted(monitors, key=lambda it: (it.site, list(POLLUTANTS).index(it.parameter), int(it.poc))):
        sites[monitor.site, monitor.parameter].append(monitor)
    if with_monitors:
        for them in sites.values():
            made.lines += [_monitor_line(it, listed, made.said) for it in them]
        for them in sites.values():
            made.lines += _primary_lines(them, listed, made.said)
    for them in sites.values():
        if them[0].parameter == OZONE:
            made.lines += _season_lines(them, seasons, made.said)
    for them in sites.values():
        if them[0].parameter != OZONE:
            made.lines += _schedule_lines(them, with_schedules, made.said)
    return made


def _fields(monitor: Monitor) -> str:
    return monitor.site.replace("-", "|")


def _first_year(monitors: "list[Monitor]") -> int:
    return min(min(it.years) for it in monitors)


def _monitor_line(monitor: Monitor, listed: "Optional[Mapping[MonitorKey, Listed]]", said: "list[str]") -> str:
    found = listed.get(monitor.key) if listed is not None else None
    if found is None:
        said.append(f"guessed: {monitor} counts (XM with Y)")
    elif not found.is_eligible:
        said.append(f"listed: {monitor} is {NOT_REGULATORY.lower()} and does not count (XM with N)")
    return f"XM|I|{_fields(monitor)}|{monitor.parameter}|{monitor.poc}|{monitor.duration}|{'Y' if found is None or found.is_eligible else 'N'}"


def _primary_lines(monitors: "list[Monitor]", listed: "Optional[Mapping[MonitorKey, Listed]]", said: "list[str]") -> "list[str]":
    """The designation of a site and pollutant: the one primary monitor of the list, or else the only one of the data."""
    site, parameter = monitors[0].site, monitors[0].parameter
    named = [key[2] for key, it in (listed or {}).items() if it.is_primary and key[:2] == (site, parameter)]
    if len(named) > 1:
        said.append(f"not written: {site} {parameter} has several primary monitors in the list, POC {', '.join(sorted(named))}; send XP")
        return []
    if named and named[0] not in [it.poc for it in monitors]:
        said.append(f"not written: the primary monitor of {site} {parameter} is POC {named[0]}, of which nothing was read; send XM and XP")
        return []
    if not named and len(monitors) > 1:
        said.append(f"not written: {site} {parameter} has {len(monitors)} monitors, and which is the primary one is not known; send XP")
        return []
    primary = named[0] if named else monitors[0].poc
    if not named:
        said.append(f"guessed: POC {primary} is the primary monitor of {site} {parameter} (XP)")
    return [f"XP|I|{_fields(monitors[0])}|{parameter}|{_first_year(monitors)}0101|{primary}"]


def _season_lines(monitors: "list[Monitor]", seasons: Optional[Seasons], said: "list[str]") -> "list[str]":
    lines, missing = [], []
    for year in sorted({year for it in monitors for year in it.years}):
        season = seasons.of(monitors[0].site, year) if seasons else None
        if season:
            lines.append(f"XO|I|{_fields(monitors[0])}|{year}|{season[0]}|{season[1]}")
        else:
            missing.append(str(year))
    if missing:
        said.append(f"warning: {monitors[0].site} has no ozone season in {', '.join(missing)}, so the whole year is; a shorter one is then Incomplete")
    return lines


def _schedule_lines(monitors: "list[Monitor]", with_schedules: bool, said: "list[str]") -> "list[str]":
    site, parameter = monitors[0].site, monitors[0].parameter
    if with_schedules and all(it.duration == HOUR for it in monitors):
        first = f"{_first_year(monitors)}0101"
        return [f"XS|I|{_fields(monitors[0])}|{parameter}|{first}|1|{first}"]
    said.append(f"warning: {site} {parameter} has no schedule, so nothing is due and its captures are 0; send XS")
    return []
