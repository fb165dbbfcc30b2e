"""The table of questions: the words and the path of each, and the sheets that answer it, with their heads and columns.

A test compares the words with the program's usage text.
"""

import enum
from dataclasses import dataclass
from typing import Mapping, Sequence, Tuple, Union

from airdv.errors import NoCommand


class Kind(enum.Enum):
    """What a cell holds: a whole number; a number with places (ozone in ppm, PM in µg/m3); a text, `Y` and `N` among
    these; a day; a day and hour of local standard time."""

    INT = enum.auto()
    FIXED = enum.auto()
    TEXT = enum.auto()
    DAY = enum.auto()
    HOUR = enum.auto()


INT, FIXED, TEXT, DAY, HOUR = Kind.INT, Kind.FIXED, Kind.TEXT, Kind.DAY, Kind.HOUR
Names = Mapping[str, Kind]


@dataclass(frozen=True)
class Form:
    """The heads and the columns of a sheet, in their order."""

    heads: Names
    columns: Names


class Plain(enum.Enum):
    """An answer that is no sheet: comma-separated values, or lines that load back."""

    CSV = enum.auto()
    LINES = enum.auto()


Forms = Tuple[Form, ...]
OZONE, PM25, PM10 = "44201", "88101", "81102"
STANDARDS = ("O3-2015", "PM25-ANNUAL-2012", "PM25-ANNUAL-SECONDARY", "PM25-ANNUAL-2024", "PM25-24H-2006", "PM10-24H-1987")
DAILY_PM25 = "PM25-24H-2006"


@dataclass(frozen=True)
class Question:
    """A question: its words as the usage text has them, its path, and its answer, which may differ by a word."""

    usage: str
    path: str
    answer: Union[Plain, Forms, Mapping[str, Forms]]

    @property
    def name(self) -> str:
        return self.usage.split()[0]

    @property
    def places(self) -> "list[str]":
        """The names of its words, in small letters."""
        return [it.lower() for it in self.usage.split()[1:]]

    def words(self, given: "Sequence[object]") -> "list[str]":
        """The words as texts: a list of sites is joined by commas. `NoCommand` for another number of them."""
        words = [",".join(map(str, it)) if isinstance(it, (list, tuple)) else str(it) for it in given]
        if len(words) != len(self.places):
            raise NoCommand(f"2 no command: {self.name} is asked as {self.usage}")
        return words

    def forms(self, words: "Sequence[str]") -> "Union[Plain, Forms]":
        """What answers these words. `NoCommand` for a standard or a parameter that there is not."""
        if isinstance(self.answer, (Plain, tuple)):
            return self.answer
        found = [self.answer[it] for it in words if it in self.answer]
        if not found:
            raise NoCommand(f"2 no command: {self.name} is asked of {', '.join(self.answer)}")
        return found[0]


# ---- the sheets

_SITE_YEAR = {"site": TEXT, "year": INT}
_OF_PARAMETER = {"site": TEXT, "parameter": TEXT, "year": INT}
_OF_STANDARD = {"standard": TEXT, "year": INT}
_CAPTURES = {f"capture{quarter}": INT for quarter in (1, 2, 3, 4)}
_ANNUAL = {"year": INT, "mean": FIXED, **_CAPTURES, "valid": TEXT}
_YEARS: "Mapping[str, Names]" = {
    "O3-2015": {"year": INT, "ranked": INT, "fourth": FIXED, "season_days": INT, "season_valid": INT},
    "PM25-ANNUAL-2012": _ANNUAL,
    "PM25-ANNUAL-SECONDARY": _ANNUAL,
    "PM25-ANNUAL-2024": _ANNUAL,
    DAILY_PM25: {"year": INT, "percentile": FIXED, "counted": INT, **_CAPTURES, "valid": TEXT},
    "PM10-24H-1987": {"year": INT, "estimate": FIXED, "lower": FIXED, "exceedances": INT, "complete": TEXT},
}


def _value_kind(standard: str) -> Kind:
    """A design value of the 24-hour standard of PM2.5 has no places."""
    return INT if standard == DAILY_PM25 else FIXED


def _value(standard: str) -> Form:
    kind = _value_kind(standard)
    return Form({"standard": TEXT, **_SITE_YEAR, "value": kind, "test": kind, "verdict": TEXT}, _YEARS[standard])


def _report(standard: str) -> Form:
    return Form(_OF_STANDARD, {"site": TEXT, "value": _value_kind(standard), "verdict": TEXT})


def _area(standard: str) -> Forms:
    kind = _value_kind(standard)
    return (
        Form({**_OF_STANDARD, "verdict": TEXT, "governing": TEXT, "value": kind, "met": INT}, {"year": INT, "verdict": TEXT, "value": kind}),
        Form(_OF_STANDARD, {"site": TEXT, "value": kind, "verdict": TEXT, "critical": FIXED}),
    )


_VALUES = {it: (_value(it),) for it in STANDARDS}
# No site of PM10 is joined to another one.
_COMBINED = {it: forms for it, forms in _VALUES.items() if it != "PM10-24H-1987"}
_DECISIVE = Form({"standard": TEXT, **_SITE_YEAR, "verdict": TEXT}, {"event": INT, "verdict": TEXT})
LOAD = Form({"load": INT, "lines": INT, "accepted": INT, "refused": INT}, {"line": INT, "rule": INT, "name": TEXT, "count": INT})
_WINDOWS = Form({"site": TEXT, "day": DAY}, {"hour": TEXT, "average": FIXED, "hours": INT, "full": FIXED, "full_hours": INT})
_DAYS = Form(
    {**_SITE_YEAR, "season_first": DAY, "season_last": DAY, "season_days": INT, "season_valid": INT, "fourth": FIXED},
    {"day": DAY, "averages": INT, "valid": TEXT, "approved": TEXT, "maximum": FIXED},
)
_PM25 = Form(
    {**_SITE_YEAR, "counted": INT, "rank": INT, "percentile": FIXED, "mean": FIXED},
    {"quarter": INT, "scheduled": INT, "creditable": INT, "capture": INT, "counted": INT, "days": INT, "sum": FIXED, "least": FIXED, "greatest": FIXED},
)
_PM10 = Form(
    {**_SITE_YEAR, "estimate": FIXED},
    {"quarter": INT, "days": INT, "scheduled": INT, "captured": INT, "strata": INT, "samples": INT, "exceedances": INT, "estimate": FIXED, "lower": FIXED},
)
_SITES = Form({"sites": INT}, {"site": TEXT, "ozone": INT, "pm25": INT, "pm10": INT})
_MONITORS = Form({"site": TEXT}, {"parameter": TEXT, "poc": INT, "duration": INT, "eligible": TEXT, "observations": INT, "first": DAY, "last": DAY})
_EVENTS = Form({"site": TEXT}, {"event": INT, "parameter": TEXT, "first": HOUR, "last": HOUR, "code": TEXT, "agreed": TEXT, "flagged": INT})
_FLAGS = Form(_OF_PARAMETER, {"day": DAY, "code": TEXT, "flagged": INT, "covered": INT, "excluded": INT})
_LOADS = Form({"loads": INT}, {"load": INT, "lines": INT, "accepted": INT, "refused": INT, "digest": TEXT})
_DAILY = {
    OZONE: (_DAYS,),
    PM25: (Form(_OF_PARAMETER, {"day": DAY, "scheduled": TEXT, "value": FIXED, "excluded": TEXT, "credit": TEXT}),),
    PM10: (Form(_OF_PARAMETER, {"day": DAY, "scheduled": TEXT, "stratum": INT, "value": FIXED, "excluded": TEXT, "exceeds": TEXT}),),
}
_RANKED = {**_OF_PARAMETER, "ranked": INT, "decides": INT}
_RANK = {"rank": INT, "day": DAY, "value": FIXED}
_HIGHEST = {
    OZONE: (Form(_RANKED, {**_RANK, "hour": TEXT, "hours": INT}),),
    PM25: (Form(_RANKED, _RANK),),
    PM10: (Form(_RANKED, _RANK),),
}
_COMPLETENESS = Form(
    _OF_PARAMETER, {"poc": INT, "month": INT, "due": INT, "valued": INT, "null": INT, "missing": INT, "extra": INT, "percent": INT})
EXPORT: Names = {
    "site": TEXT, "parameter": TEXT, "poc": INT, "date": DAY, "hour": INT, "value": FIXED, "null": TEXT, "qualifiers": TEXT, "excluded": TEXT,
}

# ---- the table

TABLE = (
    Question("show STANDARD SITE YEAR", "/dv/{standard}/{site}/{year}", _VALUES),
    Question("report STANDARD YEAR", "/report/{standard}/{year}", {it: (_report(it),) for it in STANDARDS}),
    Question("export SITE PARAMETER YEAR", "/export/{site}/{parameter}/{year}", Plain.CSV),
    Question("whatif STANDARD SITE YEAR LIST", "/whatif/{standard}/{site}/{year}/{list}", _VALUES),
    Question("decisive STANDARD SITE YEAR", "/decisive/{standard}/{site}/{year}", (_DECISIVE,)),
    Question("combined STANDARD SITE YEAR", "/combined/{standard}/{site}/{year}", _COMBINED),
    Question("area STANDARD AREA YEAR", "/area/{standard}/{area}/{year}", {it: _area(it) for it in STANDARDS}),
    Question("reply NUMBER", "/loads/{number}", (LOAD,)),
    Question("windows SITE DAY", "/ozone/{site}/windows/{day}", (_WINDOWS,)),
    Question("days SITE YEAR", "/ozone/{site}/days/{year}", (_DAYS,)),
    Question("pm25 SITE YEAR", "/pm25/{site}/quarters/{year}", (_PM25,)),
    Question("pm10 SITE YEAR", "/pm10/{site}/quarters/{year}", (_PM10,)),
    Question("sites", "/sites", (_SITES,)),
    Question("monitors SITE", "/monitors/{site}", (_MONITORS,)),
    Question("events SITE", "/events/{site}", (_EVENTS,)),
    Question("flags SITE PARAMETER YEAR", "/flags/{site}/{parameter}/{year}", (_FLAGS,)),
    Question("loads", "/loads", (_LOADS,)),
    Question("daily SITE PARAMETER YEAR", "/daily/{site}/{parameter}/{year}", _DAILY),
    Question("highest SITE PARAMETER YEAR", "/highest/{site}/{parameter}/{year}", _HIGHEST),
    Question("completeness SITE PARAMETER YEAR", "/completeness/{site}/{parameter}/{year}", (_COMPLETENESS,)),
    Question("reports YEAR", "/reports/{year}", tuple(_report(it) for it in STANDARDS)),
    Question("records", "/records", Plain.LINES),
    Question("lines SITE PARAMETER YEAR", "/lines/{site}/{parameter}/{year}", Plain.LINES),
)
QUESTIONS = {it.name: it for it in TABLE}


def question(name: str) -> Question:
    """A question by its name. `NoCommand` if there is none."""
    if name not in QUESTIONS:
        raise NoCommand(f"2 no command: the questions are {', '.join(QUESTIONS)}")
    return QUESTIONS[name]
