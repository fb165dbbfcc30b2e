"""The formats of AQS that are read: which column has what, and in which words.

All of this is from memory, and the package's README lists each as assumed.
"""

from dataclasses import dataclass, field
from typing import Mapping, NamedTuple, Optional, Sequence

from airdv.errors import NotAqs

HOUR, DAY = "1", "7"


class Row(NamedTuple):
    """The cells of a row that are read, as text. An empty text is no value."""

    state: str
    county: str
    site: str
    parameter: str
    poc: str
    unit: str
    duration: str
    event: str
    date: str
    time: str
    value: str
    qualifier: str
    method: str


@dataclass(frozen=True)
class Pollutant:
    """A parameter of the profile: its units, by code, each with how many digits a value of it may have before its
    point, and a value below 0; and its durations."""

    units: Mapping[str, "tuple[int, int]"]
    durations: "tuple[str, ...]"


OZONE, PM25, PM10 = "44201", "88101", "81102"
# 007 is ppm, -0.999 to 9.999; 008 is ppb, -999 to 9999; 105 and 001 are µg/m3, -99.9 to 9999.9.
POLLUTANTS: Mapping[str, Pollutant] = {
    OZONE: Pollutant({"007": (1, 0), "008": (4, 3)}, (HOUR,)),
    PM25: Pollutant({"105": (4, 2)}, (HOUR, DAY)),
    PM10: Pollutant({"001": (4, 2)}, (HOUR, DAY)),
}


@dataclass(frozen=True)
class Format:
    """A format: its name, the column of each cell of a row, the cells that are the same in all rows, and the words
    that stand for codes. Where there are no words, the cells are codes."""

    name: str
    columns: Mapping[str, str]
    fixed: Mapping[str, str] = field(default_factory=dict)
    units: Optional[Mapping[str, str]] = None
    durations: Optional[Mapping[str, str]] = None
    events: Optional[Mapping[str, bool]] = None
    no_value: "tuple[str, ...]" = ("",)


AIRDATA_UNITS = {
    "Parts per million": "007",
    "Parts per billion": "008",
    "Micrograms/cubic meter (LC)": "105",
    "Micrograms/cubic meter (25 C)": "001",
}
_AIRDATA = {
    "state": "State Code", "county": "County Code", "site": "Site Num", "parameter": "Parameter Code", "poc": "POC",
    "unit": "Units of Measure", "date": "Date Local", "method": "Method Code",
}

API = Format(
    "sample data of the AQS API",
    {
        "state": "state_code", "county": "county_code", "site": "site_number", "parameter": "parameter_code", "poc": "poc",
        "unit": "units_of_measure_code", "duration": "sample_duration_code", "date": "date_local", "time": "time_local",
        "value": "sample_measurement", "qualifier": "qualifier", "method": "method_code",
    },
    {"event": ""},
    no_value=("", "NA"),
)
HOURLY = Format(
    "hourly samples of AirData",
    {**_AIRDATA, "time": "Time Local", "value": "Sample Measurement", "qualifier": "Qualifier"},
    {"duration": HOUR, "event": ""},
    units=AIRDATA_UNITS,
)
# The events of which a day is given with all its samples; of these the second is counted, since no event can then
# exclude the day.
DAILY = Format(
    "daily summaries of AirData",
    {**_AIRDATA, "duration": "Sample Duration", "event": "Event Type", "value": "Arithmetic Mean"},
    {"time": "00:00", "qualifier": ""},
    units=AIRDATA_UNITS,
    durations={"24 HOUR": DAY},
    events={"None": False, "Included": True},
)
FORMATS = (API, HOURLY, DAILY)


def recognised(header: Sequence[str], source: str) -> Format:
    """The format whose columns a header has, each once."""
    names = [str(it) for it in header]
    found = [it for it in FORMATS if set(it.columns.values()) <= set(names)]
    if len(found) != 1:
        wanted = "; or ".join(f"{', '.join(it.columns.values())} ({it.name})" for it in FORMATS)
        raise NotAqs(f"{source} has not the columns of a format of AQS that is read: {wanted}")
    twice = [it for it in found[0].columns.values() if names.count(it) > 1]
    if twice:
        raise NotAqs(f"{source} has the column {twice[0]} twice")
    return found[0]
