"""Whether answers of the API are a whole extract, of which `changes` may delete what it lacks.

The address in an answer's header holds its user's key. So it is read here and shown nowhere.
"""

import re
import urllib.parse
from typing import Optional

from airdv.aqs.samples import Samples
from airdv.aqs.sources import Source
from airdv.errors import NotWhole

SUCCESS = "Success"
# What an address may ask for and still be answered with all samples of its monitors. Dates of change are not among these.
_HARMLESS = frozenset(("email", "key", "param", "bdate", "edate", "state", "county", "site", "cbsa", "minlat", "maxlat", "minlon", "maxlon"))
_CALL = "/sampleData/"


def check_answer(source: Source, first_day: str, last_day: str) -> None:
    """`NotWhole` unless the source is an answer of the API that says Success and that it was asked for all days from
    the first to the last, each as 20240701."""
    answer = source.answer
    if answer is None:
        raise NotWhole(f"{source.name} is no answer of the AQS API, and an extract is made of these alone")
    if answer.status != SUCCESS:
        raise NotWhole(f"the header of {source.name} does not say {SUCCESS}")
    try:
        address = urllib.parse.urlsplit(answer.address)
        asked = urllib.parse.parse_qs(address.query, keep_blank_values=True, strict_parsing=True)
    except ValueError:
        raise NotWhole(f"the address in the header of {source.name} is none") from None
    if _CALL not in address.path:
        raise NotWhole(f"{source.name} is no answer with samples")
    # (names alone are shown, since a misspelled address may have the key anywhere)
    if not set(asked) <= _HARMLESS:
        raise NotWhole(f"{source.name} was asked for with further conditions, as a day of change, so it may lack samples")
    begin, end = _one(asked.get("bdate")), _one(asked.get("edate"))
    if begin is None or end is None:
        raise NotWhole(f"the header of {source.name} does not say for which days it was asked")
    if not (begin <= first_day and last_day <= end):
        raise NotWhole(f"{source.name} has the days from {begin} to {end}, and not all from {first_day} to {last_day}")


def _one(given: "Optional[list[str]]") -> Optional[str]:
    """The one day, as 20240701."""
    return given[0] if given and len(given) == 1 and re.fullmatch("[0-9]{8}", given[0]) else None


def check_samples(samples: Samples) -> None:
    """`NotWhole` if a row of a monitor that was read was left out: `changes` would delete its sample."""
    for key in sorted(samples.left_out_of):
        if key in samples.monitors:
            causes = "; ".join(f"{cause} ({it.first})" for cause, it in samples.left_out.items())
            raise NotWhole(
                f"{samples.left_out_of[key]} rows of {samples.monitors[key]} were left out, which `changes` would delete. Left out: {causes}")
