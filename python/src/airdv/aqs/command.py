"""`airdv-from-aqs`: files of AQS in, lines that airdv loads out.

Statuses: 0 all was written; 2 the words are none; 3 a file cannot be read, breaks off or is none of the formats; 4 the
output failed, or the folder is there already; 10 more than one load may have; 17 a row is refused; 18 an extract is not
whole. With all but 0 and 4 nothing is written, and never a part of a folder.
"""

import argparse
import datetime
import sys
from typing import IO, Iterator, Optional, Sequence

from tqdm import tqdm

from airdv.aqs import loads
from airdv.aqs.choice import Choice
from airdv.aqs.conversion import Conversion
from airdv.aqs.formats import DAY, HOUR
from airdv.aqs.spelling import FIRST_YEAR, LAST_YEAR
from airdv.errors import AirdvError

NAME = "airdv-from-aqs"
OUTPUT_FAILED = 4


def parser() -> argparse.ArgumentParser:
    made = argparse.ArgumentParser(prog=NAME, description="Makes lines that airdv loads of files of AQS.", allow_abbrev=False)
    made.add_argument("files", nargs="+", metavar="FILE", help="an answer of the API (JSON), its rows as CSV, or a file of AirData, zipped or not")
    made.add_argument("--out", metavar="FOLDER", help="write numbered loads into a new folder, records first")
    made.add_argument("--number", type=_load_number, default=1, metavar="N", help="the number of the first load of --out (1)")
    made.add_argument("--state", action="append", default=[], metavar="SS", help="only this state; may be given again, as the next three")
    made.add_argument("--county", action="append", default=[], metavar="SS-CCC")
    made.add_argument("--site", action="append", default=[], metavar="SS-CCC-NNNN")
    made.add_argument("--year", action="append", default=[], type=_year, metavar="YEAR")
    made.add_argument("--duration", choices=(HOUR, DAY), help="of a monitor with samples of an hour (1) and of 24 hours (7) these alone")
    made.add_argument("--monitors", action="store_true", help="write XM of each monitor, and XP where a site has one of a pollutant: guesses")
    made.add_argument("--monitor-list", metavar="FILE", help="AirData's aqs_monitors.csv, which says better")
    made.add_argument("--seasons", metavar="FILE", help="a CSV with the columns area, year, first, last: write XO")
    made.add_argument("--schedules", action="store_true", help="write XS of every day where all monitors of PM at a site are hourly")
    made.add_argument("--extract", nargs=2, type=_day, metavar=("FIRST", "LAST"), help="write what `changes FIRST LAST` reads: of answers of the API alone")
    return made


def main(words: "Optional[Sequence[str]]" = None) -> int:
    """Runs the command, and answers its status."""
    asked = parser()
    given = asked.parse_args(words)
    try:
        choice = Choice.of(given.state, given.county, given.site, given.year)
    except ValueError as error:
        asked.error(str(error))
    if given.extract:
        if given.out or given.year or given.monitors or given.monitor_list or given.seasons or given.schedules:
            asked.error("an extract is one text of samples of all its days: without --out, --year, --monitors, --monitor-list, --seasons and --schedules")
        if given.extract[0] > given.extract[1]:
            asked.error("FIRST is after LAST")
    try:
        conversion = Conversion(given.files, choice=choice, duration=given.duration, monitors=given.monitors,
                                monitor_list=given.monitor_list, seasons=given.seasons, schedules=given.schedules)
        if given.extract:
            conversion.only_days(*given.extract)
        if given.out:
            _to_folder(conversion, given.out, given.number)
        else:
            _to_output(conversion, sys.stdout, is_extract=bool(given.extract))
    except AirdvError as error:
        _say(str(error))
        return error.status
    except OSError as error:
        _say(f"the output failed: {error.strerror}")
        return OUTPUT_FAILED
    return 0


def _to_output(conversion: Conversion, output: "IO[str]", is_extract: bool) -> None:
    samples = list(_lines(conversion, loads.MOST_LINES))
    said = [*conversion.said()]
    records = []
    if not is_extract:
        made = conversion.records()
        records, said = made.lines, [*said, *made.said]
    text = loads.one_text([*records, *samples])
    output.write(text)
    output.flush()
    for it in said:
        _say(it)


def _to_folder(conversion: Conversion, folder: str, number: int) -> None:
    made = loads.LoadFolder(folder, number)
    try:
        for line in _lines(conversion):
            made.write(line)
        records = conversion.records()
        written = made.finish(records.lines)
    except BaseException:
        made.abandon()
        raise
    for it in (*conversion.said(), *records.said):
        _say(it)
    _say(f"{len(written):,} loads in {folder}")


def _lines(conversion: Conversion, most: Optional[int] = None) -> "Iterator[str]":
    """The lines, with a bar of progress where somebody looks on; `TooLong` as soon as there are more than so many."""
    with tqdm(unit=" samples", disable=not sys.stderr.isatty(), file=sys.stderr, mininterval=1) as bar:
        for count, (_, line) in enumerate(conversion.lines(), 1):
            if most is not None and count > most:
                raise loads.too_long()
            yield line
            if count % 10_000 == 0:
                bar.update(10_000)


def _say(text: str) -> None:
    print(f"{NAME}: {text}", file=sys.stderr)


# ---- words


def _load_number(text: str) -> int:
    if not (text.isascii() and text.isdigit() and not text.startswith("0") and int(text) <= loads.LAST_NUMBER):
        raise argparse.ArgumentTypeError(f"a load has a number from 1 to {loads.LAST_NUMBER}")
    return int(text)


def _year(text: str) -> int:
    if not (text.isascii() and text.isdigit() and FIRST_YEAR <= int(text) <= LAST_YEAR):
        raise argparse.ArgumentTypeError(f"a year is {FIRST_YEAR} to {LAST_YEAR}")
    return int(text)


def _day(text: str) -> str:
    """A day that is written as 2024-07-01, as 20240701."""
    try:
        day = datetime.datetime.strptime(text, "%Y-%m-%d").date()
    except ValueError:
        raise argparse.ArgumentTypeError("a day is written as 2024-07-01") from None
    if text != day.isoformat() or not FIRST_YEAR <= day.year <= LAST_YEAR:
        raise argparse.ArgumentTypeError(f"a day is written as 2024-07-01, from {FIRST_YEAR} to {LAST_YEAR}")
    return f"{day:%Y%m%d}"


if __name__ == "__main__":
    sys.exit(main())
