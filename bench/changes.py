#!/usr/bin/env python3
"""What `airdv changes` prints for an extract, by a plain Python program over dictionaries, and the yardstick of its time.

    changes.py FILE FIRST LAST < extract    prints the lines that bring the file up to date with the extract of these
                                            days, and on the errors stream the seconds of the processor that this
                                            took behind the reading of the file. Ends with 17 and the message of
                                            `airdv` at the first line that breaks a rule

The rules of a line are those of docs/RULES.md, written anew.
"""

import datetime
import gc
import os
import re
import sqlite3
import sys
import time

LINE_REFUSED = 17
NAMES = {1: "BadBytes", 2: "BadTag", 3: "FieldCount", 4: "BadAction", 5: "BadSite", 6: "ParameterOutOfProfile", 7: "BadPoc",
         8: "BadDuration", 9: "BadUnit", 10: "BadMethod", 11: "BadDate", 12: "BadTime", 13: "ValueAndNull",
         14: "NeitherValueNorNull", 15: "BadValue", 16: "ValueOutOfRange", 17: "BadNull", 18: "BadQualifier",
         19: "UnknownMonitor", 20: "WrongDuration", 21: "AlreadyThere"}

# Of each parameter its number, its durations, how many places a unit's values have, and how many are printed.
PARAMETERS = {
    "44201": (1, ("1",), {"007": 3, "008": 0}, 3),
    "88101": (2, ("1", "7"), {"105": 1}, 1),
    "81102": (3, ("1", "7"), {"001": 1}, 1),
}
PARAMETER_OF = {number: parameter for parameter, (number, *_) in PARAMETERS.items()}
UNITS = {1: "007", 2: "105", 3: "001"}
LEAST, GREATEST = -999, {1: 9_999, 2: 99_999, 3: 99_999}
DECIMAL = re.compile(r"([+-]?)(\d+)(?:\.(\d*))?|([+-]?)()\.(\d+)")
CODE, NULL = re.compile(r"[A-Z0-9]{1,2}"), re.compile(r"[A-Z0-9]{2}")
TIMES = {f"{hour:02}:00": hour for hour in range(24)}
FIRST_DAY = datetime.date(1990, 1, 1)
LAST_YEAR = 2059
MOST_FIELDS = 28


class Refused(Exception):
    """A line that breaks a rule, by the rule's number."""


# ---- days and hours, which count from 1990 on


def day_number(day):
    return (day - FIRST_DAY).days


def day_in(text):
    """The number of a day that is written YYYYMMDD, if it is one of the profile."""
    if len(text) != 8 or not text.isdigit() or not FIRST_DAY.year <= int(text[:4]) <= LAST_YEAR:
        return None
    try:
        return day_number(datetime.date(int(text[:4]), int(text[4:6]), int(text[6:])))
    except ValueError:
        return None


def moment(hour):
    """An hour as the two fields of a line."""
    day = FIRST_DAY + datetime.timedelta(days=hour // 24)
    return f"{day:%Y%m%d}|{hour % 24:02}:00"


# ---- lines


def lines_of(body):
    """The lines of a body that are neither empty nor comments, with their numbers."""
    lines = body.removeprefix(b"\xef\xbb\xbf").decode("latin-1").split("\n")
    for number, line in enumerate(lines, 1):
        line = line.removesuffix("\r")
        begin = line.lstrip(" ")[:1]
        if begin and begin != "#":
            yield number, line


def value_in(text, pollutant, places):
    """A sample value, cut at so many places."""
    found = DECIMAL.fullmatch(text)
    if not found:
        raise Refused(15)
    sign, whole, rest = found[1] or found[4] or "", found[2] or "", found[3] or found[6] or ""
    value = int((whole + rest[:places].ljust(places, "0")) or "0")
    value = -value if sign == "-" else value
    if not LEAST <= value <= GREATEST[pollutant]:
        raise Refused(16)
    return value


def sample_of(line, days):
    """What a line of an extract spells: the monitor, its duration, the hour, and the content. `days` has those that came
    before."""
    if not (line.isascii() and line.isprintable()):
        raise Refused(1)
    fields = [text.strip(" ") for text in line.split("|")]
    if fields[0] != "RD":
        raise Refused(2)
    action = fields[1] if len(fields) > 1 else ""
    if len(fields) < (12 if action == "D" else 13) or any(fields[MOST_FIELDS:]):
        raise Refused(3)
    if action != "I":
        raise Refused(4)
    state, county, site, parameter, poc, duration, unit, method, date, start, value = fields[2:13]
    if not (len(state) == 2 and len(county) == 3 and len(site) == 4 and (state + county + site).isdigit()):
        raise Refused(5)
    if parameter not in PARAMETERS:
        raise Refused(6)
    pollutant, durations, units, _ = PARAMETERS[parameter]
    if not (len(poc) <= 2 and poc.isdigit() and int(poc)):
        raise Refused(7)
    if duration not in durations:
        raise Refused(8)
    if unit not in units:
        raise Refused(9)
    if not (len(method) == 3 and method.isdigit()):
        raise Refused(10)
    day = days.get(date)
    if day is None:
        day = day_in(date)
        if day is None:
            raise Refused(11)
        days[date] = day
    if start not in TIMES:
        raise Refused(12)
    null = fields[13] if len(fields) > 13 else ""
    if value and null:
        raise Refused(13)
    if not value and not null:
        raise Refused(14)
    found = value_in(value, pollutant, units[unit]) if value else None
    if null and not NULL.fullmatch(null):
        raise Refused(17)
    codes = ()
    if len(fields) > 16:
        codes = tuple(dict.fromkeys(filter(None, fields[16:26])))
        if not all(map(CODE.fullmatch, codes)):
            raise Refused(18)
    monitor = int(state + county + site) * 1000 + pollutant * 100 + int(poc)
    return monitor, duration, 24 * day + TIMES[start], (found, int(method), null, " ".join(codes))


def value_text(value, places):
    """A value as it is printed."""
    whole, rest = divmod(abs(value), 10**places)
    return f"{'-' if value < 0 else ''}{whole}.{rest:0{places}}"


def place_text(monitor):
    """A monitor as the fields of a line."""
    site, pollutant, poc = monitor // 1000, monitor // 100 % 10, monitor % 100
    return f"{site // 10**7:02}|{site // 10**4 % 1000:03}|{site % 10**4:04}|{PARAMETER_OF[pollutant]}|{poc}"


def deletion(monitor, hour):
    return f"RD|D|{place_text(monitor)}||||{moment(hour)}\n"


def put(action, monitor, duration, hour, content):
    value, method, null, codes = content
    pollutant = monitor // 100 % 10
    shown = "" if value is None else value_text(value, PARAMETERS[PARAMETER_OF[pollutant]][3])
    rest = f"|{null}|||{codes.replace(' ', '|')}".rstrip("|")
    return f"RD|{action}|{place_text(monitor)}|{duration}|{UNITS[pollutant]}|{method:03}|{moment(hour)}|{shown}{rest}\n"


# ---- what an extract changes


def read_file(path):
    """The durations of a file's monitors, and of each the contents of its hours."""
    connection = sqlite3.connect(path)
    durations = {}
    for line, in connection.execute("SELECT line FROM records WHERE kind = 1"):
        _, _, state, county, site, parameter, poc, duration, _ = line.split("|")
        durations[int(state + county + site) * 1000 + PARAMETERS[parameter][0] * 100 + int(poc)] = duration
    standing = {monitor: {} for monitor in durations}
    for number, *content in connection.execute("SELECT id, value, method, nullcode, quals FROM observations3"):
        standing[number // 10**6][number % 10**6] = tuple(content)
    connection.close()
    return durations, standing


def changes(durations, standing, first, last, body):
    """The lines that bring what stands up to date with an extract of the days from the first to the last; or the number
    of the first line that breaks a rule, and the rule."""
    says, days = {}, {}
    for number, line in lines_of(body):
        try:
            monitor, duration, hour, content = sample_of(line, days)
            if not first <= hour // 24 <= last:
                raise Refused(11)
            if monitor not in durations:
                raise Refused(19)
            if durations[monitor] != duration:
                raise Refused(20)
            if duration == "7":
                hour -= hour % 24
            said = says.setdefault(monitor, {})
            if hour in said:
                raise Refused(21)
            said[hour] = content
        except Refused as refusal:
            return number, refusal.args[0]
    dropped, changed, new = [], [], []
    for monitor in sorted(says):
        said, there, duration = says[monitor], standing[monitor], durations[monitor]
        dropped += [deletion(monitor, hour) for hour in sorted(there) if first <= hour // 24 <= last and hour not in said]
        for hour in sorted(said):
            if hour not in there:
                new.append(put("I", monitor, duration, hour, said[hour]))
            elif there[hour] != said[hour]:
                changed.append(put("U", monitor, duration, hour, said[hour]))
    return dropped + changed + new


def main(words):
    path, first, last = words
    durations, standing = read_file(path)
    # What was read is looked through by no collection of what is no longer used.
    gc.freeze()
    begun = time.process_time()
    first, last = (day_number(datetime.date.fromisoformat(day)) for day in (first, last))
    found = changes(durations, standing, first, last, sys.stdin.buffer.read())
    if isinstance(found, tuple):
        sys.stderr.write(f"airdv: {LINE_REFUSED} line {found[0]} rule {found[1]} {NAMES[found[1]]}\n")
        return LINE_REFUSED
    sys.stdout.write("".join(found))
    sys.stdout.flush()
    os.write(2, f"{time.process_time() - begun}\n".encode())
    return 0


if __name__ == "__main__":
    sys.exit(main(sys.argv[1:]))
