#!/usr/bin/env python3
"""The generated loads of `airdv simulate`, by a plain Python program, and the yardstick of its time.

    simulate.py START SITES YEARS    writes the bodies of all loads, one after the other
    simulate.py split                reads them and only splits each line at its bars; it tells how many
                                     lines and fields there are
"""

import datetime
import sys

FIRST_YEAR = 2021
DAY = datetime.timedelta(days=1)

# The parameter and unit of PM2.5 and PM10, every how many days they are sampled, and the least value
# and how many there are, in tenths of a µg/m3.
PARTICLES = (("88101", "105", 3, 40, 200), ("81102", "001", 6, 100, 1500))


class Draws:
    """Numbers from a linear congruential generator, without the low bits of its state."""

    def __init__(self, state):
        self.state = state

    def draw(self, count):
        self.state = (self.state * 6364136223846793005 + 1442695040888963407) % 2**64
        return self.state // 2**33 % count

    def value(self, least, count):
        """The value of a sample, or none for one in twenty."""
        return None if self.draw(20) == 0 else least + self.draw(count)


def sample(value, places):
    """The sample value, or the null code in the field behind it."""
    if value is None:
        return "|AN"
    whole, rest = divmod(value, 10**places)
    return f"{whole}.{rest:0{places}}"


def site_name(number):
    return f"99|001|{number:04}"


def office(sites, years):
    """The lines of load 1."""
    start = f"{FIRST_YEAR}0101"
    for site in map(site_name, range(1, sites + 1)):
        for parameter, duration in (("44201", 1), ("88101", 7), ("81102", 7)):
            yield f"XM|I|{site}|{parameter}|1|{duration}|Y\n"
        for parameter in ("44201", "88101", "81102"):
            yield f"XP|I|{site}|{parameter}|{start}|1\n"
        for parameter, _, interval, _, _ in PARTICLES:
            yield f"XS|I|{site}|{parameter}|{start}|{interval}|{start}\n"
        for year in range(FIRST_YEAR, FIRST_YEAR + years):
            yield f"XO|I|{site}|{year}|{year}0301|{year}1031\n"


def samples(state, site, year):
    """The lines of a site and year."""
    draws = Draws(state)
    first, anchor = datetime.date(year, 1, 1), datetime.date(FIRST_YEAR, 1, 1)
    days = [first + DAY * place for place in range((datetime.date(year + 1, 1, 1) - first).days)]
    for day in days:
        for hour in range(24):
            yield f"RD|I|{site}|44201|1|1|007|000|{day:%Y%m%d}|{hour:02}:00|{sample(draws.value(20, 60), 3)}\n"
    for parameter, unit, interval, least, count in PARTICLES:
        for day in days:
            if (day - anchor).days % interval == 0:
                value = sample(draws.value(least, count), 1)
                yield f"RD|I|{site}|{parameter}|1|7|{unit}|000|{day:%Y%m%d}|00:00|{value}\n"


def loads(start, sites, years):
    """The lines of each load in turn."""
    yield office(sites, years)
    for place in range(sites * years):
        site, year = place // years + 1, FIRST_YEAR + place % years
        yield samples((start + 2 + place) % 2**64, site_name(site), year)


def split(source):
    lines = fields = 0
    for line in source.read().split(b"\n")[:-1]:
        lines += 1
        fields += len(line.split(b"|"))
    return lines, fields


def main(words):
    if words == ["split"]:
        print(*split(sys.stdin.buffer))
        return
    for lines in loads(*map(int, words)):
        sys.stdout.write("".join(lines))


if __name__ == "__main__":
    main(sys.argv[1:])
