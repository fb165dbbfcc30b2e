"""What bench/ozone and bench/pm25 share: the hours that aq_measure makes up, and a measure of a mode of
aq_measure beside a plain Python computation of the same numbers, from lists of hourly values that are
already in memory.

What one run takes is the time of many less that of none, over their number. Times are those of the
processor, in which other work on the machine does not count, though it slows both. Instructions are
counted by valgrind, and told only where that is at hand. The program has to be built by
`bin/build measure`, or named by AQ_MEASURE.
"""

import os
import pathlib
import re
import shutil
import subprocess
import sys
import tempfile
import time

sys.path.insert(0, str(pathlib.Path(__file__).resolve().parent.parent / "bin"))

import common

MOST_RATIO = 0.1
RUNS = 15
TIMES = 20
COUNTED_TIMES = 5

YEARS = (2022, 2023, 2024)


# ---- the hours, as aq_measure makes them up


def days_in(year):
    return 366 if year % 4 == 0 else 365


def made_up(monitors):
    """For each monitor the list of its hourly values, in the unit of the pollutant. Hours are counted from
    1990 on."""
    first = 24 * sum(days_in(year) for year in range(1990, YEARS[0]))
    hours = range(first, first + 24 * sum(days_in(year) for year in YEARS))
    return [
        [20 + hour // 24 * 7 % 30 + (hour * 37 + poc * 11) % 31 for hour in hours]
        for poc in range(1, monitors + 1)
    ]


def truncated_mean(total, count):
    return total // count if total >= 0 else -(-total // count)


# ---- measuring


def run(command):
    """The processor's seconds of one run and what it wrote."""
    process = subprocess.Popen(command, stdin=subprocess.DEVNULL, stdout=subprocess.PIPE, text=True)
    output = process.stdout.read()
    _, status, usage = os.wait4(process.pid, 0)
    process.returncode = os.waitstatus_to_exitcode(status)
    if process.returncode != 0:
        sys.exit(f"bench: {command} ended with {process.returncode}")
    return usage.ru_utime + usage.ru_stime, output


def instructions(command):
    with tempfile.NamedTemporaryFile() as counts:
        process = subprocess.run(
            ["valgrind", "--tool=callgrind", f"--callgrind-out-file={counts.name}", *command],
            stdin=subprocess.DEVNULL, capture_output=True, text=True, check=True,
        )
    return int(re.search(r"Collected : (\d+)", process.stderr)[1])


def measure(mode, monitors, plain_computation, wanted, told):
    """Prints the figures of a site with so many monitors. `wanted` is what the program prints for so many
    runs with what the plain computation gives, and `told` is what is printed of it here. Answers whether the
    limit is broken."""
    command = [common.program("aq_measure"), mode, str(monitors)]
    values = made_up(monitors)
    none, many, plain = [], [], []
    # In turn, so that what else runs on the machine bears on all of them.
    for _ in range(RUNS):
        none.append(run([*command, "0"])[0])
        seconds, output = run([*command, str(TIMES)])
        many.append(seconds)
        start = time.process_time()
        given = plain_computation(values)
        plain.append(time.process_time() - start)
        if output != wanted(given, TIMES):
            sys.exit(f"bench/{mode}: the two differ: {output!r}, {wanted(given, TIMES)!r}")
    one = (min(many) - min(none)) / TIMES
    ratio = one / min(plain)
    print(f"{monitors} of {len(values[0])} hours, {told(given)}")
    print(f"{'aq_' + mode:12} {one * 1000:.2f} ms, best of {RUNS}", end="")
    if shutil.which("valgrind"):
        counted = instructions([*command, str(COUNTED_TIMES)]) - instructions([*command, "0"])
        print(f"; {counted / COUNTED_TIMES / 1e6:.1f} million instructions", end="")
    print(f"\nPython       {min(plain) * 1000:.1f} ms, best of {RUNS}")
    print(f"ratio        {ratio:.3f}; at most {MOST_RATIO}")
    sys.stdout.flush()
    return ratio > MOST_RATIO


def measure_sites(*measured):
    """Measures a site with one monitor and one with eight. Ends with 1 where a limit is broken."""
    sys.exit(any([measure(measured[0], monitors, *measured[1:]) for monitors in (1, 8)]))
