"""What bench/lists, bench/days, bench/whatif and bench/changes share: files whose observations Python puts, and what
is asked of them by words and over HTTP.

By words a question takes the processor's time of its command less that of a `show` of a site that is not registered,
which only opens the file: the best of so many runs each, in turn. Over HTTP it takes the processor's time of the
server, from one wait for a request to the next: the median of so many requests, in turn with what stands beside it.
The programs have to be built by `bin/build` and `bin/build measure`, or named by AIRDV and AQ_MEASURE.
"""

import contextlib
import datetime
import json
import os
import pathlib
import sqlite3
import statistics
import subprocess
import sys
import tempfile
import time

sys.path.insert(0, str(pathlib.Path(__file__).resolve().parent.parent / "bin"))

import common

opening = common.script("bench/open")
serving = common.script("bench/serve")

FIRST_HOUR = datetime.datetime(2000, 1, 1)
HOUR = datetime.timedelta(hours=1)
DAY = datetime.timedelta(days=1)
HOURS_OF_AN_EVENT = 8_784

failures = []


def at_most(name, found, limit):
    """What is told of a limit, if there is one. What is above it is counted."""
    if limit is None:
        return ""
    if found > limit:
        failures.append(f"{name}: {found:.3f}, at most {limit:g}")
    return f" (at most {limit:g})"


def ended():
    """Says what is above its limit, and gives the status with which the script then ends."""
    for failure in failures:
        print(f"ABOVE: {failure}")
    return 1 if failures else 0


# ---- files


def hours_to(moment):
    """The hours from 2000 on to a moment, below 0 before it."""
    return (moment - FIRST_HOUR) // HOUR


def days_of(year):
    """The days of a year."""
    first = datetime.date(year, 1, 1)
    return [first + day * DAY for day in range((datetime.date(year + 1, 1, 1) - first).days)]


def site_number(site):
    return int(site.replace("-", ""))


def observations(site, pollutant, poc, first, contents, step=1):
    """Rows of a monitor: one at each so many hours from the first one on, with a value, a null code and qualifiers."""
    start = common.number_of(site_number(site), pollutant, poc, hours_to(first))
    return ((start + step * place, *content) for place, content in enumerate(contents))


def kept(connection):
    """Closes a file whose rows all stand in it."""
    connection.commit()
    connection.execute("PRAGMA wal_checkpoint(TRUNCATE)")
    connection.close()


def office(folder, lines, rows):
    """A file whose records `airdv load` takes, and whose observations are put by Python."""
    folder.mkdir()
    lines = list(lines)
    status, printed, errors = common.run(common.program("airdv"), folder, ["load", "1"], "".join(lines).encode(), longest=None)
    if status != 0 or f"\naccepted {len(lines)}\n".encode() not in printed:
        sys.exit(f"{folder.name}: the records are answered with {status} {printed[:300]} {errors[:300]}")
    connection = sqlite3.connect(folder / opening.FILE)
    connection.executemany("INSERT INTO observations3 VALUES (?, ?, 87, ?, ?)", rows)
    kept(connection)
    return folder


# ---- answers


def sheet(heads, columns, rows):
    """A sheet as JSON has it."""
    return {**heads, "columns": columns.split(), "rows": rows}


def text_of(found, heads):
    """A sheet as words print it, whose heads are these in order."""
    lines = [[name, found[name]] for name in heads] + [found["columns"]] + found["rows"]
    return "".join(" ".join("-" if cell is None else str(cell) for cell in line) + "\n" for line in lines)


def compare(name, found, wanted):
    """Ends the script if a sheet is another one, and says where."""
    if found == wanted:
        return
    for row, (one, other) in enumerate(zip(found.get("rows", []), wanted["rows"])):
        if one != other:
            sys.exit(f"{name}: row {row} is {one}, and not {other}")
    sizes = [{**it, "rows": len(it.get("rows", []))} for it in (found, wanted)]
    sys.exit(f"{name}: it is {sizes[0]}, and not {sizes[1]}")


# ---- by words


def command(folder, words, status=0):
    """The seconds of the processor that a command takes, and what it prints."""
    return command_on(folder, words, os.devnull, status)[:2]


def command_on(folder, words, given, status=0):
    """The seconds of the processor that a command takes whose input is a file, what it prints, and the peak of its
    memory in bytes."""
    with open(given, "rb") as source, tempfile.TemporaryFile() as output:
        with subprocess.Popen([common.program("airdv"), *words], cwd=folder, stdin=source, stdout=output,
                              stderr=subprocess.DEVNULL) as program:
            _, ended_with, usage = os.wait4(program.pid, 0)
            program.returncode = os.waitstatus_to_exitcode(ended_with)
        if program.returncode != status:
            sys.exit(f"{' '.join(words)} ended with {program.returncode}")
        output.seek(0)
        return usage.ru_utime + usage.ru_stime, output.read().decode(), 1024 * usage.ru_maxrss


def by_words(folder, questions, runs):
    """The seconds that opening takes; and of each question, by its words, those that come behind the opening, and what
    it prints."""
    opened, took, printed = [], {words: [] for words in questions}, {}
    for _ in range(runs):
        opened.append(command(folder, opening.SHOW, 12)[0])
        for words in questions:
            seconds, printed[words] = command(folder, words)
            took[words].append(seconds)
    return min(opened), {words: (min(times) - min(opened), printed[words]) for words, times in took.items()}


# ---- over HTTP


def path_of(words):
    """The path of a question whose words are its parts."""
    return "/" + "/".join(words)


def rested(served):
    """The seconds of the processor that a server has taken, once it waits for a request."""
    while True:
        with open(f"/proc/{served.process.pid}/stat", encoding="ascii", errors="replace") as status:
            if status.read().rpartition(")")[2].split()[0] == "S":
                return served.busy()
        time.sleep(0.0002)


def timed(served, client, target):
    """The reply to a question, its seconds by the clock, and those of the server's processor."""
    before, start = rested(served), time.perf_counter()
    reply = serving.answer(client, serving.get(target))
    clock = time.perf_counter() - start
    return reply, clock, rested(served) - before


def in_turn(asked, times):
    """The medians of questions that are asked in turn: the seconds by the clock, and those of the server's processor.
    `asked` has of each its server, its path and the reply that it gives each time. Each server is asked over one
    connection after the other."""
    measured = [[] for _ in asked]
    servers = {served for served, *_ in asked}
    most = serving.REQUESTS_OF_A_CONNECTION // len(asked)
    for begun in range(0, times, most):
        with contextlib.ExitStack() as open_ones:
            clients = {served: open_ones.enter_context(served.connect()) for served in servers}
            for _ in range(min(most, times - begun)):
                for place, (served, target, wanted) in enumerate(asked):
                    reply, *seconds = timed(served, clients[served], target)
                    if reply != wanted:
                        sys.exit(f"{target} is answered with other bytes: {reply[:200]}")
                    measured[place].append(seconds)
    return [tuple(map(statistics.median, zip(*seconds))) for seconds in measured]


def reply_to(served, target):
    with served.connect() as client:
        return serving.answer(client, serving.get(target))


def body_of(reply):
    """What the JSON of a reply says."""
    return json.loads(reply.partition(b"\r\n\r\n")[2])


def beside_fixed(served, target, times):
    """The reply to a question, and its medians, beside those of a fixed reply of the same bytes."""
    reply = reply_to(served, target)
    with serving.fixed(reply) as bare:
        ours, fixed = in_turn([(served, target, reply), (bare, target, reply)], times)
    return reply, ours, fixed


def tell_beside_fixed(name, reply, ours, fixed, limit=None):
    """Tells what a question takes over HTTP, by the processor and by the clock, and holds the first."""
    (clock, processor), (fixed_clock, fixed_processor) = ours, fixed
    print(f"{name}: {processor:.4f} s of the server's processor{at_most(f'{name} over HTTP', processor, limit)}, {clock:.4f} s by the"
          f" clock; a fixed reply of the same {len(reply):,} bytes {fixed_processor:.4f} and {fixed_clock:.4f} s;"
          f" {processor / fixed_processor:.1f} times it by the processor", flush=True)
