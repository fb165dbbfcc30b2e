#!/usr/bin/env python3
"""What the scripts of bin/ and bench/ share: the crates, the programs that they run, the numbers of observations, what
they tell and count, parts by name, and free ports. As a script it prints the path of the program that it is given, as
`bin/common.py airdv`."""

import functools
import importlib.machinery
import importlib.util
import os
import pathlib
import socket
import subprocess
import sys
import tempfile
import time

TOP = pathlib.Path(__file__).resolve().parent.parent
BUILDS = {"airdv": "bin/build", "airdv_journal": "bin/build journal", "airdv_page": "bin/build page", "aq_measure": "bin/build measure"}
# No command of the tries may take so many seconds.
LONGEST = 120


# ---- crates and scripts

def crates():
    """Each crate and what it stands on, in the order of crates.txt."""
    lines = (TOP / "crates.txt").read_text().splitlines()
    parted = (line.split(":", 1) for line in lines if line and not line.startswith("#"))
    return {name.split()[0]: rest.split() for name, rest in parted}


def closure(name, of):
    """A crate and all that it stands on, without the kit's."""
    return {name}.union(*(closure(it, of) for it in of[name] if it in of))


def script(place):
    """A script of the repository as a module."""
    path = TOP / place
    loader = importlib.machinery.SourceFileLoader(path.name.replace("-", "_"), str(path))
    found = importlib.util.module_from_spec(importlib.util.spec_from_loader(loader.name, loader))
    loader.exec_module(found)
    return found


# ---- programs

@functools.cache
def sources():
    """The checksum of all that the programs are made of and proved with."""
    return subprocess.run([TOP / "bin" / "sources"], capture_output=True, text=True, check=True).stdout.strip()


@functools.cache
def program(name):
    """The path of a program: the one that its name in capitals names (AIRDV, AQ_MEASURE), or the one that is built
    from these sources. Ends the script if there is neither."""
    named = os.environ.get(name.upper())
    if named:
        if not os.access(named, os.X_OK):
            sys.exit(f"{name.upper()} names no program: {named}")
        return os.path.abspath(named)
    built = TOP / "crates" / name / "out" / name
    stamp = pathlib.Path(f"{built}.sources")
    if not built.exists() or not stamp.exists() or stamp.read_text().strip() != sources():
        sys.exit(f"{name} is not built from these sources; run {BUILDS[name]}")
    return str(built)


def run(path, folder, words, body=b"", values=None, longest=LONGEST):
    """The status of a program, what it writes, and its errors stream. One that does not end has no status."""
    try:
        done = subprocess.run([path, *words], cwd=folder, input=body, capture_output=True, check=False, timeout=longest, env=values)
    except subprocess.TimeoutExpired:
        return None, b"", b"it did not end"
    return done.returncode, done.stdout, done.stderr


def free_port():
    """A port of this machine on which nothing listens."""
    with socket.socket() as probe:
        probe.bind(("127.0.0.1", 0))
        return probe.getsockname()[1]


def listens(port):
    """Whether a program listens there, without a connection to it."""
    wanted = f"0100007F:{port:04X}"
    with open("/proc/net/tcp", encoding="ascii") as table:
        return any(line.split()[1] == wanted and line.split()[3] == "0A" for line in list(table)[1:])


# ---- observations

def number_of(site, pollutant, poc, hour):
    """The number under which `observations3` keeps an observation, whose hour counts from 2000."""
    return site * 10**9 + pollutant * 10**8 + poc * 10**6 + hour + 87_648


# ---- tries

differing = 0


def tell(name, is_right, found=""):
    """Says whether something is as it should be, and else counts it."""
    global differing
    if is_right:
        print(f"as it should be: {name}", flush=True)
    else:
        differing += 1
        print(f"DIFFERS: {name} {found}", flush=True)


def ended(none="none differs"):
    """Says how much differs, and gives the status with which the script then ends."""
    print(f"{differing} differ" if differing else none, flush=True)
    return 1 if differing else 0


def chosen(parts, words=None):
    """The parts that the words name, those of the script if none are given, and all if there are no words. Ends the script for other words."""
    words = sys.argv[1:] if words is None else words
    if not set(words) <= set(parts):
        sys.exit(f"{pathlib.Path(sys.argv[0]).name}: the parts are {' '.join(parts)}")
    return words or list(parts)


def try_parts(parts, words, begin=lambda word, base: None):
    """Tries these parts, each in a folder of its own in which it begins with something, and says how long each took."""
    for word in words:
        with tempfile.TemporaryDirectory() as work:
            base = pathlib.Path(work) / "base"
            base.mkdir()
            start = time.monotonic()
            begin(word, base)
            parts[word](base)
            print(f"{word}: {time.monotonic() - start:.1f} s", flush=True)


def main():
    if len(sys.argv) != 2 or sys.argv[1] not in BUILDS:
        sys.exit(f"common.py: the programs are {' '.join(BUILDS)}, one at a time")
    print(program(sys.argv[1]))


if __name__ == "__main__":
    main()
