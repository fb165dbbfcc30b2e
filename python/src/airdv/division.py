"""A region's files cut into offices, by state, and a state where it must.

Each number of an office reads one site, that of a combination two and that of an area its own. So it is the same in
whatever office its sites stand, if they stand in one. A county is kept whole where it fits.
"""

import os
import pathlib
import shutil
import tempfile
from collections import Counter, defaultdict
from dataclasses import dataclass, field
from itertools import groupby
from typing import Any, Iterable, Optional, Union

import pandas

from airdv.aqs.choice import Choice
from airdv.aqs.conversion import Conversion, Given
from airdv.aqs.loads import LoadFolder
from airdv.errors import DoesNotFit, NotWritten

MOST_SITES, MOST_MONITORS, MOST_SAMPLES = 256, 8, 4_000_000


@dataclass
class Part:
    """The sites of one office, with their samples over all years."""

    name: str
    sites: "list[str]" = field(default_factory=list)
    samples: int = 0


def divide(files: "Iterable[Given]", folder: "Union[str, os.PathLike[str]]", *, choice: Optional[Choice] = None, most_sites: int = MOST_SITES,
           most_samples: int = MOST_SAMPLES, **options: Any) -> "pandas.DataFrame":
    """Writes a folder of loads for each office into a new folder, and answers them: office, sites, monitors, samples, loads.

    An office has the name of its state, such as `06`, or of a piece of it, such as `06-2`. `attrs` has under `cut` the
    counties that stand in several offices, whose `area` no one of them answers, and under `said` what was left out and
    guessed. The files are read twice. Other words are those of `from_aqs`: `duration`, `monitors`, `monitor_list`,
    `seasons`, `schedules`. `DoesNotFit` for a site that no office can hold.
    """
    given = list(files)
    target = pathlib.Path(folder)
    if os.path.lexists(target):
        raise NotWritten(f"{target} is there already")
    parts = planned(_counted(Conversion(given, choice=choice, **options)), most_sites, most_samples)
    part_of = {site: part for part in parts for site in part.sites}
    work = pathlib.Path(tempfile.mkdtemp(prefix=f".{target.name}-", dir=target.parent))
    try:
        conversion = Conversion(given, choice=choice, **options)
        folders = {part.name: LoadFolder(work / part.name) for part in parts}
        for monitor, line in conversion.lines():
            folders[part_of[monitor.site].name].write(line)
        rows, said = [], list(conversion.said())
        for part in parts:
            monitors = [it for it in conversion.samples.monitors.values() if part_of[it.site] is part]
            records = conversion.records(monitors)
            said += records.said
            loads = folders[part.name].finish(records.lines)
            rows.append((part.name, len(part.sites), len(monitors), part.samples, len(loads)))
        work.chmod(0o755)
        os.rename(work, target)
    except BaseException:
        shutil.rmtree(work, ignore_errors=True)
        raise
    made = pandas.DataFrame(rows, columns=["office", "sites", "monitors", "samples", "loads"])
    made.attrs.update(cut=_cut(parts), said=said)
    return made


def _counted(conversion: Conversion) -> "dict[str, int]":
    """The samples of each site. `DoesNotFit` for a site with more monitors of a pollutant than an office takes."""
    counts: "Counter[str]" = Counter()
    for monitor, _ in conversion.lines():
        counts[monitor.site] += 1
    pocs = Counter((it.site, it.parameter) for it in conversion.samples.monitors.values())
    for (site, parameter), count in sorted(pocs.items()):
        if count > MOST_MONITORS:
            raise DoesNotFit(f"{site} has {count} monitors of {parameter}, and an office takes {MOST_MONITORS} of a site and pollutant")
    return dict(counts)


def planned(samples: "dict[str, int]", most_sites: int = MOST_SITES, most_samples: int = MOST_SAMPLES) -> "list[Part]":
    """The offices of sites with so many samples each: as few as come of taking the counties of a state in their order."""
    for site, count in samples.items():
        if count > most_samples:
            raise DoesNotFit(f"{site} has {count:,} samples, and an office takes {most_samples:,}")
    parts = []
    for state, of_state in groupby(sorted(samples), key=lambda it: it[:2]):
        pieces = [Part(state)]
        for _, of_county in groupby(of_state, key=lambda it: it[:6]):
            sites = list(of_county)
            # A county that does not fit behind the others begins an office; one that fits into none is cut.
            if pieces[-1].sites and not _fits(pieces[-1], sites, samples, most_sites, most_samples):
                pieces.append(Part(state))
            for site in sites:
                if not _fits(pieces[-1], [site], samples, most_sites, most_samples):
                    pieces.append(Part(state))
                pieces[-1].sites.append(site)
                pieces[-1].samples += samples[site]
        if len(pieces) > 1:
            for number, part in enumerate(pieces, 1):
                part.name = f"{state}-{number}"
        parts += pieces
    return parts


def _fits(part: Part, sites: "list[str]", samples: "dict[str, int]", most_sites: int, most_samples: int) -> bool:
    return len(part.sites) + len(sites) <= most_sites and part.samples + sum(samples[it] for it in sites) <= most_samples


def _cut(parts: "list[Part]") -> "list[str]":
    offices = defaultdict(set)
    for part in parts:
        for site in part.sites:
            offices[site[:6]].add(part.name)
    return [county for county, names in offices.items() if len(names) > 1]
