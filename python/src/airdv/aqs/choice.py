"""Which rows are wanted: states, counties, sites and years."""

import re
from dataclasses import dataclass
from typing import AbstractSet, Iterable, Union

_PLACES = re.compile(r"[0-9]{2}(?:-[0-9]{3}(?:-[0-9]{4})?)?")


@dataclass(frozen=True)
class Choice:
    """Rows of one of these places (states as 06, counties as 06-037, sites as 06-037-1103) and years; all, where none is
    named."""

    places: "AbstractSet[str]" = frozenset()
    years: "AbstractSet[int]" = frozenset()

    @classmethod
    def of(cls, states: "Iterable[str]" = (), counties: "Iterable[str]" = (), sites: "Iterable[str]" = (),
           years: "Iterable[Union[int, str]]" = ()) -> "Choice":
        """A choice. `ValueError` for a place or a year that is misspelled."""
        places = set()
        for given, length, name in ((states, 2, "state"), (counties, 6, "county"), (sites, 11, "site")):
            for it in given:
                if not _PLACES.fullmatch(it) or len(it) != length:
                    raise ValueError(f"{it!r} is no {name}: write 06, 06-037 or 06-037-1103")
                places.add(it)
        return cls(frozenset(places), frozenset(int(it) for it in years))

    def has_site(self, site: str) -> bool:
        """Whether a site, as 06-037-1103, is wanted."""
        return not self.places or bool({site[:2], site[:6], site} & self.places)

    def has_year(self, year: int) -> bool:
        return not self.years or year in self.years
