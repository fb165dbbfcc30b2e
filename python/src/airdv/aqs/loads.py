"""Texts of loads: lines within what one load may have."""

import os
import pathlib
import shutil
import tempfile
from typing import IO, Iterable, Iterator, Optional, Union

from airdv.errors import NotWritten, TooLong

MOST_LINES, MOST_BYTES = 120_000, 8_388_608
LAST_NUMBER = 4_294_967_295
_DIGITS = len(str(LAST_NUMBER))


def one_text(lines: "Iterable[str]") -> str:
    """All lines as the text of one load. `TooLong` if it is more than one may have."""
    kept, size = [], 0
    for line in lines:
        size += len(line) + 1
        kept.append(line)
        if len(kept) > MOST_LINES or size > MOST_BYTES:
            raise too_long()
    return "".join(f"{line}\n" for line in kept)


def too_long() -> TooLong:
    return TooLong(f"more than {MOST_LINES:,} lines or {MOST_BYTES:,} bytes, which one load may have: write numbered loads into a folder (--out)")


def texts(lines: "Iterable[str]") -> "Iterator[str]":
    """The lines as texts of loads, each as long as it may be."""
    kept: "list[str]" = []
    size = 0
    for line in lines:
        if kept and (len(kept) == MOST_LINES or size + len(line) + 1 > MOST_BYTES):
            yield "".join(f"{it}\n" for it in kept)
            kept, size = [], 0
        kept.append(line)
        size += len(line) + 1
    if kept:
        yield "".join(f"{it}\n" for it in kept)


class LoadFolder:
    """A folder of numbered loads, of which the records come first, although they are known last.

    All is written into a folder beside it, which takes its name once it is whole. Each file is called as its number, in
    ten digits, and what it has.
    """

    def __init__(self, folder: "Union[str, os.PathLike[str]]", first_number: int = 1) -> None:
        self.folder = pathlib.Path(folder)
        if os.path.lexists(self.folder):
            raise NotWritten(f"{self.folder} is there already")
        self._first_number = first_number
        try:
            self._work = pathlib.Path(tempfile.mkdtemp(prefix=f".{self.folder.name}-", dir=self.folder.parent))
        except OSError as error:
            raise NotWritten(f"{self.folder} cannot be made: {error.strerror}") from None
        self._files: "list[pathlib.Path]" = []
        self._file: Optional[IO[str]] = None
        self._lines = self._bytes = 0

    def write(self, line: str) -> None:
        """Adds the line of a sample, without its end."""
        size = len(line) + 1
        if self._file is None or self._lines == MOST_LINES or self._bytes + size > MOST_BYTES:
            self._begin()
        assert self._file is not None
        self._file.write(f"{line}\n")
        self._lines += 1
        self._bytes += size

    def finish(self, records: "Iterable[str]") -> "list[pathlib.Path]":
        """Writes the records, numbers all loads and gives the folder its name. Answers the loads in their order."""
        self._close()
        first = []
        for place, text in enumerate(texts(records)):
            path = self._work / f"records-{place}"
            path.write_text(text, encoding="ascii")
            first.append(path)
        names = []
        for number, (path, kind) in enumerate([*((it, "records") for it in first), *((it, "samples") for it in self._files)], self._first_number):
            if number > LAST_NUMBER:
                raise NotWritten(f"the number of a load is {LAST_NUMBER} at most")
            name = f"{number:0{_DIGITS}}-{kind}.txt"
            path.rename(self._work / name)
            names.append(name)
        # (tempfile gives its folders to their owner alone)
        mask = os.umask(0)
        os.umask(mask)
        self._work.chmod(0o777 & ~mask)
        try:
            os.rename(self._work, self.folder)
        except OSError as error:
            raise NotWritten(f"{self.folder} cannot be made: {error.strerror}") from None
        return [self.folder / name for name in names]

    def abandon(self) -> None:
        """Leaves nothing behind."""
        self._close()
        shutil.rmtree(self._work, ignore_errors=True)

    def _begin(self) -> None:
        self._close()
        path = self._work / f"samples-{len(self._files)}"
        self._file = path.open("w", encoding="ascii", newline="\n")
        self._files.append(path)
        self._lines = self._bytes = 0

    def _close(self) -> None:
        if self._file is not None:
            self._file.close()
            self._file = None
