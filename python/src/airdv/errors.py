"""What can go wrong, by name."""

from typing import Optional


class AirdvError(Exception):
    """Everything that this package raises by itself. Its status is what a command of the package ends with."""

    status = 1


# ---- into the office


class NotAqs(AirdvError):
    """A file or frame that is none of the formats that are read, or that breaks off."""

    status = 3


class NotWritten(AirdvError):
    """The place for the loads is taken, or cannot be written."""

    status = 4


class TooLong(AirdvError):
    """More lines or bytes than one load may have."""

    status = 10


class RowRefused(AirdvError):
    """A row that is spelled otherwise than is assumed, or that contradicts another one."""

    status = 17


class NotWhole(AirdvError):
    """An extract that lacks something, so that `changes` would delete it."""

    status = 18


class DoesNotFit(AirdvError):
    """A site that no office can hold."""


# ---- out of the office


class OfficeError(AirdvError):
    """An answer of the program that is none of what was asked. Its text is the program's message."""


class NoCommand(OfficeError):
    """The question is no question, or a word of it is misspelled or out of its range (2, 400)."""

    status = 2


class InputFailed(OfficeError):
    """The program could not read its input (3)."""

    status = 3


class OutputFailed(OfficeError):
    """The program could not write its output (4)."""

    status = 4


class KeeperFailed(OfficeError):
    """The file failed, or another program has it; a load is in doubt (5, 503)."""

    status = 5


class Damaged(OfficeError):
    """A row of the file is no row of any office (6)."""

    status = 6


class OutOfMemory(OfficeError):
    """Memory could not be had; a load is in doubt (7)."""

    status = 7


class DoorFailed(OfficeError):
    """`serve` could not listen (8)."""

    status = 8


class Conflict(OfficeError):
    """The number of the load is known with another text (9, 409)."""

    status = 9


class TooLarge(OfficeError):
    """The load has more lines or bytes than one may have (10, 413)."""

    status = 10


class LoadsFull(OfficeError):
    """As many loads stand as may (11, 507)."""

    status = 11


class NotFound(OfficeError):
    """What is asked for does not stand (12 to 16, 404)."""

    status = 12


class NoSite(NotFound):
    """The site is not registered (12)."""


class NoEvent(NotFound):
    """No event has the number (13)."""

    status = 13


class NoCombination(NotFound):
    """No site is joined to this one (14)."""

    status = 14


class NoSiteInArea(NotFound):
    """No site of the area has a monitor of the pollutant (15)."""

    status = 15


class NoLoad(NotFound):
    """No load has the number (16)."""

    status = 16


class ExtractRefused(OfficeError):
    """A line of an extract breaks a rule (17)."""

    status = 17


class Forbidden(OfficeError):
    """Whoever asks may not: 401 of a proxy, 403."""


class Unreachable(OfficeError):
    """No reply came. A load is in doubt: send the same text under the same number again."""


class UnexpectedReply(OfficeError):
    """An answer that is none of the program's, as of another program at that address."""


class ProgramDied(OfficeError):
    """A signal ended the program, or it has an unknown status; a load is in doubt."""


class LinesRefused(OfficeError):
    """The load stands, and lines of it were refused. `reply` is its summary."""

    def __init__(self, message: str, reply: Optional[object] = None) -> None:
        super().__init__(message)
        self.reply = reply


BY_STATUS = {
    it.status: it
    for it in (
        NoCommand, InputFailed, OutputFailed, KeeperFailed, Damaged, OutOfMemory, DoorFailed, Conflict, TooLarge,
        LoadsFull, NoSite, NoEvent, NoCombination, NoSiteInArea, NoLoad, ExtractRefused,
    )
}
BY_CODE = {
    400: NoCommand, 401: Forbidden, 403: Forbidden, 404: NotFound, 409: Conflict, 413: TooLarge, 503: KeeperFailed,
    507: LoadsFull,
}
