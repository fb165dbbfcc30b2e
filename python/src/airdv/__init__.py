"""Beside the program airdv: its way in from the data that people have, and its way out into pandas.

It computes no number of its own. `from_aqs` and the command `airdv-from-aqs` make lines of AQS's public files and of
answers of its API; `Office` asks an office and loads into it; `region` asks many offices side by side; `divide` cuts a
region's files into offices. What goes wrong is raised by its name, of those in `airdv.errors`.
"""

from airdv.aqs.choice import Choice
from airdv.aqs.conversion import Converted, from_aqs
from airdv.division import divide
from airdv.errors import (
    AirdvError, Conflict, Damaged, DoesNotFit, DoorFailed, ExtractRefused, Forbidden, InputFailed, KeeperFailed, LinesRefused,
    LoadsFull, NoCombination, NoCommand, NoEvent, NoLoad, NoSite, NoSiteInArea, NotAqs, NotFound, NotWhole, NotWritten, OfficeError,
    OutOfMemory, OutputFailed, ProgramDied, RowRefused, TooLarge, TooLong, UnexpectedReply, Unreachable,
)
from airdv.office import Office
from airdv.regions import region

__all__ = [
    "AirdvError", "Choice", "Conflict", "Converted", "Damaged", "DoesNotFit", "DoorFailed", "ExtractRefused", "Forbidden", "InputFailed",
    "KeeperFailed", "LinesRefused", "LoadsFull", "NoCombination", "NoCommand", "NoEvent", "NoLoad", "NoSite", "NoSiteInArea", "NotAqs",
    "NotFound", "NotWhole", "NotWritten", "Office", "OfficeError", "OutOfMemory", "OutputFailed", "ProgramDied", "RowRefused", "TooLarge",
    "TooLong", "UnexpectedReply", "Unreachable", "divide", "from_aqs", "region",
]
