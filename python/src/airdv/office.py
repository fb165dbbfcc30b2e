"""An office, asked and loaded alike in a folder and at an address."""

import os
import time
from typing import Any, Iterable, List, Optional, Sequence, Union

import pandas

from airdv import errors, sheets
from airdv.program import Folder
from airdv.questions import LOAD, Form, Plain, question
from airdv.server import Auth, Server

# A load in doubt is sent again so often, after so many seconds, and each time after twice as many.
TRIES, FIRST_PAUSE = 6, 1.0
_IN_DOUBT = (errors.Unreachable, errors.KeeperFailed, errors.OutOfMemory, errors.ProgramDied)

Answer = Union["pandas.DataFrame", "List[pandas.DataFrame]", str]
Lines = Union[str, bytes, Iterable[str]]


class Office:
    """An office in a folder, or at an address of `airdv serve` or of a proxy before it.

    - `auth` and `verify` are those of `requests`: a user and password, and whether or by which file a certificate is held.
    - `program` is the path of airdv for a folder; else AIRDV names it, or it is on the PATH.
    - `timeout` is in seconds, for each run of the program and for each silence of a server.
    """

    def __init__(self, place: "Union[str, os.PathLike[str]]", *, auth: "Optional[Auth]" = None, verify: Union[bool, str] = True,
                 program: "Optional[Union[str, os.PathLike[str]]]" = None, timeout: Optional[float] = 600.0) -> None:
        is_address = isinstance(place, str) and place.lower().startswith(("http://", "https://"))
        self._door: Union[Folder, Server] = Server(str(place), auth, verify, timeout) if is_address else Folder(place, program, timeout)

    def __repr__(self) -> str:
        return f"Office({str(self._door)!r})"

    def ask(self, name: str, *words: object, numbers: str = "decimal") -> Answer:
        """The answer to a question, such as `ask("report", "O3-2015", 2024)`.

        It is a frame with the sheet's heads in `attrs`; a list of frames for `area` and `reports`; text for `records` and
        `lines`. Whole numbers are `Int64`. Numbers with places are `decimal.Decimal`, or `float`s (`Float64`) where
        `numbers` says so. Days and hours are `datetime64`, `Y` and `N` texts, and what is missing is NA.

        What is no answer is raised by its name: `NoCommand`, `NotFound` (in a folder `NoSite` and so on), `KeeperFailed`.
        """
        asked = question(name)
        texts = asked.words(words)
        forms = asked.forms(texts)
        text = self._door.ask(asked, texts)
        if forms is Plain.LINES:
            return text
        if forms is Plain.CSV:
            return sheets.export_frame(text, numbers)
        assert isinstance(forms, tuple)
        frames = [sheets.frame(it, form, numbers) for it, form in zip(self._door.read(text, forms), forms)]
        return frames if name in ("area", "reports") else frames[0]

    def load(self, number: int, lines: Lines, *, refused: str = "raise") -> "pandas.DataFrame":
        """Takes lines as a load with a number from 1 to 4294967295, which acts once, and answers its summary.

        Where the load is in doubt (a connection that was cut, a timeout, 502, 503, 504, 5, 7), the same text is sent again
        under the same number, six times at most. `LinesRefused` where lines were refused: the load stands, its other
        lines were taken, and its number is used. `refused="answer"` answers the summary then too.
        """
        if refused not in ("raise", "answer"):
            raise ValueError(f"refused is raise or answer, and not {refused!r}")
        body = _body(lines)
        reply = sheets.frame(self._sent(number, body), LOAD, "decimal")
        if refused == "raise" and reply.attrs["refused"]:
            first = reply.iloc[0]
            raise errors.LinesRefused(
                f"load {number} stands, and {reply.attrs['refused']} of its {reply.attrs['lines']} lines were refused: "
                f"the first is line {first['line']}, by rule {first['rule']} {first['name']}", reply)
        return reply

    def _sent(self, number: int, body: bytes) -> sheets.Sheet:
        pause = FIRST_PAUSE
        for tried in range(1, TRIES + 1):
            try:
                return self._door.load(number, body)
            except _IN_DOUBT as error:
                if tried == TRIES:
                    error.args = (f"{error}; load {number} is in doubt: send the same text under the same number, before any other load",)
                    raise
            time.sleep(pause)
            pause *= 2
        raise AssertionError("the last try has an answer or an error")


def _body(lines: Lines) -> bytes:
    if isinstance(lines, bytes):
        return lines
    if isinstance(lines, str):
        return lines.encode("utf-8")
    return "".join(it if it.endswith("\n") else f"{it}\n" for it in lines).encode("utf-8")


def one_frame(answer: Answer, forms: "Union[Plain, tuple[Form, ...]]", numbers: str) -> Any:
    """An answer as one frame, its heads as columns: of several sheets with their place, of text with the text."""
    if isinstance(answer, str):
        return pandas.DataFrame({"text": pandas.array([answer], dtype="string")})
    if not isinstance(forms, tuple):
        return answer
    frames = answer if isinstance(answer, list) else [answer]
    return joined([_with_heads(it, form, place if len(frames) > 1 else None, numbers) for place, (it, form) in enumerate(zip(frames, forms), 1)])


def joined(frames: "Sequence[pandas.DataFrame]") -> Any:
    """Frames below one another."""
    made = pandas.concat(frames, ignore_index=True)
    # (a column of numbers with places in which one frame has none at all comes with another sign of what is missing)
    for name in made.columns[made.dtypes == object]:
        made[name] = made[name].where(made[name].notna(), pandas.NA)
    return made


def _with_heads(frame: "pandas.DataFrame", form: Form, place: Optional[int], numbers: str) -> Any:
    made = frame.copy()
    made.attrs.clear()
    # (a head whose name a column has too, as `verdict` of an area, gets the name `sheet_verdict`)
    for spot, (name, kind) in enumerate(form.heads.items()):
        made.insert(spot, f"sheet_{name}" if name in form.columns else name, sheets.repeated(kind, frame.attrs[name], len(frame), numbers))
    if place is not None:
        made.insert(0, "sheet", place)
    return made
