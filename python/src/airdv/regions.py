"""Many offices asked side by side: a region, or the nation."""

import os
import time
from dataclasses import dataclass
from typing import Any, Iterable, Mapping, Optional, Union

import pandas

from airdv.errors import AirdvError, KeeperFailed
from airdv.office import Office, joined, one_frame
from airdv.questions import question as question_named

Place = Union[str, "os.PathLike[str]"]
FIRST_PAUSE = 1.0


@dataclass(frozen=True)
class _Task:
    """What a worker does: it asks one office."""

    place: Place
    question: str
    words: "tuple[str, ...]"
    numbers: str
    again: int
    options: "Mapping[str, Any]"


@dataclass(frozen=True)
class _Failure:
    """Why an office gave no answer: the name of the error, and its message."""

    error: str
    message: str


def _ask(task: _Task) -> Any:
    """One office's answer as a frame with the heads as columns, or why there is none.

    A worker that dies leaves its command at the file, which the next one then finds taken (5). It waits for ten seconds by
    itself, and is asked again so often.
    """
    try:
        office = Office(task.place, **task.options)
        for tried in range(task.again + 1):
            try:
                answer = office.ask(task.question, *task.words, numbers=task.numbers)
                return one_frame(answer, question_named(task.question).forms(task.words), task.numbers)
            except KeeperFailed:
                if tried == task.again:
                    raise
            time.sleep(FIRST_PAUSE)
        raise AssertionError("the last try has an answer or an error")
    except (AirdvError, OSError) as error:
        return _Failure(type(error).__name__, str(error))


def region(offices: "Union[Mapping[str, Place], Iterable[Place]]", question: str, *words: object, scheduler: Optional[str] = None,
           workers: Optional[int] = None, numbers: str = "decimal", again: int = 5, **options: Any) -> "tuple[pandas.DataFrame, pandas.DataFrame]":
    """What offices answer to a question: `region(folders, "report", "O3-2015", 2024)`.

    `offices` are folders or addresses, by their names or by themselves. The first frame has a column `office`, the heads as
    columns and the rows of all offices, in their order; the second one the offices that failed, each with the name of the
    error and its message. `area` and `reports` have a column `sheet` with the place of the sheet.

    They are asked on the workers of a Dask scheduler, by its address, or on this machine by so many workers. A file that
    another program has (5) is asked for again so often. Other words are those of `Office`: `auth`, `verify`, `program`,
    `timeout`. In a script the call stands behind `if __name__ == "__main__":`, since a worker reads the script too.
    """
    from airdv import cluster  # (Dask is an extra of the package)

    named = dict(offices) if isinstance(offices, Mapping) else {str(it): it for it in offices}
    asked = question_named(question)
    texts = tuple(asked.words(words))
    asked.forms(texts)
    tasks = [_Task(it, question, texts, numbers, again, options) for it in named.values()]
    found: "dict[int, Any]" = dict(cluster.side_by_side(_ask, tasks, scheduler, workers))
    frames, failures = [], []
    for place, name in enumerate(named):
        outcome = found[place]
        if isinstance(outcome, BaseException):
            outcome = _Failure(type(outcome).__name__, str(outcome))
        if isinstance(outcome, _Failure):
            failures.append((name, outcome.error, outcome.message))
        else:
            outcome.insert(0, "office", pandas.array([name] * len(outcome), dtype="string"))
            frames.append(outcome)
    answers = joined(frames) if frames else pandas.DataFrame({"office": pandas.array([], dtype="string")})
    return answers, pandas.DataFrame(failures, columns=["office", "error", "message"], dtype="string")
