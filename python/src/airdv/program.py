"""An office in a folder: the program is run for each question and each load."""

import os
import pathlib
import shutil
import subprocess
from typing import Optional, Sequence, Union

from airdv import errors, sheets
from airdv.questions import LOAD, Forms, Question

DONE = 0


def found_program(named: "Optional[Union[str, os.PathLike[str]]]" = None) -> str:
    """The path of the program: the one that is named, or that AIRDV names, or `airdv` on the PATH."""
    path = os.fspath(named) if named is not None else os.environ.get("AIRDV") or shutil.which("airdv")
    if path is None or not os.access(path, os.X_OK):
        raise FileNotFoundError(f"there is no program airdv{f' at {path}' if path else ''}: name it by AIRDV, or by program=")
    return os.path.abspath(path)


class Folder:
    """The office in a folder."""

    def __init__(self, folder: "Union[str, os.PathLike[str]]", program: "Optional[Union[str, os.PathLike[str]]]", timeout: Optional[float]) -> None:
        self._folder = pathlib.Path(folder)
        if not self._folder.is_dir():
            raise FileNotFoundError(f"there is no folder {self._folder}")
        self._program = found_program(program)
        self._timeout = timeout

    def __str__(self) -> str:
        return str(self._folder)

    def ask(self, question: Question, words: "Sequence[str]") -> str:
        return self._run([question.name, *words])

    def read(self, text: str, forms: Forms) -> "list[sheets.Sheet]":
        return sheets.of_text(text, forms)

    def load(self, number: int, body: bytes) -> sheets.Sheet:
        return sheets.of_text(self._run(["load", str(number)], body), (LOAD,))[0]

    def _run(self, words: "list[str]", body: bytes = b"") -> str:
        try:
            done = subprocess.run([self._program, *words], cwd=self._folder, input=body, capture_output=True, check=False, timeout=self._timeout)
        except subprocess.TimeoutExpired:
            raise errors.Unreachable(f"airdv {words[0]} did not end within {self._timeout} s") from None
        said = done.stderr.decode(errors="replace").partition("\n")[0]
        if done.returncode != DONE:
            raise errors.BY_STATUS.get(done.returncode, errors.ProgramDied)(said or f"airdv {words[0]} ended with {done.returncode}")
        return done.stdout.decode("utf-8")
