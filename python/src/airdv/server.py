"""An office at an address: `airdv serve`, or a proxy before it."""

import ipaddress
import json
import re
import urllib.parse
from typing import Any, Optional, Sequence, Tuple, Union

import requests

from airdv import errors, sheets
from airdv.questions import LOAD, Forms, Question

# What a word may hold, so that it is one part of a path.
_PART = re.compile(r"[0-9A-Za-z][0-9A-Za-z,.-]*")
# A reply of a proxy for which the server may have taken the load or not.
_OF_A_PROXY = (502, 504)

Auth = Union[Tuple[str, str], "requests.auth.AuthBase"]


def is_loopback(host: str) -> bool:
    """Whether a host is this machine itself."""
    if host == "localhost":
        return True
    try:
        return ipaddress.ip_address(host).is_loopback
    except ValueError:
        return False


class Server:
    """The office at an address. Each request closes its connection, since the server has one for all who ask."""

    def __init__(self, address: str, auth: "Optional[Auth]", verify: Union[bool, str], timeout: Optional[float]) -> None:
        self._address = address.rstrip("/")
        self._auth, self._verify, self._timeout = auth, verify, timeout
        # (a proxy of the surroundings reaches no loopback of this machine)
        self._trusts_surroundings = not is_loopback(urllib.parse.urlsplit(address).hostname or "")

    def __str__(self) -> str:
        return self._address

    def ask(self, question: Question, words: "Sequence[str]") -> str:
        for it in words:
            if not _PART.fullmatch(it):
                raise errors.NoCommand(f"400 BadRequest: {it!r} is no word")
        path = question.path.format(**dict(zip(question.places, words)))
        return self._request("GET", path).decode("utf-8")

    def read(self, text: str, forms: Forms) -> "list[sheets.Sheet]":
        return sheets.of_json(text, forms)

    def load(self, number: int, body: bytes) -> sheets.Sheet:
        return sheets.of_json(self._request("POST", f"/loads/{number}", body).decode("utf-8"), (LOAD,))[0]

    def _request(self, method: str, path: str, body: Optional[bytes] = None) -> bytes:
        with requests.Session() as session:
            session.trust_env = self._trusts_surroundings
            try:
                # A body of bytes goes with its length, and never in chunks. A redirection would make a GET of a POST.
                reply = session.request(
                    method, self._address + path, data=body, auth=self._auth, verify=self._verify, timeout=self._timeout,
                    headers={"Connection": "close", "Content-Type": "text/plain"} if body is not None else {"Connection": "close"},
                    allow_redirects=False)
            except requests.RequestException as error:
                # (an error's own text may have the user and password of an address)
                raise errors.Unreachable(f"no reply to {method} {path}: {type(error).__name__}") from None
        if reply.status_code == 200:
            return reply.content
        raise _error(reply, method, path)


def _error(reply: requests.Response, method: str, path: str) -> errors.OfficeError:
    said = f"{reply.status_code} {reply.reason}"
    try:
        given: Any = json.loads(reply.content)
    except ValueError:
        given = {}
    if isinstance(given, dict) and "kept" in given:
        said += f": load {given.get('load')} kept {given['kept']} sent {given.get('sent')}"
    elif isinstance(given, dict) and "error" in given:
        said = f"{reply.status_code} {given['error']}"
    if reply.status_code in _OF_A_PROXY:
        return errors.Unreachable(f"{said} to {method} {path}")
    return errors.BY_CODE.get(reply.status_code, errors.UnexpectedReply)(f"{said} to {method} {path}")
