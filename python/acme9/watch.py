"""The editor's files `log` and `jobs`: what is done to windows, and what is requested of programs outside."""

import re
from dataclasses import dataclass
from typing import List, Optional, Tuple

from .errors import BadMessage
from .items import Items

_EVENT = re.compile(r"(\d+) (new|del|name|get|put) (.*)")
# a directory may have blanks where the plumber asks
_REQUEST = re.compile(r"request (\d+) ([a-z]+) (\d+) (.*?) :(.*)")
_INPUT = re.compile(r"input :(.*)")
_ESCAPED = re.compile(r"\\(.)")


def unescape(line: str) -> str:
    """The text that stands in one line, with newlines as `\\n` and backslashes as `\\\\`."""
    return _ESCAPED.sub(lambda it: "\n" if it[1] == "n" else it[1], line)


def cut(data: bytes, lines: int) -> Optional[Tuple[List[str], bytes]]:
    """So many lines from the front, and what stands behind them; None where they aren't all there."""
    *found, rest = data.split(b"\n", lines)
    return ([it.decode("utf-8", "replace") for it in found], rest) if len(found) == lines else None


def matched(form: "re.Pattern[str]", line: str) -> "re.Match[str]":
    """How a line has a form."""
    found = form.fullmatch(line)
    if not found:
        raise BadMessage(f"a line that isn't known: {line[:80]!r}")
    return found


@dataclass(frozen=True)
class LogEvent:
    """What was done to a window: `op` is new, del, name, get or put, and `name` the window's name, the new one of
    `name`."""

    id: int
    op: str
    name: str

    @classmethod
    def parse(cls, line: str) -> "LogEvent":
        found = matched(_EVENT, line)
        return cls(int(found[1]), found[2], unescape(found[3]))


class Log(Items[LogEvent]):
    """The file `log` that is open: all that is done to windows from then on."""

    def decode(self, data: bytes) -> Optional[Tuple[LogEvent, bytes]]:
        found = cut(data, 1)
        return (LogEvent.parse(found[0][0]), found[1]) if found else None


@dataclass(frozen=True)
class Job:
    """A request: `kind` is run, pipe, from, to, save or start. `window` asks, 0 where the plumber does; `command` is to
    run in `dir`, or of `save` the path of a file, and `input` is what it reads."""

    number: int
    kind: str
    window: int
    dir: str
    command: str
    input: str

    @classmethod
    def parse(cls, first: str, second: str) -> "Job":
        """The request of its two lines."""
        number, kind, window, folder, command = matched(_REQUEST, first).groups()
        given = matched(_INPUT, second)[1]
        return cls(int(number), kind, int(window), unescape(folder), unescape(command), unescape(given))


class Jobs(Items[Job]):
    """The file `jobs` that is open: the requests that wait, each for one reader. What a reader took, and doesn't answer
    before it closes the file, is lost."""

    def decode(self, data: bytes) -> Optional[Tuple[Job, bytes]]:
        found = cut(data, 2)
        return (Job.parse(*found[0]), found[1]) if found else None

    def answer(self, job: Job, good: bool) -> None:
        """Tells whether a request that was taken here was done. It is answered once."""
        self.file.write(f"{job.number} {'ok' if good else 'fail'}\n")
