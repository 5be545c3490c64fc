"""Traces: what `acmefs trace` writes, read as steps. docs/formats/words.md has the lines."""

import re
from dataclasses import dataclass
from typing import Any, Callable, Dict, Iterable, Iterator, List, NamedTuple, Optional

from acme9.wire import Message, Qid

from .lines import HEADING, Fault

LINE = re.compile(r"(msg|reply) (\d+) ([TR][a-z]+) tag=(\d+)(.*)", re.S)
FIELD = re.compile(r" ([a-z]+)=('[^']*'|[^ ]*)((?: '[^']*'| [0-9.]+)*)")
WORD = re.compile(r"'[^']*'|[0-9.]+")
MARK = re.compile(r"\\([nq\\])")
MARKS = {"n": "\n", "q": "'", "\\": "\\"}


class Spoken(NamedTuple):
    """A message on a connection."""

    connection: int
    message: Message


@dataclass(frozen=True)
class Step:
    """An event of a journal, by its number from 1, and the replies that it made. `spoken` is the event's message."""

    entry: int
    line: str
    spoken: Optional[Spoken]
    replies: List[Spoken]


def string(word: str) -> str:
    """The string that stands between two `'`."""
    return MARK.sub(lambda found: MARKS[found[1]], word[1:-1])


def qid(word: str) -> Qid:
    return Qid(*(int(it) for it in word.split(".")))


def members(read: Callable[[str], Any]) -> Callable[[str, str], Any]:
    """Reads the values behind a count."""
    return lambda _, rest: [read(it) for it in WORD.findall(rest)]


READ: Dict[str, Callable[[str, str], Any]] = {
    **{it: (lambda word, _: string(word)) for it in ("version", "uname", "aname", "ename", "name")},
    **{it: (lambda word, _: bytes.fromhex(word)) for it in ("data", "stat")},
    **{it: (lambda word, _: qid(word)) for it in ("qid", "aqid")},
    "names": members(string),
    "qids": members(qid),
}


def number(word: str, _: str) -> int:
    return int(word)


def spoken(line: str) -> Optional[Spoken]:
    """The message of a line `msg` or `reply`; None of another line."""
    found = LINE.fullmatch(line)
    if not found:
        return None
    fields = {name: READ.get(name, number)(word, rest) for name, word, rest in FIELD.findall(found[5])}
    return Spoken(int(found[2]), Message(found[3], int(found[4]), fields))


class Trace:
    """The steps of a trace; its report is there once they are read to the end."""

    def __init__(self, lines: Iterable[str]):
        self._lines = lines
        self.report: List[str] = []

    def __iter__(self) -> Iterator[Step]:
        entry, line, replies = 0, "", []  # type: int, str, List[Spoken]
        for it in self._lines:
            if self.report or it == "report":
                self.report.append(it)
            elif it.startswith("reply "):
                replies.append(self._reply(it))
            elif it != HEADING:
                if entry:
                    yield Step(entry, line, spoken(line), replies)
                entry, line, replies = entry + 1, it, []
        if entry and self.report:
            yield Step(entry, line, spoken(line), replies)

    @staticmethod
    def _reply(line: str) -> Spoken:
        found = spoken(line)
        if not found:
            raise Fault(f"this is no line of a trace: {line[:80]}")
        return found
