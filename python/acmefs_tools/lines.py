"""Texts in one line, transcripts and reports: docs/formats/transcript.md has their lines.

    escape("a\\n"), unescape(line)      a text as one line, and back
    Journal.of(data)                    the heading and the events of a transcript, and the report behind them
    Report.of(lines)                    what a report says
"""

import re
from dataclasses import dataclass, field, replace
from typing import Dict, List, Optional, Sequence

INPUT_LIMIT = 16777216
# the first line of a transcript of format 2
HEADING = "acmefs 2"
CONNECTIONS = 64
ESCAPE = re.compile(r"\\(.?)", re.S)
PLAIN = {"n": "\n", "\\": "\\"}
WINDOW = re.compile(r"window (\d+) ([01]) (\d+) (\d+) :(.*)")
ITEM = re.compile(r"item (\d+) (\d+) ([a-z]+)((?: \d+)*) :(.*)")
# a directory may have blanks where the plumber asks
REQUEST = re.compile(r"request (\d+) ([a-z]+) (\d+) (.*?) :(.*)")
STATE = re.compile(r"state ([a-z]+)((?: \d+)*)(?: (?:ok|(fail)))?")


class Fault(Exception):
    """What is wrong with an input, in words for its user."""


def escape(text: str) -> str:
    """A text as one line: a newline is `\\n`, a backslash `\\\\`."""
    return text.replace("\\", "\\\\").replace("\n", "\\n")


def unescape(line: str) -> str:
    """The text that stands in one line."""

    def plain(found: "re.Match[str]") -> str:
        if found[1] not in PLAIN:
            raise Fault(f"a backslash before {found[1] or 'the end of the line'}")
        return PLAIN[found[1]]

    return ESCAPE.sub(plain, line)


def split_lines(text: str) -> List[str]:
    """The lines of a text, which end with newlines and nothing else; a last one without a newline counts."""
    lines = text.split("\n")
    return lines[:-1] if lines[-1] == "" else lines


def decoded(data: bytes, name: str) -> str:
    """An input as text."""
    try:
        return data.decode("utf-8")
    except UnicodeDecodeError as why:
        line = data.count(b"\n", 0, why.start) + 1
        raise Fault(f"{name}: line {line} is not UTF-8") from None


@dataclass(frozen=True)
class Journal:
    """A transcript: its heading where it has one, the lines of its events, and those of the report and what stands
    behind it."""

    heading: List[str]
    entries: List[str]
    rest: List[str]

    @classmethod
    def of(cls, data: bytes, name: str = "the journal") -> "Journal":
        if len(data) > INPUT_LIMIT:
            raise Fault(f"{name}: it has {len(data)} bytes, and a replay reads at most {INPUT_LIMIT}")
        lines = split_lines(decoded(data, name))
        begin = 1 if lines[:1] == [HEADING] else 0
        end = lines.index("report") if "report" in lines else len(lines)
        return cls(lines[:begin], lines[begin:end], lines[end:])

    def lines(self, count: Optional[int] = None) -> List[str]:
        """The heading, and so many of the entries; all of them where no number is given."""
        return [*self.heading, *self.entries[:count]]


@dataclass(frozen=True)
class Window:
    """A live window as a report has it."""

    number: int
    is_modified: bool
    dot: "tuple[int, int]"
    name: str
    body: str


@dataclass(frozen=True)
class Item:
    """An event of a window. `life` is `pending`, `taken`, `back` or `dropped`; `when` are the numbers behind it."""

    window: int
    number: int
    life: str
    when: Sequence[int]
    spelling: str


@dataclass(frozen=True)
class Request:
    """What is asked of a program outside. Format 2 alone tells its `life`, which is `waiting`, `taken`, `answered`, or
    `failed` where the answer was that, or `lost`; `when` are the numbers behind it."""

    number: int
    kind: str
    window: int
    folder: str
    command: str
    input: str
    life: str = ""
    when: Sequence[int] = ()


@dataclass
class Report:
    """What a report says. The users of connections are there in format 2 alone."""

    entries: int = 0
    connections: Dict[int, str] = field(default_factory=dict)
    users: Dict[int, str] = field(default_factory=dict)
    windows: Dict[int, Window] = field(default_factory=dict)
    items: List[Item] = field(default_factory=list)
    requests: List[Request] = field(default_factory=list)

    @classmethod
    def of(cls, lines: Sequence[str]) -> "Report":
        """The report that lines are, from the line `report` on. What a server says behind it is left out."""
        found, last = cls(), len(lines)
        for place, line in enumerate(lines):
            word, _, rest = line.partition(" ")
            following = lines[place + 1] if place + 1 < last else ""
            found._take(word, rest, line, following)
        return found

    def _take(self, word: str, rest: str, line: str, following: str) -> None:
        if word == "journal":
            self.entries = int(rest)
        elif word == "connection":
            number, _, told = rest.partition(" ")
            self.connections[int(number)], colon, user = told.partition(" :")
            if colon:
                self.users[int(number)] = unescape(user)
        elif word == "window":
            self._window(matched(WINDOW, line), text_of(following, "body"))
        elif word == "item":
            window, number, life, when, spelling = matched(ITEM, line).groups()
            numbers = [int(it) for it in when.split()]
            self.items.append(Item(int(window), int(number), life, numbers, unescape(spelling)))
        elif word == "request":
            number, kind, window, folder, command = matched(REQUEST, line).groups()
            given = text_of(following, "input")
            self.requests.append(Request(int(number), kind, int(window), unescape(folder), unescape(command), given))
        elif word == "state" and self.requests:
            life, when, failed = matched(STATE, line).groups()
            numbers = [int(it) for it in when.split()]
            self.requests[-1] = replace(self.requests[-1], life="failed" if failed else life, when=numbers)

    def _window(self, found: "re.Match[str]", body: str) -> None:
        number, dot = int(found[1]), (int(found[3]), int(found[4]))
        self.windows[number] = Window(number, found[2] == "1", dot, unescape(found[5]), body)


def matched(form: "re.Pattern[str]", line: str) -> "re.Match[str]":
    """How a line of a report has a form."""
    found = form.fullmatch(line)
    if not found:
        raise Fault(f"this is no line of a report: {line[:80]}")
    return found


def text_of(line: str, word: str) -> str:
    """The text of a line that begins with a word."""
    front, colon, text = line.partition(" :")
    if front != word or not colon:
        raise Fault(f"a line `{word}` is missing before: {line[:80]}")
    return unescape(text)


def report_lines(output: str) -> List[str]:
    """The lines of an output from its report on; none where it has none."""
    lines = split_lines(output)
    return lines[lines.index("report") :] if "report" in lines else []


def refused_line(output: str) -> Optional[str]:
    """The line `refused K WORD` that an output ends with, where it does."""
    last = output[output.rfind("\n", 0, -1) + 1 :].rstrip("\n")
    return last if re.fullmatch(r"refused \d+ [a-z]+", last) else None
