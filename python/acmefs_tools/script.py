"""usage: acmefs-script [--after JOURNAL] [FILE] > LINES

Writes the lines of a transcript or of a server's script from words that people use. The ranges in the lines are where
the texts stand at that point: what stands before is replayed for it.

    click W SIDE TEXT                   a text is executed: `exec`
    click W SIDE TEXT with V SIDE TEXT  the same with another text as its argument: `arg`
    look W SIDE TEXT                    a text is looked for: `look`
    select W body TEXT                  a text is selected: `sel`
    type W SIDE TEXT                    a text is typed: `key`

W and V are numbers or names of windows, SIDE is body or tag. TEXT is the rest of the line, or "TEXT" with \\n, \\t,
\\" and \\\\ in it; "TEXT" 2 is its second place. @ADDRESS is an address in the body as sam has them, in which . is dot.
Lines of a transcript stay as they are. Empty lines and lines that begin with # are left out.

    --after JOURNAL     the words come behind the events of a journal, which aren't written
    --help              this text

More: docs/manual/acmefs-script.1.md
"""

import re
import sys
from dataclasses import dataclass
from typing import Dict, List, Optional, Tuple

from .commands import BadWords, content, run
from .lines import Fault, Journal, Report, decoded, escape, split_lines
from .program import traced
from .reads import MOST_READ, Reader, data_of, unused_connection

RAW = re.compile(
    r"acmefs 2|(?:dial|msg|hang|took|new|key|sel|exec|arg|file|dir|report|await)(?: .*)?|look \d+ (?:body|tag) \d+ \d+", re.S
)
QUOTED = re.compile(r'"((?:[^"\\]|\\.)*)"(?: (\d+))?')
MARK = re.compile(r"\\(.)", re.S)
MARKS = {"n": "\n", "t": "\t", '"': '"', "\\": "\\"}
WINDOW = re.compile(r'("(?:[^"\\]|\\.)*"|[^ ]+) (body|tag)(?: |$)')
CHORD = re.compile(r" with (?=(?:\"(?:[^\"\\]|\\.)*\"|[^ ]+) (?:body|tag) )")
DECIMAL = re.compile(r"0|[1-9][0-9]*")
PLACE = re.compile(r"#(\d+)(?:,#(\d+))?")


def quoted_text(text: str) -> str:
    """What stands between two `"`."""

    def plain(found: "re.Match[str]") -> str:
        if found[1] not in MARKS:
            raise Fault(f"a backslash before `{found[1]}`")
        return MARKS[found[1]]

    return MARK.sub(plain, text)


@dataclass(frozen=True)
class Text:
    """A text in words: the text itself, or an address; and which of its places is meant, where that is said."""

    text: str
    is_address: bool = False
    which: Optional[int] = None

    @classmethod
    def of(cls, words: str) -> "Text":
        """The text that the rest of a line gives."""
        found = QUOTED.fullmatch(words)
        if found:
            return cls(quoted_text(found[1]), False, int(found[2]) if found[2] else None)
        if words.startswith('"'):
            raise Fault(f"a text that begins with a quote ends with one, and perhaps a number: {words}")
        if not words:
            raise Fault("a text is missing")
        return cls(words[1:], True) if words.startswith("@") else cls(words)


@dataclass(frozen=True)
class Target:
    """A text of a window in words."""

    window: str
    side: str
    text: Text

    @classmethod
    def of(cls, words: str) -> "Target":
        found = WINDOW.match(words)
        if not found:
            raise Fault(f"a window, then body or tag, and then a text should stand here: {words or 'nothing'}")
        name = quoted_text(found[1][1:-1]) if found[1].startswith('"') else found[1]
        return cls(name, found[2], Text.of(words[found.end() :]))


class Desk:
    """The editor after some lines. It is asked by replays of these, behind which reads are added."""

    def __init__(self, lines: List[str]):
        self.lines = lines
        self._known: Optional[Tuple[int, Report]] = None

    def report(self) -> Report:
        """The report on the lines."""
        if not self._known or self._known[0] != len(self.lines):
            _, lines = self._asked(None)
            self._known = (len(self.lines), Report.of(lines))
        return self._known[1]

    def number(self, name: str) -> int:
        """The number of a live window, which is named by its number or its name."""
        windows = self.report().windows
        if DECIMAL.fullmatch(name) and int(name) in windows:
            return int(name)
        found = [it.number for it in windows.values() if it.name == name]
        if not found:
            raise Fault(f"no window `{name}` is there; {self._windows()}")
        if len(found) > 1:
            raise Fault(f"the windows {', '.join(map(str, found))} are named `{name}`: say the number")
        return found[0]

    def text(self, window: int, side: str) -> str:
        """The body or the tag of a window."""
        if side == "body":
            return self.report().windows[window].body
        reader = Reader(unused_connection(self.lines))
        reader.read(1, [f"{window}/tag"], MOST_READ)
        data = data_of(self._asked(reader)[0][f"{window}/tag"]) or b""
        if len(data) == MOST_READ:
            raise Fault(f"the tag of window {window} is too long to be looked at")
        return data.decode("utf-8", "replace")

    def place(self, window: int, address: str) -> Tuple[int, int]:
        """Where an address is in a body."""
        reader = Reader(unused_connection(self.lines))
        reader.place(window, address)
        replies, _ = self._asked(reader)
        refused = re.search(r" ename='([^']*)'", replies["address"])
        if refused:
            raise Fault(f"@{address}: {refused[1]}")
        found = PLACE.fullmatch((data_of(replies["place"]) or b"").decode("ascii"))
        if not found:
            raise Fault(f"@{address}: the editor gave no place")
        return int(found[1]), int(found[2] or found[1])

    def _windows(self) -> str:
        found = [f"{it.number} {it.name}".rstrip() for it in self.report().windows.values()]
        return f"there are {', '.join(found)}" if found else "there is none"

    def _asked(self, reader: Optional[Reader]) -> Tuple[Dict[str, str], List[str]]:
        """The replies to what a reader asks behind the lines, by what they are, and the report."""
        added, asked = (reader.taken(), iter(reader.asked)) if reader else ([], iter(()))
        own = f"reply {added[0].partition(' ')[2]} " if added else "\0"
        replies: Dict[str, str] = {}
        report: List[str] = []
        for line in traced([*self.lines, *added]):
            if line.startswith(own):
                replies[next(asked).name] = line
            elif report or line == "report":
                report.append(line)
        return replies, report


def places(text: str, part: str) -> List[int]:
    """Where a text has a part."""
    found, at = [], text.find(part)
    while at >= 0:
        found.append(at)
        at = text.find(part, at + 1)
    return found


def stands_alone(text: str, start: int, end: int) -> bool:
    """Whether a part of a text stands between blanks or the ends of it."""
    return (start == 0 or text[start - 1].isspace()) and (end == len(text) or text[end].isspace())


def chosen(text: str, wanted: Text, where: str) -> Tuple[int, int]:
    """The place of a part of a text: the one that is said, the only one, or the only one that stands alone."""
    part = wanted.text
    if not part:
        raise Fault("the text is empty")
    found = places(text, part)
    if not found:
        raise Fault(f"`{escape(part)}` isn't in {where}, which is: {escape(text)[:200]}")
    if wanted.which is not None:
        if not 1 <= wanted.which <= len(found):
            raise Fault(f"`{escape(part)}` has {len(found)} places in {where}")
        return found[wanted.which - 1], found[wanted.which - 1] + len(part)
    alone = [it for it in found if stands_alone(text, it, it + len(part))]
    only = found if len(found) == 1 else alone
    if len(only) != 1:
        raise Fault(f'`{escape(part)}` has {len(found)} places in {where}: say which, as "{escape(part)}" 2')
    return only[0], only[0] + len(part)


class Writer:
    """Writes lines for words, each after those before it."""

    def __init__(self, before: List[str]):
        self._desk = Desk(before)
        # the numbers of the words that gave the desk's lines behind those
        self._numbers, self._before, self._awaits = [], len(before), False  # type: List[int], int, bool

    def line(self, number: int, words: str) -> str:
        """The line for a line of words; it is done now. Of what clients do once one is awaited nothing is known."""
        try:
            line = words if RAW.fullmatch(words) else self._written(words)
        except Fault as why:
            raise self._named(number, str(why)) from None
        word = line.partition(" ")[0]
        self._awaits |= word == "await"
        if word not in ("await", "report"):
            self._desk.lines.append(line)
            self._numbers.append(number)
        return line

    def check(self) -> None:
        """A Fault where a line is refused."""
        try:
            if not self._awaits:
                self._desk.report()
        except Fault as why:
            raise self._named(0, str(why)) from None

    def _named(self, number: int, why: str) -> Fault:
        """What is wrong with a line. A refusal counts all lines, and is one of words before."""
        refused = re.fullmatch(r"refused (\d+) ([a-z]+)", why)
        if refused and int(refused[1]) > self._before:
            place = int(refused[1]) - self._before - 1
            number = self._numbers[place]
            why = f"`{self._desk.lines[place + self._before]}` is refused: {refused[2]}"
        hint = "; what clients do is known from a journal alone (--after)" if self._awaits else ""
        return Fault(f"line {number}: {why}{hint}")

    def _written(self, words: str) -> str:
        verb, _, rest = words.partition(" ")
        if verb == "type":
            target = Target.of(rest)
            number = target.window if DECIMAL.fullmatch(target.window) else self._desk.number(target.window)
            return f"key {number} {target.side} :{escape(self._plain(target.text))}"
        if verb == "select":
            window, side, start, end = self._range(Target.of(rest))
            if side != "body":
                raise Fault("a text is selected in a body alone")
            return f"sel {window} {start} {end}"
        chord = CHORD.search(rest) if verb == "click" else None
        if chord:
            first, second = self._range(Target.of(rest[: chord.start()])), self._range(Target.of(rest[chord.end() :]))
            return " ".join(map(str, ["arg", *first, *second]))
        if verb in ("click", "look"):
            return " ".join(map(str, ["exec" if verb == "click" else "look", *self._range(Target.of(rest))]))
        raise Fault(f"`{verb}` is neither click, look, select or type, nor the first word of a line")

    @staticmethod
    def _plain(text: Text) -> str:
        if text.is_address or text.which is not None:
            return f"@{text.text}" if text.is_address else f'"{text.text}" {text.which}'
        return text.text

    def _range(self, target: Target) -> Tuple[int, str, int, int]:
        """The window, the side and the range of a text."""
        window = self._desk.number(target.window)
        if not target.text.is_address:
            text = self._desk.text(window, target.side)
            return (window, target.side, *chosen(text, target.text, f"the {target.side} of window {window}"))
        if target.side != "body":
            raise Fault("an address is one in a body")
        return (window, "body", *self._desk.place(window, target.text.text))


def written(words: List[str], before: List[str]) -> List[str]:
    """The lines for lines of words, behind others."""
    writer, found = Writer(before), []
    for number, line in enumerate(words, 1):
        if not line.strip() or line.startswith("#"):
            continue
        found.append(writer.line(number, line))
    writer.check()
    return found


def write(words: List[str]) -> int:
    """Does what the words ask for."""
    after = None
    if words[:1] == ["--after"]:
        after, words = (words[1] if len(words) > 1 else ""), words[2:]
    if after == "" or len(words) > 1 or any(it.startswith("-") and it != "-" for it in words):
        raise BadWords("one file of words is named at most, and behind --after a journal")
    before = Journal.of(content(after), after).lines() if after else []
    for line in written(split_lines(decoded(content(words[0] if words else None), "the words")), before):
        sys.stdout.write(f"{line}\n")
    return 0


def main(words: List[str]) -> int:
    """The command: the exit status is 1 where the words aren't known, and 2 where a line can't be written."""
    return run("acmefs-script", __doc__ or "", words, write)
