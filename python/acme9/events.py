"""What a window's file `event` gives, as acme(4) has it: docs/formats/events.md."""

import codecs
import re
from dataclasses import dataclass
from typing import List, Optional, Tuple

from .errors import BadMessage

# the bits of a flag: a built-in command, or a look that loads no file; a range of no length, which was expanded; a name
# of a file or a window; a chorded argument
BUILTIN, EXPANDED, NAME, CHORDED = 1, 2, 4, 8
_FRONT = re.compile(r"([EFKM])([DILXdilx])(\d+) (\d+) (\d+) (\d+) ")
# the least that is longer than any front of an event
_FRONT_MOST = 100


@dataclass(frozen=True)
class Event:
    """One thing that was done, or is asked for, in a window.

    `origin` is E (a write to body or tag), F (to another file), K (the keyboard) or M (the mouse). `type` is I, D, X or
    L in the body, for text put in, text removed, execute and look; i, d, x or l in the tag. `q0` and `q1` count runes.
    A text of 256 runes and more isn't there, and none of a deletion: Win.text_of reads it. Of a click in a word `q0`,
    `q1` and `text` are the word's, and `orig_q0` and `orig_q1` the click's.
    """

    origin: str
    type: str
    q0: int
    q1: int
    flag: int
    text: str
    orig_q0: int
    orig_q1: int
    arg: str = ""
    loc: str = ""

    @property
    def is_execute(self) -> bool:
        return self.type in "Xx"

    @property
    def is_look(self) -> bool:
        return self.type in "Ll"

    @property
    def is_insert(self) -> bool:
        return self.type in "Ii"

    @property
    def is_delete(self) -> bool:
        return self.type in "Dd"

    @property
    def in_tag(self) -> bool:
        return self.type.islower()

    @property
    def is_builtin(self) -> bool:
        """Whether the editor would do it itself: a command that it knows, or a look that needs no file."""
        return bool(self.flag & BUILTIN)

    def back(self) -> str:
        """What hands it back to the editor."""
        return f"{self.origin}{self.type}{self.orig_q0} {self.orig_q1}\n"


class EventReader:
    """Events from the bytes of an event file, in pieces of any size."""

    def __init__(self) -> None:
        self._decoder = codecs.getincrementaldecoder("utf-8")("replace")
        self._text = ""

    def feed(self, data: bytes) -> None:
        self._text += self._decoder.decode(data)

    def next(self) -> Optional[Event]:
        """The next event that is whole, with its expansion and its argument; None where more bytes are wanted."""
        found = self._message(0)
        if found is None:
            return None
        first, end = found
        flag = first.flag if first.is_execute or first.is_look else 0
        more: List[Event] = []
        for _ in range(bool(flag & EXPANDED) + 2 * bool(flag & CHORDED)):
            found = self._message(end)
            if found is None:
                return None
            more.append(found[0])
            end = found[1]
        self._text = self._text[end:]
        return _item(first, more)

    def _message(self, at: int) -> Optional[Tuple[Event, int]]:
        """The message at a place, and where the next one begins."""
        found = _FRONT.match(self._text, at)
        if found is None:
            front = self._text[at : at + _FRONT_MOST]
            if "\n" in front or len(front) == _FRONT_MOST:
                raise BadMessage(f"no event: {front!r}")
            return None
        q0, q1, flag, count = (int(it) for it in found.groups()[2:])
        end = found.end() + count
        if end >= len(self._text):
            return None
        if self._text[end] != "\n":
            raise BadMessage(f"an event of {count} runes goes on: {self._text[at : end + 1]!r}")
        return Event(found[1], found[2], q0, q1, flag, self._text[found.end() : end], q0, q1), end + 1


def _item(first: Event, more: List[Event]) -> Event:
    """An event of its first message and those that belong to it."""
    arg, loc = (it.text for it in more[-2:]) if first.is_execute and first.flag & CHORDED else ("", "")
    of = more[0] if first.flag & EXPANDED and more else first
    return Event(first.origin, first.type, of.q0, of.q1, first.flag, of.text, first.q0, first.q1, arg, loc)
