"""usage: acmefs-view [-n] JOURNAL
       acmefs-view --html FILE [--fronts N] JOURNAL

Shows a journal, as acmefs serve writes it, or any transcript (- is the standard input).

    acmefs-view JOURNAL         a line an operation: the connection, what it asks, and the answer
    -n                          each line begins with the entry's number, as reports have it
    --html FILE                 writes a page that steps through the journal, with the windows after each entry
    --fronts N                  how many fronts of the journal are replayed for it (500)

A journal holds every byte that was typed, and so do the lines and the page.
More: docs/manual/acmefs-view.1.md
"""

import contextlib
import os
import sys
import time
from typing import Iterator, List, Optional, TextIO

from .commands import BadWords, content, run
from .lines import Journal
from .program import traced
from .telling import Teller
from .trace import Trace

FRONTS = 500
BAR = 30


class Progress:
    """A bar on a terminal; on anything else it says nothing."""

    def __init__(self, stream: TextIO):
        self._stream, self._shows = stream, stream.isatty()
        self._what, self._total, self._count, self._next = "", 0, 0, 0.0

    def begin(self, what: str, total: int) -> None:
        """A part of the work begins, of so many steps."""
        self._what, self._total, self._count, self._next = what, max(total, 1), 0, 0.0
        self.step(0)

    def step(self, count: int) -> None:
        self._count += count
        if self._shows and (time.monotonic() >= self._next or self._count == self._total):
            self._next = time.monotonic() + 0.1
            part = min(1.0, self._count / self._total)
            bar = ("#" * int(part * BAR)).ljust(BAR, ".")
            self._stream.write(f"\r\033[Kacmefs-view: {self._what} [{bar}] {part:4.0%}")
            self._stream.flush()

    def end(self) -> None:
        if self._shows:
            self._stream.write("\r\033[K")
            self._stream.flush()


def lines(journal: Journal, numbered: bool) -> Iterator[str]:
    """A line for each operation, and for each answer that comes later. That replies are taken isn't told."""
    teller = Teller()
    for step in Trace(traced(journal.lines())):
        told = teller.tell(step)
        front = f"{told.entry:7} " if numbered else ""
        if not told.words.startswith("takes "):
            yield front + told.line()
        yield from (front + it for it in told.later())


def write_page(path: str, name: str, journal: Journal, most: int) -> None:
    """Writes the page, which takes the place of a file in one move."""
    from . import page

    text = page.page_of(page.data_of(name, journal, most, Progress(sys.stderr)))
    part = f"{path}.part"
    try:
        with open(part, "w", encoding="utf-8") as file:
            file.write(text)
        os.replace(part, path)
    except BaseException:
        with contextlib.suppress(OSError):
            os.unlink(part)
        raise


class Words:
    """What the words of the command ask for."""

    def __init__(self, words: List[str]):
        self.html: Optional[str] = None
        self.numbered, self.fronts = False, FRONTS
        paths = []
        left = iter(words)
        for word in left:
            if word == "-n":
                self.numbered = True
            elif word == "--html":
                self.html = next(left, "")
            elif word == "--fronts":
                self.fronts = count_of(next(left, ""))
            elif word.startswith("-") and word != "-":
                raise BadWords(f"`{word}` isn't known here")
            else:
                paths.append(word)
        if len(paths) != 1 or self.html == "":
            raise BadWords("one journal is named, and behind --html a file")
        self.path = paths[0]


def count_of(word: str) -> int:
    if not (word.isdecimal() and word.isascii() and int(word) > 0):
        raise BadWords("--fronts needs a number above 0")
    return int(word)


def show(given: List[str]) -> int:
    """Does what the words ask for."""
    words = Words(given)
    journal = Journal.of(content(words.path), words.path)
    if words.html:
        write_page(words.html, os.path.basename(words.path), journal, words.fronts)
        return 0
    for line in lines(journal, words.numbered):
        sys.stdout.write(f"{line}\n")
    return 0


def main(words: List[str]) -> int:
    """The command: the exit status is 1 where the words aren't known, and 2 where the journal can't be shown."""
    return run("acmefs-view", __doc__ or "", words, show)
