"""usage: acmefs-tree load DIR [AS] > SCRIPT
       acmefs-tree save [-n] DIR [AS] < JOURNAL

Files of the host into a script, and back from a report. AS is the path by which the editor knows the folder DIR; it is
DIR's own whole path where it isn't given.

    load    writes a line `file` for each file below DIR, and a line `dir` for each folder without one: the front of a
            transcript, or of a server's script. What is left out, and why, goes to the standard error
    save    reads the report at the end of a journal or of a replay, and stores what Put asked to save below DIR, and
            nowhere else: the last text of each file. It says what it wrote; links and `..` are refused
    -n      says what it would write, and writes nothing

More: docs/manual/acmefs-tree.1.md
"""

import os
import re
import sys
from typing import Iterator, List, Set, Tuple

from .commands import BadWords, content, run, say
from .folder import Folder, Found
from .lines import INPUT_LIMIT, Fault, Report, decoded, escape, report_lines

NAME = "acmefs-tree"
NO_ROOM = "there is no room for it in a script"
# the bytes of a script that are left for what its user does with the folder
LEFT = 65536
# what no part of a path of the editor's tree has
BAD_RUNE = re.compile(r"[\0-\x20\\]")


def parts_of(path: str) -> List[str]:
    """The parts of a path of the editor's tree. `/` has none."""
    parts = path[1:].split("/") if path != "/" else []
    if not path.startswith("/") or any(it in ("", ".", "..") or BAD_RUNE.search(it) for it in parts):
        form = "it begins with /, its parts aren't empty, . or .., and have no blanks"
        raise Fault(f"`{path}` is no path of the editor: {form}")
    return parts


def below(front: List[str], parts: List[str]) -> str:
    """The path of parts below others."""
    return "".join(f"/{it}" for it in [*front, *parts])


# -- load


class Loading:
    """The lines of a folder, as far as a script has room for them."""

    def __init__(self, at: List[str]):
        self._at, self._room = at, INPUT_LIMIT - LEFT
        self.left_out: List[str] = []

    def lines(self, found: Iterator[Found]) -> Iterator[str]:
        """The lines of what was found: of files, and then of the folders that no file makes."""
        made: Set[str] = set()
        folders = [[*self._at]] if self._at else []
        for it in found:
            line = self._line(it)
            if line:
                made.update(below(self._at, [*it.parts][:k]) for k in range(len(it.parts)))
                yield line
            elif it.data is None and not it.why:
                folders.append([*self._at, *it.parts])
        for parts in reversed(folders):
            path = below([], parts)
            if path not in made:
                made.update(below([], parts[:k]) for k in range(len(parts)))
                if self._has_room(f"dir {path}"):
                    yield f"dir {path}"
                else:
                    self.left_out.append(f"{below([], parts[len(self._at):])}: {NO_ROOM}")

    def _has_room(self, line: str) -> bool:
        """Whether there is room for a line, which then is taken."""
        size = len(line.encode("utf-8")) + 1
        has_room = size <= self._room
        self._room -= size if has_room else 0
        return has_room

    def _line(self, it: Found) -> str:
        """The line of a file; nothing of a folder, and of what is left out."""
        why, line = self._why(it), ""
        if not why and it.data is not None:
            line = f"file {below(self._at, [*it.parts])} :{escape(it.data.decode('utf-8'))}"
            why = "" if self._has_room(line) else NO_ROOM
        if why:
            self.left_out.append(f"{below([], [*it.parts])}: {why}")
        return "" if why else line

    @staticmethod
    def _why(it: Found) -> str:
        """Why something is left out, or nothing."""
        if it.why or it.data is None:
            return it.why
        return NO_ROOM if len(it.data) > INPUT_LIMIT else "" if is_text(it.data) else "it is not UTF-8"


def why_not(name: str) -> str:
    """Why a file or a folder is left out by its name, or nothing."""
    if name == ".git":
        return "a repository's own"
    bad = BAD_RUNE.search(name) or not is_text(name.encode("utf-8", "surrogateescape"))
    return "the editor has no such names" if bad else ""


def is_text(data: bytes) -> bool:
    try:
        data.decode("utf-8")
    except UnicodeDecodeError:
        return False
    return True


def load(path: str, at: List[str]) -> int:
    """Writes the lines of a folder."""
    loading = Loading(at)
    with Folder(path) as folder:
        for line in loading.lines(folder.walk(why_not)):
            sys.stdout.write(f"{line}\n")
    sys.stdout.flush()
    for it in loading.left_out:
        say(NAME, f"left out {path}{it}")
    return 0


# -- save


def saves(report: Report, at: List[str]) -> Iterator[Tuple[str, List[str], str]]:
    """What Put asked to save: each path once, its parts below AS, and its last text. A path that isn't below AS has no
    parts."""
    last = {it.command: it.input for it in report.requests if it.kind == "save"}
    for path, text in last.items():
        parts = path[1:].split("/") if path.startswith("/") else []
        yield path, parts[len(at) :] if parts[: len(at)] == at else [], text


def save(path: str, at: List[str], only_said: bool) -> int:
    """Stores what a report asks to save; the status is 2 where something isn't."""
    lines = report_lines(decoded(content(None), "the journal"))
    if not lines:
        raise Fault("there is no report in what is read: save needs what acmefs serve or acmefs replay wrote")
    status = 0
    with Folder(path) as folder:
        for name, parts, text in saves(Report.of(lines), at):
            try:
                data = stored(folder, parts, text, only_said)
                done = "would save" if only_said else "saved"
                print(f"{done} {name} as {path.rstrip('/')}{below([], parts)}: {len(data)} bytes")
            except Fault as why:
                say(NAME, f"refused {name}: {why}")
                status = 2
    sys.stdout.flush()
    return status


def stored(folder: Folder, parts: List[str], text: str, only_said: bool) -> bytes:
    """Stores a text, and answers its bytes."""
    if not parts:
        raise Fault("it isn't below the folder that is named")
    data = text.encode("utf-8")
    if not only_said:
        folder.store(parts, data)
    return data


# -- the command


def do(words: List[str]) -> int:
    """Does what the words ask for."""
    verb, rest = (words[0], words[1:]) if words else ("", [])
    only_said = verb == "save" and rest[:1] == ["-n"]
    rest = rest[1:] if only_said else rest
    if verb not in ("load", "save") or not 1 <= len(rest) <= 2 or any(it.startswith("-") or not it for it in rest):
        raise BadWords(f"these words aren't known: {' '.join(words)}" if words else "what is to be done? load or save")
    at = parts_of(rest[1] if len(rest) > 1 else os.path.abspath(rest[0]))
    return load(rest[0], at) if verb == "load" else save(rest[0], at, only_said)


def main(words: List[str]) -> int:
    """The command: the exit status is 1 where the words aren't known, and 2 where something isn't done."""
    return run(NAME, __doc__ or "", words, do)
