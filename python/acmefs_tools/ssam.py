"""usage: acmefs-ssam [-n] [-e SCRIPT] [-f FILE] [SCRIPT] [FILE..]

Edits a text by commands of sam, as ssam(1) does: copies the files, or the standard input, to the standard output,
edited by a script. When the script begins the whole text is selected. The editor's own command Edit does it.

    -n              only what the script prints is written
    -e SCRIPT       a script; several are one, a line behind the other
    -f FILE         a script that a file has
    --help          this text

With neither -e nor -f the first word is the script: acmefs-ssam 's/UNIX/& system/g' < in > out
More: docs/manual/acmefs-ssam.1.md
"""

import getopt
import sys
from dataclasses import dataclass
from typing import Iterator, List, Tuple

from .commands import BadWords, content, run
from .lines import Fault, Report, escape, report_lines, split_lines
from .program import replayed, transcript

# the places of the word Edit in the tag of a window that has no name and something to undo
EDIT = "23 27"
BAD = "bad command"
FAULTS = (
    BAD, "address out of range", "no match", "address out of order", "changes out of sequence", "move overlaps",
    "text too long",
)  # fmt: skip
# how many lines of a script may make one command, each of which is tried
MOST_LINES = 1000


@dataclass(frozen=True)
class Edited:
    """A text and its dot once a command was done, and what that printed: the line of a fault among it."""

    text: str
    dot: Tuple[int, int]
    printed: str

    def fault(self) -> str:
        """The fault that the printed text reads like, or nothing."""
        found = [it for it in FAULTS if self.printed == f"Edit: {it}\n"]
        return found[0] if found else ""


def edited(text: str, dot: Tuple[int, int], command: str) -> Edited:
    """What Edit makes of a text. The command is the argument of the word Edit in the tag of the text's window, and
    stands in another one. The letter that is typed first has the tag tell Undo, whatever the text is."""
    lines = ["new", "key 1 tag :Edit", "key 1 body :x", "sel 1 0 1", f"key 1 body :{escape(text)}"]
    lines += [f"sel 1 {dot[0]} {dot[1]}", "new", f"key 2 body :{escape(command)}", f"arg 1 tag {EDIT} 2 body 0 {len(command)}"]
    report = Report.of(report_lines(replayed(transcript(lines))))
    if report.requests:
        raise Fault(f"no program is run here: {report.requests[0].command}")
    window = report.windows[1]
    return Edited(window.body, window.dot, "".join(it.body for number, it in report.windows.items() if number > 2))


def is_refused(text: str, dot: Tuple[int, int], command: str, made: Edited) -> bool:
    """Whether a command has the fault that its printed text reads like. The text itself may have such a line: so the
    command is done once more with a change behind it, which isn't made where the command has a fault."""
    if not made.fault() or made.text != text:
        return False
    return edited(text, dot, f"{{\n{command}\n$a/x/\n}}").text == text


def is_command(lines: List[str]) -> bool:
    """Whether lines are one command over a text, by the grammar alone: in a block, where no commands over windows and
    files are."""
    return edited("", (0, 0), "\n".join(["{", *lines, "}"])).fault() != BAD


def commands(script: str) -> Iterator[str]:
    """The commands of a script: each takes as few lines as make one. Empty lines are left out."""
    lines, at = split_lines(script), 0
    while at < len(lines):
        if not lines[at].strip(" "):
            at += 1
            continue
        ends = range(at + 1, min(len(lines), at + MOST_LINES) + 1)
        end = next((it for it in ends if is_command(lines[at:it])), None)
        if end is None:
            raise Fault(f"line {at + 1} of the script: {BAD}: {lines[at]}")
        yield "\n".join(lines[at:end])
        at = end


def done(script: str, text: str) -> Tuple[str, str]:
    """The text that a script makes of a text, and what it prints."""
    dot, printed = (0, len(text)), []
    for command in [*commands(script)]:
        made = edited(text, dot, command)
        if is_refused(text, dot, command, made):
            raise Fault(f"{made.fault()}: {command}")
        text, dot = made.text, made.dot
        printed.append(made.printed)
    return text, "".join(printed)


def decoded(data: bytes) -> str:
    """Bytes as text; those that aren't UTF-8 become U+FFFD."""
    return data.decode("utf-8", "replace")


def filtered(given: List[str]) -> int:
    """Edits what the words name."""
    try:
        options, words = getopt.getopt(given, "ne:f:")
    except getopt.GetoptError as why:
        raise BadWords(str(why)) from None
    scripts = [value if name == "-e" else decoded(content(value)) for name, value in options if name != "-n"]
    if not scripts:
        if not words:
            raise BadWords("a script is wanted")
        scripts = [words.pop(0)]
    script = "\n".join(it[:-1] if it.endswith("\n") else it for it in scripts)
    text, printed = done(script, decoded(b"".join(content(it) for it in words or ["-"])))
    sys.stdout.write(printed if ("-n", "") in options else printed + text)
    return 0


def main(given: List[str]) -> int:
    """The command: the exit status is 1 where the words aren't known, and 2 where the script can't be done."""
    return run("acmefs-ssam", __doc__ or "", given, filtered)
