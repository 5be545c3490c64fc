"""What windows hold after each entry of a journal.

Names, tags and bodies are read by reads that are added to the journal. Dots, events and requests stand in reports
alone, so they come from replays of fronts of the journal, up to entries that may have changed them: all of these, or as
many as were asked for, and what is between isn't known then. The bodies in those reports must be the ones that were
read.
"""

import os
import re
from concurrent.futures import ThreadPoolExecutor
from dataclasses import dataclass, field
from typing import Callable, Dict, FrozenSet, Iterator, List, Optional, Sequence, Tuple

from .lines import Fault, Journal, Report, unescape
from .program import replayed, traced, transcript
from .reads import MOST_READ, Plain, gathered
from .telling import Teller, Told
from .trace import Step, Trace

INDEX_LINE = re.compile(r" *(\d+) +(\d+) +(\d+) +([01]) +([01]) (.*)", re.S)
WINDOW_FILE = re.compile(r"(\d+)/([a-z]+)")
LAST_ITEM = re.compile(r"^item (\d+) (\d+) ", re.M)
WINDOW_LINES = re.compile(r"^window (\d+) [01] (\d+) (\d+) :.*\nbody :(.*)", re.M)
REQUESTS = re.compile(r"^requests (\d+)$", re.M)
# what may change in a window by a write to one of its files, and what may change in all
OWN = {"body", "tag", "data", "xdata", "addr", "ctl"}
ALL = {"event", "errors", "cons", "send"}
# the bytes of a body that are shown
SHOWN = 60000
Steps = Callable[[int], None]


@dataclass(frozen=True)
class Touch:
    """What an entry may change: the windows, all of them where that is None; whether it may only move a dot."""

    windows: Optional[FrozenSet[int]]
    dot_alone: bool = False


def touch_of(step: Step, file: str) -> Optional[Touch]:
    """What an entry may change; None where that is no window. `file` is what the entry's message is for."""
    word, _, rest = step.line.partition(" ")
    if word in ("exec", "arg", "look"):
        return Touch(None)
    if word in ("key", "sel"):
        return Touch(frozenset([int(rest.partition(" ")[0])]), word == "sel")
    if word == "new":
        return Touch(frozenset())
    message = step.spoken.message if step.spoken else None
    if message and message.name == "Twalk" and ("new" in message["names"] or file == "new/"):
        return Touch(frozenset())
    if not message or message.name != "Twrite":
        return None
    found = WINDOW_FILE.fullmatch(file)
    if found and found[2] in OWN:
        return Touch(frozenset([int(found[1])]))
    return Touch(None) if file in ALL or found and found[2] in ALL else None


@dataclass
class Shown:
    """A live window as it stands. A `dot` of None isn't known."""

    tag: str = ""
    runes: int = 0
    is_directory: bool = False
    is_modified: bool = False
    body: bytes = b""
    dot: Optional[Tuple[int, int]] = None

    def text(self) -> str:
        return self.body.decode("utf-8", "ignore")


@dataclass(frozen=True)
class Front:
    """What the report on a front of the journal says: dots and hashes of bodies, how many items and requests."""

    dots: Dict[int, Tuple[int, int]]
    bodies: Dict[int, int]
    items: Dict[int, int]
    requests: int

    @classmethod
    def of(cls, output: str) -> "Front":
        """The report at the end of an output."""
        report = output[output.rfind("\nreport\n") :]
        dots, bodies = {}, {}
        for window, start, end, body in WINDOW_LINES.findall(report):
            dots[int(window)] = (int(start), int(end))
            bodies[int(window)] = hash(unescape(body).encode("utf-8")[:SHOWN])
        items = {int(window): int(number) for window, number in LAST_ITEM.findall(report)}
        found = REQUESTS.search(report)
        return cls(dots, bodies, items, int(found[1]) if found else 0)


@dataclass
class Story:
    """A journal told: its steps in words, and what each entry changes."""

    told: List[Told] = field(default_factory=list)
    touches: Dict[int, Touch] = field(default_factory=dict)
    report: Report = field(default_factory=Report)
    plain: Plain = field(default_factory=Plain)
    reads: int = 0
    fronts: List[int] = field(default_factory=list)


def told(journal: Journal, step: Steps) -> Story:
    """The first replay: what is asked and answered."""
    story, teller = Story(), Teller()

    def noted() -> Iterator[str]:
        for line in traced(journal.lines()):
            story.plain.note(line)
            yield line

    trace = Trace(noted())
    for it in trace:
        story.told.append(teller.tell(it))
        touch = touch_of(it, story.told[-1].file)
        if touch:
            story.touches[it.entry] = touch
        step(1)
    story.report = Report.of(trace.report)
    return story


def indexes(journal: Journal, story: Story, step: Steps) -> Dict[int, Dict[int, Shown]]:
    """The second: the live windows, with their tags, after each entry that may change them."""
    wanted = {it: ["index"] for it, touch in story.touches.items() if not touch.dot_alone}
    found: Dict[int, Dict[int, Shown]] = {}
    for read in gathered(journal, wanted, MOST_READ, story.plain):
        found[read.entry] = dict(index_of(read.data or b""))
        step(1)
    story.reads += len(wanted)
    return found


def index_of(data: bytes) -> Iterator[Tuple[int, Shown]]:
    """The windows in an index. A last line that is cut off is left out."""
    for line in data.decode("utf-8", "ignore").split("\n")[:-1]:
        found = INDEX_LINE.fullmatch(line)
        if not found:
            raise Fault(f"this is no line of an index: {line[:80]}")
        tag = found[6] + (" ..." if int(found[2]) > len(found[6]) else "")
        yield int(found[1]), Shown(tag, int(found[3]), found[4] == "1", found[5] == "1")


def wanted_bodies(story: Story, found: Dict[int, Dict[int, Shown]]) -> Dict[int, List[str]]:
    """The bodies that entries may have changed."""
    wanted, before = {}, frozenset()  # type: Dict[int, List[str]], FrozenSet[int]
    for entry in sorted(found):
        live, windows = frozenset(found[entry]), story.touches[entry].windows
        read = live if windows is None else (live & windows) | (live - before)
        if read:
            wanted[entry] = [f"{it}/body" for it in sorted(read)]
        before = live
    return wanted


Bodies = Dict[int, bytes]


def bodies(journal: Journal, story: Story, wanted: Dict[int, List[str]], step: Steps) -> Iterator[Tuple[int, Bodies]]:
    """The third: bodies after the entries that may have changed them, in order."""
    held, entry = {}, 0  # type: Bodies, int
    for read in gathered(journal, wanted, SHOWN, story.plain):
        if read.entry != entry and held:
            yield entry, held
            held = {}
        entry = read.entry
        held[int(read.name.partition("/")[0])] = read.data or b""
        step(1)
        story.reads += 1
    if held:
        yield entry, held


def chosen(entries: Sequence[int], most: int) -> List[int]:
    """Some of the entries, the last among them, with as many between each two."""
    if len(entries) <= most:
        return [*entries]
    return sorted({entries[(k + 1) * len(entries) // most - 1] for k in range(most)})


def fronts(journal: Journal, story: Story, step: Steps) -> Iterator[Tuple[int, Front]]:
    """What the reports on fronts of the journal say, in order; several are made at a time."""
    data, last = transcript(journal.lines()), len(transcript(journal.heading))
    ends = [last]
    for _ in journal.entries:
        last = data.index(b"\n", last) + 1
        ends.append(last)

    def made(entry: int) -> Front:
        front = Front.of(f"\n{replayed(data[: ends[entry]])}")
        step(1)
        return front

    with ThreadPoolExecutor(os.cpu_count()) as pool:
        yield from zip(story.fronts, pool.map(made, story.fronts))
