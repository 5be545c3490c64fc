"""The page of a journal: what each entry changes, as data of the page that steps through them."""

import json
import os
import re
import time
from dataclasses import dataclass
from typing import Any, Dict, Iterator, List, Optional, Sequence, Tuple

from . import states
from .lines import Fault, Journal
from .states import Front, Shown, Story
from .telling import Told, quoted_text

TEMPLATE = os.path.join(os.path.dirname(os.path.realpath(__file__)), "page.html")
MARK = "@DATA@"
# the runes of an operation's words that are shown
LONGEST = 2000
# ranges of texts in the words of a step
RANGE = re.compile(r"(\d+) (body|tag) (\d+) (\d+)")
# what a window is before it is made and after it is deleted
NOTHING = Shown()
# a change of a window: its number, what changes, what it was and is; of a body also from where on
Change = List[Any]


def common(one: str, two: str) -> int:
    """How many runes two texts begin with alike."""
    least, most = 0, min(len(one), len(two))
    while least < most:
        middle = (least + most + 1) // 2
        if one[least:middle] == two[least:middle]:
            least = middle
        else:
            most = middle - 1
    return least


def body_change(window: int, old: str, new: str) -> Change:
    """What takes the place of what in a body."""
    front = common(old, new)
    behind = common(old[front:][::-1], new[front:][::-1])
    return [window, "body", old[front : len(old) - behind], new[front : len(new) - behind], front]


def changes(window: int, old: Shown, new: Shown) -> Iterator[Change]:
    """What changes from one look of a window to another."""
    pairs = {
        "tag": (old.tag, new.tag),
        "runes": (old.runes, new.runes),
        "modified": (old.is_modified, new.is_modified),
        "dot": (old.dot, new.dot),
    }
    for name, (before, after) in pairs.items():
        if before != after:
            yield [window, name, before, after]
    if old.body != new.body:
        yield body_change(window, old.text(), new.text())


@dataclass(frozen=True)
class Seen:
    """What was seen after an entry: the live windows, where it may change them, the bodies that were read, and the
    report on the front that ends with it, where there is one."""

    index: Optional[Dict[int, Shown]]
    bodies: Dict[int, bytes]
    front: Optional[Front]


class Scene:
    """The windows while the entries are gone through."""

    def __init__(self, story: Story):
        self._story, self._windows = story, {}  # type: Story, Dict[int, Shown]

    def enter(self, entry: int, seen: Seen) -> List[Change]:
        """What an entry changes, by what was seen after it."""
        before = self._windows
        is_same = seen.index is None
        after = {it: Shown(**vars(one)) for it, one in before.items()} if is_same else self._indexed(seen.index or {})
        for window, body in seen.bodies.items():
            after[window].body = body
        self._point(entry, after, seen.front)
        self._windows = after
        return [*self._compared(before, after)]

    def spelled(self, words: str) -> str:
        """The words of a step, in which each range stands with its text, as the windows are now."""

        def with_text(found: "re.Match[str]") -> str:
            shown = self._windows.get(int(found[1]), NOTHING)
            text = (shown.text() if found[2] == "body" else shown.tag)[int(found[3]) : int(found[4])]
            return f"{found[0]} {quoted_text(cut(text))}" if text else found[0]

        return RANGE.sub(with_text, words)

    def _indexed(self, index: Dict[int, Shown]) -> Dict[int, Shown]:
        """The windows of an index, with the bodies and dots that they had."""
        for window, shown in index.items():
            if window in self._windows:
                shown.body, shown.dot = self._windows[window].body, self._windows[window].dot
        return index

    def _point(self, entry: int, after: Dict[int, Shown], front: Optional[Front]) -> None:
        """Puts dots where the report on a front has them; where there is none, those that may have moved are lost."""
        moved = self._story.touches[entry].windows
        for window, shown in after.items():
            if front:
                if front.bodies.get(window) != hash(shown.body):
                    raise Fault(f"the body of window {window} that was read after entry {entry} is not the report's")
                shown.dot = front.dots[window]
            elif moved is None or window in moved:
                shown.dot = None

    @staticmethod
    def _compared(before: Dict[int, Shown], after: Dict[int, Shown]) -> Iterator[Change]:
        for window in sorted({*before, *after}):
            if window not in before:
                yield [window, "live", False, True]
            yield from changes(window, before.get(window, NOTHING), after.get(window, NOTHING))
            if window not in after:
                yield [window, "live", True, False]


class Makings:
    """When items and requests were made, by how many the reports on fronts have."""

    def __init__(self, story: Story):
        self._story, self._items, self._requests = story, {}, 0  # type: Story, Dict[int, int], int
        self.items: Dict[Tuple[int, int], int] = {}
        self.requests: List[int] = []

    def note(self, entry: int, front: Front) -> None:
        """Takes the report on the front that ends with an entry."""
        for window, count in front.items.items():
            for number in range(self._items.get(window, 0) + 1, count + 1):
                self.items[window, number] = entry
            self._items[window] = count
        self.requests += [entry] * (front.requests - len(self.requests))

    def item_rows(self) -> List[List[Any]]:
        """The items: window, number, text, when it was made, and its life."""
        rows = []
        for it in self._story.report.items:
            made = self.items.get((it.window, it.number), self._story.report.entries)
            rows.append([it.window, it.number, it.spelling, made, it.life, [*it.when]])
        return rows

    def request_rows(self) -> List[List[Any]]:
        """The requests: kind, window, command, input, when it was made, and its life."""
        found = zip(self._story.report.requests, self.requests)
        return [[it.kind, it.window, it.command, cut(it.input), made, it.life, [*it.when]] for it, made in found]


def cut(text: str) -> str:
    """A text that isn't too long to be shown."""
    return text if len(text) <= LONGEST else f"{text[:LONGEST]} .. ({len(text) - LONGEST} more runes)"


def rows(told: Sequence[Told]) -> Iterator[List[Any]]:
    """The steps of the page. That replies are taken is none."""
    for it in told:
        if not it.words.startswith("takes "):
            answers = [[one.connection, cut(one.words), one.is_refusal, cut(one.asked)] for one in it.answers]
            yield [it.entry, it.connection, cut(it.words), answers, it.waits]


def read_all(journal: Journal, most: int, progress: Any) -> Tuple[Story, Dict[int, List[Change]], Makings]:
    """The journal told, what its entries change, and when items and requests were made."""
    progress.begin("replaying", len(journal.entries))
    story = states.told(journal, progress.step)
    progress.begin("reading tags", sum(1 for it in story.touches.values() if not it.dot_alone))
    found = states.indexes(journal, story, progress.step)
    wanted = states.wanted_bodies(story, found)
    story.fronts = states.chosen([*story.touches], most)
    progress.begin("reading bodies and dots", sum(len(it) for it in wanted.values()) + len(story.fronts))
    held = dict(states.bodies(journal, story, wanted, progress.step))
    scene, makings, changed = Scene(story), Makings(story), {}
    fronts = states.fronts(journal, story, progress.step)
    ahead = next(fronts, None)
    for entry in story.touches:
        front = ahead[1] if ahead and ahead[0] == entry else None
        if front:
            makings.note(entry, front)
            ahead = next(fronts, None)
        if story.touches[entry].windows is None and story.told[entry - 1].connection is None:
            story.told[entry - 1].words = scene.spelled(story.told[entry - 1].words)
        changed[entry] = scene.enter(entry, Seen(found.pop(entry, None), held.pop(entry, {}), front))
    return story, {entry: it for entry, it in changed.items() if it}, makings


def data_of(name: str, journal: Journal, most: int, progress: Any) -> Dict[str, Any]:
    """What the page shows."""
    begun = time.monotonic()
    story, changed, makings = read_all(journal, most, progress)
    progress.end()
    return {
        "name": name,
        "entries": story.report.entries,
        "rows": [*rows(story.told)],
        "changes": changed,
        "items": makings.item_rows(),
        "requests": makings.request_rows(),
        "cost": cost(story, time.monotonic() - begun),
        "dots": len(story.fronts) == len(story.touches),
        "shown": states.SHOWN,
    }


def cost(story: Story, seconds: float) -> str:
    """What making the page took."""
    of = "" if len(story.fronts) == len(story.touches) else f" of {len(story.touches)}"
    return (
        f"{story.report.entries:,} entries. Names, tags and bodies: two replays with {story.reads:,} reads added over "
        f"a connection of their own; the replies and the report were the same without them. Dots, events and requests: "
        f"replays of {len(story.fronts):,}{of} fronts, up to entries that may change them. Made in {seconds:.1f} s."
    )


def page_of(data: Dict[str, Any]) -> str:
    """The page, as one file."""
    with open(TEMPLATE, encoding="utf-8") as file:
        front, _, behind = file.read().partition(MARK)
    text = json.dumps(data, ensure_ascii=False, separators=(",", ":"))
    return front + text.replace("<", "\\u003c").replace("\u2028", "\\u2028").replace("\u2029", "\\u2029") + behind
