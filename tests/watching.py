"""Transcripts of the files `log` and `jobs`, made at random, and followed by the reference model as they are made.

    it = Watching(model, seed)
    it.transcript()         its lines
    it.answered             how many steps answered waiting reads of which kinds of files

In them windows are made, named, got, put and deleted, by clients, lines and actions; connections open `log`, `jobs`,
event files and ports, and read them; often one step answers reads of several of these, asked in any order; requests are
answered, rightly or not; and reads and openings end in every way. Random transcripts of the model's own generator have
nearly no step that answers several kinds.
"""

import random
from collections import Counter
from typing import Any, Callable, Dict, List, Optional, Tuple

from acme9 import wire
from acmefs_tools.lines import HEADING, escape

SLOTS = 3
# the root of the editor's tree and that of the plumber's, as fids of each connection
EDITOR, PLUMBER = 0, 1
FILES = ["/d/x", "/d/y", "/e/z", "/+Errors", "rel", "/d/", "/n/new"]
COMMANDS = ["Get", "Get /d/x", "Get /none", "Put", "Put /e/z", "New", "New /d/y", "Del", "Delete", "Undo", "date", "|sort",
            "<date", ">wc", "Edit B /d/x", "Edit D", "Edit X/d/ ,s/o/0/g", "Edit ,p", "Edit w /d/w", "Edit r /d/x",
            "Edit ,|sort"]  # fmt: skip
MESSAGES = ["get", "put", "get\nput", "put\nget", "name /d/x\nget\nput", "name /d/y", "name /e/q\nput", "clean\nput\nbad\nput",
            "del", "delete", "put\ndelete", "bad", "mark\nput\nnomark"]  # fmt: skip
LOOKS = ["/d/x", "/d/y:1", "/none", "port", "/d", "web:one"]
RULES = "data matches '(/d/.*)'\narg isfile $0\nplumb to edit\n\ndata matches 'p.*'\nplumb to port\nplumb start see $data\n\n"
RULES += "data matches 'web:(.*)'\nplumb to port\nplumb client it\n\n"
ANSWERS = ["%d ok\n", "%d ok\n", "%d fail\n", "%d ok", "%d  ok\n", "0%d ok\n", "%d fine\n", "%d ok\n%d ok\n"]
COUNTS = [8192, 8192, 8192, 65549, 40, 7, 1, 0]
# an opening: the connection, the fid, and the kind of the file
Opening = Tuple[int, int, str]


class Watching:
    """One transcript."""

    def __init__(self, model: Any, seed: int, steps: int = 120):
        self.model, self.rng = model, random.Random(f"watching {seed}")
        self.core = model.Core(2, undo="linked", edit="full", watch="on")
        self.lines, self.fid, self.tag = [HEADING], 10, 10
        self.answered: "Counter[str]" = Counter()
        self.dialled = 0
        for path, text in (("/d/x", "one\n"), ("/d/y", "two\nthree\n"), ("/e/z", "")):
            self.add(f"file {path} :{escape(text)}")
        for _ in range(SLOTS):
            self.dial()
        self.opens(0, "rules", wire.OWRITE)
        self.say(0, "Twrite", fid=self.fid, offset=0, data=RULES.encode())
        does, weights = zip(*self.deeds())
        while len(self.lines) < steps:
            self.rng.choices(does, weights)[0]()
        self.add("report")

    def deeds(self) -> List[Tuple[Callable[[], None], int]]:
        return [
            (self.open_one, 6), (self.read_one, 10), (self.make, 4), (self.control, 8), (self.execute, 8), (self.look, 4),
            (self.answer, 6), (self.give_back, 4), (self.several, 9), (self.end_one, 3), (self.flush, 2), (self.hang_up, 1),
            (self.type, 2),
        ]  # fmt: skip

    def transcript(self) -> bytes:
        return "".join(f"{it}\n" for it in self.lines).encode("utf-8")

    # -- lines

    def add(self, line: str) -> bool:
        """A line, where its event is enabled; what is answered to waiting reads is counted."""
        if line == "report":
            self.lines.append(line)
            return True
        event = self.model.read_line(line.encode("utf-8"))
        if event is None or self.core.enabled(event):
            return False
        waiting = {(it.conn, it.tag): it.opening.kind for it in self.core.waiting}
        replies = [(slot, self.model.read_r(data)) for slot, data in self.core.step(event)]
        kinds = {waiting[slot, it.tag] for slot, it in replies if it.name == "Rread" and (slot, it.tag) in waiting}
        self.answered["+".join(sorted(kinds))] += bool(kinds)
        self.lines.append(line)
        for slot, it in self.core.conns.items():
            if len(it.unsent) > 200:
                self.add(f"took {slot}")
        return True

    def say(self, slot: int, name: str, /, **fields: Any) -> None:
        """A message, with a tag that no other has."""
        self.tag += 1
        tag = wire.NOTAG if name == "Tversion" else self.tag
        self.add(f"msg {slot} {wire.encode(name, tag, **fields).hex()}")

    def dial(self) -> None:
        """A connection with both roots."""
        slot, self.dialled = self.dialled, self.dialled + 1
        self.add(f"dial {slot}")
        self.session(slot)

    def session(self, slot: int) -> None:
        self.say(slot, "Tversion", msize=self.rng.choice([8192, 65560, 300]), version="9P2000")
        for fid, tree in ((EDITOR, "acme"), (PLUMBER, "plumb")):
            self.say(slot, "Tattach", fid=fid, afid=wire.NOFID, uname="u", aname=tree)

    def opens(self, slot: int, path: str, mode: int) -> None:
        """A walk to a file and its opening, as a fid that no other has."""
        self.fid += 1
        root = PLUMBER if path in ("rules", "edit", "port") else EDITOR
        self.say(slot, "Twalk", fid=root, newfid=self.fid, names=path.split("/"))
        self.say(slot, "Topen", fid=self.fid, mode=mode)

    # -- what there is

    def slot(self) -> int:
        """A connection that is live."""
        return self.rng.choice([it for it, one in self.core.conns.items() if one.ending is None])

    def window(self) -> int:
        """A live window, one that is made where there is none."""
        if not self.core.windows:
            self.add("new")
        return self.rng.choice([*self.core.windows])

    def openings(self, kinds: "tuple[str, ...]" = ("log", "jobs", "event", "port")) -> List[Opening]:
        """The openings of some kinds of files."""
        return [
            (slot, number, fid.opening.kind)
            for slot, one in self.core.conns.items() for number, fid in one.fids.items()
            if fid.opening is not None and fid.opening.kind in kinds and not self.core.is_dead(fid.node)
        ]  # fmt: skip

    def some(self, *kinds: str) -> Optional[Opening]:
        found = self.openings(kinds) if kinds else self.openings()
        return self.rng.choice(found) if found else None

    def waits(self, opening: Opening) -> bool:
        return any((it.conn, it.fid) == opening[:2] for it in self.core.waiting)

    # -- what is done

    def open_one(self) -> None:
        """A file is opened: more of a kind, in any mode, as other files are."""
        path = self.rng.choice(["log", "jobs", "jobs", f"{self.window()}/event", "edit", "port"])
        modes = [wire.ORDWR, wire.ORDWR, wire.OREAD, wire.OWRITE, wire.OREAD | wire.OTRUNC]
        mode = self.rng.choice(modes) if path in ("jobs", "log") and self.rng.random() < 0.5 else wire.OREAD
        self.opens(self.slot(), path, wire.ORDWR if path == "jobs" and mode == wire.OREAD else mode)

    def read_one(self) -> None:
        opening = self.some()
        if opening:
            self.say(opening[0], "Tread", fid=opening[1], offset=self.rng.choice([0, 0, 7]), count=self.rng.choice(COUNTS))

    def make(self) -> None:
        way = self.rng.randrange(3)
        if way == 0:
            self.add("new")
        else:
            self.opens(self.slot(), f"new/{self.rng.choice(['ctl', 'body', 'event', 'errors'])}", wire.OWRITE)

    def control(self) -> None:
        """Messages to a window's ctl."""
        self.writes(self.window(), self.rng.choice([*MESSAGES, f"name {self.rng.choice(FILES)}"]) + "\n")

    def writes(self, window: int, messages: str) -> None:
        slot = self.slot()
        self.opens(slot, f"{window}/ctl", wire.OWRITE)
        self.say(slot, "Twrite", fid=self.fid, offset=0, data=messages.encode())
        self.say(slot, "Tclunk", fid=self.fid)

    def type(self) -> None:
        self.add(f"key {self.window()} body :{self.rng.choice(['a', 'one o', '/d/x ', 'web:one '])}")

    def click(self, word: str, text: str, window: int) -> None:
        """A text is typed into a tag, and executed or looked for."""
        at = len(self.core.windows[window].tag())
        self.add(f"key {window} tag :{text}")
        moved = len(self.core.windows[window].tag()) - at - len(text)
        self.add(f"{word} {window} tag {at + moved} {at + moved + len(text)}")

    def execute(self) -> None:
        self.click("exec", self.rng.choice(COMMANDS), self.window())

    def look(self) -> None:
        self.click("look", self.rng.choice(LOOKS), self.window())

    def give_back(self) -> None:
        """An event that was taken is written back."""
        taken = [it for records in self.core.items.values() for it in records if it.life[0] == "taken" and it.item.sort in "XxLl"]
        opening = self.some("event")
        if taken and opening:
            it = self.rng.choice(taken[-4:])
            self.opens(opening[0], f"{it.window}/event", wire.OWRITE)
            front = f"M{it.item.sort}{it.item.range[0]} {it.item.range[1]}\n"
            self.say(opening[0], "Twrite", fid=self.fid, offset=0, data=front.encode())
            self.say(opening[0], "Tclunk", fid=self.fid)

    def answer(self) -> None:
        """A request is read by an opening of jobs, and one that it took is answered, mostly."""
        opening = self.some("jobs")
        if not opening:
            return
        slot, fid, _ = opening
        if self.rng.random() < 0.6 and not self.waits(opening):
            self.say(slot, "Tread", fid=fid, offset=0, count=self.rng.choice(COUNTS[:6]))
        number = self.core.conns[slot].fids[fid].opening.number
        mine = [k for k, it in enumerate(self.core.job_lives, 1) if it[:2] == ("taken", number)]
        others = [self.rng.randrange(len(self.core.jobs) + 2)]
        text = self.rng.choice(ANSWERS if self.rng.random() < 0.4 else ANSWERS[:3])
        one = self.rng.choice(mine if mine and self.rng.random() < 0.7 else others)
        self.say(slot, "Twrite", fid=fid, offset=0, data=text.replace("%d", str(one)).encode())

    def several(self) -> None:
        """Reads of several kinds of files wait, asked in any order; and a step answers some of them together."""
        window = self.window()
        self.writes(window, f"name {self.rng.choice(['/d/x', '/d/y'])}\n")
        if window not in self.core.windows:
            return
        for kind, path in {"log": "log", "jobs": "jobs", "event": f"{window}/event", "port": "edit"}.items():
            there = [it for it in self.openings((kind,)) if path in ("log", "jobs") or self.node(it)[-1] in (window, 0, "event")]
            if not there and self.rng.random() < 0.8:
                self.opens(self.slot(), path, wire.ORDWR if kind == "jobs" else wire.OREAD)
        found = self.openings()
        self.rng.shuffle(found)
        for opening in found:
            self.until_it_waits(opening)
        if window in self.core.windows:
            self.rng.choice(self.at_once(window))()

    def at_once(self, window: int) -> List[Callable[[], None]]:
        """Deeds that may answer reads of several kinds at once."""
        other = self.rng.choice([*self.core.windows])
        return [
            lambda: self.writes(window, self.rng.choice(["get\nput\n", "put\nget\n", "get\nput\nbad\n", "put\nget\nput\n"])),
            lambda: self.click("look", self.rng.choice(["/d/x", "/d/y:1", "/d/y"]), other),
            lambda: self.click("exec", self.rng.choice(["Put", "Get", "Put /d/w", "Edit B /d/y", "Edit X/d/ ,p"]), other),
            self.give_back,
        ]  # fmt: skip

    def node(self, opening: Opening) -> Tuple[Any, ...]:
        node: Tuple[Any, ...] = self.core.conns[opening[0]].fids[opening[1]].node
        return node

    def until_it_waits(self, opening: Opening) -> None:
        """Reads an opening until its read waits; at times a small count waits, which cuts what comes."""
        for _ in range(8):
            fids: Dict[int, Any] = self.core.conns[opening[0]].fids
            if self.waits(opening) or opening[1] not in fids or not fids[opening[1]].may_read():
                return
            count = self.rng.choice([8192, 8192, 8192, 8192, 20, 3])
            self.say(opening[0], "Tread", fid=opening[1], offset=0, count=count)

    # -- what ends

    def end_one(self) -> None:
        """An opening is closed, while a read of it waits or not."""
        opening = self.some(*self.rng.choice([("jobs",), ("log", "jobs"), ("log", "jobs", "event", "port")]))
        if opening:
            self.say(opening[0], self.rng.choice(["Tclunk", "Tclunk", "Tremove"]), fid=opening[1])

    def flush(self) -> None:
        if self.core.waiting:
            it = self.rng.choice(self.core.waiting)
            self.say(it.conn, "Tflush", oldtag=it.tag)

    def hang_up(self) -> None:
        """A connection ends, or begins anew; another one comes."""
        slot = self.slot()
        if self.rng.random() < 0.5:
            self.session(slot)
            return
        self.add(f"hang {slot} {self.rng.choice(['end', 'torn', 'gone'])}")
        if self.dialled < 20:
            self.dial()
