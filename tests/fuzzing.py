"""Replays transcripts that are mutated from those of the repository, and looks whether what comes of them is right.

    tests/fuzz [--seeds A:B | --seconds S [--from A]] [--edit basic|full] [--save FOLDER] [--keep] [--page]

First come the transcripts of tests/fuzz-corpus, as they stand. Then each seed, 0 to 199 where none are given, makes a
transcript of its own: it takes one of tests/cases, examples or tests/fuzz-corpus, or a random one where there is a
reference model, and changes it: lines are swapped, doubled, dropped and taken from another transcript, connections are
mixed, bytes turned, numbers set to their bounds, fields of messages and texts changed. A line that is refused is taken
out, mostly, so that those behind it are done, too.

Each transcript is replayed and traced, and these laws are looked at, on what is written alone:

- it ends with status 0 or 2, within a time, and says nothing else;
- each message is answered once in its step, by its own R message or by Rerror, or it is a read and waits; all other
  replies are to reads that wait; none is longer than its connection takes, or comes behind a hang-up;
- the lines that were done, and then the report, are replayed to the same replies and the same report; the trace is
  packed into these lines;
- the report agrees with the lines: its entries, connections, windows, items and requests.

Of mutated lines of `do` the first that is refused must be the first that isn't in the grammar.

Where there is a reference model, in ../shared/reference or in the folder that ACMEFS_REFERENCE names, output and status
are compared with it, also those of a pack of the trace in which something is changed. What fails is made smaller by
taking lines away, and saved, by default in differences/. The last line is `N passed, M failed`, and the exit status is
1 where something failed. With --page the counts go to tests/fuzz.md. With --keep a transcript that has a message
answered as none of the cases has goes to tests/fuzz-corpus, made smaller. tests/run calls it with a few seeds.
"""

import argparse
import os
import random
import re
import signal
import subprocess
import sys
import time
from collections import Counter
from typing import Any, Callable, Dict, Iterator, List, NamedTuple, Optional, Set, Tuple

from harness import PROGRAM, TOP, keep_result, store

from acme9 import wire
from acme9.errors import BadMessage
from acmefs_tools import lines as lines_of_text

REFERENCE = os.environ.get("ACMEFS_REFERENCE", f"{TOP}/../shared/reference")
CASES, EXAMPLES, CORPUS = f"{TOP}/tests/cases", f"{TOP}/examples", f"{TOP}/tests/fuzz-corpus"
PAGE = f"{TOP}/tests/fuzz.md"
# transcripts that are longer aren't mutated, and none that is mutated gets longer
LONGEST = 60000
# how long the program and the model may take, and what is told of as slow, in seconds
SECONDS, SLOW = 60, 2
# how many refused lines are taken out of a transcript
REPAIRS = 40
FEATURES = ("wire-all", "files", "events", "addr", "actions", "edit,=windows-edit", "plumb", "log-jobs")
HEADING = lines_of_text.HEADING.encode()
# how many reads of a connection may wait, in format 1 and in format 2
WAITING, WAITING_2 = 64, 256
NUMBERS = [0, 1, 2, 7, 63, 64, 65, 255, 256, 257, 1023, 1024, 1025, 4096, 8192, 65535, 65536, 65560, 65561, 16777216]
NUMBERS += [it - k for it in (1 << 31, 1 << 32, 1 << 63, 1 << 64) for k in (2, 1, 0)]
BYTES = [it.encode() for it in ("", "\0", "\n", "é", "\U0001f600", "\\", "'", " ", "\t", "/")]
BYTES += [b"\xff", b"\xc3", b"\xe2\x82"]
# pieces of the grammars of all that is written, one after another
WORDS = """a ab . * + ? ( ) [ ] [^a] ^ $ | , ; # #0 0 1 - x/a/ ,x/./ y/b/ g/a/ v/a/ s/a/b/ s2/(a)/\\1&/g a/x/ i/x/ c/x/
d p = =# m0 t$ X/a/ X/./ Y/b/ B D e r w |sort <date >wc Edit Undo Redo Cut Snarf Paste Del Delete Get Put New Look /d/x
/d/ x:2 .. / event body p"""
LINES = """{|}|Edit ,d|del|delete|name /d/x|clean|dirty|mark|nomark|get|put|addr=dot|dot=addr|limit=addr|cleartag|MX0 3
|ML0 1|Ml0 3|plumb to p|type is text|data matches 'a(.*)'|arg isfile $0|data set $1|attr add a=1|plumb client it
|plumb start it|a=1 click=0|v='x y'|1 ok|2 fail|1 no"""
TOKENS = BYTES + [it.encode() for it in WORDS.split()] + [it.strip().encode() + b"\n" for it in LINES.split("|")]
TOKENS += [b"Edit ", b"plumb to p\n\n", b"src\n\n/\ntext\n\n1\na"]
NAMES = ["", *". .. new body event ctl tag addr data xdata errors index cons log jobs send rules edit p 1 2".split()]
ASKED = "Tversion Tauth Tattach Tflush Twalk Topen Tcreate Tread Twrite Tclunk Tremove Tstat Twstat".split()
REFUSED = re.compile(rb"refused ([0-9]+) ([a-z]+)")
Lines = List[bytes]


def content(path: str) -> bytes:
    with open(path, "rb") as file:
        return file.read()


def bases() -> List[bytes]:
    """The transcripts that are mutated."""
    found = []
    for folder, ending in ((CASES, ".in"), (EXAMPLES, ".transcript"), (CORPUS, ".in")):
        for name in sorted(os.listdir(folder)) if os.path.isdir(folder) else ():
            path = f"{folder}/{name}"
            is_other = os.path.exists(path[: -len(ending)] + ".args")
            if name.endswith(ending) and not is_other and os.path.getsize(path) <= LONGEST:
                found.append(content(path))
    return found


# ---- mutations


class Mutator:
    """Changes the lines of a transcript, by a random source."""

    def __init__(self, rng: random.Random, lines: Lines, other: Lines):
        self.rng, self.lines, self.other = rng, lines, other
        self.ways = [
            self.swap, self.double, self.drop, self.splice, self.mix, self.turn, self.bound, self.bound,
            self.field, self.field, self.field, self.field, self.field, self.ask, self.ask, self.word, self.word,
            self.move,
        ]  # fmt: skip

    def mutate(self) -> Lines:
        for _ in range(self.rng.choice([1, 1, 2, 3, 5, 8, 13])):
            if self.lines and sum(map(len, self.lines)) < 2 * LONGEST:
                self.rng.choice(self.ways)()
        return self.lines

    def place(self) -> int:
        return self.rng.randrange(len(self.lines))

    def swap(self) -> None:
        a, b = self.place(), self.place()
        self.lines[a], self.lines[b] = self.lines[b], self.lines[a]

    def double(self) -> None:
        at, count = self.place(), self.rng.choice([1, 1, 2, 5])
        self.lines[self.place() : 0] = self.lines[at : at + count]

    def move(self) -> None:
        at, count = self.place(), self.rng.choice([1, 2, 5])
        moved = self.lines[at : at + count]
        del self.lines[at : at + count]
        to = self.rng.randrange(len(self.lines) + 1)
        self.lines[to:to] = moved

    def drop(self) -> None:
        at = self.place()
        del self.lines[at : at + self.rng.choice([1, 1, 2, 4, 9])]

    def splice(self) -> None:
        """Lines of another transcript."""
        at = self.rng.randrange(len(self.other) + 1)
        taken = self.other[at : at + self.rng.choice([1, 3, 10, 40])]
        to = self.rng.randrange(len(self.lines) + 1)
        self.lines[to:to] = taken

    def mix(self) -> None:
        """All lines of another transcript among these, those of its connections over other ones."""
        shift, mixed, mine = self.rng.choice([0, 1, 1, 2, 63]), [], list(self.lines)
        theirs = [it for it in (shifted(line, shift) for line in self.other) if it not in (b"report", HEADING)]
        mixed += [mine.pop(0)] if mine[:1] == [HEADING] else []
        while mine or theirs:
            is_mine = self.rng.randrange(len(mine) + len(theirs)) < len(mine)
            mixed.append((mine if is_mine else theirs).pop(0))
        self.lines = mixed

    def turn(self) -> None:
        """A byte is another one, one more or one less."""
        k = self.place()
        line = bytearray(self.lines[k])
        at = self.rng.randrange(len(line) + 1)
        way = self.rng.randrange(3)
        if way == 0:
            line[at:at] = self.rng.choice(BYTES)
        elif at < len(line):
            other = [line[at] ^ 1 << self.rng.randrange(8), self.rng.randrange(256)]
            line[at : at + 1] = b"" if way == 1 else bytes([self.rng.choice(other)])
        self.lines[k] = bytes(line).replace(b"\n", b"")

    def bound(self) -> None:
        """A number of a line is another one."""
        places = [k for k, it in enumerate(self.lines) if re.search(rb"\d", it) and not it.startswith(b"msg")]
        if places:
            k = self.rng.choice(places)
            numbers = list(re.finditer(rb"\d+", self.lines[k].split(b":")[0]))
            if numbers:
                one = self.rng.choice(numbers)
                value = self.number(int(one[0])) if len(one[0]) < 30 else 0
                self.lines[k] = self.lines[k][: one.start()] + b"%d" % value + self.lines[k][one.end() :]

    def number(self, old: int) -> int:
        return self.rng.choice([max(0, old - 1), old + 1, self.rng.choice(NUMBERS), self.rng.randrange(10)])

    def word(self) -> None:
        """The text of a line gets a piece more, or one less."""
        places = [k for k, it in enumerate(self.lines) if b":" in it]
        if places:
            k = self.rng.choice(places)
            front, colon, text = self.lines[k].partition(b":")
            self.lines[k] = front + colon + self.bytes(text.replace(b"\\n", b"\n")).replace(b"\n", b"\\n")

    def bytes(self, data: bytes) -> bytes:
        for _ in range(self.rng.choice([1, 1, 2, 4])):
            at = self.rng.randrange(len(data) + 1)
            end = self.rng.choice([at, at, at + 1, at + 3, len(data)])
            data = data[:at] + self.rng.choice(TOKENS) * self.rng.choice([1, 1, 1, 1, 2, 33]) + data[end:]
        return data[:4000]

    def messages(self) -> List[Tuple[int, int, wire.Message]]:
        """The messages of the lines, with their lines and connections."""
        return [(k, *it) for k, it in enumerate(map(message_of, self.lines)) if it]

    def field(self) -> None:
        """A field of a message is another one."""
        there = self.messages()
        if there:
            k, slot, it = self.rng.choice(there)
            fields, tag = dict(it.fields), it.tag
            name = self.rng.choice([*fields, "tag"])
            if name == "tag":
                tag = self.other_number(tag, "tag", there) % 65536
            else:
                fields[name] = self.changed(name, fields[name], there)
            self.lines[k] = line_of(slot, it.name, tag, fields) or self.lines[k]

    def changed(self, name: str, value: Any, there: List[Tuple[int, int, wire.Message]]) -> Any:
        if isinstance(value, int):
            return self.other_number(value, name, there)
        if isinstance(value, str):
            return self.bytes(value.encode("utf-8", "surrogateescape")).decode("utf-8", "replace").replace("\0", "")
        if isinstance(value, bytes):
            return self.bytes(value)
        names = list(value)
        if names and self.rng.random() < 0.7:
            names[self.rng.randrange(len(names))] = self.rng.choice(NAMES)
        else:
            names.insert(self.rng.randrange(len(names) + 1), self.rng.choice(NAMES))
        return names[: self.rng.choice([1, 2, 16, 17])]

    def other_number(self, old: int, name: str, there: List[Tuple[int, int, wire.Message]]) -> int:
        """Another number for a field, often one that this field has elsewhere."""
        seen = [it.tag if name == "tag" else it.fields[name] for _, _, it in there if name in (*it.fields, "tag")]
        if name in ("newfid", "oldtag"):
            seen += [it.fields.get("fid", it.tag) if name == "newfid" else it.tag for _, _, it in there]
        return self.rng.choice(seen) if seen and self.rng.random() < 0.6 else self.number(old)

    def ask(self) -> None:
        """A message more, of any kind, over what the others name, or an event between them."""
        there = self.messages()
        if not there:
            return
        k, slot, like = self.rng.choice(there)
        kind = self.rng.choice(ASKED + ["took", "hang", "Tread", "Tflush", "Tclunk", "Twrite", "Topen"])
        if kind in ("took", "hang"):
            line: Optional[bytes] = b"took %d" % slot if kind == "took" else b"hang %d end" % slot
        else:
            pool = {name: value for _, _, it in there for name, value in it.fields.items()}
            pool.update(like.fields)
            fields = {it: pool.get(it, OTHERWISE.get(it, like.tag)) for it in FIELDS[kind]}
            line = line_of(slot, kind, self.rng.choice([like.tag, 1, 2, 77]), fields)
        if line:
            to = self.rng.choice([k + 1, k + 1, k, self.place()])
            self.lines[to:to] = [line]


FIELDS = {
    "Tversion": ["msize", "version"], "Tauth": ["afid", "uname", "aname"], "Tattach": ["fid", "afid", "uname", "aname"],
    "Tflush": ["oldtag"], "Twalk": ["fid", "newfid", "names"], "Topen": ["fid", "mode"],
    "Tcreate": ["fid", "name", "perm", "mode"], "Tread": ["fid", "offset", "count"],
    "Twrite": ["fid", "offset", "data"], "Tclunk": ["fid"], "Tremove": ["fid"], "Tstat": ["fid"],
    "Twstat": ["fid", "stat"],
}  # fmt: skip


# what a field is where no other message has it
OTHERWISE: Dict[str, Any] = {
    "fid": 1, "newfid": 2, "afid": wire.NOFID, "count": 100, "offset": 0, "mode": 0, "perm": 0, "msize": 8192,
    "names": ["1", "body"], "data": b"a", "stat": b"", "version": "9P2000", "uname": "u", "aname": "", "name": "n",
}  # fmt: skip


def shifted(line: bytes, by: int) -> bytes:
    """A line of a connection, as one of another connection."""
    found = re.match(rb"(dial|msg|hang|took) (\d{1,2})\b", line)
    return line if not found else found[1] + b" %d" % ((int(found[2]) + by) % 64) + line[found.end() :]


def message_of(line: bytes) -> Optional[Tuple[int, wire.Message]]:
    """The connection and the message of a line."""
    found = re.fullmatch(rb"msg (\d{1,2}) ((?:[0-9a-f]{2})+)", line)
    if not found:
        return None
    try:
        return int(found[1]), wire.decode(bytes.fromhex(found[2].decode()))
    except (BadMessage, ValueError):
        return None


def line_of(slot: int, name: str, tag: int, fields: Dict[str, Any]) -> Optional[bytes]:
    try:
        return b"msg %d %s" % (slot, wire.encode(name, tag, **fields).hex().encode())
    except (BadMessage, KeyError):
        return None


# ---- what comes of a transcript


class Ran(NamedTuple):
    """A run of the program."""

    status: Any
    output: bytes
    seconds: float


def ran(word: str, data: bytes) -> Ran:
    since = time.monotonic()
    try:
        pipes: Dict[str, Any] = {"stdout": subprocess.PIPE, "stderr": subprocess.PIPE, "timeout": SECONDS}
        done = subprocess.run([PROGRAM, word], input=data, **pipes)
    except subprocess.TimeoutExpired:
        return Ran(f"no end within {SECONDS} seconds", b"", SECONDS)
    status = f"{done.returncode}, and it says {done.stderr[:80]!r}" if done.stderr else done.returncode
    return Ran(status, done.stdout, time.monotonic() - since)


def done_lines(data: bytes, run: Ran) -> Lines:
    """The heading of a transcript, where it has one, and the lines whose events were done."""
    lines = data.split(b"\n")
    if lines[-1] == b"":
        lines.pop()
    refused = REFUSED.fullmatch(run.output.rstrip(b"\n").rpartition(b"\n")[2])
    if refused:
        return lines[: int(refused[1]) - 1]
    return lines[: lines.index(b"report")] if b"report" in lines else lines


def has_heading(lines: Lines) -> bool:
    return lines[:1] == [HEADING]


def events_of(lines: Lines) -> Lines:
    """Lines without a heading."""
    return lines[1:] if has_heading(lines) else lines


def split(output: bytes) -> Tuple[Lines, Lines]:
    """The replies, and the lines behind them."""
    lines = output.split(b"\n")[:-1]
    count = next((k for k, it in enumerate(lines) if not it.startswith(b"reply ")), len(lines))
    return lines[:count], lines[count:]


class Fault(Exception):
    """A law doesn't hold."""


def needs(holds: bool, what: str) -> None:
    if not holds:
        raise Fault(what)


class Talks:
    """What is known of all connections while the steps of a journal are looked at one after another."""

    def __init__(self, most_waiting: int) -> None:
        self.waiting: Dict[Tuple[int, int], int] = {}
        self.most_waiting = most_waiting
        self.users: Dict[int, str] = {}
        self.msize: Dict[int, int] = {}
        self.ended: Set[int] = set()
        self.answers: "Counter[Tuple[str, str]]" = Counter()

    def step(self, line: bytes, replies: List[Tuple[int, wire.Message, int]]) -> None:
        """One event, and its replies, each with its connection and its size."""
        word = line.split(b" ")[0]
        slot = int(line.split(b" ")[1]) if word in (b"dial", b"msg", b"hang", b"took") else -1
        asked = message_of(line)[1] if word == b"msg" else None  # type: ignore[index]
        if asked and asked.name == "Tversion" or word == b"hang":
            self.drop(slot)
        if word == b"hang":
            self.ended.add(slot)
        if asked and asked.name == "Tflush":
            self.waiting.pop((slot, asked["oldtag"]), None)
        own = [(to, it.tag) == (slot, asked.tag) if asked else False for to, it, _ in replies]
        for is_own, (to, it, size) in zip(own, replies):
            needs(to not in self.ended, f"a reply behind the hang-up of {to}")
            needs(size <= max(256, self.msize.get(to, 65560)) or it.name == "Rversion", f"a reply of {size} bytes")
            if not is_own:
                self.late(to, it)
        if asked:
            self.order(own, [it for _, it, _ in replies])
            self.own(slot, asked, [it for is_own, (_, it, _) in zip(own, replies) if is_own])

    def order(self, own: List[bool], replies: List[wire.Message]) -> None:
        """Reads whose fid is freed are answered before a message, those of a deleted window and all others after it."""
        at = own.index(True) if True in own else 0
        late = [it["ename"] if it.name == "Rerror" else "" for it in replies]
        needs(all(it == "fid clunked" for it in late[:at]), "a reply before that to the message")
        behind = late[at + 1 :] if True in own else late
        needs("fid clunked" not in behind and behind == sorted(behind, reverse=True), "the order of the replies behind")

    def drop(self, slot: int) -> None:
        for key in [it for it in self.waiting if it[0] == slot]:
            del self.waiting[key]

    def late(self, to: int, it: wire.Message) -> None:
        """A reply to a read that waited."""
        count = self.waiting.pop((to, it.tag), None)
        needs(count is not None, f"a reply to connection {to} and tag {it.tag}, for which nothing waits")
        if it.name == "Rread":
            needs(0 < len(it["data"]) <= (count or 0), "a late Rread of another count")
        else:
            needs(it.name == "Rerror" and it["ename"] in ("fid clunked", "window deleted"), f"a late {it.name}")

    def own(self, slot: int, asked: wire.Message, own: List[wire.Message]) -> None:
        """The one reply to a message, or the read waits."""
        if not own:
            needs(asked.name == "Tread" and asked["count"] > 0, f"a {asked.name} without a reply")
            self.waiting[slot, asked.tag] = asked["count"]
            needs(sum(it[0] == slot for it in self.waiting) <= self.most_waiting, "too many reads wait")
            self.answers[asked.name, "waits"] += 1
            return
        needs(len(own) == 1, f"{len(own)} replies to a {asked.name}")
        it = own[0]
        needs(it.name in ("Rerror", wire.answer_to(asked.name)), f"{it.name} to a {asked.name}")
        if it.name == "Rread":
            needs(len(it["data"]) <= asked["count"], "an Rread of more bytes than were asked for")
        if it.name == "Rwrite":
            needs(it["count"] == len(asked["data"]), "an Rwrite of another count")
        if it.name == "Rattach":
            self.users[slot] = asked["uname"]
        if it.name == "Rversion":
            self.msize[slot] = it["msize"]
            needs(256 <= it["msize"] <= min(65560, asked["msize"]), "another msize")
        self.answers[asked.name, it["ename"] if it.name == "Rerror" else it.name] += 1


def steps(replies: Lines, traced: bytes) -> Iterator[Tuple[bytes, List[Tuple[int, wire.Message, int]]]]:
    """The lines of a trace, each with the replies of its step."""
    left, line, own = iter(replies), b"", []  # type: ignore[var-annotated]
    for one in events_of(split_trace(traced)):
        if one.startswith(b"reply "):
            _, slot, digits = next(left, b"reply 0 00").split(b" ")
            own.append((int(slot), wire.decode(bytes.fromhex(digits.decode())), len(digits) // 2))
        else:
            if line:
                yield line, own
            line, own = one, []
    if line:
        yield line, own
    needs(next(left, None) is None, "the trace has fewer replies")


def split_trace(traced: bytes) -> Lines:
    """The heading, events and replies of a trace, without what stands behind them."""
    lines = traced.split(b"\n")[:-1]
    ends = [k for k, it in enumerate(lines) if it == b"report" or REFUSED.fullmatch(it)]
    return lines[: ends[0]] if ends else lines


def look_at_steps(lines: Lines, run: Ran, traced: Ran) -> Talks:
    talks = Talks(WAITING_2 if has_heading(lines) else WAITING)
    needs(has_heading(split_trace(traced.output)) == has_heading(lines), "the heading of the trace")
    lines, (replies, _) = events_of(lines), split(run.output)
    spelled = list(steps(replies, traced.output))
    needs(len(spelled) == len(lines), f"the trace has {len(spelled)} events, and {len(lines)} were done")
    for line, (_, answers) in zip(lines, spelled):
        talks.step(line, answers)
    return talks


def look_at_report(lines: Lines, report: Lines, users: Dict[int, str]) -> None:
    """Whether a report agrees with the lines that were done, and with what is known of users."""
    is_second, lines = has_heading(lines), events_of(lines)
    text = [it.decode("utf-8") for it in report]
    dialled = sorted({int(it.split()[1]) for it in lines if it.startswith(b"dial ")})
    ends = {int(it.split()[1]): it.split(b" ", 2)[2].decode() for it in lines if it.startswith(b"hang ")}
    wanted = ["report", f"journal {len(lines)}", f"connections {len(dialled)}"]
    lives = [f"connection {it} {'ended ' + ends[it] if it in ends else 'live'}" for it in dialled]
    behind = [f" :{lines_of_text.escape(users.get(it, ''))}" if is_second else "" for it in dialled]
    wanted += [front + it for front, it in zip(lives, behind)]
    needs(text[: len(wanted)] == wanted, "the report's connections")
    rest = text[len(wanted) :]
    count = int(rest[0].split(" ")[1])
    heads, bodies = rest[1 : 2 * count + 1 : 2], rest[2 : 2 * count + 2 : 2]
    numbers = [int(it.split(" ")[1]) for it in heads]
    needs(numbers == sorted(set(numbers)) and all(it.startswith("body :") for it in bodies), "the report's windows")
    for head, body in zip(heads, bodies):
        size = len(body[6:].replace("\\\\", "-").replace("\\n", "-"))
        dot = [int(it) for it in head.split(" ")[3:5]]
        needs(dot[0] <= dot[1] <= size, "dot isn't in the body")
    left = look_at_items(lines, rest[2 * count + 1 :])
    look_at_requests(lines, left, is_second)


def is_write(line: bytes) -> bool:
    """Whether a line is a Twrite."""
    message = message_of(line)
    return message is not None and message[1].name == "Twrite"


def look_at_items(lines: Lines, rest: List[str]) -> List[str]:
    """Whether the items of a report agree with the lines that were done; answers the lines behind them."""
    count = int(rest[0].split(" ")[1])
    items = [it.split(" ") for it in rest[1 : count + 1]]
    last = (0, 0, False)
    for it in items:
        window, number = int(it[1]), int(it[2])
        needs(number == (last[1] + 1 if window == last[0] else 1) and window >= last[0], "the numbers of items")
        entries = [int(one) for one in it[4 : {"pending": 4, "taken": 6, "back": 7, "dropped": 5}[it[3]]]]
        entries = entries[1:] if it[3] in ("taken", "back") else entries
        needs(all(1 <= one <= len(lines) for one in entries), "an item's entry")
        needs(it[3] == "pending" or not (window == last[0] and last[2]), "an item that pends before another")
        if it[3] == "back":
            needs(is_write(lines[entries[1] - 1]) and entries[0] < entries[1], "what is written back")
        last = (window, number, it[3] == "pending")
    return rest[count + 1 :]


def look_at_requests(lines: Lines, asked: List[str], is_second: bool) -> None:
    """Whether the requests of a report agree with the lines that were done. Format 2 alone tells their states."""
    count, each = int(asked[0].split(" ")[1]), 3 if is_second else 2
    needs(len(asked) == 1 + each * count, "the report's requests")
    needs([it.split(" ")[1] for it in asked[1::each]] == [str(k) for k in range(1, count + 1)], "the requests' numbers")
    states = [it.split(" ") for it in asked[3::3]] if is_second else []
    for it in states:
        needs(it[0] == "state" and len(it) == {"waiting": 2, "taken": 4, "answered": 6, "lost": 5}[it[1]], "a state")
        entries = [int(one) for one in it[3:5]]
        needs(entries == sorted(entries) and all(1 <= one <= len(lines) for one in entries), "a state's entries")
        if it[1] == "answered":
            needs(it[5] in ("ok", "fail") and is_write(lines[entries[1] - 1]), "an answer to a request")
    is_waiting = [it[1] == "waiting" for it in states]
    needs(is_waiting == sorted(is_waiting), "a request that waits before another")
    given = [int(it[3]) for it in states if len(it) > 3]
    needs(given == sorted(given), "the order in which requests were taken")


def look_at_replays(lines: Lines, run: Ran, traced: Ran, users: Dict[int, str]) -> None:
    """Whether the lines that were done, and the report, do the same again, and the trace is packed into them."""
    journal = b"".join(it + b"\n" for it in lines)
    first = run if run.status == 0 else ran("replay", journal)
    needs(first.status == 0, f"the lines that were done end with {first.status}")
    replies, report = split(first.output)
    needs(replies == split(run.output)[0], "the lines that were done reply otherwise")
    again = ran("replay", journal + b"".join(it + b"\n" for it in report))
    needs(again[:2] == first[:2], "the journal and its report give another output")
    packed = ran("pack", b"".join(it + b"\n" for it in split_trace(traced.output)))
    needs((packed.status, packed.output) == (0, journal), "the trace isn't packed into the lines that were done")
    look_at_report(lines, report, users)


# ---- lines of do

DO_LINES = [
    b"open 1 new/body rw", b"open 1000 1/event r", b"open 2 1/ctl w", b"read 1 0 8000",
    b"read 1 18446744073709551615 0",
    b"write 1 0 :one\\ntwo\\\\n", b"write 1 7 :", b"close 1", b"close 1000", "open 3 \u00e9/\u20ac rw".encode(),
]  # fmt: skip
DO_NUMBER, DO_FID = rb"0|[1-9][0-9]{0,19}", rb"[1-9][0-9]{0,2}|1000"
DO_FORMS = [
    rb"open (?P<fid>\S+) (?P<name>\S+) (?:r|w|rw)", rb"read (?P<fid>\S+) (?P<offset>\S+) (?P<count>\S+)",
    rb"write (?P<fid>\S+) (?P<offset>\S+) :(?P<text>(?s:.*))", rb"close (?P<fid>\S+)",
]  # fmt: skip


def is_do_line(line: bytes) -> bool:
    """Whether a line is one of docs/formats/do.md."""
    found = next(filter(None, (re.fullmatch(it, line) for it in DO_FORMS)), None)
    if not found or not is_utf_8(line):
        return False
    part = found.groupdict()
    if not re.fullmatch(DO_FID, part["fid"]):
        return False
    if "offset" in part and not (re.fullmatch(DO_NUMBER, part["offset"]) and int(part["offset"]) < 1 << 64):
        return False
    if "count" in part and not (re.fullmatch(rb"0|[1-9][0-9]{0,3}", part["count"]) and int(part["count"]) <= 8000):
        return False
    if "text" in part:
        plain = re.sub(rb"\\[n\\]", b"-", part["text"])
        return b"\\" not in plain and len(plain) <= 8000
    names = part.get("name", b"n").split(b"/")
    return len(names) <= 16 and all(0 < len(it) < 65536 and min(it) > 0x20 for it in names)


def is_utf_8(data: bytes) -> bool:
    try:
        data.decode("utf-8")
        return True
    except UnicodeDecodeError:
        return False


def fault_of_do(seed: str) -> Optional[str]:
    """What is wrong with what is said of some mutated lines, where nobody listens."""
    rng = random.Random(f"do {seed}")
    lines = [rng.choice(DO_LINES) for _ in range(rng.choice([1, 2, 5]))]
    mutator = Mutator(rng, lines, [])
    for _ in range(rng.choice([1, 1, 2, 3])):
        rng.choice([mutator.turn, mutator.bound, mutator.word])()
    text = b"".join(it + b"\n" for it in mutator.lines)
    bad = next((k for k, it in enumerate(text.split(b"\n")[:-1], 1) if not is_do_line(it)), 0)
    wanted = (2, b"refused %d line\n" % bad) if bad else (5, b"")
    done = subprocess.run([PROGRAM, "do", "/nowhere/s.0", "acme"], input=text, stdout=subprocess.PIPE, timeout=SECONDS)
    got = (done.returncode, done.stdout)
    return None if got == wanted else f"lines of do {text!r} come to {got}, and not to {wanted}"


# ---- the reference model


class Model:
    """The reference model, where there is one."""

    def __init__(self, edit: str):
        self.is_there = os.path.isfile(f"{REFERENCE}/acmefs_model.py")
        self.options = {"undo": "linked", "edit": edit, "watch": "on"}
        if self.is_there:
            sys.path.insert(0, REFERENCE)
            import acmefs_model  # type: ignore[import-not-found]
            import gen  # type: ignore[import-not-found]

            self.model, self.gen = acmefs_model, gen

    def random(self, rng: random.Random) -> bytes:
        """A random transcript of either format."""
        how = {"format": rng.choice([1, 2]), **self.options}
        data, _ = self.gen.generate(self.gen.feature_set(rng.choice(FEATURES)), rng.randrange(1 << 30), **how)
        return bytes(data)

    def pack(self, text: bytes) -> Tuple[int, bytes]:
        """Status and output of a pack by the model."""
        status, output, _ = self.model.pack(text)
        return status, output

    def replay(self, data: bytes) -> Optional[Tuple[int, bytes]]:
        """Status and output by the model; nothing where it takes too long."""

        def late(*_: Any) -> None:
            raise TimeoutError

        signal.signal(signal.SIGALRM, late)
        signal.alarm(SECONDS)
        try:
            status, output, _ = self.model.replay(data, **self.options)
            return status, output
        except (TimeoutError, RecursionError, MemoryError):
            return None
        finally:
            signal.alarm(0)


# ---- one transcript


class Fuzzer:
    """What was found so far."""

    def __init__(self, edit: str, save: str):
        self.model, self.save, self.bases = Model(edit), save, bases()
        self.counts: "Counter[str]" = Counter()
        self.answers: "Counter[Tuple[str, str]]" = Counter()
        self.refusals: "Counter[str]" = Counter()
        self.slowest = (0.0, "")
        # the answers to messages that are known, where new ones are kept
        self.known: Set[Tuple[str, str]] = set()

    def made(self, seed: int) -> bytes:
        """The transcript of a seed."""
        rng = random.Random(seed)
        base = self.model.random(rng) if self.model.is_there and rng.random() < 0.5 else rng.choice(self.bases)
        other = rng.choice(self.bases)
        if len(other) > LONGEST // 4:
            other = other[: LONGEST // 4]
        lines = Mutator(rng, base.split(b"\n")[:-1], other.split(b"\n")[:-1]).mutate()
        lines[:0] = [HEADING] if not has_heading(lines) and rng.random() < 0.2 else []
        return self.repaired(rng, b"".join(it + b"\n" for it in lines))

    def repaired(self, rng: random.Random, data: bytes) -> bytes:
        """A transcript without lines that are refused, or with the last of them."""
        for _ in range(REPAIRS if rng.random() < 0.9 else rng.randrange(3)):
            run = ran("replay", data)
            last = REFUSED.fullmatch(run.output.rstrip(b"\n").rpartition(b"\n")[2]) if run.status == 2 else None
            if not last:
                break
            self.refusals[last[2].decode()] += 1
            lines = data.split(b"\n")
            del lines[int(last[1]) - 1]
            data = b"\n".join(lines)
        return data

    def fault_of(self, data: bytes, counts: bool = False) -> Optional[str]:
        """What is wrong with what comes of a transcript."""
        run = ran("replay", data)
        if run.status not in (0, 2):
            return f"status {run.status}"
        traced = ran("trace", data)
        if traced.status != run.status:
            return f"status {traced.status} of the trace, {run.status} of the replay"
        lines = done_lines(data, run)
        try:
            talks = look_at_steps(lines, run, traced)
            look_at_replays(lines, run, traced, talks.users)
        except (Fault, BadMessage, ValueError, IndexError) as why:
            return f"{type(why).__name__}: {why}"
        if counts:
            self.count(data, lines, run, talks)
        wanted = self.model.replay(data) if self.model.is_there else None
        if wanted is None:
            self.counts["not compared"] += counts
            return None
        return None if wanted == run[:2] else "the model gives another output"

    def fault_of_words(self, name: str, data: bytes) -> Optional[str]:
        """What is wrong with what a text in words is packed into, one that is mutated from a transcript's trace."""
        rng = random.Random(name)
        lines = split_trace(ran("trace", data).output)
        if not self.model.is_there or not lines:
            return None
        mutator = Mutator(rng, lines, [])
        for _ in range(rng.choice([1, 1, 2, 4])):
            rng.choice([mutator.turn, mutator.bound, mutator.word, mutator.swap])()
        self.counts["words"] += 1
        text = b"".join(it + b"\n" for it in mutator.lines)
        return None if ran("pack", text)[:2] == self.model.pack(text) else "a text in words is packed otherwise"

    def count(self, data: bytes, lines: Lines, run: Ran, talks: Talks) -> None:
        self.counts["events"] += len(events_of(lines))
        self.counts["replies"] += len(split(run.output)[0])
        self.counts["refused"] += run.status == 2
        self.counts["slow"] += run.seconds > SLOW
        self.answers += talks.answers
        self.slowest = max(self.slowest, (run.seconds, self.name))

    def judge(self, name: str, data: bytes) -> None:
        """Looks at a transcript, and keeps what shows a fault."""
        self.name = name
        fault = self.fault_of(data, counts=True) or self.fault_of_words(name, data) or fault_of_do(name)
        self.counts["failed" if fault else "passed"] += 1
        if not fault:
            return
        small = self.smaller(data, fault)
        store(f"{self.save}/fuzz-{name}.in", small)
        store(f"{self.save}/fuzz-{name}.whole.in", data)
        print(f"FAILED {name}: {fault}; kept as {self.save}/fuzz-{name}.in, of {small.count(10)} lines", flush=True)

    def smaller(self, data: bytes, fault: str) -> bytes:
        """A transcript of fewer lines with the same fault, found within a time."""
        return fewer_lines(data, lambda it: self.fault_of(it) == fault, SECONDS)


    def keep_new(self, data: bytes) -> None:
        """Keeps a small transcript for each answer to a message that neither the cases nor the corpus had before."""
        if not self.known:
            for it in self.bases:
                self.known |= set(answers_in(it))
        for pair in [it for it in answers_in(data) if it not in self.known]:
            small = fewer_lines(data, lambda it: pair in answers_in(it), SECONDS)  # noqa: B023
            name = re.sub(r"\W+", "-", "-".join(pair).lower())
            store(f"{CORPUS}/{name}.in", small)
            self.known |= set(answers_in(small))
            print(f"kept {name}, of {small.count(10)} lines", flush=True)


def answers_in(data: bytes) -> "Counter[Tuple[str, str]]":
    """The messages of a transcript, and what they are answered."""
    run = ran("replay", data)
    try:
        return look_at_steps(done_lines(data, run), run, ran("trace", data)).answers
    except (Fault, BadMessage, ValueError, IndexError):
        return Counter()


def fewer_lines(data: bytes, holds: Callable[[bytes], bool], seconds: float) -> bytes:
    """A transcript from which lines are taken, ever smaller runs of them, as long as something holds of it."""
    last, lines = time.monotonic() + seconds, data.split(b"\n")[:-1]
    run = max(1, len(lines) // 2)
    while time.monotonic() < last:
        at, is_less = 0, False
        while at < len(lines) and time.monotonic() < last:
            left = lines[:at] + lines[at + run :]
            if holds(b"".join(it + b"\n" for it in left)):
                lines, is_less = left, True
            else:
                at += run
        if run == 1 and not is_less:
            break
        run = max(1, run // 2)
    return b"".join(it + b"\n" for it in lines)


def told(it: Fuzzer, first: int, last: int) -> str:
    """What a run has found, in words."""
    found = it.counts
    refusals = {text for _, text in it.answers if not re.fullmatch(r"R[a-z]+|waits", text)}
    compared = f"{found['not compared']} not compared with the model" if it.model.is_there else "no model"
    return (
        f"seeds {first} to {last}, {found['passed'] + found['failed']:,} transcripts with {found['events']:,} events "
        f"that were done and {found['replies']:,} replies, and {found['words']:,} texts in words: {found['passed']:,} "
        f"right, {found['failed']} wrong, {compared}; {found['refused']:,} ended with a refused line, and "
        f"{sum(it.refusals.values()):,} refused lines of {len(it.refusals)} kinds were taken out; {len(refusals)} "
        f"texts of Rerror in {len(it.answers)} pairs of a message and its answer; the slowest replay took "
        f"{it.slowest[0]:.1f} seconds, {found['slow']} more than {SLOW}"
    )


def main(given: List[str]) -> int:
    parser = argparse.ArgumentParser()
    parser.add_argument("--seeds", default="0:200")
    parser.add_argument("--seconds", type=float)
    parser.add_argument("--from", type=int, default=0, dest="first")
    parser.add_argument("--edit", choices=["basic", "full"], default="full")
    parser.add_argument("--save", default=f"{TOP}/differences")
    parser.add_argument("--page", action="store_true")
    parser.add_argument("--keep", action="store_true", help="puts what is answered as nothing was into the corpus")
    parser.add_argument("--answers", action="store_true", help="prints what messages were answered, and how often")
    words = parser.parse_args(given)
    first, last = (words.first, 1 << 62) if words.seconds else map(int, words.seeds.split(":"))
    it, until, seed = Fuzzer(words.edit, words.save), time.monotonic() + (words.seconds or 1 << 40), first
    for name in sorted(os.listdir(CORPUS)) if os.path.isdir(CORPUS) else ():
        if name.endswith(".in"):
            it.judge(name[: -len(".in")], content(f"{CORPUS}/{name}"))
    while seed < last and time.monotonic() < until:
        made = it.made(seed)
        it.judge(str(seed), made)
        if words.keep:
            it.keep_new(made)
        seed += 1
    if words.answers:
        print(*(f"{count:7} {message}: {answer}" for (message, answer), count in sorted(it.answers.items())), sep="\n")
    print(told(it, first, seed - 1))
    if words.page:
        keep_result(PAGE, "mutated transcripts", told(it, first, seed - 1))
    print(f"{it.counts['passed']} passed, {it.counts['failed']} failed")
    return 1 if it.counts["failed"] else 0
