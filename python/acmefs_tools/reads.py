"""Reads that are added to a journal, to learn what files hold after each of its events.

They come over a connection that the journal doesn't use, and read `index`, bodies and tags alone, which changes nothing
that others see. Whether that is so is looked at each time: the events of the journal must be answered as they are
without the reads, and the report must be the same but for that connection and the numbers of entries.
"""

import re
from typing import Dict, Iterator, List, NamedTuple, Optional, Sequence

from acme9 import wire

from .lines import CONNECTIONS, HEADING, INPUT_LIMIT, Fault, Journal
from .program import traced

MSIZE = 65560
MOST_READ = MSIZE - wire.READ_HEADER
# how many fids are open before all are given back, and after how many files replies are taken
FIDS, FILES = 1000, 50
# the most that the lines of a read come to, and those by which all fids are given back
READ_ROOM, SPARE_ROOM = 300, 100000
# the life of an item, or of a request, with the numbers of entries in it
WHEN = re.compile(r"(item \d+ \d+ |state )(taken|back|dropped|answered|lost)((?: \d+)*)( .*)?", re.S)


class Read(NamedTuple):
    """What a file holds after an entry: its first bytes. None where it isn't there."""

    entry: int
    name: str
    data: Optional[bytes]


class Asked(NamedTuple):
    """A message of the connection that is added: the read of a file after an entry, or another, which has no name."""

    entry: int
    name: str


def unused_connection(entries: Sequence[str]) -> int:
    """A connection that no event of a journal has."""
    used = {line for line in entries if line.startswith("dial ")}
    for number in reversed(range(CONNECTIONS)):
        if f"dial {number}" not in used:
            return number
    raise Fault(f"all {CONNECTIONS} connections are used in the journal, so none is left to read texts over")


class Reader:
    """Writes the lines of a connection that reads files, and notes what they ask for."""

    def __init__(self, connection: int):
        self._connection, self._fids = connection, {}  # type: int, Dict[str, int]
        self.lines = [f"dial {connection}"]
        self.asked: List[Asked] = []
        self._say("Tversion", wire.NOTAG, msize=MSIZE, version="9P2000")
        self._say("Tattach", 1, fid=0, afid=wire.NOFID, uname="acmefs-view", aname="acme")
        self._take()

    def read(self, entry: int, names: Sequence[str], count: int) -> None:
        """Reads the first bytes of files."""
        for first in range(0, len(names), FILES):
            for name in names[first : first + FILES]:
                fid = self._fid(name, wire.OREAD)
                self._say("Tread", 1, Asked(entry, name), fid=fid, offset=0, count=count)
            self._take()

    def place(self, window: int, address: str) -> None:
        """Asks where an address is in a body, in which `.` is dot. This moves the window's address."""
        addr = self._fid(f"{window}/addr", wire.ORDWR)
        ctl = self._fid(f"{window}/ctl", wire.OWRITE)
        self._say("Twrite", 1, fid=ctl, offset=0, data=b"addr=dot\n")
        self._say("Twrite", 1, Asked(0, "address"), fid=addr, offset=0, data=address.encode("utf-8"))
        self._say("Tread", 1, Asked(0, "place"), fid=addr, offset=0, count=MOST_READ)
        self._take()

    def taken(self) -> List[str]:
        """The lines that were written since this was asked last."""
        lines, self.lines = self.lines, []
        return lines

    def _say(self, verb: str, tag: int, asked: Asked = Asked(0, ""), **fields: object) -> None:
        self.lines.append(f"msg {self._connection} {wire.encode(verb, tag, **fields).hex()}")
        self.asked.append(asked)

    def _take(self) -> None:
        self.lines.append(f"took {self._connection}")

    def _fid(self, name: str, mode: int) -> int:
        """A fid that has a file open; one of a name that was opened before is the same."""
        if name not in self._fids:
            if len(self._fids) == FIDS:
                self._give_back()
            self._fids[name] = fid = len(self._fids) + 1
            self._say("Twalk", 1, fid=0, newfid=fid, names=name.split("/"))
            self._say("Topen", 1, fid=fid, mode=mode)
        return self._fids[name]

    def _give_back(self) -> None:
        """Gives all fids back, and takes the replies meanwhile."""
        for count, fid in enumerate(self._fids.values()):
            if count % FILES == 0:
                self._take()
            self._say("Tclunk", 1, fid=fid)
        self._take()
        self._fids.clear()


class Plain:
    """What a journal alone gives: the reply lines of each entry, and the report."""

    def __init__(self) -> None:
        self.replies: List[int] = [0]
        self.report: List[str] = []

    def note(self, line: str) -> None:
        """Takes a line of a trace."""
        if self.report or line == "report":
            self.report.append(line)
        elif line.startswith("reply "):
            self.replies[-1] = hash((self.replies[-1], line))
        elif line != HEADING:
            self.replies.append(0)


class Woven:
    """A journal with reads behind some of its entries, as many of the first as an input has room for."""

    def __init__(self, journal: Journal, wanted: Dict[int, List[str]], count: int, connection: int):
        self.connection, self.lines, self.left = connection, [*journal.heading], dict(wanted)
        # of each event its entry in the journal, 0 of one that is added
        self.origins: List[int] = []
        self._room = INPUT_LIMIT - sum(len(line.encode("utf-8")) + 1 for line in journal.lines()) - SPARE_ROOM
        reader = Reader(connection)
        self._add(reader.taken())
        for entry, line in enumerate(journal.entries, 1):
            self.lines.append(line)
            self.origins.append(entry)
            if self._has_room(entry):
                reader.read(entry, self.left.pop(entry), count)
                self._add(reader.taken())
        self.asked = reader.asked
        if len(self.left) == len(wanted):
            raise Fault("the journal is so long that there is no room for reads beside it")

    def _has_room(self, entry: int) -> bool:
        """Whether the reads behind an entry are made now. Behind the first that aren't none is."""
        if entry not in self.left or self._room < len(self.left[entry]) * READ_ROOM:
            self._room = 0 if entry in self.left else self._room
            return False
        return True

    def _add(self, lines: List[str]) -> None:
        self.lines += lines
        self.origins += [0] * len(lines)
        self._room -= sum(len(it) + 1 for it in lines)


def gathered(journal: Journal, wanted: Dict[int, List[str]], count: int, plain: Plain) -> Iterator[Read]:
    """What files hold after entries, in the order of the entries: of each its first bytes, `count` at most."""
    connection, left = unused_connection(journal.entries), wanted
    while left:
        woven = Woven(journal, left, count, connection)
        yield from answers(woven, plain)
        left = woven.left


def answers(woven: Woven, plain: Plain) -> Iterator[Read]:
    """What the reads of a journal are answered; a Fault where it isn't done as it is without them."""
    own, place, asked = f"reply {woven.connection} ", -1, iter(woven.asked)
    seen, report = Plain(), []  # type: Plain, List[str]
    for line in traced(woven.lines):
        if line.startswith(own):
            what = next(asked)
            if what.name:
                yield Read(what.entry, what.name, data_of(line))
        elif report or line == "report":
            report.append(line)
        elif line.startswith("reply "):
            seen.note(line)
        elif line != HEADING:
            place += 1
            if woven.origins[place]:
                seen.note(line)
    for entry, pair in enumerate(zip(seen.replies, plain.replies)):
        if pair[0] != pair[1]:
            raise Fault(f"entry {entry} is answered otherwise with the reads that were added")
    if [*without(report, woven)] != plain.report:
        raise Fault("the report is another one with the reads that were added")


def data_of(reply: str) -> Optional[bytes]:
    """The data of an Rread."""
    _, found, data = reply.partition(" data=")
    return bytes.fromhex(data) if found else None


def without(report: Sequence[str], woven: Woven) -> Iterator[str]:
    """A report without the connection that was added, and with the entries numbered as they were."""
    for line in report:
        word, _, rest = line.partition(" ")
        if word == "journal":
            yield f"journal {sum(1 for it in woven.origins if it)}"
        elif word == "connections":
            yield f"connections {int(rest) - 1}"
        elif word in ("item", "state"):
            yield WHEN.sub(lambda it: it[1] + it[2] + as_before(it[2], it[3], woven.origins) + (it[4] or ""), line)
        elif word != "connection" or rest.partition(" :")[0] != f"{woven.connection} live":
            yield line


def as_before(life: str, when: str, origins: Sequence[int]) -> str:
    """The numbers of a life, in which the first one is an opening but of `dropped`."""
    numbers = [int(it) for it in when.split()]
    first = 0 if life == "dropped" else 1
    return "".join(f" {it}" for it in numbers[:first] + [origins[it - 1] for it in numbers[first:]])
