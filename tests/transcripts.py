"""Transcripts that scripts make, and what must come of them, over tests/harness.py.

    it = Transcript()
    it.session()
    it.opens(1, "new/body", READ_AND_WRITE)
    it.writes(1, b"abc")
    it.reads(1, 100, b"abc")
    report = it.replayed()          fails where a reply is another one, and answers the lines of the report
"""

from typing import Any, Dict, List, Optional, Tuple, Union

from harness import PROGRAM, call, same

from acme9 import wire
from acmefs_tools.lines import HEADING

READ, WRITE, READ_AND_WRITE, TRUNCATE = wire.OREAD, wire.OWRITE, wire.ORDWR, wire.OTRUNC
# the largest message, and the most that one writes
MESSAGE_LIMIT = 65560
WRITTEN = MESSAGE_LIMIT - wire.WRITE_HEADER
# after how many replies to a connection they are taken, well below the number that may be unsent
TAKEN_AFTER = 128
# what a message is answered with: some fields of its R message, or the text that refuses it; nothing where it waits
Answer = Union[Dict[str, Any], str, None]


def quoted(text: str) -> str:
    """A text in one line."""
    return text.replace("\\", "\\\\").replace("\n", "\\n")


def runs_of(data: bytes, most: int) -> List[bytes]:
    """Bytes in pieces of at most so many."""
    return [data[at : at + most] for at in range(0, len(data), most)]


class Transcript:
    """Lines, and the replies that they must make, in order. With a heading they are of format 2."""

    def __init__(self, takes: bool = True, heading: bool = False) -> None:
        self.lines: List[str] = [HEADING] if heading else []
        self.wanted: List[Tuple[int, str, Dict[str, Any]]] = []
        self.takes, self.unsent = takes, {it: 0 for it in range(64)}

    def add(self, *lines: str) -> None:
        self.lines += lines

    def comes(self, slot: int, name: str, /, **fields: Any) -> None:
        """A reply comes next, on a connection, with these among its fields."""
        self.wanted.append((slot, name, fields))
        self.unsent[slot] += 1

    def asks(self, name: str, answer: Answer, /, slot: int = 0, tag: int = 1, **fields: Any) -> None:
        """A message, and its answer."""
        self.add(f"msg {slot} {wire.encode(name, tag, **fields).hex()}")
        if isinstance(answer, str):
            self.comes(slot, "Rerror", ename=answer)
        elif answer is not None:
            self.comes(slot, wire.answer_to(name), **answer)
        if self.takes and self.unsent[slot] >= TAKEN_AFTER:
            self.takes_replies(slot)

    def takes_replies(self, slot: int) -> None:
        """The replies to a connection that are unsent are taken."""
        self.add(f"took {slot}")
        self.unsent[slot] = 0

    def entry(self) -> int:
        """The number of the last event."""
        return len(self.lines) - (self.lines[:1] == [HEADING])

    def session(self, slot: int = 0, tree: str = "acme", msize: int = MESSAGE_LIMIT) -> None:
        """A connection, whose fid 0 is the root of a tree."""
        self.add(f"dial {slot}")
        self.asks("Tversion", {"msize": msize}, slot, wire.NOTAG, msize=msize, version="9P2000")
        self.attaches(0, tree, slot)

    def attaches(self, fid: int, tree: str = "acme", slot: int = 0, answer: Answer = {}) -> None:  # noqa: B006
        self.asks("Tattach", answer, slot, fid=fid, afid=wire.NOFID, uname="u", aname=tree)

    def walks(self, fid: int, path: str, slot: int = 0, answer: Answer = {}, root: int = 0) -> None:  # noqa: B006
        self.asks("Twalk", answer, slot, fid=root, newfid=fid, names=path.split("/") if path else [])

    def opens(self, fid: int, path: str, mode: int = READ, slot: int = 0, root: int = 0) -> None:
        """A walk to a file, and its opening."""
        self.walks(fid, path, slot, root=root)
        self.asks("Topen", {}, slot, fid=fid, mode=mode)

    def writes(self, fid: int, data: bytes, refusal: Optional[str] = None, slot: int = 0) -> None:
        """A write in as many messages as it takes; the last one may be refused."""
        for piece in runs_of(data, WRITTEN)[:-1]:
            self.asks("Twrite", {"count": len(piece)}, slot, fid=fid, offset=0, data=piece)
        last = (runs_of(data, WRITTEN) or [b""])[-1]
        self.asks("Twrite", refusal or {"count": len(last)}, slot, fid=fid, offset=0, data=last)

    def reads(self, fid: int, count: int, data: Optional[bytes], slot: int = 0, tag: int = 1, offset: int = 0) -> None:
        """A read and what it gives; nothing where it waits."""
        answer = None if data is None else {"data": data}
        self.asks("Tread", answer, slot, tag, fid=fid, offset=offset, count=count)

    def clunks(self, fid: int, answer: Answer = {}, slot: int = 0) -> None:  # noqa: B006
        self.asks("Tclunk", answer, slot, fid=fid)

    def text(self) -> bytes:
        return "".join(f"{it}\n" for it in self.lines).encode("utf-8")

    def replayed(self, last: Optional[str] = None) -> List[str]:
        """Replays the lines, and answers those of the report. Where the line behind the last reply is given, the replay
        must be refused with it."""
        ran = call([PROGRAM, "replay"], self.text())
        same((ran.returncode, ran.stderr), (2 if last else 0, b""), ran.stdout[-200:].decode("utf-8", "replace"))
        lines = ran.stdout.decode("utf-8").split("\n")
        front = sum(it.startswith("reply ") for it in lines)
        self.compare(lines[:front])
        if last:
            same(lines[front:], [last, ""], "the end of what is written")
        return lines[front:-1]

    def compare(self, replies: List[str]) -> None:
        """Fails where the replies aren't those that are wanted."""
        for number, (line, (slot, name, fields)) in enumerate(zip(replies, self.wanted), 1):
            word, to, digits = line.split(" ")
            got = wire.decode(bytes.fromhex(digits))
            told = got.fields if fields or got.name != name else {}
            found = {it: told.get(it) for it in fields} if got.name == name else told
            same((word, to, got.name, found), ("reply", str(slot), name, fields), f"reply {number}")
        same(len(replies), len(self.wanted), "how many replies there are")
