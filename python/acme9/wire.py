"""The messages of 9P2000 as bytes: docs/formats/messages.md has their fields.

    encode("Twalk", 1, fid=0, newfid=1, names=["new", "body"])      the bytes of a message, here with tag 1
    decode(data)                                                    the message that they are
    read_message(stream.read)                                       the bytes of the next message of a stream
"""

from dataclasses import dataclass
from typing import Any, Callable, Dict, List, NamedTuple, Tuple

from .errors import BadMessage

NOTAG = 0xFFFF
NOFID = 0xFFFFFFFF
HEADER = 7
# the bytes of an Rread and of a Twrite without their data
READ_HEADER, WRITE_HEADER = 11, 23
# what a file is opened for, and the bit that truncates it
OREAD, OWRITE, ORDWR, OTRUNC = 0, 1, 2, 0x10
QTDIR, DMDIR = 0x80, 0x80000000

# the type of each message, and its fields: each a name and how it is written
_TABLE = """
100 Tversion msize:4 version:s
101 Rversion msize:4 version:s
102 Tauth    afid:4 uname:s aname:s
103 Rauth    aqid:q
104 Tattach  fid:4 afid:4 uname:s aname:s
105 Rattach  qid:q
107 Rerror   ename:s
108 Tflush   oldtag:2
109 Rflush
110 Twalk    fid:4 newfid:4 names:s*
111 Rwalk    qids:q*
112 Topen    fid:4 mode:1
113 Ropen    qid:q iounit:4
114 Tcreate  fid:4 name:s perm:4 mode:1
115 Rcreate  qid:q iounit:4
116 Tread    fid:4 offset:8 count:4
117 Rread    data:d4
118 Twrite   fid:4 offset:8 data:d4
119 Rwrite   count:4
120 Tclunk   fid:4
121 Rclunk
122 Tremove  fid:4
123 Rremove
124 Tstat    fid:4
125 Rstat    stat:d2
126 Twstat   fid:4 stat:d2
127 Rwstat
"""


class Qid(NamedTuple):
    """What names a file on its server."""

    type: int
    version: int
    path: int


@dataclass(frozen=True)
class Message:
    """A message: its name, as Twalk, its tag, and its fields by their names: message["data"]."""

    name: str
    tag: int
    fields: Dict[str, Any]

    def __getitem__(self, field: str) -> Any:
        return self.fields[field]


@dataclass(frozen=True)
class Stat:
    """What a server says of a file."""

    type: int
    dev: int
    qid: Qid
    mode: int
    atime: int
    mtime: int
    length: int
    name: str
    uid: str
    gid: str
    muid: str

    @property
    def is_directory(self) -> bool:
        return bool(self.mode & DMDIR)


class _Bytes:
    """Bytes that are read from front to end."""

    def __init__(self, data: bytes):
        self.data, self.at = data, 0

    def take(self, count: int) -> bytes:
        if self.at + count > len(self.data):
            raise BadMessage("a field passes the end of its message")
        self.at += count
        return self.data[self.at - count : self.at]

    def number(self, size: int) -> int:
        return int.from_bytes(self.take(size), "little")

    def string(self) -> str:
        return self.take(self.number(2)).decode("utf-8", "replace")

    def qid(self) -> Qid:
        return Qid(self.number(1), self.number(4), self.number(8))

    def field(self, form: str) -> Any:
        if form.endswith("*"):
            return [self.field(form[:-1]) for _ in range(self.number(2))]
        if form.startswith("d"):
            return self.take(self.number(int(form[1:])))
        return self.string() if form == "s" else self.qid() if form == "q" else self.number(int(form))


def _number(size: int, value: int) -> bytes:
    try:
        return value.to_bytes(size, "little")
    except OverflowError:
        raise BadMessage(f"{value} has no place in {size} bytes") from None


def _written(form: str, value: Any) -> bytes:
    if form.endswith("*"):
        return _number(2, len(value)) + b"".join(_written(form[:-1], it) for it in value)
    if form == "q":
        return b"".join(_number(size, it) for size, it in zip((1, 4, 8), value))
    if form == "s":
        return _written("d2", value.encode("utf-8"))
    if form.startswith("d"):
        return _number(int(form[1:]), len(value)) + bytes(value)
    return _number(int(form), value)


def _forms() -> Dict[str, Tuple[int, List[Tuple[str, str]]]]:
    rows = [line.split() for line in _TABLE.strip().splitlines()]
    return {name: (int(kind), [(it[0], it[2]) for it in (one.partition(":") for one in fields)]) for kind, name, *fields in rows}


_FORMS = _forms()
_NAMES = {kind: name for name, (kind, _) in _FORMS.items()}


def framed(kind: int, tag: int, body: bytes) -> bytes:
    """A message of a type, with a tag and the bytes of its fields, whatever these are."""
    return _number(4, HEADER + len(body)) + bytes([kind]) + _number(2, tag) + body


def encode(name: str, tag: int, /, **fields: Any) -> bytes:
    """The bytes of a message with a tag and all of its fields."""
    kind, forms = _FORMS[name]
    if fields.keys() != {field for field, _ in forms}:
        raise BadMessage(f"{name} has the fields {[field for field, _ in forms]}, not {[*fields]}")
    return framed(kind, tag, b"".join(_written(form, fields[field]) for field, form in forms))


def decode(data: bytes) -> Message:
    """The message that bytes are, from the first to the last."""
    parts = _Bytes(data)
    if parts.number(4) != len(data):
        raise BadMessage("the size of a message isn't the number of its bytes")
    kind, tag = parts.number(1), parts.number(2)
    if kind not in _NAMES:
        raise BadMessage(f"no message has the type {kind}")
    name = _NAMES[kind]
    fields = {field: parts.field(form) for field, form in _FORMS[name][1]}
    if parts.at < len(data):
        raise BadMessage(f"bytes are left over behind a {name}")
    return Message(name, tag, fields)


def answer_to(name: str) -> str:
    """The name of what answers a message, where it isn't an Rerror."""
    return "R" + name[1:]


def read_message(read: Callable[[int], bytes], most: int) -> bytes:
    """The bytes of the next message of a stream, whose `read` gives as many bytes as it is asked for but at the end.
    Nothing at the end; a BadMessage where it ends inside a message, or the message has more bytes than `most`."""
    front = read(4)
    if not front:
        return b""
    size = int.from_bytes(front, "little")
    if len(front) == 4 and not HEADER <= size <= most:
        raise BadMessage(f"a message says that it has {size} bytes")
    rest = read(size - 4) if len(front) == 4 else b""
    if len(front) < 4 or len(rest) < size - 4:
        raise BadMessage("the stream ends inside a message")
    return front + rest


def decode_stats(data: bytes) -> List[Stat]:
    """The stat records that bytes are: of an Rstat one, of a read of a directory any number."""
    parts, found = _Bytes(data), []
    while parts.at < len(data):
        record = _Bytes(parts.take(parts.number(2)))
        numbers = [record.field(form) for form in ("2", "4", "q", "4", "4", "4", "8")]
        found.append(Stat(*numbers, *(record.string() for _ in range(4))))
    return found
