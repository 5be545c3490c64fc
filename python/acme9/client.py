"""Files of a server: a tree that a connection is attached to, and the files that are opened in it.

    tree = Tree.dial("/tmp/acme.0")         a connection, attached to the tree `acme`
    tree.read("index")                      a whole file as text; tree.write, tree.ls, tree.stat as 9p(1) has them
    body = tree.open("new/body", "rw")      a File: one Tread for each body.read(), as many Twrites as it takes
"""

import getpass
import threading
from contextlib import contextmanager, suppress
from typing import Callable, Iterator, List, Optional, Type, TypeVar, Union

from . import wire
from .connection import HANDSHAKE, Connection, namespace
from .errors import BadMessage, Error, FidClunked, NotFound, Refused

MODES = {
    "r": wire.OREAD,
    "w": wire.OWRITE,
    "rw": wire.ORDWR,
    "t": wire.OWRITE | wire.OTRUNC,
}
MOST_NAMES = 16
Self = TypeVar("Self", bound="Tree")


def user_name() -> str:
    try:
        return getpass.getuser()
    except (KeyError, OSError):
        return "none"


def whole_runes(data: bytes, most: int) -> int:
    """How many of the first bytes make a piece that cuts no rune of UTF-8, where one can be made."""
    end = most
    while end > most - 4 and end < len(data) and data[end] & 0xC0 == 0x80:
        end -= 1
    return most if end == most - 4 else end


def whole_lines(data: bytes, most: int) -> int:
    """The same of a piece that cuts no line."""
    end = data.rfind(b"\n", 0, most) + 1
    if not end:
        raise BadMessage(f"a line of more than {most} bytes")
    return end


def pieces(data: bytes, most: int, cut: Callable[[bytes, int], int]) -> Iterator[bytes]:
    """Bytes in pieces of at most so many, at least one piece, cut where a function says."""
    at = 0
    while len(data) - at > most:
        end = at + cut(data[at : at + most + 1], most)
        yield data[at:end]
        at = end
    yield data[at:]


class File:
    """An open file. Reads go on where the last one ended, and so do writes; a read is of bytes, a write of either."""

    def __init__(self, connection: Connection, fid: int, name: str, iounit: int):
        self.connection, self.fid, self.name, self.offset = connection, fid, name, 0
        room = iounit or connection.msize
        self._most_read = min(room, connection.msize - wire.READ_HEADER)
        self._most_written = min(room, connection.msize - wire.WRITE_HEADER)
        self._written, self._kept = 0, b""
        self._writing, self._reading = threading.Lock(), threading.Lock()

    def read(self, count: Optional[int] = None, timeout: Optional[float] = None) -> bytes:
        """One Tread from where the last one ended: at most so many bytes, or as many as a message has. Nothing at the
        end. A file of events, a port and the like wait for what comes; a TimedOut took nothing of it."""
        with self._reading:
            data, self._kept = self._kept[:count], self._kept[len(self._kept[:count]) :]
        data = data or self.pread(count, self.offset, timeout)
        self.offset += len(data)
        return data

    def pread(self, count: Optional[int], offset: int, timeout: Optional[float] = None) -> bytes:
        """One Tread from a place."""
        count = self._most_read if count is None else min(count, self._most_read)
        with about(self.name):
            reply = self.connection.call("Tread", timeout, self._keep, fid=self._fid(), offset=offset, count=count)
            data: bytes = reply["data"]
            return data

    def _fid(self) -> int:
        if self.fid == wire.NOFID:
            raise FidClunked("fid clunked")
        return self.fid

    def _keep(self, reply: wire.Message) -> None:
        """What came for a thread that was interrupted is for the next read."""
        with self._reading:
            self._kept += reply["data"]

    def read_all(self) -> bytes:
        """The whole file from its front, in as many reads as it takes."""
        found: List[bytes] = []
        at = 0
        while data := self.pread(None, at):
            found.append(data)
            at += len(data)
        return b"".join(found)

    def text(self) -> str:
        """The whole file as text. Bytes that aren't UTF-8 become U+FFFD."""
        return self.read_all().decode("utf-8", "replace")

    def write(self, data: Union[str, bytes], cut: Callable[[bytes, int], int] = whole_runes) -> int:
        """Writes all, in as many Twrites as it takes, which no other write to this File comes between, and answers the
        number of bytes. No rune is cut, or as the function says. What is refused raises a Refused: the pieces before it
        are written."""
        given = data.encode("utf-8") if isinstance(data, str) else data
        with self._writing, about(self.name):
            for piece in pieces(given, self._most_written, cut):
                reply = self.connection.call("Twrite", fid=self._fid(), offset=self._written, data=piece)
                count: int = reply["count"]
                if count != len(piece):
                    raise Error(f"{self.name}: the server took {count} of {len(piece)} bytes")
                self._written += count
        return len(given)

    def close(self) -> None:
        """Gives the fid back. A read of it that still waits is refused with `fid clunked`. A refusal, as of rules that
        end badly, is raised; the fid is free also then."""
        fid, self.fid = self.fid, wire.NOFID
        if fid != wire.NOFID:
            with about(self.name):
                self.connection.call("Tclunk", fid=fid)

    def __enter__(self) -> "File":
        return self

    def __exit__(self, kind: object, *_: object) -> None:
        """A refused clunk is raised where nothing else is."""
        try:
            self.close()
        except Error:
            if kind is None:
                raise


@contextmanager
def about(name: str) -> Iterator[None]:
    """A refusal inside names the file."""
    try:
        yield
    except Refused as why:
        why.file = why.file or name
        raise


def open_mode(mode: str) -> int:
    if mode not in MODES:
        raise ValueError(f"the mode {mode!r} is none of {', '.join(MODES)}")
    return MODES[mode]


class Tree:
    """A tree of a server that a connection is attached to. More than one can be attached over a connection."""

    NAME = "acme"

    @classmethod
    def dial(cls: Type[Self], address: str = "", wait: float = 0.0, timeout: float = HANDSHAKE) -> Self:
        """Connects to a socket and attaches to the tree; without an address, to the socket that is named as the tree is
        in the user's namespace. For `wait` seconds the socket may be missing yet; the server has `timeout` seconds."""
        connection = Connection.dial(address or f"{namespace()}/{cls.NAME}", wait, timeout)
        try:
            return cls(connection)
        except BaseException:
            connection.close()
            raise

    def __init__(self, connection: Connection, name: Optional[str] = None, user: Optional[str] = None):
        self.connection, self.fid = connection, connection.new_fid()
        who, which = user or user_name(), self.NAME if name is None else name
        connection.call("Tattach", fid=self.fid, afid=wire.NOFID, uname=who, aname=which)

    def open(self, name: str, mode: str = "r") -> File:
        """Walks to a file and opens it: `r` to read, `w` to write, `rw` for both, `t` to write from nothing on."""
        how = open_mode(mode)
        with self._walked(name) as fid:
            opened = self.connection.call("Topen", fid=fid, mode=how)
            return File(self.connection, fid, name, opened["iounit"])

    def read(self, name: str) -> str:
        """The text of a file."""
        with self.open(name) as file:
            return file.text()

    def write(self, name: str, data: Union[str, bytes]) -> None:
        """Writes to a file, and closes it."""
        with self.open(name, "w") as file:
            file.write(data)

    def stat(self, name: str) -> wire.Stat:
        """What the server says of a file."""
        with self._walked(name) as fid:
            told = self.connection.call("Tstat", fid=fid)["stat"]
        self.connection.call("Tclunk", fid=fid)
        return wire.decode_stats(told)[0]

    def ls(self, name: str = "") -> List[wire.Stat]:
        """The files in a directory."""
        with self.open(name) as file:
            return wire.decode_stats(file.read_all())

    @contextmanager
    def _walked(self, name: str) -> Iterator[int]:
        """A fid of what a name leads to, which is free again where what is done with it fails."""
        fid, here = self.connection.new_fid(), self.fid
        names = [it for it in name.split("/") if it]
        try:
            with about(name):
                while names or here != fid:
                    done = self._walk_some(here, fid, names[:MOST_NAMES])
                    here, names = fid, names[done:]
                yield fid
        except BaseException:
            if here == fid:
                with suppress(Error):
                    self.connection.call("Tclunk", fid=fid)
            raise

    def _walk_some(self, here: int, fid: int, names: List[str]) -> int:
        """Walks the names that are there, and answers how many; what refuses the first one is raised. A walk that stops
        later says no reason: then its front is walked alone, so that the rest is asked for again."""
        found = len(self.connection.call("Twalk", fid=here, newfid=fid, names=names)["qids"])
        if 0 < found < len(names):
            self.connection.call("Twalk", fid=here, newfid=fid, names=names[:found])
        if names and not found:
            raise NotFound("file not found")
        return found

    def close(self) -> None:
        """Ends the connection, and with it all that stands on it."""
        self.connection.close()

    def __enter__(self: Self) -> Self:
        return self

    def __exit__(self, *_: object) -> None:
        self.close()
