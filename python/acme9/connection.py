"""One connection of 9P2000, over which any number of threads may ask at once.

Each message has a tag of its own, and a thread of the connection gives each reply to the thread that waits for it. A
message whose answer doesn't come in time, or whose thread is interrupted, is taken back by a Tflush.
"""

import itertools
import os
import socket
import threading
import time
from typing import Any, Callable, Dict, List, Optional, Type, TypeVar

from . import wire
from .errors import BadMessage, Ended, Error, TimedOut, refusal

# the most that an acmefs answers, and the least that it takes
MSIZE, LEAST_MSIZE = 65560, 256
VERSION = "9P2000"
# how long a server may take to answer a Tversion, in seconds
HANDSHAKE = 10.0
# a peer that has hung up: what a read or a write finds then, and what is said of it
HUNG_UP = (BrokenPipeError, ConnectionResetError)
ENDED = "the server has ended the connection"
Self = TypeVar("Self", bound="Connection")


def namespace() -> str:
    """The folder of sockets that plan9port's programs look in: $NAMESPACE, or else that of the user and display."""
    display = os.environ.get("DISPLAY") or ":0"
    display = (display[:-2] if display.endswith(".0") else display).replace("/", "_")
    return os.environ.get("NAMESPACE") or f"/tmp/ns.{os.environ.get('USER', 'none')}.{display}"


def dial_socket(address: str, wait: float = 0.0) -> socket.socket:
    """A connected socket. The address is a path, or as plan9port has them `unix!PATH`. For `wait` seconds a socket may
    be missing yet, since its server is only starting."""
    path = address[len("unix!") :] if address.startswith("unix!") else address
    last = time.monotonic() + wait
    while True:
        stream = socket.socket(socket.AF_UNIX, socket.SOCK_STREAM)
        try:
            stream.connect(path)
            return stream
        except (FileNotFoundError, ConnectionRefusedError) as why:
            stream.close()
            if time.monotonic() >= last:
                raise Error(f"{path}: no server listens there ({why.strerror})") from None
            time.sleep(0.02)
        except OSError as why:
            stream.close()
            raise Error(f"{path}: {why.strerror or why}") from None


class Tags:
    """Numbers of messages, each of which is in use once."""

    def __init__(self) -> None:
        self._next = 0
        self._free: List[int] = []
        self._lock = threading.Lock()

    def take(self) -> int:
        with self._lock:
            if self._free:
                return self._free.pop()
            if self._next == wire.NOTAG:
                raise Error("no tag is free: too many messages wait for their answers")
            self._next += 1
            return self._next - 1

    def give(self, tag: int) -> None:
        with self._lock:
            self._free.append(tag)


class _Call:
    """A message that was sent and whose reply, or the end of the connection, is awaited."""

    def __init__(self, name: str, tag: int):
        self.name, self.tag = name, tag
        self.reply: Optional[wire.Message] = None
        self.done = threading.Event()
        self.is_flushed = False


class Connection:
    """A connection with an open session. `msize` is the most bytes of a message."""

    @classmethod
    def dial(cls: Type[Self], address: str, wait: float = 0.0, timeout: float = HANDSHAKE) -> Self:
        """Connects to a socket; for `wait` seconds it may be missing yet. The server has `timeout` seconds to answer: a
        slot of a server that had its connection never does."""
        return cls(dial_socket(address, wait), address, timeout)

    def __init__(self, stream: socket.socket, address: str = "the server", timeout: float = HANDSHAKE):
        self.address, self.msize = address, MSIZE
        self._socket, self._tags, self._fids = stream, Tags(), itertools.count()
        self._lock, self._sending = threading.Lock(), threading.Lock()
        self._calls: Dict[int, _Call] = {}
        self._end: Optional[str] = None
        threading.Thread(target=self._receive, name=f"9P of {address}", daemon=True).start()
        try:
            self._start(timeout)
        except BaseException:
            self.close()
            raise

    def _start(self, timeout: float) -> None:
        """Opens the session."""
        call = self._send("Tversion", wire.NOTAG, msize=MSIZE, version=VERSION)
        if not call.done.wait(timeout):
            raise TimedOut(f"{self.address}: no answer; a slot of a server takes one connection, has it had one already?")
        answer = self._answer(call)
        if answer["version"] != VERSION or not LEAST_MSIZE <= answer["msize"] <= MSIZE:
            raise Error(f"{self.address}: it speaks {answer['version']!r} with messages of {answer['msize']} bytes")
        self.msize = answer["msize"]

    def new_fid(self) -> int:
        """A number for a fid. None is given twice, so that a thread that asks late can't meet another file."""
        return next(self._fids)

    # -- asking

    def call(
        self,
        name: str,
        /,
        timeout: Optional[float] = None,
        late: Optional[Callable[[wire.Message], None]] = None,
        **fields: Any,
    ) -> wire.Message:
        """Sends a message and answers its reply; a Refused is what the server refuses it with. Where `timeout` seconds
        pass first the message is taken back, and it is a TimedOut. Where the thread is interrupted while it waits, and
        the reply still comes, `late` gets it."""
        tag = self._tags.take()
        try:
            call = self._send(name, tag, **fields)
        except Exception:
            self._tags.give(tag)
            raise
        try:
            came = call.done.wait(timeout) or self._take_back(call)
        except BaseException:
            if self._take_back(call) and late and call.reply and call.reply.name != "Rerror":
                late(call.reply)
            raise
        if not came:
            raise TimedOut(f"no answer to a {name} within {timeout} seconds")
        return self._answer(call)

    def _send(self, name: str, tag: int, /, **fields: Any) -> _Call:
        data = wire.encode(name, tag, **fields)
        if len(data) > self.msize:
            raise BadMessage(f"a {name} of {len(data)} bytes, and the server takes {self.msize}")
        call = _Call(name, tag)
        with self._lock:
            if self._end is not None:
                raise Ended(self._end)
            self._calls[tag] = call
        try:
            with self._sending:
                self._socket.sendall(data)
        except HUNG_UP:
            # the reader may not have come to the end yet
            self._finish(f"{self.address}: {ENDED}")
        except OSError as why:
            self._finish(f"{self.address}: the connection failed: {why.strerror or why}")
        except BaseException:
            self._finish(f"{self.address}: this program was interrupted inside a message that it sent")
            raise
        return call

    def _answer(self, call: _Call) -> wire.Message:
        """The reply of a call that is done."""
        if call.reply is None:
            raise Ended(self._end)
        if call.reply.name == "Rerror":
            raise refusal(call.reply["ename"])
        return call.reply

    def _take_back(self, call: _Call) -> bool:
        """Takes a message back, and tells whether its reply, or the end, came before that was done. Its tag is used
        again only then, as flush(5) wants it."""
        with self._lock:
            if call.done.is_set():
                return True
            call.is_flushed = True
        self._send("Tflush", self._tags.take(), oldtag=call.tag).done.wait()
        with self._lock:
            if self._end is None:
                self._calls.pop(call.tag, None)
                self._tags.give(call.tag)
        return call.done.is_set()

    # -- the thread of the connection

    def _receive(self) -> None:
        """Gives each reply to its call, until the connection ends."""
        try:
            with self._socket.makefile("rb", 1 << 16) as stream:
                while data := wire.read_message(stream.read, MSIZE):
                    self._take(wire.decode(data))
            why = ENDED
        except HUNG_UP:
            why = ENDED
        except BadMessage as fault:
            why = f"the connection is broken: {fault}"
        except (OSError, ValueError) as fault:
            why = f"the connection failed: {fault}"
        self._finish(f"{self.address}: {why}")

    def _take(self, reply: wire.Message) -> None:
        with self._lock:
            call = self._calls.get(reply.tag)
            if call is None or call.done.is_set():
                raise BadMessage(f"a {reply.name} with the tag {reply.tag}, which nothing was asked with")
            if reply.name not in (wire.answer_to(call.name), "Rerror"):
                raise BadMessage(f"a {reply.name} is no answer to a {call.name}")
            if not call.is_flushed:
                del self._calls[reply.tag]
                if reply.tag != wire.NOTAG:
                    self._tags.give(reply.tag)
            call.reply = reply
            call.done.set()

    def _finish(self, why: str) -> None:
        """The connection has ended: so have all calls."""
        with self._lock:
            if self._end is None:
                self._end = why
            calls, self._calls = [*self._calls.values()], {}
        for call in calls:
            call.done.set()
        try:
            self._socket.shutdown(socket.SHUT_RDWR)
        except OSError:
            pass

    # -- its end

    @property
    def end(self) -> str:
        """Why the connection has ended; an empty text while it lasts."""
        return self._end or ""

    def close(self) -> None:
        """Ends the connection. Whoever waits for an answer gets an Ended."""
        self._finish(f"{self.address}: this program has closed the connection")
        self._socket.close()

    def __enter__(self: Self) -> Self:
        return self

    def __exit__(self, *_: object) -> None:
        self.close()
