"""Connections to a server byte by byte, and what comes of them. tests/sockets, tests/sinks and tests/alloc-serving
stand on it.

    server = Server(f"{room}/s", 2, b"new\n").serve({0: does, 1: does})     does(client) tells whether all was right
    server.faults(report(..)) + server.replay_faults()                      what is wrong, in words
    sys.exit(run(CASES, sys.argv[1:]))                                      CASES by name; a case gives what is wrong

What the server writes is compared with what a case works out, and its journal is replayed: what a client got must be
what the replay replies to it, and the report must be that of the replay.
"""

import fcntl
import os
import socket
import subprocess
import sys
import tempfile
import termios
import threading
import time
from typing import Any, Callable, Dict, List, Mapping, Optional, Sequence, Tuple, Union

from harness import PROGRAM
from serving import is_listening

from acme9 import wire
from acme9.connection import MSIZE as MESSAGE_LIMIT
from acmefs_tools.lines import HEADING

SECONDS = 60
READ, WRITE, READ_AND_WRITE = wire.OREAD, wire.OWRITE, wire.ORDWR
# who attaches, here and by the program's own client
USER, DO_USER = "glenda", "acmefs"
# a connection that has ended: its slot, its cause, and its user where that is another one
Ended = Union[Tuple[int, str], Tuple[int, str, str]]


# ---- messages, which have tag 1 where it doesn't matter


def version(msize: int) -> bytes:
    return wire.encode("Tversion", wire.NOTAG, msize=msize, version="9P2000")


def attach(fid: int, tree: str = "") -> bytes:
    return wire.encode("Tattach", 1, fid=fid, afid=wire.NOFID, uname=USER, aname=tree)


def walk(fid: int, new_fid: int, names: Sequence[bytes]) -> bytes:
    return wire.encode("Twalk", 1, fid=fid, newfid=new_fid, names=[it.decode() for it in names])


def opening(fid: int, mode: int) -> bytes:
    return wire.encode("Topen", 1, fid=fid, mode=mode)


def reading(fid: int, count: int, offset: int = 0) -> bytes:
    return wire.encode("Tread", 1, fid=fid, offset=offset, count=count)


def writing(fid: int, data: bytes) -> bytes:
    return wire.encode("Twrite", 1, fid=fid, offset=0, data=data)


def clunk(fid: int) -> bytes:
    return wire.encode("Tclunk", 1, fid=fid)


def hexadecimal(data: bytes) -> bytes:
    return data.hex().encode()


def filled(most: int) -> List[bytes]:
    """Messages of so many bytes in all."""
    largest = writing(1, bytes(MESSAGE_LIMIT - wire.WRITE_HEADER))
    count, left = divmod(most, len(largest))
    return [largest] * count + [writing(1, bytes(left - wire.WRITE_HEADER))]


START = [version(8192), attach(0)]
# what a server answers to them
R_VERSION = wire.encode("Rversion", wire.NOTAG, msize=8192, version="9P2000")
R_ATTACH = wire.encode("Rattach", 1, qid=(wire.QTDIR, 0, 0))
STARTED = R_VERSION + R_ATTACH


class Client:
    """A connection to a slot. It keeps all bytes that it gets, which then are compared with a replay; none are where it
    holds None."""

    def __init__(self, path: str):
        self.held: Any = b""
        self.socket = socket.socket(socket.AF_UNIX)
        self.socket.settimeout(SECONDS)
        for _ in range(SECONDS * 100):
            try:
                self.socket.connect(path)
                return
            except (FileNotFoundError, ConnectionRefusedError):
                time.sleep(0.01)

    def ask(self, asked: bytes) -> bytes:
        """Sends a message and answers the one that comes back."""
        self.socket.sendall(asked)
        begin = len(self.held)
        size = 4
        while len(self.held) < begin + size:
            piece = self.socket.recv(65536)
            if not piece:
                return b""
            self.held += piece
            if begin + 4 <= len(self.held):
                size = int.from_bytes(self.held[begin : begin + 4], "little")
        return self.held[begin:]

    def takes(self, size: int) -> bytes:
        """The next bytes, so many or more where more have come; fewer where the server has ended."""
        begin = len(self.held)
        while len(self.held) < begin + size and (piece := self.socket.recv(65536)):
            self.held += piece
        return self.held[begin:]

    def start(self) -> bool:
        return self.ask(START[0]) + self.ask(START[1]) == STARTED

    def open(self, fid: int, names: Sequence[bytes], mode: int) -> bool:
        walked = self.ask(walk(0, fid, names))
        opened = self.ask(opening(fid, mode))
        return walked[4:5] == b"\x6f" and opened[4:5] == b"\x71"

    def read(self, fid: int) -> bytes:
        return self.ask(reading(fid, 512))[11:]

    def write(self, fid: int, data: bytes) -> bool:
        return self.ask(writing(fid, data))[4:5] == b"\x77"

    def has_been_read(self) -> bool:
        """Waits until the server has read all that was sent, and answers whether it did."""
        last = time.monotonic() + SECONDS
        while time.monotonic() < last:
            left = fcntl.ioctl(self.socket, termios.TIOCOUTQ, bytes(4))
            if left == bytes(4):
                return True
            time.sleep(0.0002)
        return False

    def has_untaken(self, count: int) -> bool:
        """Waits until so many bytes have come that weren't taken, and answers whether they did."""
        last = time.monotonic() + SECONDS
        while time.monotonic() < last:
            if int.from_bytes(fcntl.ioctl(self.socket, termios.FIONREAD, bytes(4)), sys.byteorder) >= count:
                return True
            time.sleep(0.0002)
        return False

    def send_in_pieces(self, data: bytes, size: int) -> bool:
        """Sends pieces of a size, each once the server has read those before it, and answers whether it
        took them all."""
        for k in range(0, len(data), size):
            try:
                self.socket.sendall(data[k : k + size])
            except (BrokenPipeError, ConnectionResetError):
                return False
            if not self.has_been_read():
                return False
        return True

    def read_to_end(self) -> bool:
        """Ends what it sends, and reads until the server has ended."""
        self.socket.shutdown(socket.SHUT_WR)
        while piece := self.socket.recv(65536):
            self.held += piece
        return True

    def wait_for_end(self) -> bool:
        """Reads until the server has ended, and sends nothing, not even its own end."""
        while piece := self.socket.recv(65536):
            self.held += piece
        return True

    def finds_end(self) -> bool:
        """The same, where nothing may take longer than a second, whatever else the server does."""
        self.socket.settimeout(1)
        return self.wait_for_end()

    def is_cut_off(self) -> bool:
        """Whether what it sends is refused."""
        try:
            self.socket.sendall(b"\0")
        except (BrokenPipeError, ConnectionResetError):
            return True
        return False

    def drop_to_end(self) -> None:
        """Reads until the server has ended, and keeps nothing."""
        while self.socket.recv(65536):
            pass


class Lines:
    """Lines for the program's own client, what it must write of them, and its exit status."""

    def __init__(self, lines: bytes, wanted: bytes, status: int = 0, tree: str = "acme"):
        self.lines, self.wanted, self.status, self.tree = lines, wanted, status, tree

    def faults(self, path: str, **how: Any) -> List[str]:
        """What is wrong, where it does the lines over a connection to a path. An input or output of its own may be
        given."""
        how = {"stdout": subprocess.PIPE, "stderr": subprocess.PIPE, "timeout": SECONDS, **how}
        how = how if "stdin" in how else {"input": self.lines, **how}
        ran = subprocess.run([PROGRAM, "do", path, self.tree], **how)
        wrote = ran.stdout or b""
        faults = [] if wrote == self.wanted else [f"do wrote {wrote[:1000]!r}, and {self.wanted[:1000]!r} is wanted"]
        if ran.returncode != self.status:
            faults.append(f"do has status {ran.returncode}, and {self.status} is wanted")
        if ran.stderr:
            faults.append(f"{ran.stderr[:200]!r} on the standard error of do")
        return faults


# what a client does, and whether all was right; or the lines that the program itself does
Does = Union[Callable[[Client], Any], Lines]


class Server:
    """A server, and once it has ended what came of it: the entries of its journal, what it wrote behind
    them, and of each client what it got and whether that was right."""

    def __init__(self, path: str, clients: int, script: Optional[bytes] = b"", **how: Any):
        words = [PROGRAM, "serve", path, f"--clients={clients}"]
        how = {"stdin": subprocess.PIPE, "stdout": subprocess.PIPE, "stderr": subprocess.PIPE, **how}
        self.path, self.clients, self.script = path, clients, script
        self.right = [True] * clients
        self.held: List[Optional[bytes]] = [b""] * clients
        self.process = subprocess.Popen(words, **how)

    def one(self, slot: int, does: Does, after: Optional[threading.Event]) -> None:
        came = after is None or after.wait(SECONDS)
        self.right[slot] = False
        path = f"{self.path}.{slot}"
        if isinstance(does, Lines):
            self.held[slot] = None
            self.right[slot] = came and is_listening(path) and not does.faults(path)
            return
        client = Client(path)
        try:
            self.right[slot] = came and does(client)
        except OSError:
            pass
        finally:
            self.held[slot] = client.held
            client.socket.close()

    def serve(self, does: Mapping[int, Does], after: Optional[Mapping[int, threading.Event]] = None) -> "Server":
        """Lets clients do something at once, by their slots, or the program itself do lines, and waits for the end. A
        client that is to come after something waits for that first."""
        waits = after or {}
        threads = [threading.Thread(target=self.one, args=(*it, waits.get(it[0])), daemon=True) for it in does.items()]
        for thread in threads:
            thread.start()
        try:
            output, self.errors = self.process.communicate(self.script, timeout=SECONDS)
        except subprocess.TimeoutExpired:
            self.process.kill()
            output, self.errors = self.process.communicate()
            self.errors += b"no end in time"
        for thread in threads:
            thread.join(SECONDS)
        front, word, back = (b"\n" + (output or b"")).partition(b"\nreport\n")
        lines = front.split(b"\n")[1:] if word else []
        self.journal: List[bytes] = lines[1:]
        self.has_heading = not word or lines[:1] == [HEADING.encode()]
        # what stands behind the journal
        self.tail = word[1:] + back if word else output or b""
        return self

    def entry(self, line: bytes) -> int:
        """The number of an entry, 0 where there is none."""
        return self.journal.index(line) + 1 if line in self.journal else 0

    def entries_of(self, slot: int) -> List[bytes]:
        """The entries of a connection but those of takings."""
        fronts = (b"dial %d " % slot, b"msg %d " % slot, b"hang %d " % slot)
        return [it for it in self.journal if (it + b" ").startswith(fronts)]

    def faults(self, wanted: bytes, status: int = 0) -> List[str]:
        """What is wrong, where this is to stand behind the journal."""
        faults = [f"slot {slot} got other bytes" for slot in range(self.clients) if not self.right[slot]]
        if self.process.returncode != status:
            faults.append(f"status {self.process.returncode}, and {status} is wanted")
        if self.errors:
            faults.append(f"{self.errors[:200]!r} on the standard error")
        if not self.has_heading:
            faults.append("its journal begins with no heading")
        if self.tail != wanted:
            faults.append(f"{self.tail[:1000]!r} behind the journal, and {wanted[:1000]!r} is wanted")
        return faults

    def replay_faults(self) -> List[str]:
        """What a replay of its journal says otherwise."""
        transcript = b"".join(it + b"\n" for it in (HEADING.encode(), *self.journal))
        ran = subprocess.run([PROGRAM, "replay"], input=transcript, stdout=subprocess.PIPE, timeout=SECONDS)
        replies, word, back = (b"\n" + ran.stdout).partition(b"\nreport\n")
        if ran.returncode != 0 or not word or not self.tail.startswith(word[1:] + back):
            return ["a replay of its journal gives another report"]
        faults = []
        for slot in range(self.clients):
            front = b"reply %d " % slot
            got = (bytes.fromhex(it[len(front) :].decode()) for it in replies.split(b"\n") if it.startswith(front))
            if self.held[slot] is not None and b"".join(got) != self.held[slot]:
                faults.append(f"a replay of its journal replies otherwise to slot {slot}")
        return faults


def entries_of(slot: int, done: Sequence[bytes], cause: str) -> List[bytes]:
    """The entries of a connection but those of takings."""
    messages = [b"msg %d " % slot + hexadecimal(it) for it in done]
    return [b"dial %d" % slot, *messages, b"hang %d " % slot + cause.encode()]


def user_of(done: Sequence[bytes]) -> str:
    """The user of a connection on which messages were done."""
    return USER if attach(0) in done else ""


def report(
    entries: int, ended: Sequence[Ended], windows: Sequence[Tuple[str, str]] = (), items: Sequence[str] = ()
) -> bytes:
    """A report: the connections, their causes and users, and the windows, numbered from 1, with their bodies."""
    lines = ["report", f"journal {entries}", f"connections {len(ended)}"]
    lines += [connection(*it) for it in ended]
    lines.append(f"windows {len(windows)}")
    for number_of_window, (state, body) in enumerate(windows, 1):
        lines += [f"window {number_of_window} {state} :", f"body :{body}"]
    lines += [f"items {len(items)}", *(f"item {it}" for it in items), "requests 0"]
    return "".join(f"{it}\n" for it in lines).encode()


def connection(slot: int, cause: str, user: str = USER) -> str:
    return f"connection {slot} ended {cause} :{user}"


def hosts(*slots: int) -> bytes:
    """The lines of slots that failed."""
    return b"".join(b"host %d\n" % slot for slot in slots)


def writes_a_body(data: bytes) -> Callable[[Client], bool]:
    """Writes the body of a window of its own, and reads it back."""

    def does(client: Client) -> bool:
        client.start()
        opened = client.open(1, [b"new", b"body"], READ_AND_WRITE)
        return opened and client.write(1, data) and client.read(1) == data

    return does


def walks_to(client: Client, names: Sequence[bytes], mode: int) -> bool:
    """Walks to a file of a window that may not be made yet, and opens it."""
    for _ in range(SECONDS * 1000):
        if client.ask(walk(0, 1, names))[4:5] == b"\x6f":
            return client.ask(opening(1, mode))[4:5] == b"\x71"
        time.sleep(0.001)
    return False


# ---- cases: functions that take a folder of their own, and give what is wrong, in words


def is_right(name: str, case: Callable[[str], List[str]]) -> bool:
    """Whether a case finds nothing wrong; says what it finds."""
    with tempfile.TemporaryDirectory(prefix="acmefs-sockets-") as room:
        try:
            faults = case(room)
        except OSError as error:
            faults = [str(error)]
    if faults:
        print(f"FAILED {name}: {', '.join(faults)}")
    return not faults


def run(cases: Dict[str, Callable[[str], List[str]]], only: List[str]) -> int:
    """Runs all cases, or those named, and tells how many passed; the exit status is 1 where one fails."""
    if not os.access(PROGRAM, os.X_OK):
        print("FAILED: there is no program to test\n0 passed, 1 failed")
        return 1
    told = [is_right(name, case) for name, case in cases.items() if not only or name in only]
    print(f"{sum(told)} passed, {len(told) - sum(told)} failed")
    return 0 if all(told) else 1
