"""A server's sockets: before it starts, while it runs, and at its end, which a signal asks for."""

import contextlib
import ctypes
import errno
import os
import re
import shlex
import signal
import socket
import stat
import subprocess
import tempfile
import time
from typing import Any, Dict, List, NamedTuple, Optional

from launch import child
from launch.telling import fail, say
from launch.words import Serving

# what the system knows of its Unix sockets: flags, state, number and path
SOCKETS = "/proc/net/unix"
LINE = rb"^[0-9a-f]+: [0-9A-F]+ [0-9A-F]+ ([0-9A-F]+) [0-9A-F]+ ([0-9A-F]+) +(\d+) %s$"
LISTENS, CONNECTED = 0x10000, 3
# signals that end a server with its journal
CLEAN = [signal.SIGHUP, signal.SIGINT, signal.SIGTERM]
# the call of Linux that gives a descriptor of another process
PIDFD_GETFD = 438
# what a server's sockets don't allow: anything to others, and to execute
UMASK = 0o177
# how often the sockets are looked for, and when those that aren't there by then are told, in seconds
LOOKS, SETTLED = 0.05, 0.5
# the program that makes one socket of all, as it is called from where the launcher is
FRONT = "bin/acmefs-front"
# the status of a server that has a slot without a socket
NO_SOCKET = 5
# the bytes of a script at most, and how long it is looked through, in seconds
SCRIPT_LIMIT, CHECKED = 16_777_216, 10


class Known(NamedTuple):
    """A socket that the system has under a name."""

    number: int
    listens: bool
    is_connected: bool


def named(path: str) -> List[Known]:
    """The sockets whose name is a path, as it stands."""
    with contextlib.suppress(OSError), open(SOCKETS, "rb") as file:
        found = re.findall(LINE.replace(b"%s", re.escape(os.fsencode(path))), file.read(), re.M)
        return [Known(int(it[2]), bool(int(it[0], 16) & LISTENS), int(it[1], 16) == CONNECTED) for it in found]
    return []


def descriptors(pid: int) -> Dict[int, int]:
    """The descriptors of a process that are sockets, by their numbers."""
    found = {}
    with contextlib.suppress(OSError):
        for it in os.listdir(f"/proc/{pid}/fd"):
            with contextlib.suppress(OSError):
                link = re.fullmatch(r"socket:\[(\d+)\]", os.readlink(f"/proc/{pid}/fd/{it}"))
                if link:
                    found[int(link[1])] = int(it)
    return found


def is_stale(path: str) -> bool:
    """Whether nobody listens at a socket any more. It is asked by a socket of another type than a server's: the system
    refuses that in other words where one listens, of whatever container, and nothing connects."""
    with contextlib.suppress(OSError), socket.socket(socket.AF_UNIX, socket.SOCK_DGRAM) as asks:
        return asks.connect_ex(path) == errno.ECONNREFUSED
    return False


def is_socket(path: str) -> bool:
    with contextlib.suppress(OSError, ValueError):
        return stat.S_ISSOCK(os.lstat(path).st_mode)
    return False


def remove_stale(asked: Serving) -> None:
    """Removes the sockets that nobody listens at any more."""
    for path in asked.sockets():
        if is_socket(path) and is_stale(path):
            with contextlib.suppress(OSError):
                os.remove(path)


def why_not(path: str) -> str:
    """Why a socket can't be made, as far as it is seen."""
    folder = os.path.dirname(path) or "."
    if len(os.fsencode(path)) > 107:
        return "its name has more than 107 bytes"
    if is_socket(path):
        return "a server listens there, it seems"
    if os.path.lexists(path):
        return "there is a file of that name, which is no socket"
    if not os.path.isdir(folder):
        return f"there is no folder {folder}"
    return "the system did not make it" if os.access(folder, os.W_OK) else f"the folder {folder} can't be written to"


def shut_down(pid: int, numbers: List[int]) -> bool:
    """Shuts sockets of a child down, as if their peers had hung up; whether that could be done."""
    done = False
    with contextlib.suppress(OSError, AttributeError):
        process = os.pidfd_open(pid)
        for number in numbers:
            taken = ctypes.CDLL(None).syscall(PIDFD_GETFD, process, number, 0)
            if taken >= 0:
                with socket.socket(fileno=taken) as end, contextlib.suppress(OSError):
                    end.shutdown(socket.SHUT_RDWR)
                    done = True
        os.close(process)
    return done


class Server:
    """A server that is a child, and its sockets."""

    def __init__(self, asked: Serving):
        self.asked = asked
        self.process: Optional[subprocess.Popen] = None
        # the signals that came before it was started
        self.early: List[int] = []
        # the sockets that it listens at, each with its file
        self.made: Dict[str, os.stat_result] = {}
        self.signals = 0
        # the signal that was passed on
        self.passed = 0

    def start(self, words: List[str], **ways: Any) -> None:
        """Starts it. The signals that ask for a clean end come to the launcher alone, also those of a terminal, which
        come to both. Its sockets are for the user alone, whatever the umask is."""

        def begins() -> None:
            os.umask(UMASK)
            for it in (signal.SIGHUP, signal.SIGINT):
                signal.signal(it, signal.SIG_IGN)

        try:
            self.process = subprocess.Popen(words, preexec_fn=begins, **ways)
        except OSError as error:
            fail(f"{words[0]} cannot be started: {error.strerror}")
        for number in self.early:
            self.gets(number)

    def gets(self, number: int, _: object = None) -> None:
        """What a signal to the launcher does."""
        if self.process is None:
            self.early.append(number)
        elif number in CLEAN:
            self.ends(number)
        else:
            self.process.send_signal(number)

    def look(self) -> None:
        """Sees which sockets it listens at by now."""
        own = descriptors(self.process.pid)
        for path in self.asked.sockets():
            if path not in self.made:
                there = named(path)
                if any(it.listens and it.number in own for it in there):
                    with contextlib.suppress(OSError):
                        self.made[path] = os.lstat(path)

    def is_settled(self, since: float) -> bool:
        """Whether there are as many sockets as there will be: they are made one after another."""
        return len(self.made) == self.asked.clients or bool(self.made) and time.monotonic() - since > SETTLED

    def wait(self) -> int:
        """Waits until it has ended, and says where it serves once the sockets are there."""
        since, count = time.monotonic(), 0
        while not self.is_settled(since):
            self.look()
            with contextlib.suppress(subprocess.TimeoutExpired):
                status = self.process.wait(LOOKS)
                if status == NO_SOCKET:
                    self.say_lost(self.asked.sockets()[:1])
                return status
            if len(self.made) != count:
                since, count = time.monotonic(), len(self.made)
        if not self.signals:
            self.announce()
        return self.process.wait()

    def announce(self) -> None:
        """Says where it serves, and which slots can't be served."""
        paths = self.asked.sockets()
        lost = [it for it in paths if it not in self.made]
        where = f"each of {paths[0]} to {paths[-1]}" if not lost and len(paths) > 1 else ", ".join(self.made)
        say(f"serving one connection at {where}; the journal comes when all have ended")
        if len(paths) > 1 and not lost:
            say(f"one socket for all of them: {FRONT} SOCKET {shlex.quote(self.asked.path)} --clients {len(paths)}")
        self.say_lost(lost)

    def say_lost(self, paths: List[str]) -> None:
        """Says why slots can't be served."""
        for path in paths:
            say(f"nothing is served at {path}: {why_not(path)}")

    def ends(self, number: int) -> None:
        """What a signal for a clean end does: the first uses up the slots that nobody has used, the second ends the
        connections, a third, or one before anything is served, ends the server at once."""
        self.signals += 1
        self.look()
        if self.made and len(self.made) < self.asked.clients:
            time.sleep(2 * LOOKS)
            self.look()
        if self.signals == 1 and self.made:
            self.use_up()
            say("no more connections are taken; the server ends with its journal once all that are there have ended;")
            say("another signal ends them")
        elif self.signals > 2 or not self.made or not self.end_connections():
            self.passed = number
            self.process.terminate()

    def use_up(self) -> None:
        """Connects to each slot and hangs up. One that is in use doesn't see it. Nobody finds the sockets from then
        on."""
        for path in list(self.made):
            with contextlib.suppress(OSError), socket.socket(socket.AF_UNIX) as end:
                end.setblocking(False)
                end.connect(path)
        self.remove()

    def end_connections(self) -> bool:
        """Ends the connections, as if the clients had hung up; whether that could be done."""
        own = descriptors(self.process.pid)
        there = [it for path in list(self.made) for it in named(path)]
        return shut_down(self.process.pid, [own[it.number] for it in there if it.is_connected and it.number in own])

    def remove(self) -> None:
        """Removes its sockets, and none that another server has made since."""
        for path, made in list(self.made.items()):
            with contextlib.suppress(OSError):
                if os.path.samestat(os.lstat(path), made):
                    os.remove(path)


def script() -> Optional[bytes]:
    """The script, read to its end, or what is too long to be one; none where it can't be read."""
    read, piece = bytearray(), b"-"
    try:
        while piece and len(read) <= SCRIPT_LIMIT:
            piece = os.read(child.INPUT or 0, 1 << 16)
            read += piece
    except OSError:
        return None
    return bytes(read)


def faulty_line(program: str, text: bytes) -> int:
    """The first line of a script that the server will refuse for what it says, counted from 1, or 0. What stands in a
    script stands so in a text that is packed, which does nothing, but `await`; and lines of connections in neither."""
    alike = re.sub(rb"^await ([1-9][0-9]*)$", rb"sel \1 0 0", text, flags=re.M)
    alike = re.sub(rb"^(?:dial|msg|reply|took|hang)\b", b"-", alike, flags=re.M)
    how = {"stdout": subprocess.PIPE, "stderr": subprocess.DEVNULL, "timeout": CHECKED}
    with contextlib.suppress(OSError, subprocess.TimeoutExpired):
        last = subprocess.run([program, "pack"], input=alike, **how).stdout.rstrip().rpartition(b"\n")[2]
        found = re.fullmatch(rb"refused ([1-9][0-9]*) line", last)
        return int(found[1]) if found else 0
    return 0


def say_faults(program: str, text: bytes) -> None:
    """Says what the server will refuse of its script, which its output says only at its end."""
    if len(text) > SCRIPT_LIMIT:
        say(f"the script has more than {SCRIPT_LIMIT:,} bytes: nothing of it is done")
        return
    line = faulty_line(program, text)
    if line:
        say(f"line {line} of the script is refused: it is none that a script may have; nothing behind it is done")


def run(words: List[str], asked: Serving) -> int:
    """The status of a server that is run as a child. Its script is read first, as it would do itself."""
    text = script()
    remove_stale(asked)
    server = Server(asked)
    child.handle(child.PASSED, server.gets)
    with tempfile.TemporaryFile() as given:
        if text is not None:
            say_faults(words[0], text)
            given.write(text)
            given.seek(0)
        server.start(words, stdin=child.INPUT if text is None else given, close_fds=False)
    status = server.wait()
    server.remove()
    return child.ended(status, server.passed)
