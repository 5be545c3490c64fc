"""usage: acmefs-front SOCKET PATH --clients N

One socket for all clients of `acmefs serve PATH --clients N`.

    SOCKET          where clients connect to
    PATH            the server's path, as it was given to acmefs serve
    --clients N     its slots, 1 to 64, all of which have to be the front's

Each connection to SOCKET goes to the next unused slot, PATH.0 to PATH.N-1. Where NAMESPACE is set in the environment,
$NAMESPACE/acme and $NAMESPACE/plumb are made as well, where programs of plan9port look for them; over the latter each
Tattach attaches the plumber's tree.

With all slots used a connection is refused, with one line. The front ends once all slots are used and their connections
have ended. A signal (interrupt, terminate, hang-up) ends it at once: it hangs up, and uses up the other slots, so that
the server writes its journal and ends, too.
More: docs/manual/acmefs-front.1.md
"""

import contextlib
import errno
import os
import re
import selectors
import signal
import socket
import stat
import threading
import time
from typing import Dict, Iterator, List, Optional

from acme9 import BadMessage, Error, wire
from acme9.connection import MSIZE, dial_socket

from . import commands
from .commands import BadWords
from .lines import Fault

MOST_CLIENTS = 64
# how long a slot may be missing, since the server is only starting, in seconds
STARTING = 10.0
# how often it is looked for
LOOKS = 0.02
# what the sockets don't allow: anything to others, and to execute
UMASK = 0o177
TATTACH = 104
# what a connection that has ended sends to the front's bell; a signal sends its number
RUNG = b"\0"
SIGNALS = (signal.SIGINT, signal.SIGTERM, signal.SIGHUP)


def say(text: str) -> None:
    with contextlib.suppress(OSError):
        commands.say("acmefs-front", text)


def hang_up(stream: socket.socket) -> None:
    with contextlib.suppress(OSError):
        stream.shutdown(socket.SHUT_RDWR)


def with_tree(data: bytes, tree: str) -> bytes:
    """A message; a Tattach is one of the tree."""
    if data[4] != TATTACH:
        return data
    try:
        asked = wire.decode(data)
    except BadMessage:
        return data
    return wire.encode("Tattach", asked.tag, **{**asked.fields, "aname": tree})


def pieces_from(stream: socket.socket, tree: Optional[str]) -> Iterator[bytes]:
    """The bytes that come; where a tree is given, message by message."""
    if tree is None:
        while data := stream.recv(1 << 16):
            yield data
        return
    with stream.makefile("rb") as messages:
        while data := wire.read_message(messages.read, MSIZE):
            yield with_tree(data, tree)


class Relay:
    """A client and the slot that it gets, each with a thread that carries what it sends."""

    def __init__(self, client: socket.socket, path: str, tree: Optional[str], bell: socket.socket):
        self.client, self.path, self.tree, self.bell = client, path, tree, bell
        self.slot: Optional[socket.socket] = None
        self.is_to_end = self.has_ended = False
        self.thread = threading.Thread(target=self.run, daemon=True)
        self.thread.start()

    def run(self) -> None:
        """Connects to the slot and carries what is sent, until both have ended; then the front's bell is rung."""
        try:
            self.slot = self.dialled()
        except Error as why:
            say(f"a connection is refused: {why}")
            refuse(self.client, str(why))
        else:
            there = threading.Thread(target=self.there, args=(self.slot,), daemon=True)
            there.start()
            self.back(self.slot)
            there.join()
            self.slot.close()
        self.client.close()
        self.has_ended = True
        with contextlib.suppress(OSError):
            self.bell.send(RUNG)

    def dialled(self) -> socket.socket:
        """The slot, which may be missing a while."""
        last = time.monotonic() + STARTING
        while True:
            try:
                return dial_socket(self.path)
            except Error:
                if self.is_to_end or time.monotonic() >= last:
                    raise
            time.sleep(LOOKS)

    def there(self, slot: socket.socket) -> None:
        """From the client to the slot. At its end the slot is told, and what it still answers is carried back."""
        try:
            for data in pieces_from(self.client, self.tree):
                slot.sendall(data)
            slot.shutdown(socket.SHUT_WR)
        except BadMessage as why:
            say(f"a connection is hung up: {why}")
            self.end()
        except OSError:
            self.end()

    def back(self, slot: socket.socket) -> None:
        """From the slot to the client, until the slot ends."""
        with contextlib.suppress(OSError):
            for data in pieces_from(slot, None):
                self.client.sendall(data)
        self.end()

    def end(self) -> None:
        self.is_to_end = True
        hang_up(self.client)
        if self.slot:
            hang_up(self.slot)


def refuse(client: socket.socket, why: str) -> None:
    """Tells a client why it has no slot, in answer to its first message, and hangs up."""
    client.settimeout(STARTING)
    with contextlib.suppress(OSError, BadMessage), client.makefile("rb") as messages:
        asked = wire.decode(wire.read_message(messages.read, MSIZE))
        client.sendall(wire.encode("Rerror", asked.tag, ename=why))
    hang_up(client)
    client.close()


def is_free(path: str) -> bool:
    """Whether a socket may be made at a path; one that nobody listens at any more is removed."""
    try:
        if not stat.S_ISSOCK(os.lstat(path).st_mode):
            return False
    except FileNotFoundError:
        return True
    with socket.socket(socket.AF_UNIX, socket.SOCK_DGRAM) as tried:
        # of another type than what listens: so it tells whether something does, and takes no connection of it
        if tried.connect_ex(path) != errno.ECONNREFUSED:
            return False
    os.remove(path)
    return True


def listeners(paths: Dict[str, Optional[str]]) -> Dict[socket.socket, Optional[str]]:
    """Sockets that listen at paths, all or none, each with the tree of its path. They are for the user alone, whatever
    the umask is."""
    found: Dict[socket.socket, Optional[str]] = {}
    before = os.umask(UMASK)
    try:
        for path, tree in paths.items():
            if not is_free(path):
                raise Error(f"{path}: there is such a file, or a server listens there")
            listener = socket.socket(socket.AF_UNIX)
            found[listener] = tree
            listener.bind(path)
            listener.listen(MOST_CLIENTS)
    except (Error, OSError) as why:
        forget(found)
        raise Error(str(why) if isinstance(why, Error) else f"{path}: {why.strerror or why}") from None
    finally:
        os.umask(before)
    return found


def forget(listening: Dict[socket.socket, Optional[str]]) -> None:
    """Closes sockets, and removes their files."""
    for listener in listening:
        path = listener.getsockname()
        listener.close()
        if path:
            with contextlib.suppress(OSError):
                os.remove(path)


class Front:
    """The slots of a server, and which of them are unused."""

    def __init__(self, path: str, clients: int, bell: socket.socket):
        self.unused, self.clients, self.bell = [f"{path}.{it}" for it in range(clients)], clients, bell
        self.relays: List[Relay] = []

    def take(self, client: socket.socket, tree: Optional[str]) -> None:
        """Gives a client the next slot."""
        if self.unused:
            self.relays.append(Relay(client, self.unused.pop(0), tree, self.bell))
            return
        why = f"all {self.clients} slots are used"
        say(f"a connection is refused: {why}")
        threading.Thread(target=refuse, args=(client, why), daemon=True).start()

    def forget_ended(self) -> None:
        """Forgets the connections that have ended. A slot that none came to is unused."""
        for it in [it for it in self.relays if it.has_ended]:
            self.relays.remove(it)
            if it.slot is None:
                self.unused.insert(0, it.path)

    def is_done(self) -> bool:
        """Whether all slots are used and all of their connections have ended."""
        self.forget_ended()
        return not self.unused and not self.relays

    def end(self) -> bool:
        """Ends all connections and uses up the slots, and tells whether all could be."""
        for it in self.relays:
            it.end()
        for it in self.relays:
            it.thread.join()
        self.forget_ended()
        try:
            for slot in self.unused:
                dial_socket(slot).close()
        except Error as why:
            say(f"not all slots could be used up: {why}")
            return False
        return True


def serve(front: Front, listening: Dict[socket.socket, Optional[str]], bell: socket.socket) -> None:
    """Gives slots to those who connect, until there is nothing more to do or a signal comes."""
    with selectors.DefaultSelector() as waits:
        waits.register(bell, selectors.EVENT_READ)
        for listener, tree in listening.items():
            waits.register(listener, selectors.EVENT_READ, (listener, tree))
        while not front.is_done():
            for key, _ in waits.select():
                if key.data:
                    listener, tree = key.data
                    front.take(listener.accept()[0], tree)
                elif bell.recv(1) != RUNG:
                    return


class Words:
    """What the front is asked for."""

    def __init__(self, given: List[str]):
        paths, count = [], ""
        left = iter(given)
        for word in left:
            if word == "--clients":
                count = next(left, "")
            elif word.startswith("--clients="):
                count = word.partition("=")[2]
            elif word.startswith("-"):
                raise BadWords(f"`{word}` isn't known here")
            else:
                paths.append(word)
        if len(paths) != 2:
            raise BadWords("two paths are wanted, SOCKET and PATH")
        if not re.fullmatch("[1-9][0-9]?", count) or int(count) > MOST_CLIENTS:
            raise BadWords(f"--clients needs a number from 1 to {MOST_CLIENTS}")
        self.socket, self.path, self.clients = paths[0], paths[1], int(count)


def paths_of(given: str) -> Dict[str, Optional[str]]:
    """Where the front listens, each with the tree that is attached there, if it isn't as the client says."""
    paths: Dict[str, Optional[str]] = {os.path.abspath(given): None}
    namespace = os.environ.get("NAMESPACE")
    if namespace:
        os.makedirs(namespace, 0o700, exist_ok=True)
        paths[os.path.abspath(f"{namespace}/acme")] = None
        paths[os.path.abspath(f"{namespace}/plumb")] = "plumb"
    return paths


def served(words: Words) -> bool:
    """Serves until it is to end, and tells whether all slots could be used up."""
    bell, rings = socket.socketpair()
    rings.setblocking(False)
    for number in SIGNALS:
        if signal.getsignal(number) != signal.SIG_IGN:
            signal.signal(number, lambda *_: None)
    signal.set_wakeup_fd(rings.fileno())
    listening = listeners(paths_of(words.socket))
    where = ", ".join(it.getsockname() for it in listening)
    say(f"{where}: a slot of {words.path} for each of {words.clients} connections")
    front = Front(words.path, words.clients, rings)
    try:
        serve(front, listening, bell)
    finally:
        forget(listening)
    return front.end()


def done(given: List[str]) -> int:
    """The status of a front with these words."""
    words = Words(given)
    try:
        return 0 if served(words) else 2
    except Error as why:
        raise Fault(str(why)) from None


def main(given: List[str]) -> int:
    """The command: the exit status is 1 where the words aren't known, and 2 where it can't listen, or not all slots
    could be used up."""
    return commands.run("acmefs-front", __doc__ or "", given, done)
