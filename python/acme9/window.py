"""Windows: their text, their addresses and what is done in them."""

import threading
from contextlib import contextmanager, suppress
from dataclasses import dataclass
from typing import Dict, Iterator, List, Optional, Tuple, Type

from .client import File, Tree, whole_lines, whole_runes
from .errors import Ended, Error, FidClunked, WindowDeleted
from .events import Event, EventReader

WRITTEN_ONLY = {"errors"}
COLUMN = 12


@dataclass(frozen=True)
class WinInfo:
    """A window as `index` has it. `tag` is its tag, up to the first newline."""

    id: int
    tag_length: int
    body_length: int
    is_directory: bool
    is_modified: bool
    tag: str

    @property
    def name(self) -> str:
        """The window's name, which may be empty."""
        return self.tag.partition(" ")[0]

    @classmethod
    def parse(cls, line: str) -> "WinInfo":
        numbers = line.split(None, 5)[:5]
        front = sum(max(COLUMN, len(it) + 1) for it in numbers)
        id, tag, body, is_directory, is_modified = map(int, numbers)
        return cls(id, tag, body, bool(is_directory), bool(is_modified), line[front:])


class Win:
    """A window by its number. A file of it is opened when it is first used, and stays open until `close`."""

    def __init__(self, acme: Tree, id: int, ctl: Optional[File] = None):
        self.acme, self.id = acme, id
        self._files: Dict[str, File] = {}
        self._lock, self._reading, self._addressing = threading.Lock(), threading.Lock(), threading.RLock()
        self._events = EventReader()
        if ctl:
            ctl.name = f"{id}/ctl"
            self._files["ctl"] = ctl

    @classmethod
    def make(cls: Type["Win"], acme: Tree) -> "Win":
        """A new window."""
        ctl = acme.open("new/ctl", "rw")
        return cls(acme, int(ctl.text().split()[0]), ctl)

    def file(self, name: str) -> File:
        """One of its files: addr, body, ctl, data, errors, event, tag, xdata."""
        with self._lock:
            if name not in self._files:
                self._files[name] = self.acme.open(f"{self.id}/{name}", "w" if name in WRITTEN_ONLY else "rw")
            return self._files[name]

    def read(self, file: str = "body") -> str:
        """All of a file. Of a long body other programs may change what isn't read yet."""
        return self.file(file).text()

    def write(self, file: str, text: str) -> None:
        """Writes to a file: body and tag get it at their end, data and xdata in the place of the address."""
        self.file(file).write(text, whole_lines if file == "ctl" else whole_runes)

    def append(self, text: str) -> None:
        """Puts a text at the end of the body."""
        self.write("body", text)

    def info(self) -> WinInfo:
        """Its numbers and its tag now."""
        id, tag, body, is_directory, is_modified = map(int, self.read("ctl").split()[:5])
        return WinInfo(id, tag, body, bool(is_directory), bool(is_modified), self.tag().partition("\n")[0])

    def tag(self) -> str:
        return self.read("tag")

    # -- control messages

    def ctl(self, *messages: str) -> None:
        """Control messages, done in order up to the first that is refused."""
        self.write("ctl", "".join(f"{it}\n" for it in messages))

    def name(self, name: str) -> None:
        self.ctl(f"name {name}")

    def clean(self) -> None:
        self.ctl("clean")

    def dirty(self) -> None:
        self.ctl("dirty")

    def show(self) -> None:
        self.ctl("show")

    def get(self) -> None:
        """Reads its file anew."""
        self.ctl("get")

    def put(self) -> None:
        """Stores the body as the file of its name."""
        self.ctl("put")

    def delete(self, sure: bool = False) -> None:
        """Deletes the window; a modified one is a WindowModified, where `sure` isn't given."""
        self.ctl("delete" if sure else "del")
        self.close()

    def errors(self, text: str) -> None:
        """Puts a text at the end of the errors window of its directory."""
        self.write("errors", text)

    # -- the address: one for all who use the window. What takes more than one message has a lock among the threads

    def addr(self, address: str) -> None:
        """Sets the address, in the language of sam(1): `/old/`, `#4,#7`, `,`. `.` is the address before."""
        self.write("addr", address)

    def read_addr(self) -> Tuple[int, int]:
        """The places of the address, in runes."""
        ends = [int(it) for it in self.read("addr").replace("#", "").split(",")]
        return ends[0], ends[-1]

    def data(self, text: str) -> None:
        """Puts a text in the place of the address, which then is behind it."""
        with self._addressing:
            self.write("data", text)

    def xdata(self) -> str:
        """The text of the address, which then is empty, at its end."""
        return self.read("xdata")

    @contextmanager
    def at(self, address: str) -> Iterator[None]:
        """Sets the address for what is done inside, while other threads that do the same wait."""
        self.file("addr")
        with self._addressing:
            self.addr(address)
            yield

    def replace(self, address: str, text: str) -> None:
        """Sets the address, and puts a text in its place."""
        with self.at(address):
            self.data(text)

    def text_at(self, address: str) -> str:
        """Sets the address, and answers its text."""
        with self.at(address):
            return self.xdata()

    def select(self, address: str) -> None:
        """Selects the text of an address."""
        with self.at(address):
            self.ctl("dot=addr", "show")

    def selection(self) -> str:
        """The selected text."""
        with self.at("."):
            self.ctl("addr=dot")
            return self.xdata()

    # -- events

    def read_event(self, timeout: Optional[float] = None) -> Event:
        """The next event; waits until there is one. While the file `event` is open, what the user executes and looks
        for is left to the program. Where `timeout` seconds pass it is a TimedOut, and no event is lost."""
        return self._event_of(self.file("event"), timeout)

    def events(self) -> Iterator[Event]:
        """The events from now on, until the window is deleted or its files are closed."""
        return self._each_event_of(self.file("event"))

    def _each_event_of(self, file: File) -> Iterator[Event]:
        while True:
            try:
                event = self._event_of(file)
            except (WindowDeleted, FidClunked):
                return
            yield event

    def _event_of(self, file: File, timeout: Optional[float] = None) -> Event:
        with self._reading:
            while True:
                event = self._events.next()
                if event:
                    return event
                data = file.read(timeout=timeout)
                if not data:
                    raise Error(f"{file.name}: it gave no event")
                self._events.feed(data)

    def write_event(self, event: Event) -> None:
        """Hands an event that was read back to the editor, which then does what was asked for."""
        self.write("event", event.back())

    def text_of(self, event: Event) -> str:
        """The text of an event; where it has none since it is long, what stands at its place now."""
        if event.text or event.q0 == event.q1 or event.is_delete:
            return event.text
        return self.tag()[event.q0 : event.q1] if event.in_tag else self.text_at(f"#{event.q0},#{event.q1}")

    # -- its end for this program

    def close(self) -> None:
        """Closes its files; the window stays. Whoever waits for an event is told. An end of the connection does it, too."""
        with self._lock:
            files, self._files = [*self._files.values()], {}
        with suppress(Ended):
            for file in files:
                file.close()

    def __enter__(self) -> "Win":
        return self

    def __exit__(self, *_: object) -> None:
        self.close()


def windows(index: str) -> List[WinInfo]:
    """The windows that the text of `index` lists."""
    return [WinInfo.parse(line) for line in index.split("\n") if line]
