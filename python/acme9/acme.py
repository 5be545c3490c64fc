"""The editor: its windows by number and by name, what is done to them, and what is requested."""

from typing import List, Optional

from .client import Tree
from .plumb import Plumber
from .watch import Jobs, Log
from .window import Win, WinInfo, windows


class Acme(Tree):
    """The editor's tree over a connection."""

    NAME = "acme"

    def new(self, name: str = "") -> Win:
        """A new window, with a name if one is given."""
        win = Win.make(self)
        if name:
            win.name(name)
        return win

    def win(self, id: int) -> Win:
        """The window of a number; a NotFound where none lives."""
        win = Win(self, id)
        win.file("ctl")
        return win

    def windows(self) -> List[WinInfo]:
        """All windows that live, by number."""
        return windows(self.read("index"))

    def find(self, name: str) -> Optional[Win]:
        """The first window of a name."""
        return next((self.win(it.id) for it in self.windows() if it.name == name), None)

    def cons(self, text: str) -> None:
        """Puts a text at the end of the window /+Errors."""
        self.write("cons", text)

    def log(self) -> Log:
        """What is done to windows from now on."""
        return Log(self.open("log"))

    def jobs(self) -> Jobs:
        """The requests that wait for a program, those that were made before among them."""
        return Jobs(self.open("jobs", "rw"))

    def plumber(self) -> Plumber:
        """The plumber, over the same connection."""
        return Plumber(self.connection)
