"""What can go wrong, as exceptions. What the server refuses is a Refused with the server's words."""

from typing import Dict, Type


class Error(Exception):
    """Whatever goes wrong between a program and a server."""


class Refused(Error):
    """The server refused a message: `words` is what it said, and `file` the name of the file, where it was about one.
    Some words have a class of their own, below."""

    def __init__(self, words: str, file: str = ""):
        super().__init__(words)
        self.words, self.file = words, file

    def __str__(self) -> str:
        return f"{self.file}: {self.words}" if self.file else self.words


class NotFound(Refused):
    """There is no such file or window: `file not found`."""


class PermissionDenied(Refused):
    """The file isn't opened, made or changed so: `permission denied`."""


class NoMatch(Refused):
    """An expression in an address has no match: `no match`."""


class WindowDeleted(Refused):
    """The window of the file is gone: `window deleted`."""


class WindowModified(Refused):
    """`del` leaves a modified window as it is: `window modified`."""


class FidClunked(Refused):
    """The file was closed while it was being read: `fid clunked`."""


class PortNotOpen(Refused):
    """Nobody reads the port of a message: `port not open`."""


class NoMatchingRule(Refused):
    """No rule of the plumber takes a message: `no matching rule`."""


class Ended(Error, ConnectionError):
    """The connection has ended; the text says how. Nothing can be asked over it any more."""


class TimedOut(Error, TimeoutError):
    """No answer came within the time that was given. The message was taken back, and is as if it was never sent."""


class BadMessage(Error, ValueError):
    """Bytes that are no message of 9P2000, or fields that fit in none."""


CLASSES: Dict[str, Type[Refused]] = {
    "file not found": NotFound,
    "permission denied": PermissionDenied,
    "no match": NoMatch,
    "window deleted": WindowDeleted,
    "window modified": WindowModified,
    "fid clunked": FidClunked,
    "port not open": PortNotOpen,
    "no matching rule": NoMatchingRule,
}


def refusal(words: str) -> Refused:
    """The exception for what a server said."""
    return CLASSES.get(words, Refused)(words)
