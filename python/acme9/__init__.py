"""A client of acmefs, and of any server of 9P2000 over a Unix socket, in the standard library alone.

    from acme9 import Acme
    with Acme.dial("/tmp/acme.0") as acme:
        win = acme.new("/src/+watch")
        win.append("make: ok\\n")
        print(win.read_event())

Acme and Plumber are the two trees of a server, Win is a window, Event what is done in it; Log has what is done to all
windows, Jobs what is requested of programs outside. Below them, Connection has a tag for each message, so that any
number of threads may ask at once, and Tree and File are those of any 9P server. docs/manual/acme9.3.md has it all.
"""

from .acme import Acme
from .client import File, Tree
from .connection import Connection, namespace
from .errors import (
    BadMessage,
    Ended,
    Error,
    FidClunked,
    NoMatch,
    NoMatchingRule,
    NotFound,
    PermissionDenied,
    PortNotOpen,
    Refused,
    TimedOut,
    WindowDeleted,
    WindowModified,
)
from .events import Event, EventReader
from .plumb import Plumber, PlumbMessage, Port
from .watch import Job, Jobs, Log, LogEvent
from .window import Win, WinInfo

__all__ = [
    "Acme",
    "BadMessage",
    "Connection",
    "Ended",
    "Error",
    "Event",
    "EventReader",
    "FidClunked",
    "File",
    "Job",
    "Jobs",
    "Log",
    "LogEvent",
    "NoMatch",
    "NoMatchingRule",
    "NotFound",
    "PermissionDenied",
    "PlumbMessage",
    "Plumber",
    "Port",
    "PortNotOpen",
    "Refused",
    "TimedOut",
    "Tree",
    "Win",
    "WinInfo",
    "WindowDeleted",
    "WindowModified",
    "namespace",
]
