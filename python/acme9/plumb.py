"""The plumber, and its messages: docs/formats/plumbing.md."""

import re
from dataclasses import dataclass, field
from typing import Dict, Optional, Tuple, Union

from .client import Tree
from .errors import BadMessage
from .items import Items

_LINES = 6
_ATTRIBUTE = re.compile(r" *([A-Za-z0-9_]+)=(?:'((?:[^']|'')*)'|([^ \t'=]*))(?= |$)")
_QUOTED = re.compile(r"[ \t'=]")


@dataclass
class PlumbMessage:
    """A message, with the names of plumb(6): the data, who sends it, the port that it is for, the directory that names
    in it are relative to, the type of the data, and attributes."""

    data: bytes
    src: str = ""
    dst: str = ""
    wdir: str = "/"
    type: str = "text"
    attr: Dict[str, str] = field(default_factory=dict)

    def text(self) -> str:
        """The data as text."""
        return self.data.decode("utf-8", "replace")

    def encode(self) -> bytes:
        """Its bytes as they are sent."""
        lines = [self.src, self.dst, self.wdir, self.type, encode_attr(self.attr)]
        if any("\n" in it for it in lines):
            raise BadMessage("a newline can stand in the data of a plumb message alone")
        return "".join(f"{it}\n" for it in (*lines, len(self.data))).encode("utf-8") + self.data

    @classmethod
    def decode(cls, data: bytes) -> Optional[Tuple["PlumbMessage", bytes]]:
        """The message that bytes begin with, and the bytes behind it; None where more bytes are wanted."""
        parts = data.split(b"\n", _LINES)
        if len(parts) <= _LINES:
            return None
        src, dst, wdir, kind, attr = (it.decode("utf-8", "replace") for it in parts[:5])
        if not re.fullmatch(rb"[0-9]+", parts[5]):
            raise BadMessage(f"no number of bytes in a plumb message: {parts[5]!r}")
        count, rest = int(parts[5]), parts[6]
        if len(rest) < count:
            return None
        return cls(rest[:count], src, dst, wdir, kind, decode_attr(attr)), rest[count:]


def encode_attr(attr: Dict[str, str]) -> str:
    """Attributes as a line has them."""
    quoted = {name: "'" + value.replace("'", "''") + "'" if _QUOTED.search(value) else value for name, value in attr.items()}
    return " ".join(f"{name}={value}" for name, value in quoted.items())


def decode_attr(line: str) -> Dict[str, str]:
    """The attributes in a line."""
    found: Dict[str, str] = {}
    line, at = line.strip(" "), 0
    while at < len(line):
        one = _ATTRIBUTE.match(line, at)
        if not one:
            raise BadMessage(f"no attribute: {line[at:]!r}")
        found[one[1]] = one[3] if one[2] is None else one[2].replace("''", "'")
        at = one.end()
    return found


class Port(Items[PlumbMessage]):
    """A port that is open: it gets a copy of each message that goes there, and first those that were kept."""

    def decode(self, data: bytes) -> Optional[Tuple[PlumbMessage, bytes]]:
        return PlumbMessage.decode(data)


class Plumber(Tree):
    """The plumber's tree over a connection."""

    NAME = "plumb"

    def send(self, message: Union[PlumbMessage, str]) -> None:
        """Sends a message, or one of a text. What no rule takes is a NoMatchingRule."""
        whole = PlumbMessage(message.encode("utf-8")) if isinstance(message, str) else message
        self.write("send", whole.encode())

    def port(self, name: str) -> Port:
        """Opens a port."""
        return Port(self.open(name))

    def rules(self) -> str:
        """The rules in force."""
        return self.read("rules")

    def set_rules(self, text: str) -> None:
        """Puts rules in the place of those that are in force."""
        with self.open("rules", "t") as file:
            file.write(text)

    def add_rules(self, text: str) -> None:
        """Puts rules behind those that are in force."""
        self.write("rules", text)
