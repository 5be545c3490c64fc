"""The steps of a trace in words that people use, as `0 write 1/event 'ML9 9\\n'`.

Files have their names: a window's are `1/body` and so on, the editor's and the plumber's other files as they are, and
the two roots are `/` and `plumb/`.
"""

from dataclasses import dataclass, field
from typing import Dict, List, Optional, Tuple

from acme9 import wire
from acme9.errors import BadMessage
from acme9.wire import Message, Qid

from .lines import unescape
from .trace import Spoken, Step

FILES = {1: "addr", 2: "body", 3: "ctl", 4: "data", 5: "errors", 6: "event", 7: "tag", 8: "xdata"}
FIXED = {
    0: "/", 1: "cons", 2: "consctl", 3: "index", 4: "label", 5: "new/", 6: "log", 7: "jobs", 16: "plumb/", 17: "send",
    18: "rules",
}  # fmt: skip
WAYS = ("r", "w", "rw", "x")
# how runes are shown that a line can't have; a byte that is no UTF-8 is one of the surrogates
CONTROL = {it: f"\\x{it & 255:02x}" for it in [*range(32), 127, *range(0xDC80, 0xDD00)]}
CONTROL.update({9: "\\t", 10: "\\n", 39: "\\'", 92: "\\\\"})
# the first path of a port
PORTS = 1 << 40


def quoted_text(text: str) -> str:
    """A text in one line, between two `'`."""
    return f"'{text.translate(CONTROL)}'"


def quoted(data: bytes) -> str:
    """Bytes so, where those that are no UTF-8 are shown as `\\xNN`."""
    return quoted_text(data.decode("utf-8", "surrogateescape"))


def file_name(qid: Qid, walked: str) -> str:
    """The name of a file, where a walk to `walked` has led to it."""
    if qid.path in FIXED:
        return FIXED[qid.path]
    if qid.path >= PORTS:
        return walked.rpartition("/")[2]
    return f"{qid.path >> 8}/{FILES.get(qid.path & 255, '')}"


@dataclass
class Answer:
    """What a connection is told by a reply. `asked` is what it had asked, where that was an earlier step."""

    connection: int
    words: str
    is_refusal: bool = False
    asked: str = ""


@dataclass
class Told:
    """A step in words. `connection` is None for what no connection does; `file` is the file of the message's fid."""

    entry: int
    connection: Optional[int]
    words: str
    file: str = ""
    answers: List[Answer] = field(default_factory=list)
    waits: bool = False

    def line(self) -> str:
        """The step and its own answer in one line."""
        front = "-" if self.connection is None else str(self.connection)
        own = [it.words for it in self.answers if not it.asked and it.words]
        return " ".join([front, self.words, *(f"-> {it}" for it in own), *(["waits"] if self.waits else [])])

    def later(self) -> List[str]:
        """A line for each answer to an earlier step."""
        return [f"{it.connection} {it.asked} -> {it.words or 'done'}" for it in self.answers if it.asked]


@dataclass
class Pending:
    """A message that has no reply yet."""

    message: Message
    words: str
    name: str


class Teller:
    """Follows fids and tags through the steps of a trace."""

    def __init__(self) -> None:
        self._names: Dict[Tuple[int, int], str] = {}
        self._pending: Dict[Tuple[int, int], Pending] = {}

    def tell(self, step: Step) -> Told:
        """A step in words; the steps must come in order."""
        if not step.spoken:
            return self._event(step)
        connection, message = step.spoken
        words, name = self._asked(connection, message), self._name(connection, message.fields.get("fid"))
        told = Told(step.entry, connection, words, name)
        own = (connection, message.tag)
        self._pending[own] = Pending(message, words, name)
        for reply in step.replies:
            told.answers.append(self._answer(reply, own))
        told.waits = own in self._pending
        return told

    def _event(self, step: Step) -> Told:
        """A step that is no message."""
        word, _, rest = step.line.partition(" ")
        if word in ("dial", "hang", "took"):
            number, _, cause = rest.partition(" ")
            words = {"dial": "dials", "hang": f"ends: {cause}", "took": "takes its replies"}[word]
            told = Told(step.entry, int(number), words)
        else:
            front, colon, text = step.line.partition(" :")
            told = Told(step.entry, None, f"{front} {quoted_text(unescape(text))}" if colon else step.line)
        told.answers += [self._answer(it, None) for it in step.replies]
        if word == "hang":
            self._forget(int(rest.partition(" ")[0]))
        return told

    def _forget(self, connection: int) -> None:
        """Frees the fids of a connection; its waiting reads get no answer."""
        self._names = {it: name for it, name in self._names.items() if it[0] != connection}
        self._pending = {it: one for it, one in self._pending.items() if it[0] != connection}

    def _name(self, connection: int, fid: Optional[int]) -> str:
        """The name of a fid's file."""
        return "" if fid is None else self._names.get((connection, fid), f"fid {fid}")

    def _asked(self, connection: int, message: Message) -> str:
        """A message to the server in words."""
        verb, fields = message.name[1:], message.fields
        if verb == "version":
            return f"version {quoted_text(fields['version'])} {fields['msize']}"
        if verb in ("attach", "auth"):
            return f"{verb} {fields['aname'] or 'acme'}"
        if verb == "flush":
            flushed = self._pending.get((connection, fields["oldtag"]))
            return f"flush {flushed.words if flushed else 'nothing'}"
        name = self._name(connection, fields["fid"])
        if verb == "walk":
            return f"walk {path_of(name, fields['names'])}"
        if verb == "create":
            return f"create {path_of(name, [fields['name']])}"
        behind = {
            "open": lambda: f" {way_of(fields['mode'])}",
            "read": lambda: f" {fields['count']} at {fields['offset']}",
            "write": lambda: f" {quoted(fields['data'])}",
        }
        return f"{verb} {name}" + behind.get(verb, str)()

    def _answer(self, reply: Spoken, own: Optional[Tuple[int, int]]) -> Answer:
        """A reply in words; what it does to the fids is noted."""
        connection, message = reply
        key = (connection, message.tag)
        pending = self._pending.pop(key, None)
        if not pending:
            return Answer(connection, message.name[1:], asked="something")
        asked = "" if key == own else pending.words
        if message.name == "Rerror":
            if pending.message.name in ("Tremove", "Tclunk"):
                self._names.pop((connection, pending.message["fid"]), None)
            return Answer(connection, f"refused: {message['ename']}", True, asked)
        self._note(connection, pending, message)
        return Answer(connection, answer_words(pending, message, self._names, connection), False, asked)

    def _note(self, connection: int, pending: Pending, reply: Message) -> None:
        """What an answer does to the names of fids, and to what waits."""
        asked = pending.message
        if asked.name == "Tversion":
            self._forget(connection)
        elif asked.name == "Tattach":
            self._names[connection, asked["fid"]] = file_name(reply["qid"], "")
        elif asked.name == "Twalk" and len(reply["qids"]) == len(asked["names"]):
            walked = path_of(pending.name, asked["names"])
            name = file_name(reply["qids"][-1], walked) if reply["qids"] else pending.name
            self._names[connection, asked["newfid"]] = name
        elif asked.name == "Tclunk":
            self._names.pop((connection, asked["fid"]), None)
        elif asked.name == "Tflush":
            self._pending.pop((connection, asked["oldtag"]), None)


def path_of(start: str, names: List[str]) -> str:
    """Names behind the name of a directory."""
    if not names:
        return start
    front = "" if start == "/" else start if start.endswith("/") else f"{start}/"
    return front + "/".join(it.translate(CONTROL) for it in names)


def way_of(mode: int) -> str:
    """What a file is opened for."""
    bits = [" truncated"] if mode & wire.OTRUNC else []
    rest = mode & ~(wire.OTRUNC | 3)
    return "".join([WAYS[mode & 3], *bits, f" with 0x{rest:x}" if rest else ""])


def answer_words(pending: Pending, reply: Message, names: Dict[Tuple[int, int], str], connection: int) -> str:
    """What is answered, where it says more than that it is done."""
    asked = pending.message
    if reply.name == "Rversion":
        return f"{quoted_text(reply['version'])} {reply['msize']}"
    if reply.name == "Rread":
        return entries_of(reply["data"]) if pending.name.endswith("/") else quoted(reply["data"])
    if reply.name == "Rwrite":
        return "" if reply["count"] == len(asked["data"]) else str(reply["count"])
    if reply.name == "Rstat":
        return entries_of(reply["stat"])
    if reply.name == "Rwalk":
        if len(reply["qids"]) < len(asked["names"]):
            return f"stopped behind {len(reply['qids'])} names"
        name = names[connection, asked["newfid"]]
        return "" if name == path_of(pending.name, asked["names"]) else name
    return ""


def entries_of(data: bytes) -> str:
    """The names in the records of a directory."""
    try:
        found = wire.decode_stats(data)
    except BadMessage:
        return f"{len(data)} bytes"
    return " ".join(it.name + "/" * it.is_directory for it in found) or "nothing"
