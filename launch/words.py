"""The words that the program takes. Only those that it refuses are refused here, so that nobody waits for a build, or
for a server, to learn of a slip."""

import re
from typing import List, NamedTuple, Optional

MOST_CLIENTS = 64
MOST_ROUNDS = 100_000
TREES = ("acme", "plumb")
# the words that stand alone
ALONE = ("replay", "trace", "pack")


class Serving(NamedTuple):
    """Where a server listens: at the sockets PATH.0 to PATH.N-1."""

    path: str
    clients: int

    def sockets(self) -> List[str]:
        return [f"{self.path}.{it}" for it in range(self.clients)]


def number_in(word: str, most: int) -> Optional[int]:
    """The number that a word is, from 1 on, in digits without a leading zero."""
    return int(word) if re.fullmatch("[1-9][0-9]{0,5}", word) and int(word) <= most else None


def not_a_path(word: str) -> Optional[str]:
    """What is wrong with a path."""
    try:
        word.encode()
    except UnicodeEncodeError:
        return "PATH is no UTF-8"
    return "PATH is empty, or begins with `-`" if not word or word.startswith("-") else None


def serving(words: List[str]) -> Optional[Serving]:
    """What the words behind `serve` ask for: a path, and the option before or behind it, as one word or as two."""
    words = [part for it in words for part in (it.split("=", 1) if it.startswith("--clients=") else [it])]
    if len(words) == 3 and words[1] == "--clients":
        words = [words[1], words[2], words[0]]
    if len(words) != 3 or words[0] != "--clients" or not_a_path(words[2]):
        return None
    clients = number_in(words[1], MOST_CLIENTS)
    return Serving(words[2], clients) if clients else None


def slip_of_serve(words: List[str]) -> Optional[str]:
    if serving(words):
        return None
    return f"serve takes PATH, which isn't empty and doesn't begin with `-`, and --clients N, from 1 to {MOST_CLIENTS}"


def slip_of_do(words: List[str]) -> Optional[str]:
    if len(words) != 2:
        return "do takes PATH and TREE"
    if words[1] not in TREES:
        return f"TREE is acme or plumb, and not {words[1]!r}"
    return not_a_path(words[0])


def slip_of_drill(words: List[str]) -> Optional[str]:
    if len(words) == 1 and number_in(words[0], MOST_ROUNDS):
        return None
    return f"drill takes one number, from 1 to {MOST_ROUNDS:,}, in digits alone"


def slip(words: List[str]) -> Optional[str]:
    """What is wrong with words that the program refuses; none where it takes them."""
    command, rest = words[0], words[1:]
    if command in ALONE:
        return f"{command} takes no more words" if rest else None
    known = {"serve": slip_of_serve, "do": slip_of_do, "drill": slip_of_drill}
    return known[command](rest) if command in known else f"there is no command {command!r}"
