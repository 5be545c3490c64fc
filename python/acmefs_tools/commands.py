"""What the commands have in common: their page, their inputs and how they end."""

import io
import os
import sys
from typing import Callable, List, Optional, cast

from .lines import Fault


class BadWords(Exception):
    """The words of a command aren't known."""


def say(name: str, text: str) -> None:
    """Writes to the standard error, on which not all that is said need be UTF-8."""
    sys.stderr.write(f"{name}: {text}\n".encode("utf-8", "backslashreplace").decode("utf-8"))


def content(path: Optional[str]) -> bytes:
    """The bytes of a file; of the standard input for `-`, and where none is named."""
    if path is None or path == "-":
        return sys.stdin.buffer.read()
    with open(path, "rb") as file:
        return file.read()


def run(name: str, page: str, words: List[str], does: Callable[[List[str]], int]) -> int:
    """The status of a command that does its words: 1 where they aren't known, 2 where it has a fault. Its page is what
    --help shows, and its usage the first part of that."""
    if words[:1] in (["--help"], ["-h"]):
        sys.stdout.write(page)
        return 0
    cast(io.TextIOWrapper, sys.stdout).reconfigure(encoding="utf-8", errors="surrogateescape", newline="\n")
    try:
        status = does(words)
        sys.stdout.flush()
        return status
    except BadWords as why:
        usage = page.partition("\n\n")[0]
        say(name, f"{why}\n{usage}")
        return 1
    except BrokenPipeError:
        os.dup2(os.open(os.devnull, os.O_WRONLY), 1)
        return 0
    except (Fault, OSError) as why:
        sys.stdout.flush()
        say(name, str(why))
        return 2
