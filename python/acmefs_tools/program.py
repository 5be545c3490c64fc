"""Runs the program acmefs on transcripts.

The program is what ACMEFS names; else the one that is built in the repository; else the command beside these files:
as installed the program itself, and in the repository the launcher, which builds the program.
"""

import os
import subprocess
import tempfile
from typing import Any, Iterator, Sequence

from .lines import Fault, refused_line

TOP = os.path.dirname(os.path.dirname(os.path.dirname(os.path.realpath(__file__))))
BUILT = f"{TOP}/crates/acmefs/out/acmefs"


def command() -> str:
    """The program's path."""
    named = os.environ.get("ACMEFS")
    return named or (BUILT if os.access(BUILT, os.X_OK) else f"{TOP}/acmefs")


def transcript(lines: Sequence[str]) -> bytes:
    """Lines as an input of the program."""
    return "".join(f"{line}\n" for line in lines).encode("utf-8")


def started(word: str, **streams: Any) -> "subprocess.Popen[bytes]":
    """The program, which has begun on its input."""
    try:
        return subprocess.Popen([command(), word], stdout=subprocess.PIPE, **streams)
    except OSError as why:
        raise Fault(f"{command()} cannot be started: {why.strerror}") from None


def outcome(status: int, output: str, word: str) -> str:
    """The output, where all of an input was done."""
    if status:
        raise Fault(refused_line(output) or f"acmefs {word} ended with status {status}")
    return output


def replayed(given: bytes) -> str:
    """What a replay of a transcript writes, which must not be refused."""
    with started("replay", stdin=subprocess.PIPE) as ran:
        output, _ = ran.communicate(given)
    return outcome(ran.returncode, output.decode("utf-8", "replace"), "replay")


def traced(lines: Sequence[str]) -> Iterator[str]:
    """The lines of a trace of a transcript, as they come. A refusal, or another end, is a Fault at the end."""
    line = ""
    with tempfile.TemporaryFile() as file:
        file.write(transcript(lines))
        file.seek(0)
        with started("trace", stdin=file) as ran:
            for data in ran.stdout or ():
                line = data.decode("utf-8", "replace").rstrip("\n")
                yield line
        outcome(ran.returncode, line, "trace")
