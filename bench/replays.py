"""What the scripts of bench/ share that measure `acmefs replay`: messages of a transcript, and the processor time of a
run from file to file."""

import os
import re
import shutil
import subprocess
import sys
import tempfile
from typing import Any, Callable, Iterable, Iterator, List, Optional, Sequence, Tuple

TOP = os.path.dirname(os.path.dirname(os.path.realpath(__file__)))
PROGRAM = f"{TOP}/crates/acmefs/out/acmefs"
# A message is refused at 256 replies that were not taken.
TAKES = 100

sys.path.insert(0, f"{TOP}/python")
from acme9 import wire  # noqa: E402


def message(name: str, tag: int, **fields: Any) -> bytes:
    """A line for a message of connection 0."""
    return b"msg 0 %s\n" % wire.encode(name, tag, **fields).hex().encode()


def dialled(tree: str = "", msize: int = 65560, user: str = "u") -> bytes:
    """Connection 0 with a session, and fid 0 the root of a tree."""
    version = message("Tversion", wire.NOTAG, msize=msize, version="9P2000")
    return b"dial 0\n" + version + message("Tattach", 1, fid=0, afid=wire.NOFID, uname=user, aname=tree)


def opened(fid: int, name: str, mode: int) -> bytes:
    """A fid of a file below the root."""
    walk = message("Twalk", 1, fid=0, newfid=fid, names=name.split("/"))
    return walk + message("Topen", 1, fid=fid, mode=mode)


def write(fid: int, data: bytes) -> bytes:
    return message("Twrite", 1, fid=fid, offset=0, data=data)


def read(fid: int, offset: int, count: int) -> bytes:
    return message("Tread", 1, fid=fid, offset=offset, count=count)


def clunk(fid: int) -> bytes:
    return message("Tclunk", 1, fid=fid)


def taken(messages: Iterable[bytes]) -> Iterator[bytes]:
    """The messages, with the replies taken again and again."""
    for k, one in enumerate(messages):
        yield one
        if k % TAKES == TAKES - 1:
            yield b"took 0\n"


def processor_time(program: str, lines: Iterable[bytes], room: str) -> Tuple[float, int]:
    """The processor seconds of a replay of these lines, and the bytes that it wrote."""
    given, made = os.path.join(room, "in"), os.path.join(room, "out")
    with open(given, "wb") as file:
        file.writelines(lines)
    with open(given, "rb") as source, open(made, "wb") as sink:
        started = subprocess.Popen([program, "replay"], stdin=source, stdout=sink)
        _, status, usage = os.wait4(started.pid, 0)
    if status:
        sys.exit(f"{program} ended with status {os.waitstatus_to_exitcode(status)}")
    return usage.ru_utime + usage.ru_stime, os.path.getsize(made)


def instructions(program: str, lines: Iterable[bytes]) -> Optional[int]:
    """The instructions of a replay of these lines as valgrind's callgrind counts them, or None where it isn't there."""
    valgrind = shutil.which("valgrind")
    if not valgrind:
        return None
    words = [valgrind, "--tool=callgrind", "--callgrind-out-file=/dev/null", program, "replay"]
    ran = subprocess.run(words, input=b"".join(lines), stdout=subprocess.DEVNULL, stderr=subprocess.PIPE)
    counted = re.search(rb"Collected : (\d+)", ran.stderr)
    if ran.returncode or not counted:
        sys.exit(f"{program} ended with status {ran.returncode} under valgrind")
    return int(counted[1])


def least(program: str, transcripts: Sequence[Callable[[], Iterable[bytes]]], runs: int) -> List[float]:
    """The least processor seconds of each of the transcripts (functions that give lines), which run in turn."""
    times = []
    with tempfile.TemporaryDirectory() as room:
        for _ in range(runs):
            times.append([processor_time(program, lines(), room)[0] for lines in transcripts])
    return [min(of) for of in zip(*times)]
