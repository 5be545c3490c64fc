"""The program from the sources as they are, with nothing proved."""

import contextlib
import hashlib
import os
import shutil
import stat
import subprocess
import tempfile
import time
from typing import List, Optional

from launch import child, crates
from launch.building import CRATE, NAME, does_replay
from launch.telling import TOP, say

# where the checked programs are kept, each by its key, and how many
KEPT = f"{CRATE}/out/unproved"
MOST_KEPT = 2
# what the sources are compiled from
PARTS = ("src", "specs")
# how long a run of `rt try` may take, in seconds
LONGEST = 86400
LOOKS = 0.2


def key() -> str:
    """A sum of the sources and of the toolchain that compiles them."""
    made = hashlib.sha256()
    kit = os.path.dirname(os.path.dirname(os.path.realpath(shutil.which("rt"))))
    files = [crates.LIST, *(f"{kit}/{it}" for it in ("KIT-ID", "WHAT", "bin/rt", "bin/rtlib.py"))]
    for name in sorted(crates.made_of(NAME)):
        for part in PARTS:
            for folder, folders, names in os.walk(f"{TOP}/crates/{name}/{part}"):
                folders.sort()
                files += [f"{folder}/{it}" for it in sorted(names)]
    for path in files:
        made.update(f"{os.path.relpath(path, TOP)}\0".encode("utf-8", "surrogateescape"))
        with contextlib.suppress(OSError), open(path, "rb") as file:
            made.update(hashlib.sha256(file.read()).digest())
    return made.hexdigest()[:32]


def in_words(words: List[str]) -> List[str]:
    """The public command that compiles the sources, with checks in them, and runs that with these words."""
    return ["rt", "try", "--seconds", str(LONGEST), "--", *words]


def program_in(folder: str) -> Optional[str]:
    """An executable program in a folder, wherever in it that stands."""
    for at, _, names in os.walk(folder):
        for path in (f"{at}/{it}" for it in names):
            with contextlib.suppress(OSError):
                there = os.lstat(path).st_mode
                if stat.S_ISREG(there) and there & stat.S_IXUSR:
                    return path
    return None


def copy(made: str, to: str) -> None:
    """Copies a program to its place, and drops those that were kept longest."""
    os.makedirs(KEPT, exist_ok=True)
    part = f"{to}.{os.getpid()}"
    shutil.copy(made, part)
    os.replace(part, to)
    kept = [f"{KEPT}/{it}" for it in os.listdir(KEPT) if "." not in it]
    for it in sorted(kept, key=lambda it: os.stat(it).st_mtime_ns)[:-MOST_KEPT]:
        os.remove(it)


def compile_to(to: str) -> bool:
    """Compiles the sources by the public command. It keeps no program, but has it in the folder for what is temporary
    as long as that runs: so it is asked to serve, and once its socket is there the program is taken."""
    with tempfile.TemporaryDirectory(prefix="acmefs-unproved-") as room, open(f"{room}/said", "w+b") as said:
        ways = {"stdin": subprocess.DEVNULL, "stdout": subprocess.DEVNULL, "stderr": said, "cwd": CRATE}
        words = in_words(["serve", f"{room}/s", "--clients", "1"])
        with child.build_step(words, env={**os.environ, "TMPDIR": room}, **ways) as ran:
            while ran.poll() is None and not os.path.exists(f"{room}/s.0"):
                time.sleep(LOOKS)
            made = program_in(room) if ran.poll() is None else None
            if made:
                copy(made, to)
                child.end(ran)
        if not made:
            said.seek(0)
            shown = said.read().decode("utf-8", "replace").splitlines()[-20:]
            say("the sources could not be compiled; the last that rt try said:\n" + "\n".join(shown))
        return made is not None


def program() -> Optional[str]:
    """The checked program of the sources, compiled where it isn't kept; none where it can't be had so."""
    kept = f"{KEPT}/{key()}"
    if not os.access(kept, os.X_OK):
        say("nothing is proved: the sources are compiled as they are, which takes some two minutes")
        if not compile_to(kept):
            return None
        if not does_replay(kept, subprocess.DEVNULL):
            os.remove(kept)
            return None
    else:
        say("nothing is proved: this is the program of the sources as they are, compiled before")
        os.utime(kept)
    return kept
