"""Builds the program where it isn't current."""

import os
import re
import shutil
import subprocess
from typing import IO, Iterator, List, Union

from launch import child, crates
from launch.telling import TOP, fail, say, write

NAME = "acmefs"
CRATE = f"{TOP}/crates/{NAME}"
PROGRAM = f"{CRATE}/out/{NAME}"
# tells when the launcher's last build began; a program without it is of the gate
STAMP = f"{PROGRAM}.built"
# what proves the crates, and all that the last build said
PROVE = f"{TOP}/.ci/prove"
SAID = f"{PROGRAM}.said"
# what tells of a fault: lines that only say that a crate failed give no reason
FAULT = re.compile(r": error|error:|not proved|no proof|NOT PROVED|^rt: (?!chose |note: |C is allowed)")
# how many lines of what was said are shown
SHOWN = 20


def sources_of(crate: str) -> Iterator[str]:
    """The files and folders that a crate is made from."""
    for part in ("src", "specs", "proofs"):
        for folder, _, files in os.walk(f"{TOP}/crates/{crate}/{part}"):
            yield folder
            yield from (f"{folder}/{it}" for it in files)


def sources() -> Iterator[str]:
    """The files and folders that the program is made from."""
    yield from (crates.LIST, f"{TOP}/HANDLES")
    for name in crates.made_of(NAME):
        yield from sources_of(name)


def is_current() -> bool:
    """Whether the program is built, and nothing that it is made from is newer."""
    if not os.access(PROGRAM, os.X_OK):
        return False
    built = os.stat(STAMP if os.path.exists(STAMP) else PROGRAM).st_mtime_ns
    return all(os.stat(it).st_mtime_ns <= built for it in sources() if os.path.exists(it))


def prove(said: IO[str]) -> bool:
    """Proves the crates, and shows on one line how many are done. What the toolchain says goes to a file, but how it is
    done, which is shown."""
    count, done = len(crates.made_of(NAME)), 0
    write(2, f"acmefs: crates proved: 0 of {count}")
    streams = {"stdin": subprocess.DEVNULL, "stdout": subprocess.PIPE, "stderr": subprocess.STDOUT}
    with child.build_step([PROVE, NAME], text=True, errors="replace", **streams) as ran:
        for line in ran.stdout:
            said.write(line)
            if line.startswith("prove: "):
                write(2, f"\racmefs: proving {line[7:]}")
            done += bool(re.fullmatch(r"\w+ proved\n", line))
            write(2, f"\racmefs: crates proved: {done} of {count}")
        write(2, "\n")
    return ran.returncode == 0


def faults(lines: List[str]) -> List[str]:
    """The lines that give a reason: the first that tell of a fault, or else the last ones."""
    found = [it for it in lines if FAULT.search(it)]
    is_broken = any(it.startswith("Traceback (") for it in lines)
    return found[:SHOWN] if found and not is_broken else lines[-SHOWN:]


def does_replay(program: str, said: Union[IO[str], int]) -> bool:
    """Whether a program is there and does a transcript without lines."""
    streams = {"stdin": subprocess.DEVNULL, "stdout": subprocess.DEVNULL, "stderr": said}
    return os.access(program, os.X_OK) and not subprocess.call([program, "replay"], **streams)


def build(why: str) -> None:
    """Proves and builds the program, and tries it on a transcript without lines. The stamp has the time of the start,
    so that a source which changes meanwhile is seen at the next use."""
    say(f"{why}; proving and building the program (./acmefs --unproved runs it in some two minutes, unproved)")
    os.makedirs(os.path.dirname(SAID), exist_ok=True)
    with open(SAID, "w+", encoding="utf-8", errors="replace") as said:
        said.write(f"{why}\n")
        said.flush()
        started = os.stat(SAID).st_mtime_ns
        if not (prove(said) and does_replay(PROGRAM, said)):
            said.flush()
            said.seek(0)
            write(2, "".join(faults(said.readlines())))
            fail(f"the program was not built; what rt said stands above, and all of it in {SAID}")
    with open(STAMP, "w", encoding="utf-8"):
        os.utime(STAMP, ns=(started, started))


def version() -> str:
    """The version and the commit that stand here, and whether the program is built of it. Nothing is built."""
    with open(f"{TOP}/VERSION", encoding="utf-8") as file:
        number = file.read().strip()
    commit = "an unknown commit"
    if os.path.exists(f"{TOP}/.git"):
        git = ["git", "-C", TOP]
        ran = subprocess.run([*git, "log", "-1", "--format=%h of %cs"], stdout=subprocess.PIPE, text=True)
        commit = ran.stdout.strip() or commit
        if subprocess.call([*git, "diff", "--quiet", "HEAD"]):
            commit += ", with changes"
    built = "is built of the sources as they are" if is_current() else "will be proved and built at its next use"
    return f"acmefs {number} at {commit}\nThe program {built}.\n"


def needs_toolchain() -> None:
    if shutil.which("rt") is None:
        fail("the toolchain's command rt is not in PATH, so the program cannot be built")
