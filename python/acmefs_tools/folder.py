"""Files below one folder of the host, and nowhere else.

    with Folder(path) as folder:
        folder.store(["src", "a.c"], data)      stores a file, and makes the folders above it
        for found in folder.walk(why): ..       all that is below it, in order; links aren't followed

Each part of a name is opened by itself, from the folder that holds it, and no link is followed. So nothing outside is
read or written, whatever is moved or linked meanwhile. A file is written beside its place and moved there whole: one
that had a second name elsewhere stays as it was there.
"""

import contextlib
import os
import stat
from typing import Callable, Iterator, List, NamedTuple, Optional, Sequence

from .lines import INPUT_LIMIT, Fault

DIRECTORY = os.O_RDONLY | os.O_DIRECTORY | os.O_NOFOLLOW | os.O_CLOEXEC
FILE = os.O_RDONLY | os.O_NOFOLLOW | os.O_NONBLOCK | os.O_CLOEXEC
NEW = os.O_WRONLY | os.O_CREAT | os.O_EXCL | os.O_NOFOLLOW | os.O_CLOEXEC


class Found(NamedTuple):
    """What stands in a folder: a file with its data, a folder, or what is left out and why."""

    parts: Sequence[str]
    data: Optional[bytes] = None
    why: str = ""


class Folder:
    """A folder that its user names, by whatever path."""

    def __init__(self, path: str):
        try:
            self._top = os.open(path, os.O_RDONLY | os.O_DIRECTORY | os.O_CLOEXEC)
        except OSError as why:
            raise Fault(f"{path}: {why.strerror}") from None

    def __enter__(self) -> "Folder":
        return self

    def __exit__(self, *_: object) -> None:
        os.close(self._top)

    # -- storing

    def store(self, parts: Sequence[str], data: bytes) -> None:
        """Stores a file below the folder. A Fault says why it isn't stored, and then nothing is changed but that
        folders above it may be made."""
        for part in parts:
            check_part(part)
        with contextlib.ExitStack() as opened:
            place = self._top
            for part in parts[:-1]:
                place = enter(place, part)
                opened.callback(os.close, place)
            put(place, parts[-1], data)

    # -- walking

    def walk(self, why: Callable[[str], str]) -> Iterator[Found]:
        """All that is below the folder: each file, each folder before what is in it, and all that is left out. Names
        for which `why` gives a reason are."""
        yield from below(self._top, [], why)


def check_part(part: str) -> None:
    """Refuses what is no plain name."""
    if part in ("", ".", "..") or "/" in part or "\0" in part:
        raise Fault(f"`{part}` is no name of a file")


def enter(place: int, part: str) -> int:
    """Opens a folder in a folder, which is made where nothing has that name."""
    with contextlib.suppress(FileExistsError):
        os.mkdir(part, dir_fd=place)
    try:
        return os.open(part, DIRECTORY, dir_fd=place)
    except OSError as why:
        kind = kind_of(place, part, os.strerror(why.errno or 0))
        raise Fault(f"`{part}`: {kind}") from None


def kind_of(place: int, name: str, plain: str) -> str:
    """What stands under a name, where that is no plain file and no folder; else what is given."""
    try:
        mode = os.stat(name, dir_fd=place, follow_symlinks=False).st_mode
    except OSError:
        return plain
    if stat.S_ISLNK(mode):
        return "a link"
    return plain if stat.S_ISDIR(mode) or stat.S_ISREG(mode) else "neither a file nor a folder"


def put(place: int, name: str, data: bytes) -> None:
    """Puts a file into a folder, in the place of a plain file that has the name. It keeps that one's mode."""
    mode = mode_of(place, name)
    part = f".acmefs-tree-{os.getpid()}"
    try:
        with open(os.open(part, NEW, 0o666, dir_fd=place), "wb") as file:
            file.write(data)
            if mode is not None:
                os.fchmod(file.fileno(), mode)
        os.replace(part, name, src_dir_fd=place, dst_dir_fd=place)
    except OSError as why:
        with contextlib.suppress(OSError):
            os.unlink(part, dir_fd=place)
        raise Fault(f"`{name}`: {why.strerror}") from None


def mode_of(place: int, name: str) -> Optional[int]:
    """The mode of the plain file that has a name, None where nothing has it."""
    try:
        there = os.stat(name, dir_fd=place, follow_symlinks=False)
    except FileNotFoundError:
        return None
    except OSError as why:
        raise Fault(f"`{name}`: {why.strerror}") from None
    if not stat.S_ISREG(there.st_mode):
        raise Fault(f"`{name}`: {kind_of(place, name, 'a folder')}")
    return stat.S_IMODE(there.st_mode)


def below(place: int, front: List[str], why: Callable[[str], str]) -> Iterator[Found]:
    """What is in an open folder, and below it."""
    for name in sorted(os.listdir(place)):
        parts = [*front, name]
        try:
            yield from seen(place, parts, why)
        except OSError as fault:
            yield Found(parts, why=fault.strerror or str(fault))


def seen(place: int, parts: List[str], why: Callable[[str], str]) -> Iterator[Found]:
    """What stands under a name in an open folder, and below it."""
    name = parts[-1]
    mode = os.stat(name, dir_fd=place, follow_symlinks=False).st_mode
    if why(name):
        yield Found(parts, why=why(name))
    elif stat.S_ISDIR(mode):
        folder = os.open(name, DIRECTORY, dir_fd=place)
        try:
            yield Found(parts)
            yield from below(folder, parts, why)
        finally:
            os.close(folder)
    elif stat.S_ISREG(mode):
        yield Found(parts, content(place, name))
    else:
        yield Found(parts, why=kind_of(place, name, ""))


def content(place: int, name: str) -> bytes:
    """The bytes of a plain file in a folder; of one that no input has room for the first alone."""
    with open(os.open(name, FILE, dir_fd=place), "rb") as file:
        return file.read(INPUT_LIMIT + 4)
