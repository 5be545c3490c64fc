"""Proves a crate and all those that it stands on, side by side, and builds it where it is a program.

    .ci/prove CRATE

The crates above a library read its statements and not its proofs, so each proof goes by itself, once those below it are
there, and of several that may be next the one with the most behind it comes first. Each has one process, and there are
as many side by side as there are processors and memory for them: a proof that several processes share takes up to two
thirds more of processor time, and others wait meanwhile (RT_JOBS gives another number). That needs parts of the
toolchain's command rt that not every kit has, so they are asked for before they are used, and the first of these ways
is gone that can be:

    1. side by side, where the kit keeps what is proved: what `rt ci` or an earlier run proved of the same files isn't
       proved again
    2. side by side, where it keeps nothing: what an earlier run proved and built stays in the crates' out/
    3. by the command `rt ci` alone, over a copy of these crates: it keeps what the kit itself keeps

A line of the output, `prove: ..`, says which. A line names each crate as it is done, `NAME proved` or `NAME failed`;
where one fails, what the toolchain said of it stands before that line, none is begun behind it, and the status is 1.
What the gate asks of texts alone the first two ways don't ask. A signal that ends this ends all that it started.
"""

import contextlib
import copy
import functools
import hashlib
import importlib.machinery
import importlib.util
import inspect
import os
import re
import shutil
import signal
import subprocess
import sys
import tempfile
from types import ModuleType
from typing import Any, Callable, Dict, List, Tuple, Union

from launch import crates
from launch.telling import TOP

# what a proof over statements takes of memory at most, in bytes
MEMORY = 2_500_000_000
# what is used of the toolchain's command, each with the number of its parameters: by both ways side by side,
SIDE_BY_SIDE = {
    "handles_of": 1, "processors": 0, "free": 0, "need": 1, "in_lanes": 1, "rtlib.guarded": 0, "rtlib.lock": 1,
    "Crate.ci": 3, "Crate.below": 1, "Crate.count": 2,
}  # fmt: skip
# by the one where the kit keeps what is proved,
KIT_KEEPS = {"crates_of": 1, "Kept": 1}
KEPT = {"key": 1, "give": 3, "is_built": 1, "keep": 3, "shrink": 0}
# and by the one where it doesn't
KEPT_HERE = {"rtlib.crates_below": 1, "rtlib.files_of": 1, "rtlib.sum_of": 1, "Crate.stamp": 1, "Crate.makes_rlib": 1}
# the signals that end this
ENDS = (signal.SIGHUP, signal.SIGINT, signal.SIGQUIT, signal.SIGTERM)


class Lacking(Exception):
    """Says why a way can't be gone."""


class Ended(BaseException):
    """A signal that ends this."""

    def __init__(self, number: int, _: object):
        super().__init__(number)
        self.number = number


def write(text: str) -> None:
    """Writes lines in one go: several threads do."""
    sys.stdout.write(f"{text}\n")
    sys.stdout.flush()


def say(text: str) -> None:
    write(f"prove: {text}")


def ends_by(handler: Any) -> None:
    """Has the signals that end this go to a handler. One that was ignored from the start stays so."""
    for it in ENDS:
        if signal.getsignal(it) != signal.SIG_IGN:
            signal.signal(it, handler)


def need_parts(of: object, parts: Dict[str, int]) -> None:
    """Stops this way where something has not all of these parts, or one that takes another number of parameters."""
    for path, count in parts.items():
        try:
            inspect.signature(functools.reduce(getattr, path.split("."), of)).bind(*[None] * count)
        except (AttributeError, TypeError, ValueError):
            raise Lacking(f"its command rt has no {path} of {count} parameters") from None


def toolchain() -> ModuleType:
    """The toolchain's command rt, as a module: its own command for one crate has the libraries' proofs read by all that
    stand on them, and `rt ci` with the crate's name tries wrong bodies, too, and leaves no program here."""
    path = os.path.realpath(shutil.which("rt"))
    with open(path, "rb") as file:
        if not re.match(rb"#!.*python", file.readline()):
            raise Lacking("its command rt is no Python program")
    loader = importlib.machinery.SourceFileLoader("rt_command", path)
    rt = importlib.util.module_from_spec(importlib.util.spec_from_loader("rt_command", loader))
    try:
        loader.exec_module(rt)
    except (Exception, SystemExit) as error:
        raise Lacking(f"its command rt can't be loaded: {error!r}") from None
    need_parts(rt, SIDE_BY_SIDE)
    rt.Crate.cuts_libraries = True
    rt.Crate.allowed = rt.handles_of(TOP)
    rt.rtlib.guarded()
    return rt


def with_below(name: str, every: List[Any]) -> List[Any]:
    """The crate of that name and those that it stands on, in the order of all."""
    wanted = {below for it in every if it.name == name for below in [it, *it.below()]}
    return [it for it in every if it in wanted]


def clear(crate: Any) -> None:
    """Removes the library or the program that stands here."""
    shutil.rmtree(f"{crate.folder}/out/rlib", ignore_errors=True)
    with contextlib.suppress(OSError):
        os.remove(f"{crate.folder}/out/{crate.name}")


class OfKit:
    """The crates of a kit that keeps what is proved, and what it keeps of them."""

    way = "side by side; what `rt ci` proved counts, and it keeps what is proved here"

    def __init__(self, rt: Any, name: str):
        need_parts(rt, KIT_KEEPS)
        self.crates = with_below(name, rt.crates_of(TOP))
        self.held = rt.rtlib.lock(self.crates) or []
        self.kept, self.keys = rt.Kept(self.crates), {}
        try:
            need_parts(self.kept, KEPT)
        except Lacking:
            # the next way takes the locks itself
            for it in self.held:
                os.close(it)
            raise

    def gives(self, crate: Any) -> bool:
        """Whether the crate is proved. It is cleared first: its files may be those that are kept, by a second name, and
        what is given is compared with all that stands here."""
        clear(crate)
        self.keys[crate.name] = self.kept.key(crate)
        return self.kept.give(crate, False, self.keys[crate.name])

    def keep(self, crate: Any) -> bool:
        self.kept.is_built(crate)
        self.kept.keep(crate, False, self.keys[crate.name])
        return True

    def end(self) -> None:
        self.kept.shrink()


def once(method: Callable[[Any], Any]) -> Callable[[Any], Any]:
    """The method, called once for each crate: what it gives doesn't change during a run."""
    given: Dict[str, Any] = {}

    def call(crate: Any) -> Any:
        if crate.folder not in given:
            given[crate.folder] = method(crate)
        return given[crate.folder]

    return call


class Here:
    """The crates of a kit that keeps nothing between two runs of `rt ci`. What is proved stays as it was built, in the
    crate's out/, and beside it the key of what it was made from."""

    way = "side by side; this kit keeps nothing, so what is proved stays in the crates' out/"

    def __init__(self, rt: Any, name: str):
        need_parts(rt, KEPT_HERE)
        # There both walk all ways down from a crate, each time that they are called: half a million from the top.
        rt.Crate.below, rt.Crate.stamp = once(rt.Crate.below), once(rt.Crate.stamp)
        rt.rtlib.Crate = rt.Crate
        every = sorted(rt.rtlib.crates_below(TOP), key=lambda it: len(it.below()))
        self.crates = with_below(name, every)
        self.held = rt.rtlib.lock(self.crates) or []
        self.rt, self.keys = rt, {}
        kit = os.path.dirname(os.path.dirname(os.path.realpath(rt.__file__)))
        sums = [rt.rtlib.sum_of(f"{kit}/{it}") for it in ("KIT-ID", "WHAT", "bin/rt", "bin/rtlib.py")]
        self.front = repr((kit, sums, rt.Crate.allowed))

    def sums(self, crate: Any) -> str:
        """The crate's own files, each with its sum, and what else its line in crates.txt says."""
        files = [(os.path.relpath(it, TOP), self.rt.rtlib.sum_of(it)) for it in self.rt.rtlib.files_of(crate.folder)]
        return repr((crate.said, files))

    def key(self, crate: Any) -> str:
        """A sum of all that a crate is made from: the kit, its own files and line, and those below it."""
        below = [self.keys[it.name][0] for it in crate.below()]
        return hashlib.sha256(repr((self.front, self.sums(crate), below)).encode()).hexdigest()

    def built(self, crate: Any) -> str:
        return crate.rlib if crate.makes_rlib() else f"{crate.folder}/out/{crate.name}"

    def gives(self, crate: Any) -> bool:
        """Whether the crate is proved. What was built must be no newer than its key: another command may have built it
        since."""
        built, key = self.built(crate), self.key(crate)
        self.keys[crate.name] = key, self.sums(crate)
        with contextlib.suppress(OSError), open(f"{built}.proved", encoding="utf-8") as file:
            if file.read() == key and os.stat(built).st_mtime_ns <= os.stat(file.fileno()).st_mtime_ns:
                return True
        clear(crate)
        with contextlib.suppress(OSError):
            os.remove(f"{built}.proved")
        return False

    def keep(self, crate: Any) -> bool:
        """Keeps what is proved, if its files are still those that the key was made from, and tells whether they are."""
        key, sums = self.keys[crate.name]
        if sums != self.sums(crate):
            print(f"rt: error: {crate.name} has changed while it was proved: start this again", file=crate.out)
            return False
        with open(f"{self.built(crate)}.proved", "w", encoding="utf-8") as file:
            file.write(key)
        return True

    def end(self) -> None:
        pass


# the crates of a kit, in the one or the other way
Kept = Union[OfKit, Here]


def checked(crate: Any, jobs: int) -> int:
    """The status of a check of a crate from nothing. One that was killed, for memory most likely, is tried once more
    with one job."""
    os.makedirs(f"{crate.folder}/out", exist_ok=True)
    status = crate.ci(["--jobs", str(jobs)], False)
    return crate.ci(["--jobs", "1"], False) if status == -signal.SIGKILL else status


def is_proved(kept: Kept, crate: Any, jobs: int) -> bool:
    """Whether a crate is proved, by an earlier run or by this one, which says so. The crates below it are."""
    crate = copy.copy(crate)
    given = kept.gives(crate)
    with tempfile.TemporaryFile("a+", errors="replace") as crate.out:
        try:
            well = given or not checked(crate, jobs)
        except SystemExit as end:
            well = not end.code
        well = well and kept.keep(crate)
        crate.out.seek(0)
        write(f"{crate.name} proved" if well else f"{crate.out.read()}{crate.name} failed")
    return well


def task_of(rt: Any, kept: Kept, crate: Any) -> Tuple[Any, ...]:
    """A proof as the toolchain has it in its lanes: what it waits for, how large it is, the memory that it needs, and
    its call, to which what the others came to so far is given."""
    below = [(it.name, "proof") for it in crate.below()]
    call = lambda given, jobs: all([*given.values()]) and is_proved(kept, crate, jobs)
    return below, crate.count(rb"\n"), rt.need(crate), call


def parts(name: str) -> Tuple[Any, Kept]:
    """The toolchain's command, and a crate and those below it, in the first of the ways side by side that can be
    gone."""
    for keeps in (OfKit, Here):
        try:
            rt = toolchain()
            return rt, keeps(rt, name)
        except Lacking as lacking:
            why = lacking
    raise why


def side_by_side(rt: Any, kept: Kept) -> bool:
    """Proves crates by the toolchain's own lanes."""
    say(kept.way)
    os.environ.setdefault("RT_JOBS", str(max(1, min(rt.processors(), rt.free() // MEMORY))))
    given = rt.in_lanes({(it.name, "proof"): task_of(rt, kept, it) for it in kept.crates})
    kept.end()
    return all(given.values())


def told(found: "re.Match[str]") -> str:
    return f"{found[1]} {'failed' if found[2] else 'proved'}"


def runs(words: List[str], folder: str) -> bool:
    """Whether a command does well. Its output goes on, with the lines that name a crate as those of this program do. It
    and its children end where this is ended."""
    how = {"stdin": subprocess.DEVNULL, "stdout": subprocess.PIPE, "stderr": subprocess.STDOUT, "errors": "replace"}
    ran = subprocess.Popen(words, cwd=folder, start_new_session=True, **how)
    try:
        for line in ran.stdout:
            write(re.sub(r"^rt: (\w+) (?:proved|NOT (PROVED))", told, line.rstrip("\n")))
        return ran.wait() == 0
    finally:
        for number in (signal.SIGTERM, signal.SIGKILL):
            with contextlib.suppress(OSError, subprocess.TimeoutExpired):
                os.killpg(ran.pid, number)
                ran.wait(2)


def by_command(name: str) -> bool:
    """Proves a copy of a crate and of those below it by `rt ci`, and takes the program from there. The copy has no
    wrong bodies, and no crate that isn't asked for, since all that is there is proved and tried."""
    lines, left_out = crates.lines(), shutil.ignore_patterns("out", "must-fail")
    copied = crates.made_of(name)
    ends_by(Ended)
    with tempfile.TemporaryDirectory(prefix="acmefs-prove-") as room:
        for it in copied:
            shutil.copytree(f"{TOP}/crates/{it}", f"{room}/crates/{it}", ignore=left_out)
        with open(f"{room}/crates.txt", "w", encoding="utf-8") as file:
            file.writelines(lines[it] for it in copied)
        shutil.copy(f"{TOP}/HANDLES", room)
        if not runs(["rt", "ci"], room):
            return False
        made, out = f"{room}/crates/{name}/out/{name}", f"{TOP}/crates/{name}/out"
        if os.path.isfile(made):
            os.makedirs(out, exist_ok=True)
            shutil.copy(made, f"{out}/{name}.new")
            os.replace(f"{out}/{name}.new", f"{out}/{name}")
    return True


def proves(name: str) -> bool:
    """Whether a crate and those below it are proved."""
    try:
        way = functools.partial(side_by_side, *parts(name))
    except Lacking as why:
        say(f"by `rt ci` over a copy of the crates, which tries their tests, too: {why}")
        way = functools.partial(by_command, name)
    return way()


def main(words: List[str]) -> int:
    if len(words) != 1 or not os.path.isdir(f"{TOP}/crates/{words[0]}"):
        sys.exit(__doc__)
    if not shutil.which("rt"):
        sys.exit("prove: the toolchain's command rt is not in PATH")
    os.chdir(TOP)
    # Python would wait for the threads' commands.
    ends_by(signal.SIG_DFL)
    try:
        return 0 if proves(words[0]) else 1
    except Ended as ended:
        signal.signal(ended.number, signal.SIG_DFL)
        os.kill(os.getpid(), ended.number)
