#!/usr/bin/env python3
"""Does what the editor asks programs for: takes the requests of the file `jobs`, does them on this host, and answers.

A command is run by `sh -c` in its request's directory, with the request's input to read and the number of the window
as $winid; several run at once. What it prints goes to the errors window of its window's directory as it comes (to that
of / where the window is gone), and so does how it ended, where its status isn't 0. It is answered ok where that is 0,
else fail. No text of the editor is replaced: of `|sort`, too, the output goes to the errors window.

Put requests that a file be saved. With --save DIR it is stored below DIR and nowhere else: `..` and links are refused.
PATH is how the editor knows DIR (by DIR's own whole path where it isn't given); commands in directories below PATH are
run in those below DIR.

All requests that wait are taken, also those that were made before. One that isn't done here is answered fail, and the
errors window says why: it couldn't be given to another program. Ctrl-C or SIGTERM ends the commands that run, which are
answered fail, and then this program. Whoever may use the server's sockets has commands run as you.
"""

import argparse
import codecs
import contextlib
import os
import signal
import subprocess
import sys
import tempfile
import threading
import time
from typing import IO, Callable, List, Optional, Set

sys.dont_write_bytecode = True
sys.path.insert(0, os.path.join(os.path.dirname(os.path.dirname(os.path.realpath(__file__))), "python"))
from acme9 import Acme, Ended, Error, Job, Jobs, Refused  # noqa: E402
from acmefs_tools.folder import Folder  # noqa: E402
from acmefs_tools.lines import Fault  # noqa: E402

# the kinds of requests that are commands, and those of them that are run where nothing else is said
COMMANDS, RUN = ["run", "pipe", "from", "to", "start"], "run,pipe"
# of what a command prints, the bytes that are read at once, and how many characters are shown
PIECE, MOST_SHOWN = 8192, 1000000
# how long commands have to end, in seconds
GRACE = 2.0


def say(text: str) -> None:
    print(f"run-jobs.py: {text}", file=sys.stderr, flush=True)


def name_of(job: Job) -> str:
    """What a request is called where something is said of it: its file, or the first word of its command."""
    return job.command if job.kind == "save" else job.command.strip().partition(" ")[0]


class Place:
    """A folder of the host, and the path by which the editor knows it."""

    def __init__(self, path: str, at: str):
        self.path, self._folder = path, Folder(path)
        self._at = [it for it in at.split("/") if it]

    def _below(self, path: str) -> Optional[List[str]]:
        """The parts of a path of the editor below the folder; None where it isn't there."""
        parts, depth = path[1:].split("/"), len(self._at)
        return parts[depth:] if path.startswith("/") and parts[:depth] == self._at else None

    def store(self, path: str, text: str) -> None:
        """Stores a file of the editor."""
        parts = self._below(path)
        if not parts:
            raise Fault(f"it isn't below {self.path}")
        self._folder.store(parts, text.encode("utf-8"))

    def directory(self, path: str) -> str:
        """The host's directory that one of the editor is."""
        parts = self._below(path)
        return path if parts is None else os.path.join(self.path, *parts)


class Runner:
    """Does requests. Each command has a thread."""

    def __init__(self, acme: Acme, jobs: Jobs, kinds: List[str], place: Optional[Place]):
        self.acme, self.jobs, self.kinds, self.place = acme, jobs, kinds, place
        self._running: Set["subprocess.Popen[bytes]"] = set()
        self._threads: List[threading.Thread] = []
        self._lock, self._is_over = threading.Lock(), False

    def take(self, job: Job) -> None:
        """Does a request, or begins to."""
        if job.kind in self.kinds:
            self._threads = [it for it in self._threads if it.is_alive()]
            self._threads.append(threading.Thread(target=self._do, args=(job, self._run), daemon=True))
            self._threads[-1].start()
        else:
            self._do(job, self._save if job.kind == "save" else self._refuse)

    def end(self) -> None:
        """Ends the commands that run, and waits until they are answered."""
        for number in (signal.SIGTERM, signal.SIGKILL):
            with self._lock:
                self._is_over = True
                for it in self._running:
                    with contextlib.suppress(ProcessLookupError):
                        os.killpg(it.pid, number)
            until = time.monotonic() + GRACE
            for thread in self._threads:
                thread.join(max(0.0, until - time.monotonic()))

    def _do(self, job: Job, does: Callable[[Job], bool]) -> None:
        """Does a request by a function that tells whether it went well, and answers it."""
        try:
            good = self._is_done(job, does)
            self.jobs.answer(job, good)
            say(f"request {job.number}, {job.kind} {name_of(job)}: {'ok' if good else 'fail'}")
        except Error as why:
            say(f"request {job.number} isn't answered: {why}")

    def _is_done(self, job: Job, does: Callable[[Job], bool]) -> bool:
        """Whether a request went well. Why it can't be done is told in its errors window."""
        try:
            return does(job)
        except Ended:
            raise
        except (Fault, OSError) as why:
            self._tell(job, f"{name_of(job)}: {why}\n")
            return False

    def _tell(self, job: Job, text: str) -> None:
        """Puts a text into the errors window of a request, or of / where its window is gone."""
        for name in ([f"{job.window}/errors"] if job.window else []) + ["cons"]:
            try:
                self.acme.write(name, text)
                return
            except Refused as why:
                refusal = why
        say(f"request {job.number}: {refusal}, so this isn't shown: {text[:80]!r}")

    # -- what is done

    def _refuse(self, job: Job) -> bool:
        raise Fault(f"requests of the kind `{job.kind}` are not done here")

    def _save(self, job: Job) -> bool:
        """Stores a file."""
        if not self.place:
            raise Fault("nothing is saved here: no folder is named")
        self.place.store(job.command, job.input)
        return True

    def _run(self, job: Job) -> bool:
        """Runs a command, and tells whether it ended with status 0."""
        with tempfile.TemporaryFile() as given:
            given.write(job.input.encode("utf-8"))
            given.seek(0)
            command = self._started(job, given)
        if command.stdout:
            self._show(job, command.stdout)
        status = command.wait()
        with self._lock:
            self._running.discard(command)
        if status:
            self._tell(job, f"{name_of(job)}: {'exit' if status > 0 else 'signal'} {abs(status)}\n")
        return status == 0

    def _started(self, job: Job, given: IO[bytes]) -> "subprocess.Popen[bytes]":
        """The command of a request, which has begun on its input, in a group of its own."""
        directory = self.place.directory(job.dir) if self.place else job.dir
        if not directory.startswith("/") or not os.path.isdir(directory):
            raise Fault(f"there is no folder {directory}")
        window = {"winid": str(job.window)} if job.window else {}
        how = {"stdin": given, "stdout": subprocess.PIPE, "stderr": subprocess.STDOUT, "start_new_session": True}
        with self._lock:
            if self._is_over:
                raise Fault("run-jobs.py was ended")
            command = subprocess.Popen(["sh", "-c", job.command], cwd=directory, env={**os.environ, **window}, **how)
            self._running.add(command)
        return command

    def _show(self, job: Job, output: IO[bytes]) -> None:
        """Puts what a command prints into its errors window, as it comes. Bytes that are no UTF-8 become U+FFFD."""
        decoder, count = codecs.getincrementaldecoder("utf-8")("replace"), 0
        with output:
            while True:
                data = os.read(output.fileno(), PIECE)
                text = decoder.decode(data, not data)
                if text and count < MOST_SHOWN:
                    self._tell(job, text)
                count += len(text)
                if not data:
                    break
        if count > MOST_SHOWN:
            self._tell(job, f"{name_of(job)}: it printed {count} characters, of which the first are shown\n")


def kinds_of(text: str) -> List[str]:
    """Kinds of requests in a list with commas."""
    kinds = [it for it in text.split(",") if it]
    if not {*kinds} <= {*COMMANDS}:
        raise argparse.ArgumentTypeError(f"the kinds are {', '.join(COMMANDS)}")
    return kinds


def parser() -> argparse.ArgumentParser:
    it = argparse.ArgumentParser(description=__doc__, formatter_class=argparse.RawDescriptionHelpFormatter)
    it.add_argument("address", nargs="?", default="", help="the server's socket; by default $NAMESPACE/acme")
    it.add_argument("--kinds", type=kinds_of, default=RUN, help=f"what is run, of {','.join(COMMANDS)}; else {RUN}")
    it.add_argument("--save", metavar="DIR", help="the folder that files are saved below; without it none is")
    it.add_argument("--as", metavar="PATH", dest="at", default="", help="the path by which the editor knows DIR")
    it.add_argument("--wait", type=float, default=0.0, metavar="SECONDS", help="how long the socket may be missing")
    return it


def main(words: List[str]) -> int:
    """The command: the exit status is 1 where there is no server or no such folder, or the server ends first."""
    given = parser().parse_args(words)
    signal.signal(signal.SIGTERM, signal.default_int_handler)
    try:
        place = Place(given.save, given.at or os.path.abspath(given.save)) if given.save else None
        with Acme.dial(given.address, given.wait) as acme, acme.jobs() as jobs:
            runner = Runner(acme, jobs, given.kinds, place)
            try:
                for job in jobs:
                    runner.take(job)
            finally:
                runner.end()
    except KeyboardInterrupt:
        pass
    except (Error, Fault) as why:
        say(str(why))
        return 1
    return 0


if __name__ == "__main__":
    sys.exit(main(sys.argv[1:]))
