"""Servers for the tests of the programs around them, over tests/harness.py."""

import subprocess
import threading
import time
from typing import Any, Callable, Dict, List

from harness import PROGRAM, SECONDS, Case, call, same, store

from acme9.client import user_name


class Room:
    """The folder of a case, and the processes that it starts, which don't outlive it."""

    def __init__(self, path: str):
        self.path = path
        self.processes: List["subprocess.Popen[bytes]"] = []

    def start(self, *words: str, **how: Any) -> "subprocess.Popen[bytes]":
        how = {"stdin": subprocess.DEVNULL, "stdout": subprocess.PIPE, "stderr": subprocess.PIPE, **how}
        self.processes.append(subprocess.Popen(words, **how))
        return self.processes[-1]

    def end(self) -> None:
        for it in self.processes:
            if it.poll() is None:
                it.kill()
            for stream in (it.stdout, it.stderr):
                if stream:
                    stream.close()
            it.wait()


def in_rooms(*cases: Callable[[Room], object]) -> Dict[str, Case]:
    """Cases that take a Room, by their names."""

    def of(case: Callable[[Room], object]) -> Case:
        def one(path: str) -> None:
            room = Room(path)
            try:
                case(room)
            finally:
                room.end()

        return one

    return {it.__name__.replace("_", "-"): of(it) for it in cases}


def is_listening(path: str) -> bool:
    """Waits until there is a socket that takes connections, as Linux tells, and answers whether there is."""
    for _ in range(SECONDS * 100):
        with open("/proc/net/unix", encoding="utf-8") as file:
            rows = [it.split() for it in file]
        if any(row[3] == "00010000" and row[-1] == path for row in rows):
            return True
        time.sleep(0.01)
    return False


class Server:
    """A server for so many clients, with a script beside them."""

    def __init__(self, room: Room, clients: int = 1, script: str = ""):
        self.path = f"{room.path}/s"
        with open(store(f"{room.path}/script", script), "rb") as file:
            self.process = room.start(PROGRAM, "serve", self.path, f"--clients={clients}", stdin=file)

    def slot(self, number: int = 0) -> str:
        return f"{self.path}.{number}"

    def listens(self, number: int = 0) -> str:
        """A slot, once a program that doesn't wait for it can connect."""
        same(is_listening(self.slot(number)), True, "whether the server listens")
        return self.slot(number)

    def journal(self) -> str:
        """What it writes at its end, which comes with status 0."""
        out, err = self.process.communicate(timeout=SECONDS)
        same((self.process.returncode, err), (0, b""), "the server's status, and what it says")
        return out.decode("utf-8")

    def report(self) -> List[str]:
        """The lines of the report, which a replay of the journal gives as well."""
        journal = self.journal()
        again = call([PROGRAM, "replay"], journal).stdout.decode("utf-8")
        report, replayed = (it[it.index("report\njournal ") :] for it in (journal, again))
        same(replayed, report, "the replay's report")
        return report.splitlines()


def ended(count: int) -> List[str]:
    """The lines of a report on so many connections, which whoever runs the tests ended."""
    return [f"connection {it} ended end :{user_name()}" for it in range(count)]


def refused(kind: type, words: str, does: Callable[[], object]) -> None:
    """Fails a case where a call doesn't raise an exception of a class whose text has some words in it."""
    try:
        does()
    except Exception as why:
        if type(why) is not kind or words not in str(why):
            raise AssertionError(f"{type(why).__name__}: {why}, and {kind.__name__}: {words} is wanted") from why
        return
    raise AssertionError(f"nothing was raised, and {kind.__name__}: {words} is wanted")


def at_once(does: Callable[[int], object], count: int) -> None:
    """Calls a function in so many threads, each with its number, and raises what one of them raised."""
    faults: List[BaseException] = []

    def one(number: int) -> None:
        try:
            does(number)
        except BaseException as fault:
            faults.append(fault)

    threads = [threading.Thread(target=one, args=(it,), daemon=True) for it in range(count)]
    for it in threads:
        it.start()
    for it in threads:
        it.join(SECONDS)
    if faults:
        raise faults[0]
    same([it.is_alive() for it in threads], [False] * count, "which threads are left")
