"""The launcher's children: the program, and what builds it."""

import contextlib
import os
import resource
import signal
import subprocess
from typing import Any, Callable, Iterator, List, Optional, Union

from launch.telling import fail, say

# the descriptor that the program reads, where it isn't the launcher's own input
INPUT = int(os.environ.pop("ACMEFS_INPUT", 0)) or None
PASSED = [signal.SIGHUP, signal.SIGINT, signal.SIGQUIT, signal.SIGALRM, signal.SIGTERM, signal.SIGUSR1, signal.SIGUSR2]
# the signals that end a build
ENDS = [signal.SIGHUP, signal.SIGINT, signal.SIGQUIT, signal.SIGTERM]
# how long a build may take to end by a signal, in seconds
GRACE = 10
Handler = Union[Callable[[int, Any], Any], signal.Handlers]


class Ended(BaseException):
    """A signal that ends the launcher."""

    def __init__(self, number: int):
        super().__init__(number)
        self.number = number


def hear_interrupts() -> None:
    """Has an interrupt end the launcher as any program, and not by an exception of Python's. One that is ignored from
    the start stays so."""
    if signal.getsignal(signal.SIGINT) is signal.default_int_handler:
        signal.signal(signal.SIGINT, signal.SIG_DFL)


def handle(numbers: List[signal.Signals], handler: Handler) -> None:
    """Has signals go to a handler. One that was ignored from the start stays so."""
    for number in numbers:
        if signal.getsignal(number) != signal.SIG_IGN:
            signal.signal(number, handler)


def end_by(number: int) -> None:
    """Ends the launcher by a signal."""
    resource.setrlimit(resource.RLIMIT_CORE, (0, 0))
    if number != signal.SIGKILL:
        signal.signal(number, signal.SIG_DFL)
    os.kill(os.getpid(), number)


@contextlib.contextmanager
def build_step(words: List[str], **ways: Any) -> Iterator[subprocess.Popen]:
    """A child that builds. A signal that ends the launcher ends it, and it ends what it started."""
    process: Optional[subprocess.Popen] = None
    early: List[int] = []

    def ends(number: int, _: object) -> None:
        if process is None:
            early.append(number)
        else:
            raise Ended(number)

    handle(ENDS, ends)
    try:
        process = subprocess.Popen(words, **ways)
        if early:
            raise Ended(early[0])
        yield process
        process.wait()
    except Ended as ended:
        handle(ENDS, signal.SIG_IGN)
        say(f"the signal {signal.Signals(ended.number).name} ended the build")
        end(process, ended.number)
        raise
    finally:
        for number in ENDS:
            if signal.getsignal(number) is ends:
                signal.signal(number, signal.SIG_DFL)


def end(process: subprocess.Popen, number: int = signal.SIGTERM) -> None:
    """Ends a child by a signal, or by one that it can't catch where it goes on."""
    process.send_signal(number)
    try:
        process.wait(GRACE)
    except subprocess.TimeoutExpired:
        process.kill()
        process.wait()


def ended(status: int, by: int = 0) -> int:
    """The status of the program. A signal that ended it ends the launcher, too, or the one that was sent for it."""
    if status < 0:
        number = by or -status
        say(f"the signal {signal.Signals(number).name} ended the program")
        end_by(number)
    return status


def run(words: List[str], **ways: Any) -> int:
    """The status of a command that is run as a child, which gets the signals that come to the launcher."""
    process: Optional[subprocess.Popen] = None
    early: List[int] = []

    def passes(number: int, _: object) -> None:
        early.append(number) if process is None else process.send_signal(number)

    handle(PASSED, passes)
    try:
        process = subprocess.Popen(words, stdin=INPUT, close_fds=False, **ways)
    except OSError as error:
        fail(f"{words[0]} cannot be started: {error.strerror}")
    for number in early:
        process.send_signal(number)
    return ended(process.wait())
