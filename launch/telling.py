"""What the launcher says."""

import os
import re
import sys

TOP = os.path.dirname(os.path.dirname(os.path.realpath(__file__)))
# where the usage is in the repository, and as it is installed
USAGES = (f"{TOP}/docs/manual/usage.txt", f"{TOP}/usage.txt")
NO_PROGRAM = 70


def write(descriptor: int, text: str) -> None:
    """Writes to a standard stream, and goes on where nobody reads it."""
    try:
        os.write(descriptor, text.encode("utf-8", "surrogateescape"))
    except OSError:
        pass


def say(text: str) -> None:
    write(2, f"acmefs: {text}\n")


def fail(why: str) -> None:
    say(why)
    sys.exit(NO_PROGRAM)


def usage() -> str:
    with open(next(filter(os.path.exists, USAGES)), encoding="utf-8") as file:
        return file.read()


def tell(status: int) -> None:
    """Says what an exit status means."""
    found = re.search(rf"^status {status}:.*", usage(), re.M)
    say(found[0] if found else f"status {status}")
