#!/usr/bin/env python3
"""Prints what is done to the editor's windows from now on, a line each, as `9p read acme/log` of plan9port does:

    1 new /src/a.c

Behind the number of a window stands new, del, name, get or put, and then the window's name, in which a newline is \\n
and a backslash \\\\. It goes on until Ctrl-C ends it, nobody reads what it prints, or the server is gone.
"""

import argparse
import os
import sys
from typing import List

sys.dont_write_bytecode = True
sys.path.insert(0, os.path.join(os.path.dirname(os.path.dirname(os.path.realpath(__file__))), "python"))
from acme9 import Acme, Error  # noqa: E402


def follow(address: str, wait: float) -> None:
    """Prints the lines as they come."""
    with Acme.dial(address, wait) as acme, acme.open("log") as log:
        while data := log.read():
            sys.stdout.buffer.write(data)
            sys.stdout.buffer.flush()


def main(words: List[str]) -> int:
    """The command: the exit status is 1 where there is no server, or it ends first."""
    parser = argparse.ArgumentParser(description=__doc__, formatter_class=argparse.RawDescriptionHelpFormatter)
    parser.add_argument("address", nargs="?", default="", help="the server's socket; by default $NAMESPACE/acme")
    parser.add_argument("--wait", type=float, default=0.0, metavar="SECONDS", help="how long it may be missing yet")
    given = parser.parse_args(words)
    try:
        follow(given.address, given.wait)
    except KeyboardInterrupt:
        pass
    except BrokenPipeError:
        os.dup2(os.open(os.devnull, os.O_WRONLY), 1)
    except Error as why:
        print(f"follow.py: {why}", file=sys.stderr)
        return 1
    return 0


if __name__ == "__main__":
    sys.exit(main(sys.argv[1:]))
