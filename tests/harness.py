"""What the tests of the programs around the server share: cases are functions, each with a folder of its own.

    CASES = {"name": function, ..}
    sys.exit(run(CASES, sys.argv[1:]))      all cases, or those named alone

A case fails by an exception, and is skipped by a Skipped. The last line is `N passed, M failed`.
"""

import datetime
import os
import subprocess
import sys
import tempfile
import traceback
from typing import Any, Callable, Dict, List, Sequence, Union

TOP = os.path.dirname(os.path.dirname(os.path.realpath(__file__)))
BIN = f"{TOP}/bin"
EXAMPLES = f"{TOP}/examples"
PROGRAM = os.environ.get("ACMEFS_PROGRAM", f"{TOP}/crates/acmefs/out/acmefs")
# how long a program may run
SECONDS = int(os.environ.get("ACMEFS_SECONDS", "120"))
os.environ.update({"ACMEFS": PROGRAM, "PYTHONDONTWRITEBYTECODE": "1"})
sys.dont_write_bytecode = True
sys.path.insert(0, f"{TOP}/python")
Case = Callable[[str], None]


class Skipped(Exception):
    """A case needs what isn't here."""


def call(words: Sequence[str], given: Union[bytes, str] = b"", **ways: Any) -> "subprocess.CompletedProcess[bytes]":
    """Runs a program to its end on an input."""
    data = given.encode("utf-8") if isinstance(given, str) else given
    ways = {"stdout": subprocess.PIPE, "stderr": subprocess.PIPE, **ways}
    return subprocess.run([*words], input=data, timeout=SECONDS, **ways)


def output(words: Sequence[str], given: Union[bytes, str] = b"", status: int = 0, **ways: Any) -> str:
    """What a program writes that must end with a status."""
    ran = call(words, given, **ways)
    same(ran.returncode, status, (ran.stderr or b"").decode("utf-8", "replace")[-400:])
    return (ran.stdout or b"").decode("utf-8")


def complaint(words: Sequence[str], given: Union[bytes, str] = b"", status: int = 2, **ways: Any) -> str:
    """What a program writes to the standard error that must end with a status."""
    ran = call(words, given, **ways)
    same(ran.returncode, status, ran.stderr.decode("utf-8", "replace")[-400:])
    return ran.stderr.decode("utf-8")


def same(got: Any, wanted: Any, of: str = "") -> None:
    """Fails where two values differ."""
    if got != wanted:
        raise AssertionError(f"{of}\n  wanted {wanted!r}\n  got    {got!r}".strip())


def has(text: str, part: str) -> None:
    """Fails where a text hasn't a part."""
    if part not in text:
        raise AssertionError(f"`{part}` isn't in: {text[:600]}")


def content(path: str) -> str:
    with open(path, encoding="utf-8", newline="") as file:
        return file.read()


def store(path: str, text: Union[str, bytes]) -> str:
    """Writes a file, and answers its path."""
    os.makedirs(os.path.dirname(path), exist_ok=True)
    with open(path, "wb") as file:
        file.write(text.encode("utf-8") if isinstance(text, str) else text)
    return path


def tree() -> str:
    """What the program is of: the tree of its crates, as git names it, and whether it was proved."""
    words = ["git", "-C", TOP, "rev-parse", "--short=12", "HEAD:crates"]
    name = subprocess.run(words, stdout=subprocess.PIPE, stderr=subprocess.DEVNULL).stdout.decode().strip()
    return f"{'the checked' if 'unproved' in PROGRAM else 'the built'} program of crates {name or 'of no commit'}"


def keep_result(page: str, name: str, text: str) -> None:
    """Puts a result into the list of a page, with the day and the tree, in the place of an earlier one of its name."""
    head, *items = content(page).split("\n- ")
    kept = [it.rstrip("\n") for it in items if not it.startswith(f"{name}: ")]
    kept.append(f"{name}: {datetime.date.today()}, {tree()}: {text}.")
    store(page, head.rstrip("\n") + "\n\n" + "".join(f"- {it}\n" for it in kept))


def told(name: str, case: Case) -> bool:
    """Whether a case passes; says what is wrong with it, or that it is skipped."""
    with tempfile.TemporaryDirectory(prefix="acmefs-test-") as room:
        try:
            case(room)
        except Skipped as why:
            print(f"skipped the case `{name}`: {why}")
        except Exception as why:  # noqa: BLE001
            place = traceback.extract_tb(why.__traceback__)[1:2]
            print(f"FAILED {name}: line {place[0].lineno if place else '?'}: {type(why).__name__}: {why}")
            return False
    return True


def run(cases: Dict[str, Case], only: List[str]) -> int:
    """Runs cases; the exit status is 1 where one fails."""
    if not os.access(PROGRAM, os.X_OK):
        print(f"FAILED: there is no program {PROGRAM}\n0 passed, 1 failed")
        return 1
    wanted = {name: case for name, case in cases.items() if not only or name in only}
    passed = sum([told(name, case) for name, case in wanted.items()])
    print(f"{passed} passed, {len(wanted) - passed} failed")
    return 0 if passed == len(wanted) else 1
