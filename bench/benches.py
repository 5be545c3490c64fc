"""What the scripts of bench/ share that run the program `benches`."""

import os
import re
import subprocess
import sys
from typing import List

TOP = os.path.dirname(os.path.dirname(os.path.realpath(__file__)))
PROGRAM = f"{TOP}/crates/benches/out/benches"


def lines(program: str, bench: str, number: int) -> List[str]:
    """The lines of one run of a bench."""
    ran = subprocess.run([program, bench, str(number)], stdout=subprocess.PIPE, encoding="utf-8", check=False)
    if ran.returncode:
        sys.exit(f"{program} ended with status {ran.returncode}")
    return ran.stdout.splitlines()


def numbers(line: str) -> List[int]:
    """The numbers of a line, from left to right."""
    return [int(it) for it in re.findall(r"\d+", line)]
