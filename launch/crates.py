"""The repository's crates, as crates.txt lists them: nothing else reads that file."""

from typing import Dict, List

from launch.telling import TOP

LIST = f"{TOP}/crates.txt"


def lines() -> Dict[str, str]:
    """The line of each crate, by its name, in their order."""
    with open(LIST, encoding="utf-8") as file:
        return {it.split()[0].rstrip(":"): it for it in file if ":" in it.partition("#")[0]}


def below() -> Dict[str, List[str]]:
    """Each crate with those that its line names, in their order. The kit's own among them stay."""
    return {name: it.partition("#")[0].partition(":")[2].split() for name, it in lines().items()}


def made_of(name: str) -> List[str]:
    """A crate and all that it stands on, in their order."""
    every = below()
    found, left = set(), [name]
    while left:
        it = left.pop()
        if it in every and it not in found:
            found.add(it)
            left += every[it]
    return [it for it in every if it in found]
