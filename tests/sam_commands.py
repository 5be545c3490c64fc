"""Random commands on which sam(1) and Edit agree, over texts of a few lines, for tests/sam.

Left out are the classes of the page edit(1) in which they differ: expressions that match null texts, `$` where no
newline is, `+?re?` and `-?re?`, `+0` and `-0`, several of `,` and `;`, `;` before `m` and `t`, `s0`, and `x` alone
before an address or over a part of a line. In Debian's package ranges in sets and runes above U+FFFF don't work.
"""

import random
from dataclasses import dataclass
from typing import List, Tuple

# the names of the files and windows, in their order
NAMES = ["one", "three", "two"]
PIECES = ["a", "b", "ab", "abab", "\n", "one\ntwo\n", "x y", "foo", "\u00e9", "aa\n", "a\nb\n", "bbb", "\u20ac"]
PARTS = ["a", "b", "a", "b", "o", "\u00e9", " ", "x", "ab", ".", "\\n", "(a|b)", "(o|e)", "(ab)", "[ao]", "[^b ]"]
# expressions whose groups could be chosen in one way alone, with a text of `s` for each
GROUPED = [("(a)(b)", "\\2\\1"), ("(.)o", "<\\1>"), ("(a+)b", "\\1-"), ("(x) (y)", "\\2 \\1"), ("(a)|(b)", "<\\1,\\2>")]
REPLACEMENTS = ["a", "Q", "&", "\\&", "\\n", "\\\\", "\\/", "\u00e9", " ", "q"]
OF_NAMES = [".", "o", "t", "e$", "w", "n|w", "one", "zz", "h"]


@dataclass
class Case:
    """Texts and their dots, and a command that is done in the first of them. `ends` is the letter that ends a command
    which does one thing alone, and none where it does several; `prints` is whether prints are compared."""

    texts: List[str]
    dots: List[Tuple[int, int]]
    command: str
    ends: str = ""
    prints: bool = True

    def tells_dot(self, after: str, printed: str) -> bool:
        """Whether sam's dot is that of its manual, by what the first text is afterwards and what `p` wrote."""
        if after != self.texts[0]:
            return self.ends in ("a", "i", "c", "d")
        return self.ends == "" or (self.ends == "p" and printed != "")


class Commands:
    """Random commands, from a random source."""

    def __init__(self, source: random.Random) -> None:
        self.source = source
        self.pick = source.choice
        self.below = source.randrange

    def chance(self, part: float) -> bool:
        return self.source.random() < part

    def text(self) -> str:
        """A text of whole lines."""
        return "".join(self.pick(PIECES) for _ in range(1 + self.below(6))) + "\n"

    def dot(self, text: str) -> Tuple[int, int]:
        if self.chance(0.3):
            return 0, 0
        q0 = self.below(len(text) + 1)
        return q0, q0 + self.below(len(text) - q0 + 1)

    # -- expressions and addresses

    def expression(self) -> str:
        """One that matches no null text."""
        sides = [self.side() for _ in range(2 if self.chance(0.15) else 1)]
        front = "^" if self.chance(0.1) else ""
        return front + ("|".join(sides) if len(sides) == 1 or not front else f"({'|'.join(sides)})")

    def side(self) -> str:
        parts = [self.pick(PARTS) + (self.pick("+++") if self.chance(0.2) else "")]
        for _ in range(self.pick([0, 0, 1, 1, 2])):
            parts.append(self.pick(PARTS) + (self.pick("*+?") if self.chance(0.3) else ""))
        self.source.shuffle(parts)
        takes_newlines = any("\\n" in it for it in parts)
        return "".join(parts) + ("$" if self.chance(0.08) and not takes_newlines else "")

    def simple(self) -> str:
        kind = self.below(10)
        if kind < 4:
            return str(self.pick([1, 1, 2, 2, 3, 4, 9]))
        if kind < 7:
            return f"#{self.pick([1, 1, 2, 3, 4, 5, 7, 20])}"
        return f"/{self.expression()}/"

    def sum(self) -> str:
        """An address without `,` and `;`."""
        backward = self.expression().replace("?", "*")
        front = self.pick(["", ".", "$", "0", f"?{backward}?", self.simple(), self.simple(), self.simple()])
        text = front or self.simple()
        while self.chance(0.25):
            text += self.pick("+-") + (self.simple() if self.chance(0.7) else "")
        return text

    def address(self, separators: str = ",,;") -> str:
        kind = self.below(10)
        if kind < 2:
            return ""
        if kind < 6:
            return ","
        if kind < 8:
            return self.sum()
        return self.pick(["", self.sum()]) + self.pick(separators) + self.pick(["", self.sum(), self.sum()])

    # -- commands

    def replacement(self) -> str:
        return "".join(self.pick(REPLACEMENTS) for _ in range(self.below(4)))

    def written(self, letter: str) -> str:
        """`a`, `i` or `c` with its text."""
        if self.chance(0.15):
            lines = [self.pick(["foo\n", "b\n", "\n", "..\n"]) for _ in range(self.below(3))]
            return f"{letter}\n{''.join(lines)}."
        return f"{letter}/{self.replacement()}/"

    def substitution(self) -> str:
        expression, text = self.pick(GROUPED) if self.chance(0.3) else (self.expression(), self.replacement())
        return f"s{self.pick(['', '', '', '2', '3'])}/{expression}/{text}/{self.pick(['', 'g'])}"

    def block(self, depth: int) -> str:
        lines = [self.command(depth + 1)[0] for _ in range(1 + self.below(3))]
        return "{\n" + "".join(f"{it}\n" for it in lines) + "}"

    def action(self, depth: int) -> Tuple[str, str]:
        """What stands behind an address, and the letter that ends it where it does one thing alone."""
        kind = self.below(24 if depth < 3 else 14)
        if kind < 5:
            letter = self.pick("aic")
            return self.written(letter), letter
        if kind < 7:
            return "d", "d"
        if kind < 10:
            return self.substitution(), "s"
        if kind < 11:
            return self.pick("mt") + self.sum(), "m"
        if kind < 14:
            letter = self.pick(["p", "p", "=", "=#"])
            return letter, letter
        if kind < 19:
            inner = self.command(depth + 1)[0] if self.chance(0.9) else ""
            return f"{self.pick('xxxy')}/{self.expression()}/{self.blank()}{inner}", "x"
        if kind < 22:
            inner, ends = self.command(depth + 1, self.chance(0.7)) if self.chance(0.9) else ("", "p")
            return f"{self.pick('gv')}/{self.expression()}/{self.blank()}{inner}", ends
        return self.block(depth), "{"

    def blank(self) -> str:
        return " " if self.chance(0.5) else ""

    def command(self, depth: int, is_plain: bool = False) -> Tuple[str, str]:
        """A command inside others, mostly without an address."""
        action, ends = self.action(depth)
        address = "" if is_plain or self.chance(0.6) else self.address("," if ends == "m" else ",,;")
        return address + action, ends

    def outer(self) -> Tuple[str, str]:
        """A command that stands alone."""
        if self.chance(0.06):
            return self.sum() if self.chance(0.5) else f"{self.sum()}{self.pick(',;')}{self.sum()}", ""
        if self.chance(0.05):
            return f"{self.pick([',', '1', '1,2', '2,$'])}x{self.blank()} {self.action(1)[0]}", "x"
        action, ends = self.action(0)
        return self.address("," if "m" in action or "t" in action else ",,;") + self.blank() + action, ends


def case_of(seed: int) -> Case:
    """The case of a seed: one text, or with every third seed several and a command over them."""
    made = Commands(random.Random(seed))
    count = 1 + made.below(3) if seed % 3 == 2 else 1
    texts = [made.text() for _ in range(count)]
    dots = [made.dot(it) for it in texts]
    if seed % 3 == 2:
        inner = made.command(1)[0]
        return Case(texts, dots, f"{made.pick('XXY')}/{made.pick(OF_NAMES)}/{made.blank()}{inner}", "X")
    command, ends = made.outer()
    return Case(texts, dots, command, ends, ends != "")
