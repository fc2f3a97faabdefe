"""Values: numbers, postfix expressions, arrays, matrices, words and buses."""

from __future__ import annotations

import math
import re
from collections.abc import Callable
from dataclasses import dataclass, replace

from .findings import BadValue
from .syntax import CLOSERS

NUMBER = re.compile(r"[+-]?(\d+\.?\d*|\.\d+)([eEdD][+-]?\d{1,4})?\Z")
Matrix = list[list[float]]


def plain_number(text: str) -> float:
    """A number as it is written, without an expression."""
    text = text.strip()
    if not NUMBER.match(text):
        raise BadValue(f"{text or 'nothing'} is no number")
    value = float(text.lower().replace("d", "e"))
    if not math.isfinite(value):
        raise BadValue(f"{text} is too large")
    return value


TWO: dict[str, Callable[[float, float], float]] = {
    "+": lambda a, b: a + b,
    "-": lambda a, b: a - b,
    "*": lambda a, b: a * b,
    "/": lambda a, b: a / b,
    "^": math.pow,
    "atan2": lambda a, b: math.degrees(math.atan2(a, b)),
}
ONE: dict[str, Callable[[float], float]] = {
    "sqr": lambda a: a * a,
    "sqrt": math.sqrt,
    "inv": lambda a: 1 / a,
    "ln": math.log,
    "log10": math.log10,
    "exp": math.exp,
    "sin": lambda a: math.sin(math.radians(a)),
    "cos": lambda a: math.cos(math.radians(a)),
    "tan": lambda a: math.tan(math.radians(a)),
    "asin": lambda a: math.degrees(math.asin(a)),
    "acos": lambda a: math.degrees(math.acos(a)),
    "atan": lambda a: math.degrees(math.atan(a)),
}


def postfix(text: str) -> float:
    """The value of a postfix expression, with OpenDSS's words; angles are in degrees."""
    stack: list[float] = []
    try:
        for token in re.split(r"[\s,]+", text.strip()):
            word = token.lower()
            if word in TWO:
                second, first = stack.pop(), stack.pop()
                stack.append(TWO[word](first, second))
            elif word in ONE:
                stack.append(ONE[word](stack.pop()))
            elif word == "pi":
                stack.append(math.pi)
            elif word == "swap":
                stack[-2:] = [stack[-1], stack[-2]]
            elif word == "rollup":
                stack.insert(0, stack.pop())
            elif word == "rolldn":
                stack.append(stack.pop(0))
            else:
                stack.append(plain_number(token))
    except IndexError:
        raise BadValue(f"({text}) has too few numbers for its operators") from None
    except (ZeroDivisionError, ValueError, OverflowError):
        raise BadValue(f"({text}) has no value") from None
    if len(stack) != 1 or isinstance(stack[0], complex) or not math.isfinite(stack[0]):
        raise BadValue(f"({text}) doesn't come to one number")
    return stack[0]


def tokens(text: str) -> list[tuple[str, bool]]:
    """The parts of an array, each with whether it stood in brackets of its own."""
    found: list[tuple[str, bool]] = []
    at = 0
    while at < len(text):
        if text[at] in " \t,":
            at += 1
        elif text[at] in CLOSERS:
            close = text.find(CLOSERS[text[at]], at + 1)
            if close < 0:
                raise BadValue(f"{text[at]} has no {CLOSERS[text[at]]}")
            found.append((text[at + 1 : close], True))
            at = close + 1
        else:
            match = re.compile(r"[^\s,]+").match(text, at)
            if match is None:
                at += 1
                continue
            found.append((match.group(), False))
            at = match.end()
    return found


@dataclass(frozen=True)
class Value:
    """What is written after `=`; `quoted` where it stood in brackets or quotes."""

    text: str
    quoted: bool = False

    def is_expression(self) -> bool:
        """Whether one number would be a postfix expression of more than one word."""
        return self.quoted and len(tokens(self.text)) > 1

    def number(self) -> float:
        """One number."""
        return postfix(self.text) if self.quoted else plain_number(self.text)

    def whole(self) -> int:
        """One whole number."""
        value = self.number()
        if value != int(value):
            raise BadValue(f"{self.text} is no whole number")
        return int(value)

    def numbers(self) -> list[float]:
        """An array of numbers."""
        return [postfix(t) if quoted else plain_number(t) for t, quoted in tokens(self.text.replace("|", " "))]

    def words(self) -> list[str]:
        """An array of words."""
        return [t for t, _ in tokens(self.text)]

    def word(self) -> str:
        """One word, in lower case."""
        found = self.text.strip().lower()
        if not found:
            raise BadValue("a word is wanted and none is there")
        return found

    def truth(self) -> bool:
        """A truth value: OpenDSS looks at the first letter."""
        letter = self.text.strip().lower()[:1]
        if letter in ("y", "t"):
            return True
        if letter in ("n", "f"):
            return False
        raise BadValue(f"{self.text or 'nothing'} is neither yes nor no")

    def connection(self) -> str:
        """`wye` or `delta`, by OpenDSS's first letters."""
        text = self.text.strip().lower()
        if text.startswith(("y", "w", "ln")):
            return "wye"
        if text.startswith(("d", "ll")):
            return "delta"
        raise BadValue(f"{self.text or 'nothing'} is neither wye nor delta")

    def matrix(self) -> Matrix:
        """A full square matrix, or the symmetric one of a lower triangle."""
        rows = [[postfix(t) if q else plain_number(t) for t, q in tokens(r)] for r in self.text.split("|")]
        rows = [r for r in rows if r]
        size = len(rows)
        if size and all(len(r) == size for r in rows):
            return rows
        if size and all(len(r) == i + 1 for i, r in enumerate(rows)):
            return [[rows[max(i, j)][min(i, j)] for j in range(size)] for i in range(size)]
        raise BadValue(f"({self.text}) is neither a square matrix nor a lower triangle")


@dataclass(frozen=True)
class Bus:
    """A bus with the node numbers that are written after it."""

    name: str
    nodes: tuple[int, ...] = ()

    def __str__(self) -> str:
        return ".".join([self.name, *map(str, self.nodes)])

    def at(self, *nodes: int) -> Bus:
        """The same bus at other nodes."""
        return replace(self, nodes=nodes)


def bus_of(text: str) -> Bus:
    """A bus as it is written: a name and node numbers, parted by points."""
    name, *numbers = text.strip().split(".")
    if not name:
        raise BadValue("a bus has no name")
    if not all(n.isdigit() and len(n) < 4 for n in numbers):
        raise BadValue(f"{text} has a node that is no number")
    return Bus(name, tuple(int(n) for n in numbers))


def decimal(value: float) -> str:
    """A number as a plain decimal on the profile's grid of 10^-9."""
    text = f"{value:.9f}".rstrip("0").rstrip(".")
    return "0" if text in ("-0", "") else text
