"""Certificates of `feeder cert`, of both versions, as plain records, and whether a report has the numbers that a certificate claims.

Nothing is judged here: `feeder check` does that. Centres and radii are in microvolts and microamperes, entries of the
inverse in units of 2^-40, times in milliseconds.
"""

from __future__ import annotations

import re
from collections.abc import Iterator
from dataclasses import dataclass, field
from pathlib import Path

from .reports import Report, Round


class UnreadableCertificate(Exception):
    """A line that isn't the one that is due, with its number, counted from 1, and the cause."""

    def __init__(self, name: str, line: int, cause: str) -> None:
        super().__init__(f"{name}: line {line}: {cause}")
        self.name, self.line, self.cause = name, line, cause


@dataclass(frozen=True, slots=True)
class Claim:
    """What is claimed of one real unknown: its centre, radius and mismatch."""

    centre: int
    radius: int
    mismatch: int


@dataclass(frozen=True, slots=True)
class CertifiedAct:
    """An act: its time, the number of its control in script order from 0, and its steps with their sign."""

    time: int
    control: int
    steps: int


@dataclass(slots=True)
class Block:
    """One solved round: its claims in the order of the unknowns, its inverse (empty where it wasn't wanted) and its acts."""

    settle: int
    hour: int
    round: int
    claims: list[Claim] = field(default_factory=list)
    inverse: list[list[int]] = field(default_factory=list)
    acts: list[CertifiedAct] = field(default_factory=list)


@dataclass(slots=True)
class Certificate:
    """The blocks of a certificate in their order."""

    name: str
    blocks: list[Block] = field(default_factory=list)


NUMBER = re.compile(rb"(?:0|-?[1-9][0-9]*)\Z")


def read_certificate(path: str | Path, with_inverse: bool = False) -> Certificate:
    """The certificate that a file holds; raises OSError, or UnreadableCertificate at its first bad line."""
    return parse_certificate(Path(path).read_bytes(), str(path), with_inverse)


def parse_certificate(content: bytes, name: str = "certificate", with_inverse: bool = False) -> Certificate:
    """The certificate that these bytes are; the inverses are read where they are wanted."""
    return Reader(content, name, with_inverse).read()


class Reader:
    """Goes through the lines of a certificate, one after the other."""

    def __init__(self, content: bytes, name: str, with_inverse: bool) -> None:
        self.name, self.with_inverse, self.place, self.sparse = name, with_inverse, 0, False
        self.lines = content.split(b"\n")
        self.tail = self.lines.pop()

    def bad(self, cause: str) -> UnreadableCertificate:
        return UnreadableCertificate(self.name, self.place, cause)

    def words(self) -> list[bytes]:
        """The words of the next line."""
        self.place += 1
        if self.place > len(self.lines):
            raise self.bad("the certificate ends before `end`")
        return self.lines[self.place - 1].split(b" ")

    def numbers(self, words: list[bytes], count: int) -> list[int]:
        if len(words) != count:
            raise self.bad("wrong number of fields")
        if not all(NUMBER.match(it) for it in words):
            raise self.bad("a field that is no number")
        return [int(it) for it in words]

    def read(self) -> Certificate:
        words = self.words()
        if words not in ([b"cert", b"1"], [b"cert", b"2"]):
            raise self.bad("not the line `cert 1` or `cert 2`")
        self.sparse = words[1] == b"2"
        certificate = Certificate(self.name)
        words = self.words()
        while words != [b"end"]:
            if words[0] != b"solution":
                raise self.bad("not the line of a block")
            words = self.block(certificate, words)
        if self.place != len(self.lines) or self.tail:
            self.place += 1
            raise self.bad("a line behind `end`")
        return certificate

    def block(self, certificate: Certificate, words: list[bytes]) -> list[bytes]:
        """Reads a block behind its first line; gives the words of the line behind it."""
        settle, hour, turn, count = self.numbers(words[1:], 4)
        block = Block(settle, hour, turn)
        certificate.blocks.append(block)
        for rest in self.rows(b"x", count):
            _, centre, radius, mismatch = self.numbers(rest, 4)
            block.claims.append(Claim(centre, radius, mismatch))
        for rest in self.rows(b"c", count):
            entries = self.entries(rest, count) if self.sparse else self.whole_row(rest, count)
            if self.with_inverse:
                block.inverse.append(entries)
        words = self.words()
        while words[0] == b"act":
            block.acts.append(CertifiedAct(*self.numbers(words[1:], 3)))
            words = self.words()
        return words

    def whole_row(self, words: list[bytes], count: int) -> list[int]:
        """The entries behind a row's place in version 1, or none where they aren't wanted."""
        if len(words) != count + 1:
            raise self.bad("wrong number of fields")
        return self.numbers(words, count + 1)[1:] if self.with_inverse else []

    def entries(self, words: list[bytes], count: int) -> list[int]:
        """The entries of a row in version 2: their number, and each that isn't 0 behind its place."""
        _, named, *pairs = self.numbers(words, len(words)) if len(words) > 1 else self.numbers(words, 2)
        places, entries = pairs[::2], pairs[1::2]
        if len(places) != named or len(entries) != named:
            raise self.bad("wrong number of fields")
        rise = all(a < b for a, b in zip([-1, *places], [*places, count]))
        if not rise or 0 in entries:
            raise self.bad("not the entries of a row behind their places")
        if not self.with_inverse:
            return []
        at = dict(zip(places, entries))
        return [at.get(place, 0) for place in range(count)]

    def rows(self, word: bytes, count: int) -> Iterator[list[bytes]]:
        """What stands behind the word of the next `count` lines, which have the places 0, 1 and so on."""
        for place in range(count):
            words = self.words()
            if words[:2] != [word, str(place).encode()]:
                raise self.bad(f"not the line `{word.decode()} {place}`")
            yield words[1:]


def first_difference(report: Report, certificate: Certificate) -> str | None:
    """Where the report's rounds aren't the certificate's blocks: another order, number or act, or one that doesn't follow; else None."""
    rounds = [(settle, turn) for settle in report.settles for turn in settle.rounds]
    if len(rounds) != len(certificate.blocks):
        return f"the report has {len(rounds)} rounds and the certificate {len(certificate.blocks)} blocks"
    for (settle, turn), block in zip(rounds, certificate.blocks):
        if (settle.number, settle.hour, turn.number) != (block.settle, block.hour, block.round):
            return f"solution {settle.number},{settle.hour},{turn.number} isn't the block that is due"
        difference = round_difference(turn, block)
        if difference is not None:
            return f"solution {settle.number},{settle.hour},{turn.number}: {difference}"
    return None


def claims_of(turn: Round) -> Iterator[tuple[str, Claim]]:
    """What a round claims of each real unknown, by its name, in the order of the unknowns."""
    for node in turn.nodes:
        yield f"{node.name} re", Claim(node.re, node.radius, node.mismatch_re)
        yield f"{node.name} im", Claim(node.im, node.radius, node.mismatch_im)
    for branch in turn.branches:
        yield f"{branch.element} {branch.phase} re", Claim(branch.re, branch.radius, branch.mismatch_re)
        yield f"{branch.element} {branch.phase} im", Claim(branch.im, branch.radius, branch.mismatch_im)
    for it in turn.magnitudes:
        yield f"{it.element} {it.phase} mag", Claim(it.size, it.radius, it.mismatch)


def round_difference(turn: Round, block: Block) -> str | None:
    """The first unknown or act of a round that isn't the block's."""
    claims = list(claims_of(turn))
    if len(claims) != len(block.claims):
        return f"{len(claims)} unknowns, and {len(block.claims)} in the certificate"
    for (name, ours), theirs in zip(claims, block.claims):
        if ours != theirs:
            return f"{name} isn't the certificate's"
    if [(it.time, it.steps) for it in turn.acts] != [(it.time, it.steps) for it in block.acts]:
        return "the acts aren't the certificate's"
    return derived_difference(turn)


def derived_difference(turn: Round) -> str | None:
    """The first number that follows from a round's centres and radii and isn't what follows: low and high, or a box."""
    for node in turn.nodes:
        if node.size != node.voltage.size():
            return f"low and high of {node.name} aren't those of its radius"
        if node.box != box_of(abs(node.re) + abs(node.im)):
            return f"the box of {node.name} isn't that of its voltage"
    for it in turn.magnitudes:
        if it.box != box_of(abs(it.size)):
            return f"the box of {it.element} {it.phase} isn't that of its magnitude"
    return None


def box_of(weight: int) -> int:
    """Half a percent of a weight of at least a volt, in microvolts, rounded up."""
    return -(-max(weight, 10**6) // 200)
