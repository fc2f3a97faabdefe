"""Files, lines and words of OpenDSS's language, before any of them means something."""

from __future__ import annotations

import os
from collections.abc import Iterator
from dataclasses import dataclass
from pathlib import Path

from .findings import Place, Unreadable

BLANKS = " \t,"
CLOSERS = {"(": ")", "[": "]", "{": "}", '"': '"', "'": "'"}
LONGEST_FILE = 1 << 28


@dataclass(frozen=True)
class Word:
    """A value of a line with the name before its `=`, if there is one; `quoted` where it stood in brackets."""

    name: str | None
    text: str
    quoted: bool


@dataclass(frozen=True)
class Line:
    """A line that isn't empty, cut into words."""

    place: Place
    words: tuple[Word, ...]


def text_of(data: bytes) -> str:
    """The text of a file, whatever its encoding: a byte-order mark is dropped, other bytes are taken as Latin-1."""
    for mark, encoding in ((b"\xef\xbb\xbf", "utf-8"), (b"\xff\xfe", "utf-16-le"), (b"\xfe\xff", "utf-16-be")):
        if data.startswith(mark):
            return data[len(mark) :].decode(encoding, errors="replace")
    try:
        return data.decode("utf-8")
    except UnicodeDecodeError:
        return data.decode("latin-1")


def read_text(path: Path, place: Place) -> str:
    """The text of a file that a line at `place` names."""
    try:
        if path.stat().st_size > LONGEST_FILE:
            raise Unreadable(place, f"{path.name} is longer than {LONGEST_FILE} bytes")
        return text_of(path.read_bytes())
    except OSError as error:
        raise Unreadable(place, f"{path.name} can't be read: {error.strerror}") from None


def find_file(folder: Path, name: str) -> Path | None:
    """The file that a name means, seen from a folder: `\\` is `/`, and case doesn't count where it must not."""
    wanted = name.strip().replace("\\", "/")
    exact = folder / wanted
    if not wanted or "\0" in wanted:
        return None
    if exact.is_file():
        return exact
    here = Path("/") if wanted.startswith("/") else folder
    for part in (p for p in wanted.split("/") if p not in ("", ".")):
        if part == "..":
            here = here / part
            continue
        try:
            matches = sorted(p for p in os.listdir(here) if p.lower() == part.lower())
        except OSError:
            return None
        if not matches:
            return None
        here = here / (part if part in matches else matches[0])
    return here if here.is_file() else None


def starts_comment(line: str, at: int) -> bool:
    """Whether a comment begins here."""
    return line[at] == "!" or line.startswith("//", at)


def cut(line: str, place: Place) -> tuple[Word, ...]:
    """The words of a line, up to a comment."""
    words: list[Word] = []
    at, end = 0, len(line)
    while True:
        while at < end and line[at] in BLANKS:
            at += 1
        if at >= end or starts_comment(line, at):
            return tuple(words)
        if line[at] == "=":
            at += 1
            continue
        text, quoted, at = next_value(line, at, place)
        after = at
        while after < end and line[after] in " \t":
            after += 1
        if quoted or after >= end or line[after] != "=":
            words.append(Word(None, text, quoted))
            continue
        after += 1
        while after < end and line[after] in " \t":
            after += 1
        if after >= end or starts_comment(line, after):
            words.append(Word(text, "", False))
            at = after
            continue
        value, quoted, at = next_value(line, after, place, "")
        words.append(Word(text, value, quoted))


def next_value(line: str, at: int, place: Place, stop: str = "=") -> tuple[str, bool, int]:
    """The value that begins here, whether it stood in brackets, and where it ends. A bare one ends at `stop` too."""
    opener = line[at]
    if opener in CLOSERS:
        close = line.find(CLOSERS[opener], at + 1)
        if close < 0:
            raise Unreadable(place, f"{opener} has no {CLOSERS[opener]} in its line")
        return line[at + 1 : close], True, close + 1
    start = at
    while at < len(line) and line[at] not in BLANKS and line[at] not in stop and not starts_comment(line, at):
        at += 1
    return line[start:at], False, at


def lines_of(text: str, file: str) -> Iterator[Line]:
    """The lines of a file that hold words; block comments are passed over."""
    inside = False
    opened = 0
    for number, raw in enumerate(text.split("\n"), 1):
        line = raw.replace("\r", "").replace("\0", "").replace("\u00a0", " ")
        if not inside and line.lstrip().startswith("/*"):
            inside, opened = True, number
        if inside:
            inside = "*/" not in line
            continue
        words = cut(line, Place(file, number))
        if words:
            yield Line(Place(file, number), words)
    if inside:
        raise Unreadable(Place(file, opened), "a block comment has no */")
