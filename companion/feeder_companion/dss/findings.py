"""What a translation has to say of each line of its source."""

from __future__ import annotations

from collections.abc import Iterable
from dataclasses import dataclass, field
from enum import Enum


@dataclass(frozen=True, order=True)
class Place:
    """A line of a file, counted from 1; line 0 is the file as a whole."""

    file: str
    line: int

    def __str__(self) -> str:
        return f"{self.file}:{self.line}"


NOWHERE = Place("", 0)


class Kind(Enum):
    """What becomes of a line of the source that isn't carried over word for word."""

    TRANSLATED = "translated"
    DROPPED = "dropped, no effect on the flow"
    NOT_CARRIED = "not carried"
    WARNING = "warning"
    REFUSED = "refused"


@dataclass(frozen=True)
class Finding:
    """One remark. `word` is what `--without` takes to leave the refused thing out; it is empty elsewhere."""

    place: Place
    kind: Kind
    text: str
    word: str = ""


class Unreadable(Exception):
    """The source can't be read on: one place, one cause."""

    def __init__(self, place: Place, cause: str) -> None:
        super().__init__(f"{place}: {cause}")
        self.place = place
        self.cause = cause


class BadValue(Exception):
    """A value can't be read as what it should be."""


@dataclass
class Findings:
    """All remarks of a translation, in the order in which they were made; `without` are the words to leave out."""

    without: frozenset[str] = frozenset()
    made: list[Finding] = field(default_factory=list)
    refused: int = 0
    used: set[str] = field(default_factory=set)
    seen: set[Finding] = field(default_factory=set)

    def add(self, place: Place, kind: Kind, text: str, word: str = "") -> None:
        """Keeps a remark, once."""
        finding = Finding(place, kind, text, word)
        if finding not in self.seen:
            self.seen.add(finding)
            self.made.append(finding)
            self.refused += kind is Kind.REFUSED

    def translated(self, place: Place, text: str) -> None:
        """The line says the same in the profile's words; `text` says how."""
        self.add(place, Kind.TRANSLATED, text)

    def dropped(self, place: Place, text: str) -> None:
        """The line, or `text` of it, has no effect on the flow."""
        self.add(place, Kind.DROPPED, text)

    def warn(self, place: Place, text: str) -> None:
        """The line is carried, and the user should know `text`."""
        self.add(place, Kind.WARNING, text)

    def not_carried(self, place: Place, text: str) -> None:
        """Something is left out; `text` says why and what that changes."""
        self.add(place, Kind.NOT_CARRIED, text)

    def refuse(self, place: Place, word: str, text: str) -> None:
        """What can't be translated and would change the flow: refused, or left out where `--without` names it."""
        word = word.lower()
        asked = self.without & {word, word.split(".")[0]}
        if asked:
            self.used |= asked
            self.add(place, Kind.NOT_CARRIED, f"{text}; left out, as --without {min(asked)} asks", word)
        else:
            self.add(place, Kind.REFUSED, text, word)

    def leaves_out(self, word: str) -> bool:
        """Whether `--without` names this word itself."""
        return word.lower() in self.without

    @property
    def refusals(self) -> list[Finding]:
        """What was refused."""
        return [f for f in self.made if f.kind is Kind.REFUSED]

    def of_kind(self, kind: Kind) -> list[Finding]:
        """The remarks of one kind."""
        return [f for f in self.made if f.kind is kind]


def remark_lines(findings: Iterable[Finding]) -> list[str]:
    """One line for each line of the source, file by file; refusals have lines of their own."""
    places: dict[Place, dict[Kind, list[str]]] = {}
    lines: list[str] = []
    for finding in findings:
        if finding.kind is Kind.REFUSED:
            continue
        texts = places.setdefault(finding.place, {}).setdefault(finding.kind, [])
        if finding.text not in texts:
            texts.append(finding.text)
    files = {file: index for index, file in enumerate(dict.fromkeys(p.file for p in places))}
    for place, kinds in sorted(places.items(), key=lambda pair: (files[pair[0].file], pair[0].line)):
        parts = [f"{kind.value}: {', '.join(kinds[kind])}" for kind in Kind if kind in kinds]
        lines.append(f"{place}: {'; '.join(parts)}")
    return lines


def refusal_lines(findings: Iterable[Finding]) -> list[str]:
    """One line for each refusal, in the order of the source's files and lines as they were read."""
    return [f"{f.place}: refused: {f.word}: {f.text}" for f in findings if f.kind is Kind.REFUSED]
