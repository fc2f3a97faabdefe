"""One element's settings while they are translated, with the remarks that come of it."""

from __future__ import annotations

import re
from collections.abc import Callable, Iterable
from dataclasses import dataclass, field
from typing import TypeVar

from .findings import BadValue, Findings, Place, Unreadable
from .reader import Element, Setting
from .values import Bus, Matrix, Value, bus_of, decimal

T = TypeVar("T")
FOREIGN = re.compile(r"[^A-Za-z0-9_%-]")


@dataclass
class Names:
    """Names of elements and buses in the letters that the profile has, each for one name of the source."""

    known: dict[tuple[str, str], str] = field(default_factory=dict)
    taken: set[tuple[str, str]] = field(default_factory=set)

    def clean(self, space: str, name: str) -> str:
        """The profile's name of a bus (space `bus`) or of an element (space is its class)."""
        key = (space, name.lower())
        if key in self.known:
            kept = self.known[key]
            return name if kept == name.lower() else kept
        base = FOREIGN.sub("_", name)
        found, count = base, 1
        while (space, found.lower()) in self.taken:
            count += 1
            found = f"{base}_{count}"
        self.taken.add((space, found.lower()))
        self.known[key] = found.lower() if found == name else found
        return found

    def fresh(self, space: str, name: str) -> str:
        """A name that nothing has yet."""
        base = FOREIGN.sub("_", name)
        found, count = base, 1
        while (space, found.lower()) in self.taken:
            count += 1
            found = f"{base}_{count}"
        self.taken.add((space, found.lower()))
        return found


@dataclass
class Given:
    """The settings of an element. Whatever isn't read, dropped or refused by the end is refused by `rest`."""

    element: Element
    findings: Findings
    names: Names
    comments: list[str] = field(default_factory=list)
    read: set[str] = field(default_factory=set)
    last: dict[str, Setting] = field(default_factory=dict)
    order: dict[str, int] = field(default_factory=dict)

    def __post_init__(self) -> None:
        for index, setting in enumerate(self.element.settings):
            self.last[setting.name] = setting
            self.order[setting.name] = index

    @property
    def place(self) -> Place:
        """Where the element is made."""
        return self.element.place

    @property
    def name(self) -> str:
        """The element's name in the profile."""
        return self.clean(self.element.kind, self.element.name, self.place)

    def clean(self, space: str, name: str, place: Place) -> str:
        """A name in the profile's letters; a change is said."""
        first = (space, name.lower()) not in self.names.known
        found = self.names.clean(space, name)
        if found != name:
            self.findings.translated(place, f"{name} is named {found}")
            if first:
                self.comments.append(f"{name} is named {found}")
        return found

    # ------------------------------------------------------------ remarks

    def note(self, place: Place, text: str) -> None:
        """A translation, said on standard error and at the line of the script."""
        self.findings.translated(place, text)
        if text not in self.comments:
            self.comments.append(text)

    def where(self, *names: str) -> Place:
        """The place of the first of these settings that is there."""
        return next((self.last[n].place for n in names if n in self.last), self.place)

    def refuse(self, name: str, text: str) -> None:
        """A property that can't be carried and would change the flow."""
        self.read.add(name)
        self.findings.refuse(self.where(name), f"{self.element.kind}.{name}", text)

    def refuse_element(self, word: str, text: str) -> None:
        """Something of the element as a whole."""
        self.findings.refuse(self.place, word, text)

    def drop(self, names: Iterable[str], why: str = "") -> None:
        """Properties without effect on the flow."""
        for name in names:
            if name in self.last and name not in self.read:
                self.read.add(name)
                self.findings.dropped(self.last[name].place, f"{name} {why}".strip())

    def rest(self) -> None:
        """Refuses what nothing has read."""
        for name, setting in self.last.items():
            if name not in self.read:
                text = f"{name}={setting.value.text} has no translation"
                self.findings.refuse(setting.place, f"{self.element.kind}.{name}", text)

    # ------------------------------------------------------------ values

    def has(self, *names: str) -> bool:
        """Whether one of these is set."""
        return any(n in self.last for n in names)

    def latest(self, *names: str) -> str | None:
        """Which of these is set last."""
        found = [n for n in names if n in self.last]
        return max(found, key=self.order.__getitem__) if found else None

    def value(self, name: str, read: Callable[[Value], T]) -> T | None:
        """A setting read as something, or nothing where it isn't set."""
        setting = self.last.get(name)
        if setting is None:
            return None
        self.read.add(name)
        return self.of(setting, read)

    def of(self, setting: Setting, read: Callable[[Value], T]) -> T:
        """One setting read as something."""
        try:
            return read(setting.value)
        except BadValue as error:
            raise Unreadable(setting.place, f"{setting.name}: {error}") from None

    def number_of(self, setting: Setting) -> float:
        """One setting's number; an expression is said."""
        found = self.of(setting, Value.number)
        if setting.value.is_expression():
            self.note(setting.place, f"{setting.name}=({setting.value.text}) is {decimal(found)}")
        return found

    def number(self, name: str, default: float) -> float:
        """A number, or the default."""
        found = self.optional(name)
        return default if found is None else found

    def optional(self, name: str) -> float | None:
        """A number, if it is set."""
        if name not in self.last:
            return None
        self.read.add(name)
        return self.number_of(self.last[name])

    def whole(self, name: str, default: int) -> int:
        """A whole number, or the default."""
        found = self.value(name, Value.whole)
        return default if found is None else found

    def truth(self, name: str, default: bool) -> bool:
        """A truth value, or the default."""
        found = self.value(name, Value.truth)
        return default if found is None else found

    def word(self, name: str, default: str) -> str:
        """A word in lower case, or the default."""
        return self.value(name, Value.word) or default

    def connection(self, default: str = "wye") -> str:
        """The connection, `wye` or `delta`."""
        return self.value("conn", Value.connection) or default

    def numbers(self, name: str) -> list[float] | None:
        """An array of numbers, if it is set."""
        return self.value(name, Value.numbers)

    def words(self, name: str) -> list[str] | None:
        """An array of words, if it is set."""
        return self.value(name, Value.words)

    def matrix(self, name: str) -> Matrix | None:
        """A matrix, if it is set."""
        return self.value(name, Value.matrix)

    def bus(self, name: str) -> Bus | None:
        """A bus with the profile's name, if it is set."""
        setting = self.last.get(name)
        if setting is None:
            return None
        self.read.add(name)
        return self.bus_in(setting, setting.value.text)

    def bus_in(self, setting: Setting, text: str) -> Bus:
        """A bus that stands in a setting."""
        try:
            found = bus_of(text)
        except BadValue as error:
            raise Unreadable(setting.place, f"{setting.name}: {error}") from None
        if any(n > 9 for n in found.nodes):
            self.findings.refuse(setting.place, f"{self.element.kind}.{setting.name}", f"{text} has a node above 9")
            return Bus(found.name, tuple(min(n, 9) for n in found.nodes))
        return Bus(self.clean("bus", found.name, setting.place), found.nodes)
