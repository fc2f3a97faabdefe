"""Runs the commands of a source: what elements it has, with which settings, at each Solve."""

from __future__ import annotations

import re
from collections.abc import Callable
from dataclasses import dataclass, field, replace
from pathlib import Path

from .findings import BadValue, Findings, Place, Unreadable
from .syntax import Line, Word, find_file, lines_of, read_text
from .tables import (
    ACTING_CLASSES,
    BUS_PROPERTIES,
    COMMANDS,
    DROPPED_CLASSES,
    OPTIONS,
    PROPERTIES,
    PROTECTION,
    SILENT_COMMANDS,
    abbreviated,
)
from .values import Value

DEEPEST = 40
CLASSES = [*PROPERTIES, *DROPPED_CLASSES, *sorted(PROTECTION), *sorted(ACTING_CLASSES)]
VARIABLE = re.compile(r"@[A-Za-z_]\w*")
Key = tuple[str, str]


@dataclass(frozen=True)
class Setting:
    """One property given one value, by its whole name in lower case; files of it are looked for in `folder`."""

    name: str
    value: Value
    place: Place
    folder: Path = Path()


@dataclass(frozen=True)
class Element:
    """An element as its settings make it, in their order. `opened` is where a switch of it was opened."""

    kind: str
    name: str
    place: Place
    settings: tuple[Setting, ...] = ()
    enabled: bool = True
    off_at: Place | None = None
    opened: tuple[Place, int, int] | None = None

    @property
    def key(self) -> Key:
        """What finds the element."""
        return self.kind, self.name.lower()

    @property
    def places(self) -> list[Place]:
        """Every line that says something of the element, in order, once."""
        return list(dict.fromkeys([self.place, *(s.place for s in self.settings)]))


Elements = dict[Key, Element]


@dataclass(frozen=True)
class Solve:
    """A Solve: the elements and options at it, where voltage bases were asked for, and which Clear stands before."""

    place: Place
    elements: Elements
    options: dict[str, Setting]
    bases: Place | None
    turn: int
    circuit: str


def element_words(text: str) -> tuple[str, str]:
    """Class and name of `Class.Name`; the name may hold points."""
    kind, _, name = text.strip().partition(".")
    return kind.strip().lower(), name.strip()


@dataclass
class Reader:
    """The state of a source while its commands run."""

    findings: Findings
    top: Path
    folder: Path
    elements: Elements = field(default_factory=dict)
    options: dict[str, Setting] = field(default_factory=dict)
    variables: dict[str, str] = field(default_factory=dict)
    last: Key | None = None
    has_circuit: bool = False
    circuit: str = ""
    bases: Place | None = None
    turn: int = 0
    solves: list[Solve] = field(default_factory=list)
    reading: list[Path] = field(default_factory=list)

    # ------------------------------------------------------------ files

    def shown(self, path: Path) -> str:
        """A file's name as remarks have it: from the folder of the master where it lies in it."""
        try:
            return path.resolve().relative_to(self.top.resolve()).as_posix()
        except ValueError:
            return path.as_posix()

    def run(self, path: Path, place: Place) -> None:
        """Runs a file's commands; its folder is the current one meanwhile."""
        if path.resolve() in self.reading or len(self.reading) >= DEEPEST:
            raise Unreadable(place, f"{path.name} redirects to itself, or files go deeper than {DEEPEST}")
        self.reading.append(path.resolve())
        self.folder = path.parent
        for line in lines_of(read_text(path, place), self.shown(path)):
            self.command(line)
        self.reading.pop()

    def redirect(self, line: Line, back: bool) -> None:
        """`Redirect` comes back to the folder that it left, `Compile` stays."""
        if len(line.words) < 2:
            raise Unreadable(line.place, "no file is named")
        name = self.filled(line.words[1].text)
        path = find_file(self.folder, name)
        if path is None:
            raise Unreadable(line.place, f"there is no file {name}")
        here = self.folder
        self.findings.translated(line.place, f"the commands of {self.shown(path)} stand in its place")
        self.run(path, line.place)
        if back:
            self.folder = here

    def move(self, name: str, place: Place) -> None:
        """Changes the current folder."""
        folder = self.folder / name.replace("\\", "/")
        if not folder.is_dir():
            raise Unreadable(place, f"there is no folder {name}")
        self.folder = folder

    # ------------------------------------------------------------ commands

    def command(self, line: Line) -> None:
        """Runs one line."""
        first = line.words[0]
        if first.name is not None:
            self.property_command(line)
            return
        text = first.text
        if text.startswith("~") and len(text) > 1:
            line = replace(line, words=(Word(None, "~", False), replace(first, text=text[1:]), *line.words[1:]))
            text = "~"
        verb = abbreviated(text, COMMANDS)
        if verb is None:
            if text.count(".") >= 1 and not first.quoted:
                self.findings.dropped(line.place, f"{text} only shows a value")
                return
            raise Unreadable(line.place, f"{text} is no command of OpenDSS")
        if verb != text.lower() and text.lower() != "calcv":
            self.findings.translated(line.place, f"{text} is {verb}")
        self.act(verb, line)

    def act(self, verb: str, line: Line) -> None:
        """Runs a command by its whole name."""
        simple: dict[str, Callable[[Line], None]] = {
            "new": self.new,
            "edit": self.edit,
            "batchedit": self.batch_edit,
            "more": self.more,
            "m": self.more,
            "~": self.more,
            "set": self.set,
            "solve": self.solve,
            "open": self.open,
            "close": self.close,
            "var": self.var,
        }
        if verb in simple:
            simple[verb](line)
        elif verb in ("redirect", "compile"):
            self.redirect(line, verb == "redirect")
        elif verb in ("enable", "disable"):
            self.able(line, verb == "enable")
        elif verb in ("clear", "clearall"):
            self.clear()
        elif verb == "calcvoltagebases":
            self.bases = line.place
        elif verb == "cd":
            self.move(self.second(line), line.place)
        elif verb == "doscmd":
            self.findings.dropped(line.place, "no other program is run")
        elif verb in SILENT_COMMANDS:
            self.findings.dropped(line.place, f"{verb} only shows, writes or resets something")
        else:
            self.findings.refuse(line.place, verb, f"the command {verb} changes the circuit by a rule of its own")

    def second(self, line: Line) -> str:
        """The word behind the command."""
        if len(line.words) < 2:
            raise Unreadable(line.place, f"{line.words[0].text} has nothing behind it")
        return self.filled(line.words[1].text)

    def clear(self) -> None:
        """Back to nothing."""
        self.elements, self.options, self.last, self.has_circuit = {}, {}, None, False
        self.bases, self.turn = None, self.turn + 1

    def var(self, line: Line) -> None:
        """`Var @name=value`."""
        for word in line.words[1:]:
            if word.name is not None and word.name.startswith("@"):
                self.variables[word.name.lower()] = self.filled(word.text)
        self.findings.translated(line.place, "each variable stands as its value")

    def filled(self, text: str) -> str:
        """A value with its variables replaced."""
        if "@" not in text or not self.variables:
            return text
        return VARIABLE.sub(lambda m: self.variables.get(m.group().lower(), m.group()), text)

    # ------------------------------------------------------------ elements

    def target(self, line: Line) -> tuple[str, str, tuple[Word, ...]]:
        """Class and name of the element that a New or Edit is for, and the words behind it."""
        if len(line.words) < 2:
            raise Unreadable(line.place, "no element is named")
        word = line.words[1]
        if word.name is not None and not "object".startswith(word.name.lower()):
            raise Unreadable(line.place, f"an element is wanted and {word.name}= is there")
        kind, name = element_words(self.filled(word.text))
        if kind == "circuit":
            return kind, name or "circuit", line.words[2:]
        known = abbreviated(kind, CLASSES) if kind else None
        if not name:
            raise Unreadable(line.place, f"{word.text or 'nothing'} is no Class.Name")
        return known or kind, name, line.words[2:]

    def new(self, line: Line) -> None:
        """Makes an element; one that is there already is edited, as OpenDSS does."""
        kind, name, words = self.target(line)
        if kind == "circuit":
            if self.has_circuit:
                raise Unreadable(line.place, "a second circuit, and no Clear before it")
            self.has_circuit, self.circuit = True, name
            kind, name = "vsource", "source"
        elif not self.has_circuit and kind in PROPERTIES and kind not in EARLY:
            raise Unreadable(line.place, "an element before New Circuit")
        element = Element(kind, name, line.place)
        if element.key in self.elements:
            self.findings.translated(line.place, f"a second New {kind}.{name} is an Edit of the first")
            element = self.elements[element.key]
        self.elements[element.key] = element
        self.last = element.key
        self.apply(element.key, words, line.place)

    def edit(self, line: Line) -> None:
        """Sets properties of an element that is there."""
        kind, name, words = self.target(line)
        key = ("vsource", "source") if kind == "circuit" else (kind, name.lower())
        if key not in self.elements:
            raise Unreadable(line.place, f"there is no {kind}.{name}")
        self.last = key
        self.apply(key, words, line.place)
        self.note_edit(line.place)

    def note_edit(self, place: Place) -> None:
        """An edit is written into its element."""
        if not self.solves or self.solves[-1].turn != self.turn:
            self.findings.translated(place, "set where the element is defined")

    def more(self, line: Line) -> None:
        """Goes on with the last element."""
        if self.last is None:
            raise Unreadable(line.place, "it continues no element")
        self.apply(self.last, line.words[1:], line.place)

    def property_command(self, line: Line) -> None:
        """`Class.Name.Property=value`, and pairs behind it."""
        first = line.words[0]
        path, _, prop = (first.name or "").rpartition(".")
        kind, name = element_words(path)
        key = (abbreviated(kind, CLASSES) or kind, name.lower())
        if not name or not prop:
            raise Unreadable(line.place, f"{first.name} is no command of OpenDSS")
        if key not in self.elements:
            raise Unreadable(line.place, f"there is no {path}")
        self.last = key
        self.apply(key, (replace(first, name=prop), *line.words[1:]), line.place)
        self.note_edit(line.place)

    def batch_edit(self, line: Line) -> None:
        """Edits every element of a class whose name matches."""
        kind, pattern, words = self.target(line)
        try:
            matches = re.compile(pattern, re.IGNORECASE).search
        except re.error:
            raise Unreadable(line.place, f"{pattern} is no regular expression") from None
        found = [k for k in self.elements if k[0] == kind and matches(k[1])]
        for key in found:
            self.apply(key, words, line.place)
        self.findings.translated(line.place, f"set at each of {len(found)} elements")

    def apply(self, key: Key, words: tuple[Word, ...], place: Place) -> None:
        """Sets the pairs of one command, left to right."""
        element = self.elements[key]
        table = PROPERTIES.get(element.kind)
        position = -1
        for word in words:
            value = Value(self.filled(word.text), word.quoted)
            if table is None:
                element = replace(
                    element, settings=(*element.settings, Setting((word.name or "").lower(), value, place))
                )
                if (word.name or "").lower() == "enabled":
                    element = self.switched(element, value, place)
                continue
            name = self.property_name(element, table, word, position, place)
            if name is None:
                continue
            position = table.index(name)
            if name == "like":
                element = self.liked(element, value, place)
            elif name == "enabled":
                element = self.switched(element, value, place)
            else:
                setting = Setting(name, value, place, self.folder)
                element = replace(element, settings=(*element.settings, setting))
        self.elements[key] = element

    def property_name(self, element: Element, table: list[str], word: Word, position: int, place: Place) -> str | None:
        """The whole name of a pair's property, by its spelling or by its position."""
        if word.name is None:
            if position + 1 >= len(table):
                raise Unreadable(place, f"{word.text} is one value more than {element.kind} has properties")
            name = table[position + 1]
            self.findings.translated(place, f"{word.text} by its position is {name}")
            return name
        known = abbreviated(word.name, table)
        if known is None:
            self.findings.refuse(place, f"{element.kind}.{word.name}", f"{word.name} is no property of {element.kind}")
        elif known != word.name.lower():
            self.findings.translated(place, f"{word.name} is {known}")
        return known

    def liked(self, element: Element, value: Value, place: Place) -> Element:
        """All that another element has, but for where it stands."""
        other = self.elements.get((element.kind, value.text.strip().lower()))
        if other is None:
            raise Unreadable(place, f"like={value.text}: there is no such {element.kind}")
        copied = [replace(s, place=place) for s in other.settings if s.name not in BUS_PROPERTIES]
        if element.kind == "transformer":
            copied.append(Setting("wdg", Value("1"), place))
        self.findings.translated(place, f"like={value.text}: its settings are written out")
        return replace(element, settings=(*element.settings, *copied))

    def switched(self, element: Element, value: Value, place: Place) -> Element:
        """`enabled=yes` or `no`."""
        try:
            return replace(element, enabled=value.truth(), off_at=place)
        except BadValue as error:
            raise Unreadable(place, f"enabled: {error}") from None

    # ------------------------------------------------------------ switches

    def named(self, line: Line) -> list[Element]:
        """The elements that `Class.Name` or `Class.*` behind a command means."""
        kind, name = element_words(self.second(line))
        kind = abbreviated(kind, CLASSES) or kind
        if name == "*":
            return [e for e in self.elements.values() if e.kind == kind]
        element = self.elements.get((kind, name.lower()))
        if element is None:
            raise Unreadable(line.place, f"there is no {kind}.{name}")
        return [element]

    def able(self, line: Line, enabled: bool) -> None:
        """`Enable` and `Disable`."""
        for element in self.named(line):
            self.elements[element.key] = replace(element, enabled=enabled, off_at=line.place)
        self.findings.translated(
            line.place, "the element stands in the script" if enabled else "the element is left out"
        )

    def open(self, line: Line) -> None:
        """`Open Class.Name terminal conductor`."""
        numbers = [1, 0]
        for index, word in enumerate(line.words[2:4]):
            try:
                numbers[index] = Value(self.filled(word.text), word.quoted).whole()
            except BadValue as error:
                raise Unreadable(line.place, str(error)) from None
        for element in self.named(line):
            self.elements[element.key] = replace(element, opened=(line.place, numbers[0], numbers[1]))

    def close(self, line: Line) -> None:
        """`Close Class.Name`."""
        for element in self.named(line):
            self.elements[element.key] = replace(element, opened=None)
        self.findings.translated(line.place, "the switch stands as it is then")

    # ------------------------------------------------------------ options

    def set(self, line: Line) -> None:
        """`Set` pairs."""
        for word in line.words[1:]:
            if word.name is None:
                raise Unreadable(line.place, f"{word.text} sets no option: its name is missing")
            name = abbreviated(word.name, OPTIONS)
            value = Value(self.filled(word.text), word.quoted)
            if name is None:
                self.findings.refuse(line.place, f"set.{word.name}", f"{word.name} is no option of OpenDSS")
                continue
            if name != word.name.lower():
                self.findings.translated(line.place, f"{word.name} is {name}")
            if name == "datapath":
                self.move(value.text, line.place)
                self.findings.translated(line.place, "files are looked for there")
            else:
                if name == "mode":
                    for reset in ("number", "stepsize", "h"):
                        self.options.pop(reset, None)
                self.options[name] = Setting(name, value, line.place)

    def solve(self, line: Line) -> None:
        """Keeps the circuit as it is."""
        self.set(line)
        if not self.has_circuit:
            raise Unreadable(line.place, "there is no circuit to solve")
        self.keep(line.place)

    def keep(self, place: Place) -> None:
        """Keeps the circuit as it is at a Solve."""
        solve = Solve(place, dict(self.elements), dict(self.options), self.bases, self.turn, self.circuit)
        self.solves.append(solve)
        self.bases = None


EARLY = frozenset(
    ("loadshape", "linecode", "xfmrcode", "wiredata", "linespacing", "linegeometry", "cndata", "tsdata", "xycurve")
)


def read(master: Path, findings: Findings) -> list[Solve]:
    """Every Solve of a source. Where there is none, its end counts as one, at line 0 of the master."""
    place = Place(master.name, 0)
    if not master.is_file():
        raise Unreadable(place, "there is no such file")
    reader = Reader(findings, master.parent, master.parent)
    reader.run(master, place)
    if not reader.has_circuit and not reader.solves:
        raise Unreadable(place, "there is no New Circuit in it")
    if reader.has_circuit and (not reader.solves or reader.solves[-1].turn != reader.turn):
        findings.translated(place, "there is no Solve at its end: one is added")
        reader.keep(place)
    return reader.solves
