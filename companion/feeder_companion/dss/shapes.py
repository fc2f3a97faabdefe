"""Loadshapes, from numbers or from files."""

from __future__ import annotations

import csv
import io
import os
import struct
from dataclasses import dataclass, field
from pathlib import Path

from .findings import Place, Unreadable
from .given import Given
from .loads import Shape
from .profile import LONGEST_LINE, Item, array
from .reader import Setting
from .syntax import BLANKS, find_file, read_text
from .values import NUMBER, Value, decimal

SILENT = "mean stddev action pmax qmax pbase qbase memorymapping hour".split()
FILES = ("csvfile", "sngfile", "dblfile", "pqcsvfile")
ROOM = LONGEST_LINE - 400
FEW = 48
"""So many numbers of a file are written out rather than looked for beside the script."""


@dataclass(frozen=True)
class FileArray:
    """`file=NAME, col=2, header=yes` in the place of an array."""

    name: str
    column: int = 1
    header: bool = False
    binary: str = ""


def file_array(value: Value) -> FileArray | None:
    """What a value says of a file, if it names one."""
    text = value.text.strip()
    head = text[:8].lower()
    if not head.startswith(("file=", "file =", "dblfile=", "sngfile=")):
        return None
    column, header, name, binary = 1, False, "", ""
    for part in (p.strip() for p in text.split(",")):
        key, _, rest = (t.strip() for t in part.partition("="))
        key = key.lower()
        if key == "file":
            name = rest
        elif key in ("dblfile", "sngfile"):
            name, binary = rest, key
        elif key.startswith("col"):
            column = int(rest) if rest.isdigit() else 1
        elif key.startswith("head"):
            header = rest.lower().startswith(("y", "t"))
    return FileArray(name.strip("\"'"), column, header, binary)


@dataclass
class Shapes:
    """Translates Loadshapes by the master's folder; `wanted` says whether a Solve uses any, `known` what they are."""

    folder: Path
    wanted: bool
    known: dict[str, Shape] = field(default_factory=dict)

    def loadshape(self, given: Given) -> list[Item]:
        """A Loadshape of one value an hour; without a daily Solve, one that the profile hasn't is dropped."""
        interval = self.hours(given)
        given.drop(SILENT, "has no part in the flow")
        if interval != 1:
            if self.wanted:
                given.refuse("interval", f"interval={decimal(interval)} hours: one hour alone is in the profile")
            else:
                given.findings.dropped(given.place, "the shape isn't hourly, and no Solve of this source uses it")
            return []
        if self.wanted:
            return self.items(given)
        given.drop(("useactual", "qmult"), "isn't used by a Solve of this source")
        try:
            return self.items(given)
        except Unreadable as error:
            given.findings.dropped(error.place, f"{error.cause}, and no Solve of this source uses the shape")
            return []

    def items(self, given: Given) -> list[Item]:
        """The shape, and one of kvar beside it where that has numbers of its own."""
        actual = self.wanted and (given.value("useactual", Value.truth) or False)
        if actual:
            given.note(
                given.where("useactual"), "its numbers are kW: the loads that it is for have kw and kvar by them"
            )
        elif given.has("useactual") and self.wanted:
            given.findings.dropped(given.where("useactual"), "useactual=no is as it is without")
        form = given.latest("mult", "pmult", *FILES)
        given.drop((n for n in ("mult", "pmult", *FILES) if n != form), "is overridden")
        if form is None:
            raise Unreadable(given.place, "the shape has no values")
        if form == "pmult":
            given.note(given.where(form), "pmult is mult")
        found, kw = self.item(given, given.name, form, actual)
        reactive, kvar = (self.item(given, "", "qmult", actual)) if "qmult" not in given.read else (None, 1.0)
        given.rest()
        if found is None:
            return []
        self.known[found.name.lower()] = Shape(actual, kw, reactive.name if reactive else "", kvar)
        return [found, reactive] if reactive else [found]

    def item(self, given: Given, name: str, form: str, actual: bool) -> tuple[Item | None, float]:
        """The shape of one setting, and the kW or kvar of 1: no number of the profile's shapes is above 1,000."""
        setting = given.last.get(form)
        if setting is None:
            return None, 1.0
        given.read.add(form)
        numbers, text = self.numbers(setting, given)
        npts = given.whole("npts", len(numbers))
        if npts > len(numbers):
            given.refuse("npts", f"npts={npts}, and {len(numbers)} values")
        scale = 1000.0 if actual and max(numbers, default=0) > 1000 else 1.0
        if scale != 1:
            numbers, text = [n / scale for n in numbers], ""
        text = text or self.inline(numbers, given, setting)
        if not text:
            return None, scale
        comments = list(given.comments)
        if form == "qmult":
            name = given.names.fresh("loadshape", f"{given.name}_kvar")
            comments = [f"kvar of Loadshape.{given.name}"]
            given.note(setting.place, f"qmult is a shape of its own, {name}")
        elif text.startswith("(file="):
            comments.append("the file is looked for beside this script")
        pairs = {"npts": str(min(npts, len(numbers)) or len(numbers)), "interval": "1", "mult": text}
        return Item("loadshape", name, pairs, given.place, comments), scale

    def hours(self, given: Given) -> float:
        """The interval in hours."""
        form = given.latest("interval", "minterval", "sinterval")
        found = {n: given.number(n, 1.0) for n in ("interval", "minterval", "sinterval")}
        if form == "minterval":
            given.note(given.where(form), f"minterval={decimal(found[form])} is interval={decimal(found[form] / 60)}")
            return found[form] / 60
        if form == "sinterval":
            given.note(given.where(form), f"sinterval={decimal(found[form])} is interval={decimal(found[form] / 3600)}")
            return found[form] / 3600
        return found["interval"]

    def numbers(self, setting: Setting, given: Given) -> tuple[list[float], str]:
        """The numbers of a setting, and how the profile names their file where it reads that as it is."""
        wanted = file_array(setting.value)
        if setting.name in FILES:
            wanted = FileArray(setting.value.text.strip(), binary=setting.name if setting.name != "csvfile" else "")
        if wanted is None:
            return given.of(setting, Value.numbers), ""
        return self.from_file(wanted, given, setting)

    def inline(self, numbers: list[float], given: Given, setting: Setting) -> str:
        """Numbers as they are, or nothing where the profile can't hold them."""
        text = array(numbers)
        if min(numbers, default=0) < 0 or max(numbers, default=0) > 1000:
            if self.wanted:
                given.refuse(setting.name, "a shape of numbers below 0 or above 1000")
            else:
                given.findings.dropped(setting.place, "the shape has numbers that the profile hasn't, and isn't used")
            return ""
        if len(text) > ROOM:
            count = f"{len(numbers)} numbers"
            given.refuse(setting.name, f"{count} don't go into a line: put them into a file of their own")
            return ""
        return text

    def from_file(self, wanted: FileArray, given: Given, setting: Setting) -> tuple[list[float], str]:
        """The numbers of a file: by its name where the profile reads it so, else written out."""
        path = find_file(setting.folder, wanted.name)
        if path is None:
            raise Unreadable(setting.place, f"there is no file {wanted.name}")
        if wanted.binary == "pqcsvfile":
            given.refuse(setting.name, "a file of kW and kvar")
            return column(path, FileArray(wanted.name), setting.place)[0], ""
        if wanted.binary:
            given.note(setting.place, f"the numbers of {wanted.name} are written out")
            return floats(path, wanted.binary, setting.place), ""
        numbers, plain = column(path, wanted, setting.place)
        name = os.path.relpath(path.resolve(), self.folder.resolve()).replace(os.sep, "/")
        if plain and len(numbers) > FEW and not set(name) & set("()"):
            if setting.name != "mult" or name != wanted.name:
                given.note(setting.place, f"{wanted.name} by mult=(file={name})")
            return numbers, f"(file={name})"
        given.note(setting.place, f"the numbers of {wanted.name} are written out")
        return numbers, ""


def floats(path: Path, kind: str, place: Place) -> list[float]:
    """A file of binary numbers, of 4 or 8 bytes each."""
    size, code = (8, "d") if kind == "dblfile" else (4, "f")
    try:
        data = path.read_bytes()
    except OSError as error:
        raise Unreadable(place, f"{path.name} can't be read: {error.strerror}") from None
    count = len(data) // size
    return list(struct.unpack(f"<{count}{code}", data[: count * size]))


def column(path: Path, wanted: FileArray, place: Place) -> tuple[list[float], bool]:
    """A column of a file of records, and whether the profile reads the file as it is."""
    text = read_text(path, place)
    if "\0" in text:
        raise Unreadable(place, f"{path.name} isn't text")
    numbers: list[float] = []
    plain = wanted.column == 1 and not wanted.header
    try:
        records = [r for r in csv.reader(io.StringIO(text)) if r]
    except csv.Error as error:
        raise Unreadable(place, f"{path.name}: {error}") from None
    for number, record in enumerate(records[1 if wanted.header else 0 :], 1):
        fields = [f for part in record for f in part.split()] if len(record) == 1 else [f.strip(BLANKS) for f in record]
        if not fields:
            continue
        if len(fields) < wanted.column or not NUMBER.match(fields[wanted.column - 1]):
            raise Unreadable(place, f"{path.name}: record {number} has no number in column {wanted.column}")
        plain = plain and (len(record) > 1 or len(fields) == 1)
        numbers.append(float(fields[wanted.column - 1].lower().replace("d", "e")))
    if not numbers:
        raise Unreadable(place, f"{path.name} has no numbers")
    return numbers, plain
