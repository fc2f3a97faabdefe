"""Plans of studies: a script, a table of changes to it, limits, and what to do where a run isn't certified.

A plan is TOML. Its numbers are read as exact decimals. A word that no plan has, or a value that isn't of its word's
form, is refused with its line.
"""

from __future__ import annotations

import csv
import itertools
import re
import tomllib
from collections.abc import Callable, Iterator
from dataclasses import dataclass, field
from fractions import Fraction
from pathlib import Path
from typing import Any

from .decimals import fraction_of
from .limits import Range

Value = Fraction | str
Row = dict[str, Value]
"""The changes of one run, by their words."""

MOST_RUNS = 100_000
ANY_NAME = r"[a-z0-9_%-]+"


class BadPlan(Exception):
    """What can't be read of a plan, with its line."""

    def __init__(self, path: Path, line: int, cause: str) -> None:
        super().__init__(f"{path}: line {line}: {cause}")
        self.path, self.line, self.cause = path, line, cause


class BadValue(Exception):
    """Why a value isn't of its word's form."""


@dataclass(frozen=True)
class Limits:
    """What is judged: voltages per unit, voltages between phases per unit, currents in percent of normamps."""

    voltage: Range | None = None
    between: Range | None = None
    loading: Fraction | None = None
    skip: frozenset[str] = frozenset()

    def names(self) -> list[str]:
        """The limits that are set, in order."""
        return [it for it in ("voltage", "between", "loading") if getattr(self, it) is not None]


@dataclass(frozen=True)
class Retry:
    """What is tried where a run ends with 10 (each pair of vminpu and vmaxpu in turn, for all loads) or 11 (vreg is moved)."""

    vminpu: tuple[Fraction, ...] = ()
    vmaxpu: Fraction = Fraction("1.2")
    vreg: Fraction = Fraction(0)
    vreg_tries: int = 4
    go_on: bool = True


@dataclass(frozen=True)
class Answer:
    """The question of a study: the greatest value of one word that violates nothing, for each value of others."""

    greatest: str
    for_each: tuple[str, ...] = ()


@dataclass
class Plan:
    """A plan with its rows. `varied` has the words of the changes that aren't the same in all rows, in the plan's order."""

    path: Path
    name: str = ""
    script: Path = Path()
    feeder: str | None = None
    certificates: bool = True
    timeout: int = 600
    limits: Limits = Limits()
    retry: Retry = Retry()
    answer: Answer | None = None
    rows: list[Row] = field(default_factory=list)
    varied: list[str] = field(default_factory=list)


# ------------------------------------------------------------------ values


def a_number(value: Any) -> Fraction:
    if isinstance(value, bool) or not isinstance(value, (int, Fraction)):
        raise BadValue("must be a number")
    return Fraction(value)


def a_text(value: Any) -> str:
    if not isinstance(value, str) or not value or not value.isprintable():
        raise BadValue("must be a text")
    return value


def a_truth(value: Any) -> bool:
    if not isinstance(value, bool):
        raise BadValue("must be true or false")
    return value


def a_count(value: Any) -> int:
    if isinstance(value, bool) or not isinstance(value, int) or value < 0:
        raise BadValue("must be a whole number that isn't below 0")
    return value


def a_range(value: Any) -> Range:
    if not isinstance(value, list) or len(value) != 2:
        raise BadValue("must be [LOW, HIGH]")
    low, high = (a_number(it) for it in value)
    if not 0 < low < high:
        raise BadValue("LOW must be above 0 and below HIGH")
    return Range(low, high)


def not_negative(value: Any) -> Fraction:
    found = a_number(value)
    if found < 0:
        raise BadValue("must not be below 0")
    return found


def within(low: str, high: str) -> Callable[[Any], Fraction]:
    """A number within these limits, both allowed."""

    def form(value: Any) -> Fraction:
        found = a_number(value)
        if not Fraction(low) <= found <= Fraction(high):
            raise BadValue(f"must be {low} to {high}")
        return found

    return form


def an_hour_range(value: Any) -> str:
    match = re.fullmatch(r"([1-9][0-9]{0,5})-([1-9][0-9]{0,5})", a_text(value))
    if not match or int(match[1]) > int(match[2]) or int(match[2]) - int(match[1]) >= 8760:
        raise BadValue('must be "FIRST-LAST", at most 8,760 hours counted from 1')
    return match[0]


def hours_of(text: str) -> tuple[int, int]:
    """The first and the last hour of `FIRST-LAST`."""
    first, _, last = text.partition("-")
    return int(first), int(last)


def one_of(*choices: str) -> Callable[[Any], str]:
    """One of these words."""

    def form(value: Any) -> str:
        if value not in choices:
            raise BadValue(f"must be {' or '.join(choices)}")
        return str(value)

    return form


def numbers(value: Any) -> tuple[Fraction, ...]:
    return tuple(a_number(it) for it in value) if isinstance(value, list) else (a_number(value),)


def names(value: Any) -> tuple[str, ...]:
    found = value if isinstance(value, list) else [value]
    return tuple(a_text(it).lower() for it in found)


PU_LOW, PU_HIGH = within("0.4", "1"), within("1", "2")

CHANGES: dict[str, Callable[[Any], Value]] = {
    "load_scale": not_negative,
    "vminpu": PU_LOW,
    "vmaxpu": PU_HIGH,
    "plant_bus": a_text,
    "plant_kw": a_number,
    "plant_kvar": a_number,
    "plant_kv": within("0.01", "1000"),
    "plant_conn": one_of("wye", "delta"),
    "plant_daily": a_text,
    "hours": an_hour_range,
    "line": a_text,
}
"""The words of changes, with the forms of their values."""

NAMED_CHANGES: dict[str, Callable[[Any], Value]] = {"tap": within("0.5", "2"), "bank": one_of("open", "closed")}
"""Words of changes that go with an element's name: `tap.reg1`."""


def form_of_change(word: str) -> Callable[[Any], Value]:
    """The form of a change's value; raises BadValue for a word that is none."""
    group, dot, name = word.partition(".")
    if dot and group in NAMED_CHANGES and re.fullmatch(ANY_NAME, name, re.I):
        return NAMED_CHANGES[group]
    if word not in CHANGES:
        raise BadValue("unknown word")
    return CHANGES[word]


# ------------------------------------------------------------------ lines of words

KEY = r"(?:[\w%-]+|\"[^\"]*\"|'[^']*')"
PATH = rf"{KEY}(?:\s*\.\s*{KEY})*"


def lines_of_words(text: str) -> dict[tuple[str, ...], int]:
    """The line of each word of a TOML text by its path; entries of an array of tables are counted from 0."""
    found: dict[tuple[str, ...], int] = {}
    counts: dict[str, int] = {}
    at: tuple[str, ...] = ()
    depth = 0
    for number, line in enumerate(text.split("\n"), 1):
        bare = re.sub(r"\"(?:[^\"\\]|\\.)*\"|'[^']*'", lambda it: "x" * len(it[0]), line).partition("#")[0]
        header = re.match(rf"\s*(\[\[?)\s*({PATH})\s*\]", line) if depth == 0 else None
        if header:
            at = tuple(keys_of(header[2]))
            if header[1] == "[[":
                counts[header[2]] = counts.get(header[2], -1) + 1
                at += (str(counts[header[2]]),)
            found.setdefault(at, number)
            continue
        match = re.match(rf"\s*({PATH})\s*=", line) if depth == 0 else None
        if match:
            last = at + tuple(keys_of(match[1]))
            found.setdefault(last, number)
        for inner in re.finditer(rf"[{{,]\s*({PATH})\s*=", line):
            found.setdefault((last if match or depth else at) + tuple(keys_of(inner[1])), number)
        depth += sum(map(bare.count, "[{")) - sum(map(bare.count, "]}"))
    return found


def keys_of(path: str) -> list[str]:
    """The keys of a dotted path."""
    return [it.strip("\"'") for it in re.findall(KEY, path)]


# ------------------------------------------------------------------ the reader


class Reader:
    """Reads one plan; `at` raises what is wrong with the line of the word."""

    def __init__(self, path: Path, text: str) -> None:
        self.path, self.lines = path, lines_of_words(text)

    def at(self, *words: str, cause: str) -> BadPlan:
        """What is wrong at the word of this path, or the nearest word above it that has a line."""
        place = tuple(words)
        while place and place not in self.lines:
            place = place[:-1]
        return BadPlan(self.path, self.lines.get(place, 1), f"{'.'.join(words)}: {cause}")

    def value(self, form: Callable[[Any], Any], value: Any, *words: str) -> Any:
        try:
            return form(value)
        except BadValue as bad:
            raise self.at(*words, cause=str(bad)) from None

    def fields(self, table: Any, forms: dict[str, Callable[[Any], Any]], *words: str) -> dict[str, Any]:
        """The values of a table whose words are those of the forms."""
        if not isinstance(table, dict):
            raise self.at(*words, cause="must be a table")
        found = {}
        for word, value in table.items():
            if word not in forms:
                raise self.at(*words, word, cause="unknown word")
            found[word] = self.value(forms[word], value, *words, word)
        return found

    # -------------------------------------------------------------- changes

    def changes(self, table: Any, *words: str) -> dict[str, Any]:
        """The words of changes with their raw values; `tap = {reg1 = 1}` gives `tap.reg1`."""
        if not isinstance(table, dict):
            raise self.at(*words, cause="must be a table")
        found = {}
        for word, value in table.items():
            if word in NAMED_CHANGES and isinstance(value, dict):
                found.update({f"{word}.{name}": it for name, it in value.items()})
            else:
                found[word] = value
        for word in found:
            self.value(form_of_change, word, *words, *word.split("."))
        return found

    def row(self, table: Any, *words: str) -> Row:
        """One value for each word."""
        found = self.changes(table, *words)
        return {w: self.value(form_of_change(w), it, *words, *w.split(".")) for w, it in found.items()}

    def axes(self, table: Any, *words: str) -> list[list[tuple[str, Value]]]:
        """All values of each word, in order."""
        axes = []
        for word, value in self.changes(table, *words).items():
            path = (*words, *word.split("."))
            values = self.stepped(value, *path) if isinstance(value, dict) else value
            if not isinstance(values, list) or not values:
                raise self.at(*path, cause="must be a list of values, or {from, to, by}")
            axes.append([(word, self.value(form_of_change(word), it, *path)) for it in values])
        return axes

    def stepped(self, value: dict[str, Any], *words: str) -> list[Fraction]:
        """The numbers from one to another by steps, both included."""
        found = self.fields(value, {"from": a_number, "to": a_number, "by": a_number}, *words)
        if set(found) != {"from", "to", "by"} or found["by"] <= 0 or found["to"] < found["from"]:
            raise self.at(*words, cause="must be {from, to, by} with `by` above 0 and `to` not below `from`")
        count = (found["to"] - found["from"]) // found["by"] + 1
        if count > MOST_RUNS:
            raise self.at(*words, cause=f"more than {MOST_RUNS} values")
        return [found["from"] + k * found["by"] for k in range(int(count))]

    def table_rows(self, name: str) -> Iterator[Row]:
        """The rows of a CSV whose head has words of changes; an empty field changes nothing."""
        path = self.path.parent / name
        try:
            file = open(path, encoding="utf-8-sig", newline="")
        except OSError as bad:
            raise self.at("table", cause=f"{path}: {bad.strerror}") from None
        with file:
            reader = csv.DictReader(file)
            for cells in reader:
                row: Row = {}
                for word, text in cells.items():
                    try:
                        if None in (word, text):
                            raise BadValue("wrong number of fields")
                        if text.strip():
                            row[word] = form_of_change(word)(csv_value(word, text.strip()))
                    except BadValue as bad:
                        raise BadPlan(path, reader.line_num, f"{word}: {bad}") from None
                yield row


def csv_value(word: str, text: str) -> Any:
    """A field as a number where its word wants one."""
    try:
        return fraction_of(text) if form_of_change(word) not in TEXT_FORMS else text
    except ValueError:
        raise BadValue("must be a number") from None


TEXT_FORMS = (a_text, an_hour_range, CHANGES["plant_conn"], NAMED_CHANGES["bank"])

TOP_FORMS: dict[str, Callable[[Any], Any]] = {
    "name": a_text,
    "script": a_text,
    "feeder": a_text,
    "certificates": a_truth,
    "timeout": a_count,
    "table": a_text,
}
LIMIT_FORMS: dict[str, Callable[[Any], Any]] = {
    "voltage": a_range,
    "between": a_range,
    "loading": not_negative,
    "skip": lambda value: frozenset(names(value)),
}
RETRY_FORMS: dict[str, Callable[[Any], Any]] = {
    "vminpu": lambda value: tuple(PU_LOW(it) for it in numbers(value)),
    "vmaxpu": PU_HIGH,
    "vreg": a_number,
    "vreg_tries": a_count,
    "go_on": a_truth,
}
ANSWER_FORMS: dict[str, Callable[[Any], Any]] = {"greatest": a_text, "for_each": names}
TABLES = ("limits", "retry", "answer", "always", "vary", "run")


def read_plan(path: str | Path) -> Plan:
    """The plan that a file holds; raises OSError, or BadPlan."""
    path = Path(path)
    try:
        text = path.read_text(encoding="utf-8")
        raw = tomllib.loads(text, parse_float=fraction_of)
    except tomllib.TOMLDecodeError as bad:
        line = re.search(r"at line (\d+)", str(bad))
        raise BadPlan(path, int(line[1]) if line else text.count("\n") + 1, str(bad)) from None
    except ValueError as bad:
        raise BadPlan(path, 1, str(bad)) from None
    return Builder(path, text, raw).plan()


class Builder(Reader):
    """Puts a plan together from its tables."""

    def __init__(self, path: Path, text: str, raw: dict[str, Any]) -> None:
        super().__init__(path, text)
        self.raw = raw

    def plan(self) -> Plan:
        tops = {word: it for word, it in self.raw.items() if word not in TABLES}
        top = self.fields(tops, TOP_FORMS)
        if "script" not in top:
            raise BadPlan(self.path, 1, "script: a plan needs it")
        table = top.pop("table", None)
        plan = Plan(self.path, name=self.path.stem)
        for word, value in top.items():
            setattr(plan, word, value)
        plan.script = self.path.parent / top["script"]
        plan.limits = Limits(**self.fields(self.raw.get("limits", {}), LIMIT_FORMS, "limits"))
        plan.retry = Retry(**self.fields(self.raw.get("retry", {}), RETRY_FORMS, "retry"))
        plan.rows = self.rows(table)
        plan.varied = varied(plan.rows)
        plan.answer = self.answer(plan)
        return plan

    def rows(self, table: str | None) -> list[Row]:
        """The product of all words of `vary`, then each `run`, then the rows of the table; `always` stands in all."""
        always = self.row(self.raw.get("always", {}), "always")
        rows: list[Row] = []
        if "vary" in self.raw:
            axes = self.axes(self.raw["vary"], "vary")
            count = 1
            for it in axes:
                count *= len(it)
            if count > MOST_RUNS:
                raise self.at("vary", cause=f"more than {MOST_RUNS} runs")
            rows += [dict(it) for it in itertools.product(*axes)]
        runs = self.raw.get("run", [])
        if not isinstance(runs, list):
            raise self.at("run", cause="must be written [[run]]")
        rows += [self.row(it, "run", str(k)) for k, it in enumerate(runs)]
        rows += self.table_rows(table) if table else []
        return [{**always, **it} for it in rows or [{}]]

    def answer(self, plan: Plan) -> Answer | None:
        if "answer" not in self.raw:
            return None
        found = self.fields(self.raw["answer"], ANSWER_FORMS, "answer")
        if "greatest" not in found:
            raise self.at("answer", cause="needs `greatest`")
        for key in ("greatest", "for_each"):
            for word in names(list(found.get(key, ())) if key == "for_each" else found[key]):
                if any(word not in row for row in plan.rows):
                    raise self.at("answer", key, cause=f"{word} isn't a word of each run")
        if not isinstance(plan.rows[0][found["greatest"]], Fraction):
            raise self.at("answer", "greatest", cause="must be a word with numbers")
        return Answer(found["greatest"], found.get("for_each", ()))


def varied(rows: list[Row]) -> list[str]:
    """The words whose values differ between rows, in the order in which they come."""
    words = dict.fromkeys(word for row in rows for word in row)
    return [word for word in words if len({row.get(word) for row in rows}) > 1]
