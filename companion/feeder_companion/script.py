"""Scripts of the profile, read by the repository's own model, and a report's states put beside the circuits they are of.

`tools/model` reads scripts that the program doesn't refuse; it shares no code with the program. An element is what that
reader makes of it: a dictionary of its properties, numbers in units of 10^-9, taps in 10^-5. The ratings `normamps` and
`emergamps`, which the program ignores, are kept here.
"""

from __future__ import annotations

import copy
import sys
from collections.abc import Iterator, Mapping
from dataclasses import dataclass
from pathlib import Path
from typing import Any

from .reports import Report, Round, Settle

MODEL = Path(__file__).resolve().parents[2] / "tools" / "model"
if str(MODEL) not in sys.path:
    sys.path.append(str(MODEL))

import elements as model_elements  # noqa: E402
import script as model_script  # noqa: E402

Element = dict[str, Any]
Key = tuple[str, str]
BRANCHES = ("vsource", "line", "transformer")
RATINGS = ("normamps", "emergamps")
ONE = 10**9
"""What the reader has for the number 1."""
TAP_ONE = 10**5
"""What the reader has for a tap of 1."""


class UnreadableScript(Exception):
    """Where a script can't be read, and why."""

    def __init__(self, file: str, line: int, cause: str) -> None:
        super().__init__(f"{file}: line {line}: {cause}")
        self.file, self.line, self.cause = file, line, cause


class OtherScript(Exception):
    """A report that isn't one of this script."""


class Files(Mapping[str, bytes]):
    """Files by their path, read when they are asked for, but for those that are held. `read` has the content of each."""

    def __init__(self, held: Mapping[str, bytes] | None = None) -> None:
        self.read: dict[str, bytes] = dict(held or {})

    def __contains__(self, path: object) -> bool:
        return isinstance(path, str) and (path in self.read or Path(path).is_file())

    def __getitem__(self, path: str) -> bytes:
        if path not in self.read:
            self.read[path] = Path(path).read_bytes()
        return self.read[path]

    def __iter__(self) -> Iterator[str]:
        return iter(self.read)

    def __len__(self) -> int:
        return len(self.read)


@dataclass(frozen=True)
class Circuit:
    """The circuit that a Solve solves: its elements in order of definition, and the options that count."""

    elements: dict[Key, Element]
    hertz: int
    is_daily: bool
    number: int
    place: tuple[str, int]

    def of(self, *classes: str) -> Iterator[tuple[str, Element]]:
        """The name, with its class, and the properties of each element of these classes, in order."""
        for (group, name), it in self.elements.items():
            if group in classes:
                yield f"{group}.{name}", it

    def __getitem__(self, name: str) -> Element:
        group, _, rest = name.partition(".")
        return self.elements[group, rest]

    def nodes(self) -> list[tuple[str, int]]:
        """All nodes in the order in which the script first mentions them."""
        found: dict[tuple[str, int], None] = {}
        for (group, _), it in self.elements.items():
            found.update((node, None) for node in mentioned(group, it) if node[1])
        return list(found)

    def branches(self) -> list[tuple[str, int]]:
        """The phases of sources, lines and transformers, in order."""
        return [(name, k + 1) for name, it in self.of(*BRANCHES) for k in range(it["phases"])]


@dataclass(frozen=True)
class Moment:
    """A round of a report, with the circuit, the taps of both windings (10^-5) and the closed banks at which it was solved."""

    circuit: Circuit
    settle: Settle
    round: Round
    taps: Mapping[str, tuple[int, int]]
    closed: frozenset[str]

    @property
    def is_last(self) -> bool:
        """Whether it is the state at rest of its settle."""
        return self.settle.is_at_rest and self.round is self.settle.last


def mentioned(group: str, it: Element) -> list[tuple[str, int]]:
    """The nodes that an element names, ground among them, in the order in which they count."""
    if group == "vsource":
        bus, numbers = it["bus1"]
        return [(bus, n) for n in (model_elements.three(numbers) if it["phases"] == 3 else numbers or [1])]
    if group == "line":
        return line_nodes(it, 1) + line_nodes(it, 2)
    if group == "transformer":
        windings = zip(it["buses"], it["conns"])
        return [node for bus, conn in windings for node in model_elements.mention(bus, it["phases"], conn)]
    if group in ("capacitor", "load"):
        return list(model_elements.mention(it["bus1"], it["phases"], it["conn"]))
    return []


def line_nodes(line: Element, end: int) -> list[tuple[str, int]]:
    """The nodes of a line's phases at its first or second bus."""
    return list(model_elements.line_nodes(line[f"bus{end}"], line["phases"]))


class Reader(model_script.Script):
    """The model's reader, keeping the ratings of lines and what each Solve finds."""

    def __init__(self, files: Files) -> None:
        super().__init__(files, self.at_solve)
        self.circuits: list[Circuit] = []

    def at_solve(self, circuit: dict[Key, Element], options: dict[str, Any]) -> None:
        is_daily = options["mode"] == "daily"
        number = options["number"] if is_daily else 1
        kept = copy.deepcopy(circuit)
        self.circuits.append(Circuit(kept, options["hertz"], is_daily, number, self.place))

    def pairs(self, key: Key, pairs: list[tuple[str, str, bool]]) -> None:
        super().pairs(key, pairs)
        if key[0] in ("line", "linecode"):
            self.keep_ratings(key, pairs)

    def keep_ratings(self, key: Key, pairs: list[tuple[str, str, bool]]) -> None:
        """A line has the ratings of its line code, and those that it gives behind it."""
        it = self.circuit[key]
        for name, value, grouped in pairs:
            word = name.lower()
            if word == "linecode" and key[0] == "line":
                code = self.circuit["linecode", model_script.word(value, grouped).lower()]
                it.update({rating: code[rating] for rating in RATINGS if rating in code})
            elif word in RATINGS:
                it[word] = model_script.one(value, grouped)


class ReportReader(Reader):
    """Walks through script and report together: at each Solve it takes the settles that are this Solve's."""

    def __init__(self, files: Files, report: Report) -> None:
        super().__init__(files)
        self.left = list(report.settles)
        self.moments: list[Moment] = []

    def at_solve(self, circuit: dict[Key, Element], options: dict[str, Any]) -> None:
        super().at_solve(circuit, options)
        found = self.circuits[-1]
        hours = range(1, found.number + 1) if found.is_daily else [0]
        for hour in hours:
            if not self.left:
                return
            settle = self.left.pop(0)
            if settle.hour != hour:
                raise OtherScript(f"settle {settle.number} is of hour {settle.hour}, and the script's is {hour}")
            self.walk(found, circuit, settle)

    def walk(self, found: Circuit, circuit: dict[Key, Element], settle: Settle) -> None:
        """The rounds of a settle; its acts move the taps and banks of the circuit that is being read."""
        for turn in settle.rounds:
            agree(found, settle, turn)
            taps = {
                f"transformer.{n}": (it["at"][0], it["at"][1]) for (g, n), it in circuit.items() if g == "transformer"
            }
            closed = frozenset(f"capacitor.{n}" for (g, n), it in circuit.items() if g == "capacitor" and it["now"])
            self.moments.append(Moment(found, settle, turn, taps, closed))
            for act in turn.acts:
                move(circuit, act.control, act.tap, act.is_closed)


def move(circuit: dict[Key, Element], control: str, tap: int | None, is_closed: bool | None) -> None:
    """Puts the winding or the bank of a control where an act leaves it."""
    group, _, name = control.partition(".")
    if (group, name) not in circuit:
        raise OtherScript(f"the script has no {control}")
    it = circuit[group, name]
    if tap is not None:
        circuit["transformer", it["transformer"]]["at"][it["winding"] - 1] = tap
    else:
        circuit["capacitor", it["capacitor"]]["now"] = is_closed


def agree(circuit: Circuit, settle: Settle, turn: Round) -> None:
    """Raises OtherScript where the nodes or branches of a round aren't the circuit's."""
    ours = [f"{bus}.{node}" for bus, node in circuit.nodes()] + [f"{name} {k}" for name, k in circuit.branches()]
    theirs = [it.name for it in turn.nodes] + [f"{it.element} {it.phase}" for it in turn.branches]
    for place in range(max(len(ours), len(theirs))):
        due, found = ((it[place] if place < len(it) else "nothing") for it in (ours, theirs))
        if due != found:
            raise OtherScript(f"settle {settle.number} has {found} where the script has {due}")


def run(reader: Reader, path: str | Path) -> None:
    """Reads a script from its file to its end."""
    name = Path(path).as_posix()
    try:
        fault = reader.read(name, 0, name)
    except (OtherScript, UnreadableScript):
        raise
    except Exception as bad:  # the model reads good scripts; what it makes of others isn't defined
        file, line = reader.place or (name, 0)
        raise UnreadableScript(file, line, f"can't be read: {type(bad).__name__}: {bad}") from bad
    if fault == "absent":
        raise UnreadableScript(name, 0, "absent file")
    if fault:
        raise UnreadableScript(*fault)


def read_circuits(path: str | Path, files: Files | None = None) -> list[Circuit]:
    """The circuit of each Solve of a script, at the taps and states that the script gives."""
    reader = Reader(Files() if files is None else files)
    run(reader, path)
    return reader.circuits


def read_moments(path: str | Path, report: Report, files: Files | None = None) -> list[Moment]:
    """The rounds of a report with their circuits; raises OtherScript where the report isn't of this script."""
    reader = ReportReader(Files() if files is None else files, report)
    try:
        run(reader, path)
    except UnreadableScript:
        is_refused = report.fault is not None and report.fault.kind in ("script", "read")
        if not is_refused or not reader.moments:
            raise
    if reader.left:
        raise OtherScript(f"the report has {len(reader.left)} settles more than the script")
    return reader.moments
