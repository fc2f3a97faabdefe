"""The script of the profile as it grows, Solve by Solve."""

from __future__ import annotations

from dataclasses import dataclass, field
from pathlib import Path

from .findings import Findings, Place
from .given import Names
from .network import Network, count_lines
from .options import OptionReader, Options
from .profile import Item, check_lines, comment_lines, edit_lines, new_lines
from .reader import Setting, Solve
from .translate import Asked, Circuit

GROUPS = {"regcontrol": "transformer", "capcontrol": "capacitor"}
"""Classes that stand together, without a blank line between them."""
BASES = ("voltagebases", "defaultbasefrequency")
FEW = 12
"""So many elements need no blank lines between their classes."""


@dataclass
class Script:
    """The script as it grows, Solve by Solve."""

    findings: Findings
    folder: Path
    asked: Asked
    lines: list[str] = field(default_factory=list)
    counts: list[str] = field(default_factory=list)
    before: dict[tuple[str, str], Item] = field(default_factory=dict)
    options: dict[str, str] = field(default_factory=dict)
    turn: int = -1
    mode: Setting | None = None

    def add(self, solve: Solve) -> None:
        """The commands up to one Solve."""
        options = OptionReader(solve, self.findings).read()
        self.check_hours(solve, options)
        if solve.turn != self.turn:
            self.turn = solve.turn
            self.before, self.options = {}, {}
            self.lines += ["", "Clear"]
        else:
            self.lines.append("")
        items = Circuit(solve, self.findings, Names(), options, self.asked, self.folder).items()
        self.set_options({k: v for k, v in options.pairs.items() if k == "defaultbasefrequency"}, [])
        self.write(items, solve)
        self.lines.append("")
        self.set_options({k: v for k, v in options.pairs.items() if k == "voltagebases"}, [])
        if solve.bases is not None:
            self.lines.append("CalcVoltageBases")
        self.set_options({k: v for k, v in options.pairs.items() if k not in BASES}, options.comments)
        self.lines.append("Solve")
        self.counts = count_lines(Network(items))

    def check_hours(self, solve: Solve, options: Options) -> None:
        """A later Solve over hours must begin anew: OpenDSS goes on from the last hour unless the mode is set again."""
        mode = solve.options.get("mode")
        if options.shape and solve.turn == self.turn and mode == self.mode:
            self.findings.refuse(solve.place, "solve", "it goes on from the hour at which the Solve before ended")
        self.mode = mode

    def set_options(self, pairs: dict[str, str], comments: list[str]) -> None:
        """Options that aren't set so yet."""
        changed = {k: v for k, v in pairs.items() if self.options.get(k) != v}
        if "mode" in changed and "number" in pairs:
            changed = {"mode": pairs["mode"], "number": pairs["number"]} | changed
        if not changed:
            self.lines += [line for c in comments for line in comment_lines(c)]
            return
        comment = f" ! {'; '.join(comments)}" if comments else ""
        self.lines.append("Set " + " ".join(f"{k}={v}" for k, v in changed.items()) + comment)
        self.options |= changed

    def write(self, items: list[Item], solve: Solve) -> None:
        """New elements, and edits of those that stand already."""
        now = {i.key: i for i in items}
        kind = ""
        for item in items:
            old = self.before.get(item.key)
            if old is None:
                group = GROUPS.get(item.kind, item.kind)
                if group != kind and len(items) > FEW:
                    self.lines.append("")
                kind = group
                self.append(new_lines(item), item.place)
                continue
            changed = {k: v for k, v in item.pairs.items() if old.pairs.get(k) != v}
            if [k for k in old.pairs if k not in item.pairs]:
                self.findings.refuse(
                    solve.place, "solve", f"{item.kind}.{item.name} loses a property between two Solves"
                )
            if changed:
                self.append(edit_lines(item, changed), item.place)
        for key in self.before:
            if key not in now:
                self.findings.refuse(solve.place, "solve", f"{key[0]}.{key[1]} is no longer there at this Solve")
        self.before = now

    def append(self, lines: list[str], place: Place) -> None:
        """Lines of one element."""
        check_lines(lines, place, self.findings)
        self.lines += lines


def head(master: str, words: list[str]) -> list[str]:
    """What the script says of itself."""
    asked = f" with {' '.join(words)}" if words else ""
    return [
        f"! Translated from {master} by tools/import_dss{asked}.",
        "! The translation isn't proved: what the program promises of a solution is about this script, not about",
        f"! {master}. A comment says what is more than a copy of the source.",
    ]


def script(solves: list[Solve], master: Path, findings: Findings, asked: Asked, words: list[str]) -> Script:
    """The whole script."""
    made = Script(findings, master.parent, asked)
    made.lines = head(master.name, words)
    for solve in solves:
        made.add(solve)
    return made
