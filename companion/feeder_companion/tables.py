"""Reports as tables: one CSV for each kind of record, and pandas frames where pandas is there.

Each column says what it stands on:

- `certified`: the program's own number, part of what it proves: low, high, radius, box, mismatch;
- `outward`: made here of certified numbers in exact arithmetic, rounded outward: it holds for the same states, but this
  program isn't proved;
- `printed`: the program's own, and no bound: names, hours, and the printed state itself;
- `script`: read from the script;
- `computed`: made here and rounded to the nearest, to be looked at.
"""

from __future__ import annotations

import cmath
import csv
import math
from collections.abc import Callable, Iterator, Sequence
from dataclasses import dataclass, field
from enum import Enum
from fractions import Fraction
from pathlib import Path
from typing import Any

from . import cli
from .decimals import show, show_near
from .intervals import Interval
from .limits import Level, between
from .network import Bases, bases_of, distances
from .powers import State
from .reports import WORDS, Report, read_report
from .script import Moment, read_moments


class Standing(Enum):
    """What a column's numbers stand on."""

    PRINTED = "printed"
    CERTIFIED = "certified"
    OUTWARD = "outward"
    SCRIPT = "script"
    COMPUTED = "computed"


PRINTED, CERTIFIED, OUTWARD = Standing.PRINTED, Standing.CERTIFIED, Standing.OUTWARD
SCRIPT, COMPUTED = Standing.SCRIPT, Standing.COMPUTED

Columns = dict[str, Standing]
WHEN: Columns = {"settle": PRINTED, "hour": PRINTED, "round": PRINTED, "is_last": PRINTED}


@dataclass
class Table:
    """Rows of texts under columns; a number is a decimal with a point, and what isn't there an empty text."""

    name: str
    columns: Columns
    rows: list[list[str]] = field(default_factory=list)

    def head(self) -> list[str]:
        """The head of its CSV: `NAME:STANDING` for each column."""
        return [f"{name}:{standing.value}" for name, standing in self.columns.items()]

    def write(self, folder: Path) -> Path:
        """Writes FOLDER/NAME.csv."""
        path = folder / f"{self.name}.csv"
        with open(path, "w", encoding="utf-8", newline="") as file:
            writer = csv.writer(file, lineterminator="\n")
            writer.writerow(self.head())
            writer.writerows(self.rows)
        return path


def ends(value: Interval, places: int) -> list[str]:
    """The low end rounded down, and the high end rounded up."""
    return [value.low_text(places), value.high_text(places)]


def angle(re: int, im: int) -> str:
    """Degrees, in floating point."""
    return f"{math.degrees(cmath.phase(complex(re, im))):.4f}"


# ------------------------------------------------------------------ of the report alone


def report_tables(report: Report, bases: Bases | None) -> list[Table]:
    """A table for each kind of record of the report."""
    return [
        nodes_table(report, bases),
        between_table(report, bases),
        branches_table(report),
        magnitudes_table(report),
        acts_table(report),
        positions_table(report),
        pending_table(report),
        shorts_table(report),
        sweeps_table(report),
        bases_table(report, bases),
        fault_table(report),
    ]


def rounds(report: Report) -> Iterator[tuple[list[str], Any, Any]]:
    """The fields of WHEN, the settle and the round, for each round."""
    for settle in report.settles:
        for turn in settle.rounds:
            is_last = settle.is_at_rest and turn is settle.last
            yield [str(settle.number), str(settle.hour), str(turn.number), "yes" if is_last else "no"], settle, turn


def per_unit(level: Level | None) -> list[str]:
    """Low and high per unit, and the middle."""
    if level is None:
        return ["", "", ""]
    return [*ends(level.per_unit, 9), f"{level.near:.6f}"]


def nodes_table(report: Report, bases: Bases | None) -> Table:
    """Voltages to ground, of all rounds."""
    columns = {
        **WHEN,
        **dict.fromkeys(("bus", "node", "re_v", "im_v"), PRINTED),
        **dict.fromkeys(("radius_v", "box_v", "low_v", "high_v", "mismatch_re_a", "mismatch_im_a"), CERTIFIED),
        **dict.fromkeys(("low_pu", "high_pu"), OUTWARD),
        **dict.fromkeys(("pu", "angle_deg"), COMPUTED),
    }
    table = Table("nodes", columns)
    for when, settle, turn in rounds(report):
        for it in turn.nodes:
            base = bases.of.get(it.bus) if bases else None
            level = Level(settle.number, settle.hour, it.bus, str(it.node), it.size, base, False) if base else None
            numbers = (it.re, it.im, it.radius, it.box, it.low, it.high, it.mismatch_re, it.mismatch_im)
            volts = [show(value, 6) for value in numbers]
            table.rows.append([*when, it.bus, str(it.node), *volts, *per_unit(level), angle(it.re, it.im)])
    return table


def between_table(report: Report, bases: Bases | None) -> Table:
    """Voltages between phases, at rest."""
    columns = {
        **dict.fromkeys(("settle", "hour", "bus", "phases"), PRINTED),
        **dict.fromkeys(("low_v", "high_v", "low_pu", "high_pu"), OUTWARD),
        "pu": COMPUTED,
    }
    table = Table("between", columns)
    for settle in report.settles_at_rest if bases else []:
        assert bases is not None
        for it in between(settle, bases):
            volts = [show(int(end), 6) for end in (it.size.low, it.size.high)]
            table.rows.append([str(it.settle), str(it.hour), it.bus, it.place, *volts, *per_unit(it)])
    return table


def branches_table(report: Report) -> Table:
    """Currents of branches, of all rounds."""
    columns = {
        **WHEN,
        **dict.fromkeys(("element", "phase", "re_a", "im_a"), PRINTED),
        **dict.fromkeys(("radius_a", "mismatch_re_v", "mismatch_im_v"), CERTIFIED),
        **dict.fromkeys(("low_a", "high_a"), OUTWARD),
        "angle_deg": COMPUTED,
    }
    table = Table("branches", columns)
    for when, _, turn in rounds(report):
        for it in turn.branches:
            size = it.current.size()
            numbers = (it.re, it.im, it.radius, it.mismatch_re, it.mismatch_im, int(size.low), int(size.high))
            amperes = [show(value, 6) for value in numbers]
            table.rows.append([*when, it.element, str(it.phase), *amperes, angle(it.re, it.im)])
    return table


def magnitudes_table(report: Report) -> Table:
    """Voltage magnitudes of loads of constant current, of all rounds."""
    columns = {
        **WHEN,
        **dict.fromkeys(("load", "phase", "size_v"), PRINTED),
        **dict.fromkeys(("radius_v", "box_v", "mismatch_v"), CERTIFIED),
    }
    table = Table("magnitudes", columns)
    for when, _, turn in rounds(report):
        for it in turn.magnitudes:
            volts = [show(value, 6) for value in (it.size, it.radius, it.box, it.mismatch)]
            table.rows.append([*when, it.element, str(it.phase), *volts])
    return table


def acts_table(report: Report) -> Table:
    """Acts of controls: each is the one at every state within the radii."""
    columns = {
        **dict.fromkeys(("settle", "hour", "round"), PRINTED),
        **dict.fromkeys(("time_s", "control", "steps", "tap", "state"), CERTIFIED),
    }
    table = Table("acts", columns)
    for when, _, turn in rounds(report):
        for it in turn.acts:
            tap = "" if it.tap is None else show(it.tap, 5)
            state = "" if it.is_closed is None else WORDS[it.is_closed]
            table.rows.append([*when[:3], show(it.time, 3), it.control, str(it.steps), tap, state])
    return table


def positions_table(report: Report) -> Table:
    """Taps and banks at rest."""
    columns = {
        **dict.fromkeys(("settle", "hour", "element"), PRINTED),
        **dict.fromkeys(("tap", "state"), CERTIFIED),
    }
    table = Table("positions", columns)
    for settle in report.settles:
        when = [str(settle.number), str(settle.hour)]
        table.rows += [[*when, it.control, show(it.tap, 5), ""] for it in settle.taps]
        table.rows += [[*when, it.capacitor, "", WORDS[it.is_closed]] for it in settle.banks]
    return table


def pending_table(report: Report) -> Table:
    """Controls that still wait behind the last hour of a Solve."""
    columns = {"settle": PRINTED, **dict.fromkeys(("due_s", "control", "way"), CERTIFIED)}
    table = Table("pending", columns)
    for settle in report.settles:
        waiting = [[show(it.time, 3), it.control, "up" if it.is_up else "down"] for it in settle.pending]
        table.rows += [[str(settle.number), *it] for it in waiting]
    return table


def shorts_table(report: Report) -> Table:
    """Currents of short circuits."""
    columns = {
        **dict.fromkeys(("bus", "node", "re_a", "im_a"), PRINTED),
        **dict.fromkeys(("radius_a", "low_a", "high_a"), CERTIFIED),
    }
    table = Table("shorts", columns)
    for settle in report.settles:
        for it in settle.shorts:
            amperes = [show(value, 6) for value in (it.re, it.im, it.radius, it.low, it.high)]
            table.rows.append([it.bus, str(it.node), *amperes])
    return table


def sweeps_table(report: Report) -> Table:
    """What ladder sweeps come to, each beside the solution of its settle."""
    columns = ("answer", "unknown", "sweeps", "gap_v", "radius_v")
    table = Table("sweeps", {"settle": PRINTED, **dict.fromkeys(columns, CERTIFIED)})
    for settle in report.settles:
        it = settle.sweep
        if it is not None:
            volts = ["" if value is None else show(value, 6) for value in (it.gap, it.radius)]
            table.rows.append([str(settle.number), it.answer, it.unknown or "", "" if it.sweeps is None else str(it.sweeps), *volts])
    return table


def bases_table(report: Report, bases: Bases | None) -> Table:
    """Voltage bases between phases: the report's records, or those that are used in their place."""
    if report.bases or bases is None:
        rows = [[bus, show(kilovolts, 6)] for bus, kilovolts in report.bases.items()]
        return Table("bases", {"bus": PRINTED, "base_kv": PRINTED}, rows)
    rows = [[bus, f"{base.kilovolts:.6f}"] for bus, base in bases.of.items()]
    return Table("bases", {"bus": SCRIPT, "base_kv": COMPUTED}, rows)


def fault_table(report: Report) -> Table:
    """The fault that ended the run, if one did."""
    columns = dict.fromkeys(("status", "fault"), PRINTED)
    fault = report.fault
    return Table("fault", columns, [[str(fault.status), fault.text]] if fault else [])


# ------------------------------------------------------------------ of report and script


def script_tables(moments: list[Moment]) -> list[Table]:
    """The tables that need the script: of the states at rest."""
    at_rest = [it for it in moments if it.is_last]
    makers: list[Callable[[Sequence[Moment]], Table]] = [
        buses_table,
        powers_table,
        losses_table,
        loads_table,
        loadings_table,
    ]
    return [make(at_rest) for make in makers]


SETTLE = dict.fromkeys(("settle", "hour"), PRINTED)
KILO = dict.fromkeys(("kw_low", "kw_high", "kvar_low", "kvar_high"), OUTWARD)


def when_of(moment: Moment) -> list[str]:
    return [str(moment.settle.number), str(moment.settle.hour)]


def buses_table(moments: Sequence[Moment]) -> Table:
    """The distance of each bus from the source along lines."""
    columns = {"bus": SCRIPT, "distance_km": COMPUTED}
    found = distances(moments[-1].circuit) if moments else {}
    return Table("buses", columns, [[bus, show_near(length, 6)] for bus, length in found.items()])


def powers_table(moments: Sequence[Moment]) -> Table:
    """What each element takes up at each phase of its terminals, a line's charging apart."""
    charging = dict.fromkeys(("charging_kvar_low", "charging_kvar_high"), OUTWARD)
    columns = {**SETTLE, **dict.fromkeys(("element", "terminal", "phase", "nodes"), SCRIPT), **KILO, **charging}
    table = Table("powers", columns)
    for moment in moments:
        for it in State(moment).flows():
            power, own = it.power.kilo, it.charging.kilo
            place = [it.element, str(it.terminal), str(it.phase), nodes_text(it.nodes)]
            numbers = [*ends(power.p, 6), *ends(power.q, 6), *ends(own.q, 6)]
            table.rows.append([*when_of(moment), *place, *numbers])
    return table


def nodes_text(nodes: tuple[tuple[str, int], tuple[str, int]]) -> str:
    """`BUS.1` to ground, `BUS.1-2` between nodes."""
    (bus, first), (_, second) = nodes
    return f"{bus}.{first}" if second == 0 else f"{bus}.{first}-{second}"


def losses_table(moments: Sequence[Moment]) -> Table:
    """What each line and transformer loses, charging included; the last row of a settle is their sum."""
    table = Table("losses", {**SETTLE, "element": SCRIPT, **KILO})
    for moment in moments:
        found = [(it.element, it.total) for it in State(moment).losses()]
        sums = [("all", it) for it in running_sum([power for _, power in found])]
        for name, power in found + sums:
            table.rows.append([*when_of(moment), name, *ends(power.kilo.p, 6), *ends(power.kilo.q, 6)])
    return table


def running_sum(powers: list[Any]) -> list[Any]:
    """The sum of the powers, in a list; empty where there are none."""
    found = powers[:1]
    for it in powers[1:]:
        found[0] = found[0] + it
    return found


def loads_table(moments: Sequence[Moment]) -> Table:
    """Loads by their limits: below vminpu they draw less than they are asked for, above vmaxpu more; model 2 always by the square."""
    columns = {
        **SETTLE,
        **dict.fromkeys(("load", "phase", "nodes", "model", "vminpu", "vmaxpu"), SCRIPT),
        **dict.fromkeys(("low_pu", "high_pu", "standing"), OUTWARD),
        **dict.fromkeys(("asked_kw", "asked_kvar"), SCRIPT),
        **KILO,
    }
    table = Table("loads", columns)
    for moment in moments:
        for it in State(moment).loads():
            element, nominal = moment.circuit[it.element], Fraction(1, it.nominal)
            limits = [show(element[word], 9) for word in ("vminpu", "vmaxpu")]
            place = [it.element, str(it.phase), nodes_text(it.nodes), str(element["model"]), *limits]
            volts = [*ends(it.size.scaled(nominal), 9), it.within.value]
            asked = [show_near(part.low, 6) for part in (it.asked.kilo.p, it.asked.kilo.q)]
            drawn = it.drawn.kilo
            table.rows.append([*when_of(moment), *place, *volts, *asked, *ends(drawn.p, 6), *ends(drawn.q, 6)])
    return table


def loadings_table(moments: Sequence[Moment]) -> Table:
    """Currents of lines against their normamps, where the script has these."""
    columns = {
        **SETTLE,
        **dict.fromkeys(("element", "terminal", "phase", "normamps"), SCRIPT),
        **dict.fromkeys(("low_a", "high_a", "low_percent", "high_percent"), OUTWARD),
    }
    table = Table("loadings", columns)
    for moment in moments:
        for it in State(moment).loadings():
            place = [it.element, str(it.terminal), str(it.phase), show(it.rating, 6)]
            amperes = [show(int(end), 6) for end in (it.size.low, it.size.high)]
            table.rows.append([*when_of(moment), *place, *amperes, *ends(it.percent, 6)])
    return table


# ------------------------------------------------------------------ pandas, and the command


def frames(tables: list[Table]) -> dict[str, Any]:
    """The tables as pandas frames, numbers as floats: `attrs["standing"]` says what each column stands on.

    Raises ImportError where pandas isn't installed.
    """
    import pandas

    found = {}
    for table in tables:
        frame = pandas.DataFrame(table.rows, columns=list(table.columns))
        for name in frame.columns:
            try:
                frame[name] = pandas.to_numeric(frame[name])
            except (ValueError, TypeError):
                pass
        frame.attrs["standing"] = {name: standing.value for name, standing in table.columns.items()}
        found[table.name] = frame
    return found


def tables_of(report: Report, script: str | Path | None = None, bases: list[Fraction] | None = None) -> list[Table]:
    """All tables of a report, and those that need the script where it is given."""
    moments = read_moments(script, report) if script else []
    circuit = moments[-1].circuit if moments else None
    return report_tables(report, bases_of(report, circuit, bases)) + (script_tables(moments) if script else [])


def main(words: Sequence[str]) -> int:
    """`tools/tables REPORT [SCRIPT]`."""
    parser = cli.Parser(prog="tables", description="Writes one CSV for each kind of record of a report.")
    parser.add_argument("report")
    parser.add_argument("script", nargs="?", help="adds distances, powers, losses, loads and loadings")
    parser.add_argument("--into", default="tables", metavar="FOLDER", help="where the files go (tables)")
    parser.add_argument("--bases", type=cli.kilovolts, metavar="KV,KV", help="bases between phases; needs SCRIPT")
    given = parser.parse_args(words)
    if given.bases and not given.script:
        parser.error("--bases needs SCRIPT")
    tables = tables_of(read_report(given.report), given.script, given.bases)
    folder = Path(given.into)
    folder.mkdir(parents=True, exist_ok=True)
    for table in tables:
        print(f"{table.write(folder)}: {len(table.rows)} rows")
    return 0
