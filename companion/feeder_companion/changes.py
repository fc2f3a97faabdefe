"""Scripts of runs: the lines of a study's script with changes before its Solve, each change a plain line of the profile.

Redirects are written out, so that a run's script is one file; the files of load shapes lie beside it.
"""

from __future__ import annotations

import re
from dataclasses import dataclass, field, replace
from fractions import Fraction
from pathlib import Path

from .decimals import Exact, nearest, show_near
from .network import nominal
from .plan import Row, hours_of
from .reports import Settle
from .script import ONE, Circuit, Element, Files, UnreadableScript, model_script, read_circuits

MASTER = "study.dss"
PLANT = "study_plant"


class BadChange(Exception):
    """A change that this script can't take."""


@dataclass(frozen=True)
class Source:
    """A script with its redirects written out: its lines, the files that it reads, its circuit and the line of its Solve."""

    lines: list[str]
    files: dict[str, bytes]
    circuit: Circuit
    solve: int


@dataclass(frozen=True)
class Script:
    """A run's script and the files that it reads, by name."""

    text: bytes
    files: dict[str, bytes] = field(default_factory=dict)


@dataclass(frozen=True)
class Settings:
    """What a part of a run has beside its row: hours, limits of loads, moved `vreg`, and where taps and banks start."""

    hours: tuple[int, int] | None = None
    limits: tuple[Fraction, Fraction] | None = None
    vreg: dict[str, Fraction] = field(default_factory=dict)
    taps: dict[str, int] = field(default_factory=dict)
    banks: dict[str, bool] = field(default_factory=dict)

    def started_at(self, settle: Settle) -> Settings:
        """The same, with taps and banks as they rest behind this settle, and without what was tried for one hour."""
        taps = {it.control: it.tap for it in settle.taps}
        banks = {it.capacitor: it.is_closed for it in settle.banks}
        return Settings(hours=self.hours, taps={**self.taps, **taps}, banks={**self.banks, **banks})

    def of_hours(self, first: int, last: int) -> Settings:
        """The same for other hours."""
        return replace(self, hours=(first, last))


# ------------------------------------------------------------------ the source


def read_source(path: Path) -> Source:
    """Reads a study's script; raises UnreadableScript, and BadChange where it hasn't just one Solve."""
    files = Files()
    folder = path.parent
    lines = written_out(path, folder, files, 0)
    held = Files({MASTER: "\n".join(lines).encode()})
    shapes = ShapeFiles(folder, held)
    try:
        circuits = read_circuits(MASTER, shapes)
    except UnreadableScript as bad:
        cause = bad.cause if len(files) == 1 else f"{bad.cause} (its line with all redirects written out)"
        raise UnreadableScript(str(path), bad.line, cause) from None
    if len(circuits) != 1:
        raise BadChange(f"{path} has {len(circuits)} Solves; a study's script has one")
    circuit = circuits[0]
    return Source(lines, shapes.found, circuit, circuit.place[1] - 1)


class ShapeFiles(Files):
    """Files named from the script's folder, and those that were read."""

    def __init__(self, folder: Path, held: Files) -> None:
        super().__init__(held.read)
        self.folder = folder
        self.found: dict[str, bytes] = {}

    def __contains__(self, name: object) -> bool:
        return isinstance(name, str) and (name in self.read or (self.folder / name).is_file())

    def __getitem__(self, name: str) -> bytes:
        if name in self.read:
            return self.read[name]
        if ".." in Path(name).parts or Path(name).is_absolute():
            raise UnreadableScript(name, 0, f"{name} isn't in the folder of the study's script, or below it")
        self.found[name] = self.read[name] = (self.folder / name).read_bytes()
        return self.found[name]


def written_out(path: Path, folder: Path, files: Files, depth: int) -> list[str]:
    """The lines of a file, with those of the files that it redirects to in their place."""
    if depth > 8:
        raise UnreadableScript(str(path), 0, "too deep")
    if str(path) not in files:
        raise UnreadableScript(str(path), 0, "absent file")
    found = []
    try:
        lines = files[str(path)].decode().replace("\r\n", "\n").split("\n")
    except UnicodeDecodeError:
        raise UnreadableScript(str(path), 0, "not text") from None
    for number, line in enumerate(lines, 1):
        try:
            items = model_script.cut(line)
        except model_script.Refused as bad:
            raise UnreadableScript(str(path), number, bad.cause) from None
        if len(items) > 1 and items[0][0] is None and items[0][1].lower() in ("redirect", "compile"):
            name = items[1][1].replace("\\", "/")
            found += [f"! {name}:", *written_out(folder / name, folder, files, depth + 1), f"! end of {name}"]
        else:
            found.append(line)
    return found


# ------------------------------------------------------------------ a run's script


def write_script(source: Source, row: Row, settings: Settings = Settings()) -> Script:
    """The script of a row of changes; raises BadChange where the script can't take them."""
    hours = settings.hours or (hours_of(str(row["hours"])) if "hours" in row else None)
    files = dict(source.files)
    lines = [f"! study: {words_text(row)}", *load_lines(source.circuit, row, settings.limits)]
    lines += plant_lines(source.circuit, row)
    lines += position_lines(source.circuit, row, settings)
    lines += [str(row["line"])] if "line" in row else []
    if hours:
        lines += shape_lines(source.circuit, hours, files)
    solve = solve_lines(source.lines[source.solve], hours)
    text = [*source.lines[: source.solve], *lines, *solve, *source.lines[source.solve + 1 :]]
    return Script("\n".join(text).encode(), files)


def words_text(row: Row) -> str:
    """The changes of a row in one line."""
    return ", ".join(f"{word}={value_text(value)}" for word, value in row.items()) or "no change"


def value_text(value: Fraction | str) -> str:
    """A value as it stands in a plan."""
    return value if isinstance(value, str) else number(value)


def number(value: Exact) -> str:
    """An exact number of a plan with at most nine decimals, as the profile reads it."""
    text = show_near(value, 9).rstrip("0").rstrip(".")
    return text if text not in ("-0", "") else "0"


def load_lines(circuit: Circuit, row: Row, limits: tuple[Fraction, Fraction] | None) -> list[str]:
    """Loads scaled, and with other limits."""
    scale = Fraction(row.get("load_scale", 1))
    words = {word: Fraction(row[word]) for word in ("vminpu", "vmaxpu") if word in row}
    if limits:
        words = {"vminpu": limits[0], "vmaxpu": limits[1]}
    lines = []
    for name, it in circuit.of("load"):
        pairs = [f"kw={scaled(it['kw'], scale)}"] if scale != 1 else []
        pairs += [f"kvar={scaled(it['kvar'], scale)}"] if scale != 1 and it["bykvar"] else []
        pairs += [f"{word}={number(value)}" for word, value in words.items()]
        if pairs:
            lines.append(f"Edit {name} {' '.join(pairs)}")
    return lines


def scaled(value: int, scale: Fraction) -> str:
    """A number of the reader times the scale, to the nearest 10^-9."""
    return number(Fraction(nearest(value * scale), ONE))


def plant_lines(circuit: Circuit, row: Row) -> list[str]:
    """A new plant: a load of negative power, constant far below and above its nominal voltage."""
    if "plant_bus" not in row:
        if any(word.startswith("plant_") for word in row):
            raise BadChange("a plant has no plant_bus")
        return []
    bus, phases, conn, kilovolts = plant_place(circuit, str(row["plant_bus"]).lower(), row.get("plant_conn"))
    kw, kvar = (-Fraction(row.get(word, 0)) for word in ("plant_kw", "plant_kvar"))
    kilovolts = Fraction(row.get("plant_kv", kilovolts))
    daily = f" daily={row['plant_daily']}" if "plant_daily" in row else ""
    return [
        f"New Load.{PLANT} bus1={bus} phases={phases} conn={conn} kv={number(kilovolts)} kw={number(kw)} "
        f"kvar={number(kvar)} model=1 vminpu=0.7 vmaxpu=1.3{daily}"
    ]


def plant_place(circuit: Circuit, text: str, conn: object) -> tuple[str, int, str, Fraction]:
    """The bus with its nodes, the phases, the connection and the nominal kV of a plant.

    On all three nodes it has three phases, on two it stands between them, on one it stands to ground.
    """
    name, _, rest = text.partition(".")
    there = [node for bus, node in circuit.nodes() if bus == name]
    nodes = [int(it) for it in rest.split(".")] if re.fullmatch(r"[0-9](\.[0-9])*", rest) else sorted(there)
    if not there or any(it not in there for it in nodes) or not 1 <= len(nodes) <= 3:
        raise BadChange(f"the script has no bus {text}")
    base = nominal(circuit).get(name)
    if base is None:
        raise BadChange(f"bus {name} isn't reached from a source")
    is_between = len(nodes) > 1
    kilovolts = Fraction(str(round(base.kilovolts / (1 if is_between else 3**0.5), 6)))
    form = str(conn or ("delta" if len(nodes) == 2 else "wye"))
    if len(nodes) == 1 and form == "delta":
        raise BadChange(f"a plant in delta at {text} needs two nodes")
    if len(nodes) == 2 and form == "wye":
        raise BadChange(f"a plant on two nodes of {text} is in delta")
    return ".".join(map(str, [name, *nodes])), 3 if len(nodes) == 3 else 1, form, kilovolts


def position_lines(circuit: Circuit, row: Row, settings: Settings) -> list[str]:
    """Taps and banks where they start, and regulators with another vreg."""
    lines = []
    for word, value in row.items():
        group, _, name = word.partition(".")
        if group == "tap":
            lines.append(tap_line(circuit, f"transformer.{name.lower()}", winding_of(circuit, name), Fraction(value)))
        elif group == "bank":
            lines.append(bank_line(circuit, f"capacitor.{name.lower()}", value == "closed"))
    for control, tap in settings.taps.items():
        it = circuit[control]
        lines.append(tap_line(circuit, f"transformer.{it['transformer']}", it["winding"], Fraction(tap, 10**5)))
    lines += [bank_line(circuit, bank, is_closed) for bank, is_closed in settings.banks.items()]
    for control, step in settings.vreg.items():
        lines.append(f"Edit {control} vreg={number(Fraction(circuit[control]['vreg'], ONE) + step)}")
    return lines


def winding_of(circuit: Circuit, name: str) -> int:
    """The winding that a control of this transformer moves, and 2 where there is none."""
    controls = [it["winding"] for _, it in circuit.of("regcontrol") if it["transformer"] == name.lower()]
    return int(controls[0]) if controls else 2


def tap_line(circuit: Circuit, transformer: str, winding: int, tap: Fraction) -> str:
    if transformer not in dict(circuit.of("transformer")):
        raise BadChange(f"the script has no {transformer}")
    return f"Edit {transformer} wdg={winding} tap={number(tap)}"


def bank_line(circuit: Circuit, bank: str, is_closed: bool) -> str:
    if bank not in dict(circuit.of("capacitor")):
        raise BadChange(f"the script has no {bank}")
    return f"Edit {bank} states=[{int(is_closed)}]"


def shape_lines(circuit: Circuit, hours: tuple[int, int], files: dict[str, bytes]) -> list[str]:
    """Shapes whose first point is that of the first hour, each in a file of its own."""
    first, last = hours
    lines = []
    for name, it in circuit.of("loadshape"):
        points = shape_points(it)
        if not points:
            continue
        count = min(last - first + 1, len(points))
        turned = [points[(first - 1 + k) % len(points)] for k in range(count)]
        file = f"hours-{name.partition('.')[2]}.csv"
        files[file] = "".join(f"{number(Fraction(it, ONE))}\n" for it in turned).encode()
        lines.append(f"Edit {name} npts={count} mult=(file={file})")
    return lines


def shape_points(it: Element) -> list[int]:
    """The points of a shape that count."""
    return list(it["mult"][: it["npts"]])


def solve_lines(line: str, hours: tuple[int, int] | None) -> list[str]:
    """The Solve; for hours it is one of a day of so many, after the options that it had."""
    if hours is None:
        return [line]
    options = re.sub(r"^\s*solve\b", "Set", line, flags=re.IGNORECASE)
    if not options.startswith("Set"):
        raise BadChange("the line of the Solve doesn't begin with this word")
    return [options, f"Solve mode=daily number={hours[1] - hours[0] + 1}"]
