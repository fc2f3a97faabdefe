"""The options of a Solve, as the profile has them."""

from __future__ import annotations

from collections.abc import Callable
from dataclasses import dataclass, field
from typing import TypeVar

from .findings import BadValue, Findings, Place, Unreadable
from .profile import array
from .reader import Setting, Solve
from .tables import SILENT_OPTIONS
from .values import Value, decimal

T = TypeVar("T")
HOURS = {"1h": 1.0, "60m": 1.0, "3600": 1.0, "3600s": 1.0}
DISPLAY = "counts for what OpenDSS shows or plans alone"


@dataclass
class Options:
    """What a Solve is done with: `pairs` are the options of the profile, `shape` which shapes count, if any."""

    hertz: float = 60.0
    factor: float = 1.0
    generation: float = 1.0
    shape: str = ""
    pairs: dict[str, str] = field(default_factory=dict)
    comments: list[str] = field(default_factory=list)


@dataclass
class OptionReader:
    """Reads the options of one Solve."""

    solve: Solve
    findings: Findings
    options: Options = field(default_factory=Options)

    def of(self, name: str, read: Callable[[Value], T], default: T) -> T:
        """An option's value."""
        setting = self.solve.options.get(name)
        if setting is None:
            return default
        try:
            return read(setting.value)
        except BadValue as error:
            raise Unreadable(setting.place, f"{name}: {error}") from None

    def note(self, name: str, text: str) -> None:
        """A translation, said at the Solve too."""
        self.findings.translated(self.solve.options[name].place, text)
        self.options.comments.append(text)

    def read(self) -> Options:
        """All of them."""
        self.frequency()
        self.mode()
        self.options.factor = self.of("loadmult", Value.number, 1.0)
        self.options.generation = self.of("genmult", Value.number, 1.0)
        for name, setting in self.solve.options.items():
            self.other(name, setting)
        return self.options

    def frequency(self) -> None:
        """50 or 60 Hz."""
        hertz = self.of("defaultbasefrequency", Value.number, 60.0)
        self.options.hertz = hertz
        if hertz not in (50, 60):
            self.refuse("defaultbasefrequency", "a frequency other than 50 and 60 Hz")
        for name in ("basefrequency", "frequency"):
            if self.of(name, Value.number, hertz) != hertz:
                self.refuse(name, f"{name} other than the base frequency")
        if "defaultbasefrequency" in self.solve.options:
            self.options.pairs["defaultbasefrequency"] = decimal(hertz)

    def refuse(self, name: str, text: str) -> None:
        """An option that would change the flow."""
        self.findings.refuse(self.solve.options[name].place, f"set.{name}", text)

    def mode(self) -> None:
        """A snapshot or hours of a day; years are hours too."""
        mode = self.of("mode", Value.word, "snap")
        if "snapshot".startswith(mode):
            if "mode" in self.solve.options:
                self.options.pairs["mode"] = "snap"
            for name in ("number", "stepsize", "h", "hour", "time", "sec"):
                if name in self.solve.options:
                    self.findings.dropped(self.solve.options[name].place, f"{name} doesn't count in a snapshot")
            if self.of("number", Value.number, 1.0) > 1:
                self.findings.warn(
                    self.solve.options["number"].place, "OpenDSS repeats the snapshot, the script doesn't"
                )
            return
        for whole, hours in (("daily", 24), ("yearly", 8760), ("dutycycle", 100)):
            if whole.startswith(mode) and len(mode) > 1:
                self.hours(mode, whole, hours)
                return
        self.refuse("mode", f"mode={mode}")

    def hours(self, mode: str, whole: str, number: int) -> None:
        """A run over hours."""
        self.options.shape = "duty" if whole == "dutycycle" else whole
        if whole != "daily":
            self.note("mode", f"mode={mode} as mode=daily, hour by hour")
        elif mode != "daily":
            self.note("mode", f"mode={mode} is daily")
        step = self.of("stepsize", step_hours, None) or self.of("h", step_hours, None)
        if (step or (1.0 if whole != "dutycycle" else 0.0)) != 1.0:
            name = next((n for n in ("stepsize", "h", "mode") if n in self.solve.options), "mode")
            self.refuse(name, "steps of an hour alone are in the profile")
        if self.of("hour", Value.number, 0.0) or any(self.of("time", Value.numbers, [0.0])):
            self.refuse("hour" if "hour" in self.solve.options else "time", "a run that doesn't begin at hour 0")
        self.options.pairs["mode"] = "daily"
        self.options.pairs["number"] = decimal(self.of("number", Value.number, float(number)))

    def other(self, name: str, setting: Setting) -> None:
        """The options that stand as they are, have no effect, or are refused."""
        if name in ("maxiterations", "tolerance", "maxcontroliter", "maxcontroliterations"):
            number = self.of(name, Value.number, 0.0)
            self.options.pairs[name.removesuffix("ations") if "control" in name else name] = decimal(number)
        elif name == "voltagebases":
            self.options.pairs[name] = array(self.of(name, Value.numbers, []))
        elif name == "controlmode":
            self.control_mode(setting)
        elif name in ("loadmult", "genmult"):
            if self.of(name, Value.number, 1.0) == 1:
                self.findings.dropped(setting.place, f"{name}=1 is as it is without")
            else:
                self.note(name, f"{name} is worked into kw and kvar")
        elif name == "year":
            if self.of(name, Value.number, 0.0) > 1:
                self.refuse(name, "loads grow by the year")
            else:
                self.findings.dropped(setting.place, "nothing has grown yet in that year")
        elif name == "loadmodel" and not self.of(name, Value.word, "p").startswith("p"):
            self.refuse(name, "every load as an admittance")
        elif name == "cktmodel" and not self.of(name, Value.word, "m").startswith("m"):
            self.refuse(name, "a circuit of positive sequence")
        elif name == "neglectloady" and self.of(name, Value.truth, False):
            self.refuse(name, "another procedure")
        elif name in ("allocationfactors", "cfactors"):
            self.refuse(name, f"{name} changes the loads by a rule of its own")
        elif name == "earthmodel":
            if not self.of(name, Value.word, "carson").startswith("c"):
                self.findings.translated(setting.place, "a geometry is taken by Carson's equations")
        elif name in SILENT_OPTIONS or name in ("loadmodel", "cktmodel", "neglectloady"):
            self.findings.dropped(setting.place, f"{name} {DISPLAY}")
        elif name not in HANDLED:
            self.refuse(name, f"{name} has no translation")

    def control_mode(self, setting: Setting) -> None:
        """Static controls, or none."""
        mode = self.of("controlmode", Value.word, "static")
        if mode == "off" or "static".startswith(mode):
            self.options.pairs["controlmode"] = "off" if mode == "off" else "static"
        else:
            self.refuse("controlmode", f"controlmode={mode}")


HANDLED = frozenset("defaultbasefrequency basefrequency frequency mode number stepsize h hour time sec".split())


def step_hours(value: Value) -> float | None:
    """A step in hours: a number of seconds, or one with h, m or s behind it."""
    text = value.text.strip().lower()
    if text in HOURS:
        return HOURS[text]
    factor = {"h": 1.0, "m": 1 / 60, "s": 1 / 3600}.get(text[-1:])
    number = Value(text[:-1] if factor is not None else text, value.quoted).number()
    return number * (factor if factor is not None else 1 / 3600)


def place_of(solve: Solve, name: str) -> Place:
    """Where an option was set, or the Solve."""
    setting = solve.options.get(name)
    return setting.place if setting is not None else solve.place
