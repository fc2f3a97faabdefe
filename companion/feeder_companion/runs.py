"""One run of a study: its script through the program, tried again where the plan says so, and all of it kept by content.

A snapshot is one part. A day is one too where it goes well; where an hour ends it with status 10 or 11, the hours
before are a part, that hour alone is tried again with what the plan allows, and the day goes on behind it from the taps
and banks at which that hour came to rest.
"""

from __future__ import annotations

import json
import os
import subprocess
import tempfile
from collections.abc import Iterator
from dataclasses import asdict, dataclass, field
from fractions import Fraction
from pathlib import Path
from typing import Any

from .changes import MASTER, BadChange, Script, Settings, Source, write_script
from .plan import Retry, Row, hours_of
from .reports import Report, UnreadableReport, parse_report
from .store import Store, write_whole

FORM = 1
"""The form of a run's file: another one is made anew."""
NO_PROGRAM = "the program can't be run"


@dataclass
class Part:
    """What was solved in one go: the hours (0 to 0 in a snapshot), and the sums of what is kept of it."""

    first: int
    last: int
    script: str
    files: dict[str, str]
    report: str
    certificate: str | None
    changed: str = ""


@dataclass
class Try:
    """An end that wasn't good, and what was changed for the next one."""

    hour: int
    status: int
    fault: str
    next: str


@dataclass
class Record:
    """What became of a run: its parts, its tries, the hours that no part has, and the fault that ended it, if one did."""

    key: str
    parts: list[Part] = field(default_factory=list)
    tries: list[Try] = field(default_factory=list)
    lost: list[int] = field(default_factory=list)
    status: int = 0
    fault: str = ""
    asked: int = 1

    @property
    def outcome(self) -> str:
        """In one word or a few."""
        if self.status:
            return "failed"
        if self.lost:
            return "partly solved"
        return "solved with changes" if any(it.changed for it in self.parts) else "solved"

    def to_json(self) -> bytes:
        """As it is kept."""
        return json.dumps({"form": FORM, **asdict(self)}, indent=1).encode()


def record_of(content: bytes) -> Record:
    """What `to_json` gave; raises ValueError where it is something else."""
    try:
        raw: dict[str, Any] = json.loads(content)
        if raw.pop("form") != FORM:
            raise ValueError("another form")
        parts, tries = ([kind(**it) for it in raw.pop(word)] for kind, word in ((Part, "parts"), (Try, "tries")))
        return Record(parts=parts, tries=tries, **raw)
    except (KeyError, TypeError, AttributeError) as bad:
        raise ValueError(f"no record of a run: {bad!r}") from None


@dataclass(frozen=True)
class Program:
    """The program and its sum."""

    path: Path
    digest: str

    def call(self, words: list[str], script: Script, timeout: int) -> tuple[bytes, int]:
        """What it writes for this script in a folder of its own, and its status: below zero where a signal ended it."""
        with tempfile.TemporaryDirectory(prefix="feeder-") as folder:
            for name, content in {MASTER: script.text, **script.files}.items():
                path = Path(folder, name)
                path.parent.mkdir(parents=True, exist_ok=True)
                path.write_bytes(content)
            ran = subprocess.run(
                [str(self.path), *words],
                cwd=folder,
                stdin=subprocess.DEVNULL,
                stdout=subprocess.PIPE,
                stderr=subprocess.DEVNULL,
                timeout=timeout,
                check=False,
            )
            return ran.stdout, ran.returncode


class Stopped(Exception):
    """A run that can't go on: its status and why."""

    def __init__(self, status: int, fault: str) -> None:
        super().__init__(fault)
        self.status, self.fault = status, fault


@dataclass(frozen=True)
class Solved:
    """What one call of the program gave."""

    script: Script
    content: bytes
    report: Report
    status: int

    @property
    def fault(self) -> str:
        """The fault's record, or what else ended it."""
        if self.report.fault is not None:
            return self.report.fault.text
        return "" if self.status == 0 else f"ended with status {self.status}"


class Run:
    """Carries out one row."""

    def __init__(
        self,
        key: str,
        source: Source,
        row: Row,
        retry: Retry,
        program: Program,
        store: Store,
        certificates: bool,
        timeout: int,
    ) -> None:
        self.source, self.row, self.retry, self.program = source, row, retry, program
        self.store, self.certificates, self.timeout = store, certificates, timeout
        self.record = Record(key)

    def carry_out(self) -> Record:
        """The record, whatever becomes of the run."""
        try:
            if self.is_daily():
                self.day()
            else:
                self.snapshot()
        except Stopped as stop:
            self.record.status, self.record.fault = stop.status, stop.fault
        except BadChange as bad:
            self.record.status, self.record.fault = -1, str(bad)
        return self.record

    def is_daily(self) -> bool:
        return self.source.circuit.is_daily or "hours" in self.row

    # -------------------------------------------------------------- calls

    def solve(self, settings: Settings) -> Solved:
        script = write_script(self.source, self.row, settings)
        content, status = self.call(["solve", MASTER], script)
        try:
            report = parse_report(content, MASTER)
        except UnreadableReport as bad:
            raise Stopped(-1, f"status {status}, and an unreadable report: {bad}") from None
        return Solved(script, content, report, status)

    def call(self, words: list[str], script: Script) -> tuple[bytes, int]:
        try:
            return self.program.call(words, script, self.timeout)
        except subprocess.TimeoutExpired:
            raise Stopped(-1, f"no end after {self.timeout} s") from None
        except OSError as bad:
            raise Stopped(-1, f"{NO_PROGRAM}: {bad.strerror}") from None

    def keep(self, solved: Solved, first: int, last: int, changed: str = "") -> None:
        """Keeps a part that ended well, with its certificate."""
        certificate = None
        if self.certificates:
            content, status = self.call(["cert", MASTER], solved.script)
            if status != 0:
                raise Stopped(-1, f"solved, but `cert` ended with status {status}")
            certificate = self.store.put(content)
        files = {name: self.store.put(content) for name, content in solved.script.files.items()}
        script, report = self.store.put(solved.script.text), self.store.put(solved.content)
        self.record.parts.append(Part(first, last, script, files, report, certificate, changed))

    # -------------------------------------------------------------- a snapshot

    def snapshot(self) -> None:
        solved, changed = self.tried(Settings(), self.solve(Settings()), 0)
        if solved.status != 0:
            self.keep_failed(solved)
            raise Stopped(solved.status, solved.fault)
        self.keep(solved, 0, 0, changed)

    def keep_failed(self, solved: Solved) -> None:
        """Keeps script and report of an end that wasn't good, without counting them as a part."""
        self.store.put(solved.script.text)
        self.store.put(solved.content)

    def tried(self, settings: Settings, solved: Solved, hour: int) -> tuple[Solved, str]:
        """Tries again while the plan has something left to try; gives the last end, and what was changed for it."""
        steps = Steps(self.retry)
        while solved.status in (10, 11):
            step = steps.after(solved)
            self.record.tries.append(Try(hour, solved.status, solved.fault, step or "nothing left to try"))
            if step is None:
                break
            solved = self.solve(steps.applied(settings))
        return solved, steps.text()

    # -------------------------------------------------------------- a day

    def day(self) -> None:
        first, last = hours_of(str(self.row["hours"])) if "hours" in self.row else (1, self.source.circuit.number)
        self.record.asked = last - first + 1
        at, settings = first, Settings()
        while at <= last:
            solved = self.solve(settings if at == first else settings.of_hours(at, last))
            if solved.status == 0:
                return self.keep(solved, at, last)
            if solved.status not in (10, 11):
                self.keep_failed(solved)
                raise Stopped(solved.status, solved.fault)
            at, settings = self.past_the_fault(solved, at, settings)

    def past_the_fault(self, solved: Solved, at: int, settings: Settings) -> tuple[int, Settings]:
        """Keeps the hours before the one that ended, and tries that one alone; gives the hour behind it and how it starts."""
        good = len(solved.report.settles_at_rest)
        if good:
            before = self.solve(settings.of_hours(at, at + good - 1))
            if before.status != 0:
                raise Stopped(before.status, f"hours {at} to {at + good - 1} by themselves: {before.fault}")
            self.keep(before, at, at + good - 1)
            settings = settings.started_at(before.report.settles[-1])
        hour = at + good
        alone, changed = self.tried(settings.of_hours(hour, hour), solved, hour)
        if alone.status == 0:
            self.keep(alone, hour, hour, changed)
            return hour + 1, settings.started_at(alone.report.settles[-1])
        self.keep_failed(alone)
        self.record.lost.append(hour)
        if not self.retry.go_on or alone.status not in (10, 11):
            raise Stopped(alone.status, alone.fault)
        return hour + 1, settings


class Steps:
    """What is tried after status 10 and 11, one thing after the other."""

    def __init__(self, retry: Retry) -> None:
        self.retry = retry
        self.left = list(retry.vminpu)
        self.limits: tuple[Fraction, Fraction] | None = None
        self.vreg: dict[str, Fraction] = {}
        self.moves = 0

    def after(self, solved: Solved) -> str | None:
        """The next step after this end, in words; None where there is none."""
        if solved.status == 10 and self.left:
            self.limits = (self.left.pop(0), self.retry.vmaxpu)
            return self.limits_text()
        control = solved.report.fault.fields[0] if solved.report.fault and solved.report.fault.fields else ""
        is_regulator = solved.status == 11 and control.startswith("regcontrol.")
        if is_regulator and self.retry.vreg and self.moves < self.retry.vreg_tries:
            self.moves += 1
            self.vreg[control] = self.vreg.get(control, Fraction(0)) + self.retry.vreg
            return f"vreg of {control} by {float(self.vreg[control]):g} V"
        return None

    def limits_text(self) -> str:
        if self.limits is None:
            return ""
        return f"vminpu={float(self.limits[0]):g} vmaxpu={float(self.limits[1]):g} of all loads"

    def text(self) -> str:
        """All that is changed by now, in words."""
        moved = [f"vreg of {control} by {float(step):g} V" for control, step in self.vreg.items()]
        return "; ".join([it for it in [self.limits_text()] if it] + moved)

    def applied(self, settings: Settings) -> Settings:
        """The settings with all steps by now."""
        return Settings(settings.hours, self.limits or settings.limits, self.vreg, settings.taps, settings.banks)


def carried_out(run: Run, path: Path, again: bool = False) -> Record:
    """The record that a file holds, where all that it names is kept; else the run is carried out and the file written.

    With `again` a run that failed or lost hours is carried out too.
    """
    kept = kept_record(path, run.store)
    if kept is not None and not (again and (kept.status or kept.lost)):
        return kept
    record = run.carry_out()
    if not record.fault.startswith(NO_PROGRAM):
        write_whole(path, record.to_json())
    return record


def kept_record(path: Path, store: Store) -> Record | None:
    """The record of a file, or None where the run isn't done, or what it names isn't there."""
    if not path.exists():
        return None
    try:
        record = record_of(path.read_bytes())
    except ValueError:
        return None
    return record if all(store.has(digest) for digest in sums_of(record)) else None


def sums_of(record: Record) -> Iterator[str]:
    """The sums of all that a record's parts name."""
    for part in record.parts:
        yield from (part.script, part.report, *part.files.values(), *([part.certificate] if part.certificate else []))


def processors() -> int:
    """How many processors this process may use."""
    return len(os.sched_getaffinity(0)) if hasattr(os, "sched_getaffinity") else os.cpu_count() or 1
