"""The findings of a study: a row for each run, the answer to the plan's question, and the tables of both."""

from __future__ import annotations

import csv
import io
from collections.abc import Iterable, Iterator, Sequence
from dataclasses import dataclass
from fractions import Fraction

from .changes import value_text, words_text
from .judging import Extreme, Judged
from .limits import Verdict, worst
from .plan import Plan, Row
from .runs import Record


@dataclass
class Finding:
    """A row of the study's answer."""

    number: int
    row: Row
    record: Record
    judged: Judged


# ------------------------------------------------------------------ tables


def csv_text(head: Sequence[str], rows: Iterable[Sequence[str]]) -> bytes:
    """A CSV of these rows."""
    text = io.StringIO()
    writer = csv.writer(text, lineterminator="\n")
    writer.writerow(head)
    writer.writerows(rows)
    return text.getvalue().encode()


def extreme_cells(extreme: Extreme | None, places: int) -> list[str]:
    """The interval outward, the place and the hour."""
    if extreme is None:
        return ["", "", "", ""]
    value = extreme.value
    return [value.low_text(places), value.high_text(places), extreme.where, str(extreme.hour or "")]


def table_head(plan: Plan) -> list[str]:
    """The columns of table.csv, each with what it stands on (docs/COMPANION.md)."""
    head = ["run:printed", *(f"{word}:script" for word in plan.varied)]
    head += [
        "outcome:printed",
        "status:printed",
        "fault:printed",
        "tries:printed",
        "hours_asked:script",
        "hours:printed",
    ]
    for name in plan.limits.names():
        head += [f"{name}:outward", f"{name}_hours_violated:outward", f"{name}_hours_not_decided:outward"]
    for name in ("least", "greatest"):
        head += [f"{name}_low_pu:outward", f"{name}_high_pu:outward", f"{name}_at:printed", f"{name}_hour:printed"]
    if plan.limits.loading is not None:
        head += [
            "loading_low_percent:outward",
            "loading_high_percent:outward",
            "loading_at:printed",
            "loading_hour:printed",
        ]
    return [*head, "positions:certified"]


def table_row(plan: Plan, it: Finding) -> list[str]:
    """A run's row of table.csv."""
    record, judged = it.record, it.judged
    cells = [str(it.number + 1), *(value_text(it.row[word]) if word in it.row else "" for word in plan.varied)]
    cells += [
        record.outcome,
        str(record.status),
        record.fault,
        str(len(record.tries)),
        str(record.asked),
        str(judged.hours),
    ]
    for name in plan.limits.names():
        cells += [judged.verdicts[name].value, str(judged.violated[name]), str(judged.not_decided[name])]
    cells += extreme_cells(judged.least, 9) + extreme_cells(judged.greatest, 9)
    if plan.limits.loading is not None:
        cells += extreme_cells(judged.loading, 6)
    return [*cells, judged.taps]


def tries_rows(findings: list[Finding]) -> Iterator[list[str]]:
    """Each end that was tried again."""
    for it in findings:
        for entry in it.record.tries:
            yield [
                str(it.number + 1),
                words_text(it.row),
                str(entry.hour or ""),
                str(entry.status),
                entry.fault,
                entry.next,
            ]


def parts_rows(findings: list[Finding], program: str) -> Iterator[list[str]]:
    """Each part's sums."""
    for it in findings:
        for part in it.record.parts:
            files = " ".join(f"{name}={digest}" for name, digest in part.files.items())
            sums = [part.script, files, part.report, part.certificate or "", program]
            yield [str(it.number + 1), words_text(it.row), str(part.first), str(part.last), part.changed, *sums]


PARTS_HEAD = [
    "run",
    "changes",
    "first_hour",
    "last_hour",
    "tried",
    "script",
    "files",
    "report",
    "certificate",
    "program",
]
TRIES_HEAD = ["run", "changes", "hour", "status", "fault", "then"]


# ------------------------------------------------------------------ the answer


@dataclass(frozen=True)
class Found:
    """The greatest value up to which nothing is violated, the least that violates, and those that aren't decided."""

    group: tuple[str, ...]
    sure: Fraction | None
    violated_from: Fraction | None
    not_decided: tuple[Fraction, ...]

    def cells(self) -> list[str]:
        """As texts."""
        ends = ["" if it is None else value_text(it) for it in (self.sure, self.violated_from)]
        return [*ends, " ".join(map(value_text, self.not_decided))]


def overall(finding: Finding) -> Verdict:
    """The verdict of a run on all limits together."""
    missing = [Verdict.NOT_DECIDED] if finding.record.status else []
    return worst([*finding.judged.verdicts.values(), *missing])


def answers(plan: Plan, findings: list[Finding]) -> list[Found]:
    """The answer for each group of runs. A value is sure where it and all smaller ones violate nothing."""
    assert plan.answer is not None
    word = plan.answer.greatest
    groups: dict[tuple[str, ...], list[Finding]] = {}
    for it in findings:
        groups.setdefault(tuple(value_text(it.row[word]) for word in plan.answer.for_each), []).append(it)
    found = []
    for group, runs in groups.items():
        values = sorted(((Fraction(it.row[word]), overall(it)) for it in runs), key=lambda it: it[0])
        sure = None
        for value, verdict in values:
            if verdict is not Verdict.NOT_VIOLATED:
                break
            sure = value
        violated = [value for value, verdict in values if verdict is Verdict.VIOLATED]
        unclear = tuple(value for value, verdict in values if verdict is Verdict.NOT_DECIDED)
        found.append(Found(group, sure, min(violated, default=None), unclear))
    return found


def answer_head(plan: Plan) -> list[str]:
    """The columns of answer.csv."""
    groups = plan.answer.for_each if plan.answer else ()
    return [f"{it}:script" for it in groups] + [f"{it}:outward" for it in ("sure", "violated_from", "not_decided")]
