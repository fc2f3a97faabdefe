"""The page of a study: its answer, its runs as pictures and as a table, what was tried again, and the plan itself."""

from __future__ import annotations

from collections.abc import Sequence
from fractions import Fraction

from . import markup
from .changes import value_text, words_text
from .charts import Chart, Scale, legend, line, picture, rect, text
from .findings import Finding, answers, overall
from .limits import Range, Verdict
from .markup import Cell, definitions, tag, text_tag, verdict_cell
from .plan import Plan, Value
from .views import draw_limits, level_scale

MOST_ROWS = 500
MOST_BARS = 1000
SIGNS = {Verdict.VIOLATED: "×", Verdict.NOT_DECIDED: "?", Verdict.NOT_VIOLATED: ""}


def study_page(plan: Plan, findings: list[Finding], program: str) -> str:
    """The page."""
    parts = [
        text_tag("h1", plan.name),
        text_tag("p", "A study: each run solved and certified by feeder.", class_="lead"),
    ]
    parts.append(definitions(facts(plan, findings, program)))
    parts += answer_part(plan, findings)
    parts += grid_part(plan, findings)
    parts += bars_part(plan, findings)
    parts += runs_part(plan, findings)
    parts += tries_part(findings)
    parts += [NOTES, text_tag("h2", "The plan"), tag("pre", markup.escape(plan.path.read_text(encoding="utf-8")))]
    return markup.page(plan.name, parts)


def facts(plan: Plan, findings: list[Finding], program: str) -> list[tuple[str, str]]:
    """What the study is, in a few lines."""
    outcomes = [it.record.outcome for it in findings]
    limits = plan.limits
    said = [f"voltage {limits.voltage} per unit"] if limits.voltage else []
    said += [f"between phases {limits.between} per unit"] if limits.between else []
    said += [f"loading up to {value_text(limits.loading)} % of normamps"] if limits.loading is not None else []
    found = [
        ("Script", str(plan.script)),
        ("Program", f"feeder, sha256 {program}"),
        ("Runs", ", ".join(f"{outcomes.count(it)} {it}" for it in dict.fromkeys(outcomes))),
        ("Limits", "; ".join(said) or "none"),
    ]
    for name in limits.names():
        verdicts = [it.judged.verdicts[name] for it in findings]
        found.append((name.capitalize(), ", ".join(f"{verdicts.count(it)} runs {it.value}" for it in Verdict)))
    return found


# ------------------------------------------------------------------ the answer


def answer_part(plan: Plan, findings: list[Finding]) -> list[str]:
    """The greatest value that violates nothing, for each group of runs."""
    if plan.answer is None:
        return []
    word = plan.answer.greatest
    head = [(it, "script", True) for it in plan.answer.for_each]
    head += [("sure up to", "outward", False), ("violated from", "outward", False), ("not decided", "outward", True)]
    rows = []
    for it in answers(plan, findings):
        sure, above, unclear = it.cells()
        rows.append(
            [
                *it.group,
                Cell(sure, "not-violated") if sure else "none",
                Cell(above, "violated") if above else "none",
                unclear,
            ]
        )
    caption = (
        f"{word}: up to the first value no limit is violated at any smaller one; from the second a limit is violated, "
        "by certified intervals. Between them the plan has no value, or it isn't decided."
    )
    return [text_tag("h2", f"The greatest {word}"), markup.table(head, rows, caption)]


# ------------------------------------------------------------------ the grid


def grid_part(plan: Plan, findings: list[Finding]) -> list[str]:
    """Verdicts over two words, where just two are varied and each pair of values is one run."""
    if len(plan.varied) != 2:
        return []
    across = plan.answer.greatest if plan.answer else plan.varied[1]
    down = plan.varied[0] if plan.varied[1] == across else plan.varied[1]
    cells = {(it.row.get(down, ""), it.row.get(across, "")): it for it in findings}
    columns, rows = (in_order([pair[k] for pair in cells]) for k in (1, 0))
    if len(cells) != len(findings) or len(columns) > 80 or len(rows) > 80:
        return []
    return [text_tag("h2", f"Verdicts by {down} and {across}"), grid(cells, rows, columns, down, across)]


def in_order(values: Sequence[Value]) -> list[Value]:
    """Each value once: numbers by their size, texts as they come."""
    found = list(dict.fromkeys(values))
    return sorted(found) if all(isinstance(it, Fraction) for it in found) else found


def grid(
    cells: dict[tuple[Value, Value], Finding], rows: Sequence[Value], columns: Sequence[Value], down: str, across: str
) -> str:
    """A cell for each run, with a sign that tells the verdict without the colour."""
    left = 20 + 7.2 * max(len(value_text(it)) for it in [*rows, down])
    width = min(46.0, (1000 - left - 20) / len(columns))
    height, top = 24.0, 66.0
    parts = [text(left - 8, top - 8, down, "end", "soft"), text(left, 22, across, "start", "soft")]
    every = max(1, round(44 / width))
    for k, column in enumerate(columns):
        if k % every == 0:
            parts.append(text(left + width * (k + 0.5), top - 8, value_text(column), "middle", "soft"))
    for i, row in enumerate(rows):
        y = top + height * i
        parts.append(text(left - 8, y + 16, value_text(row), "end"))
        for k, column in enumerate(columns):
            it = cells.get((row, column))
            if it is not None:
                verdict = overall(it)
                kind = f"cell-{verdict.value.replace(' ', '-')}"
                box = rect(left + width * k + 1, y + 1, width - 2, height - 2, kind)
                sign = text(left + width * (k + 0.5), y + 17, SIGNS[verdict], "middle", "plain")
                title = text_tag(
                    "title", f"{words_text(it.row)}: {verdict.value}{it.record.status and ', ' + it.record.fault or ''}"
                )
                parts.append(tag("g", title + box + sign))
    entries = [
        (rect(-8, -8, 16, 16, f"cell-{it.value.replace(' ', '-')}"), f"{it.value} {SIGNS[it]}") for it in Verdict
    ]
    bottom = top + height * len(rows)
    return picture(
        1000, bottom + 40, [*parts, legend(entries, left + 8, bottom + 22)], f"Verdicts by {down} and {across}"
    )


# ------------------------------------------------------------------ bars


def bars_part(plan: Plan, findings: list[Finding]) -> list[str]:
    """A bar for each run from its lowest to its highest voltage."""
    found = [it for it in findings if it.judged.least and it.judged.greatest]
    if not found or len(findings) > MOST_BARS:
        return []
    limits = plan.limits.voltage
    return [text_tag("h2", "The lowest and the highest voltage of each run"), bars(found, len(findings), limits)]


def bars(found: list[Finding], count: int, limits: Range | None) -> str:
    """Runs across, per unit up."""
    ends = []
    for it in found:
        assert it.judged.least is not None and it.judged.greatest is not None
        ends.append((it, float(it.judged.least.value.middle), float(it.judged.greatest.value.middle)))
    y = level_scale([end for _, low, high in ends for end in (low, high)], limits, 40, 330)
    chart = Chart(Scale(0.5, count + 0.5, 84, 936), y)
    chart.level_axis("per unit", 8)
    chart.base_axis("run", 12)
    draw_limits(chart, limits)
    thick = max(1.0, min(8.0, 500 / count))
    for it, low, high in ends:
        verdict = it.judged.verdicts.get("voltage", Verdict.NOT_VIOLATED)
        x = chart.x(it.number + 1)
        bar = line(x, chart.y(low), x, min(chart.y(high), chart.y(low) - 1), f"bar-{verdict.value.replace(' ', '-')}")
        least, most = it.judged.least, it.judged.greatest
        where = f"run {it.number + 1}, {words_text(it.row)}: {low:.6f} at {least and least.where} to {high:.6f} at {most and most.where}"
        chart.add(tag("g", text_tag("title", f"{where}; {verdict.value}") + bar, stroke_width=round(thick, 1)))
    entries = [(line(-6, 0, 8, 0, f"bar-{it.value.replace(' ', '-')}"), it.value) for it in Verdict]
    parts = [*chart.parts, tag("g", legend(entries, 330, 16), stroke_width=4)]
    return picture(1000, 385, parts, "The lowest and the highest voltage of each run")


# ------------------------------------------------------------------ tables


def runs_part(plan: Plan, findings: list[Finding]) -> list[str]:
    """A row for each run."""
    names = plan.limits.names()
    head = [("run", "", False), *((word, "script", True) for word in plan.varied), ("outcome", "", True)]
    head += [(name, "outward", True) for name in names]
    head += [("lowest, pu", "outward", False), ("at", "", True), ("highest, pu", "outward", False), ("at", "", True)]
    head += [("hours", "", False)] if any(it.record.asked > 1 for it in findings) else []
    rows = []
    for it in findings[:MOST_ROWS]:
        row: list[str] = [str(it.number + 1), *(value_text(it.row[w]) if w in it.row else "" for w in plan.varied)]
        row.append(outcome_cell(it))
        row += [verdict_cell(it.judged.verdicts[name].value) for name in names]
        for extreme in (it.judged.least, it.judged.greatest):
            hour = f", hour {extreme.hour}" if extreme and extreme.hour else ""
            row += [extreme.value.low_text(6), extreme.where + hour] if extreme else ["", ""]
        if len(head) > len(row):
            row.append(f"{it.judged.hours} of {it.record.asked}")
        rows.append(row)
    shown = f" The first {MOST_ROWS} of {len(findings)} are shown." if len(findings) > MOST_ROWS else ""
    caption = f"Per unit rounded down; table.csv has both ends of each interval, and all columns.{shown}"
    return [text_tag("h2", "Runs"), markup.table(head, rows, caption)]


def outcome_cell(it: Finding) -> Cell:
    """The outcome with its fault."""
    record = it.record
    fault = (
        f" ({record.fault})"
        if record.fault
        else f" (hours {', '.join(map(str, record.lost[:5]))} not)"
        if record.lost
        else ""
    )
    return Cell(markup.escape(record.outcome + fault), "text wrap" if fault else "text")


def tries_part(findings: list[Finding]) -> list[str]:
    """What was tried again."""
    rows = [
        [str(it.number + 1), str(entry.hour or ""), str(entry.status), entry.fault, entry.next]
        for it in findings
        for entry in it.record.tries
    ]
    if not rows:
        return []
    head = [("run", "", False), ("hour", "", False), ("status", "", False), ("fault", "", True), ("then", "", True)]
    return [
        text_tag("h2", "Tried again"),
        markup.table(head, rows[:MOST_ROWS], f"{len(rows)} ends with status 10 or 11."),
    ]


NOTES = text_tag("h2", "What the numbers stand on") + tag(
    "p",
    "Each run was solved by feeder, which certifies each state: its voltages lie between a low and a high at every state in "
    "its box that meets the circuit's equations as closely. <b>violated</b>: in some hour the whole interval lies beyond the "
    "limit. <b>not decided</b>: a limit lies inside an interval, or a state is missing. <b>not violated</b>: each interval of "
    "each hour lies within the limits, which are themselves allowed. Columns marked <i>outward</i> are made of certified "
    "numbers in exact arithmetic and rounded outward, by a program that isn't proved. A run that was solved with changes is "
    "not the run that the plan names: what was changed stands under <i>Tried again</i>.",
)
