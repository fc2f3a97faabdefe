"""HTML and SVG as text: elements with escaped texts and attributes, tables, and the one page that holds them."""

from __future__ import annotations

import html
from collections.abc import Iterable, Sequence

STYLE = """
:root { --ink: #1d2733; --soft: #5b6878; --line: #d5dbe2; --paper: #ffffff; --shade: #f4f6f8;
  --one: #0b5fa5; --two: #a8500a; --three: #2c7a3f; --other: #6b4fa0; --bad: #b3121d; --open: #8a6100; --good: #1f6f3a; }
* { box-sizing: border-box; }
body { margin: 0 auto; padding: 1.5rem clamp(0.75rem, 3vw, 2.5rem) 4rem; max-width: 76rem; color: var(--ink);
  background: var(--paper); font: 16px/1.5 system-ui, "DejaVu Sans", sans-serif; }
h1 { font-size: 1.6rem; line-height: 1.25; margin: 0 0 0.25rem; overflow-wrap: anywhere; }
h2 { font-size: 1.2rem; margin: 2.25rem 0 0.5rem; }
p, ul, dl { max-width: 46rem; }
p.lead { color: var(--soft); margin-top: 0; }
dl { display: grid; grid-template-columns: max-content 1fr; gap: 0.15rem 1rem; margin: 1rem 0; }
dt { color: var(--soft); }
dd { margin: 0; overflow-wrap: anywhere; }
.scroll { overflow-x: auto; }
.chart { min-width: 40rem; width: 100%; height: auto; display: block; }
table { border-collapse: collapse; font-size: 0.9rem; font-variant-numeric: tabular-nums; }
th, td { padding: 0.3rem 0.7rem; text-align: right; border-bottom: 1px solid var(--line); white-space: nowrap; }
th { background: var(--shade); vertical-align: bottom; }
th small { display: block; font-weight: normal; color: var(--soft); }
th.text, td.text { text-align: left; }
td.wrap { white-space: normal; min-width: 14rem; }
.violated { color: var(--bad); font-weight: 600; }
.not-decided { color: var(--open); font-weight: 600; }
.not-violated { color: var(--good); }
.note { color: var(--soft); font-size: 0.9rem; }
.warning { border-left: 4px solid var(--bad); padding: 0.5rem 0.9rem; background: var(--shade); }
code { font-family: ui-monospace, "DejaVu Sans Mono", monospace; font-size: 0.9em; }
pre { overflow-x: auto; background: var(--shade); padding: 0.8rem; font-size: 0.85rem; }
svg text { font: 13px system-ui, "DejaVu Sans", sans-serif; fill: var(--ink); paint-order: stroke;
  stroke: var(--paper); stroke-width: 4px; stroke-linejoin: round; }
svg .soft { fill: var(--soft); }
svg .grid { stroke: var(--line); stroke-width: 1; }
svg .axis { stroke: var(--soft); stroke-width: 1; }
svg .limit { stroke: var(--ink); stroke-width: 1.4; stroke-dasharray: 7 4; }
svg .limit-text { font-weight: 600; }
svg .p1 { stroke: var(--one); fill: var(--one); }
svg .p2 { stroke: var(--two); fill: var(--two); }
svg .p3 { stroke: var(--three); fill: var(--three); }
svg .p0 { stroke: var(--other); fill: var(--other); }
svg .open { fill: var(--paper); stroke-width: 2; }
svg .path { fill: none; stroke-width: 2; }
svg .p2.path { stroke-dasharray: 8 3; }
svg .p3.path { stroke-dasharray: 2.5 2.5; }
svg .path.jump { stroke-width: 1; stroke-dasharray: 1 3; opacity: 0.8; }
svg .band { stroke: none; fill-opacity: 0.14; }
svg .ring-violated { fill: none; stroke: var(--bad); stroke-width: 2.4; }
svg .ring-not-decided { fill: none; stroke: var(--open); stroke-width: 2.4; stroke-dasharray: 3 2.4; }
svg .outside { fill: var(--bad); fill-opacity: 0.06; }
svg .cell-violated { fill: #e8b4b8; } svg .cell-not-decided { fill: #f2dfa8; } svg .cell-not-violated { fill: #cfe6d5; }
svg .bar-violated { stroke: var(--bad); } svg .bar-not-decided { stroke: var(--open); } svg .bar-not-violated { stroke: var(--good); }
@media print { body { max-width: none; font-size: 11pt; } .scroll { overflow: visible; } h2 { break-after: avoid; } }
"""


def escape(text: object) -> str:
    """A text as it stands in HTML, in an attribute too."""
    return html.escape(str(text), quote=True)


def tag(name: str, content: str = "", /, **attributes: object) -> str:
    """An element; `class_` is the attribute class, and an underscore in a name is a hyphen."""
    words = "".join(f' {key.rstrip("_").replace("_", "-")}="{escape(value)}"' for key, value in attributes.items())
    return f"<{name}{words}>{content}</{name}>" if content or name not in EMPTY else f"<{name}{words}/>"


EMPTY = {"line", "polyline", "polygon", "rect", "circle", "path"}
"""Elements that mostly have no content."""


def text_tag(name: str, text: object, /, **attributes: object) -> str:
    """An element that holds a text, escaped."""
    return tag(name, escape(text), **attributes)


def at(x: float, y: float) -> dict[str, object]:
    """Two coordinates, to a tenth."""
    return {"x": round(x, 1), "y": round(y, 1)}


class Cell(str):
    """A table's cell that is HTML already, with a class of its own."""

    kind: str = ""

    def __new__(cls, content: str, kind: str = "") -> Cell:
        it = super().__new__(cls, content)
        it.kind = kind
        return it


def verdict_cell(verdict: str) -> Cell:
    """A verdict, coloured; the words tell it without the colour."""
    return Cell(escape(verdict), f"text {verdict.replace(' ', '-')}")


def table(head: Sequence[tuple[str, str, bool]], rows: Iterable[Sequence[str]], caption: str = "") -> str:
    """A table. Each column has its title, what its numbers stand on, and whether it holds texts."""
    titles = "".join(
        tag(
            "th",
            escape(title) + (text_tag("small", standing) if standing else ""),
            class_="text" if is_text else "number",
        )
        for title, standing, is_text in head
    )
    body = []
    for row in rows:
        cells = []
        for (_, _, is_text), cell in zip(head, row):
            kind = cell.kind if isinstance(cell, Cell) else "text" if is_text else "number"
            cells.append(tag("td", cell if isinstance(cell, Cell) else escape(cell), class_=kind or "number"))
        body.append(tag("tr", "".join(cells)))
    whole = tag("table", tag("thead", tag("tr", titles)) + tag("tbody", "\n".join(body)))
    top = text_tag("p", caption, class_="note") if caption else ""
    return top + tag("div", whole, class_="scroll")


def definitions(pairs: Iterable[tuple[str, str]]) -> str:
    """Terms with their texts."""
    return tag("dl", "".join(text_tag("dt", term) + text_tag("dd", text) for term, text in pairs))


def page(title: str, parts: Iterable[str]) -> str:
    """One HTML page that needs no other file."""
    head = '<meta charset="utf-8"><meta name="viewport" content="width=device-width, initial-scale=1">'
    head += text_tag("title", title) + tag("style", STYLE)
    body = "\n".join(parts)
    return f'<!DOCTYPE html>\n<html lang="en">\n<head>{head}</head>\n<body>\n{body}\n</body>\n</html>\n'
