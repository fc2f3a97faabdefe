#!/usr/bin/env python3
"""picture REPORT.csv: the picture of a good report by the rules of docs/PICTURE.md, written apart from the proved program.

It tests nothing of the report. The gate's stored pages come from it.
"""
import csv
import sys

ROOT_THREE = 1732050807568877
LIMITS = 950_000, 1_050_000
STATIC = """<style>text{font:14px sans-serif}.head{font-weight:bold}.title{font:bold 18px sans-serif}.round,.tick{font-size:12px}\
.node,.row{font:13px monospace}.fault{font:bold 13px monospace}.tick,.node,.unit{text-anchor:end}path.tick{stroke:#bbb}\
path.limit{stroke:#000;stroke-dasharray:6 4}.frame{fill:none;stroke:#000}.bar{fill:#000;fill-opacity:.5}</style>
<defs>
<path id='triangle' d='M0 -7L7 5H-7Z' fill='#0072b2' stroke='#000'/>
<path id='square' d='M-5 -5H5V5H-5Z' fill='#fff' stroke='#d55e00' stroke-width='2.5'/>
<circle id='circle' r='6' fill='#009e73' stroke='#000'/>
<path id='diamond' d='M0 -7L6 0L0 7L-6 0Z' fill='#fff' stroke='#000' stroke-width='2'/>
<circle id='outside' r='10' fill='none' stroke='#000' stroke-width='2'/>
<circle id='across' r='10' fill='none' stroke='#000' stroke-width='2' stroke-dasharray='4 4'/>
<path id='far' d='M-9 -9L9 9M-9 9L9 -9' stroke='#000' stroke-width='2'/>
</defs>
<rect width='100%' height='100%' fill='#fff'/>
<text class='title' x='20' y='30'>Voltage magnitudes to ground, in the last round of each hour</text>
<use href='#triangle' x='28' y='53'/><text x='44' y='58'>node 1</text>
<use href='#square' x='128' y='53'/><text x='144' y='58'>node 2</text>
<use href='#circle' x='228' y='53'/><text x='244' y='58'>node 3</text>
<use href='#diamond' x='328' y='53'/><text x='344' y='58'>another node</text>
<rect class='bar' x='460' y='49' width='18' height='8'/><text x='486' y='58'>from low to high, at least a line</text>
"""
LIMITS_LEGEND = """\
<path class='limit' d='M18 77h26'/><text x='52' y='82'>limits of 0.95 and 1.05 per unit</text>
<use href='#outside' x='292' y='77'/><text x='310' y='82'>surely outside</text>
<use href='#across' x='432' y='77'/><text x='450' y='82'>across a limit</text>
<use href='#far' x='570' y='77'/><text x='588' y='82'>below 0.5 or above 1.4, as in a delta: off the axis, not judged</text>
"""
NO_LIMITS_LEGEND = "<text x='20' y='82'>not every node has a voltage base: in volts, and no limits are judged</text>\n"


def micro(text):
    return int(text.replace(".", ""))


def fixed(places, n):
    return f"{n // 10**places}.{n % 10**places:0{places}d}"


def escaped(text):
    text = text.replace("&", "&amp;").replace("<", "&lt;").replace(">", "&gt;")
    return "".join(" " if c < " " else c for c in text)


def step_for(range_):
    return next(m * 10**k for k in range(20) for m in (1, 2, 5) if range_ // 5 < m * 10**k)


class Scale:
    """The unit and the axis of a page, and the spans of its nodes in that unit."""

    def __init__(self, bases, panels):
        self.bases, nodes = bases, [it for panel in panels for it in panel.nodes]
        self.per_unit = all(bus in bases for bus, *_ in nodes)
        spans = [it for it in map(self.span, nodes) if self.judgement(it) != "far"]
        least, greatest = LIMITS if self.per_unit else (0, 0)
        self.low, self.high = min((low for low, _ in spans), default=least), max((high for _, high in spans), default=greatest)

    def span(self, node):
        bus, _, low, high = node
        if not self.per_unit:
            return low, high
        one = self.bases[bus] * 10**12
        return low * ROOT_THREE // one, -(-high * ROOT_THREE // one)

    def level(self, value):
        return 256 - min(max(value - self.low, 0) * 220 // max(self.high - self.low, 1), 220)

    def judgement(self, span):
        low, high = span
        if not self.per_unit or LIMITS[0] <= low and high <= LIMITS[1]:
            return None
        if high < 500_000 or low > 1_400_000:
            return "far"
        return "outside" if high < LIMITS[0] or low > LIMITS[1] else "across"


class Panel:
    def __init__(self, settle, hour, round_):
        self.settle, self.hour, self.round, self.nodes = settle, hour, round_, []

    def strips(self):
        for first in range(0, max(len(self.nodes), 1), 42):
            strip = Panel(self.settle, self.hour, self.round)
            strip.nodes = self.nodes[first : first + 42]
            yield strip

    def width(self):
        return 20 * max(len(self.nodes), 7)

    def line(self, kind, down):
        return f"<path class='{kind}' d='M100 {down}h{self.width()}'/>\n"

    def axis(self, scale):
        step = step_for(scale.high - scale.low)
        for value in range(-(-scale.low // step) * step, scale.high + 1, step):
            text = str(value // 10**6) if step % 10**6 == 0 else fixed(3, value // 1000) if step % 1000 == 0 else fixed(6, value)
            down = scale.level(value)
            yield self.line("tick", down) + f"<text class='tick' x='94' y='{down + 5}'>{text}</text>\n"
        for limit in LIMITS:
            if scale.per_unit and scale.low <= limit <= scale.high:
                yield self.line("limit", scale.level(limit))

    def mark(self, scale, k):
        (bus, number, low, high), (least, greatest) = self.nodes[k], scale.span(self.nodes[k])
        name, x, top = f"{escaped(bus)}.{number}", 110 + 20 * k, scale.level(greatest)
        height = max(scale.level(least) - top, 1)
        middle = top + height // 2
        per_unit = f", {fixed(6, least)} to {fixed(6, greatest)} per unit" if scale.per_unit else ""
        shape = {1: "triangle", 2: "square", 3: "circle"}.get(number, "diamond")
        sign = scale.judgement((least, greatest))
        sign = f"<use href='#{sign}' x='{x}' y='{middle}'/>" if sign else ""
        return (
            f"<g class='mark'><title>{name}: {fixed(6, low)} to {fixed(6, high)} V, width {fixed(6, high - low)} V{per_unit}</title>"
            f"<rect class='bar' width='18' x='{x - 9}' y='{top}' height='{height}'/><use href='#{shape}' x='{x}' y='{middle}'/>{sign}</g>\n"
            f"<text class='node' transform='translate({x + 4},278)rotate(-90)'>{name}</text>\n"
        )

    def text(self, scale):
        return (
            f"<text class='round' x='104' y='18'>settle {self.settle}, hour {self.hour}, round {self.round}</text>\n"
            f"<text class='unit' x='94' y='18'>{'per unit' if scale.per_unit else 'V'}</text>\n<text x='4' y='290'>bus.node</text>\n"
            f"<rect class='frame' x='100' y='26' height='240' width='{self.width()}'/>\n"
            + "".join(self.axis(scale))
            + "".join(self.mark(scale, k) for k in range(len(self.nodes)))
        )


def cells(row):
    return "".join(f"<tspan x='{x}'>{escaped(cell)}</tspan>" for x, cell in zip((20, 90, 160, 230, 350, 420, 600), row))


def table(top, rows):
    if rows:
        heads = ("settle", "hour", "record", "time in s", "steps", "tap per unit, or bank", "element")
        yield f"<text class='head' y='{top + 24}'>{cells(heads)}</text>\n"
    for k, row in enumerate(rows):
        yield f"<text class='row' y='{top + 54 + 20 * k}'>{cells(row)}</text>\n"


def read(lines):
    bases, panels, rows, fault = {}, [], [], None
    for fields in csv.reader(lines):
        kind = fields[0]
        if kind == "base":
            bases[fields[1]] = micro(fields[2])
        elif kind == "solution":
            settle, hour, round_ = map(int, fields[1:])
            if panels and (panels[-1].settle, panels[-1].hour) == (settle, hour):
                panels.pop()
            panels.append(Panel(settle, hour, round_))
        elif kind == "node":
            bus, number = fields[1].split(".")
            panels[-1].nodes.append((bus, int(number), micro(fields[6]), micro(fields[7])))
        elif kind == "act":
            time, element, steps, position = fields[1:]
            rows.append((str(panels[-1].settle), str(panels[-1].hour), kind, time, steps, position, element))
        elif kind in ("tap", "bank"):
            rows.append((str(panels[-1].settle), str(panels[-1].hour), kind, "", "", fields[2], fields[1]))
        elif kind == "fault":
            fault = "".join(f" {it}" for it in fields)
    return bases, panels, rows, fault


def longest(texts):
    return max((len(it.encode()) for it in texts), default=0)


def page(bases, panels, rows, fault):
    scale = Scale(bases, panels)
    strips = [strip for panel in panels for strip in panel.strips()]
    width = 110 + 20 * max([len(it.nodes) for it in strips] + [7])
    height = 310 + 8 * (min(longest(bus for it in strips for bus, *_ in it.nodes), 65536) + 3)
    columns = max(1000 // width, 1)
    top = 100 + (len(strips) + columns - 1) // columns * height
    down = top + 24 + (40 + 20 * len(rows) if rows else 0)
    across = max(width, 1000, 600 + 8 * longest(row[-1] for row in rows), 200 + 8 * len((fault or "").encode())) + 30
    yield f"<svg xmlns='http://www.w3.org/2000/svg' width='{across}' height='{down + 40}' viewBox='0 0 {across} {down + 40}'>\n" + STATIC
    yield LIMITS_LEGEND if scale.per_unit else NO_LIMITS_LEGEND
    for k, it in enumerate(strips):
        yield f"<g transform='translate({k % columns * width},{100 + k // columns * height})'>\n{it.text(scale)}</g>\n"
    yield from table(top, rows)
    if fault is not None:
        yield f"<text class='fault' x='20' y='{down}'>The report ends with:{escaped(fault)}</text>\n"
    yield "</svg>\n"


with open(sys.argv[1], encoding="utf-8", newline="") as report:
    sys.stdout.write("".join(page(*read(report.readlines()))))
