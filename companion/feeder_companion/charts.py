"""Charts as inline SVG: an area with two axes, marks whose shape tells the phase, lines, bands, steps and cells."""

from __future__ import annotations

import math
from collections.abc import Iterable, Sequence
from dataclasses import dataclass, field

from .markup import at, escape, tag, text_tag

Point = tuple[float, float]


def ticks(low: float, high: float, count: int = 6) -> list[float]:
    """Multiples of 1, 2 or 5 times a power of ten between the two, at most about `count` of them."""
    if high <= low:
        return [low]
    raw = (high - low) / count
    power = 10 ** math.floor(math.log10(raw))
    step = next(it * power for it in (1, 2, 5, 10) if it * power >= raw * 0.999)
    first = math.ceil(low / step - 1e-9)
    return [k * step for k in range(first, math.floor(high / step + 1e-9) + 1)]


def number(value: float, step: float) -> str:
    """A tick's number with the decimals that its step needs."""
    places = max(0, -math.floor(math.log10(step) + 1e-9)) if step > 0 else 0
    return f"{value + 0.0:.{min(places, 9)}f}"


@dataclass
class Scale:
    """Values on one axis, and where they stand on the page."""

    low: float
    high: float
    start: float
    end: float

    def __call__(self, value: float) -> float:
        span = self.high - self.low
        return self.start + (self.end - self.start) * ((value - self.low) / span if span else 0.5)


@dataclass
class Chart:
    """An area of the page with scales; what is drawn is added to `parts`."""

    x: Scale
    y: Scale
    parts: list[str] = field(default_factory=list)

    def add(self, *parts: str) -> None:
        self.parts += parts

    @property
    def left(self) -> float:
        return min(self.x.start, self.x.end)

    @property
    def right(self) -> float:
        return max(self.x.start, self.x.end)

    @property
    def top(self) -> float:
        return min(self.y.start, self.y.end)

    @property
    def bottom(self) -> float:
        return max(self.y.start, self.y.end)

    # -------------------------------------------------------------- frame

    def level_axis(self, title: str, count: int = 6) -> None:
        """Lines across, with numbers at their left and the title above."""
        values = ticks(self.y.low, self.y.high, count)
        step = values[1] - values[0] if len(values) > 1 else abs(self.y.high) or 1
        for value in values:
            y = self.y(value)
            self.add(line(self.left, y, self.right, y, "grid"))
            self.add(text(self.left - 8, y + 4, number(value, step), "end", "soft"))
        self.add(text(self.left - 8, self.top - 12, title, "start", "soft"))

    def base_axis(self, title: str, count: int = 8) -> None:
        """Numbers below, with the title at the right."""
        self.add(line(self.left, self.bottom, self.right, self.bottom, "axis"))
        values = ticks(self.x.low, self.x.high, count)
        step = values[1] - values[0] if len(values) > 1 else abs(self.x.high) or 1
        for value in values:
            x = self.x(value)
            self.add(line(x, self.bottom, x, self.bottom + 5, "axis"))
            self.add(text(x, self.bottom + 19, number(value, step), "middle", "soft"))
        self.add(text(self.right, self.bottom + 37, title, "end", "soft"))

    def limit(self, value: float, label: str, is_low: bool) -> None:
        """A dashed line, and a shade on the side that the limit rules out; nothing where it is off the axis."""
        if not self.y.low <= value <= self.y.high:
            return
        y = self.y(value)
        edge = self.bottom if is_low else self.top
        self.add(rect(self.left, min(y, edge), self.right - self.left, abs(edge - y), "outside"))
        self.add(line(self.left, y, self.right, y, "limit"))
        self.add(text(self.right + 6, y + 4, label, "start", "limit-text"))

    # -------------------------------------------------------------- content

    def path(self, points: Iterable[Point], kind: str) -> None:
        """A line through the points."""
        self.add(tag("polyline", points=self.places(points), class_=f"{kind} path"))

    def band(self, low: Sequence[Point], high: Sequence[Point], kind: str) -> None:
        """The area between two lines over the same places."""
        self.add(tag("polygon", points=self.places([*low, *reversed(high)]), class_=f"{kind} band"))

    def places(self, points: Iterable[Point]) -> str:
        return " ".join(f"{self.x(x):.1f},{self.y(y):.1f}" for x, y in points)

    def mark(self, point: Point, phase: int, title: str, verdict: str, beside: float = 0) -> None:
        """The shape of a phase with its ring, beside its place by so much, and what a browser shows under the pointer."""
        x, y = self.x(point[0]) + beside, self.y(point[1])
        ring = ""
        if verdict != "not violated":
            ring = tag("circle", cx=round(x, 1), cy=round(y, 1), r=9, class_=f"ring-{verdict.replace(' ', '-')}")
        self.add(tag("g", text_tag("title", title) + ring + shape(x, y, phase)))

    def steps(self, points: Sequence[Point], kind: str) -> None:
        """Steps: each value holds until the next place."""
        stairs: list[Point] = []
        for (x, y), (after, _) in zip(points, [*points[1:], (points[-1][0] + 1, 0)]):
            stairs += [(x, y), (after, y)]
        self.path(stairs, kind)


def line(x1: float, y1: float, x2: float, y2: float, kind: str) -> str:
    """A straight line."""
    return tag("line", x1=round(x1, 1), y1=round(y1, 1), x2=round(x2, 1), y2=round(y2, 1), class_=kind)


def rect(x: float, y: float, width: float, height: float, kind: str) -> str:
    """A rectangle."""
    return tag("rect", x=round(x, 1), y=round(y, 1), width=round(width, 1), height=round(height, 1), class_=kind)


def text(x: float, y: float, content: object, anchor: str = "start", kind: str = "label", turn: int = 0) -> str:
    """A text at a place, turned about it by degrees."""
    places: dict[str, object] = {**at(x, y), "text_anchor": anchor, "class_": kind}
    if turn:
        places["transform"] = f"rotate({turn} {x:.1f} {y:.1f})"
    return text_tag("text", content, **places)


def shape(x: float, y: float, phase: int, size: float = 5.0) -> str:
    """A filled triangle for phase 1, an open square for 2, a filled circle for 3, an open diamond for any other."""
    kind = f"p{phase if phase in (1, 2, 3) else 0}"
    if phase == 1:
        corners = [(x, y - size * 1.2), (x - size * 1.1, y + size * 0.8), (x + size * 1.1, y + size * 0.8)]
    elif phase == 2:
        corners = [(x - size, y - size), (x + size, y - size), (x + size, y + size), (x - size, y + size)]
    elif phase == 3:
        return tag("circle", cx=round(x, 1), cy=round(y, 1), r=size, class_=kind)
    else:
        corners = [(x, y - size * 1.3), (x + size * 1.3, y), (x, y + size * 1.3), (x - size * 1.3, y)]
    points = " ".join(f"{a:.1f},{b:.1f}" for a, b in corners)
    return tag("polygon", points=points, class_=kind if phase == 1 else f"{kind} open")


def picture(width: float, height: float, parts: Iterable[str], title: str) -> str:
    """The SVG, as wide as the page lets it be."""
    whole = text_tag("title", title) + "\n".join(parts)
    return tag(
        "div",
        f'<svg class="chart" viewBox="0 0 {width:.0f} {height:.0f}" role="img" aria-label="{escape(title)}">{whole}</svg>',
        class_="scroll",
    )


def legend(entries: Sequence[tuple[str, str]], x: float, y: float, gap: float = 26) -> str:
    """Samples with their words, in a row; each sample is a text of SVG round the origin."""
    parts = []
    for sample, words in entries:
        parts.append(tag("g", sample, transform=f"translate({x:.1f} {y:.1f})"))
        parts.append(text(x + 14, y + 4, words))
        x += 14 + 7.1 * len(words) + gap
    return "".join(parts)


RINGS = [
    (tag("circle", cx=0, cy=0, r=7, class_="ring-violated"), "surely outside"),
    (tag("circle", cx=0, cy=0, r=7, class_="ring-not-decided"), "not decided"),
]
"""Entries of a legend."""
