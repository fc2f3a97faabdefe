"""What the items of a script connect: fed nodes, zones, floating zones, unknowns, and where to cut."""

from __future__ import annotations

from collections.abc import Sequence
from dataclasses import dataclass, field
from fractions import Fraction

from .profile import MAGNITUDES, UNKNOWNS, Item
from .values import bus_of

Node = tuple[str, int]
OVERHEAD = 3
"""Unknowns of a three-phase source at the head of a part that is cut off: its branch phases."""


class Joined:
    """Sets of things that are joined two by two."""

    def __init__(self) -> None:
        self.above: dict[object, object] = {}

    def top(self, thing: object) -> object:
        """What stands for the set of a thing."""
        path = []
        while self.above.get(thing, thing) != thing:
            path.append(thing)
            thing = self.above[thing]
        for step in path:
            self.above[step] = thing
        return thing

    def join(self, a: object, b: object) -> None:
        """Joins two sets."""
        top_a, top_b = self.top(a), self.top(b)
        if top_a != top_b:
            self.above[top_b] = top_a


class WrongNodes(Exception):
    """A bus has too few or too many nodes for its element."""


@dataclass(frozen=True)
class Link:
    """How an element joins nodes: its terminals' nodes in order (0 is ground), its branch phases and magnitudes."""

    ends: tuple[tuple[Node, ...], ...]
    pairs: tuple[tuple[tuple[Node, Node], ...], ...] = ()
    branches: int = 0
    magnitudes: int = 0

    @property
    def nodes(self) -> list[Node]:
        """The nodes that the element mentions, but for ground."""
        return [n for end in self.ends for n in end if n[1]]


def three(bus: str) -> tuple[str, list[int]]:
    """A bus of three phases: its name and nodes."""
    found = bus_of(bus)
    nodes = list(found.nodes) or [1, 2, 3]
    if len(nodes) == 4 and nodes[3] == 0:
        nodes = nodes[:3]
    if len(nodes) != 3:
        raise WrongNodes(f"{bus} has {len(nodes)} nodes for three phases")
    return found.name, nodes


def terminal(bus: str, phases: int, conn: str) -> tuple[tuple[Node, Node], ...]:
    """The two nodes of each phase of a winding, bank or load."""
    if phases == 3:
        name, nodes = three(bus)
        seconds = [0, 0, 0] if conn == "wye" else [nodes[1], nodes[2], nodes[0]]
        return tuple(((name, a), (name, b)) for a, b in zip(nodes, seconds))
    found = bus_of(bus)
    default = (1, 0) if conn == "wye" else (1, 2)
    if len(found.nodes) > 2 or (conn == "delta" and len(found.nodes) == 1):
        raise WrongNodes(f"{bus} has {len(found.nodes)} nodes for one phase in {conn}")
    first, second = (found.nodes + default[len(found.nodes) :])[:2]
    return (((found.name, first), (found.name, second)),)


def line_nodes(bus: str, phases: int) -> tuple[Node, ...]:
    """A node for each conductor of a line."""
    found = bus_of(bus)
    nodes = found.nodes or tuple(range(1, phases + 1))
    if len(nodes) != phases:
        raise WrongNodes(f"{bus} has {len(nodes)} nodes for {phases} conductors")
    return tuple((found.name, n) for n in nodes)


def link_of(item: Item, codes: dict[str, Item]) -> Link | None:
    """How an item joins nodes, or nothing where it doesn't."""
    phases = int(item.number("phases", 3))
    if item.kind in ("circuit", "vsource"):
        bus = item.text("bus1", "sourcebus")
        found = bus_of(bus)
        nodes = three(bus)[1] if phases == 3 else list(found.nodes or (1,))[:1]
        return Link((tuple((found.name, n) for n in nodes),), branches=phases)
    if item.kind == "line":
        code = codes.get(item.text("linecode"))
        if code is not None and "phases" not in item.pairs:
            phases = int(code.number("nphases", 3))
        return Link((line_nodes(item.text("bus1"), phases), line_nodes(item.text("bus2"), phases)), branches=phases)
    if item.kind == "transformer":
        conns = item.words("conns")
        sides = tuple(terminal(b, phases, c) for b, c in zip(item.words("buses"), conns))
        return Link(tuple(tuple(n for pair in side for n in pair) for side in sides), sides, branches=phases)
    if item.kind in ("capacitor", "load"):
        side = terminal(item.text("bus1"), phases, item.text("conn", "wye"))
        constant = phases if item.kind == "load" and item.text("model", "1") == "5" else 0
        return Link((tuple(n for pair in side for n in pair),), (side,), magnitudes=constant)
    return None


@dataclass
class Zone:
    """Buses that lines join, and what they count."""

    name: str
    buses: set[str] = field(default_factory=set)
    nodes: int = 0
    branches: int = 0


@dataclass
class Network:
    """The items of a script with their links, in order."""

    items: Sequence[Item]
    links: list[tuple[Item, Link]] = field(default_factory=list)
    wrong: list[tuple[Item, str]] = field(default_factory=list)

    def __post_init__(self) -> None:
        codes = {i.name.lower(): i for i in self.items if i.kind == "linecode"}
        for item in self.items:
            try:
                link = link_of(item, codes)
            except WrongNodes as error:
                self.wrong.append((item, str(error)))
                continue
            if link is not None:
                self.links.append((item, link))

    # ------------------------------------------------------------ feeding

    def fed(self) -> set[Node]:
        """The nodes that a source feeds, by lines phase by phase and by transformers whole."""
        at: dict[Node, list[Link]] = {}
        for item, link in self.links:
            if item.kind in ("line", "transformer"):
                for node in link.nodes:
                    at.setdefault(node, []).append(link)
        found = {n for item, link in self.links if item.kind in ("circuit", "vsource") for n in link.nodes}
        waiting = list(found)
        while waiting:
            node = waiting.pop()
            for link in at.get(node, []):
                if link.pairs:
                    reached = set(link.nodes)
                else:
                    reached = {n for pair in zip(*link.ends) if node in pair for n in pair if n[1]}
                waiting += reached - found
                found |= reached
        return found

    # ------------------------------------------------------------ counts

    def zones(self) -> list[Zone]:
        """The zones in order of first mention; a transformer counts where its second winding stands."""
        joined = Joined()
        for item, link in self.links:
            if item.kind == "line":
                joined.join(link.ends[0][0][0], link.ends[1][0][0])
        zones: dict[object, Zone] = {}
        seen: set[Node] = set()
        for item, link in self.links:
            for node in [n for end in link.ends for n in end]:
                zone = zones.setdefault(joined.top(node[0]), Zone(node[0]))
                zone.buses.add(node[0])
                if node[1] and node not in seen:
                    seen.add(node)
                    zone.nodes += 1
            zones[joined.top(link.ends[-1][0][0])].branches += link.branches
        return list(zones.values())

    def unknowns(self) -> int:
        """Complex unknowns: nodes and branch phases."""
        nodes = {n for _, link in self.links for n in link.nodes}
        return len(nodes) + sum(link.branches for _, link in self.links)

    def magnitudes(self) -> int:
        """Phases of loads of constant current."""
        return sum(link.magnitudes for _, link in self.links)

    def cuts(self, limit: int = UNKNOWNS) -> list[tuple[Item, str, int]]:
        """Where to cut a feeder that is too large: an element, the bus behind it, the unknowns from that bus on."""
        nodes: dict[str, set[Node]] = {}
        edges: dict[str, list[tuple[str, Item, int]]] = {}
        roots = []
        for item, link in self.links:
            for node in link.nodes:
                nodes.setdefault(node[0], set()).add(node)
            if item.kind in ("line", "transformer"):
                first, second = link.ends[0][0][0], link.ends[-1][0][0]
                edges.setdefault(first, []).append((second, item, link.branches))
                edges.setdefault(second, []).append((first, item, link.branches))
            elif item.kind in ("circuit", "vsource"):
                roots.append(link.ends[0][0][0])
        order: list[str] = []
        parent: dict[str, tuple[str, Item, int]] = {}
        seen = set(roots)
        waiting = list(dict.fromkeys(roots))
        while waiting:
            bus = waiting.pop()
            order.append(bus)
            for other, item, branches in edges.get(bus, []):
                if other not in seen:
                    seen.add(other)
                    parent[other] = (bus, item, branches)
                    waiting.append(other)
        behind: dict[str, int] = {}
        children: dict[str, list[str]] = {}
        cuts: list[tuple[Item, str, int]] = []
        for bus in reversed(order):
            parts = children.get(bus, [])
            total = len(nodes.get(bus, ())) + sum(behind[c] + parent[c][2] for c in parts)
            for child in sorted(parts, key=behind.__getitem__, reverse=True):
                if total + OVERHEAD <= limit:
                    break
                total -= behind[child] + parent[child][2]
                cuts.append((parent[child][1], child, behind[child]))
            behind[bus] = total
            if bus in parent:
                children.setdefault(parent[bus][0], []).append(bus)
        return cuts[::-1]

    # ------------------------------------------------------------ floating zones

    def floating(self) -> set[Node]:
        """The nodes whose voltage to ground no source, line or transformer settles: loads and charging are left out."""
        joined = Joined()
        for item, link in self.links:
            if item.kind == "line":
                for a, b in zip(*link.ends):
                    joined.join("ground" if a[1] == 0 else a, "ground" if b[1] == 0 else b)
        ground = joined.top("ground")
        settled: dict[object, dict[object, Fraction]] = {}
        rows: list[dict[object, Fraction]] = []
        for item, link in self.links:
            if item.kind in ("circuit", "vsource"):
                rows += [{joined.top(n): Fraction(1)} for n in link.nodes]
            elif item.kind == "transformer":
                for first, second in zip(*link.pairs):
                    row: dict[object, Fraction] = {}
                    for node, sign in ((first[0], 1), (first[1], -1), (second[0], -1), (second[1], 1)):
                        if node[1]:
                            top = joined.top(node)
                            row[top] = row.get(top, Fraction(0)) + sign
                    rows.append(row)
        for row in rows:
            eliminate(row, settled, ground)
        free = {k for k in settled if settled[k]}
        nodes = {n for _, link in self.links for n in link.nodes}
        tops = {n: joined.top(n) for n in nodes}
        return {n for n, top in tops.items() if top != ground and (top not in settled or top in free)}


def eliminate(row: dict[object, Fraction], settled: dict[object, dict[object, Fraction]], ground: object) -> None:
    """Adds an equation (a sum that is 0) to those solved for one unknown each."""
    full: dict[object, Fraction] = {}
    for key, factor in row.items():
        if key == ground:
            continue
        for other, part in settled.get(key, {key: Fraction(1)}).items():
            full[other] = full.get(other, Fraction(0)) + factor * part
    full = {k: v for k, v in full.items() if v}
    if not full:
        return
    pivot = next(reversed(full))
    scale = -1 / full.pop(pivot)
    solution = {k: v * scale for k, v in full.items()}
    for key, value in settled.items():
        if pivot in value:
            part = value.pop(pivot)
            for other, factor in solution.items():
                total = value.get(other, Fraction(0)) + part * factor
                if total:
                    value[other] = total
                else:
                    value.pop(other, None)
    settled[pivot] = solution


def count_lines(network: Network) -> list[str]:
    """The count of unknowns by zone, and where to cut what is too large."""
    lines = [
        f"zone {z.name}: {z.nodes} nodes, {z.branches} branch phases: {z.nodes + z.branches} unknowns"
        for z in network.zones()
    ]
    total, magnitudes = network.unknowns(), network.magnitudes()
    lines.append(f"all zones: {total} unknowns of at most {UNKNOWNS}, {magnitudes} magnitudes of at most {MAGNITUDES}")
    if total > UNKNOWNS:
        lines.append("too many unknowns for one circuit; with a source of its own behind each cut it goes in parts:")
        lines += [
            f"cut {item.kind}.{item.name} before bus {bus}: {count} unknowns behind it"
            for item, bus, count in network.cuts()
        ]
    if magnitudes > MAGNITUDES:
        lines.append("too many loads of constant current for one circuit")
    return lines
