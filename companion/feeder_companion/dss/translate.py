"""The elements of one Solve of a source as elements of the profile."""

from __future__ import annotations

from collections.abc import Callable
from dataclasses import dataclass, field, replace
from pathlib import Path

from .anchors import anchored, warn_floating
from .controls import cap_control, reg_control
from .findings import BadValue, Findings, Place, Unreadable
from .geometry import Geometries
from .given import Given, Names
from .lines import Conductors
from .loads import Limits, Loads
from .network import Network
from .options import Options
from .plants import Curves, generator, pv_system
from .profile import Item, check_ranges
from .reader import Element, Elements, Solve, element_words
from .shapes import Shapes
from .shunts import Shunts
from .sources import source
from .tables import ACTING_CLASSES, DROPPED_CLASSES, PROPERTIES, PROTECTION
from .transformers import Transformers

DATA = ("wiredata", "cndata", "tsdata", "linespacing", "linegeometry", "xfmrcode", "xycurve")
NAMES = {
    "regcontrol": {"transformer": "transformer"},
    "capcontrol": {"capacitor": "capacitor", "element": "line"},
    "line": {"linecode": "linecode"},
    "load": {"daily": "loadshape"},
}
"""The properties by which an element names others, and the class that each means."""
JOINING = frozenset(("vsource", "linecode", "line", "transformer", "reactor", "autotrans", "gictransformer", "gicline"))
"""Classes without which the rest may not be connected: where one is refused, nothing is said of connections."""


@dataclass(frozen=True)
class Asked:
    """What the user asks for besides: anchors of floating zones, and limits of loads."""

    anchor: bool = False
    limits: Limits = Limits()


@dataclass
class Circuit:
    """One Solve of a source while its elements are translated."""

    solve: Solve
    findings: Findings
    names: Names
    options: Options
    asked: Asked
    folder: Path
    elements: Elements = field(default_factory=dict)
    translators: dict[str, Callable[[Given], list[Item]]] = field(default_factory=dict)
    geometries: Geometries = field(init=False)
    curves: Curves = field(init=False)
    broken: bool = False

    def __post_init__(self) -> None:
        self.elements = self.switched()
        hertz, options = self.options.hertz, self.options
        elements = self.elements
        self.geometries, self.curves = Geometries(elements, self.given), Curves(elements)
        conductors = Conductors(hertz, self.geometries)
        controlled = {k: frozenset(self.references(*k)) for k in REFERRED}
        transformers = Transformers(hertz, elements, controlled[REFERRED[0]], self.tap_numbers())
        shunts = Shunts(hertz, controlled[REFERRED[1]])
        shapes = Shapes(self.folder, bool(options.shape))
        loads = Loads(self.asked.limits, options.factor, options.shape, shapes.known)
        sources = [e for e in elements.values() if e.kind == "vsource" and e.enabled]
        self.translators = {
            "vsource": lambda g: source(
                g, hertz, self.solve.circuit if g.element.name == "source" else "", len(sources) == 1
            ),
            "linecode": conductors.linecode,
            "line": conductors.line,
            "transformer": transformers.transformer,
            "load": loads.load,
            "capacitor": shunts.capacitor,
            "reactor": shunts.reactor,
            "loadshape": shapes.loadshape,
            "generator": lambda g: generator(g, loads, options.generation),
            "pvsystem": lambda g: pv_system(g, loads, self.curves),
            "regcontrol": lambda g: reg_control(g, hertz, elements),
            "capcontrol": lambda g: cap_control(g, hertz, elements),
        }

    def given(self, element: Element) -> Given:
        """An element's settings."""
        return Given(element, self.findings, self.names)

    # ------------------------------------------------------------ before

    def switched(self) -> Elements:
        """The elements, with what SwtControls open."""
        elements = dict(self.solve.elements)
        for element in self.solve.elements.values():
            if element.kind != "swtcontrol" or not element.enabled:
                continue
            given = self.given(element)
            kind, name = element_words(given.word("switchedobj", ""))
            states = [s.value.text.strip().lower() for s in element.settings if s.name in ("action", "state", "normal")]
            target = elements.get((kind, name))
            if states and states[-1].startswith("o") and target is not None:
                terminal = given.whole("switchedterm", 1)
                elements[target.key] = replace(target, opened=(element.place, terminal, 0))
                self.findings.translated(element.place, f"{kind}.{name} is open")
            else:
                self.drop(element, "the switch is closed")
        return elements

    def references(self, control: str, name: str) -> set[str]:
        """What the enabled controls of a class name in one of their settings, in lower case."""
        found: set[str] = set()
        for element in self.elements.values():
            if element.kind == control and element.enabled and control not in self.findings.without:
                found |= {s.value.text.strip().lower() for s in element.settings if s.name == name}
        return found

    def tap_numbers(self) -> dict[tuple[str, int], int]:
        """The tap numbers that RegControls set, by transformer and winding."""
        found: dict[tuple[str, int], int] = {}
        for element in self.elements.values():
            if element.kind == "regcontrol" and element.enabled and any(s.name == "tapnum" for s in element.settings):
                given = self.given(element)
                key = (given.word("transformer", ""), given.whole("tapwinding", given.whole("winding", 1)))
                found[key] = given.whole("tapnum", 0)
        return found

    def drop(self, element: Element, why: str) -> None:
        """An element without effect on the flow."""
        for place in element.places:
            self.findings.dropped(place, f"{element.kind}.{element.name}: {why}")

    # ------------------------------------------------------------ elements

    def items(self) -> list[Item]:
        """The items of all elements, but for what no source feeds, and with anchors where they are asked for."""
        items: list[Item] = []
        for element in self.elements.values():
            items += self.element(element)
        self.data_used()
        items.sort(key=lambda item: item.kind != "circuit")
        if not self.broken:
            items = self.connected(items)
            if self.asked.anchor:
                items += anchored(items, self.names, self.findings)
            else:
                warn_floating(items, self.findings)
        self.drop_shapes(items)
        items = in_order(items)
        refused = {f.place for f in self.findings.refusals}
        for item in items:
            if item.place not in refused:
                check_ranges(item, self.findings)
        self.warn_limits(items)
        return items

    def warn_limits(self, items: list[Item]) -> None:
        """Says which loads keep OpenDSS's lower limit."""
        said: set[Place] = set()
        for item in items:
            if item.kind == "load" and "vminpu" not in item.pairs and item.text("model", "1") != "2":
                if item.place not in said:
                    said.add(item.place)
                    text = f"load.{item.name} has no vminpu: OpenDSS's 0.95 stands where feeders are run"
                    self.findings.warn(item.place, text)

    def element(self, element: Element) -> list[Item]:
        """The items of one element."""
        kind = element.kind
        if kind in DROPPED_CLASSES:
            self.drop(element, DROPPED_CLASSES[kind])
        elif not element.enabled:
            self.drop(element, "it isn't enabled")
        elif kind in PROTECTION:
            text = f"{kind}.{element.name}: OpenDSS opens its line where the current is above its setting"
            self.findings.not_carried(element.place, text)
        elif kind in self.findings.without:
            text = f"{kind}.{element.name}: what it does to the flow is lost"
            self.findings.refuse(element.place, kind, text)
        elif element.opened is not None:
            return self.opened(element)
        elif kind in self.translators:
            before = self.findings.refused
            items = self.translated(element)
            self.broken |= kind in JOINING and self.findings.refused > before
            return items
        elif kind not in PROPERTIES:
            self.broken |= kind not in ACTING_CLASSES or kind in JOINING
            self.findings.refuse(element.place, kind, f"{kind}.{element.name}: the class isn't in the profile")
        return []

    def translated(self, element: Element) -> list[Item]:
        """The items of an element of a class that the profile has."""
        try:
            return self.translators[element.kind](self.given(element))
        except BadValue as error:
            raise Unreadable(element.place, str(error)) from None

    def opened(self, element: Element) -> list[Item]:
        """An element with an open terminal carries nothing."""
        place, terminal, conductor = element.opened or (element.place, 1, 0)
        if conductor:
            text = f"conductor {conductor} of {element.kind}.{element.name} is open"
            self.findings.refuse(place, "open", text)
            return self.translated(element)
        text = f"{element.kind}.{element.name} is open at terminal {terminal}: left out"
        if element.kind == "line":
            text += ", with the charging of its other end"
        self.findings.translated(place, text)
        for line in element.places:
            self.findings.translated(line, text)
        return []

    def data_used(self) -> None:
        """Says of data whether anything uses them."""
        used = self.geometries.used | self.curves.used
        codes = self.references("transformer", "xfmrcode")
        for element in self.elements.values():
            if element.kind not in DATA or not element.enabled:
                continue
            if element.key in used or (element.kind == "xfmrcode" and element.name.lower() in codes):
                for place in element.places:
                    self.findings.translated(place, f"{element.kind}.{element.name}: worked into what names it")
            else:
                self.drop(element, "nothing names it")

    # ------------------------------------------------------------ connections

    def connected(self, items: list[Item]) -> list[Item]:
        """The items without those that no source feeds and the controls of what isn't there."""
        network = Network(items)
        for item, text in network.wrong:
            self.findings.refuse(item.place, f"{item.kind}.bus", text)
        fed = network.fed()
        gone: set[int] = set()
        for item, link in network.links:
            loose = [n for n in link.nodes if n not in fed]
            if not loose:
                continue
            if len(loose) == len(link.nodes):
                gone.add(id(item))
                self.findings.dropped(item.place, f"{item.kind}.{item.name}: no source feeds it")
            else:
                node = f"{loose[0][0]}.{loose[0][1]}"
                self.findings.refuse(item.place, f"{item.kind}.node", f"no source feeds node {node}")
        kept = [i for i in items if id(i) not in gone]
        keys = {i.key for i in kept}
        return [i for i in kept if self.has_references(i, keys)]

    def drop_shapes(self, items: list[Item]) -> None:
        """Takes shapes that aren't in the script out of the loads that name them: a snapshot doesn't use them."""
        shapes = {i.name.lower() for i in items if i.kind == "loadshape"}
        for item in items:
            if item.kind == "load" and "daily" in item.pairs and item.text("daily") not in shapes:
                text = f"daily={item.pairs.pop('daily')}"
                if self.options.shape:
                    self.findings.refuse(item.place, "load.daily", f"{text}: the source doesn't define the shape")
                else:
                    self.findings.dropped(item.place, f"{text} isn't in the script, and a snapshot doesn't use it")

    def has_references(self, item: Item, keys: set[tuple[str, str]]) -> bool:
        """Whether what a control names is still there."""
        missing = named_by(item) - keys if item.kind in ("regcontrol", "capcontrol") else set()
        for kind, _ in sorted(missing)[:1]:
            self.findings.dropped(item.place, f"{item.kind}.{item.name}: its {kind} isn't in the script")
        return not missing


def named_by(item: Item) -> set[tuple[str, str]]:
    """The elements that an item names, which must stand before it."""
    found: set[tuple[str, str]] = set()
    for name, kind in NAMES.get(item.kind, {}).items():
        if name in item.pairs:
            target = item.text(name)
            found.add((kind, target.rpartition(".")[2] if name == "element" else target))
    return found


def in_order(items: list[Item]) -> list[Item]:
    """The items in their order, but each behind what it names."""
    there = {i.key for i in items}
    done: set[tuple[str, str]] = set()
    made: list[Item] = []
    waiting: list[Item] = []
    for item in items:
        waiting.append(item)
        ready = [i for i in waiting if not (named_by(i) & there) - done]
        while ready:
            made += ready
            done |= {i.key for i in ready}
            waiting = [i for i in waiting if i.key not in done]
            ready = [i for i in waiting if not (named_by(i) & there) - done]
    return made + waiting


REFERRED = (("regcontrol", "transformer"), ("capcontrol", "capacitor"))
