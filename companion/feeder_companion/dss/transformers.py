"""Transformers and XfmrCodes."""

from __future__ import annotations

import math
from dataclasses import dataclass, field, replace

from .findings import Unreadable
from .given import Given
from .lines import frequency
from .profile import Item, array, matrix
from .reader import Element, Elements, Setting
from .values import Bus, Value, decimal

SILENT = """thermal n m flrise hsrise normhkva emerghkva normamps emergamps faultrate pctperm repair sub subname
    ppm_antifloat wdgcurrents seasons ratings xrconst""".split()
MAGNETIC = "rdcohms core".split()
OF_WINDING = ("bus", "conn", "kv", "kva", "tap", "%r", "maxtap", "mintap", "numtaps", "rneut", "xneut")
OF_ALL = {"buses": "bus", "conns": "conn", "kvs": "kv", "kvas": "kva", "taps": "tap", "%rs": "%r"}
REACTANCES = {"xhl": "xhl", "x12": "xhl", "xht": "xht", "x13": "xht", "xlt": "xlt", "x23": "xlt"}


@dataclass
class Winding:
    """A winding as OpenDSS keeps it: kV, kVA, per cent and per unit."""

    bus: Bus | None = None
    conn: str = "wye"
    kv: float = 12.47
    kva: float = 1000.0
    resistance: float = 0.2
    tap: float = 1.0
    mintap: float = 0.9
    maxtap: float = 1.1
    numtaps: int = 32
    rneut: float = -1.0
    xneut: float = 0.0

    def nominal(self, phases: int) -> float:
        """Kilovolts across one phase of the winding."""
        return self.kv / math.sqrt(3) if phases > 1 and self.conn == "wye" else self.kv


@dataclass
class Transformer:
    """A transformer while its settings are taken in order."""

    phases: int = 3
    windings: list[Winding] = field(default_factory=lambda: [Winding(), Winding()])
    active: int = 0
    reactances: dict[str, float] = field(default_factory=lambda: {"xhl": 7.0, "xht": 35.0, "xlt": 30.0})
    no_load: float = 0.0
    magnetizing: float = 0.0
    taps_set: bool = False
    bank: str = ""

    def resize(self, count: int) -> None:
        """Gives it this many windings; OpenDSS's resistance of each is 0.2 per cent."""
        while len(self.windings) < count:
            self.windings.append(replace(Winding(), kva=self.windings[0].kva))
        del self.windings[count:]


@dataclass
class Transformers:
    """Translates Transformers; XfmrCodes are read where a transformer names them."""

    hertz: float
    elements: Elements
    controlled: frozenset[str] = frozenset()
    tap_numbers: dict[tuple[str, int], int] = field(default_factory=dict)

    def transformer(self, given: Given) -> list[Item]:
        """The items of a transformer: itself, its magnetizing branch, or an equivalent of three windings."""
        unit = Transformer()
        self.take_all(unit, given.element, given, ())
        frequency(given, self.hertz)
        bank = given.value("bank", lambda value: value.text.strip())
        if bank is not None:
            unit.bank = given.clean("bank", bank, given.where("bank"))
        given.drop(SILENT, "has no part in the flow")
        given.drop(MAGNETIC, "counts in direct current and GIC alone")
        self.check_lead(unit, given)
        given.rest()
        if any(w.bus is None for w in unit.windings):
            raise Unreadable(given.place, "a winding has no bus")
        self.check_neutrals(unit, given)
        self.set_tap_numbers(unit, given)
        if len(unit.windings) == 3 and unit.phases == 1:
            return self.centre_tapped(unit, given)
        if len(unit.windings) != 2:
            given.refuse("windings", f"{len(unit.windings)} windings on {unit.phases} phases")
            return []
        if unit.phases == 2:
            return self.two_phases(unit, given)
        if unit.phases not in (1, 3):
            given.refuse("phases", f"phases={unit.phases}")
            return []
        items = [self.item(unit, given, given.name, given.comments)]
        return items + self.magnetizing(unit, given)

    def set_tap_numbers(self, unit: Transformer, given: Given) -> None:
        """Taps that RegControls set by their number."""
        for index, winding in enumerate(unit.windings, 1):
            number = self.tap_numbers.get((given.element.name.lower(), index))
            if number is not None:
                step = (winding.maxtap - winding.mintap) / winding.numtaps
                winding.tap = 1 + number * step
                unit.taps_set = True
                given.note(given.place, f"tapnum={number} of its RegControl is the tap {decimal(winding.tap)}")

    # ------------------------------------------------------------ reading

    def take_all(self, unit: Transformer, element: Element, given: Given, codes: tuple[str, ...]) -> None:
        """Takes the settings of a transformer or of its code."""
        for setting in element.settings:
            given.read.add(setting.name)
            if setting.name == "xfmrcode":
                self.take_code(unit, setting, given, codes)
            elif not self.take(unit, setting, given):
                given.read.discard(setting.name)
                if codes and setting.name not in SILENT and setting.name not in MAGNETIC:
                    given.refuse(setting.name, f"{setting.name} of an XfmrCode has no translation")

    def take_code(self, unit: Transformer, setting: Setting, given: Given, codes: tuple[str, ...]) -> None:
        """All of a code's data; buses stay."""
        name = setting.value.text.strip()
        code = self.elements.get(("xfmrcode", name.lower()))
        if code is None or name.lower() in codes:
            raise Unreadable(setting.place, f"there is no xfmrcode {name}")
        given.note(setting.place, f"xfmrcode={name}: its data are written out")
        self.take_all(unit, code, given, (*codes, name.lower()))

    def take(self, unit: Transformer, setting: Setting, given: Given) -> bool:
        """One setting; says whether it was one of a transformer's data."""
        name = setting.name
        if name == "phases":
            unit.phases = given.of(setting, Value.whole)
        elif name == "windings":
            count = given.of(setting, Value.whole)
            if not 1 <= count <= 9:
                raise Unreadable(setting.place, f"windings={count}")
            unit.resize(count)
        elif name == "wdg":
            unit.active = given.of(setting, Value.whole) - 1
            if not 0 <= unit.active < len(unit.windings):
                raise Unreadable(setting.place, f"there is no winding {unit.active + 1}")
        elif name in OF_WINDING:
            self.take_winding(unit, unit.active, name, setting, setting.value, given)
        elif name in OF_ALL:
            self.take_array(unit, setting, given)
        elif name in REACTANCES:
            unit.reactances[REACTANCES[name]] = given.number_of(setting)
        elif name == "xscarray":
            for key, number in zip(("xhl", "xht", "xlt"), given.of(setting, Value.numbers)):
                unit.reactances[key] = number
        elif name == "%loadloss":
            for winding in unit.windings[:2]:
                winding.resistance = given.number_of(setting) / 2
        elif name == "%noloadloss":
            unit.no_load = given.number_of(setting)
        elif name == "%imag":
            unit.magnetizing = given.number_of(setting)
        else:
            return False
        return True

    def take_winding(
        self, unit: Transformer, index: int, name: str, setting: Setting, value: Value, given: Given
    ) -> None:
        """A setting of one winding."""
        winding = unit.windings[index]
        if name == "bus":
            winding.bus = given.bus_in(setting, value.text)
            return
        if name == "conn":
            winding.conn = given.of(replace(setting, value=value), Value.connection)
            return
        number = given.number_of(replace(setting, value=value))
        if name == "kva":
            winding.kva = number
            if index == 0:
                for other in unit.windings[1:]:
                    other.kva = number
        elif name == "numtaps":
            winding.numtaps = int(number)
        else:
            field_name = {"%r": "resistance"}.get(name, name)
            setattr(winding, field_name, number)
            unit.taps_set = unit.taps_set or name == "tap"

    def take_array(self, unit: Transformer, setting: Setting, given: Given) -> None:
        """A setting with a value for each winding."""
        words = setting.value.words()
        if len(words) > len(unit.windings):
            raise Unreadable(setting.place, f"{setting.name} has {len(words)} values for {len(unit.windings)} windings")
        name = OF_ALL[setting.name]
        for index, word in enumerate(words):
            self.take_winding(unit, index, name, setting, Value(word, " " in word), given)

    # ------------------------------------------------------------ tests

    def check_lead(self, unit: Transformer, given: Given) -> None:
        """The lower side of delta and wye must lag."""
        lead = given.word("leadlag", "lag")
        mixed = unit.phases == 3 and len({w.conn for w in unit.windings}) > 1
        if mixed and not lead.startswith(("la", "a")):
            given.refuse("leadlag", f"leadlag={lead}: the lower side lags in the profile")
        elif given.has("leadlag"):
            given.findings.dropped(given.where("leadlag"), "leadlag is as the profile has it")

    def check_neutrals(self, unit: Transformer, given: Given) -> None:
        """A wye winding's neutral must be at ground."""
        neutrals: tuple[str, ...] = ("rneut", "xneut")
        for winding in unit.windings:
            bus = winding.bus
            if bus is None or winding.conn != "wye":
                continue
            spare = bus.nodes[unit.phases :]
            if unit.phases == 1:
                continue
            if any(spare[:1]):
                given.refuse_element("transformer.neutral", f"{bus}: a neutral that isn't at ground")
            elif winding.rneut > 0 or winding.xneut != 0:
                given.refuse_element("transformer.rneut", "an impedance between neutral and ground")
                neutrals = ()
        for name in neutrals:
            if given.has(name):
                given.findings.dropped(given.where(name), f"{name} has no part where the neutral is at ground")

    # ------------------------------------------------------------ writing

    def item(self, unit: Transformer, given: Given, name: str, comments: list[str]) -> Item:
        """A transformer of two windings."""
        first, second = unit.windings
        if first.kva != second.kva:
            given.note(given.where("kvas", "kva"), f"both kva are {decimal(first.kva)}: OpenDSS's impedances are on it")
        pairs = {
            "phases": str(unit.phases),
            "windings": "2",
            "buses": array([str(w.bus) for w in unit.windings]),
            "conns": array([w.conn for w in unit.windings]),
            "kvs": array([w.kv for w in unit.windings]),
            "kvas": array([first.kva, first.kva]),
            "xhl": decimal(unit.reactances["xhl"]),
            "%rs": array([w.resistance for w in unit.windings]),
        }
        if any(w.tap != 1 for w in unit.windings) or unit.taps_set:
            pairs["taps"] = array([w.tap for w in unit.windings])
        for index, winding in enumerate(unit.windings, 1):
            limits = (winding.mintap, winding.maxtap, winding.numtaps)
            if limits != (0.9, 1.1, 32):
                pairs[f"wdg {index}"] = f"mintap={decimal(limits[0])} maxtap={decimal(limits[1])} numtaps={limits[2]}"
        if unit.bank:
            pairs["bank"] = unit.bank
        return Item("transformer", name, pairs, given.place, comments)

    def magnetizing(self, unit: Transformer, given: Given) -> list[Item]:
        """No-load losses and magnetizing current, as OpenDSS puts them at the last winding."""
        if not unit.no_load and not unit.magnetizing:
            return []
        last = unit.windings[-1]
        text = "no-load losses and magnetizing current are a Load of model 2 at the last winding"
        given.note(given.where("%noloadloss", "%imag", "xfmrcode"), text)
        if given.element.name.lower() in self.controlled:
            given.findings.not_carried(
                given.where("%noloadloss", "%imag"), "the load at the last winding doesn't move with its tap"
            )
        name = given.names.fresh("load", f"noload_{given.name}")
        kva = unit.windings[0].kva
        pairs = {
            "bus1": str(last.bus),
            "phases": str(unit.phases),
            "conn": last.conn,
            "model": "2",
            "kv": decimal(last.kv * last.tap),
            "kw": decimal(kva * unit.no_load / 100),
            "kvar": decimal(kva * unit.magnetizing / 100),
        }
        comment = f"no-load losses and magnetizing current of Transformer.{given.name}"
        return [Item("load", name, pairs, given.place, [comment])]

    def two_phases(self, unit: Transformer, given: Given) -> list[Item]:
        """Two one-phase transformers in place of one of two phases in wye."""
        if any(w.conn != "wye" for w in unit.windings):
            given.refuse("phases", "two phases in delta")
            return []
        if given.element.name.lower() in self.controlled:
            given.refuse("phases", "two phases under one RegControl")
            return []
        given.note(given.where("phases"), "two phases as two transformers, kv over root three and half the kva each")
        items: list[Item] = []
        for phase in (0, 1):
            windings = []
            for winding in unit.windings:
                bus = winding.bus or Bus("")
                node = (bus.nodes or (1, 2))[phase]
                kv = winding.kv / math.sqrt(3)
                windings.append(replace(winding, bus=bus.at(node), kv=kv, kva=winding.kva / 2))
            part = replace(unit, phases=1, windings=windings)
            name = given.names.fresh("transformer", f"{given.name}_{phase + 1}")
            items.append(self.item(part, given, name, [f"phase {phase + 1} of Transformer.{given.name}"]))
            items += self.magnetizing(part, given)
        return items

    # ------------------------------------------------------------ three windings

    def centre_tapped(self, unit: Transformer, given: Given) -> list[Item]:
        """A service transformer with a centre tap: its star of leakage impedances, each branch where it belongs."""
        first, second, third = unit.windings
        if given.element.name.lower() in self.controlled:
            given.refuse("windings", "three windings under a RegControl")
            return []
        high, low, last = (unit.reactances[k] for k in ("xhl", "xht", "xlt"))
        x1, x2, x3 = (high + low - last) / 2, (high + last - low) / 2, (low + last - high) / 2
        if min(x2, x3) < 0:
            given.refuse("xlt", "the star of the three windings has a reactance below 0 at a secondary")
            return []
        given.note(given.place, "three windings as a line with the primary's impedance and two transformers")
        nominal = first.nominal(1)
        ohms = nominal * nominal * 1000 / first.kva * first.tap**2
        bus = first.bus or Bus("")
        inner = given.names.fresh("bus", f"{given.name}_star")
        nodes = bus.nodes or (1,)
        delta = len(nodes) > 1 and nodes[1] != 0 or first.conn == "delta"
        between = (nodes if len(nodes) > 1 else (1, 2)) if delta else nodes[:1]
        leads = array_of_leads(first.resistance / 100 * ohms, x1 / 100 * ohms, len(between))
        line = Item(
            "line",
            given.names.fresh("line", f"{given.name}_star"),
            {"bus1": str(bus.at(*between)), "bus2": str(Bus(inner, between)), "phases": str(len(between))} | leads,
            given.place,
            [f"primary impedance of Transformer.{given.name}, whose three windings make a star"],
        )
        items = [line]
        for index, (winding, reactance) in enumerate(((second, x2), (third, x3)), 2):
            primary = replace(first, bus=Bus(inner, between), resistance=0.0)
            secondary = replace(winding, kva=first.kva)
            part = Transformer(1, [primary, secondary], reactances={"xhl": reactance}, taps_set=unit.taps_set)
            name = given.names.fresh("transformer", f"{given.name}_{index}")
            items.append(self.item(part, given, name, [f"winding {index} of Transformer.{given.name}"]))
        return items + self.magnetizing(unit, given)


def array_of_leads(resistance: float, reactance: float, leads: int) -> dict[str, str]:
    """The matrices of a line whose leads together have this impedance in ohms."""
    rows = [[(1.0 if i == j == 0 else 0.0) for j in range(leads)] for i in range(leads)]
    return {
        "rmatrix": matrix([[v * resistance for v in row] for row in rows]),
        "xmatrix": matrix([[v * reactance for v in row] for row in rows]),
    }
