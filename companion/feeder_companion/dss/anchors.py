"""Zones that float, and the grounding banks that hold them."""

from __future__ import annotations

from dataclasses import dataclass

from .findings import Findings, Place
from .given import Names
from .network import Network, Node, Zone
from .profile import Item


@dataclass(frozen=True)
class Floating:
    """A zone without a path to ground: its nodes, its kV between phases, and where the winding that feeds it stands."""

    zone: Zone
    nodes: frozenset[Node]
    kv: str
    place: Place


def floating_zones(network: Network) -> list[Floating]:
    """The zones that float, in order."""
    loose = network.floating()
    found = []
    for zone in network.zones():
        nodes = frozenset(n for n in loose if n[0] in zone.buses)
        if nodes:
            kv, place = winding_at(network, zone)
            found.append(Floating(zone, nodes, kv, place))
    return found


def winding_at(network: Network, zone: Zone) -> tuple[str, Place]:
    """The kV of a winding in a zone, the last one of it first, and its transformer's place."""
    found = ("", Place("", 0))
    for item, link in network.links:
        if item.kind != "transformer":
            continue
        for side, kv in zip(link.ends, item.words("kvs")):
            if side[0][0] in zone.buses and (not found[0] or side is link.ends[-1]):
                found = (kv, item.place)
                if side is link.ends[-1]:
                    return found
    return found


def draws(network: Network, zone: Zone) -> bool:
    """Whether anything but one winding stands in a zone."""
    windings = 0
    for item, link in network.links:
        inside = [end for end in link.ends if end[0][0] in zone.buses]
        if item.kind in ("load", "capacitor") and inside:
            return True
        if item.kind == "transformer":
            windings += len(inside)
    return windings > 1


def has_wye(network: Network, zone: Zone) -> bool:
    """Whether a load or bank in a zone stands between a phase and ground."""
    return any(
        item.kind in ("load", "capacitor") and any(n[0] in zone.buses and n[1] == 0 for n in link.ends[0])
        for item, link in network.links
    )


def three_phase_bus(found: Floating, network: Network) -> str:
    """The bus of a zone, in order of mention, whose nodes 1, 2 and 3 all float."""
    order: dict[str, None] = {}
    for _, link in network.links:
        order |= {n[0]: None for n in link.nodes}
    return next((b for b in order if all((b, k) in found.nodes for k in (1, 2, 3))), "")


def anchor(found: Floating, network: Network, names: Names, findings: Findings) -> Item:
    """The item that holds a floating zone: a grounding bank, or one corner where nothing is drawn."""
    bus = three_phase_bus(found, network)
    if bus and draws(network, found.zone) and found.kv:
        pairs = {
            "phases": "3",
            "windings": "2",
            "buses": f"({bus} {names.fresh('bus', f'gnd_{bus}')}.1.2.0)",
            "conns": "(wye delta)",
            "kvs": f"({found.kv} 0.48)",
            "kvas": "(1000 1000)",
            "xhl": "0",
            "%rs": "(0 0)",
        }
        text = f"zone of bus {bus} floats: a grounding bank holds it and changes no voltage between its phases"
        findings.translated(found.place, f"--anchor: {text}")
        if has_wye(network, found.zone):
            findings.warn(
                found.place, f"loads in wye at the floating zone of bus {bus}: their unbalance flows in the bank"
            )
        return Item("transformer", names.fresh("transformer", f"gnd_{bus}"), pairs, found.place, [text])
    node = min(found.nodes)
    text = f"zone of bus {node[0]} floats: one corner of it is grounded"
    findings.translated(found.place, f"--anchor: {text}")
    pairs = {"bus1": f"{node[0]}.{node[1]}", "bus2": f"{node[0]}.0", "phases": "1", "r1": "0", "x1": "0"}
    pairs |= {"r0": "0", "x0": "0"}
    return Item("line", names.fresh("line", f"corner_{node[0]}"), pairs, found.place, [text])


def anchored(items: list[Item], names: Names, findings: Findings) -> list[Item]:
    """The items that hold every floating zone of a script, upstream first."""
    made: list[Item] = []
    while True:
        network = Network([*items, *made])
        zones = floating_zones(network)
        if not zones or len(made) > 200:
            return made
        made.append(anchor(zones[0], network, names, findings))


def warn_floating(items: list[Item], findings: Findings) -> None:
    """Says which zones float where nobody asked for anchors."""
    for found in floating_zones(Network(items)):
        text = (
            f"the zone of bus {found.zone.name} has no path to ground: the program may refuse it; --anchor gives it one"
        )
        findings.warn(found.place, text)
