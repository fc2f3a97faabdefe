"""Networks, per unit, powers, losses and loadings."""

import unittest
from fractions import Fraction

from support import EXAMPLES, FIRST, LOADED, Folder

from feeder_companion.intervals import Interval, sum_of
from feeder_companion.network import Base, BaseFrom, bases_of, delta_buses, distances
from feeder_companion.powers import State, Within
from feeder_companion.reports import parse_report, read_report
from feeder_companion.script import OtherScript, UnreadableScript, read_circuits, read_moments

DELTA = """Clear
New Circuit.h basekv=69
New Transformer.sub windings=2 buses=(sourcebus d) conns=(wye delta) kvs=(69 4.8) kvas=(2500 2500)
New Line.a bus1=d bus2=e r1=0.2 x1=0.3 length=2 units=km normamps=150
New Transformer.low windings=2 buses=(e f) conns=(delta wye) kvs=(4.8 0.48) kvas=(500 500)
New Transformer.one phases=1 buses=(e.1.2 g.1) conns=(delta wye) kvs=(4.8 0.24) kvas=(50 50)
New Load.f bus1=f kv=0.48 kw=100 kvar=20
Solve
"""


def moment_of(name):
    report = read_report(EXAMPLES / f"{name}.out")
    moments = read_moments(EXAMPLES / f"{name}.dss", report)
    return next(it for it in reversed(moments) if it.is_last), report


class Networks(Folder):
    def test_distances_go_along_lines_in_kilometres(self):
        moment, _ = moment_of("ieee13")
        found = distances(moment.circuit)
        feet = Fraction(3048, 10**7)
        self.assertEqual(found["671"], (2000 + 667 + 1333) * feet)
        self.assertEqual((found["sourcebus"], found["634"]), (0, 2500 * feet))

    def test_a_line_without_a_unit_has_its_code_s(self):
        text = LOADED.replace("New Line", "New Linecode.c nphases=1 units=mi r1=1\nNew Line").replace(
            "units=km", "linecode=c"
        )
        circuit = read_circuits(self.write("a.dss", text))[0]
        self.assertEqual(distances(circuit)["b"], 2 * Fraction(16093440, 10**7))

    def test_bases_are_the_records_or_the_given_or_the_nominal_ones(self):
        moment, report = moment_of("ieee13")
        self.assertEqual(bases_of(report, moment.circuit).source, BaseFrom.RECORD)
        self.assertEqual(bases_of(report, moment.circuit).of["634"], Base.between_phases(Fraction("0.48")))
        given = bases_of(report, moment.circuit, [Fraction(115), Fraction("4.2"), Fraction("0.5")])
        self.assertEqual(given.of["rg60"], Base.between_phases(Fraction("4.2")))
        report.bases.clear()
        nominal = bases_of(report, moment.circuit)
        self.assertEqual((nominal.source, nominal.of["rg60"]), (BaseFrom.SCRIPT, Base.to_ground(Fraction("2.4"))))
        self.assertIsNone(bases_of(report))

    def test_per_unit_is_rounded_outward(self):
        unit = Base.between_phases(Fraction("4.16")).per_unit(Interval(2401777119, 2401777120))
        self.assertEqual((unit.low_text(9), unit.high_text(9)), ("0.999999999", "1.000000001"))
        self.assertEqual(
            Base.to_ground(Fraction("2.4")).per_unit(Interval(2400 * 10**6, 2400 * 10**6)), Interval(1, 1)
        )
        self.assertEqual(Base.between_phases(1).per_unit(Interval(10**9, 10**9), True), Interval(1, 1))

    def test_zones_behind_a_winding_in_delta_are_told(self):
        circuit = read_circuits(self.write("d.dss", DELTA))[0]
        self.assertEqual(delta_buses(circuit), {"d", "e"})
        self.assertEqual(delta_buses(moment_of("ieee13")[0].circuit), set())

    def test_a_report_of_another_script_is_told(self):
        with self.assertRaises(OtherScript) as caught:
            read_moments(EXAMPLES / "lines.dss", read_report(EXAMPLES / "first.out"))
        self.assertIn("has b.1 where the script has sourcebus.2", str(caught.exception))
        with self.assertRaises(OtherScript):
            read_moments(EXAMPLES / "day.dss", read_report(EXAMPLES / "first.out"))

    def test_a_script_that_cannot_be_read_names_file_and_line(self):
        for text, line, cause in (
            ("Clear\nNew Line.l\n", 2, "no circuit"),
            ("Clear\nNew Circuit.h\nNew Fuse.f\n", 3, "unknown class"),
            ("Clear\nRedirect away.dss\n", 2, "absent file"),
            ("Clear\nNew Circuit.h\nNew Line.l units=furlong\n", 3, "bad value"),
        ):
            path = self.write("bad.dss", text)
            with self.assertRaises(UnreadableScript, msg=text) as caught:
                read_circuits(path)
            self.assertEqual((caught.exception.line, caught.exception.cause), (line, cause), text)
        with self.assertRaises(UnreadableScript):
            read_circuits(self.folder / "absent.dss")

    def test_taps_follow_the_acts_from_round_to_round(self):
        report = read_report(EXAMPLES / "thirteen-regulated.out")
        moments = read_moments(EXAMPLES / "thirteen-regulated.dss", report)
        self.assertEqual([it.taps["transformer.reg1"][1] for it in moments], [100000, 106250])
        day, _ = moment_of("day")
        self.assertEqual(day.closed, frozenset())


class Powers(Folder):
    def kilowatts(self, power):
        return round(float(power.kilo.p.middle), 6), round(float(power.kilo.q.middle), 6)

    def test_the_first_example_by_hand(self):
        state = State(moment_of("first")[0])
        flows = {(it.element, it.terminal): self.kilowatts(it.power) for it in state.flows()}
        self.assertEqual(flows["vsource.source", 1], (-47.5, 0))
        self.assertEqual(flows["line.l", 1], (47.5, 0))
        self.assertEqual(flows["line.l", 2], (-25, 0))
        self.assertAlmostEqual(flows["load.d", 1][0], 25, places=4)
        loss = next(state.losses())
        self.assertEqual(self.kilowatts(loss.total), (22.5, 0))
        self.assertTrue(loss.total.p.holds(22_500_000_000_000_000) and loss.total.p.low < loss.total.p.high)
        load = next(state.loads())
        self.assertIs(load.within, Within.BELOW)
        self.assertTrue(load.current.size().holds(50_000_000))

    def test_what_all_elements_take_up_adds_to_nothing(self):
        for name in ("ieee13", "thirteen", "delta-wye", "lines", "day", "thirteen-regulated"):
            flows = list(State(moment_of(name)[0]).flows())
            power = sum_of(part for it in flows for part in (it.power, it.charging))
            self.assertTrue(power.p.holds(0) and power.q.holds(0), name)

    def test_currents_add_to_nothing_at_each_node(self):
        for name in ("ieee13", "delta-wye", "lines"):
            sums = {}
            for it in State(moment_of(name)[0]).flows():
                for node, sign in zip(it.nodes, (1, -1)):
                    current = it.current.scaled(sign)
                    sums[node] = sums[node] + current if node in sums else current
            for node, current in sums.items():
                if node[1]:
                    self.assertTrue(current.re.holds(0) and current.im.holds(0), f"{name} {node}")

    def test_losses_are_what_goes_in_less_what_comes_out(self):
        state = State(moment_of("ieee13")[0])
        flows = list(state.flows())
        for loss in state.losses():
            own = [part for it in flows if it.element == loss.element for part in (it.power, it.charging)]
            wide = sum_of(own)
            self.assertTrue(wide.p.low <= loss.total.p.low and loss.total.p.high <= wide.p.high, loss.element)

    def test_a_line_is_loaded_by_its_rating(self):
        text = FIRST.replace("950.000000,0", "975.000000,0").replace("line.l,1,50.000000", "line.l,1,100.000000")
        path = self.write("a.dss", LOADED)
        report = parse_report(text.encode())
        loadings = list(State(read_moments(path, report)[0]).loadings())
        self.assertEqual([it.terminal for it in loadings], [1, 2])
        self.assertAlmostEqual(float(loadings[0].percent.middle), 50, places=5)
        self.assertLess(loadings[0].percent.low, 50)

    def test_a_rating_comes_with_the_line_code(self):
        code = "New Linecode.c nphases=1 r1=1 normamps=80\nNew Line"
        circuit = read_circuits(
            self.write("a.dss", LOADED.replace("New Line", code).replace("normamps=200", "linecode=c"))
        )[0]
        self.assertEqual(circuit["line.l"]["normamps"], 80 * 10**9)

    def test_a_load_on_its_limit_is_not_decided(self):
        state = State(moment_of("first")[0])
        load = next(state.loads())
        self.assertEqual(load.low, 850_000_000)
        from feeder_companion.powers import standing

        self.assertIs(standing(Interval(5, 9), 7, 20), Within.NOT_DECIDED)
        self.assertIs(standing(Interval(7, 20), 7, 20), Within.WITHIN)
        self.assertIs(standing(Interval(21, 22), 7, 20), Within.ABOVE)


if __name__ == "__main__":
    unittest.main()
