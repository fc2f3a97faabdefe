"""Plans, and the scripts of their runs."""

import unittest
from fractions import Fraction

from support import EXAMPLES, LOADED, REGULATED, Folder

from feeder_companion.changes import BadChange, Settings, read_source, write_script
from feeder_companion.plan import BadPlan, read_plan
from feeder_companion.reports import Bank, Settle, Tap
from feeder_companion.script import UnreadableScript, read_circuits, Files

PLAN = """# A study.
name = "x"
script = "a.dss"

[limits]
voltage = [0.95, 1.05]
skip = "sourcebus"

[retry]
vminpu = [0.8]
vreg = 0.005

[always]
tap = { reg1 = 1.05 }

[vary]
plant_bus = [
  "632", # a comment, and = [
  "671",
]
plant_kw = { from = 0, to = 100, by = 12.5 }

[[run]]
plant_bus = "680"
plant_kw = 7

[answer]
greatest = "plant_kw"
for_each = "plant_bus"
"""


class Plans(Folder):
    def test_rows_are_the_product_and_each_run(self):
        plan = read_plan(self.write("p.toml", PLAN))
        self.assertEqual(len(plan.rows), 19)
        self.assertEqual(plan.rows[1], {"tap.reg1": Fraction("1.05"), "plant_bus": "632", "plant_kw": Fraction("12.5")})
        self.assertEqual(plan.rows[-1]["plant_bus"], "680")
        self.assertEqual(plan.varied, ["plant_bus", "plant_kw"])
        self.assertEqual((plan.retry.vminpu, plan.retry.vreg), ((Fraction("0.8"),), Fraction("0.005")))
        self.assertEqual(plan.limits.skip, {"sourcebus"})

    def test_a_plan_without_changes_has_one_run(self):
        self.assertEqual(read_plan(self.write("p.toml", 'script = "a.dss"\n')).rows, [{}])

    def test_rows_come_from_a_table_too(self):
        self.write("t.csv", "load_scale,plant_bus,bank.cap1\n0.5,,open\n1,b,closed\n")
        plan = read_plan(self.write("p.toml", 'script = "a.dss"\ntable = "t.csv"\n'))
        self.assertEqual(plan.rows[0], {"load_scale": Fraction("0.5"), "bank.cap1": "open"})
        self.assertEqual(plan.rows[1]["plant_bus"], "b")

    def test_a_bad_plan_names_its_line(self):
        cases = [
            ("voltage", "volts", 6, "limits.volts: unknown word"),
            ("vreg =", "vrag =", 11, "retry.vrag: unknown word"),
            ("by = 12.5", "bye = 12.5", 21, "vary.plant_kw.bye: unknown word"),
            ("reg1 =", '"r g" =', 14, "always.tap.r g: unknown word"),
            ("plant_kw = {", "plantkw = {", 21, "vary.plantkw: unknown word"),
            ("[answer]", "[answers]", 27, "answers: unknown word"),
            ("name =", "nme =", 2, "nme: unknown word"),
            ("plant_kw = 7", "plant_kv = 7\nplant_mw = 1", 26, "run.0.plant_mw: unknown word"),
            ('for_each = "plant_bus"', 'for_each = "bus"', 29, "answer.for_each: bus isn't a word of each run"),
            ('greatest = "plant_kw"', 'greatest = "plant_bus"', 28, "answer.greatest: must be a word with numbers"),
            ('greatest = "plant_kw"', "", 27, "answer: needs `greatest`"),
            ("= 0.005", '= "a"', 11, "retry.vreg: must be a number"),
            ("[0.95, 1.05]", "[1.05, 0.95]", 6, "limits.voltage: LOW must be above 0 and below HIGH"),
            ("[0.95, 1.05]", "0.95", 6, "limits.voltage: must be [LOW, HIGH]"),
            ("[0.8]", "[0.2]", 10, "retry.vminpu: must be 0.4 to 1"),
            ('"632",', "632,", 17, "vary.plant_bus: must be a text"),
            (
                "by = 12.5",
                "by = 0",
                21,
                "vary.plant_kw: must be {from, to, by} with `by` above 0 and `to` not below `from`",
            ),
            ("by = 12.5", "by = 0.0001", 21, "vary.plant_kw: more than 100000 values"),
            (
                "plant_kw = {",
                "hours = ['0-24']\nplant_kw = {",
                21,
                'vary.hours: must be "FIRST-LAST", at most 8,760 hours counted from 1',
            ),
            (
                "plant_kw = {",
                "load_scale = -1\nplant_kw = {",
                21,
                "vary.load_scale: must be a list of values, or {from, to, by}",
            ),
            ("plant_kw = {", "load_scale = [-1]\nplant_kw = {", 21, "vary.load_scale: must not be below 0"),
            ("plant_kw = {", "plant_conn = ['star']\nplant_kw = {", 21, "vary.plant_conn: must be wye or delta"),
            ("[limits]", "certificates = 1\n[limits]", 5, "certificates: must be true or false"),
            ("[limits]", "timeout = -1\n[limits]", 5, "timeout: must be a whole number that isn't below 0"),
            ("[limits]", "limits = 1\n[retry2]", 5, "Cannot overwrite a value"),
            ("[[run]]", "[run]", 23, "run: must be written [[run]]"),
            ('script = "a.dss"', "", 1, "script: a plan needs it"),
            ('script = "a.dss"', 'script = "a.dss"\ntable = "no.csv"', 4, "table: "),
        ]
        for old, new, line, cause in cases:
            with self.assertRaises(BadPlan, msg=new) as caught:
                read_plan(self.write("p.toml", PLAN.replace(old, new, 1)))
            if "Cannot overwrite" not in cause:
                self.assertIn(f"line {line}: {cause}", str(caught.exception), new)
        for text, said in (('script "a"\n', "line 1"), ("name = 1e\n", "line 1"), ("\xff", "line 1")):
            with self.assertRaises(BadPlan, msg=text) as caught:
                read_plan(self.write("p.toml", text.encode("latin1")))
            self.assertIn(said, str(caught.exception))

    def test_a_bad_table_names_its_line(self):
        for text, said in (
            ("load_scal\n1\n", "t.csv: line 2: load_scal: unknown word"),
            ("load_scale\n1\na\n", "t.csv: line 3: load_scale: must be a number"),
            ("load_scale,hours\n1\n", "t.csv: line 2: hours: wrong number of fields"),
        ):
            self.write("t.csv", text)
            with self.assertRaises(BadPlan) as caught:
                read_plan(self.write("p.toml", 'script = "a.dss"\ntable = "t.csv"\n'))
            self.assertIn(said, str(caught.exception))


class Changes(Folder):
    def circuit(self, source, row, settings=Settings()):
        script = write_script(source, row, settings)
        circuits = read_circuits("study.dss", Files({"study.dss": script.text, **script.files}))
        self.assertEqual(len(circuits), 1)
        return circuits[0]

    def test_loads_are_scaled_exactly(self):
        source = read_source(EXAMPLES / "ieee13.dss")
        circuit = self.circuit(source, {"load_scale": Fraction("1.1"), "vminpu": Fraction("0.7")})
        self.assertEqual(circuit["load.671"]["kw"], 1270_500_000_000)
        self.assertEqual(circuit["load.671"]["kvar"], 726_000_000_000)
        self.assertEqual(circuit["load.692"]["vminpu"], 700_000_000)
        power_factor = read_source(self.write("a.dss", LOADED.replace("kvar=0", "pf=0.9")))
        self.assertFalse(self.circuit(power_factor, {"load_scale": Fraction(2)})["load.d"]["bykvar"])

    def test_a_plant_is_a_load_of_negative_power(self):
        source = read_source(EXAMPLES / "ieee13.dss")
        for bus, form in (
            ("671", ("671", [1, 2, 3], 3, "wye", 4160000000)),
            ("645", ("645", [2, 3], 1, "delta", 4160000000)),
            ("611", ("611", [3], 1, "wye", 2401777000)),
            ("634.2", ("634", [2], 1, "wye", 277128000)),
        ):
            it = self.circuit(source, {"plant_bus": bus, "plant_kw": Fraction(250), "plant_kvar": Fraction(-10)})[
                "load.study_plant"
            ]
            self.assertEqual((it["bus1"], it["phases"], it["conn"]), ((form[0], form[1]), form[2], form[3]), bus)
            self.assertAlmostEqual(it["kv"] / form[4], 1, places=2)
            self.assertEqual((it["kw"], it["kvar"]), (-250 * 10**9, 10 * 10**9))

    def test_taps_and_banks_are_put_and_regulators_moved(self):
        source = read_source(EXAMPLES / "ieee13.dss")
        settings = Settings(vreg={"regcontrol.reg2": Fraction("0.01")}, taps={"regcontrol.reg3": 106250})
        row = {"tap.Reg1": Fraction("1.05"), "bank.cap1": "open"}
        circuit = self.circuit(source, row, settings)
        self.assertEqual(circuit["transformer.reg1"]["at"], [100000, 105000])
        self.assertEqual(circuit["transformer.reg3"]["at"], [100000, 106250])
        self.assertFalse(circuit["capacitor.cap1"]["now"])
        self.assertEqual(circuit["regcontrol.reg2"]["vreg"], 122_010_000_000)

    def test_hours_begin_the_shapes_there(self):
        source = read_source(EXAMPLES / "day.dss")
        circuit = self.circuit(source, {"hours": "20-50"})
        self.assertEqual((circuit.is_daily, circuit.number), (True, 31))
        shape = circuit["loadshape.workday"]
        self.assertEqual(shape["npts"], 24)
        original = source.circuit["loadshape.workday"]["mult"]
        self.assertEqual(shape["mult"], original[19:] + original[:19])
        short = self.circuit(source, {"hours": "30-31"})["loadshape.workday"]
        self.assertEqual(short["mult"], original[5:7])

    def test_a_day_goes_on_from_the_taps_of_its_last_hour(self):
        settle = Settle(2, 2, taps=[Tap("regcontrol.a", 98750)], banks=[Bank("capacitor.k", True)])
        settings = Settings(hours=(1, 9), vreg={"regcontrol.a": Fraction(1)}).started_at(settle).of_hours(3, 9)
        self.assertEqual(settings, Settings(hours=(3, 9), taps={"regcontrol.a": 98750}, banks={"capacitor.k": True}))
        source = read_source(self.write("a.dss", REGULATED))
        circuit = self.circuit(source, {}, Settings(hours=(2, 3), taps={"regcontrol.a": 98750}))
        self.assertEqual(circuit["transformer.t"]["at"], [100000, 98750])
        self.assertEqual(circuit["loadshape.s"]["mult"], [10**9, 2 * 10**9])

    def test_redirects_are_written_out(self):
        self.write("parts/line.dss", LOADED.splitlines()[2] + "\r\n")
        lines = LOADED.splitlines()
        lines[2] = "Redirect parts\\line.dss"
        source = read_source(self.write("m.dss", "\n".join(lines)))
        self.assertIn("line.l", dict(source.circuit.of("line")))
        self.assertEqual(self.circuit(source, {"line": "Load.d.kw=70"})["load.d"]["kw"], 70 * 10**9)

    def test_changes_that_a_script_cannot_take_are_refused(self):
        source = read_source(EXAMPLES / "ieee13.dss")
        for row, said in (
            ({"plant_kw": Fraction(1)}, "no plant_bus"),
            ({"plant_bus": "999"}, "no bus 999"),
            ({"plant_bus": "611.1"}, "no bus 611.1"),
            ({"plant_bus": "611", "plant_conn": "delta"}, "needs two nodes"),
            ({"plant_bus": "645", "plant_conn": "wye"}, "is in delta"),
            ({"tap.reg9": Fraction(1)}, "no transformer.reg9"),
            ({"bank.cap9": "open"}, "no capacitor.cap9"),
        ):
            with self.assertRaises(BadChange, msg=said) as caught:
                write_script(source, row)
            self.assertIn(said, str(caught.exception))

    def test_scripts_that_no_study_takes_are_refused(self):
        for text, error, said in (
            (LOADED + "Solve\n", BadChange, "has 2 Solves"),
            (LOADED.replace("Solve\n", ""), BadChange, "has 0 Solves"),
            (LOADED.replace("New Line", "New Lime"), UnreadableScript, "line 3: unknown class"),
            ("Redirect away.dss\n", UnreadableScript, "away.dss: line 0: absent file"),
            ("New Line.l rmatrix=(1\n", UnreadableScript, "line 1: unclosed group"),
            (
                LOADED.replace("Solve", "New Loadshape.s npts=1 mult=(file=../s.csv)\nSolve"),
                UnreadableScript,
                "isn't in the folder",
            ),
        ):
            self.write("s.csv", "1\n")
            path = self.write("sub/m.dss", text)
            with self.assertRaises(error, msg=said) as caught:
                read_source(path)
            self.assertIn(said, str(caught.exception))


if __name__ == "__main__":
    unittest.main()
