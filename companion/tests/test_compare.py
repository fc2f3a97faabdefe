"""OpenDSS's exports beside a report."""

import unittest
from fractions import Fraction

from support import EXAMPLES, LOADED, FIRST, Folder

from feeder_companion import compare
from feeder_companion.compare import BadExport, Kind, printed, read_export
from feeder_companion.powers import State
from feeder_companion.reports import read_report
from feeder_companion.script import read_moments

REPORT, SCRIPT = EXAMPLES / "ieee13.out", EXAMPLES / "ieee13.dss"
VOLTAGES = """Bus, BasekV, Node1, Magnitude1, Angle1, pu1,  Node2, Magnitude2, Angle2, pu2,  Node3, Magnitude3, Angle3, pu3
"RG60", 4.16, 1, 2536.38, -0.0, 1.05603,  2, 2506.47, -120.0, 1.04360,  3, 2551.4, 120.0, 1.06230
"611", 4.16, 3, 2324.3, 115.8, 0.9677, 0, 0, 0, 0
"NEW", 4.16, 1, 2400, 0, 1, 0, 0, 0, 0
"""
TAPS = """Name, Tap, Min, Max, Step, Position, Winding, Direction, CogenMode
 reg1,  1.05625, 0.90000, 1.10000, 0.00625, 9, 2, Forward, False
 reg2,  1.03750, 0.90000, 1.10000, 0.00625, 6, 2, Forward, False
"""


class Exports(Folder):
    def test_a_number_stands_for_all_that_are_rounded_to_it(self):
        self.assertEqual((printed("2324.3").value, printed("2324.3").half), (Fraction("2324.3"), Fraction("0.05")))
        self.assertEqual(printed("-1.5e+3").half, 50)
        for text in ("", "a", "1..2", "."):
            with self.assertRaises(ValueError):
                printed(text)

    def test_each_kind_is_told_by_its_head(self):
        self.assertIs(read_export(str(self.write("v.csv", VOLTAGES))).kind, Kind.VOLTAGES)
        export = read_export(str(self.write("t.csv", TAPS)))
        self.assertEqual((export.kind, export.entries[0].name), (Kind.TAPS, "reg1"))

    def test_an_unreadable_export_names_its_line(self):
        for text, line, cause in (
            ("", 1, "no head of"),
            ("a,b\n1,2\n", 1, "no head of"),
            (VOLTAGES + '"X", 4.16, a, 1\n', 5, "invalid literal"),
            (VOLTAGES + '"X", 4.16, 1, much\n', 5, "'much' is no number"),
            (VOLTAGES + '"", 4.16, 1, 2400\n', 5, "a row without a name"),
        ):
            with self.assertRaises(BadExport, msg=cause) as caught:
                read_export(str(self.write("e.csv", text)))
            self.assertEqual(caught.exception.line, line)
            self.assertIn(cause, str(caught.exception))
        with self.assertRaises(BadExport):
            read_export(str(self.write("e.csv", b"\xff\n")))


class Compared(Folder):
    def call_compare(self, *words):
        return self.call("compare", compare.main, *words)

    def test_voltages_outside_the_intervals_are_marked_greatest_first(self):
        path, out = self.write("v.csv", VOLTAGES), self.folder / "d.csv"
        status, said, _ = self.call_compare(REPORT, path, "--script", SCRIPT, "--csv", out)
        self.assertEqual(status, 0)
        self.assertIn("4 voltages compared, 3 outside the report's intervals, 1 that the report hasn't", said)
        self.assertIn("the report hasn't: new.1", said)
        rows = out.read_text(encoding="utf-8").splitlines()
        self.assertTrue(rows[0].startswith("name:printed,low:certified"))
        self.assertTrue(rows[1].startswith("611.3,2324.567371,2324.567864,2324.3,-0.267618,-0.000111,"))
        self.assertTrue(rows[1].endswith(",yes"))
        for cause in ("compare Export Taps first", "ppm_antifloat", "model 5", "Loads outside", "its own tolerance"):
            self.assertIn(cause, said)

    def test_taps_are_found_by_control_and_by_transformer(self):
        status, said, _ = self.call_compare(REPORT, self.write("t.csv", TAPS))
        self.assertEqual(status, 0)
        self.assertIn("2 taps compared, 1 outside", said)
        self.assertIn("counts steps", said)
        status, said, _ = self.call_compare(REPORT, self.write("t.csv", TAPS), "--tolerance", "0.001")
        self.assertEqual(status, 1)

    def test_currents_are_those_at_the_conductors_of_terminals(self):
        report = read_report(REPORT)
        moment = next(it for it in read_moments(SCRIPT, report) if it.is_last)
        ours = compare.conductors(moment)
        rows = ["Element, I1_1, Ang1_1, I1_2, Ang1_2, I1_3, Ang1_3, I1_4, Ang1_4, Iresid1, AngResid1, I2_1, Ang2_1"]
        for name in (
            "vsource.source",
            "line.650632",
            "transformer.xfm1",
            "load.671",
            "capacitor.cap1",
            "load.611",
            "line.692675",
        ):
            sizes = [f"{float(it.size().middle) / 10**6:.4f}" for it in ours[name, 1][:3]]
            cells = [cell for it in sizes for cell in (it, "0")] + ["0", "0"] * (4 - len(sizes))
            rows.append(", ".join([f'"{name.upper()}"', *cells, "0", "0"]))
        path = self.write("c.csv", "\n".join(rows) + "\n")
        status, said, _ = self.call_compare(REPORT, path, "--script", SCRIPT, "--all")
        self.assertEqual(status, 0)
        self.assertIn("20 currents compared, 0 outside", said)
        self.assertIn("line.650632 1.3", said)

    def test_the_current_of_a_delta_is_that_of_its_line(self):
        report = read_report(REPORT)
        moment = next(it for it in read_moments(SCRIPT, report) if it.is_last)
        ours = compare.conductors(moment)
        flows = [it for it in State(moment).flows() if it.element == "load.671"]
        due = flows[0].current - flows[2].current
        self.assertEqual(ours["load.671", 1][0], due)
        self.assertEqual(len(ours["line.650632", 1]), 4)

    def test_bad_words_and_files_end_with_a_status(self):
        export = self.write("v.csv", VOLTAGES)
        currents = self.write("c.csv", "Element, I1_1\nLine.a, 5\n")
        other = self.write("o.dss", LOADED)
        for words, status, said in (
            ([REPORT], 64, "required"),
            ([REPORT, currents], 64, "Export Currents needs --script"),
            ([REPORT, self.write("x.csv", "a\n")], 65, "x.csv: line 1: no head"),
            ([self.write("r.csv", FIRST[:50]), export], 65, "r.csv: line 2: a torn record"),
            ([EXAMPLES / "refused-class.out", export], 65, "no such state at rest"),
            ([REPORT, export, "--settle", "7"], 65, "no such state at rest"),
            ([REPORT, export, "--script", other], 65, "don't belong together"),
            ([REPORT, self.folder / "absent"], 66, "No such file"),
        ):
            got = self.call_compare(*words)
            self.assertEqual(got[0], status, (words, got))
            self.assertIn(said, got[1] + got[2])


if __name__ == "__main__":
    unittest.main()
