"""Reports and certificates as records, and each input that isn't one."""

import unittest

from support import EXAMPLES, FIRST, NODE, Folder

from feeder_companion.certificates import UnreadableCertificate, derived_difference, first_difference, parse_certificate
from feeder_companion.reports import Fault, Sweep, UnreadableReport, parse_report, read_report

CERTIFICATE = (
    """cert 1
solution 1 0 0 8
x 0 950000000 20 0
x 1 0 20 0
x 2 500000000 11 1
x 3 0 11 0
x 4 50000000 33 0
x 5 0 33 0
x 6 50000000 33 0
x 7 0 33 0
"""
    + "".join(f"c {k} 1 0 -3 0 0 0 0 0\n" for k in range(8))
    + "end\n"
)

SPARSE = CERTIFICATE.replace("cert 1", "cert 2").replace(" 1 0 -3 0 0 0 0 0\n", " 2 0 1 2 -3\n")


class Reports(Folder):
    def test_records_have_the_numbers_of_the_report(self):
        report = parse_report(FIRST.encode())
        turn = report.settles[0].last
        node = turn.nodes[1]
        self.assertEqual(
            (node.bus, node.node, node.re, node.radius, node.low, node.high),
            ("b", 1, 500000000, 11, 499999989, 500000012),
        )
        self.assertEqual(
            (turn.branches[1].element, turn.branches[1].phase, turn.branches[1].re), ("line.l", 1, 50000000)
        )
        self.assertTrue(report.settles[0].is_at_rest)

    def test_all_examples_are_read(self):
        for path in sorted(EXAMPLES.glob("*.out")):
            report = read_report(path)
            self.assertEqual(bool(report.settles), not path.name.startswith("refused-"), path.name)

    def test_a_day_has_its_hours_acts_and_banks(self):
        report = read_report(EXAMPLES / "day.out")
        self.assertEqual([it.hour for it in report.settles], list(range(1, 25)))
        acts = [
            (it.hour, act.time, act.control, act.steps, act.is_closed)
            for it in report.settles
            for act in it.rounds[0].acts
        ]
        self.assertEqual(
            acts, [(8, 25215000, "capcontrol.bank", 1, True), (20, 68415000, "capcontrol.bank", -1, False)]
        )
        self.assertEqual([it.banks[0].is_closed for it in report.settles].count(True), 12)

    def test_taps_and_magnitudes_are_read(self):
        report = read_report(EXAMPLES / "ieee13.out")
        self.assertEqual([it.tap for it in report.settles[0].taps], [105625, 104375, 106250])
        self.assertEqual(report.settles[0].last.magnitudes[0].element, "load.692")
        self.assertEqual(report.bases["634"], 480000)

    def test_what_waits_is_read(self):
        report = parse_report((FIRST + "pending,4000.000,regcontrol.a,up\npending,4000.500,capcontrol.k,down\n").encode())
        waiting = [(it.time, it.control, it.is_up) for it in report.settles[0].pending]
        self.assertEqual(waiting, [(4000000, "regcontrol.a", True), (4000500, "capcontrol.k", False)])

    def test_short_circuits_are_read(self):
        record = "short,b,1,1000.000000,-0.500000,0.000002,1000.000001,1000.000005\n"
        it = parse_report((FIRST + record).encode()).settles[0].shorts[0]
        self.assertEqual((it.bus, it.node, it.re, it.im), ("b", 1, 1000000000, -500000))
        self.assertEqual((it.radius, it.low, it.high), (2, 1000000001, 1000000005))

    def test_sweeps_are_read(self):
        cases = [
            ("agrees,9,0.000002,0.005062", Sweep("agrees", None, 9, 2, 5062)),
            ("wide,b.1 re", Sweep("wide", "b.1 re")),
            ("apart,load.m 1 mag", Sweep("apart", "load.m 1 mag")),
            ("not converged,150", Sweep("not converged", None, 150)),
            ("out of range,line.l 1 re,11", Sweep("out of range", "line.l 1 re", 11)),
        ]
        for record, sweep in cases:
            self.assertEqual(parse_report((FIRST + f"ladder,{record}\n").encode()).settles[0].sweep, sweep)
        for record in ("near,b.1 re", "agrees,-1,0.000002,0.005062", "agrees,9,0.000002,-0.005062", "apart,"):
            with self.assertRaises(UnreadableReport):
                parse_report((FIRST + f"ladder,{record}\n").encode())

    def test_a_report_of_sweeps_is_that_of_solve_besides(self):
        swept, solved = read_report(EXAMPLES / "radial.ladder"), read_report(EXAMPLES / "radial.out")
        self.assertEqual(swept.settles[0].sweep, Sweep("agrees", None, 7, 7, 2905))
        swept.settles[0].sweep = None
        self.assertEqual(swept.settles, solved.settles)
        self.assertEqual(parse_report(b"fault,not radial,line.b\n").fault.status, 15)

    def test_a_fault_ends_a_report_and_says_its_status(self):
        report = parse_report((FIRST + 'fault,script,"a,b.dss",3,unknown class\n').encode())
        self.assertEqual(report.fault, Fault("script", ("a,b.dss", "3", "unknown class")))
        self.assertEqual(report.fault.status, 3)
        self.assertTrue(report.settles[0].is_at_rest)

    def test_a_settle_that_a_control_ended_is_not_at_rest(self):
        for fault in ("undecided,regcontrol.a,1.000000,2.000000,1.500000", "control limit,10"):
            self.assertFalse(parse_report((FIRST + f"fault,{fault}\n").encode()).settles[0].is_at_rest)
        acted = FIRST + "act,15.000,regcontrol.a,-2,0.98750\nfault,loose,b.1 re,0.002000\n"
        self.assertFalse(parse_report(acted.encode()).settles[0].is_at_rest)

    def test_an_unreadable_report_names_its_line_and_cause(self):
        form, count = "a field out of the format", "wrong number of fields"
        cases = [
            (FIRST + "\n", 6, "an empty line or a carriage return"),
            (FIRST.replace("\n", "\r\n"), 1, "an empty line or a carriage return"),
            (FIRST + "bench,12,78,1,0.000006\n", 6, "unknown record"),
            ("cert 1\n", 1, "unknown record"),
            (FIRST + "tap,regcontrol.a\n", 6, count),
            (FIRST + "fault\n", 6, count),
            (FIRST + "fault,tired\n", 6, "unknown fault"),
            (FIRST + NODE.replace("500.000012", "500.00012"), 6, form),
            (FIRST + NODE.replace("0.000011", "-0.000011"), 6, form),
            (FIRST + NODE.replace("b.1", "b"), 6, form),
            (FIRST + "bank,capacitor.k,shut\n", 6, form),
            (FIRST + "tap,transformer.t,1.00000\n", 6, form),
            (FIRST + "base,b,0.000000\n", 6, form),
            (FIRST + 'tap,"regcontrol."a,1.00000\n', 6, form),
            (FIRST + NODE.replace("499.999989", "500.000013"), 6, "low above high"),
            (FIRST + "solution,1,0,2\n", 6, "a solution out of order"),
            (FIRST + "solution,3,0,0\n", 6, "a solution out of order"),
            (NODE, 1, "no solution before it"),
            (FIRST + 'fault,read,"a\nb"\n' + NODE, 8, "a record behind the fault"),
            (FIRST + NODE[:30], 6, "a torn record: no line feed ends it"),
        ]
        for content, line, cause in cases:
            with self.assertRaises(UnreadableReport, msg=cause) as caught:
                parse_report(content.encode(), "r.csv")
            self.assertEqual(str(caught.exception), f"r.csv: line {line}: {cause}")
        with self.assertRaises(UnreadableReport) as caught:
            parse_report(FIRST.encode() + b"base,\xff,1.000000\n")
        self.assertEqual((caught.exception.line, caught.exception.cause), (6, "not UTF-8"))


class Certificates(unittest.TestCase):
    def test_blocks_have_the_numbers_of_the_file(self):
        certificate = parse_certificate(CERTIFICATE.encode(), with_inverse=True)
        block = certificate.blocks[0]
        self.assertEqual((block.settle, len(block.claims), block.claims[2].radius), (1, 8, 11))
        self.assertEqual(block.inverse[7][2], -3)
        self.assertEqual(parse_certificate(CERTIFICATE.encode()).blocks[0].inverse, [])

    def test_a_report_is_compared_with_its_certificate(self):
        report, certificate = parse_report(FIRST.encode()), parse_certificate(CERTIFICATE.encode())
        self.assertIsNone(first_difference(report, certificate))
        for old, new, said in (
            ("x 2 500000000 11", "x 2 500000001 11", "solution 1,0,0: b.1 re isn't the certificate's"),
            ("end\n", "act 15000 0 -2\nend\n", "solution 1,0,0: the acts aren't the certificate's"),
            ("solution 1 0 0", "solution 1 1 0", "solution 1,0,0 isn't the block that is due"),
        ):
            other = parse_certificate(CERTIFICATE.replace(old, new).encode())
            self.assertEqual(first_difference(report, other), said)
        self.assertIn("blocks", first_difference(report, parse_certificate(b"cert 1\nend\n")))

    def test_what_follows_from_centre_and_radius_is_tested(self):
        for path in EXAMPLES.glob("*.out"):
            for settle in read_report(path).settles:
                for turn in settle.rounds:
                    self.assertIsNone(derived_difference(turn), path.name)
        for old, new, said in (
            ("500.000012", "500.000013", "low and high of b.1 aren't those of its radius"),
            ("2.500000", "2.500001", "the box of b.1 isn't that of its voltage"),
        ):
            report = parse_report(FIRST.replace(old, new).encode())
            self.assertEqual(derived_difference(report.settles[0].last), said)

    def test_both_versions_have_the_same_blocks(self):
        whole, sparse = (parse_certificate(it.encode(), "c", True) for it in (CERTIFICATE, SPARSE))
        self.assertEqual(whole, sparse)

    def test_an_unreadable_row_of_version_2_names_its_line(self):
        for row in ("c 1", "c 1 3 0 1 2 -3", "c 1 1 0 1 2 -3", "c 1 2 0 1 2", "c 1 2 2 -3 0 1", "c 1 2 0 1 0 -3", "c 1 2 0 1 8 -3"):
            with self.assertRaises(UnreadableCertificate, msg=row) as caught:
                parse_certificate(SPARSE.replace("c 1 2 0 1 2 -3", row).encode(), "c")
            self.assertEqual(caught.exception.line, 12)

    def test_an_unreadable_certificate_names_its_line(self):
        cases = [
            ("", 1, "the certificate ends before `end`"),
            ("cert 3\n", 1, "not the line `cert 1` or `cert 2`"),
            (CERTIFICATE.replace("x 3", "x 4"), 6, "not the line `x 3`"),
            (CERTIFICATE.replace("x 3 0", "x 3 00"), 6, "a field that is no number"),
            (CERTIFICATE.replace("x 3 0 11 0", "x 3 0 11"), 6, "wrong number of fields"),
            (CERTIFICATE.replace("c 1 1 0", "c 1 1"), 12, "wrong number of fields"),
            (CERTIFICATE.replace("end", "ent"), 19, "not the line of a block"),
            (CERTIFICATE + "end\n", 20, "a line behind `end`"),
            (CERTIFICATE.replace("end\n", ""), 19, "the certificate ends before `end`"),
        ]
        for content, line, cause in cases:
            with self.assertRaises(UnreadableCertificate, msg=cause) as caught:
                parse_certificate(content.encode(), "c")
            self.assertEqual((caught.exception.line, caught.exception.cause), (line, cause))


if __name__ == "__main__":
    unittest.main()
