"""Tables and limits, and how their commands end."""

import csv
import importlib.util
import unittest
from fractions import Fraction

from support import EXAMPLES, FIRST, Folder

from feeder_companion import limits, tables
from feeder_companion.intervals import Interval
from feeder_companion.limits import Level, Range, Verdict, at_least, at_most, between, worst
from feeder_companion.network import Base, bases_of
from feeder_companion.reports import read_report

BASES = "base,sourcebus,1.732050\nbase,b,0.866025\n"


class Tables(Folder):
    def tables(self, name, script=True, ending="out"):
        status, said, wrong = self.call(
            "tables",
            tables.main,
            EXAMPLES / f"{name}.{ending}",
            *([EXAMPLES / f"{name}.dss"] if script else []),
            "--into",
            self.folder,
        )
        self.assertEqual((status, wrong), (0, ""))
        return said

    def rows(self, name):
        with open(self.folder / f"{name}.csv", encoding="utf-8", newline="") as file:
            return list(csv.DictReader(file))

    def test_a_file_is_written_for_each_kind(self):
        said = self.tables("ieee13")
        self.assertIn("nodes.csv: 82 rows", said)
        node = self.rows("nodes")[41]
        self.assertEqual(node["is_last:printed"], "yes")
        self.assertEqual((node["bus:printed"], node["node:printed"]), ("sourcebus", "1"))
        self.assertLess(Fraction(node["low_pu:outward"]), Fraction(node["high_pu:outward"]))
        self.assertEqual(len(self.rows("acts")), 3)
        self.assertEqual(self.rows("positions")[0]["tap:certified"], "1.05625")
        above = [it["load:script"] for it in self.rows("loads") if it["standing:outward"] == "above"]
        self.assertEqual(above, ["load.675b"])
        total = self.rows("losses")[-1]
        self.assertEqual(total["element:script"], "all")
        self.assertTrue(111 < float(total["kw_low:outward"]) < float(total["kw_high:outward"]) < 112)

    def test_every_column_says_what_it_stands_on(self):
        self.tables("day")
        words = {it.value for it in tables.Standing}
        for path in self.folder.glob("*.csv"):
            head = path.read_text(encoding="utf-8").splitlines()[0].split(",")
            self.assertTrue(all(it.partition(":")[2] in words for it in head), path.name)

    def test_a_report_by_itself_has_its_tables_without_per_unit(self):
        said = self.tables("first", script=False)
        self.assertNotIn("losses", said)
        self.assertEqual(self.rows("nodes")[0]["low_pu:outward"], "")

    def test_a_fault_is_a_table(self):
        self.tables("refused-class", script=False)
        self.assertEqual(self.rows("fault")[0]["status:printed"], "3")

    def test_what_a_sweep_comes_to_is_a_table(self):
        self.tables("radial", ending="ladder")
        row = {name.partition(":")[0]: text for name, text in self.rows("sweeps")[0].items()}
        agrees = {"settle": "1", "answer": "agrees", "unknown": "", "sweeps": "7", "gap_v": "0.000007", "radius_v": "0.002905"}
        self.assertEqual(row, agrees)
        self.assertEqual(len(self.rows("losses")), 11)

    def test_frames_have_numbers_where_pandas_is_there(self):
        if importlib.util.find_spec("pandas") is None:
            self.skipTest("pandas isn't installed")
        found = tables.frames(tables.tables_of(read_report(EXAMPLES / "first.out"), EXAMPLES / "first.dss"))
        self.assertEqual(found["nodes"]["low_v"].tolist(), [949.99998, 499.999989])
        self.assertEqual(found["nodes"].attrs["standing"]["low_v"], "certified")

    def test_bad_words_and_files_end_with_a_status(self):
        bad = self.write("bad.csv", "node,b.1\n")
        for words, status, said in (
            ([], 64, "required"),
            ([bad], 65, "bad.csv: line 1: wrong number of fields"),
            ([self.folder / "absent"], 66, "absent: No such file"),
            ([EXAMPLES / "first.out", EXAMPLES / "day.dss", "--into", self.folder / "x"], 65, "don't belong together"),
            (
                [EXAMPLES / "first.out", EXAMPLES / "refused-class.dss", "--into", self.folder / "x"],
                65,
                "line 3: unknown class",
            ),
            ([EXAMPLES / "first.out", "--bases", "4.16"], 64, "--bases needs SCRIPT"),
            ([EXAMPLES / "first.out", EXAMPLES / "first.dss", "--bases", "a"], 64, "'a' is no number"),
            ([EXAMPLES / "first.out", EXAMPLES / "first.dss", "--bases", "0"], 64, "isn't above zero"),
        ):
            got = self.call("tables", tables.main, *words)
            self.assertEqual(got[0], status, words)
            self.assertIn(said, got[2])


class Limits(Folder):
    def test_a_limit_inside_an_interval_is_not_decided(self):
        value = Interval(5, 7)
        for limit, verdict in (
            (4, Verdict.NOT_VIOLATED),
            (5, Verdict.NOT_VIOLATED),
            (6, Verdict.NOT_DECIDED),
            (8, Verdict.VIOLATED),
        ):
            self.assertIs(at_least(value, limit), verdict)
        for limit, verdict in (
            (8, Verdict.NOT_VIOLATED),
            (7, Verdict.NOT_VIOLATED),
            (6, Verdict.NOT_DECIDED),
            (4, Verdict.VIOLATED),
        ):
            self.assertIs(at_most(value, limit), verdict)
        self.assertIs(worst([Verdict.NOT_VIOLATED, Verdict.NOT_DECIDED, Verdict.VIOLATED]), Verdict.VIOLATED)
        self.assertIs(worst([]), Verdict.NOT_VIOLATED)

    def test_a_comparison_with_a_limit_is_exact(self):
        base = Base.between_phases(Fraction("4.16"))
        for size in range(2281688260, 2281688266):
            level = Level(1, 0, "b", "1", Interval(size, size), base, False)
            is_inside = 3 * size * size >= (Fraction("0.95") * 4160 * 10**6) ** 2
            due = Verdict.NOT_VIOLATED if is_inside else Verdict.VIOLATED
            self.assertIs(level.judged_low(Fraction("0.95")), due)

    def test_voltages_between_phases_are_made_of_the_parts(self):
        report = read_report(EXAMPLES / "delta-wye.out")
        nodes = {it.name: it for it in report.settles[0].last.nodes}
        base = Base.between_phases(Fraction("4.16"))
        from feeder_companion.network import Bases, BaseFrom

        found = {it.name: it for it in between(report.settles[0], Bases({"low": base}, BaseFrom.GIVEN))}
        self.assertEqual(set(found), {"low.1-2", "low.2-3", "low.3-1"})
        a, b = nodes["low.1"], nodes["low.2"]
        exact = abs(complex(a.re - b.re, a.im - b.im))
        self.assertTrue(found["low.1-2"].size.low <= exact <= found["low.1-2"].size.high)
        self.assertIsNone(bases_of(report))

    def test_the_status_tells_the_verdict(self):
        path = self.write("r.csv", FIRST + BASES)
        cut = self.write("cut.csv", FIRST + BASES + "fault,loose,b.1 re,0.002000\n")
        for words, status, said in (
            ([path, "0.9", "1.1"], 0, "2 surely inside 0.9 to 1.1, 0 surely outside, 0 not decided"),
            ([path, "0.96", "1.1"], 1, "surely outside: sourcebus.1"),
            ([path, "0.9", "1.00000047"], 2, "not decided: b.1"),
            ([path, "0.96", "1.1", "--skip", "SourceBus"], 0, "1 surely inside"),
            ([cut, "0.9", "1.1"], 2, "the report isn't whole: fault loose"),
            ([EXAMPLES / "refused-class.out", "0.9", "1.1"], 2, "the report isn't whole"),
            ([EXAMPLES / "day.out", "0.95", "1.05", "--script", EXAMPLES / "day.dss"], 0, "144 surely inside"),
            (
                [EXAMPLES / "day.out", "0.95", "1.05", "--script", EXAMPLES / "day.dss", "--between"],
                0,
                "144 surely inside",
            ),
            ([path, "1.1", "0.9"], 64, "LOW must be above 0 and below HIGH"),
            ([path, "0.9"], 64, "required"),
            ([path, "0.9", "a"], 64, "'a' is no number"),
            ([path, "0.9", "1.1", "--bases", "1"], 64, "--bases needs --script"),
            ([EXAMPLES / "first.out", "0.9", "1.1"], 65, "no voltage bases"),
            ([self.write("bad.csv", "x\n"), "0.9", "1.1"], 65, "line 1: unknown record"),
            ([self.write("half.csv", FIRST + "base,b,0.866025\n"), "0.9", "1.1"], 65, "bus sourcebus has no base"),
            ([self.folder / "absent", "0.9", "1.1"], 66, "No such file"),
        ):
            got = self.call("limits", limits.main, *words)
            self.assertEqual(got[0], status, (words, got))
            self.assertIn(said, got[1] + got[2])

    def test_a_range_is_shown_as_it_was_given(self):
        self.assertEqual(str(Range(Fraction("0.980245011"), Fraction("1.05"))), "0.980245011 to 1.05")


if __name__ == "__main__":
    unittest.main()
