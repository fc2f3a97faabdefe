"""The page of a report: what is drawn, and that nothing of the input can become markup."""

import re
import unittest
import xml.dom.minidom

from support import EXAMPLES, FIRST, LOADED, Folder, solved

from feeder_companion import page
from feeder_companion.charts import Scale, number, ticks
from feeder_companion.markup import escape, tag, text_tag


DELTA = """Clear
New Circuit.h basekv=69 mvasc3=200 mvasc1=210
New Transformer.sub windings=2 buses=(sourcebus d) conns=(delta delta) kvs=(69 4.8) kvas=(2500 2500)
New Transformer.gnd phases=3 windings=2 buses=(d g.1.2.0) conns=(wye delta) kvs=(4.8 0.48) kvas=(1000 1000) xhl=0 %loadloss=0
New Line.b bus1=d bus2=e r1=0.2 x1=0.3 length=3 units=km
New Load.f bus1=e.1.2 phases=1 kv=4.8 conn=delta kw=250 kvar=90 vminpu=0.8 vmaxpu=1.2
Set voltagebases=(69 4.8 0.48)
CalcVoltageBases
Solve
"""
"""A zone in delta with a grounding bank, whose own low side stands to ground."""


def svgs(text):
    """The pictures of a page, each parsed as XML."""
    found = re.findall(r"<svg.*?</svg>", text, re.S)
    for it in found:
        xml.dom.minidom.parseString(it)
    return found


class Charts(unittest.TestCase):
    def test_ticks_are_round_and_within_the_axis(self):
        self.assertEqual([round(it, 6) for it in ticks(0.95, 1.05, 5)], [0.96, 0.98, 1.0, 1.02, 1.04])
        self.assertEqual(ticks(1, 1), [1])
        self.assertEqual(number(0.98, 0.02), "0.98")
        self.assertEqual(Scale(0, 10, 100, 0)(2.5), 75)
        self.assertEqual(Scale(3, 3, 0, 10)(3), 5)

    def test_texts_are_escaped(self):
        self.assertEqual(escape("<a & 'b\">"), "&lt;a &amp; &#x27;b&quot;&gt;")
        self.assertEqual(text_tag("p", "<b>", class_="x"), '<p class="x">&lt;b&gt;</p>')
        self.assertEqual(tag("line", x1=1, stroke_width=2), '<line x1="1" stroke-width="2"/>')


class Pages(Folder):
    def page(self, script, report, *words):
        status, said, wrong = self.call("page", page.main, script, report, *words)
        self.assertEqual((status, wrong), (0, ""))
        self.assertNotIn("http", said)
        self.assertNotIn("<script", said)
        return said

    def test_a_snapshot_is_drawn_with_a_mark_for_each_node(self):
        said = self.page(EXAMPLES / "ieee13.dss", EXAMPLES / "ieee13.out")
        pictures = svgs(said)
        self.assertEqual(len(pictures), 1)
        self.assertEqual(pictures[0].count("<g><title>"), 41)
        self.assertEqual(pictures[0].count('class="ring-violated"'), 3)
        for words in (
            "2 surely outside",
            "39 surely inside",
            "rg60.3",
            "2551.404084",
            "load.675b",
            "regcontrol.reg1",
            "The 10 worst buses",
        ):
            self.assertIn(words, said)

    def test_a_day_is_an_envelope_with_steps_below(self):
        said = self.page(EXAMPLES / "day.dss", EXAMPLES / "day.out")
        pictures = svgs(said)
        self.assertEqual(len(pictures), 2)
        self.assertIn("capacitor.bank closed", pictures[1])
        self.assertIn("24 states at rest of 6 nodes", said)

    def test_an_interval_across_a_limit_is_told_apart(self):
        said = self.page(EXAMPLES / "first.dss", EXAMPLES / "first.out", "--limits", "0.95", "1.05")
        self.assertIn('class="ring-violated"', said)
        self.assertEqual(svgs(said)[0].count('class="ring-not-decided"'), 2)
        self.assertIn("1 surely outside, 0 surely inside, 1 not decided", said)

    def test_zones_in_delta_are_drawn_between_phases(self):
        report = self.write("d.csv", solved(DELTA))
        said = self.page(self.write("d.dss", DELTA), report)
        ground, pairs = svgs(said)
        self.assertEqual((ground.count("<g><title>"), pairs.count("<g><title>")), (3, 7))
        self.assertIn("<title>e.3-1: ", pairs)
        self.assertNotIn("<title>e.1: ", said)

    def test_all_buses_are_drawn_between_phases_where_it_is_asked(self):
        said = self.page(EXAMPLES / "delta-wye.dss", EXAMPLES / "delta-wye.out", "--between")
        self.assertIn("Voltages between phases by distance", said)
        self.assertNotIn("Voltages to ground by distance", said)
        self.assertIn("low.1-2", said)
        both = self.page(EXAMPLES / "delta-wye.dss", EXAMPLES / "delta-wye.out", "--ground")
        self.assertNotIn("Voltages between phases by distance", both)

    def test_a_report_without_a_state_says_so(self):
        said = self.page(EXAMPLES / "refused-class.dss", EXAMPLES / "refused-class.out")
        self.assertIn("No state came to rest", said)
        self.assertIn("unknown class", said)

    def test_ratings_are_shown_where_the_script_has_them(self):
        script = self.write("a.dss", LOADED)
        report = self.write("a.csv", FIRST)
        said = self.page(script, report)
        self.assertIn("Loading of lines", said)
        self.assertIn("Loads outside their limits", said)

    def test_names_of_files_are_escaped(self):
        script = self.write("a<b>&.dss", LOADED)
        said = self.page(script, self.write("a.csv", FIRST))
        self.assertIn("a&lt;b&gt;&amp;.dss", said)
        self.assertNotIn("a<b>", said)

    def test_bad_words_and_files_end_with_a_status(self):
        script, report = EXAMPLES / "first.dss", EXAMPLES / "first.out"
        for words, status, said in (
            ([script], 64, "required"),
            ([script, report, "--limits", "1.1", "0.9"], 64, "LOW must be above 0"),
            ([script, report, "--limits", "a", "0.9"], 64, "'a' is no number"),
            ([script, report, "--between", "--ground"], 64, "not allowed with"),
            ([script, self.write("r.csv", "solution\n")], 65, "r.csv: line 1: wrong number of fields"),
            ([EXAMPLES / "lines.dss", report], 65, "don't belong together"),
            ([self.folder / "absent.dss", report], 65, "absent file"),
            ([script, self.folder / "absent.out"], 66, "No such file"),
        ):
            got = self.call("page", page.main, *words)
            self.assertEqual(got[0], status, (words, got))
            self.assertIn(said, got[1] + got[2])


if __name__ == "__main__":
    unittest.main()
