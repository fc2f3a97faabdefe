"""Sources that can't be read: one place and one cause each, and never a traceback."""

from __future__ import annotations

import io
import random
import tempfile
import unittest
from contextlib import redirect_stderr
from pathlib import Path

from . import DATA
from .cases import HEAD, Constructs, answer_to

from feeder_companion.dss.command_line import main, translate
from feeder_companion.dss.translate import Asked


class Unreadable(Constructs):
    """Causes with their places."""

    def test_lines(self) -> None:
        """What is wrong in a line."""
        for lines, cause in (
            ("New Load.d bus1=(b kv=1", "( has no ) in its line"),
            ("Frobnicate x", "Frobnicate is no command of OpenDSS"),
            ("New", "no element is named"),
            ("New Line", "Line is no Class.Name"),
            ("New Line.", "Line. is no Class.Name"),
            ("Edit Line.zz r1=1", "there is no line.zz"),
            ("Line.zz.r1=1", "there is no Line.zz"),
            ("New Circuit.d", "a second circuit"),
            ("New Load.d like=e", "like=e: there is no such load"),
            ("New Load.d bus1=b enabled=perhaps", "enabled: perhaps is neither yes nor no"),
            ("New Line.x bus1=b bus2=e linecode=zz", "there is no linecode zz"),
            ("New Load.d bus1=b kw=ten", "kw: ten is no number"),
            ("New Load.d bus1=b kv=(1 0 /)", "kv: (1 0 /) has no value"),
            ("New Load.d bus1=b kv=(1 +)", "has too few numbers for its operators"),
            ("New Load.d bus1=b kv=(1 2)", "doesn't come to one number"),
            ("New Load.d kv=1", "bus1 isn't given"),
            ("New Load.d bus1=b.x kv=1", "bus1: b.x has a node that is no number"),
            ("New Load.d bus1=b phases=1.5", "phases: 1.5 is no whole number"),
            ("New Load.d bus1=b conn=zigzag", "conn: zigzag is neither wye nor delta"),
            ("New Load.d bus1=b pf=0", "pf=0 is no power factor"),
            ("New Load.d bus1=b model=9", "there is no load model 9"),
            ("New Load.d bus1=b model=8 zipv=(1 2)", "zipv needs seven numbers"),
            ("New Line.x bus1=b", "bus2 isn't given"),
            ("New Line.x bus1=b bus2=e rmatrix=(1 2 | 3)", "is neither a square matrix nor a lower triangle"),
            ("New Line.x bus1=b bus2=e geometry=g", "there is no linegeometry.g"),
            ("New Transformer.t xfmrcode=q", "there is no xfmrcode q"),
            ("New Transformer.t wdg=3 bus=b", "there is no winding 3"),
            ("New Transformer.t kvs=[1 2 3]", "kvs has 3 values for 2 windings"),
            ("New Transformer.t xhl=3", "a winding has no bus"),
            ("New RegControl.r transformer=t", "there is no transformer t"),
            ("New CapControl.r element=line.l capacitor=c", "the element or the capacitor isn't there"),
            ("New Loadshape.s mult=(file=none.csv)\nSet mode=daily", "there is no file none.csv"),
            ("New Loadshape.s npts=3\nSet mode=daily", "the shape has no values"),
            ("New PVSystem.p bus1=b pmpp=400 effcurve=e", "there is no xycurve e"),
            ("BatchEdit Load.( kw=1", "( is no regular expression"),
            ("Redirect none.dss", "there is no file none.dss"),
            ("Redirect", "no file is named"),
            ("cd nowhere", "there is no folder nowhere"),
            ("/* a\nb", "a block comment has no */"),
            ("Set mode=daily number=many", "number: many is no number"),
            ("Set 5", "5 sets no option"),
        ):
            with self.subTest(lines):
                self.unreadable(lines, 0, cause, tail="" if lines.startswith("/*") else "Solve\n")

    def test_first_words(self) -> None:
        """Before there is a circuit."""
        for text, cause in (
            ("~ kw=1", "it continues no element"),
            ("New Line.x bus1=a bus2=b", "an element before New Circuit"),
            ("Solve", "there is no circuit to solve"),
            ("", "there is no New Circuit in it"),
        ):
            answer = answer_to(text, head="", tail="")
            self.assertEqual(answer.status, 1)
            self.assertIn(cause, answer.remarks[-1])

    def test_redirects(self) -> None:
        """A ring of files, and one without end."""
        answer = answer_to("Redirect a.dss", files={"a.dss": "Redirect m.dss\n"})
        self.assertIn("a.dss:1: can't be read: m.dss redirects to itself", answer.remarks[-1])

    def test_geometry(self) -> None:
        """Geometry that gives nothing."""
        wire = "New WireData.p rac=0.3 runits=mi gmrac=0.02 gmrunits=ft diam=0.7 radunits=in\n"
        for lines, cause in (
            ("New LineGeometry.g nconds=1 nphases=1 wire=p x=0 h=30\n", "there is no wiredata.p"),
            (
                wire + "New LineGeometry.g nconds=2 nphases=2 wires=[p p]\n~ cond=1 x=0 h=9\n~ cond=2 x=0 h=9\n",
                "at one place",
            ),
            (
                wire + "New LineGeometry.g nconds=2 nphases=2 cond=1 wire=p x=0 h=9\n",
                "conductor 2 has no wire or no place",
            ),
            (
                wire.replace("runits=mi", "") + "New LineGeometry.g nconds=1 nphases=1 wire=p x=0 h=9\n",
                "runits isn't given",
            ),
        ):
            answer = answer_to(lines + "New Line.x bus1=b bus2=e geometry=g length=1 units=km")
            self.assertEqual(answer.status, 1)
            self.assertIn(cause, answer.remarks[-1])

    def test_shape_files(self) -> None:
        """Files of shapes that hold no numbers."""
        for content, cause in (("a\nb\n", "record 1 has no number in column 1"), ("", "has no numbers")):
            lines = "New Loadshape.s npts=1 csvfile=s.csv\nSet mode=daily"
            answer = answer_to(lines, files={"s.csv": content})
            self.assertIn(cause, answer.remarks[-1])

    def test_no_file(self) -> None:
        """A master that isn't there."""
        answer = translate(Path("/nowhere/m.dss"), (), Asked())
        self.assertEqual((answer.status, answer.remarks), (1, ["m.dss:0: can't be read: there is no such file"]))

    def test_folders(self) -> None:
        """Names of other case, backslashes, folders of their own, and `Compile` that stays in its folder."""
        files = {"Sub/One.DSS": "Redirect TWO.dss\n", "Sub/two.dss": "New Line.x bus1=b bus2=e switch=y\n"}
        for command in ("Redirect sub\\one.dss", "Compile (SUB/ONE.dss)", "cd Sub\nRedirect one.dss"):
            answer = answer_to(command, files=files)
            self.assertEqual(answer.status, 0, answer.remarks)
            self.assertIn("New Line.x bus1=b bus2=e phases=3 switch=y", answer.text)


class CommandLine(unittest.TestCase):
    """The program's words and statuses."""

    def run_main(self, *words: str) -> tuple[int, str, str]:
        """Status, output and errors."""
        out, errors = io.StringIO(), io.StringIO()
        status = main(words, out, errors)
        return status, out.getvalue(), errors.getvalue()

    def test_statuses(self) -> None:
        """0 with a script, 1 with nothing."""
        with tempfile.TemporaryDirectory() as folder:
            master = Path(folder) / "m.dss"
            master.write_text(HEAD + "New Storage.s bus1=b\nSolve\n")
            status, text, errors = self.run_main(str(master))
            self.assertEqual((status, text), (1, ""))
            self.assertIn("m.dss:4: refused: storage: storage.s: the class isn't in the profile", errors)
            status, text, errors = self.run_main(str(master), "--without", "Storage", "--without", "fault", "--anchor")
            self.assertEqual(status, 0)
            self.assertTrue(text.startswith("! Translated from m.dss by tools/import_dss with --without Storage"))
            self.assertIn("isn't proved", text)
            self.assertIn("m.dss:4: not carried: storage.s", errors)
            self.assertIn("--without fault: nothing was refused by this word", errors)

    def test_usage(self) -> None:
        """Limits outside 0.4 to 1 and 1 to 2, and no file."""
        for words in ((), ("m.dss", "--vminpu", "0.1"), ("m.dss", "--vminpu", "1.1"), ("m.dss", "--vmaxpu", "x")):
            with redirect_stderr(io.StringIO()), self.assertRaises(SystemExit) as ended:
                main(words)
            self.assertEqual(ended.exception.code, 2)


class Anything(unittest.TestCase):
    """Sources with random edits end with a script or with a cause."""

    PIECES = [
        "like=x",
        "phases=0",
        "kv=0",
        "wdg=0",
        "(",
        "kvs=[",
        "~",
        "Solve",
        "Clear",
        "New Line.q",
        "kv=(1 0 /)",
        "=",
    ]
    PIECES += [
        "New Transformer.q",
        "windings=1",
        "numsteps=0",
        "buses=[a b c d]",
        "bus1=.1",
        "\x00",
        "kw=1e308",
        "tap=0",
    ]

    def test_random_edits(self) -> None:
        """Thirty of them, always the same."""
        chance = random.Random(47)
        masters = [("ckt", "Master_ckt.dss"), ("cyme", "master.dss"), ("long", "Master.dss")]
        for _ in range(30):
            folder, name = chance.choice(masters)
            texts = {p.relative_to(DATA / folder).as_posix(): p.read_text() for p in (DATA / folder).rglob("*.dss")}
            edited = chance.choice(sorted(texts))
            lines = texts[edited].split("\n")
            at = chance.randrange(len(lines))
            lines[at] = (
                f"{lines[at]} {chance.choice(self.PIECES)}"
                if chance.random() < 0.6
                else lines[at][chance.randrange(9) :]
            )
            texts[edited] = "\n".join(lines)
            (texts.setdefault("residential.csv", ""), texts.setdefault("LoadShapes/residential.csv", "1\n1\n1\n"))
            answer = answer_to(f"Redirect {name}", head="", tail="", files=texts)
            self.assertIn(answer.status, (0, 1))
            self.assertEqual(answer.status == 0, bool(answer.text))


if __name__ == "__main__":
    unittest.main()
