"""Lines, transformers, banks, controls, shapes, sources and options, each construct as one small case."""

from __future__ import annotations

import math
import struct
import unittest

from .cases import Constructs, answer_to, elements

LOAD = "New Load.d bus1=e kv=12.47 kw=100 kvar=20 vminpu=.9 vmaxpu=1.1\n"
ENDS = "bus1=b bus2=e "
ZERO = "r1=1 x1=1 r0=1 x0=1 c1=0 c0=0\n"


class Lines(Constructs):
    """Impedances of lines."""

    def test_defaults(self) -> None:
        """OpenDSS's own values where the source gives none, or not all."""
        own = "r1=0.058 x1=0.1206 r0=0.1784 x0=0.4047 c1=3.4 c0=1.6"
        self.check(f"New Line.x {ENDS}", ["T no impedance is given", "T r1 x1 r0 x0 c1 c0"], [f"phases=3 {own}"])
        self.check(
            f"New Line.x {ENDS} r1=0.2 x1=0.4", ["T own r0 x0 c1 c0"], ["r1=0.2 x1=0.4 r0=0.1784 x0=0.4047 c1=3.4"]
        )

    def test_default_capacitance(self) -> None:
        """Two thirds of 3.4 and a third of 1.6 are 2.8; a third of 1.6 less 3.4 is -0.6."""
        self.check(
            "New Linecode.k nphases=2 rmatrix=(1 | 0.2 1) xmatrix=(1 | 0.3 1)\n"
            "New Line.x bus1=b.1.2 bus2=e.1.2 linecode=k",
            ["T own cmatrix"],
            ["cmatrix=(2.8 | -0.6 2.8)"],
        )

    def test_susceptance(self) -> None:
        """120 pi microsiemens at 60 Hz are 1,000 nF."""
        self.check(
            f"New Line.x {ENDS} r1=1 x1=1 r0=1 x0=1 b1={120 * math.pi:.15f} b0={60 * math.pi:.15f}",
            ["T b1 as c1=1000", "T b0 as c0=500"],
            ["c1=1000 c0=500"],
        )

    def test_mixed_forms(self) -> None:
        """A matrix and sequence values on one line."""
        self.check(
            f"New Line.x {ENDS} rmatrix=(1|0 1|0 0 1) xmatrix=(1|0 1|0 0 1) cmatrix=(0|0 0|0 0 0) c1=3", ["R line.c1"]
        )
        self.check(f"New Linecode.k r1=1\nNew Line.x {ENDS} linecode=k r1=2", ["T own x1", "R+1 line.r1", "T+1 own x1"])

    def test_switch(self) -> None:
        """A switch, and what is set behind it."""
        self.check(
            f"New Line.x {ENDS} switch=True r1=1e-4 x1=0 length=0.01", [], ["switch=y r1=0.0001 x1=0 length=0.01"]
        )
        found = elements(answer_to(f"New Line.x {ENDS} switch=y").text)[("line", "x")]
        self.assertEqual((found["length"], found["r1"], found["c1"]), (1000000, 10**9, 1100000000))

    def test_four_conductors(self) -> None:
        """A neutral that is grounded at both ends: [[2, 1], [1, 4]] reduces to 1.75, by Kron."""
        self.check(
            "New Linecode.k nphases=2 rmatrix=(2 | 1 4) xmatrix=(0 | 0 0) cmatrix=(5 | -1 5)\n"
            "New Line.x bus1=b.1.0 bus2=e.1.0 linecode=k",
            ["T+1 grounded at both ends"],
            ["New Line.x bus1=b.1 bus2=e.1 phases=1 rmatrix=(1.75) xmatrix=(0) cmatrix=(5)"],
        )
        self.check(f"New Line.x phases=4 bus1=b.1.2.3.4 bus2=e.1.2.3.4 {ZERO}", ["R line.phases"])

    def test_kron_code(self) -> None:
        """`kron=yes` of a code."""
        self.check(
            "New Linecode.k nphases=2 rmatrix=(2 | 1 4) xmatrix=(0 | 0 0) cmatrix=(5 | -1 5) neutral=2 kron=yes\n"
            "New Line.x bus1=b.1 bus2=e.1 linecode=k",
            ["T conductor 2 is taken out"],
            ["New Linecode.k nphases=1 units=none rmatrix=(1.75) xmatrix=(0) cmatrix=(5)"],
        )

    def test_nodes(self) -> None:
        """A fourth node that is ground, and one node for two conductors."""
        self.check(f"New Line.x bus1=b.1.2.3.0 bus2=e {ZERO}", ["T has 3 nodes"], ["bus1=b.1.2.3 bus2=e"])
        self.check(
            f"New Line.x phases=2 bus1=b.1 bus2=e.1.2 {ZERO}", ["T as OpenDSS fills it up"], ["bus1=b.1.2 bus2=e.1.2"]
        )

    def test_geometry(self) -> None:
        """Kersting's example 4.1: 0.4576 + j1.0780 ohms per mile at its first entry, once for two lines."""
        answer = self.check(
            "New WireData.p rac=0.306 runits=mi gmrac=0.0244 gmrunits=ft diam=0.721 radunits=in\n"
            "New WireData.n rac=0.592 runits=mi gmrac=0.00814 gmrunits=ft diam=0.563 radunits=in\n"
            "New LineSpacing.s nconds=4 nphases=3 units=ft x=[0 2.5 7 4] h=[29 29 29 25]\n"
            "New LineGeometry.g nconds=4 nphases=3 reduce=y spacing=s wires=[p p p n]\n"
            f"New Line.x {ENDS} geometry=g length=5280 units=ft\n"
            "New Line.y bus1=e bus2=f spacing=s wires=[p p p n] length=1 units=mi\n"
            "New Line.z bus1=f bus2=h geometry=g length=100",
            ["T wiredata.p", "T+1 wiredata.n", "T+2 linespacing.s", "T+3 linegeometry.g"]
            + ["T+4 LineGeometry.g as", "T+5 LineSpacing.s as", "T+6 LineGeometry.g as", "T+6 in meters"],
            ["New Line.x bus1=b bus2=e linecode=g length=5280 units=ft", "linecode=g length=100 units=m"],
        )
        found = elements(answer.text)
        for code in ("g", "s"):
            self.assertAlmostEqual(found[("linecode", code)]["rmatrix"][0][0] / 1e9, 0.4576, delta=1e-4)
            self.assertAlmostEqual(found[("linecode", code)]["xmatrix"][0][0] / 1e9, 1.0780, delta=1e-4)
            self.assertAlmostEqual(found[("linecode", code)]["xmatrix"][2][0] / 1e9, 0.3849, delta=1e-4)

    def test_cables(self) -> None:
        """Configuration 606 of the 13-node feeder, in OpenDSS's words."""
        answer = self.check(
            "New CNData.c runits=mi radunits=in gmrunits=in epsr=2.3 inslayer=0.220 diains=1.06 diacable=1.16\n"
            "~ rac=0.41 gmrac=0.20568 diam=0.573 rstrand=14.87200 gmrstrand=0.02496 diastrand=0.0641 k=13\n"
            "New LineSpacing.s nconds=3 nphases=3 units=ft x=[-0.5 0 0.5] h=[-4 -4 -4]\n"
            f"New Line.x {ENDS} spacing=s cncables=[c c c] length=500 units=ft",
            ["T cndata.c", "T+1 cndata.c", "T+2 linespacing.s", "T+3 LineSpacing.s"],
        )
        found = elements(answer.text)[("linecode", "s")]
        self.assertAlmostEqual(found["rmatrix"][0][0] / 1e9, 0.7982, delta=0.02)
        self.assertAlmostEqual(found["xmatrix"][0][0] / 1e9, 0.4463, delta=0.02)

    def test_frequency(self) -> None:
        """A code of another frequency."""
        self.check(f"New Linecode.k basefreq=50 {ZERO}", ["R linecode.basefreq"])


class Transformers(Constructs):
    """Transformers and their codes."""

    def test_code(self) -> None:
        """XfmrCode, with what is set behind it."""
        self.check(
            "New XfmrCode.k phases=3 windings=2 conns=[delta wye] kvs=[12.47 0.48] kvas=[300 300] xhl=4 %rs=[0.6 0.6]\n"
            "New Transformer.t xfmrcode=k buses=[b s] kvas=[500 500]",
            ["T xfmrcode.k", "T+1 xfmrcode=k"],
            ["buses=(b s) conns=(delta wye) kvs=(12.47 0.48) kvas=(500 500) xhl=4 %rs=(0.6 0.6)"],
        )

    def test_magnetizing(self) -> None:
        """0.2 % of 500 kVA is 1 kW, 0.5 % 2.5 kvar, at the last winding."""
        self.check(
            "New Transformer.t buses=[b s] conns=[delta wye] kvs=[12.47 0.48] kvas=[500 500] xhl=4\n"
            "~ %noloadloss=.2 %imag=.5",
            ["T+1 no-load losses"],
            ["New Load.noload_t bus1=s phases=3 conn=wye model=2 kv=0.48 kw=1 kvar=2.5"],
        )

    def test_centre_tap(self) -> None:
        """2.04, 2.04 and 1.36 per cent are a star of 1.36, 0.68 and 0.68; 7.2 kV at 25 kVA is 2,073.6 ohms."""
        self.check(
            "New Transformer.t phases=1 windings=3 buses=[b.1 s.1.0 s.0.2] kvs=[7.2 .12 .12] kvas=[25 25 25]\n"
            "~ %rs=[0.6 1.2 1.2] xhl=2.04 xht=2.04 xlt=1.36",
            ["T three windings"],
            ["New Line.t_star bus1=b.1 bus2=t_star.1 phases=1 rmatrix=(12.4416) xmatrix=(28.20096)"]
            + ["buses=(t_star.1 s.1.0) conns=(wye wye) kvs=(7.2 0.12) kvas=(25 25) xhl=0.68 %rs=(0 1.2)"]
            + ["buses=(t_star.1 s.0.2) conns=(wye wye) kvs=(7.2 0.12) kvas=(25 25) xhl=0.68 %rs=(0 1.2)"],
        )

    def test_three_windings(self) -> None:
        """A tertiary on three phases."""
        self.check(
            "New Transformer.t windings=3 buses=[b s u] kvs=[12.47 4.16 0.48] kvas=[1 1 1]", ["R transformer.windings"]
        )

    def test_unequal_ratings(self) -> None:
        """OpenDSS's impedances are on the first winding's kVA."""
        self.check(
            "New Transformer.t buses=[b s] kvs=[12.47 0.48] kvas=[75 50] xhl=3", ["T both kva are 75"], ["kvas=(75 75)"]
        )

    def test_windings_one_by_one(self) -> None:
        """`wdg`, tap limits, and a kVA of the first winding that counts for both."""
        self.check(
            "New Transformer.t xhl=5\n~ wdg=1 bus=b conn=d kv=12.47 kva=200 %r=.5\n"
            "~ wdg=2 bus=s conn=y kv=.48 %r=.6 tap=1.025 maxtap=1.05 mintap=.95 numtaps=16",
            [],
            ["kvas=(200 200) xhl=5 %rs=(0.5 0.6) taps=(1 1.025) wdg=2 mintap=0.95 maxtap=1.05 numtaps=16"],
        )

    def test_neutral(self) -> None:
        """Neutrals: at ground, on a node, and behind an impedance."""
        text = "New Transformer.t conns=[d y] kvs=[12.47 .48] kvas=[1 1] xhl=5 buses=[b {}] {}"
        self.check(text.format("s.1.2.3.0", "wdg=2 rneut=-1"), ["D rneut"], ["buses=(b s.1.2.3.0)"])
        self.check(text.format("s.1.2.3.4", ""), ["R transformer.neutral"])
        self.check(text.format("s", "wdg=2 rneut=5"), ["R transformer.rneut"])

    def test_ratings(self) -> None:
        """What only rates or names."""
        self.check(
            "New Transformer.t buses=[b s] kvs=[12.47 .48] xhl=3 normhkva=1 emerghkva=1 sub=y subname=x ppm=0 seasons=1"
            " core=1",
            ["D normhkva", "D emerghkva", "D sub ", "D subname", "T ppm is", "D ppm_antifloat", "D seasons", "D core"],
        )

    def test_lead(self) -> None:
        """A lower side that leads."""
        self.check(
            "New Transformer.t buses=[b s] conns=[d y] kvs=[12.47 .48] xhl=3 leadlag=lead", ["R transformer.leadlag"]
        )
        self.check("New Transformer.t buses=[b s] conns=[d y] kvs=[12.47 .48] xhl=3 leadlag=ANSI", ["D leadlag"])

    def test_two_phases(self) -> None:
        """An open wye: two transformers of half the kVA."""
        self.check(
            "New Transformer.t phases=2 buses=[b.1.3 s.1.3] kvs=[12.47 0.48] kvas=[100 100] xhl=3",
            ["T two phases as two transformers"],
            ["buses=(b.1 s.1) conns=(wye wye) kvs=(7.199557857 0.277128129) kvas=(50 50)", "buses=(b.3 s.3)"],
        )


class Shunts(Constructs):
    """Capacitors and reactors."""

    def test_steps(self) -> None:
        """Two of three steps closed."""
        self.check(
            "New Capacitor.c bus1=b kv=12.47 kvar=[100 200 300] numsteps=3 states=[1 0 1]",
            ["T 3 steps, of which 2 are closed"],
            ["kvar=400 states=(1)"],
        )
        self.check(
            "New Capacitor.c bus1=b kv=12.47 kvar=300 numsteps=3 states=[0 0 0]", ["T 3 steps"], ["kvar=300 states=(0)"]
        )

    def test_two_phases(self) -> None:
        """Half the kvar each."""
        self.check(
            "New Capacitor.c bus1=b.2.3 phases=2 kv=12.47 kvar=200",
            ["T two phases as two banks"],
            ["Capacitor.c_1 bus1=b.2 phases=1 kv=7.199557857 kvar=100", "Capacitor.c_2 bus1=b.3"],
        )

    def test_second_bus(self) -> None:
        """At ground, and in series."""
        self.check("New Capacitor.c bus1=b bus2=b.0.0.0 kv=12.47 kvar=1", ["D bus2 is ground"], ["bus1=b phases=3"])
        self.check("New Capacitor.c bus1=b bus2=e kv=12.47 kvar=1", ["R capacitor.bus2"])

    def test_microfarads(self) -> None:
        """Not by kvar."""
        self.check("New Capacitor.c bus1=b kv=12.47 cuf=10", ["R capacitor.cuf"])

    def test_reactor_in_series(self) -> None:
        """A line of one impedance for each phase."""
        self.check(
            "New Reactor.r bus1=b bus2=e r=0.1 x=2",
            ["T a reactor in series"],
            ["New Line.reactor_r bus1=b bus2=e phases=3 rmatrix=(0.1 | 0 0.1 | 0 0 0.1) xmatrix=(2 | 0 2 | 0 0 2)"],
        )

    def test_reactor_in_shunt(self) -> None:
        """300 kvar draws 300 kvar at its kV; 6 + j8 ohms at 10 kV draw 100 MVA / (6 - j8) = 6 MW + j8 Mvar."""
        self.check("New Reactor.r bus1=b kv=12.47 kvar=300", ["T a shunt reactor"], ["model=2 kv=12.47 kw=0 kvar=300"])
        self.check("New Reactor.r bus1=b.1 phases=1 kv=10 r=6 x=8", ["T a shunt reactor"], ["kv=10 kw=6000 kvar=8000"])


class Controls(Constructs):
    """RegControls and CapControls."""

    REGULATOR = "New Transformer.t phases=1 buses=[b.1 r.1] kvs=[7.2 7.2] kvas=[100 100] xhl=1\n"
    BANK = "New Capacitor.c bus1=b kv=12.47 kvar=100\n"

    def reg(self, more: str) -> str:
        """A regulator with one more pair on line 1."""
        return f"{self.REGULATOR}New RegControl.g transformer=t winding=2 vreg=122 band=2 ptratio=60 {more}"

    def cap(self, more: str) -> str:
        """A bank's control with one more pair on line 1."""
        return f"{self.BANK}New CapControl.g element=line.l capacitor=c type=cur onsetting=30 offsetting=20 {more}"

    def test_carried(self) -> None:
        """As they are."""
        self.check(self.reg("r=3 x=9 delay=30"), [], ["ptratio=60 r=3 x=9 delay=30"])
        self.check(self.cap("terminal=1"), [], ["element=line.l terminal=1 capacitor=c type=current onsetting=30"])

    def test_tap_number(self) -> None:
        """Tap 4 of 32 between 0.9 and 1.1 is 1.025."""
        self.check(self.reg("tapnum=4"), ["T tapnum=4 of", "T+1 tapnum=4 is its"], ["taps=(1 1.025)"])

    def test_without_effect(self) -> None:
        """Defaults that are written out."""
        self.check(
            self.reg("reversible=no tapwinding=2 vlimit=0 debugtrace=yes eventlog=no bus=r.1 revvreg=120"),
            [
                "D+1 reversible=no",
                "D+1 tapwinding",
                "D+1 vlimit=0",
                "D+1 debugtrace",
                "D+1 eventlog",
                "D+1 bus is",
                "D+1 revvreg",
            ],
        )
        self.check(
            self.cap("voltoverride=no vmax=130 vmin=110 eventlog=yes"),
            ["D+1 voltoverride=no", "D+1 vmax", "D+1 vmin", "D+1 eventlog"],
        )

    def test_refused(self) -> None:
        """What the profile's controls don't do."""
        for more, word in (
            ("bus=b.1", "regcontrol.bus"),
            ("reversible=yes", "regcontrol.reversible"),
            ("vlimit=130", "regcontrol.vlimit"),
            ("ptphase=max", "regcontrol.ptphase"),
            ("inversetime=yes", "regcontrol.inversetime"),
        ):
            self.check(self.reg(more), [f"R+1 {word}"])
        for more, word in (
            ("voltoverride=yes vmax=130", "capcontrol.voltoverride"),
            ("ptphase=avg", "capcontrol.ptphase"),
            ("vbus=b", "capcontrol.vbus"),
            ("type=time", "capcontrol.type"),
        ):
            self.check(self.cap(more), [f"R+1 {word}"])
        self.check(
            f"{self.REGULATOR}{self.BANK}New CapControl.g element=transformer.t capacitor=c", ["R+2 capcontrol.element"]
        )

    def test_left_out(self) -> None:
        """`--without` a property, and a class."""
        answer = answer_to(self.reg("bus=b.1"), "regcontrol.bus")
        self.assertEqual(answer.status, 0)
        self.assertIn("New RegControl.g", answer.text)
        answer = answer_to(self.reg("bus=b.1"), "regcontrol")
        self.assertEqual(answer.status, 0)
        self.assertNotIn("RegControl.g", answer.text)

    def test_steps_under_control(self) -> None:
        """A bank of steps has no control in the profile."""
        lines = self.BANK.replace("kvar=100", "kvar=[50 50] numsteps=2") + "New CapControl.g element=line.l capacitor=c"
        self.check(lines, ["R capacitor.numsteps", "T 2 steps"])


class Shapes(Constructs):
    """Loadshapes and daily flows."""

    DAY = "Set mode=daily number=3\nSolve\n"

    def load(self, more: str) -> str:
        """A load with a shape."""
        return f"New Load.d bus1=b kv=12.47 kw=1 kvar=1 vminpu=.9 vmaxpu=1.1 {more}\n"

    def test_numbers(self) -> None:
        """As they are, and as pmult by position."""
        self.check(
            "New Loadshape.s npts=3 interval=1 mult=(0.5 1 .25)\n" + self.load("daily=s"),
            [],
            ["mult=(0.5 1 0.25)"],
            tail=self.DAY,
        )
        self.check(
            "New Loadshape.s 3 1 pmult=[1 2 3]",
            ["T 3 by its", "T 1 by its", "T pmult is mult"],
            ["npts=3 interval=1 mult=(1 2 3)"],
        )

    def test_files(self) -> None:
        """A column with a head line, a csvfile, and binary numbers: 1, 0.5, 0.25 each."""
        files: dict[str, str | bytes] = {
            "s.csv": "a,b\n7,1\n7,0.5\n7,0.25\n",
            "T.CSV": "1\n.5\n.25\n",
            "d.dbl": struct.pack("<3d", 1, 0.5, 0.25),
            "f.sng": struct.pack("<3f", 1, 0.5, 0.25),
        }
        for value in ("mult=(file=s.csv, col=2, header=yes)", "csvfile=t.csv", "dblfile=d.dbl", "mult=(sngfile=f.sng)"):
            self.check(
                f"New Loadshape.s npts=3 {value}",
                ["T numbers of"],
                ["npts=3 interval=1 mult=(1 0.5 0.25)"],
                files=files,
            )

    def test_long_file(self) -> None:
        """A file that the profile reads stays a file."""
        answer = answer_to("New Loadshape.s npts=100 csvfile=y.csv", files={"y.csv": "1\n" * 100})
        self.assertIn("interval=1 mult=(file=y.csv)", answer.text)
        self.assertIn("! y.csv by mult=(file=y.csv); the file is looked for beside this script", answer.text)

    def test_interval(self) -> None:
        """Quarters of an hour: dropped for a snapshot, refused for a day."""
        lines = "New Loadshape.s npts=4 minterval=15 mult=(1 1 1 1)\n" + self.load("daily=s")
        self.check(lines, ["T minterval=15 is", "D isn't hourly", "D+1 daily=s"])
        self.check(lines, ["T minterval=15 is", "R loadshape.interval", "R+1 load.daily"], tail=self.DAY)
        self.check("New Loadshape.s npts=2 minterval=60 mult=(1 1)", ["T minterval=60 is interval=1"], ["interval=1"])

    def test_in_kilowatts(self) -> None:
        """A load of 10 kW and 5 kvar by a shape in kW: half as many kvar. Above 1,000 kW the load has 1,000."""
        self.check(
            "New Loadshape.s npts=3 mult=(3 7 0.5) useactual=yes\nNew Load.d bus1=b kv=12.47 kw=10 kvar=5 daily=s "
            "vminpu=.9 vmaxpu=1.1",
            ["T its numbers are kW", "T+1 the shape is in kW: kw=1"],
            ["mult=(3 7 0.5)", "kw=1 kvar=0.5 vminpu=0.9 vmaxpu=1.1 daily=s"],
            tail=self.DAY,
        )
        self.check(
            "New Loadshape.s npts=2 mult=(3000 500) useactual=yes\nNew Load.d bus1=b kv=12.47 kw=10 pf=1 daily=s "
            "vminpu=.9 vmaxpu=1.1",
            ["T its numbers are kW", "T+1 the shape is in kW: kw=1000"],
            ["mult=(3 0.5)", "kw=1000 kvar=0"],
            tail=self.DAY,
        )

    def test_shape_of_kvar(self) -> None:
        """A load with two shapes is two loads."""
        self.check(
            "New Loadshape.s npts=2 mult=(1 .5) qmult=(.2 .4)\n" + self.load("daily=s"),
            ["T qmult is a shape of its own, s_kvar"],
            ["New Loadshape.s_kvar npts=2 interval=1 mult=(0.2 0.4)"]
            + ["Load.d_kw bus1=b phases=3 kv=12.47 kw=1 kvar=0 vminpu=0.9 vmaxpu=1.1 daily=s"]
            + ["Load.d_kvar bus1=b phases=3 kv=12.47 kw=0 kvar=1 vminpu=0.9 vmaxpu=1.1 daily=s_kvar"],
            tail=self.DAY,
        )

    def test_yearly(self) -> None:
        """Hours of a year are hours."""
        self.check(
            "New Loadshape.s npts=2 mult=(1 .5)\n" + self.load("yearly=s"),
            ["T+1 yearly as daily", "T+2 mode=yearly as mode=daily"],
            ["daily=s", "Set mode=daily number=5"],
            tail="Set mode=yearly number=5\nSolve\n",
        )

    def test_absent_file(self) -> None:
        """A file that isn't there matters only where a Solve uses shapes."""
        lines = "New Loadshape.s npts=3 csvfile=c:\\none.csv\n" + self.load("daily=s")
        self.check(lines, ["D there is no file", "D+1 daily=s isn't in the script"])
        self.unreadable(lines, 0, "there is no file", tail=self.DAY)

    def test_refused(self) -> None:
        """Numbers below 0, and fewer than npts."""
        self.check("New Loadshape.s npts=3 mult=(1 1)", ["R loadshape.npts"], tail=self.DAY)
        self.check("New Loadshape.s npts=2 mult=(1 -1)", ["R loadshape.mult"], tail=self.DAY)
        self.check("New Loadshape.s npts=2 mult=(1 -1)", ["D numbers that the profile hasn't"])


class Sources(Constructs):
    """The source."""

    def circuit(self, pairs: str, remarks: list[str], wanted: list[str]) -> None:
        """A circuit of one line."""
        answer = answer_to(f"Clear\nNew Circuit.c basekv=10 {pairs}", head="")
        found = [f"{f.kind.name[0]} {f.word} {f.text}" for f in answer.findings.made]
        self.assertEqual(len(found), len(remarks), found)
        for remark in remarks:
            self.assertTrue(any(remark[2:] in f and f[0] == remark[0] for f in found), (remark, found))
        for piece in wanted:
            self.assertIn(piece, answer.text)

    def test_currents(self) -> None:
        """Root three times 10 kV times 10 kA is 173.205080757 MVA; 10.5 kA is OpenDSS's own for one phase."""
        self.circuit("isc3=10000", ["T isc3=10000 A", "T isc1=10500 A"], ["mvasc3=173.205080757 mvasc1=181.865334795"])

    def test_ohms(self) -> None:
        """Z1 alone gives Z0; R1 and X1 alone leave OpenDSS's 1.9 and 5.7."""
        self.circuit("Z1=[0.1, 0.5]", ["T z1 in ohms"], ["r1=0.1 x1=0.5 r0=0.1 x0=0.5"])
        self.circuit("r1=0.1 x1=0.5", ["T own r0 x0"], ["r1=0.1 x1=0.5 r0=1.9 x0=5.7"])
        self.circuit("puz1=[0.01 0.02] basemva=50", ["T puz1 in ohms"], ["r1=0.02 x1=0.04 r0=0.02 x0=0.04"])

    def test_angle(self) -> None:
        """Angles of the profile are multiples of 30 degrees."""
        self.circuit("angle=-30", [], ["angle=-30"])
        self.circuit("angle=7.5", ["T angle=7.5 as 0"], ["angle=0"])

    def test_refused(self) -> None:
        """Frequencies, sequences and second buses."""
        self.circuit("frequency=50", ["R vsource.frequency"], [])
        self.circuit("sequence=neg", ["D sequence", "R vsource.sequence"], [])
        self.circuit("bus2=x", ["R vsource.bus2"], [])
        self.circuit("frequency=60 bus2=sourcebus.0.0.0 scantype=pos", ["D bus2", "D scantype"], [])

    def test_50_hertz(self) -> None:
        """The option at the script's head."""
        answer = answer_to("Clear\nSet DefaultBaseFrequency=50\nNew Circuit.c basefreq=50", head="")
        self.assertIn("Clear\nSet defaultbasefrequency=50\nNew Circuit.c", answer.text.replace("\n\n", "\n"))

    def test_code_before_the_circuit(self) -> None:
        """OpenDSS takes line codes before the circuit, the profile doesn't."""
        answer = answer_to("Clear\nNew Linecode.k r1=1 x1=1 r0=1 x0=1 c1=0 c0=0\nNew Circuit.c", head="")
        self.assertLess(answer.text.index("New Circuit"), answer.text.index("New Linecode"))


class Options(Constructs):
    """Options and several Solves."""

    def test_modes(self) -> None:
        """Modes that aren't flows of a snapshot or a day."""
        for mode in ("faultstudy", "harmonics", "dynamics", "montecarlo1", "direct"):
            self.check("", ["R+1 set.mode"], tail=f"Set mode={mode}\nSolve\n")
        self.check(
            f"Set mode=snapshot hour=3 stepsize=15m\n{LOAD.replace('bus1=e', 'bus1=b')}",
            ["D hour", "D stepsize"],
            ["mode=snap"],
        )

    def test_steps(self) -> None:
        """Steps other than an hour, and hours that don't begin at 0."""
        self.check("Set mode=daily stepsize=15m number=96", ["R set.stepsize"])
        self.check("Set mode=daily stepsize=1h number=2 hour=0", [], ["number=2"])
        self.check("Set mode=daily hour=5", ["R set.hour"])
        self.check("Set mode=duty number=24 stepsize=3600", ["T mode=duty as mode=daily"], ["mode=daily number=24"])

    def test_refused(self) -> None:
        """What changes the flow by a rule of its own."""
        self.check(
            "Set loadmodel=admittance\nSet year=5\nSet controlmode=time",
            ["R set.loadmodel", "R+1 set.year", "R+2 set.controlmode"],
        )
        self.check("AllocateLoads\nReduce\nMakePosSeq", ["R allocateloads", "R+1 reduce", "R+2 makeposseq"])
        self.check("Set colour=3", ["R set.colour"])

    def test_solves(self) -> None:
        """A second Solve has edits of what has changed, a third nothing."""
        answer = answer_to(
            "New Load.d bus1=b kv=12.47 kw=10 pf=1 vminpu=.9 vmaxpu=1.1\nSolve\nSet loadmult=2\nLoad.d.vminpu=.8\nSolve"
        )
        self.assertEqual(answer.status, 0)
        self.assertIn("Solve\n\n", answer.text)
        self.assertIn("Edit Load.d kw=20 vminpu=0.8", answer.text)
        self.assertEqual(answer.text.count("Solve\n"), 3)
        self.assertEqual(elements(answer.text)[("load", "d")]["kw"], 20 * 10**9)

    def test_days_and_snapshots(self) -> None:
        """Setting the mode sets the number of hours, so both are written; a run that isn't set anew goes on."""
        answer = answer_to("Set mode=daily number=3\nSolve\nSet mode=snap\nSolve\nSet mode=daily number=3")
        self.assertEqual(answer.status, 0)
        self.assertEqual(answer.text.count("Set mode=daily number=3\n"), 2)
        self.check("Set mode=daily number=3\nSolve", ["R+2 solve"])

    def test_two_circuits(self) -> None:
        """A Clear between two circuits."""
        answer = answer_to("Solve\nClear\nNew Circuit.other basekv=1")
        self.assertEqual((answer.status, answer.text.count("Clear\n")), (0, 2))

    def test_no_solve(self) -> None:
        """A source without one gets one."""
        answer = answer_to("", tail="")
        self.assertTrue(answer.text.endswith("Solve\n"))
        self.assertIn("m.dss:0: translated: there is no Solve at its end: one is added", answer.remarks)


if __name__ == "__main__":
    unittest.main()
