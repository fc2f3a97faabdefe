"""Each construct of real scripts as one small case: carried, translated, dropped, or refused by which word."""

from __future__ import annotations

import unittest

from .cases import Constructs, answer_to

from feeder_companion.dss.loads import Limits

LOAD = "New Load.d bus1=b kv=12.47 kw=100 kvar=20 "
CODE = "New Linecode.k nphases=1 r1=0.3 x1=0.4 r0=0.3 x0=0.4 c1=0 c0=0 units=km\n"


class Dropped(Constructs):
    """What has no effect on the flow."""

    def test_meters(self) -> None:
        """Meters, monitors and what only shows."""
        self.check(
            "New EnergyMeter.m Line.l 1\nNew Monitor.m element=line.l terminal=1 mode=0\n~ ppolar=no\n"
            "New Sensor.s element=line.l\nPlot profile\nShow voltages\nExport currents\nVisualize what=powers\n"
            "BusCoords xy.csv\nSummary\nSetkVBase bus=b kVLL=12.47\nMakeBusList\n? Line.l.length\nInterpolate",
            ["D energymeter.m", "D+1 monitor.m", "D+2 monitor.m", "D+3 sensor.s", "D+4 plot", "D+5 show", "D+6 export"]
            + ["D+7 visualize", "D+8 buscoords", "D+9 summary", "D+10 setkvbase", "D+11 makebuslist", "D+12 ?"]
            + ["D+13 interpolate"],
        )

    def test_harmless_classes(self) -> None:
        """Classes for other studies."""
        self.check(
            "New Spectrum.s numharm=1\nNew GrowthShape.g npts=1\nNew TCC_Curve.t npts=2\nNew XYCurve.x npts=2",
            ["D spectrum.s", "D+1 growthshape.g", "D+2 tcc_curve.t", "D+3 nothing names it"],
        )

    def test_enabled(self) -> None:
        """What isn't enabled isn't there; what is, is."""
        self.check(
            LOAD + "vminpu=0.9 enabled=no\nNew Load.e bus1=b kv=12.47 kw=1 vminpu=0.9 vmaxpu=1.1 enabled=true",
            ["D it isn't enabled"],
            ["New Load.e bus1=b phases=3 kv=12.47 kw=1 vminpu=0.9 vmaxpu=1.1"],
        )

    def test_load_properties(self) -> None:
        """Properties of a load for other studies."""
        self.check(
            LOAD + "vminpu=.9 vmaxpu=1.1 spectrum=x growth=y relweight=1 vminnorm=.95 rneut=0 status=variable class=2",
            ["D spectrum", "D growth", "D relweight", "D vminnorm", "D rneut", "D status=variable"],
            ["kw=100 kvar=20 vminpu=0.9 vmaxpu=1.1 class=2"],
        )

    def test_class(self) -> None:
        """A load's class is a number that is kept, or a word that isn't."""
        self.check(
            LOAD + "vminpu=.9 vmaxpu=1.1 class=home numcust=3", ["D class has no part"], ["vmaxpu=1.1 numcust=3"]
        )

    def test_unfed(self) -> None:
        """What no source feeds, with the controls of it."""
        self.check(
            "New Line.far bus1=x bus2=y r1=1 x1=1 r0=1 x0=1 c1=0 c0=0\nNew Capacitor.k bus1=y kv=12.47 kvar=100\n"
            "New CapControl.q element=line.far capacitor=k type=current",
            [
                "D line.far: no source feeds it",
                "D+1 capacitor.k: no source",
                "D+2 capcontrol.q: its capacitor isn't in the script",
            ],
        )

    def test_display_options(self) -> None:
        """Options for pictures."""
        self.check("Set marktransformers=yes daisysize=1\nSet algorithm=newton", ["D", "D", "D+1 algorithm"])


class Spelling(Constructs):
    """The same in other words."""

    def test_positions(self) -> None:
        """Values without names."""
        self.check(
            CODE + "New Line.x b.1 e.1 k 1.5 units=km",
            ["T+1 b.1 by its position is bus1", "T+1 bus2", "T+1 linecode", "T+1 1.5 by its position is length"],
            ["New Line.x bus1=b.1 bus2=e.1 linecode=k length=1.5 units=km"],
        )

    def test_abbreviations(self) -> None:
        """Commands, properties and options."""
        self.check(
            CODE + "New Line.x bus1=b.1 bus2=e.1 linec=k leng=2 unit=km\nSet maxiter=50 toler=0.001 maxcontrol=4",
            ["T+1 linec is linecode", "T+1 leng is length", "T+1 unit is units"]
            + ["T+2 maxiter is maxiterations", "T+2 toler is tolerance", "T+2 maxcontrol is maxcontroliter"],
            ["linecode=k length=2 units=km", "Set maxiterations=50 tolerance=0.001 maxcontroliter=4"],
        )

    def test_connections(self) -> None:
        """d, y, ln, ll."""
        self.check(
            "New Load.p bus1=b kv=12.47 kw=1 conn=D vminpu=.9 vmaxpu=1.1\n"
            "New Transformer.t buses=[b s] conns=[D Y] kvs=[12.47 0.48] kvas=[100 100] xhl=4\n"
            "New Load.q bus1=s kv=0.48 kw=1 conn=LN vminpu=.9 vmaxpu=1.1",
            [],
            ["New Load.p bus1=b phases=3 conn=delta kv=12.47 kw=1", "conns=(delta wye)", "bus1=s phases=3 conn=wye"],
        )

    def test_postfix(self) -> None:
        """OpenDSS's expressions: 12.47 over root three is 7.199557857, to nine decimals."""
        self.check(
            "New Load.d bus1=b.1 phases=1 kv=(12.47 3 sqrt /) kw=[2 3 ^] kvar=1 vminpu=.9 vmaxpu=1.1",
            ["T kv=(12.47 3 sqrt /) is 7.199557857", "T kw=(2 3 ^) is 8"],
            ["kv=7.199557857 kw=8 kvar=1"],
        )

    def test_exponents(self) -> None:
        """Exponents of three digits, as MATLAB prints them."""
        self.check(LOAD.replace("100", "1.0e+002") + "vminpu=9E-001 vmaxpu=1.1", [], ["kw=100 kvar=20 vminpu=0.9"])

    def test_like(self) -> None:
        """A copy of another element, but for where it stands."""
        self.check(
            "New Load.p bus1=b.1 phases=1 kv=7.2 kw=5 pf=0.9 vminpu=.9 vmaxpu=1.1\nNew Load.q like=p bus1=b.2 kw=6",
            ["T+1 like=p"],
            ["New Load.q bus1=b.2 phases=1 kv=7.2 kw=6 pf=0.9 vminpu=0.9 vmaxpu=1.1"],
        )

    def test_edit_batch_and_property(self) -> None:
        """Later settings stand where the element is made."""
        self.check(
            "New Load.p1 bus1=b.1 phases=1 kv=7.2 kw=5 kvar=0\nNew Load.p2 bus1=b.2 phases=1 kv=7.2 kw=5 kvar=0\n"
            "BatchEdit Load.p. vminpu=0.85 vmaxpu=1.15\nEdit Load.p1 kw=7\nLoad.p2.kw=9",
            ["T+2 set at each of 2 elements", "T+3 set where", "T+4 set where"],
            [
                "Load.p1 bus1=b.1 phases=1 kv=7.2 kw=7 kvar=0 vminpu=0.85",
                "Load.p2 bus1=b.2 phases=1 kv=7.2 kw=9 kvar=0",
            ],
        )

    def test_names(self) -> None:
        """Letters that the profile hasn't, with another name that is taken already."""
        self.check(
            "New Linecode.3_0 nphases=3 r1=1 x1=1 r0=1 x0=1 c1=0 c0=0\n"
            "New Linecode.3/0 nphases=3 r1=2 x1=1 r0=1 x0=1 c1=0 c0=0\nNew Line.l(r:1) bus1=b bus2=n#1 linecode=3/0",
            ["T+1 3/0 is named 3_0_2", "T+2 l(r:1) is named l_r_1_", "T+2 n#1 is named n_1", "T+2 3/0 is named 3_0_2"],
            ["New Linecode.3_0_2", "New Line.l_r_1_ bus1=b bus2=n_1 linecode=3_0_2"],
        )

    def test_comments_and_bytes(self) -> None:
        """Block comments, a Latin-1 byte, carriage returns, tabs and `More`."""
        lines = (
            b"/* a\nb */\n! caf\xe9\r\nNew Load.d bus1=b\tkv=12.47\r\nMore kw=3, kvar=1 vminpu=.9 vmaxpu=1.1 // end\r\n"
        )
        answer = answer_to(lines)
        self.assertEqual((answer.status, answer.findings.made), (0, []))
        self.assertIn("New Load.d bus1=b phases=3 kv=12.47 kw=3 kvar=1", answer.text)

    def test_byte_order_marks(self) -> None:
        """UTF-8 with its mark, and UTF-16."""
        text = "Clear\nNew Circuit.c\nSolve\n"
        for data in (b"\xef\xbb\xbf" + text.encode(), b"\xff\xfe" + text.encode("utf-16-le")):
            answer = answer_to(data, head="", tail="")
            self.assertEqual((answer.status, answer.findings.made), (0, []))

    def test_variables(self) -> None:
        """`Var`."""
        self.check(
            "Var @p=7 @bus=b\nNew Load.d bus1=@bus.1 phases=1 kv=7.2 kw=@p kvar=1 vminpu=.9 vmaxpu=1.1",
            ["T each variable"],
            ["bus1=b.1 phases=1 kv=7.2 kw=7"],
        )


class Loads(Constructs):
    """Loads that the profile says otherwise."""

    def test_kva(self) -> None:
        """125 kVA at 0.8 are 100 kW."""
        self.check(
            "New Load.d bus1=b kv=12.47 kva=125 pf=0.8 vminpu=.9 vmaxpu=1.1",
            ["T kva and pf as kw=100"],
            ["kw=100 pf=0.8"],
        )

    def test_transformer_kva(self) -> None:
        """50 kVA times 0.4 times 0.9 are 18 kW; without a factor OpenDSS takes half."""
        self.check(
            "New Load.d bus1=b kv=12.47 xfkva=50 allocationfactor=0.4 pf=0.9 vminpu=.9 vmaxpu=1.1",
            ["T xfkva and pf as kw=18"],
            ["kw=18 pf=0.9"],
        )

    def test_energy(self) -> None:
        """7,200 kWh in 30 days at a factor of 2 are 20 kW."""
        self.check(
            "New Load.d bus1=b kv=12.47 kwh=7200 kwhdays=30 cfactor=2 pf=1 vminpu=.9 vmaxpu=1.1",
            ["T kwh and pf as kw=20"],
            ["kw=20 pf=1"],
        )

    def test_two_phases_in_wye(self) -> None:
        """0.208 kV between phases is 0.120088856 to ground."""
        self.check(
            "New Load.d bus1=b.2.3 phases=2 kv=0.208 kw=6 kvar=2 vminpu=.9 vmaxpu=1.1",
            ["T two phases as two loads"],
            ["Load.d_1 bus1=b.2 phases=1 kv=0.120088856 kw=3 kvar=1", "Load.d_2 bus1=b.3 phases=1 kv=0.120088856"],
        )

    def test_two_phases_in_delta(self) -> None:
        """Open delta: between nodes 1 and 2, and 2 and 3."""
        self.check(
            "New Load.d bus1=b.1.2.3 phases=2 conn=d kv=12.47 kw=6 kvar=2 vminpu=.9 vmaxpu=1.1",
            ["T two phases in delta"],
            ["Load.d_1 bus1=b.1.2 phases=1 conn=delta kv=12.47 kw=3", "Load.d_2 bus1=b.2.3 phases=1 conn=delta"],
        )

    def test_zip(self) -> None:
        """Half impedance, 0.3 current, 0.2 power of kW; all impedance of kvar."""
        self.check(
            LOAD + "model=8 zipv=(0.5 0.3 0.2 1 0 0 0) vminpu=.9 vmaxpu=1.1",
            ["T model 8 as loads of model 1 and 2 and 5"],
            ["d_z bus1=b phases=3 model=2 kv=12.47 kw=50 kvar=20", "d_i bus1=b phases=3 model=5 kv=12.47 kw=30 kvar=0"]
            + ["d_p bus1=b phases=3 model=1 kv=12.47 kw=20 kvar=0"],
        )

    def test_zip_cutoff(self) -> None:
        """A load that OpenDSS switches off at low voltage."""
        self.check(
            LOAD + "model=8 zipv=(1 0 0 1 0 0 0.7) vminpu=.9 vmaxpu=1.1",
            ["T model 8", "N off below 0.7 per unit"],
            ["model=2"],
        )

    def test_models(self) -> None:
        """Model 3: constant kW, kvar by the square; model 4 with whole exponents; model 6."""
        limits = "vminpu=.9 vmaxpu=1.1"
        pieces = [
            "d_p bus1=b phases=3 model=1 kv=12.47 kw=100 kvar=0",
            "d_z bus1=b phases=3 model=2 kv=12.47 kw=0 kvar=20",
        ]
        self.check(LOAD + "model=3 " + limits, ["T model 3"], pieces)
        self.check(LOAD + "model=4 cvrwatts=0 cvrvars=2 " + limits, ["T model 4"], pieces)
        self.check(LOAD + "model=6 " + limits, ["T model 6"], ["model=1 kv=12.47 kw=100 kvar=20"])

    def test_model_4(self) -> None:
        """V^0.8 has value 1, slope 0.8 and curvature -0.16 at 1: -0.08 V^2 + 0.96 V + 0.12."""
        self.check(LOAD + "model=4 cvrwatts=0.8 cvrvars=3", ["T vminpu", "T vmaxpu", "T model 4", "R load.model"])
        answer = answer_to(LOAD + "model=4 cvrwatts=0.8 cvrvars=3 vminpu=.9 vmaxpu=1.1", "load.model")
        self.assertEqual(answer.status, 0)
        for piece in (
            "model=2 kv=12.47 kw=-8 kvar=60",
            "model=5 kv=12.47 kw=96 kvar=-60",
            "model=1 kv=12.47 kw=12 kvar=20",
        ):
            self.assertIn(piece, answer.text)

    def test_multipliers(self) -> None:
        """loadmult counts for variable loads alone."""
        tail = "Set loadmult=0.5\nSolve\n"
        self.check(
            LOAD + "vminpu=.9 vmaxpu=1.1\nNew Load.f bus1=b kv=12.47 kw=10 kvar=1 status=fixed vminpu=.9 vmaxpu=1.1",
            ["T loadmult=0.5", "T+1 status=fixed", "T+2 loadmult is worked"],
            ["Load.d bus1=b phases=3 kv=12.47 kw=50 kvar=10", "Load.f bus1=b phases=3 kv=12.47 kw=10 kvar=1"],
            tail=tail,
        )

    def test_limits(self) -> None:
        """vminpu: the source's own, the user's, or a warning."""
        self.check(LOAD, ["W load.d has no vminpu"], ["kw=100 kvar=20"], limits=Limits())
        self.check(LOAD, ["T vminpu as asked", "T vmaxpu as asked"], ["kvar=20 vminpu=0.8 vmaxpu=1.2"])
        self.check(LOAD + "vminpu=0.1 vmaxpu=3", ["T vminpu is 0.4", "T vmaxpu is 2"], ["vminpu=0.4 vmaxpu=2"])
        self.check(LOAD + "model=2", [], ["model=2"], limits=Limits())

    def test_neutral(self) -> None:
        """A neutral on a node of its own, and one at ground."""
        self.check("New Load.d bus1=b.1.2.3.4 kv=12.47 kw=1 vminpu=.9 vmaxpu=1.1", ["R load.neutral"])
        self.check("New Load.d bus1=b.1.2.3.0 kv=12.47 kw=1 vminpu=.9 vmaxpu=1.1", [], ["bus1=b.1.2.3 phases=3"])

    def test_refused(self) -> None:
        """A property that OpenDSS hasn't."""
        self.check(LOAD + "vminpu=.9 vmaxpu=1.1 colour=red", ["R load.colour"])


class Plants(Constructs):
    """Generators and what else feeds in."""

    def test_generator(self) -> None:
        """A load below zero; a generator's kvar leave it."""
        self.check(
            "New Generator.g bus1=b kv=12.47 kw=80 pf=0.8 model=1 kva=100 xd=1",
            ["T a generator", "D kva", "D xd"],
            ["New Load.g bus1=b phases=3 model=1 kv=12.47 kw=-80 kvar=-60 vminpu=0.9 vmaxpu=1.1"],
        )

    def test_generator_and_load_of_one_name(self) -> None:
        """They are two loads here, of two names."""
        load = "New Load.g bus1=b kv=12.47 kw=5 vminpu=.9 vmaxpu=1.1"
        self.check(
            "New Generator.g bus1=b kv=12.47 kw=80 kvar=0\n" + load,
            ["T a generator", "T+1 g is named g_2"],
            ["New Load.g bus1=b phases=3 kv=12.47 kw=-80", "New Load.g_2 bus1=b phases=3 kv=12.47 kw=5"],
        )

    def test_generator_models(self) -> None:
        """A voltage-controlled machine."""
        self.check("New Generator.g bus1=b kv=12.47 kw=80 pf=1 model=3", ["R generator.model"])

    def test_plant(self) -> None:
        """500 kW of panels at 0.9, derated to 0.8 by temperature and 0.95 by the inverter: 342 kW."""
        self.check(
            "New XYCurve.t npts=2 xarray=[0 75] yarray=[1.2 0.6]\n"
            "New XYCurve.e npts=2 xarray=[0.1 1] yarray=[0.95 0.95]\n"
            "New PVSystem.v bus1=b kv=12.47 pmpp=500 kva=500 irradiance=0.9 temperature=50 p-tcurve=t effcurve=e pf=1",
            ["T xycurve.t", "T+1 xycurve.e", "T+2 at the temperature", "T+2 the curve's value is", "T+2 a plant"],
            ["New Load.v bus1=b phases=3 kv=12.47 kw=-342 kvar=0 vminpu=0.9 vmaxpu=1.1"],
        )

    def test_plant_inverter(self) -> None:
        """600 kW behind 500 kVA: 500 at a power factor of 1; with kvar besides, either may give way."""
        plant = "New PVSystem.v bus1=b kv=12.47 pmpp=600 kva=500 irradiance=1 "
        self.check(plant, ["T a plant"], ["kw=-500 kvar=0"])
        self.check(plant + "%pmpp=50 pf=0.8", ["T a plant"], ["kw=-300 kvar=-225"])
        self.check(plant + "pf=0.8", ["T a plant", "R pvsystem.kva"])

    def test_plant_cut_out(self) -> None:
        """Below 20 % of its kVA an inverter is off."""
        self.check(
            "New PVSystem.v bus1=b kv=12.47 pmpp=500 kva=500 irradiance=0.19",
            ["T a plant", "T off: below 100 kW"],
            ["kw=0"],
        )
        lines = "New Loadshape.s npts=2 mult=(1 .1)\nNew PVSystem.v bus1=b kv=12.47 pmpp=500 daily=s"
        self.check(lines, ["T+1 a plant", "R+1 pvsystem.%cutout"], tail="Set mode=daily number=2\nSolve\n")
        self.check(lines + " %cutout=0", ["T+1 a plant"], ["daily=s"], tail="Set mode=daily number=2\nSolve\n")

    def test_refused_classes(self) -> None:
        """What acts by rules of its own: all of it at once."""
        lines = "New Storage.s bus1=b\nNew InvControl.i mode=voltvar\nNew Fault.f bus1=b\nNew Isource.i bus1=b amps=1"
        answer = self.check(lines, ["R storage", "R+1 invcontrol", "R+2 fault", "R+3 isource"])
        self.assertIn("refused: 4 places; no script is written", answer.remarks)
        left = answer_to(lines, "storage", "invcontrol", "fault", "isource")
        self.assertEqual((left.status, len(left.findings.made)), (0, 4))

    def test_unknown_class(self) -> None:
        """A class that nobody knows."""
        self.check("New Widget.w bus1=b", ["R widget"])


class Protection(Constructs):
    """Devices that open lines."""

    def test_not_carried(self) -> None:
        """They would open above their settings."""
        self.check(
            "New Fuse.f monitoredobj=line.l\nNew Recloser.r monitoredobj=line.l\nNew Relay.r monitoredobj=line.l",
            ["N fuse.f", "N+1 recloser.r", "N+2 relay.r"],
        )

    def test_open(self) -> None:
        """An open line, and one that was closed again."""
        line = "bus1=b bus2=c r1=1 x1=1 r0=1 x0=1 c1=0 c0=0\n"
        self.check(
            f"New Line.o {line}New Line.q {line}Open Line.o 2\nOpen Line.q 1\nClose Line.q 1",
            ["T line.o is open at terminal 2", "T+2 line.o is open", "T+4 the switch"],
            ["New Line.q"],
        )

    def test_one_conductor(self) -> None:
        """One phase of three."""
        self.check("Open Line.l 1 2", ["R open"])

    def test_disable(self) -> None:
        """`Disable` and `Enable`."""
        self.check(LOAD + "vminpu=.9 vmaxpu=1.1\nDisable Load.d", ["D it isn't enabled", "T+1 left out"])
        self.check(LOAD + "vminpu=.9 vmaxpu=1.1\nDisable Load.d\nEnable Load.d", ["T+1", "T+2"], ["New Load.d"])

    def test_switch_control(self) -> None:
        """A switch that stands open, and one that is closed."""
        line = "bus1=b bus2=c r1=1 x1=1 r0=1 x0=1 c1=0 c0=0\n"
        self.check(
            f"New Line.o {line}New SwtControl.s switchedobj=line.o switchedterm=1 action=open",
            ["T line.o is open at terminal 1: left out", "T+1 line.o is open", "T+1 line.o is open at"],
        )
        self.check(
            f"New Line.o {line}New SwtControl.s switchedobj=line.o switchedterm=1 state=closed",
            ["D+1 the switch is closed"],
        )


if __name__ == "__main__":
    unittest.main()
