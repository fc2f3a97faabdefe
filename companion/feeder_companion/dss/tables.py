"""OpenDSS's commands, options, classes and properties, in the order in which abbreviations and positions count."""

from __future__ import annotations

COMMANDS = """new edit more m ~ select save show solve enable disable plot reset compile set dump open close // redirect
help quit ? next panel sample clear about calcvoltagebases setkvbase buildy get init export fileedit voltages currents
powers seqvoltages seqcurrents seqpowers losses phaselosses cktlosses allocateloads formedit totals capacity classes
userclasses zsc zsc10 zscrefresh ysc puvoltages varvalues varnames buscoords makebuslist makeposseq reduce interpolate
alignfile top rotate vdiff summary distribute di_plot comparecases yearlycurves cd visualize closedi doscmd estimate
reconductor _initsnap _solvenocontrol _samplecontrols _docontrolactions _showcontrolqueue _solvedirect _solvepflow
addbusmarker uuids setloadandgenkv cvrtloadshapes nodediff rephase setbusxy updatestorage obfuscate latlongcoords
batchedit pstcalc variable reprocessbuses clearbusmarkers relcalc var cleanup finishtimestep nodelist newactor clearall
wait solveall calcincmatrix calcincmatrix_o tear_circuit connect disconnect refine_buslevels remove abort calclaplacian
clone fncspublish exportoverloads exportvviolations zsc012 aggregateprofiles allpceatbus allpdeatbus totalpowers comhelp
gismapcircuit gisroutejson pvloadshapes""".split()

SILENT_COMMANDS = frozenset(
    """select save show plot reset dump help quit ? next panel sample about buildy get export fileedit voltages currents
    powers seqvoltages seqcurrents seqpowers losses phaselosses cktlosses formedit totals capacity classes userclasses
    zsc zsc10 zscrefresh ysc puvoltages varvalues varnames buscoords makebuslist alignfile top vdiff summary di_plot
    comparecases yearlycurves visualize closedi addbusmarker uuids nodediff setbusxy latlongcoords pstcalc variable
    reprocessbuses clearbusmarkers relcalc cleanup nodelist calcincmatrix calcincmatrix_o calclaplacian exportoverloads
    exportvviolations zsc012 aggregateprofiles allpceatbus allpdeatbus totalpowers comhelp gismapcircuit gisroutejson
    setkvbase interpolate init wait newactor obfuscate""".split()
)

OPTIONS = """type element hour sec year frequency stepsize mode random number time class object circuit editor tolerance
maxiterations h loadmodel loadmult normvminpu normvmaxpu emergvminpu emergvmaxpu %mean %stddev ldcurve %growth genkw
genpf capkvar addtype allowduplicates zonelock ueweight lossweight ueregs lossregs voltagebases algorithm trapezoidal
autobuslist controlmode tracecontrol genmult defaultdaily defaultyearly allocationfactors cktmodel pricesignal
pricecurve terminal basefrequency harmonics maxcontroliter bus datapath keeplist reduceoption demandinterval %normal
diverbose casename markercode nodewidth log recorder overloadreport voltexceptionreport cfactors showexport
numallociterations defaultbasefrequency markswitches switchmarkercode daisysize marktransformers transmarkercode
transmarkersize loadshapeclass earthmodel querylog markcapacitors markregulators markpvsystems markstorage
capmarkercode regmarkercode pvmarkercode storemarkercode capmarkersize regmarkersize pvmarkersize storemarkersize
neglectloady minvoltage markfuses markreclosers markrelays fusemarkercode reclosermarkercode relaymarkercode
fusemarkersize reclosermarkersize relaymarkersize miniterations processtime totaltime steptime samplenergymeters
maxcontroliterations dssvisualizationtool stepsizehours concatenatereports numcpus numcores numactors activeactor
parallel coverage num_subcircuits statevar""".split()

SILENT_OPTIONS = frozenset(
    """type element random class object circuit editor normvminpu normvmaxpu emergvminpu emergvmaxpu %mean %stddev
    ldcurve genkw genpf capkvar addtype allowduplicates zonelock ueweight lossweight ueregs lossregs algorithm
    trapezoidal autobuslist tracecontrol defaultdaily defaultyearly pricesignal pricecurve terminal harmonics bus
    keeplist reduceoption demandinterval %normal diverbose casename markercode nodewidth log recorder overloadreport
    voltexceptionreport showexport numallociterations markswitches switchmarkercode daisysize marktransformers
    transmarkercode transmarkersize loadshapeclass querylog markcapacitors markregulators markpvsystems markstorage
    capmarkercode regmarkercode pvmarkercode storemarkercode capmarkersize regmarkersize pvmarkersize storemarkersize
    minvoltage markfuses markreclosers markrelays fusemarkercode reclosermarkercode relaymarkercode fusemarkersize
    reclosermarkersize relaymarkersize miniterations processtime totaltime steptime samplenergymeters
    dssvisualizationtool concatenatereports numcpus numcores numactors activeactor parallel coverage num_subcircuits
    %growth""".split()
)

RATINGS = "normamps emergamps faultrate pctperm repair"
CABLE = "epsr inslayer diains diacable"
CONDUCTOR = "rdc rac runits gmrac gmrunits radius radunits normamps emergamps diam seasons ratings capradius"

PROPERTIES: dict[str, list[str]] = {
    "vsource": """bus1 basekv pu angle frequency phases mvasc3 mvasc1 x1r1 x0r0 isc3 isc1 r1 x1 r0 x0 scantype sequence
        bus2 z1 z0 z2 puz1 puz0 puz2 basemva yearly daily duty model puzideal spectrum basefreq enabled like""".split(),
    "linecode": f"""nphases r1 x1 r0 x0 c1 c0 units rmatrix xmatrix cmatrix basefreq {RATINGS} kron rg xg rho neutral
        b1 b0 seasons ratings linetype like""".split(),
    "line": f"""bus1 bus2 linecode length phases r1 x1 r0 x0 c1 c0 rmatrix xmatrix cmatrix switch rg xg rho geometry
        units spacing wires earthmodel cncables tscables b1 b0 seasons ratings linetype epsrmedium heightoffset
        heightunit conductors {RATINGS} basefreq enabled like""".split(),
    "transformer": f"""phases windings wdg bus conn kv kva tap %r rneut xneut buses conns kvs kvas taps xhl xht xlt
        xscarray thermal n m flrise hsrise %loadloss %noloadloss normhkva emerghkva sub maxtap mintap numtaps subname
        %imag ppm_antifloat %rs bank xfmrcode xrconst x12 x13 x23 leadlag wdgcurrents core rdcohms seasons ratings
        {RATINGS} basefreq enabled like""".split(),
    "xfmrcode": """phases windings wdg conn kv kva tap %r rneut xneut conns kvs kvas taps xhl xht xlt xscarray thermal n
        m flrise hsrise %loadloss %noloadloss normhkva emerghkva maxtap mintap numtaps %imag ppm_antifloat %rs x12 x13
        x23 rdcohms seasons ratings like""".split(),
    "load": """phases bus1 kv kw pf model yearly daily duty growth conn kvar rneut xneut status class vminpu vmaxpu
        vminnorm vminemerg xfkva allocationfactor kva %mean %stddev cvrwatts cvrvars kwh kwhdays cfactor cvrcurve
        numcust zipv %seriesrl relweight vlowpu puxharm xrharm spectrum basefreq enabled like""".split(),
    "capacitor": f"""bus1 bus2 phases kvar kv conn cmatrix cuf r xl harm numsteps states {RATINGS} basefreq enabled
        like""".split(),
    "reactor": f"""bus1 bus2 phases kvar kv conn rmatrix xmatrix parallel r x rp z1 z2 z0 z rcurve lcurve lmh {RATINGS}
        basefreq enabled like""".split(),
    "regcontrol": """transformer winding vreg band ptratio ctprim r x bus delay reversible revvreg revband revr revx
        tapdelay debugtrace maxtapchange inversetime tapwinding vlimit ptphase revthreshold revdelay revneutral eventlog
        remoteptratio tapnum reset ldc_z rev_z cogen basefreq enabled like""".split(),
    "capcontrol": """element terminal capacitor type ptratio ctratio onsetting offsetting delay voltoverride vmax vmin
        delayoff deadtime ctphase ptphase vbus eventlog usermodel userdata pctminkvar reset controlsignal basefreq
        enabled like""".split(),
    "loadshape": """npts interval mult hour mean stddev csvfile sngfile dblfile action qmult useactual pmax qmax
        sinterval minterval pbase qbase pmult pqcsvfile memorymapping like""".split(),
    "generator": """phases bus1 kv kw pf kvar model vminpu vmaxpu yearly daily duty dispmode dispvalue conn rneut xneut
        status class vpu maxkvar minkvar pvfactor forceon kva mva xd xdp xdpp h d usermodel userdata shaftmodel
        shaftdata dutystart debugtrace balanced xrdp usefuel fuelkwh %fuel %reserve refuel dynamiceq dynout spectrum
        basefreq enabled like""".split(),
    "pvsystem": """phases bus1 kv irradiance pmpp %pmpp temperature pf conn kvar kva %cutin %cutout effcurve p-tcurve %r
        %x model vminpu vmaxpu balanced limitcurrent yearly daily duty tyearly tdaily tduty class usermodel userdata
        debugtrace varfollowinverter dutystart wattpriority pfpriority %pminnovars %pminkvarmax kvarmax kvarmaxabs
        kvdc kp pitol safevoltage safemode dynamiceq dynout controlmode amplimit amplimitgain spectrum basefreq enabled
        like""".split(),
    "wiredata": f"{CONDUCTOR} like".split(),
    "cndata": f"k diastrand gmrstrand rstrand {CABLE} {CONDUCTOR} like".split(),
    "tsdata": f"diashield tapelayer tapelap {CABLE} {CONDUCTOR} like".split(),
    "linespacing": "nconds nphases x h units like".split(),
    "linegeometry": """nconds nphases cond wire x h units normamps emergamps reduce spacing wires cncable tscable
        cncables tscables seasons ratings linetype like""".split(),
    "swtcontrol": "switchedobj switchedterm action lock delay normal state reset basefreq enabled like".split(),
    "xycurve": "npts points yarray xarray csvfile sngfile dblfile x y xshift yshift xscale yscale like".split(),
}

DROPPED_CLASSES = {
    "energymeter": "a meter only measures",
    "monitor": "a monitor only records",
    "sensor": "a sensor only measures",
    "spectrum": "a spectrum is for harmonics",
    "growthshape": "growth counts in later years alone",
    "tcc_curve": "a curve of a protective device",
    "priceshape": "prices have no effect",
    "tshape": "temperatures count for storage and PV alone",
    "fmonitor": "a monitor only records",
}
PROTECTION = frozenset(("fuse", "recloser", "relay"))
ACTING_CLASSES = frozenset(
    """storage storagecontroller invcontrol expcontrol gendispatcher isource fault vccs upfc upfccontrol autotrans
    gicline gictransformer indmach012 generic5 espvlcontrol windgen gicsource dynamicexp storage2 storagecontroller2
    pvsystem2 invcontrol2 feeder""".split()
)

BUS_PROPERTIES = frozenset(("bus", "bus1", "bus2", "buses"))


def abbreviated(word: str, table: list[str]) -> str | None:
    """The first entry that a word means: the one that equals it, else the first that begins with it."""
    lower = word.lower()
    if lower in table:
        return lower
    return next((entry for entry in table if lower and entry.startswith(lower)), None)
