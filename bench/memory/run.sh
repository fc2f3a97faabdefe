#!/usr/bin/env bash
# memory/run.sh [PROGRAM..]: the peak of memory of the built program, in MB, and of other programs beside it, such as those that
# `git show COMMIT:release/x86_64-linux/feeder.gz | gunzip` gives:
# - hours of several rounds: the 34-node feeder with its six regulators in bands that no tap meets, until the limit of control
#   iterations, and in the bands that it has; with `solve`, `cert` and `check` of one certificate;
# - 480 unknowns, the feeder that `gen 7 39` prints, in one hour, and in six whose powers differ; and that of `gen 7 37` behind three
#   regulators in bands that no tap meets, 468 unknowns;
# - a year of hours of the 13-node feeder, each load with a shape of 24 points, with `solve`; a program that keeps no states takes minutes.
# Every program checks the certificate that the built one writes. Needs GNU `time` and the built program.
set -eu
here=$(cd "$(dirname "$0")" && pwd)
top=$(cd "$here/../.." && pwd)
binary=$("$top/tools/built" feeder)
work=$(mktemp -d)
trap 'rm -rf "$work"' EXIT
python3 - "$top" "$work" "$binary" "$@" <<'P'
import pathlib, re, shutil, subprocess, sys
top, work, programs = pathlib.Path(sys.argv[1]), pathlib.Path(sys.argv[2]), sys.argv[3:]
for it in (top / "examples").glob("ieee34*.dss"):
    shutil.copy(it, work)

def peak(program, *words):
    """The most memory that a run held, in MB."""
    done = subprocess.run(["/usr/bin/time", "-f", "%M", program, *words], cwd=work, stdout=subprocess.DEVNULL, stderr=subprocess.PIPE, text=True)
    return int(done.stderr.splitlines()[-1]) / 1000

def shaped(script, shape):
    """A script whose loads follow a shape, up to its Solve."""
    before = script[:re.search(r"(?im)^set voltagebases|^solve", script).start()]
    loads = re.findall(r"(?im)^New Load\.(\S+)", before)
    return before + f"New Loadshape.s npts={len(shape)} mult=({' '.join(map(str, shape))})\n" + "".join(f"Load.{it}.daily=s\n" for it in loads)

regulated = (top / "examples/ieee34-regulated.dss").read_text()
generated = subprocess.run([programs[0], "gen", "7", "39"], stdout=subprocess.PIPE, text=True, check=True).stdout
shorter = subprocess.run([programs[0], "gen", "7", "37"], stdout=subprocess.PIPE, text=True, check=True).stdout
regulators = "".join(f"""New Transformer.r{k} phases=1 windings=2 buses=(sourcebus.{k}.0 sub.{k}.0) kvs=(2.4018 2.4018) kvas=(5000 5000) xhl=1 %rs=(0.01 0.01)
New RegControl.c{k} transformer=r{k} winding=2 vreg=120.2 band=0.2 ptratio=20
""" for k in (1, 2, 3))
thirteen = (top / "examples/ieee13.dss").read_text()
day = [round(0.5 + k / 100, 2) for k in range(24)]
scripts = {
    "bands that no tap meets": (re.sub(r"(?i)band=[0-9.]*", "band=0.2", regulated), ("solve", "cert", "check")),
    "its bands": (regulated, ("solve", "cert", "check")),
    "468 unknowns": (shorter.replace("bus1=sourcebus", "bus1=sub").replace("New Line.", regulators + "New Line.", 1), ("solve", "cert", "check")),
    "480 unknowns": (generated, ("solve", "cert", "check")),
    "480 unknowns, six hours": (shaped(generated, day[:6]) + "Solve mode=daily number=6\n", ("solve", "cert", "check")),
    "a year": (shaped(thirteen, day) + "Solve mode=daily number=8760\n", ("solve",)),
}
for name, (text, words) in scripts.items():
    (work / "script.dss").write_text(text)
    certificate = subprocess.run([programs[0], "cert", "script.dss"], cwd=work, stdout=subprocess.PIPE).stdout if "cert" in words else b""
    (work / "script.crt").write_bytes(certificate)
    print(f"{name}: a certificate of {len(certificate) / 1e6:.1f} MB, {certificate.count(b'solution ')} rounds" if certificate else name)
    for word in words:
        given = ["script.dss", "script.crt"] if word == "check" else ["script.dss"]
        held = [peak(it, word, *given) for it in programs]
        print(f"  {word}: " + ", ".join(f"{it:.1f}" for it in held) + "".join(f", ratio {held[0] / it:.2f}" for it in held[1:]))
P
