"""What the tests share: the repository's examples, a small report, and the program."""

from __future__ import annotations

import contextlib
import io
import os
import sys
import tempfile
import unittest
from pathlib import Path

TOP = Path(__file__).resolve().parents[2]
sys.path.insert(0, str(TOP / "companion"))

from feeder_companion import cli  # noqa: E402
from feeder_companion.changes import MASTER, Script  # noqa: E402
from feeder_companion.runs import Program  # noqa: E402

EXAMPLES = TOP / "examples"
BUILT = Path(os.environ.get("FEEDER") or TOP / "crates" / "feeder" / "out" / "feeder")
IS_BUILT = os.access(BUILT, os.X_OK)
PROGRAM = BUILT if IS_BUILT else TOP / "companion" / "tests" / "model_program"
"""The proved program, or the model where it isn't built."""


def model_call(_: object, words: list[str], script: Script, timeout: int) -> tuple[bytes, int]:
    """What the repository's model gives in place of a process: for `Program.call`, where the program isn't built."""
    import feeder

    content, status, _made = feeder.run({MASTER: script.text, **script.files}, words)
    return content, status


def solved(text: str) -> bytes:
    """The report of a script, by the program or the model."""
    script = Script(text.encode())
    if IS_BUILT:
        return Program(BUILT, "").call(["solve", MASTER], script, 60)[0]
    return model_call(None, ["solve", MASTER], script, 60)[0]


NODE = "node,b.1,500.000000,0.000000,0.000011,2.500000,499.999989,500.000012,0.000001,0.000000\n"
FIRST = f"""solution,1,0,0
node,sourcebus.1,950.000000,0.000000,0.000020,4.750000,949.999980,950.000021,0.000000,0.000000
{NODE}branch,vsource.source,1,50.000000,0.000000,0.000033,0.000000,0.000000
branch,line.l,1,50.000000,0.000000,0.000033,0.000000,0.000000
"""

LOADED = """Clear
New Circuit.h basekv=1 phases=1 r1=0.5 x1=0 r0=0.5 x0=0
New Line.l phases=1 bus1=sourcebus.1 bus2=b.1 r1=0.25 x1=0 r0=0.25 x0=0 length=2 units=km normamps=200
New Load.d phases=1 bus1=b.1 kv=1 kw=100 kvar=0 vminpu=0.5
Solve
"""
"""A load behind one ohm: certified at 100 kW; with 160 kW and vminpu=0.8 it stands on its limit and isn't."""

REGULATED = """Clear
New Circuit.h basekv=2.43 phases=1 r1=1 x1=0 r0=1 x0=0
New Transformer.t phases=1 buses=(sourcebus.1 b.1) kvs=(2.4 2.4) kvas=(500 500) xhl=0 %rs=(0 0)
New RegControl.a transformer=t winding=2 vreg=120 band=2 ptratio=20
New Loadshape.s npts=3 mult=(2 1 2)
New Load.d phases=1 bus1=b.1 kv=2.4 kw=24 kvar=0 model=5 daily=s
Solve mode=daily number=3
"""
"""A day whose second hour has 2,420 V, an end of the band, so that it ends as undecided."""


class Folder(unittest.TestCase):
    """A test with a folder of its own."""

    def setUp(self) -> None:
        kept = tempfile.TemporaryDirectory(prefix="companion-")
        self.addCleanup(kept.cleanup)
        self.folder = Path(kept.name)

    def write(self, name: str, content: str | bytes) -> Path:
        """A file of the folder."""
        path = self.folder / name
        path.parent.mkdir(parents=True, exist_ok=True)
        path.write_bytes(content.encode() if isinstance(content, str) else content)
        return path

    def call(self, prog: str, main: object, *words: object) -> tuple[int, str, str]:
        """The status of a command, and what it writes on standard output and standard error."""
        out, err = io.StringIO(), io.StringIO()
        with contextlib.redirect_stdout(out), contextlib.redirect_stderr(err):
            try:
                status = cli.run(prog, main, [str(it) for it in words])  # type: ignore[arg-type]
            except SystemExit as stop:
                status = stop.code if isinstance(stop.code, int) else 0
        return status, out.getvalue(), err.getvalue()
