"""The command `tools/import_dss`."""

from __future__ import annotations

import argparse
import sys
from collections.abc import Sequence
from dataclasses import dataclass
from pathlib import Path
from typing import TextIO

from .findings import Findings, Unreadable, refusal_lines, remark_lines
from .loads import Limits
from .reader import read
from .script import script
from .translate import Asked

EPILOG = "Standard error has a line for each line of the source that isn't carried over word for word."


@dataclass(frozen=True)
class Answer:
    """What a translation comes to: the script, or nothing; the remarks; the status."""

    text: str
    remarks: list[str]
    status: int
    findings: Findings


def limit(text: str) -> float:
    """A voltage limit in per unit, from the command line."""
    value = float(text)
    if not 0.4 <= value <= 2:
        raise ValueError
    return value


def parser() -> argparse.ArgumentParser:
    """The words of the command line."""
    made = argparse.ArgumentParser(
        prog="import_dss", description="Translates a script of OpenDSS into the profile of feeder.", epilog=EPILOG
    )
    made.add_argument("master", type=Path, metavar="MASTER", help="the source's first file")
    made.add_argument(
        "--without", action="append", default=[], metavar="CLASS", help="leave out what would be refused by this word"
    )
    made.add_argument("--anchor", action="store_true", help="hold floating delta zones by grounding banks")
    made.add_argument("--vminpu", type=limit, metavar="V", help="vminpu of every load that has none")
    made.add_argument("--vmaxpu", type=limit, metavar="V", help="vmaxpu of every load that has none")
    return made


def translate(master: Path, without: Sequence[str], asked: Asked, words: Sequence[str] = ()) -> Answer:
    """The script of a source, with all that is to be said of it."""
    findings = Findings(frozenset(w.lower() for w in without))
    try:
        made = script(read(master, findings), master, findings, asked, list(words))
    except Unreadable as error:
        found = refusal_lines(findings.made)
        return Answer("", [*found, f"{error.place}: can't be read: {error.cause}"], 1, findings)
    except RecursionError:
        return Answer("", [f"{master.name}:0: can't be read: its parts name each other in a ring"], 1, findings)
    remarks = [*remark_lines(findings.made), *made.counts]
    for word in sorted(findings.without - findings.used):
        remarks.append(f"--without {word}: nothing was refused by this word")
    refused = refusal_lines(findings.made)
    if refused:
        return Answer("", [*remarks, *refused, f"refused: {len(refused)} places; no script is written"], 1, findings)
    return Answer("\n".join(made.lines) + "\n", remarks, 0, findings)


def main(words: Sequence[str] | None = None, out: TextIO | None = None, errors: TextIO | None = None) -> int:
    """Runs the command; its answer is the exit status: 0 written, 1 refused or unreadable, 2 usage."""
    given = list(sys.argv[1:] if words is None else words)
    asked = parser().parse_args(given)
    limits = Limits(asked.vminpu, asked.vmaxpu)
    if (limits.vminpu or 0.95) > 1 or (limits.vmaxpu or 1.05) < 1:
        parser().error("--vminpu is at most 1 and --vmaxpu at least 1")
    shown = [w for w in given if w != str(asked.master)]
    answer = translate(asked.master, asked.without, Asked(asked.anchor, limits), shown)
    try:
        for line in answer.remarks:
            print(line, file=errors or sys.stderr)
        if out is not None:
            out.write(answer.text)
        else:
            sys.stdout.buffer.write(answer.text.encode())
            sys.stdout.buffer.flush()
    except OSError as error:
        print(f"import_dss: the script can't be written: {error.strerror}", file=sys.stderr)
        return 1
    return answer.status
