"""Archives of studies: scripts, reports, certificates and sums in one folder, which an auditor replays with one command.

`tools/archive keep STUDY FOLDER` writes

    SUMS                 the SHA-256 of every other file, as `sha256sum -c SUMS` reads it
    plan.toml, *.csv, page.html
    PROGRAM              the sum of the program
    runs/N/P/            for part P of run N: report.csv, certificate.crt.gz, and the script with its files in input/
    feeder               the program itself, where --with-program was given

`tools/archive replay FOLDER` tests the sums, has each certificate checked by a program, and compares each report with
its certificate, number by number. So whoever trusts the check of a certificate needn't trust what solved.
"""

from __future__ import annotations

import csv
import gzip
import os
import shutil
import subprocess
import tempfile
from collections.abc import Iterator, Sequence
from concurrent.futures import ThreadPoolExecutor
from dataclasses import dataclass
from pathlib import Path

from . import cli
from .certificates import UnreadableCertificate, first_difference, parse_certificate
from .changes import MASTER
from .reports import UnreadableReport, parse_report
from .runs import processors
from .store import Damaged, Store, digest_of_file

COPIED = ("plan.toml", "table.csv", "tries.csv", "runs.csv", "answer.csv", "page.html")
INPUT, REPORT, CERTIFICATE, SUMS, PROGRAM = "input", "report.csv", "certificate.crt.gz", "SUMS", "PROGRAM"


# ------------------------------------------------------------------ keep


def keep(study: Path, folder: Path, program: Path | None) -> int:
    """Writes the archive of a study; gives the number of its parts."""
    if folder.exists() and any(folder.iterdir()):
        raise cli.Quit(cli.Status.NO_OUTPUT, f"{folder} isn't empty")
    if not (study / "runs.csv").is_file():
        raise cli.Quit(cli.Status.NO_INPUT, f"{study} is no folder of a study that was carried out: it has no runs.csv")
    store, digests, count = Store(study / "objects"), set(), 0
    for name in COPIED:
        if (study / name).is_file():
            put(folder / name, (study / name).read_bytes())
    numbers: dict[str, int] = {}
    for row in rows_of(study / "runs.csv"):
        numbers[row["run"]] = numbers.get(row["run"], 0) + 1
        keep_part(store, row, folder / "runs" / row["run"] / str(numbers[row["run"]]))
        digests.add(row["program"])
        count += 1
    put(folder / PROGRAM, "".join(f"{it}\n" for it in sorted(digests)).encode())
    if program is not None:
        if digest_of_file(program) not in digests:
            raise cli.Quit(cli.Status.BAD_DATA, f"{program} isn't the program that solved this study")
        put(folder / "feeder", program.read_bytes())
        (folder / "feeder").chmod(0o755)
    put(folder / SUMS, "".join(f"{digest_of_file(folder / it)}  {it}\n" for it in sorted(files_of(folder))).encode())
    return count


def rows_of(path: Path) -> list[dict[str, str]]:
    """The rows of a study's runs.csv."""
    with open(path, encoding="utf-8", newline="") as file:
        return list(csv.DictReader(file))


def put(path: Path, content: bytes) -> None:
    path.parent.mkdir(parents=True, exist_ok=True)
    path.write_bytes(content)


def keep_part(store: Store, row: dict[str, str], folder: Path) -> None:
    """Writes the files of one part."""
    try:
        put(folder / INPUT / MASTER, store.get(row["script"]))
        put(folder / REPORT, store.get(row["report"]))
        for pair in row["files"].split():
            name, _, digest = pair.rpartition("=")
            put(folder / INPUT / name, store.get(digest))
        if row["certificate"]:
            put(folder / CERTIFICATE, gzip.compress(store.get(row["certificate"]), mtime=0))
    except Damaged as bad:
        raise cli.Quit(cli.Status.BAD_DATA, str(bad)) from None


def files_of(folder: Path) -> Iterator[str]:
    """All files but SUMS, by their path from the folder."""
    for top, _, names in os.walk(folder):
        for name in names:
            path = os.path.relpath(os.path.join(top, name), folder)
            if path != SUMS:
                yield path


# ------------------------------------------------------------------ replay


@dataclass(frozen=True)
class Wrong:
    """What is wrong with a file or a part."""

    where: str
    cause: str


def replay(folder: Path, program: Path, jobs: int) -> tuple[int, list[Wrong]]:
    """The number of parts, and all that is wrong with the archive."""
    wrong = wrong_sums(folder)
    found = [it.parents[1] for it in folder.glob(f"runs/*/*/{INPUT}/{MASTER}")]
    parts = sorted(found, key=lambda it: [k.rjust(9) for k in it.parts[-2:]])
    with ThreadPoolExecutor(jobs) as pool:
        for part, cause in zip(parts, pool.map(lambda it: wrong_part(it, program), parts)):
            if cause:
                wrong.append(Wrong("/".join(part.parts[-3:]), cause))
    return len(parts), wrong


def wrong_sums(folder: Path) -> list[Wrong]:
    """Files whose sum isn't that of SUMS, and files that stand in one of the two alone."""
    sums = {}
    for number, line in enumerate((folder / SUMS).read_text(encoding="utf-8").splitlines(), 1):
        digest, separator, name = line.partition("  ")
        if not separator or len(digest) != 64:
            return [Wrong(SUMS, f"line {number} isn't a sum and a name")]
        sums[name] = digest
    there = set(files_of(folder))
    wrong = [Wrong(name, "isn't there") for name in sorted(set(sums) - there)]
    wrong += [Wrong(name, "has no sum") for name in sorted(there - set(sums))]
    wrong += [
        Wrong(name, "isn't what its sum says")
        for name in sorted(there & set(sums))
        if digest_of_file(folder / name) != sums[name]
    ]
    return wrong


def wrong_part(part: Path, program: Path) -> str:
    """Why a part doesn't hold; an empty text where it does."""
    try:
        content = gzip.decompress((part / CERTIFICATE).read_bytes())
    except FileNotFoundError:
        return "has no certificate"
    except (OSError, EOFError, ValueError) as bad:
        return f"its certificate can't be read: {bad}"
    verdict = checked(part, content, program)
    if verdict:
        return verdict
    try:
        report = parse_report((part / REPORT).read_bytes(), REPORT)
        difference = first_difference(report, parse_certificate(content, CERTIFICATE))
    except (OSError, UnreadableReport, UnreadableCertificate) as bad:
        return str(bad)
    return f"the report isn't the certificate's: {difference}" if difference else ""


def checked(part: Path, certificate: bytes, program: Path) -> str:
    """What `check` says against a certificate on its script; an empty text where it accepts it."""
    with tempfile.TemporaryDirectory(prefix="feeder-replay-") as folder:
        shutil.copytree(part / INPUT, Path(folder, INPUT))
        Path(folder, "certificate.crt").write_bytes(certificate)
        words = [str(program), "check", f"{INPUT}/{MASTER}", "certificate.crt"]
        ran = subprocess.run(words, cwd=folder, capture_output=True, timeout=3600, check=False)
    said = ran.stdout.decode(errors="replace").strip()
    is_accepted = ran.returncode == 0 and said.startswith("certificate,accepted,")
    return "" if is_accepted else f"check ends with status {ran.returncode}: {said}"


# ------------------------------------------------------------------ the command


def main(words: Sequence[str]) -> int:
    """`tools/archive keep STUDY FOLDER` and `tools/archive replay FOLDER`."""
    parser = cli.Parser(prog="archive", description="Keeps a study for an auditor, and replays what was kept.")
    forms = parser.add_subparsers(dest="form", required=True, parser_class=cli.Parser)
    kept = forms.add_parser("keep", help="writes the archive of a study")
    kept.add_argument("study", metavar="STUDY")
    kept.add_argument("folder", metavar="FOLDER")
    kept.add_argument("--with-program", action="store_true", help="puts the program into the archive")
    again = forms.add_parser("replay", help="tests sums, certificates and reports; status 1 where one doesn't hold")
    again.add_argument("folder", metavar="FOLDER")
    again.add_argument("--jobs", type=int, default=processors(), metavar="N")
    for it in (kept, again):
        it.add_argument("--feeder", metavar="PROGRAM", help="the program (that of the repository)")
    given = parser.parse_args(words)
    if given.form == "keep":
        program = cli.program(given.feeder) if given.with_program else None
        count = keep(Path(given.study), Path(given.folder), program)
        print(f"{given.folder}: {count} parts kept")
        return 0
    if given.jobs < 1:
        parser.error("--jobs must be above 0")
    return say_replay(Path(given.folder), cli.program(given.feeder), given.jobs)


def say_replay(folder: Path, program: Path, jobs: int) -> int:
    """Prints what is wrong and the counts; the status is 1 where anything is."""
    count, wrong = replay(folder, program, jobs)
    for it in wrong:
        print(f"{it.where}: {it.cause}")
    digest = digest_of_file(program)
    recorded = (folder / PROGRAM).read_text(encoding="utf-8").split() if (folder / PROGRAM).is_file() else []
    which = "the program that solved" if digest in recorded else "another program than the one that solved"
    print(f"checked by {program}, sha256 {digest}: {which}")
    print(f"{count} parts, {len(wrong)} wrong")
    return 1 if wrong or not count else 0
