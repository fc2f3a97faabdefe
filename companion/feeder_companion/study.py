"""Studies: a script over a table of changes, each run by the proved program in a process of its own.

`tools/study PLAN.toml` carries out the runs that aren't done yet over all processors, or on a Dask cluster, and writes
the table and the page. A study's folder holds

    plan.toml            the plan
    objects/             scripts, shapes' files, reports and certificates by their content
    runs/KEY.json        what became of a run; its key is the sum of all that the run depends on
    table.csv            a row for each run: verdicts on the limits, extremes, what was tried again
    tries.csv            each end with status 10 or 11 and what was changed for the next try
    runs.csv             the sums of each part's script, report and certificate, and that of the program
    page.html            table and pictures as one page
"""

from __future__ import annotations

import json
import os
import sys
import threading
import time
from collections.abc import Iterable, Iterator, Sequence
from concurrent.futures import ProcessPoolExecutor, as_completed
from dataclasses import dataclass
from pathlib import Path
from typing import Any

from . import cli
from .changes import BadChange, Source, read_source, value_text, words_text
from .findings import (
    PARTS_HEAD,
    TRIES_HEAD,
    Finding,
    answer_head,
    answers,
    csv_text,
    parts_rows,
    table_head,
    table_row,
    tries_rows,
)
from .judging import judge
from .limits import Verdict
from .plan import BadPlan, Plan, Row, read_plan
from .reports import UnreadableReport
from .runs import Program, Record, Run, carried_out, processors
from .script import OtherScript, UnreadableScript
from .store import Damaged, Store, digest_of, digest_of_file, write_whole
from .studypage import study_page

KEY_FORM = 1


@dataclass(frozen=True)
class Job:
    """All that a worker needs: plan, source, program and the study's folder."""

    plan: Plan
    source: Source
    program: Program
    folder: Path
    again: bool = False

    @property
    def store(self) -> Store:
        """Where contents are kept."""
        return Store(self.folder / "objects")

    def key(self, row: Row) -> str:
        """The sum of all on which a run depends; its limits aren't among them, so these can be changed afterwards."""
        retry = self.plan.retry
        parts = {
            "form": KEY_FORM,
            "program": self.program.digest,
            "script": digest_of("\n".join(self.source.lines).encode()),
            "files": {name: digest_of(content) for name, content in self.source.files.items()},
            "row": {word: value_text(value) for word, value in row.items()},
            "retry": [str(it) for it in (retry.vminpu, retry.vmaxpu, retry.vreg, retry.vreg_tries, retry.go_on)],
            "certificates": self.plan.certificates,
        }
        return digest_of(json.dumps(parts, sort_keys=True).encode())

    def path(self, row: Row) -> Path:
        """The file of a run."""
        return self.folder / "runs" / f"{self.key(row)}.json"


# ------------------------------------------------------------------ workers


def work(job: Job, number: int) -> Finding:
    """Carries out a run where it isn't done, and judges it. Whatever goes wrong makes a failed row."""
    row, plan = job.plan.rows[number], job.plan
    try:
        run = Run(job.key(row), job.source, row, plan.retry, job.program, job.store, plan.certificates, plan.timeout)
        record = carried_out(run, job.path(row), job.again)
        return Finding(number, row, record, judge(record, job.store, plan.limits))
    except (UnreadableReport, UnreadableScript, OtherScript, Damaged, OSError) as bad:
        return failed(job, number, bad)


def failed(job: Job, number: int, bad: BaseException) -> Finding:
    """The row of a run that this error ended; nothing of it is kept, so it is carried out again the next time."""
    row = job.plan.rows[number]
    record = Record(job.key(row), status=-1, fault=f"{type(bad).__name__}: {bad}")
    return Finding(number, row, record, judge(record, job.store, job.plan.limits))


def result_of(future: Any, job: Job, number: int) -> Finding:
    """What a worker found; a failed row where the worker itself was lost."""
    try:
        found: Finding = future.result()
        return found
    except Exception as bad:  # whatever an executor raises for a worker that died
        return failed(job, number, bad)


the_job: Job | None = None
"""The job of a worker process of this machine."""


def take_job(job: Job, parent: int) -> None:
    """Gives a worker process its job once, so that it doesn't go with every run. It ends with the process that began it."""
    global the_job
    the_job = job
    threading.Thread(target=end_with, args=(parent,), daemon=True).start()


def end_with(parent: int) -> None:
    """Ends this process soon after its parent, which may have been killed."""
    while os.getppid() == parent:
        time.sleep(0.5)
    os._exit(1)


def work_here(number: int) -> Finding:
    """A run of the worker's job."""
    assert the_job is not None
    return work(the_job, number)


def on_this_machine(job: Job, numbers: Iterable[int], count: int) -> Iterator[Finding]:
    """All runs over so many processes, each as it ends."""
    with ProcessPoolExecutor(count, initializer=take_job, initargs=(job, os.getpid())) as pool:
        futures = {pool.submit(work_here, it): it for it in numbers}
        try:
            for future in as_completed(futures):
                yield result_of(future, job, futures[future])
        finally:
            for future in futures:
                future.cancel()


def on_dask(job: Job, numbers: Iterable[int], address: str, dask: Any = None) -> Iterator[Finding]:
    """All runs on a Dask cluster, each as it ends. Its workers see the study's folder and the program under the same names."""
    if dask is None:
        try:
            import distributed as dask
        except ImportError:
            raise cli.Quit(cli.Status.NO_PROGRAM, "--dask needs the Python package distributed") from None
    with dask.Client(address) as client:
        shared = client.scatter(job, broadcast=True)
        futures = {client.submit(work, shared, it, pure=False): it for it in numbers}
        for future in dask.as_completed(list(futures)):
            yield result_of(future, job, futures[future])


# ------------------------------------------------------------------ progress


class Progress:
    """A bar on standard error where that is a terminal, else a line for each tenth."""

    WIDTH = 30

    def __init__(self, total: int, stream: Any = None) -> None:
        self.total, self.done, self.failed = total, 0, 0
        self.stream = stream or sys.stderr
        self.start, self.tenth = time.monotonic(), -1

    def add(self, finding: Finding) -> None:
        """Counts a run."""
        self.done += 1
        self.failed += finding.record.status != 0
        if self.stream.isatty():
            print(f"\r{self.line()}", end="\n" if self.done == self.total else "", file=self.stream, flush=True)
        elif self.done * 10 // self.total > self.tenth:
            self.tenth = self.done * 10 // self.total
            print(self.line(), file=self.stream, flush=True)

    def line(self) -> str:
        """How far the study is."""
        full = self.WIDTH * self.done // self.total
        spent = time.monotonic() - self.start
        left = spent / self.done * (self.total - self.done)
        time_text = f"{left:.0f} s left" if self.done < self.total else f"{spent:.1f} s"
        return f"[{'#' * full}{'.' * (self.WIDTH - full)}] {self.done}/{self.total} failed {self.failed} {time_text}"


# ------------------------------------------------------------------ what is written


def write_answer(job: Job, findings: list[Finding]) -> None:
    """Writes the tables and the page of a study."""
    plan, folder = job.plan, job.folder
    write_whole(folder / "table.csv", csv_text(table_head(plan), [table_row(plan, it) for it in findings]))
    write_whole(folder / "tries.csv", csv_text(TRIES_HEAD, tries_rows(findings)))
    write_whole(folder / "runs.csv", csv_text(PARTS_HEAD, parts_rows(findings, job.program.digest)))
    if plan.answer is not None:
        rows = [[*it.group, *it.cells()] for it in answers(plan, findings)]
        write_whole(folder / "answer.csv", csv_text(answer_head(plan), rows))
    write_whole(folder / "page.html", study_page(plan, findings, job.program.digest).encode())


# ------------------------------------------------------------------ the command


def carry_out(job: Job, jobs: int, dask: str | None, progress: Progress | None = None) -> list[Finding]:
    """All findings in the order of the plan's rows."""
    numbers = range(len(job.plan.rows))
    findings = on_dask(job, numbers, dask) if dask else on_this_machine(job, numbers, min(jobs, len(numbers)))
    found = []
    for it in findings:
        found.append(it)
        if progress is not None:
            progress.add(it)
    return sorted(found, key=lambda it: it.number)


def prepared(path: str, into: str | None, feeder: str | None, again: bool = False) -> Job:
    """The job of a plan; its folder is made, with a copy of the plan."""
    try:
        plan = read_plan(path)
        source = read_source(plan.script)
    except (BadPlan, BadChange) as bad:
        raise cli.Quit(cli.Status.BAD_DATA, str(bad)) from None
    given = feeder or (str(plan.path.parent / plan.feeder) if plan.feeder else None)
    executable = cli.program(given)
    folder = Path(into or f"{plan.name}.study").resolve()
    write_whole(folder / "plan.toml", plan.path.read_bytes())
    return Job(plan, source, Program(executable, digest_of_file(executable)), folder, again)


def say(job: Job, findings: list[Finding]) -> int:
    """Prints what came out; the status is 1 where a run failed."""
    outcomes = [it.record.outcome for it in findings]
    print(", ".join(f"{outcomes.count(it)} {it}" for it in dict.fromkeys(outcomes)))
    for name in job.plan.limits.names():
        verdicts = [it.judged.verdicts[name] for it in findings]
        print(f"{name}: " + ", ".join(f"{verdicts.count(it)} {it.value}" for it in Verdict))
    for it in answers(job.plan, findings) if job.plan.answer else []:
        sure, above, unclear = it.cells()
        group = " ".join(it.group) or "all"
        print(
            f"{group}: sure up to {sure or 'none'}, violated from {above or 'none'}, not decided: {unclear or 'none'}"
        )
    print(f"{job.folder / 'table.csv'}\n{job.folder / 'page.html'}")
    return 1 if any(it.record.status for it in findings) else 0


def main(words: Sequence[str]) -> int:
    """`tools/study PLAN.toml`."""
    parser = cli.Parser(prog="study", description="Carries out the runs of a plan that aren't done yet.")
    parser.add_argument("plan", metavar="PLAN.toml")
    parser.add_argument("--into", metavar="FOLDER", help="the study's folder (NAME.study)")
    parser.add_argument(
        "--jobs", type=int, default=processors(), metavar="N", help="processes (one for each processor)"
    )
    parser.add_argument("--dask", metavar="ADDRESS", help="carries out the runs on this Dask cluster")
    parser.add_argument("--feeder", metavar="PROGRAM", help="the program (that of the repository)")
    parser.add_argument("--again", action="store_true", help="carries out failed runs again")
    parser.add_argument("--list", action="store_true", help="prints the runs and carries out none")
    given = parser.parse_args(words)
    if given.jobs < 1:
        parser.error("--jobs must be above 0")
    if given.list:
        return list_runs(given.plan)
    job = prepared(given.plan, given.into, given.feeder, given.again)
    findings = carry_out(job, given.jobs, given.dask, Progress(len(job.plan.rows)))
    write_answer(job, findings)
    return say(job, findings)


def list_runs(path: str) -> int:
    """Prints the rows of a plan."""
    try:
        rows = read_plan(path).rows
    except BadPlan as bad:
        raise cli.Quit(cli.Status.BAD_DATA, str(bad)) from None
    for number, row in enumerate(rows, 1):
        print(f"{number}: {words_text(row)}")
    return 0
