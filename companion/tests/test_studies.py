"""Studies: rows, verdicts, what is tried again, failed runs, resuming after a kill, a Dask cluster, and archives."""

import csv
import io
import json
import subprocess
import sys
import time
import unittest
import unittest.mock
from fractions import Fraction

from support import BUILT, IS_BUILT, LOADED, PROGRAM, REGULATED, TOP, Folder, model_call

from feeder_companion import archive, study
from feeder_companion.changes import write_script
from feeder_companion.findings import Finding, answers
from feeder_companion.judging import Judged
from feeder_companion.limits import Verdict
from feeder_companion.plan import Retry
from feeder_companion.runs import Program, Record, Run, record_of
from feeder_companion.store import Damaged, Store

PLAN = """script = "a.dss"
[limits]
voltage = [0.8, 1.05]
loading = 100
skip = "sourcebus"
[vary]
plant_bus = ["b"]
plant_kw = [0, 60, 200]
[answer]
greatest = "plant_kw"
for_each = "plant_bus"
"""


class StudyFolder(Folder):
    """A test with a small study. Where the program isn't built, the repository's model stands for it."""

    def setUp(self):
        super().setUp()
        if not IS_BUILT:
            stand_in = unittest.mock.patch.object(Program, "call", model_call)
            stand_in.start()
            self.addCleanup(stand_in.stop)

    def job(self, plan, script=LOADED, again=False):
        self.write("a.dss", script)
        path = self.write("p.toml", plan)
        return study.prepared(str(path), str(self.folder / "out"), str(PROGRAM), again)

    def findings(self, job):
        return [study.work(job, k) for k in range(len(job.plan.rows))]

    def table(self, name="table"):
        with open(self.folder / "out" / f"{name}.csv", encoding="utf-8", newline="") as file:
            return list(csv.DictReader(file))


class Studies(StudyFolder):
    def test_verdicts_are_those_of_the_intervals(self):
        job = self.job(PLAN)
        found = self.findings(job)
        self.assertEqual([it.record.outcome for it in found], ["solved"] * 3)
        voltage = [it.judged.verdicts["voltage"] for it in found]
        self.assertEqual(voltage, [Verdict.NOT_VIOLATED, Verdict.NOT_VIOLATED, Verdict.VIOLATED])
        self.assertEqual([it.judged.verdicts["loading"] for it in found], [Verdict.NOT_VIOLATED] * 3)
        answer = answers(job.plan, found)[0]
        self.assertEqual((answer.group, answer.sure, answer.violated_from), (("b",), Fraction(60), Fraction(200)))
        study.write_answer(job, found)
        row = self.table()[2]
        self.assertEqual((row["plant_kw:script"], row["voltage:outward"]), ("200", "violated"))
        self.assertEqual(self.table("answer")[0]["sure:outward"], "60")
        page = (self.folder / "out" / "page.html").read_text(encoding="utf-8")
        for words in ("The greatest plant_kw", "sure up to", "3 solved", "1 runs violated"):
            self.assertIn(words, page)

    def test_a_limit_inside_an_interval_is_not_decided(self):
        job = self.job(PLAN.replace("0.8", "0.887298334").replace("[0, 60, 200]", "[0]"))
        self.assertIs(self.findings(job)[0].judged.verdicts["voltage"], Verdict.NOT_DECIDED)

    def test_a_run_is_kept_by_its_content_and_not_made_again(self):
        job = self.job(PLAN)
        first = self.findings(job)
        paths = sorted((self.folder / "out" / "runs").iterdir())
        times = [it.stat().st_mtime_ns for it in paths]
        other = self.job(PLAN.replace("[0.8, 1.05]", "[0.9, 1.2]"))
        second = self.findings(other)
        self.assertEqual([it.stat().st_mtime_ns for it in paths], times)
        self.assertEqual([it.record for it in first], [it.record for it in second])
        self.assertIs(second[2].judged.verdicts["voltage"], Verdict.NOT_VIOLATED)
        part = first[0].record.parts[0]
        self.assertIn(b"plant_kw=0", job.store.get(part.script))
        self.assertTrue(job.store.get(part.certificate).startswith(b"cert "))
        kept = job.store.path(part.report, False)
        kept.write_bytes(b"x")
        with self.assertRaises(Damaged):
            job.store.get(part.report)
        kept.unlink()
        self.findings(job)
        self.assertTrue(job.store.has(part.report))

    def test_a_load_on_its_limit_is_tried_with_another(self):
        script = LOADED.replace("kw=100", "kw=160").replace("0.5\nSolve", "0.8\nSolve")
        plan = 'script = "a.dss"\n[limits]\nvoltage = [0.7, 1]\n[retry]\nvminpu = [0.8, 0.7]\n'
        found = self.findings(self.job(plan, script))[0]
        self.assertEqual(found.record.outcome, "solved with changes")
        self.assertEqual([it.status for it in found.record.tries], [10, 10])
        self.assertEqual(found.record.parts[0].changed, "vminpu=0.7 vmaxpu=1.2 of all loads")
        self.assertTrue(found.record.tries[0].fault.startswith("not certified,b.1 re,"))
        without = self.findings(self.job(plan.partition("[retry]")[0], script))[0]
        self.assertEqual((without.record.outcome, without.record.status), ("failed", 10))
        self.assertIs(without.judged.verdicts["voltage"], Verdict.NOT_DECIDED)
        self.assertEqual(without.record.tries[0].next, "nothing left to try")

    def test_a_day_goes_on_behind_an_hour_that_was_tried_again(self):
        plan = 'script = "a.dss"\n[limits]\nvoltage = [0.9, 1.1]\n[retry]\nvreg = 0.005\n'
        found = self.findings(self.job(plan, REGULATED))[0]
        parts = [(it.first, it.last, it.changed) for it in found.record.parts]
        self.assertEqual(parts, [(1, 1, ""), (2, 2, "vreg of regcontrol.a by 0.005 V"), (3, 3, "")])
        self.assertEqual((found.record.tries[0].hour, found.record.tries[0].status), (2, 11))
        self.assertEqual((found.judged.hours, found.record.asked), (3, 3))
        self.assertIs(found.judged.verdicts["voltage"], Verdict.NOT_VIOLATED)

    def test_an_hour_that_nothing_helps_is_lost_and_the_day_goes_on(self):
        plan = 'script = "a.dss"\n[limits]\nvoltage = [0.9, 1.1]\n'
        found = self.findings(self.job(plan, REGULATED))[0]
        self.assertEqual((found.record.outcome, found.record.lost), ("partly solved", [2]))
        self.assertIs(found.judged.verdicts["voltage"], Verdict.NOT_DECIDED)
        stopped = self.findings(self.job(plan + "[retry]\ngo_on = false\n", REGULATED))[0]
        self.assertEqual((stopped.record.outcome, stopped.record.status, stopped.judged.hours), ("failed", 11, 1))

    def test_hours_of_a_study_are_those_of_the_shape(self):
        plan = 'script = "a.dss"\n[limits]\nvoltage = [0.9, 1.003]\n[vary]\nhours = ["3-4", "7-7"]\n'
        found = self.findings(self.job(plan, REGULATED))
        self.assertEqual([it.judged.hours for it in found], [2, 1])
        self.assertEqual((found[0].judged.least.hour in (3, 4), found[1].judged.least.hour), (True, 7))
        self.assertAlmostEqual(float(found[0].judged.greatest.value.middle), 2410 / 2400, places=6)

    def test_failed_runs_are_rows(self):
        plan = PLAN.replace('"b"', '"b", "c"').replace("[0, 60, 200]", "[0]")
        found = self.findings(self.job(plan))
        self.assertEqual([it.record.outcome for it in found], ["solved", "failed"])
        self.assertEqual(found[1].record.fault, "the script has no bus c")
        refused = self.findings(self.job(PLAN.replace("[vary]", '[always]\nline = "New Fuse.f"\n[vary]')))
        self.assertEqual([it.record.status for it in refused], [3, 3, 3])
        self.assertTrue(refused[0].record.fault.startswith("script,study.dss,"))
        self.assertIs(refused[0].judged.verdicts["loading"], Verdict.NOT_DECIDED)

    @unittest.skipUnless(IS_BUILT, "the program isn't built")
    def test_a_program_that_fails_is_a_row(self):
        for text, status, said in (
            ("#!/bin/sh\nkill -9 $$\n", -9, "ended with status -9"),
            ("#!/bin/sh\necho torn\n", -1, "an unreadable report"),
            ("#!/bin/sh\nexec sleep 9\n", -1, "no end after 1 s"),
            ("no program", -1, "the program can't be run"),
        ):
            path = self.write("bad", text)
            path.chmod(0o755)
            source = self.job(PLAN).source
            run = Run("k", source, {}, Retry(), Program(path, "x"), Store(self.folder / "o"), True, 1)
            record = run.carry_out()
            self.assertEqual(record.status, status, said)
            self.assertIn(said, record.fault)

    def test_a_damaged_record_is_made_again(self):
        for content in (b"", b"{}", b"[]", b'{"form": 2}', b'{"form": 1, "key": 3, "parts": [1]}'):
            with self.assertRaises(ValueError):
                record_of(content)
        self.assertEqual(record_of(Record("k", asked=3).to_json()), Record("k", asked=3))
        job = self.job(PLAN.replace("[0, 60, 200]", "[0]"))
        path = job.path(job.plan.rows[0])
        path.parent.mkdir(parents=True)
        path.write_bytes(b'{"form": 1')
        self.assertEqual(self.findings(job)[0].record.outcome, "solved")
        self.assertEqual(json.loads(path.read_bytes())["form"], 1)

    def test_failed_runs_are_made_again_when_asked(self):
        plan = 'script = "a.dss"\n'
        bad = LOADED.replace("kw=100", "kw=160").replace("0.5\nSolve", "0.8\nSolve")
        self.findings(self.job(plan, bad))
        path = next((self.folder / "out" / "runs").iterdir())
        path.write_bytes(path.read_bytes().replace(b'"fault": "not', b'"fault": "old'))
        self.assertTrue(self.findings(self.job(plan, bad))[0].record.fault.startswith("old"))
        self.assertTrue(self.findings(self.job(plan, bad, again=True))[0].record.fault.startswith("not"))

    @unittest.skipUnless(IS_BUILT, "the program isn't built")
    def test_a_killed_study_goes_on_where_it_was(self):
        slow = self.write("slow", f'#!/bin/sh\nsleep 0.1\nexec "{PROGRAM}" "$@"\n')
        slow.chmod(0o755)
        self.write("a.dss", LOADED)
        self.write("p.toml", PLAN.replace("[0, 60, 200]", "[0, 10, 20, 30, 40, 50]"))
        words = [
            sys.executable,
            str(TOP / "tools" / "study"),
            "p.toml",
            "--into",
            "out",
            "--jobs",
            "1",
            "--feeder",
            str(slow),
        ]
        runs = self.folder / "out" / "runs"
        first = subprocess.Popen(words, cwd=self.folder, stdout=subprocess.DEVNULL, stderr=subprocess.DEVNULL)
        for _ in range(3000):
            if runs.is_dir() and len(list(runs.glob("*.json"))) >= 2:
                break
            time.sleep(0.01)
        first.kill()
        first.wait()
        self.assertFalse((self.folder / "out" / "table.csv").exists())
        time.sleep(0.7)
        kept = {it: it.stat().st_mtime_ns for it in runs.glob("*.json")}
        self.assertTrue(2 <= len(kept) < 6)
        second = subprocess.run(words, cwd=self.folder, capture_output=True, text=True, timeout=300, check=False)
        self.assertEqual(second.returncode, 0, second.stderr)
        self.assertEqual({it: it.stat().st_mtime_ns for it in kept}, kept)
        self.assertEqual([it["outcome:printed"] for it in self.table()], ["solved"] * 6)
        self.assertIn("] 6/6 failed 0", second.stderr)
        self.assertIn("b: sure up to 50", second.stdout)

    def test_a_dask_cluster_gets_the_runs(self):
        job = self.job(PLAN)
        found = sorted(study.on_dask(job, range(3), "tcp://there:8786", FakeDask), key=lambda it: it.number)
        self.assertEqual([it.record.outcome for it in found], ["solved"] * 3)
        self.assertEqual((FakeDask.address, FakeDask.submitted, FakeDask.is_closed), ("tcp://there:8786", 3, True))

    def test_progress_is_a_bar_on_a_terminal(self):
        stream = Terminal()
        progress = study.Progress(2, stream)
        for status in (0, 3):
            progress.add(Finding(0, {}, Record("k", status=status), Judged()))
        self.assertIn("[###############...............] 1/2 failed 0", stream.getvalue())
        self.assertIn("2/2 failed 1", stream.getvalue())

    def test_bad_words_and_plans_end_with_a_status(self):
        self.write("a.dss", LOADED)
        good = self.write("p.toml", PLAN)
        many = self.write("m.toml", PLAN.replace("a.dss", "m.dss"))
        self.write("m.dss", LOADED + "Solve\n")
        for words, status, said in (
            ([], 64, "required"),
            ([good, "--jobs", "0"], 64, "--jobs must be above 0"),
            ([good, "--feeder", self.folder / "no"], 69, "is no program"),
            ([self.write("b.toml", PLAN.replace("loading", "load"))], 65, "b.toml: line 4: limits.load: unknown word"),
            ([many], 65, "has 2 Solves"),
            ([self.write("n.toml", PLAN.replace("a.dss", "n.dss"))], 65, "absent file"),
            ([self.folder / "absent.toml"], 66, "No such file"),
        ):
            got = self.call("study", study.main, *words)
            self.assertEqual(got[0], status, (words, got))
            self.assertIn(said, got[2])
        status, said, _ = self.call("study", study.main, good, "--list")
        self.assertEqual((status, said.splitlines()[1]), (0, "2: plant_bus=b, plant_kw=60"))

    def test_the_examples_are_plans(self):
        for path in (TOP / "companion" / "examples").glob("*.toml"):
            job = study.prepared(str(path), str(self.folder / path.stem), str(PROGRAM))
            self.assertGreater(len(job.plan.rows), 1, path.name)
            for row in (job.plan.rows[0], job.plan.rows[-1]):
                self.assertIn(b"! study: ", write_script(job.source, row).text)


class FakeDask:
    """What of `distributed` a study calls, in this process."""

    address, submitted, is_closed = "", 0, False

    class Future:
        def __init__(self, value):
            self.value = value

        def result(self):
            return self.value

    class Client:
        def __init__(self, address):
            FakeDask.address = address

        def __enter__(self):
            return self

        def __exit__(self, *_):
            FakeDask.is_closed = True

        def scatter(self, job, broadcast):
            assert broadcast
            return job

        def submit(self, work, job, number, pure):
            assert not pure
            FakeDask.submitted += 1
            return FakeDask.Future(work(job, number))

    as_completed = staticmethod(reversed)


class Terminal(io.StringIO):
    def isatty(self):
        return True


class Archives(StudyFolder):
    """Kept by `archive keep`, replayed by `archive replay`; the program's check is a stand-in where it isn't built."""

    def setUp(self):
        super().setUp()
        self.checker = BUILT
        if not IS_BUILT:
            self.checker = self.write("checker", "#!/bin/sh\necho certificate,accepted,1\n")
            self.checker.chmod(0o755)

    def archived(self):
        job = self.job(PLAN.replace("[0, 60, 200]", "[0, 60]"))
        study.write_answer(job, self.findings(job))
        kept = self.folder / "kept"
        status, said, wrong = self.call("archive", archive.main, "keep", self.folder / "out", kept)
        self.assertEqual((status, wrong), (0, ""))
        self.assertIn("2 parts kept", said)
        return kept

    def replay(self, kept, status):
        got = self.call("archive", archive.main, "replay", kept, "--feeder", self.checker)
        self.assertEqual(got[0], status, got)
        return got[1]

    def test_an_archive_is_replayed(self):
        kept = self.archived()
        self.assertIn("2 parts, 0 wrong", self.replay(kept, 0))
        sums = subprocess.run(["sha256sum", "-c", "--quiet", "SUMS"], cwd=kept, capture_output=True, check=False)
        self.assertEqual(sums.returncode, 0, sums.stdout)

    def test_a_changed_archive_is_told(self):
        kept = self.archived()
        report = kept / "runs" / "1" / "1" / "report.csv"
        report.write_bytes(report.read_bytes().replace(b"0.000", b"0.001", 1))
        said = self.replay(kept, 1)
        self.assertIn("runs/1/1/report.csv: isn't what its sum says", said)
        self.assertIn("runs/1/1: the report isn't the certificate's", said)
        (kept / "runs" / "2" / "1" / "certificate.crt.gz").write_bytes(b"x")
        (kept / "more").write_bytes(b"x")
        (kept / "table.csv").unlink()
        said = self.replay(kept, 1)
        for words in ("2/1: its certificate can't be read", "more: has no sum", "table.csv: isn't there"):
            self.assertIn(words, said)
        (kept / "runs" / "2" / "1" / "certificate.crt.gz").unlink()
        self.assertIn("runs/2/1: has no certificate", self.replay(kept, 1))
        (kept / "SUMS").write_text("x\n")
        self.assertIn("SUMS: line 1 isn't a sum and a name", self.replay(kept, 1))

    @unittest.skipUnless(IS_BUILT, "the program isn't built")
    def test_a_certificate_that_the_program_refuses_is_told(self):
        kept = self.archived()
        first, second = (kept / "runs" / it / "1" / "certificate.crt.gz" for it in "12")
        first.write_bytes(second.read_bytes())
        self.assertIn("runs/1/1: check ends with status 13", self.replay(kept, 1))

    def test_bad_words_end_with_a_status(self):
        kept = self.archived()
        for words, status, said in (
            ([], 64, "required"),
            (["replay"], 64, "required"),
            (["replay", kept, "--jobs", "0", "--feeder", self.checker], 64, "--jobs must be above 0"),
            (["replay", self.folder / "no", "--feeder", self.checker], 66, "No such file"),
            (["replay", kept, "--feeder", self.folder / "no"], 69, "is no program"),
            (["keep", self.folder, self.folder / "x"], 66, "has no runs.csv"),
            (["keep", self.folder / "out", kept], 73, "isn't empty"),
            (
                ["keep", self.folder / "out", self.folder / "y", "--with-program", "--feeder", "/bin/true"],
                65,
                "isn't the program",
            ),
        ):
            got = self.call("archive", archive.main, *words)
            self.assertEqual(got[0], status, (words, got))
            self.assertIn(said, got[2])

    def test_a_damaged_study_is_not_archived(self):
        job = self.job(PLAN.replace("[0, 60, 200]", "[0]"))
        found = self.findings(job)
        study.write_answer(job, found)
        job.store.path(found[0].record.parts[0].script, False).write_bytes(b"x")
        got = self.call("archive", archive.main, "keep", self.folder / "out", self.folder / "kept")
        self.assertEqual(got[0], 65)
        self.assertIn("its content isn't that of its name", got[2])


if __name__ == "__main__":
    unittest.main()
