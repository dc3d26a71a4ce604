"""Jobs past what `job` reads and past a window: long_job prints what one long run of the Rust prints.

The jobs are made here (compare/long_jobs.py). long_runs.json has the lengths and the SHA-256 of the judge's lines for
them; `compare/long write` writes it, from the Rust alone.
"""

import hashlib
import json
import os
import subprocess
import unittest

from common import TESTS, built
import second_opinion  # noqa: F401  puts compare/ on the path
import long_jobs


def run(program, job):
    """The lines of a program that ends well and says nothing else."""
    ran = subprocess.run([built(program)], input=job, stdout=subprocess.PIPE, stderr=subprocess.PIPE, timeout=60)
    if ran.returncode or ran.stderr:
        raise AssertionError("%s ended with %d: %r" % (program, ran.returncode, ran.stderr))
    return ran.stdout


def steps(lines):
    return [line for line in lines.split(b"\n") if line.startswith(b"S ")]


class LongRuns(unittest.TestCase):
    @classmethod
    def setUpClass(cls):
        with open(os.path.join(TESTS, "long_runs.json"), encoding="ascii") as file:
            cls.runs = json.load(file)
        cls.jobs = {name: make() for name, make in long_jobs.STORED.items()}
        cls.lines = {name: run("long_job", job) for name, job in cls.jobs.items()}

    def test_jobs_are_those_of_the_judge(self):
        self.assertEqual(sorted(self.runs), sorted(self.jobs))
        for name, job in self.jobs.items():
            made = {"bytes": len(job), "sha256": hashlib.sha256(job).hexdigest()}
            self.assertEqual(made, self.runs[name]["job"], name)

    def test_lengths(self):
        """All are longer than `job` reads; two are longer than a window."""
        self.assertTrue(all(len(job) > long_jobs.FIRST for job in self.jobs.values()))
        self.assertEqual(sum(len(job) > long_jobs.WINDOW for job in self.jobs.values()), 2)

    def test_lines_are_the_rusts(self):
        for name, lines in self.lines.items():
            stored = self.runs[name]
            counts = len(steps(lines)), lines.count(b"\n"), len(lines)
            self.assertEqual(counts, (stored["steps"], stored["lines"], stored["bytes"]), name)
            self.assertEqual(hashlib.sha256(lines).hexdigest(), stored["sha256"], name)

    def test_offset_counts_from_the_beginning(self):
        """After more than two windows, where the record of no kind begins."""
        job, lines = self.jobs["windows"], self.lines["windows"]
        at = job.index(b"no kind") - 6
        self.assertGreater(at, 2 * long_jobs.WINDOW)
        self.assertEqual(lines.split(b"\n")[-2], b"E 11 %d" % at)

    def test_job_prints_the_beginning(self):
        """The program `job` prints the same lines, until it comes to a record that is cut short at 65,536 bytes."""
        for name, job in self.jobs.items():
            *shown, end, rest = run("job", job).split(b"\n")
            whole = self.lines[name].split(b"\n")
            self.assertEqual(shown, whole[: len(shown)], name)
            at = int(end[len(b"E 11 ") :])
            self.assertEqual((end, rest), (b"E 11 %d" % at, b""), name)
            length = int.from_bytes(job[at : at + 4], "little")
            self.assertTrue(at < long_jobs.FIRST < at + 4 + length, name)
            self.assertEqual(run("long_job", job[:at]), run("job", job[:at]), name)

    def test_history_has_every_step(self):
        for name, job in self.jobs.items():
            numbers = [line.split()[:3] for line in steps(self.lines[name])]
            self.assertEqual([line.split()[:3] for line in steps(run("history", job))], numbers, name)


if __name__ == "__main__":
    unittest.main()
