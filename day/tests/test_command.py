"""The command itself: interrupted it leaves no half file, a long run shows its progress, errors say what and where."""

import os
import signal
import subprocess
import sys
import time
import unittest
from unittest import mock

from common import DAY, ROOT, Folder, at_once, day_command, tank
import files

SLOW = """#!{python}
import os, sys, time
sys.stdin.buffer.read()
open(os.path.join(os.path.dirname(sys.argv[0]), "started"), "w").close()
for index in range({steps}):
    print("S %d 7" % index)
    print("L 4034000000000000")
    sys.stdout.flush()
    time.sleep({pause})
"""


class Slow(Folder):
    """A folder with a day, a file that is there already, and a stand-in for job that takes its time."""

    def setUp(self):
        super().setUp()
        self.day = self.write("a.day", tank(layers=1) + "step feed nan C\n" * 40)
        self.old = self.write("old.txt", "kept")

    def programs(self, steps, pause):
        return self.program("job", SLOW.format(python=sys.executable, steps=steps, pause=pause))


class Interrupted(Slow):
    def setUp(self):
        super().setUp()
        self.hear_signals()

    def interrupted_by(self, number, target):
        programs = os.path.join(self.folder, "bin")
        if not os.path.isdir(programs):
            self.programs(1000, 0.05)
        command = [sys.executable, os.path.join(DAY, "command.py"), "run", self.day, "--programs", programs, "-o", target]
        started = os.path.join(programs, "started")
        process = subprocess.Popen(command, cwd=ROOT, stderr=subprocess.PIPE)
        until = time.monotonic() + 30
        while not os.path.exists(started) and time.monotonic() < until:
            time.sleep(0.05)
        os.unlink(started)
        process.send_signal(number)
        said = process.communicate(timeout=20)[1]
        return process.returncode, said

    def test_by_the_keyboard(self):
        for target in (self.old, os.path.join(self.folder, "new.txt")):
            status, said = self.interrupted_by(signal.SIGINT, target)
            self.assertEqual(status, 130)
            self.assertIn(b"interrupted, no file was written", said)
            self.assertEqual(self.files(), ["a.day", "old.txt"])
        self.assertEqual(self.read(self.old), b"kept")

    def test_by_an_order_to_end(self):
        status, _ = self.interrupted_by(signal.SIGTERM, self.old)
        self.assertEqual(status, 143)
        self.assertEqual(self.files(), ["a.day", "old.txt"])
        self.assertEqual(self.read(self.old), b"kept")

    def test_while_writing(self):
        for what in ("fsync", "replace"):
            with mock.patch.object(files.os, what, side_effect=KeyboardInterrupt), self.assertRaises(KeyboardInterrupt):
                files.write_whole(self.old, b"half")
            self.assertEqual(self.files(), ["a.day", "old.txt"])
            self.assertEqual(self.read(self.old), b"kept")

    def test_whole_otherwise(self):
        os.chmod(self.old, 0o640)
        files.write_whole(self.old, b"new")
        self.assertEqual(self.read(self.old), b"new")
        self.assertEqual(os.stat(self.old).st_mode & 0o777, 0o640)
        self.assertEqual(self.files(), ["a.day", "old.txt"])


class Said(Slow):
    def begun(self, steps, pause):
        command = [sys.executable, os.path.join(DAY, "command.py"), "run", self.day, "--programs", self.programs(steps, pause)]
        self.began = time.monotonic()
        return subprocess.Popen(command, cwd=ROOT, stdout=subprocess.PIPE, stderr=subprocess.PIPE)

    def test_progress(self):
        """Not before a second has gone."""
        process = self.begun(40, 0.04)
        first, seen = process.stderr.readline(), time.monotonic()
        out, _ = process.communicate(timeout=60)
        self.assertEqual(process.returncode, 0)
        self.assertRegex(first, rb"^job: step [0-9]+ of 40\n$")
        self.assertGreaterEqual(seen - self.began, 1)
        self.assertIn(b"Refused, steps 0 to 39: refusal 7.", out)

    def test_no_progress_where_it_is_quick(self):
        said = self.begun(40, 0.005).communicate(timeout=60)[1]
        # Another's work may have made it slow.
        if time.monotonic() - self.began < 1:
            self.assertEqual(said, b"")

    def test_job_in_place_of_a_text(self):
        """run takes a job as well, and shows the same."""
        job = os.path.join(self.folder, "a.job")
        self.assertEqual(at_once("pack", self.day, "-o", job).returncode, 0)
        texts, jobs = (at_once("run", path).stdout.splitlines()[1:] for path in (self.day, job))
        self.assertEqual(texts, jobs)

    def test_standard_input_and_output(self):
        job = day_command("pack", "-", "-o", "/dev/stdout", input=self.read(self.day)).stdout
        self.assertEqual(job, day_command("pack", self.day).stdout)
        self.assertEqual(day_command("unpack", "-", input=job).stdout.count(b"step feed nan C"), 40)


if __name__ == "__main__":
    unittest.main()
