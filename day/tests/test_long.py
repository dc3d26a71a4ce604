"""Days of any length: long_job is asked where job does not read all, and nothing is cut."""

import csv
import io
import os
import time
import unittest

from common import Folder, at_once, bits, built, day_of, tank
import programs
import records
import second_opinion
import turns
import why

model = second_opinion.model

# A year of half hours. Heater 0 goes on and off; heater 1 comes on in step 700 and never reaches its upper set point;
# heater 2 is never asked for.
YEAR = 365 * 48
WINDOW = 1 << 20  # bytes that long_job and history read at a time
FITTED = ((2, 0.1), (0.1, 0.5), (1, 0.9))
HEATERS = "".join("heater rated power %s kW, position %s of height\n" % pair for pair in FITTED)
STEP = "step feed %s C%s, heater 0 lower 40 C upper 50 C, heater 1 %supper 90 C, heater 2 none\n"


def year(steps=YEAR):
    lines = [tank(layers=2, initial=45, length=0.5), HEATERS]
    for index in range(steps):
        feed = "nan" if index % 1000 == 999 else "%g" % (8 + index % 7)
        draws = ", draws %d %d litres" % (20 + index % 11, 5) if index % 16 == 13 else ""
        lines.append(STEP % (feed, draws, "lower 60 C " if 700 <= index < 800 else ""))
    return "".join(lines)


def by_01(lines_of, job):
    """What 01 says of a whole job, however long."""
    read, model.MOST_BYTES = model.MOST_BYTES, 1 << 60
    try:
        return lines_of(job)
    finally:
        model.MOST_BYTES = read


class Long(Folder):
    """The programs, but for a job that must not be asked."""

    def setUp(self):
        super().setUp()
        self.programs = self.program("job", "#!/bin/sh\necho asked in place of long_job >&2\n")
        for name in ("long_job", "history"):
            os.symlink(built(name), os.path.join(self.programs, name))


class Year(Long):
    @classmethod
    def setUpClass(cls):
        cls.job = records.job_bytes(day_of(year()))
        assert len(cls.job) > WINDOW

    def setUp(self):
        super().setUp()
        self.path_of_day = self.write("year.job", self.job)

    def command(self, *words):
        done = at_once(*words, self.path_of_day, "--programs", self.programs)
        self.assertEqual(done.returncode, 0, done.stderr)
        return done.stdout.decode()

    def test_every_figure_of_every_step(self):
        """The CSV against document 01 in Python, bit for bit."""
        steps = []
        for line in by_01(model.job_lines, self.job):
            kind, *words = line.split(" ")
            if kind == "S":
                steps.append([])
            steps[-1] += words
        rows = list(csv.reader(io.StringIO(self.command("run", "--csv"))))
        self.assertEqual((len(rows) - 1, len(steps)), (YEAR, YEAR))
        accepted = 0
        for row, words in zip(rows[1:], steps):
            index, _, number, _, *rest = row
            self.assertEqual([index, number], words[:2])
            # Totals, the layers from the top down, and the figures of the heaters; a refused step has its layers alone.
            figures = words[2:6] + words[7:5:-1] + words[8:] if number == "0" else words[:1:-1]
            shown = [cell for cell in rest[:-1] if cell]
            shown = [bits(float(cell)) if len(word) == 16 else cell for cell, word in zip(shown, figures)]
            self.assertEqual(shown, figures, index)
            accepted += number == "0"
        self.assertEqual(accepted, YEAR - YEAR // 1000)

    def test_the_flags_history_is_whole(self):
        """After the last step, heater 1 remembers step 700, and every accepted step since is counted."""
        told = " ".join(self.command("why").split())
        self.assertIn("After step 17519 (364d 23:30), the last:", told)
        self.assertIn("h1 is on. It came on in step 700 (14d 14:00): its turn began with", told)
        refused = sum(index % 1000 == 999 for index in range(700, YEAR))
        self.assertIn("In no accepted step from that one on (%d so far) did" % (YEAR - 700 - refused), told)


class Weeks(Long):
    """Some weeks of the same: a little more than job takes."""

    STEPS = 1500

    def setUp(self):
        super().setUp()
        self.text = year(self.STEPS)
        self.job = records.job_bytes(day_of(self.text))
        self.path_of_day = self.write("weeks.day", self.text)

    def test_history_is_what_01_says(self):
        lines = programs.lines_of("history", self.job, self.STEPS, self.programs)
        self.assertEqual(lines, by_01(second_opinion.history_lines, self.job))

    def test_the_text_and_back(self):
        job = self.path("weeks.job")
        done = at_once("pack", self.path_of_day, "-o", job)
        said = "too long for the program job: it takes at most %d steps of this shape (65,536 bytes), this day has %d; "
        whole = said % (self.steps_taken(), self.STEPS) + "day/day run and long_job take it whole\n"
        self.assertEqual(done.stderr.decode(), "note: %s is %s" % (self.path_of_day, whole))
        self.assertEqual((done.returncode, self.read(job)), (0, self.job))
        done = at_once("unpack", job)
        self.assertEqual((done.returncode, done.stderr), (0, b""))
        self.assertEqual(records.job_bytes(day_of(done.stdout.decode())), self.job)

    def steps_taken(self):
        """How many steps of the day the program job itself takes whole."""
        lines = programs.lines_of("job", self.job, 0)
        self.assertTrue(lines[-1].startswith("E 11 "))
        return sum(line.startswith("S ") for line in lines)

    def test_a_day_that_fits_is_packed_without_a_word(self):
        taken = self.steps_taken()
        path = self.write("fits.day", year(taken))
        self.assertEqual(at_once("pack", path, "-o", self.path("fits.job")).stderr, b"")
        path = self.write("fits.day", year(taken + 1))
        self.assertIn(b"too long for the program job", at_once("pack", path, "-o", self.path("fits.job")).stderr)


class Limit(Long):
    """64 bytes of tank and 16 a step: with 4092 steps a job has 65,536 bytes."""

    def asked(self, steps, folder):
        day = self.write("a.day", tank() + "step feed 10 C\n" * steps)
        return at_once("run", day, "--programs", folder)

    def test_job_where_it_reads_all(self):
        self.assertIn(b"asked in place of long_job", self.asked(4092, self.programs).stderr)
        done = self.asked(4092, os.path.dirname(built("job")))
        self.assertEqual((done.returncode, done.stderr), (0, b""))
        self.assertIn(b"\n4091  170d 11:00  ", done.stdout)

    def test_long_job_from_there_on(self):
        done = self.asked(4093, self.programs)
        self.assertEqual((done.returncode, done.stderr), (0, b""))
        self.assertIn(b"\n4092  170d 12:00  ", done.stdout)

    def test_long_job_missing_is_said(self):
        os.unlink(os.path.join(self.programs, "long_job"))
        done = self.asked(4093, self.programs)
        self.assertEqual(done.returncode, 2)
        self.assertIn(b"the program long_job is not at", done.stderr)
        self.assertIn(b"to build it: day/day sample", done.stderr)

    def test_failures_name_long_job(self):
        done = self.asked(4093, self.program("long_job", "#!/bin/sh\nexit 3\n"))
        self.assertEqual(done.returncode, 2)
        self.assertIn(b"long_job failed: it ended with status 3 after 0 of 4093 steps", done.stderr)


class Linear(unittest.TestCase):
    def test_ten_years_of_memory(self):
        """Seconds of this process; a list copied for every step would take minutes."""
        turn = turns.Turn(0, 40.0, 45.0, 50.0, 60.0, True, True, 1.0, 1)
        dropped = turns.StepTurns(0, 7, [])
        steps = [turns.StepTurns(index, 0, [turn]) for index in range(10 * YEAR)]
        steps += [dropped._replace(index=index) for index in range(10 * YEAR, 20 * YEAR)]
        day = day_of(tank(length=0.5) + "heater rated power 2 kW, position 0.1 of height\n")
        day.steps = [records.Step(10.0, [], [(50.0, 60.0)])] * len(steps)
        began = time.process_time()
        told = why.why(day, turns.History(steps, None), len(steps) - 1)
        self.assertLess(time.process_time() - began, 10)
        self.assertIn("(%d so far)" % (10 * YEAR), told)


if __name__ == "__main__":
    unittest.main()
