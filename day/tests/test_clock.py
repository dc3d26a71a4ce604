"""Clock times where the steps fill a day, hours elsewhere, in the table, the CSV and the words of why."""

import csv
import io
import unittest
from fractions import Fraction

from common import Folder, at_once, tank
import clock
import units

HEATER = "heater rated power 2 kW, position 0.1 of height\n"
STEP = "step feed 10 C, heater 0 lower 50 C upper 60 C\n"


class Clock(unittest.TestCase):
    def test_every_step_length_of_whole_minutes(self):
        """Against whole minutes counted up: a length that divides a day has a clock, any other has hours."""
        for minutes in range(1, 1441):
            length = units.number("%d" % minutes, units.MINUTE)
            for index in (0, 1, 2, 7, 1440 // minutes, 1440 // minutes + 1, 10**6):
                day, rest = divmod(index * minutes, 1440)
                expected = "%02d:%02d" % divmod(rest, 60)
                expected = "%dd %s" % (day, expected) if day else expected
                found = clock.on_the_clock(index, length)
                self.assertEqual(found, expected if 1440 % minutes == 0 else None, (minutes, index))

    def test_seconds_are_shown_where_steps_have_them(self):
        self.assertEqual(clock.on_the_clock(3, float(Fraction(30, 3600))), "00:01:30")
        self.assertEqual(clock.on_the_clock(2 * 86400 + 1, 1 / 3600), "2d 00:00:01")
        self.assertEqual(clock.on_the_clock(121, 0.01), "01:12:36")

    def test_no_clock(self):
        for length in (0.0, -1.0, 5.0, 7.0, 48.0, 25.0, 1e-5, 1e-300, 5e-324, 1e300, float("inf"), float("nan")):
            self.assertIsNone(clock.on_the_clock(1, length), length)
        # A day in seven parts is no whole number of seconds, and a neighbour of a third is no third.
        self.assertIsNone(clock.on_the_clock(1, 24 / 7))
        self.assertIsNone(clock.on_the_clock(1, 0.33333333333333326))
        self.assertIsNone(clock.on_the_clock(1, 0.33333333333333337))
        self.assertEqual(clock.on_the_clock(1, 0.3333333333333333), "00:20")


class Shown(Folder):
    def shown(self, length, command, *options):
        path = self.write("a.day", tank(initial=55, length=length) + HEATER + STEP * 60)
        done = at_once(command, path, *options)
        self.assertEqual((done.returncode, done.stderr), (0, b""))
        return done.stdout.decode()

    def test_table(self):
        rows = self.shown(0.5, "run").splitlines()
        self.assertIn("After each step (clock: where it begins; flags and heaters in working order):", rows)
        start = next(at for at, row in enumerate(rows) if row.startswith("step  "))
        self.assertEqual(rows[start].split()[:3], ["step", "clock", "energy"])
        cells = [row[: rows[start].index("energy") - 1].split(None, 1) for row in rows[start + 2 : start + 62]]
        expected = ["%s%02d:%02d" % ("1d " if at >= 48 else "", at % 48 // 2, at % 2 * 30) for at in range(60)]
        self.assertEqual([step for step, _ in cells], ["%d" % at for at in range(60)])
        self.assertEqual([when.rstrip() for _, when in cells], expected)
        rows = self.shown(7, "run").splitlines()
        self.assertIn("After each step (hour: where it begins; flags and heaters in working order):", rows)
        start = next(at for at, row in enumerate(rows) if row.startswith("step  "))
        self.assertEqual([row.split()[1] for row in rows[start + 2 :][:3]], ["0", "7", "14"])

    def test_csv_keeps_its_columns_and_adds_one_at_the_end(self):
        for length, last in ((0.5, ["00:00", "00:30", "1d 05:30"]), (7, ["", "", ""])):
            heading, *rows = csv.reader(io.StringIO(self.shown(length, "run", "--csv")))
            self.assertEqual((heading[:3], heading[-1]), (["step", "hour", "refusal"], "clock"))
            self.assertEqual([float(row[1]) for row in rows], [at * length for at in range(60)])
            self.assertEqual([rows[0][-1], rows[1][-1], rows[59][-1]], last)
            self.assertEqual({len(row) for row in rows}, {len(heading)})

    def test_why(self):
        told = " ".join(self.shown(0.5, "why", "--step", "50").split())
        self.assertIn("After step 50 (1d 01:00):", told)
        told = " ".join(self.shown(7, "why", "--step", "50").split())
        self.assertIn("After step 50 (hour 350):", told)


if __name__ == "__main__":
    unittest.main()
