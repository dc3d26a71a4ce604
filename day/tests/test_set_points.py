"""Steps that are refused for their set points (12, 8 and 13): each fault is told in words, with the heater."""

import csv
import io
import unittest

from common import tank, told
import picture
import refusals
import report
import table
import turns
import why

ONE = "heater rated power 1 kW, position 0 of height\n"
TWO = ONE + "heater rated power 1 kW, position 0.5 of height\n"
# The number, whose set points are to blame and what was asked, the heaters, and the step.
FAULTS = [
    (8, "heater 0 lower 50 C", ONE, "heater 0 lower 50 C"),
    (12, "heater 0 lower nan C", ONE, "heater 0 lower nan C"),
    (12, "heater 0 upper inf C", ONE, "heater 0 lower 50 C upper inf C"),
    (12, "heater 0 lower -inf C upper nan C", ONE, "heater 0 lower -inf C upper nan C"),
    (12, "heater 0 lower inf C", ONE, "heater 0 lower inf C upper 60 C"),
    (13, "heater 0 lower 60.5 C upper 50 C", ONE, "heater 0 lower 60.5 C upper 50 C"),
    (13, "heater 1 lower 60 C upper 50 C", TWO, "heater 0 none, heater 1 lower 60 C upper 50 C"),
    (13, "heater 0 lower 60 C upper 50 C", TWO, "heater 0 lower 60 C upper 50 C, heater 1 lower nan C"),
    (8, "heater 0 lower 50 C", TWO, "heater 0 lower 50 C, heater 1 lower 60 C upper 50 C"),
]


class SetPoints(unittest.TestCase):
    def test_faults_are_named_with_their_heater(self):
        """In the table, in the CSV, in the reasons and under the picture; the picture names the heaters alone."""
        for number, blamed, heaters, asked in FAULTS:
            day, result, lines = told(tank() + heaters + "step feed 10 C, %s\n" % asked)
            self.assertEqual(lines[0], "S 0 %d" % number, asked)
            words = "%s: %s." % (refusals.WORDS[number].rstrip("."), blamed)
            shown = " ".join(table.table(day, result, "a.day").split())
            self.assertIn("Refused, step 0: refusal %d. %s" % (number, words), shown)
            row = list(csv.reader(io.StringIO(table.comma_separated(day, result))))[1]
            self.assertEqual(row[2:4], ["%d" % number, words])
            history = turns.read_history(["S 0 %d" % number])
            self.assertIn("refusal %d. %s" % (number, words), " ".join(why.why(day, history, 0).split()))
            heater = " ".join(blamed.split()[:2])
            under = "refused %d: %s: %s." % (number, refusals.WORDS[number].rstrip("."), heater)
            self.assertIn(under, picture.picture(day, result, history, "a day"))

    def test_steps_alike_stand_together(self):
        step = "step feed 10 C, heater 0 lower %s C upper 50 C\n"
        day, result, _ = told(tank() + ONE + step % "60" + step % "40" + step % "60" + step % "nan" + step % "70")
        shown = table.refused_words(day, result)
        self.assertEqual([line.partition(":")[0] for line in shown if line.startswith("Refused")],
                         ["Refused, step 3", "Refused, steps 0, 2", "Refused, step 4"])

    def test_a_number_that_the_set_points_do_not_draw_is_noticed(self):
        day, _, lines = told(tank() + ONE + "step feed 10 C, heater 0 lower 60 C upper 50 C\n")
        for number, wrong in ((13, False), (8, True), (12, True), (7, False)):
            answer = report.read_report(["S 0 %d" % number] + lines[1:], day.working_order())
            if wrong:
                with self.assertRaisesRegex(report.WrongOutput, "step 0 has no set points that draw %d" % number):
                    report.check_report(answer, day, "job")
            else:
                report.check_report(answer, day, "job")


if __name__ == "__main__":
    unittest.main()
