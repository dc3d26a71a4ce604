"""The table and the CSV show what the program printed: every figure, in its column."""

import csv
import hashlib
import io
import re
import struct
import unittest

from common import bits, day_command, day_of, stored_end, stored_jobs, tank, told
import programs
import records
import refusals
import report
import table

HEATERS = (
    "heater rated power 3 kW, position 0.6 of height\n"
    "heater rated power 2 kW, position 0.1 of height, thermostat 0.4 of height\n"
)
POINTS = "heater 0 lower 50 C upper 60 C, heater 1 lower 40 C upper 60 C\n"
BEGINS = ("10 C, draws 40 50 litres", "nan C", "10 C")
SMALL = tank() + HEATERS + "".join("step feed %s, %s" % (begin, POINTS) for begin in BEGINS)


def positions(job):
    """The heaters' positions, out of the bytes themselves."""
    found, at = [], 0
    while at < len(job):
        length, kind = struct.unpack_from("<IH", job, at)
        if kind == 2:
            found.append(struct.unpack_from("<d", job, at + 14)[0])
        at += 4 + length
    return found


class CommaSeparated(unittest.TestCase):
    def test_every_figure_of_every_stored_job(self):
        """The judge's lines, bit for bit, out of the CSV: layers from the top, heaters by their place in the file."""
        rows_seen = 0
        for name, job, lines in stored_jobs():
            try:
                day, _ = records.read_job(job)
            except records.Malformed:
                continue
            place = positions(job)
            # Rising position, and the place in the file where two are equal.
            pairs = [(value, index) for index, value in enumerate(place)]
            order = [index for _, index in sorted(pairs)] if stored_end(lines) is None else []
            shown = table.comma_separated(day, report.read_report(lines, day.working_order()))
            rows = list(csv.DictReader(io.StringIO(shown)))
            expected = self.rows_of(lines, order)
            self.assertEqual(len(rows), len(expected), name)
            for row, values in zip(rows, expected):
                for column, digits in values.items():
                    found = row[column]
                    found = bits(float(found)) if len(digits) == 16 else found
                    self.assertEqual(found, digits, "%s, step %s, %s" % (name, row["step"], column))
                    rows_seen += 1
        self.assertGreater(rows_seen, 10000)

    def rows_of(self, lines, order):
        rows = []
        for line in lines:
            kind, *words = line.split(" ")
            if kind == "S":
                rows.append({"step": words[0], "refusal": words[1]})
                rows[-1].update(zip(("energy kWh", "volume litres", "average C", "recoverable kWh"), words[2:]))
                heater = 0
            elif kind == "L":
                rows[-1].update({"layer %d C" % layer: digits for layer, digits in enumerate(words)})
            elif kind == "H":
                names = ("flag", "adjusted kWh", "supplied kWh", "losses kWh", "rounds")
                rows[-1].update({"heater %d %s" % (order[heater], name): word for name, word in zip(names, words)})
                heater += 1
        return rows

    def test_layers_from_the_top_down(self):
        heading = table.comma_separated(*told(SMALL)[:2]).splitlines()[0].split(",")
        layers = [name for name in heading if name.startswith("layer")]
        self.assertEqual(layers, ["layer 3 C", "layer 2 C", "layer 1 C", "layer 0 C"])


class Program(unittest.TestCase):
    def test_the_program_prints_the_stored_lines(self):
        """The figures come from the proved program job: on stored jobs it prints what the judge says."""
        for name, job, lines in stored_jobs():
            self.assertEqual(programs.lines_of("job", job, 0), lines, name)


class Table(unittest.TestCase):
    def setUp(self):
        self.day, self.report, _ = told(SMALL)
        self.lines = table.table(self.day, self.report, "small.day").splitlines()

    def rows(self, heading):
        """The rows under the heading line that begins so."""
        start = next(index for index, line in enumerate(self.lines) if line.split()[: len(heading)] == heading)
        rows = self.lines[start + 2 :]
        return rows[: rows.index("")] if "" in rows else rows

    def test_fits_80_columns(self):
        self.assertLessEqual(max(map(len, self.lines)), 80)

    def test_columns_line_up(self):
        for heading in (["step", "clock"], ["step", "adjusted"]):
            rows = [row for row in self.rows(heading) if "refused" not in row]
            ends = [[match.end() for match in re.finditer(r"\S+", row)] for row in rows]
            self.assertGreater(len(ends), 1)
            self.assertEqual(ends, [ends[0]] * len(ends))
        # A refused step has its layers in the same columns.
        accepted, refused = self.rows(["step", "clock"])[:2]
        layers = [match.end() for match in re.finditer(r"\S+", accepted)][6:10]
        self.assertEqual([match.end() for match in re.finditer(r"\S+", refused)][4:], layers)

    def test_figures(self):
        """Each number is the program's, rounded; heater 1, which sits lower, comes first."""
        accepted = [step for step in self.report.steps if step.totals]
        for row, step in zip((row for row in self.rows(["step", "clock"]) if "refused" not in row), accepted):
            words = row.split()
            shown = [float(word) for word in words[2:10]]
            values, rooms = list(step.totals) + step.layers[::-1], [5e-5, 5e-3, 5e-3, 5e-5] + [5e-3] * 4
            for number, value, room in zip(shown, values, rooms):
                self.assertLessEqual(abs(number - value), room * 1.001)
            self.assertEqual(words[10:], ["on" if step.heaters[place].flag else "off" for place in (1, 0)])
        for row, step in zip(self.rows(["step", "adjusted"]), accepted):
            shown = row.split()[1:]
            for place in (1, 0):
                line, words, shown = step.heaters[place], shown[:4], shown[4:]
                for word, value in zip(words, (line.adjusted, line.supplied, line.losses)):
                    self.assertLessEqual(abs(float(word) - value), 5e-5 * 1.001)
                self.assertEqual(words[3], "%d" % line.rounds)

    def test_headings_name_heaters_by_their_place_in_the_file(self):
        text = "\n".join(self.lines)
        self.assertRegex(text, r"bottom +h1 +h0\n")
        self.assertRegex(text, r"heater 1 +heater 0\n")
        self.assertIn("h1: 2 kW at 0.1 of height, thermostat at 0.4", text)

    def test_refused_step_is_named_in_words(self):
        text = " ".join(" ".join(self.lines).split())
        self.assertIn("Refused, step 1: refusal 7. " + refusals.WORDS[7], text)

    def test_large_numbers_keep_the_columns(self):
        self.day, self.report, _ = told(SMALL.replace("initial 55", "initial 1e12"))
        self.lines = table.table(self.day, self.report, "large.day").splitlines()
        self.test_columns_line_up()


ONE = "heater rated power 1 kW, position 0 of height\n"
REFUSALS = [
    (6, tank() + "step feed 10 C, draws %s litres\n" % " ".join(["1"] * 65)),
    (7, tank() + "step feed inf C\n"),
    (7, tank() + "step feed 10 C, draws -1 litres\n"),
    (9, tank(2).replace("volume 150", "volume 5e-324") + ONE + "step feed 10 C, heater 0 none\n"),
    (10, tank().replace("density 1 ", "density 1e308 ").replace("0.001163", "1") + "step feed 10 C, draws 20 litres\n"),
]
ENDINGS = [
    (1, 1, tank(0)),
    (1, 1, tank(33)),
    (2, 10, tank() + ONE * 9 + "step feed 10 C" + "".join(", heater %d none" % i for i in range(9)) + "\n"),
    (3, 2, "# words\n" + tank().replace("150", "nan")),
    (4, 1, tank(initial="inf")),
    (5, 3, tank() + "\nheater rated power 1 kW, position 1.0000000000000002 of height\n"),
]


# Of the list of refusals in document 01: its eleven lines, "1. The layers are ..." first.
LIST_SHA256 = "0d1fb9779eafd209bc0e171d75ec33141fba4c4e2391e5d98dcfb8e7f481b072"


# 5 as it stands there, which since document 02 begins above 1.
FIVE = "is not at least 0 and below 1.", "is not at least 0, or is above 1."


# 8 as it stands there, which document 02 split in three.
EIGHT = "A present set point is not finite, or the lower one comes without the upper, or is greater than it."


class Refused(unittest.TestCase):
    def test_words_are_those_of_01(self):
        five = refusals.WORDS[5].replace(*reversed(FIVE))
        of_01 = {**{number: words for number, words in refusals.WORDS.items() if number < 12}, 5: five, 8: EIGHT}
        lines = "\n".join("%d. %s" % pair for pair in sorted(of_01.items()))
        self.assertEqual(hashlib.sha256(lines.encode()).hexdigest(), LIST_SHA256)

    def test_words_of_set_points_are_the_parts_of_what_01_has(self):
        parts = [refusals.WORDS[number].rstrip(".") for number in refusals.OF_SET_POINTS]
        whole = ", or ".join(parts).replace("The lower set point comes", "the lower one comes", 1) + "."
        whole = whole.replace("The lower set point is greater than the upper", "is greater than it")
        self.assertEqual(whole, EIGHT)

    def test_steps(self):
        for number, text in REFUSALS:
            day, result, lines = told(text)
            self.assertEqual(lines[0], "S 0 %d" % number, text)
            shown = " ".join(table.table(day, result, "a.day").split())
            self.assertIn("refused %d" % number, shown)
            self.assertIn("Refused, step 0: refusal %d. %s" % (number, refusals.WORDS[number]), shown)

    def test_outside_a_step(self):
        for number, line, text in ENDINGS:
            day, result, lines = told(text)
            self.assertEqual(lines[-1].split()[:2], ["E", "%d" % number], text)
            shown = " ".join(table.table(day, result, "a.day").split())
            where = "line %d (byte %d of its job)" % (line, result.ended[1])
            self.assertIn("The job ended at %s: refusal %d. %s" % (where, number, refusals.WORDS[number]), shown)

    def test_exit_status(self):
        done = day_command("run", "-", input=tank(0).encode())
        self.assertEqual(done.returncode, 1)
        self.assertIn(b"refusal 1. The layers are none or", done.stdout)
        done = day_command("run", "--csv", "-", input=tank(0).encode())
        self.assertEqual(done.returncode, 1)
        self.assertIn(b"refusal 1. The layers are none or more than 32.", done.stderr)


if __name__ == "__main__":
    unittest.main()
