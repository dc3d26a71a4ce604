"""A day as text: it loses no bit, and a wrong line is named."""

import os
import random
import re
import struct
import tempfile
import unittest
from fractions import Fraction

from common import ROOT, bits, day_command, stored_end, stored_jobs, tank
import records
import text

SPECIAL = ["0000000000000000", "8000000000000000", "7ff0000000000000", "fff0000000000000", "7ff8000000000000"]
SPECIAL += ["fff8000000000000", "7ff0000000000001", "7ff8dead0000beef", "0000000000000001", "800fffffffffffff"]
SPECIAL += ["7fefffffffffffff", "ffefffffffffffff", "0010000000000000", "3ff0000000000000", "4340000000000000"]


class Bytes:
    """A random job beside the job that must come back: one pattern for not-a-number, zeros for what is absent."""

    def __init__(self, seed):
        self.random = random.Random(seed)
        self.job, self.back = b"", b""
        self.payloads = self.absent = 0

    def double(self, present=True):
        chance = self.random.random()
        if chance < 0.25:
            digits = bytes.fromhex(self.random.choice(SPECIAL))
        elif chance < 0.6:
            digits = struct.pack(">d", round(self.random.uniform(-100, 100), self.random.randrange(6)))
        else:
            digits = bytes(self.random.randrange(256) for _ in range(8))
        plain = digits
        (value,) = struct.unpack(">d", digits)
        if not present:
            plain = b"\0" * 8
            self.absent += plain != digits
        elif value != value:
            plain = bytes.fromhex("7ff8000000000000")
            self.payloads += plain != digits
        return digits[::-1], plain[::-1]

    def record(self, kind, parts):
        for name, which in (("job", 0), ("back", 1)):
            body = struct.pack("<H", kind) + b"".join(part[which] for part in parts)
            setattr(self, name, getattr(self, name) + struct.pack("<I", len(body)) + body)

    def both(self, data):
        return data, data

    def make(self):
        rand = self.random
        layers = rand.choice([0, 1, 4, 32, 33, 65535, rand.randrange(65536)])
        self.record(1, [self.both(struct.pack("<H", layers))] + [self.double() for _ in range(7)])
        heaters = rand.choice([0, 0, 1, 2, 3, 8, 9, 10])
        for _ in range(heaters):
            present = rand.randrange(2)
            self.record(2, [self.double(), self.double(), self.both(bytes([present])), self.double(present)])
        for _ in range(rand.randrange(6)):
            volumes = rand.choice([0, 0, 1, 2, 5, 64, 65, 200])
            parts = [self.double(), self.both(struct.pack("<H", volumes))] + [self.double() for _ in range(volumes)]
            for _ in range(heaters):
                present = rand.randrange(4)
                parts += [self.both(bytes([present])), self.double(present & 1), self.double(present & 2)]
            self.record(3, parts)
        return self


class NoBitLost(unittest.TestCase):
    def test_special_doubles(self):
        for digits in SPECIAL:
            value = struct.unpack(">d", bytes.fromhex(digits))[0]
            back = text.number(text.decimal(value))
            self.assertEqual(bits(back) if back == back else "nan", digits if value == value else "nan")

    def test_random_jobs(self):
        for seed in range(400):
            made = Bytes(seed).make()
            day, lost = records.read_job(made.job)
            again = records.job_bytes(text.read_text(text.write_text(day)))
            self.assertEqual(again, made.back, "seed %d" % seed)
            self.assertEqual((lost.payloads, lost.absent), (made.payloads, made.absent), "seed %d" % seed)

    def test_commands(self):
        with tempfile.TemporaryDirectory() as folder:
            job, day, again = (os.path.join(folder, name) for name in ("a.job", "a.day", "b.job"))
            made = next(made for made in (Bytes(seed).make() for seed in range(100)) if made.payloads and made.absent)
            with open(job, "wb") as file:
                file.write(made.job)
            unpacked = day_command("unpack", job, "-o", day)
            self.assertEqual(unpacked.returncode, 0)
            self.assertIn(b"%d not-a-number(s)" % made.payloads, unpacked.stderr)
            self.assertIn(b"%d absent double(s)" % made.absent, unpacked.stderr)
            self.assertEqual(day_command("pack", day, "-o", again).returncode, 0)
            with open(again, "rb") as file:
                self.assertEqual(file.read(), made.back)

    def test_stored_jobs(self):
        """Every stored job comes back, or is named at the byte where the judge says that its record is bad."""
        whole = named = 0
        for name, job, lines in stored_jobs():
            end = stored_end(lines)
            try:
                day, _ = records.read_job(job)
            except records.Malformed as error:
                # The judge ends at the first refusal, which may come before the bad record.
                self.assertIsNotNone(end, name)
                self.assertTrue(error.offset == end[1] if end[0] == 11 else error.offset > end[1], name)
                named += 1
                continue
            self.assertFalse(end and end[0] == 11, name)
            again = records.job_bytes(text.read_text(text.write_text(day)))
            self.assertEqual(plain(again), plain(job), name)
            whole += 1
        self.assertGreater(whole, 400)
        self.assertGreater(named, 20)

    def test_jobs_longer_than_the_program_reads(self):
        for name in ("long-0.job", "long-1.job"):
            with open(os.path.join(ROOT, "compare", "list", name), "rb") as file:
                job = file.read()
            day, _ = records.read_job(job)
            self.assertEqual(plain(records.job_bytes(text.read_text(text.write_text(day)))), plain(job), name)


def plain(job):
    """The job with zeros for what is absent and one pattern for not-a-number, walked apart from records.py."""
    out, at, heaters = [], 0, 0
    while at < len(job):
        length, kind = struct.unpack_from("<IH", job, at)
        body = job[at + 6 : at + 4 + length]
        out.append(job[at : at + 6])
        if kind == 1:
            out += [body[:2]] + [one(body[i : i + 8]) for i in range(2, 58, 8)]
        elif kind == 2:
            heaters += 1
            out += [one(body[:8]), one(body[8:16]), body[16:17], one(body[17:]) if body[16] else b"\0" * 8]
        else:
            volumes = struct.unpack_from("<H", body, 8)[0]
            out += [one(body[:8]), body[8:10]] + [one(body[10 + 8 * i : 18 + 8 * i]) for i in range(volumes)]
            for start in range(10 + 8 * volumes, len(body), 17):
                out.append(body[start : start + 1])
                for bit in (0, 1):
                    double = body[start + 1 + 8 * bit : start + 9 + 8 * bit]
                    out.append(one(double) if body[start] >> bit & 1 else b"\0" * 8)
        at += 4 + length
    return b"".join(out)


def one(double):
    value = struct.unpack("<d", double)[0]
    return double if value == value else bytes.fromhex("7ff8000000000000")[::-1]


HEATER = "heater rated power 3 kW, position 0.25 of height\n"
STEP = "step feed 10 C, heater 0 lower 50 C upper 60 C\n"

# The lines of a day, the number of the wrong one, and words of what was expected.
WRONG = [
    ("", 1, "expected a tank line, found the end"),
    ("# only words\n\n", 3, "expected a tank line, found the end"),
    ("stpe feed 10 C\n", 1, "begins with tank, heater or step, found 'stpe'"),
    (HEATER, 1, "expected one tank line, and before all others"),
    (tank() + tank(), 2, "expected one tank line, and before all others"),
    (tank() + HEATER + STEP + HEATER, 4, "expected all heater lines before the first step line"),
    (tank().replace("150", "15o"), 1, "expected a number such as"),
    (tank().replace("150", "1e400"), 1, "that a double can hold"),
    (tank().replace("150", "1_50"), 1, "expected a number such as"),
    (tank().replace("150", "-nan"), 1, "expected a number such as"),
    (tank().replace("150 litres", "150"), 1, "expected 'volume NUMBER litres', found 'volume 150'"),
    (tank().replace("150 litres", "150 gallons"), 1, "expected 'volume NUMBER litres'"),
    (tank().replace("150 litres", "150 ml"), 1, "expected 'volume NUMBER litres'"),
    (tank().replace("150 litres", "150 W"), 1, "expected 'volume NUMBER litres'"),
    (tank().replace("1 hours", "1 s"), 1, "expected 'step length NUMBER hours or min', found 'step length 1 s'"),
    (tank().replace("1 hours", "1e306e min"), 1, "expected a number such as"),
    (tank().replace("1 hours", "2e310 min"), 1, "that a double can hold"),
    (tank().replace("55 C", "55 F"), 1, "expected 'initial NUMBER C'"),
    (tank().replace("55 C", "55xC"), 1, "expected a number such as 12.5, -3, 1e-3, nan, inf or -inf, found '55x'"),
    (tank().replace("55 C", "C"), 1, "expected 'initial NUMBER C', found 'initial C'"),
    (tank().replace("layers 4", "layers"), 1, "expected 'layers WHOLE-NUMBER', found 'layers'"),
    (tank().replace("layers 4, ", ""), 1, "expected 'layers WHOLE-NUMBER' on a tank line"),
    (tank().replace("150 litres", "150 20 litres"), 1, "expected 'volume NUMBER litres'"),
    (tank().replace("ambient 18 C, ", ""), 1, "expected 'ambient NUMBER C' on a tank line"),
    (tank().replace("ambient 18 C", "volume 18 litres"), 1, "expected 'volume' once on a tank line"),
    (tank().replace("ambient", "ambience"), 1, "expected one of layers, volume, standby loss"),
    (tank().replace("layers 4", "layers 4.0"), 1, "expected a whole number of layers from 0 to 65535"),
    (tank().replace("layers 4", "layers 65536"), 1, "expected a whole number of layers from 0 to 65535"),
    (tank() + "heater rated power 3 kW\n", 2, "expected 'position NUMBER of height' on a heater line"),
    (tank() + "heater rated power 3, position 0.1 of height\n", 2, "expected 'rated power NUMBER kW or W'"),
    (tank() + HEATER + "\n# words\nstep feed 10 C\n", 5, "expected set points for each heater; for heater 0"),
    (tank() + HEATER + STEP + STEP.replace("heater 0", "heater 1"), 4, "expected heater 0 to 0, found 'heater 1"),
    (tank() + STEP, 2, "no heater, for no heater line stands before"),
    (tank() + HEATER + STEP.replace("\n", ", heater 0 none\n"), 3, "expected 'heater 0' once"),
    (tank() + HEATER + "step feed 10 C, heater 0 lower 50 upper 60 C\n", 3, "expected 'heater 0 lower NUMBER C upper"),
    (tank() + HEATER + "step feed 10 C, heater 0 lower 5 C lower 6 C\n", 3, "expected 'heater 0 lower NUMBER C upper"),
    (tank() + HEATER + "step feed 10 C, heater 0 lower 50 51 C\n", 3, "expected 'heater 0 lower NUMBER C upper"),
    (tank() + HEATER + "step feed 10 C, heater 0 at lower 50 C\n", 3, "expected 'heater 0 lower NUMBER C upper"),
    (tank() + HEATER + "step feed 10 C, heater 0 lower C upper 60 C\n", 3, "expected 'heater 0 lower NUMBER C upper"),
    (tank() + HEATER + "step feed 10 C, heater 0\n", 3, "expected 'heater 0 lower NUMBER C upper"),
    (tank() + "step draws 3 litres\n", 2, "expected 'feed NUMBER C' on a step line"),
    (tank() + "step feed 10 C, draws litres\n", 2, "with 1 to 65535 numbers, found 0"),
    (tank() + "step feed 10 C, draws 3 4\n", 2, "expected 'draws NUMBER NUMBER ... litres'"),
    (tank() + "step feed 10 C, draws 1,5 litres\n", 2, "expected"),
]


class WrongLines(unittest.TestCase):
    def test_named(self):
        for lines, number, expected in WRONG:
            with self.assertRaises(text.WrongLine, msg=lines) as caught:
                text.read_text(lines.encode())
            self.assertEqual(caught.exception.number, number, lines)
            self.assertIn(expected, str(caught.exception), lines)

    def test_not_text(self):
        with self.assertRaises(text.WrongLine) as caught:
            text.read_text(tank().encode() + b"\xff\xfe\n")
        self.assertEqual(caught.exception.number, 2)

    def test_nothing_is_written(self):
        with tempfile.TemporaryDirectory() as folder:
            source, old = os.path.join(folder, "a.day"), os.path.join(folder, "old.job")
            with open(old, "wb") as file:
                file.write(b"kept")
            with open(source, "w") as file:
                file.write(tank() + "step feed ten C\n")
            for target in (old, os.path.join(folder, "new.job")):
                done = day_command("pack", source, "-o", target)
                self.assertEqual(done.returncode, 2)
                self.assertIn(b"a.day, line 2: expected a number such as", done.stderr)
            self.assertEqual(sorted(os.listdir(folder)), ["a.day", "old.job"])
            with open(old, "rb") as file:
                self.assertEqual(file.read(), b"kept")

    def test_malformed_job_is_named_by_its_byte(self):
        with tempfile.TemporaryDirectory() as folder:
            source = os.path.join(folder, "a.job")
            with open(source, "wb") as file:
                file.write(records.job_bytes(text.read_text((tank() + HEATER + STEP).encode()))[:-1])
            done = day_command("unpack", source, "-o", os.path.join(folder, "a.day"))
            self.assertEqual(done.returncode, 2)
            # 64 bytes of tank, 31 of heater; then the step, a byte short.
            self.assertIn(b"a.job, byte 95: cut short: 29 bytes are to follow its length, 28 are there", done.stderr)
            self.assertEqual(os.listdir(folder), ["a.job"])


def beside(value, away):
    """The next double of the same sign."""
    return struct.unpack("<d", struct.pack("<q", struct.unpack("<q", struct.pack("<d", value))[0] + away))[0]


class Units(unittest.TestCase):
    def day(self, length="1 hours", power="3 kW", volume="150 litres", initial="55 C", points="lower 50 C upper 60 C"):
        lines = tank().replace("1 hours", length).replace("150 litres", volume).replace("55 C", initial)
        lines += HEATER.replace("3 kW", power) + STEP.replace("lower 50 C upper 60 C", points)
        return text.read_text(lines.encode())

    def test_spellings(self):
        for unit in ("h", "hour", "hours"):
            self.assertEqual(self.day(length="0.5 " + unit).tank.step_length, 0.5)
        for unit in ("min", "minute", "minutes"):
            self.assertEqual(self.day(length="30 " + unit).tank.step_length, 0.5)
        for unit in ("l", "L", "litre", "litres"):
            self.assertEqual(self.day(volume="120.5 " + unit).tank.volume, 120.5)
        for unit in ("C", "°C", "degC"):
            self.assertEqual(self.day(initial="-3 " + unit).tank.initial, -3.0)
            points = "lower 50.5 %s upper 60 %s" % (unit, unit)
            self.assertEqual(self.day(points=points).steps[0].points, [(50.5, 60.0)])
        self.assertEqual(self.day(power="3000 W").heaters[0].rated, 3.0)
        self.assertEqual(self.day(power="3 kW").heaters[0].rated, 3.0)

    def test_without_a_space(self):
        day = self.day("30min", "2500W", "120l", "-3.5°C", "upper 60degC lower 5e1C")
        self.assertEqual((day.tank.step_length, day.tank.volume, day.tank.initial), (0.5, 120.0, -3.5))
        self.assertEqual((day.heaters[0].rated, day.steps[0].points), (2.5, [(50.0, 60.0)]))

    def test_either_order_of_set_points(self):
        for points in ("lower 50 C upper 60 C", "upper 60 C lower 50 C"):
            self.assertEqual(self.day(points=points).steps[0].points, [(50.0, 60.0)])

    def test_rounded_once(self):
        """Each conversion is the double nearest to the exact quotient: no other double is nearer."""
        rounds = random.Random(18)
        twice = 0
        for unit, divisor, read in (("min", 60, self.length), ("W", 1000, self.power)):
            for _ in range(1500):
                power = rounds.randrange(-40, 40)
                word = "%d.%017de%d" % (rounds.randrange(100), rounds.randrange(10**17), power)
                exact = Fraction(word) / divisor
                found = read("%s %s" % (word, unit))
                nearest = abs(Fraction(found) - exact)
                for other in (beside(found, 1), beside(found, -1)):
                    self.assertLessEqual(nearest, abs(Fraction(other) - exact), word)
                twice += found != float(word) / divisor
        # Where the decimal is rounded before the division, some of these come out otherwise.
        self.assertGreater(twice, 100)

    def length(self, words):
        return self.day(length=words).tank.step_length

    def power(self, words):
        return self.day(power=words).heaters[0].rated

    def test_special_numbers_are_converted_too(self):
        self.assertEqual(bits(self.length("20 min")), bits(1 / 3))
        self.assertEqual(bits(self.length("-0 min")), bits(-0.0))
        self.assertEqual(bits(self.length("-inf min")), bits(float("-inf")))
        self.assertNotEqual(self.length("nan min"), self.length("nan min"))
        self.assertEqual(bits(self.power("1e310 W")), bits(1e307))
        self.assertEqual(bits(self.power("5e-324 W")), bits(0.0))
        self.assertEqual(bits(self.power("5000e-324 W")), bits(5e-324))
        self.assertEqual(bits(self.power("-1e-999999999999 W")), bits(-0.0))
        self.assertEqual(bits(self.power("-1e-323 W")), bits(-0.0))
        self.assertEqual(bits(self.power("1%se-5000 W" % ("0" * 5000))), bits(0.001))

    def test_what_is_written_has_one_unit(self):
        day = self.day("30 min", "2500 W", "120 l", "55 °C", "upper 60 °C lower 50 °C")
        written = text.write_text(day).decode()
        self.assertIn("volume 120 litres", written)
        self.assertIn("step length 0.5 hours", written)
        self.assertIn("rated power 2.5 kW", written)
        self.assertIn("heater 0 lower 50 C upper 60 C", written)


class Readable(unittest.TestCase):
    def test_the_example_of_the_readme(self):
        with open(os.path.join(ROOT, "day", "README.md"), encoding="utf-8") as file:
            (example,) = re.findall(r"```text\n(.*?)```", file.read(), re.DOTALL)
        day = text.read_text(example.encode())
        self.assertEqual((day.title, len(day.heaters), len(day.steps)), ("Monday", 2, 2))
        self.assertEqual(day.steps[1].points, [(None, 65.0), (45.0, 50.0)])
        done = day_command("run", "-", input=example.encode())
        self.assertEqual((done.returncode, b"refused" in done.stdout), (0, False))

    def test_any_order_comments_and_line_ends(self):
        lines = "\ufeff# A title # and more\r\n" + tank().strip() + "  # the cylinder\r\n\r\n"
        lines += "heater\tposition 0.25  of height ,thermostat .5 of height, rated power +3 kW\r\n"
        lines += "step heater 0 upper NaN C, draws 1 2e0 litres, feed -INF C # odd"
        day = text.read_text(lines.encode())
        self.assertEqual(day.title, "A title # and more")
        self.assertEqual(day.lines, [2, 4, 5])
        self.assertEqual(day.heaters, [records.Heater(3.0, 0.25, 0.5)])
        self.assertEqual(day.steps[0].feed, float("-inf"))
        self.assertEqual(day.steps[0].volumes, [1.0, 2.0])
        self.assertIsNone(day.steps[0].points[0][0])
        self.assertNotEqual(day.steps[0].points[0][1], day.steps[0].points[0][1])


if __name__ == "__main__":
    unittest.main()
