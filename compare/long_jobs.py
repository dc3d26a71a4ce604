"""Long jobs for the program long_job, by name and seed: sums, products and Python's random() make them, so they are
the same on any machine. Nothing here runs a program; the lines of a job come from the judge (compare/long)."""

import os
import random
import struct
import sys

ROOT = os.path.dirname(os.path.dirname(os.path.abspath(__file__)))
sys.path.insert(0, os.path.join(ROOT, "day"))

import records  # noqa: E402

FIRST = 65536  # job reads no more
WINDOW = 1048576  # long_job reads so many bytes at a time
LONGEST = 16 + 8 * 65535 + 17 * 8  # the longest record: a step with 65,535 volumes and eight heaters
SPECIFIC_HEAT = 4184 / 3600000
NIGHT = [(0.5, 7), (13, 16)]
EVENING = [(16, 22)]
NOTHING = (None, None)


class Maker:
    """A tank with heaters, then steps of a seed's draws and set points; `data` is the job so far."""

    def __init__(self, seed, layers, heaters):
        self.random = random.Random("%s, %d layers, %d heaters" % (seed, layers, heaters)).random
        self.heaters = heaters
        self.least = 16 + 17 * heaters  # a step without draws
        volume = self.between(80, 300)
        tank = records.Tank(layers, volume, 1.5, self.between(15, 65), 1.0, SPECIFIC_HEAT, 18.0, 0.5)
        self.data = bytearray(records.tank_bytes(tank))
        self.most = volume / 20
        for _ in range(heaters):
            thermostat = self.between(0, 0.99) if self.below(2) else None
            heater = records.Heater(self.between(1, 6), self.between(0, 0.99), thermostat)
            self.data += records.heater_bytes(heater)

    def below(self, count):
        return int(self.random() * count)

    def between(self, low, high):
        return low + (high - low) * self.random()

    def points(self):
        """A heater's set points: none, an upper one alone, or both."""
        lower = self.between(35, 55)
        upper = lower + self.between(1, 15)
        return (NOTHING, (None, upper), (lower, upper), (lower, upper))[self.below(4)]

    def step(self, draws):
        """A step with so many draws; one in a hundred is refused for its feed or a set point."""
        feed = self.between(5, 18)
        points = [self.points() for _ in range(self.heaters)]
        fault = self.below(200)
        if fault == 0:
            feed = float("nan")
        if fault == 1 and points:
            points[-1] = (50.0, None)
        volumes = [self.between(0, self.most) for _ in range(draws)]
        self.data += records.step_bytes(records.Step(feed, volumes, points))

    def many(self, draws):
        """More than 64 draws, of which the step is refused: the bytes go by quickly."""
        entries = b"".join(records.step_bytes(records.Step(0.0, [], [self.points()]))[16:] for _ in range(self.heaters))
        body = struct.pack("<dH", 10.0, draws) + struct.pack("<d", self.between(0, 9)) * draws + entries
        self.data += records.record(3, body)

    def to(self, place):
        """Steps so that the next record begins at the place; without heaters, or with eight, at a multiple of 8."""
        while place - len(self.data) > 16 * self.least + 1024:
            left = place - len(self.data) - 16 * self.least - 1024
            if self.below(8) == 0 and left > 65 * 8:
                self.many(min(65 + self.below(4000), left // 8))
            else:
                self.step(self.below(8))
        left = place - len(self.data)
        # Some steps more, whose draws fill what is left.
        count = next(n for n in range(1, 17) if left >= n * self.least and (left - n * self.least) % 8 == 0)
        while count > 1 and (left - count * self.least) // 8 > 64 * count and left >= (count + 8) * self.least:
            count += 8
        draws = (left - count * self.least) // 8
        for at in range(count):
            self.step(draws // count + (at < draws % count))
        assert len(self.data) == place, (len(self.data), place)
        return self


def window_ends(data):
    """Where the windows of a well-formed job end. A window begins at the first record that the one before did not run,
    because the longest record would reach past its end."""
    at, ends = 0, [WINDOW]
    while at < len(data):
        if at + LONGEST > ends[-1]:
            ends.append(at + WINDOW)
        at += 4 + struct.unpack_from("<I", data, at)[0]
    return ends


def half_hours(count, seed=0):
    """A household's half hours: four layers, a heater for the night and the afternoon, one above it for the evening."""
    number = random.Random("half hours %d" % seed).random
    heaters = [records.Heater(3.0, 0.1, 0.33), records.Heater(3.0, 0.6, None)]
    data = [records.tank_bytes(records.Tank(4, 150.0, 1.5, 45.0, 1.0, SPECIFIC_HEAT, 18.0, 0.5))]
    data += [records.heater_bytes(heater) for heater in heaters]
    for index in range(count):
        hour, day = index % 48 / 2, index // 48 % 365
        feed = 6 + abs(day - 182) / 182 * 10
        most = 3 if 6 <= hour < 9 or 17 <= hour < 23 else 1
        volumes = [1 + 44 * number() * number() for _ in range(int(number() * (most + 1)))]
        on = [any(begin <= hour < end for begin, end in hours) for hours in (NIGHT, EVENING)]
        upper = 60 - int(number() * 3)
        points = [(52.0, float(upper)) if set else NOTHING for set in on]
        data.append(records.step_bytes(records.Step(feed, volumes, points)))
    return b"".join(data)


def month():
    return half_hours(31 * 48)


def year():
    return half_hours(365 * 48)


def two_years():
    """Nearly two windows."""
    return half_hours(2 * 365 * 48)


def windows():
    """The longest record 8 bytes past the first window's end, a step whose draws begin after the second one's, two of
    the longest more; after two windows and a half a record of no kind, and a step that is not read."""
    maker = Maker("windows", 3, 8).to(WINDOW - LONGEST + 8)
    maker.many(65535)
    maker.to(window_ends(maker.data)[1] - 16)
    maker.step(3)
    for _ in range(2):
        maker.many(65535)
        maker.to(len(maker.data) + 16000)
    maker.data += records.record(4, b"no kind")
    maker.step(2)
    return bytes(maker.data)


# day/tests/long_runs.json has what the judge prints for these.
STORED = {"month": month, "two years": two_years, "windows": windows}


def sample():
    """What crates/long_job/stdin holds: 150 half hours of 64 small draws, two layers, a heater whose flag changes."""
    data = [records.tank_bytes(records.Tank(2, 120.0, 1.5, 50.0, 1.0, SPECIFIC_HEAT, 18.0, 0.5))]
    data.append(records.heater_bytes(records.Heater(3.0, 0.1, 0.6)))
    for index in range(150):
        volumes = [(index * 7 + at * 5) % 17 / 64 for at in range(64)]
        points = NOTHING if index % 10 == 9 else (46.0, 53.0)
        data.append(records.step_bytes(records.Step(10.0, volumes, [points])))
    return b"".join(data)
