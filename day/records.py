"""The records of a job, from bytes and to bytes (docs/JOB_FORMAT.md). Judging their numbers is the program's part."""

import struct
from collections import namedtuple

import progress

Tank = namedtuple("Tank", "layers volume standby initial density specific_heat ambient step_length")
Heater = namedtuple("Heater", "rated position thermostat")  # thermostat: None where it has no position of its own
Step = namedtuple("Step", "feed volumes points")  # points: (lower, upper) for each heater, None where absent

BYTES_READ = 65536  # the program reads no more of its input
ZERO_BITS = b"\0" * 8
NAN_BITS = struct.pack("<Q", 0x7FF8000000000000)


class Day:
    """A tank, its heaters and its steps. Of a text also the line of each record, in order, and the first comment."""

    def __init__(self, tank, heaters, steps, lines=None, title=None):
        self.tank, self.heaters, self.steps = tank, heaters, steps
        self.lines, self.title = lines, title

    def working_order(self):
        """01, Tank: rising position, ties in the given order. The lines `H` of a step come so."""
        return sorted(range(len(self.heaters)), key=lambda place: self.heaters[place].position)


class Malformed(Exception):
    def __init__(self, offset, what):
        super().__init__("byte %d: %s" % (offset, what))
        self.offset = offset


class Lost:
    """What a text cannot hold: a not-a-number's sign and payload, and absent doubles that are not zero."""

    def __init__(self):
        self.payloads = self.absent = 0

    def sentence(self):
        parts = []
        if self.payloads:
            parts.append("%d not-a-number(s) with a sign or payload of their own became plain nan" % self.payloads)
        if self.absent:
            parts.append("%d absent double(s) that were not zero were left out" % self.absent)
        return "; ".join(parts)


# To bytes


def double(value):
    return NAN_BITS if value != value else struct.pack("<d", value)


def record(kind, body):
    return struct.pack("<IH", 2 + len(body), kind) + body


def tank_bytes(tank):
    return record(1, struct.pack("<H", tank.layers) + b"".join(double(x) for x in tank[1:]))


def optional(value):
    return ZERO_BITS if value is None else double(value)


def heater_bytes(heater):
    body = double(heater.rated) + double(heater.position)
    return record(2, body + bytes([heater.thermostat is not None]) + optional(heater.thermostat))


def step_bytes(step):
    body = double(step.feed) + struct.pack("<H", len(step.volumes)) + b"".join(double(v) for v in step.volumes)
    for lower, upper in step.points:
        present = (lower is not None) + 2 * (upper is not None)
        body += bytes([present]) + optional(lower) + optional(upper)
    return record(3, body)


def record_list(day):
    return [tank_bytes(day.tank)] + [heater_bytes(h) for h in day.heaters] + [step_bytes(s) for s in day.steps]


def job_bytes(day):
    return b"".join(record_list(day))


def record_at(day, offset):
    """Which record of the day's job starts at the offset: 0 is the tank."""
    at = 0
    for index, data in enumerate(record_list(day)):
        if at == offset:
            return index
        at += len(data)
    return None


# From bytes


class Reader:
    """Doubles out of one record's body, counting what a text cannot hold."""

    def __init__(self, body, lost):
        self.body, self.at, self.lost = body, 0, lost

    def take(self, count):
        self.at += count
        return self.body[self.at - count : self.at]

    def whole(self, form):
        return struct.unpack("<" + form, self.take(struct.calcsize(form)))[0]

    def double(self):
        bits = self.take(8)
        value = struct.unpack("<d", bits)[0]
        if value != value and bits != NAN_BITS:
            self.lost.payloads += 1
        return value

    def optional(self, present):
        if present:
            return self.double()
        self.lost.absent += self.take(8) != ZERO_BITS
        return None


def read_tank(offset, body, lost):
    if len(body) != 58:
        raise Malformed(offset, "a tank record has length 60, this one %d" % (len(body) + 2))
    reader = Reader(body, lost)
    return Tank(reader.whole("H"), *(reader.double() for _ in range(7)))


def read_heater(offset, body, lost):
    if len(body) != 25:
        raise Malformed(offset, "a heater record has length 27, this one %d" % (len(body) + 2))
    reader = Reader(body, lost)
    rated, position, present = reader.double(), reader.double(), reader.whole("B")
    if present > 1:
        raise Malformed(offset, "a heater's presence byte is 0 or 1, this one %d" % present)
    return Heater(rated, position, reader.optional(present))


def read_step(offset, body, heaters, lost):
    if len(body) < 10:
        raise Malformed(offset, "a step record has at least length 12, this one %d" % (len(body) + 2))
    reader = Reader(body, lost)
    feed, count = reader.double(), reader.whole("H")
    length = 12 + 8 * count + 17 * heaters
    if len(body) + 2 != length:
        found = "this one %d" % (len(body) + 2)
        raise Malformed(offset, "a step of %d draws and %d heaters has length %d, %s" % (count, heaters, length, found))
    volumes = [reader.double() for _ in range(count)]
    points = []
    for place in range(heaters):
        present = reader.whole("B")
        if present > 3:
            raise Malformed(offset, "the presence byte of heater %d is 0 to 3, this one %d" % (place, present))
        points.append((reader.optional(present & 1), reader.optional(present & 2)))
    return Step(feed, volumes, points)


def body_at(data, at):
    """The kind and the body of the record that starts there."""
    if len(data) < at + 4:
        raise Malformed(at, "cut short: a record begins with 4 bytes of length, %d are there" % (len(data) - at))
    (length,) = struct.unpack_from("<I", data, at)
    if length < 2:
        raise Malformed(at, "a record has at least length 2, this one %d" % length)
    if len(data) < at + 4 + length:
        raise Malformed(at, "cut short: %d bytes are to follow its length, %d are there" % (length, len(data) - at - 4))
    (kind,) = struct.unpack_from("<H", data, at + 4)
    return kind, data[at + 6 : at + 4 + length]


def read_job(data):
    """The day that a job's bytes hold, and what a text of it loses; or Malformed, at the first bad record."""
    tank, heaters, steps, lost = None, [], [], Lost()
    at = 0
    while at < len(data) or tank is None:
        progress.at(at)
        kind, body = body_at(data, at)
        if kind not in (1, 2, 3):
            raise Malformed(at, "unknown kind %d: 1 is a tank, 2 a heater, 3 a step" % kind)
        if (kind == 1) != (tank is None):
            raise Malformed(at, "misplaced: a tank stands once and before all others")
        if kind == 1:
            tank = read_tank(at, body, lost)
        elif kind == 2 and steps:
            raise Malformed(at, "misplaced: a heater stands before all steps")
        elif kind == 2:
            heaters.append(read_heater(at, body, lost))
        else:
            steps.append(read_step(at, body, len(heaters), lost))
        at += 6 + len(body)
    return Day(tank, heaters, steps), lost
