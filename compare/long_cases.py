"""The jobs that compare/long holds long_job to: around the ends of its windows, damaged after them, and by seeds."""

import glob
import os
import struct

from long_jobs import FIRST, LONGEST, ROOT, STORED, WINDOW, Maker, half_hours, records, window_ends, year

LAST_START = WINDOW - LONGEST  # a record that begins here is run in the first window, a later one in the next
SIZES = [(1, 0), (1, 1), (1, 8), (2, 3), (32, 0), (32, 2), (32, 8)]  # layers and heaters


def whole(seeds):
    """Households, every size of tank past two windows, and the stored jobs that are longer than `job` reads."""
    yield from ((name, make()) for name, make in STORED.items())
    yield "a year", year()
    for seed in range(1, seeds + 1):
        yield "a month, seed %d" % seed, half_hours(31 * 48, seed)
    for layers, heaters in SIZES:
        maker = Maker("sizes", layers, heaters).to(2 * WINDOW + 4096)
        yield "%d layers and %d heaters, past two windows" % (layers, heaters), bytes(maker.data)
    for path in sorted(glob.glob(os.path.join(ROOT, "compare", "list", "*.job"))):
        with open(path, "rb") as file:
            yield "all of " + os.path.basename(path), file.read()


def ends():
    """Jobs that end at a place, or a byte before or after it: with a whole record, and within one."""
    for what, place in (("65,536", FIRST), ("the window's end", WINDOW), ("the last start", LAST_START)):
        for by in (-1, 0, 1):
            job = bytes(Maker("ends", 3, 1).to(place + by).data)
            yield "a record ends at %s %+d" % (what, by), job
            longer = bytes(Maker("ends", 3, 1).to(place + 40).data)
            yield "the input ends at %s %+d" % (what, by), longer[: place + by]
    maker = Maker("ends", 3, 1).to(2 * WINDOW)
    place = window_ends(maker.data)[1]
    for by in (-1, 0, 1):
        yield "the input ends at the second window's end %+d" % by, bytes(maker.data[: place + by])


def crossings(heaters):
    """A step that crosses the end of the first window, or of the second: that end at each of its bytes, and after."""
    size = 16 + 8 * 2 + 17 * heaters
    first = Maker("crossings", 2, heaters).to(WINDOW - 4096)
    second = Maker("crossings", 2, heaters).to(WINDOW + 4096)
    second.many(30000)
    second.to(len(second.data) + 250000)
    for name, maker, end in (("first", first, WINDOW), ("second", second, window_ends(second.data)[1])):
        start = bytes(maker.data)
        for by in range(size + 1):
            maker.data = bytearray(start)
            maker.to(end - by)
            maker.step(2)
            for _ in range(20):
                maker.step(1)
            yield "byte %d of a step with %d heaters at the %s window's end" % (by, heaters, name), bytes(maker.data)


def longest():
    """Steps of 65,535 draws in a row, so that each window moves on by one record; steps between them, and none."""
    for heaters in (0, 1, 8):
        for between in (0, 1, 50):
            maker = Maker("longest", 4, heaters)
            for _ in range(7):
                maker.many(65535)
                for _ in range(between):
                    maker.step(3)
            name = "steps of 65,535 draws, %d heaters, %d steps after each" % (heaters, between)
            yield name, bytes(maker.data)
            yield name + ", the last byte cut off", bytes(maker.data[:-1])
    for by in (-8, 0, 8):
        maker = Maker("longest", 4, 8).to(LAST_START + by)
        maker.many(65535)
        maker.step(2)
        yield "the longest record at the last start %+d" % by, bytes(maker.data)


def damages(maker):
    """Records that are none, by name, each with the bytes that stand for it."""
    heaters = maker.heaters
    step = records.step_bytes(records.Step(10.0, [1.0, 2.0], [(50.0, 60.0)] * heaters))
    for kind in (0, 4, 256, 65535):
        yield "kind %d" % kind, step[:4] + struct.pack("<H", kind) + step[6:]
    for length in (0, 1, 2, 11, len(step) - 5, len(step) - 3, 524429, 1048576, 2**31, 2**32 - 1):
        yield "length %d" % length, struct.pack("<I", length) + step[4:]
    for place in sorted({32 + 17 * at for at in range(heaters)}):
        for value in (4, 255):
            yield "presence byte %d at %d" % (value, place), step[:place] + bytes([value]) + step[place + 1 :]
    yield "a count of draws too large", step[:14] + b"\3" + step[15:]
    yield "a second tank", bytes(maker.data[:64])
    yield "a heater after steps", records.heater_bytes(records.Heater(3.0, 0.5, None))
    yield "zeros", bytes(70)
    yield "the longest one of no kind", records.record(5, bytes(LONGEST - 6))


def damaged():
    """After more than one window, after more than two, and across an end: a damaged record, then good ones."""
    for heaters in (0, 1, 8):
        for name, place in (("past a window", WINDOW + 1600), ("past two windows", 3 * WINDOW), ("across", WINDOW - 8)):
            maker = Maker("damaged", 3, heaters).to(place)
            good = bytes(maker.data)
            for _ in range(30):
                maker.step(2)
            after = bytes(maker.data[len(good) :])
            for what, bad in damages(maker):
                yield "%s, %d heaters: %s" % (name, heaters, what), good + bad + after
                yield "%s, %d heaters: %s, at the end" % (name, heaters, what), good + bad
            for cut in range(32 + 17 * heaters):
                yield "%s, %d heaters: a step cut to %d bytes" % (name, heaters, cut), good + after[:cut]


def seeded(seed):
    """A tank of any size, steps past one window to three, and one byte changed in one job of two."""
    dice = Maker("dice %d" % seed, 1, 0)
    layers, heaters = 1 + dice.below(32), dice.below(9)
    maker = Maker("seeded %d" % seed, layers, heaters)
    maker.to((WINDOW + dice.below(2 * WINDOW)) // 8 * 8 + len(maker.data) % 8)
    name = "seed %d: %d layers, %d heaters" % (seed, layers, heaters)
    if dice.below(2):
        at = WINDOW // 2 + dice.below(len(maker.data) - WINDOW // 2)
        maker.data[at] ^= 1 + dice.below(255)
        name += ", byte %d changed" % at
    return name, bytes(maker.data)


def cases(seeds):
    """Every job with its name."""
    yield from whole(seeds)
    yield from ends()
    yield from crossings(1)
    yield from crossings(3)
    yield from longest()
    yield from damaged()
    for seed in range(16 * seeds):
        yield seeded(seed)
