"""What a stored case shows, in words: the walk through a job beside its lines, for compare/coverage.

Bytes are read, and the place of a refusal 9 or 10 is found, with document 01 in Python (model.py); numbers, layers and
flags are those of the stored lines.
"""

import collections
import copy
import math
import struct

import model

seen = collections.Counter()


def see(where, *words):
    for one in words:
        seen["%s: %s" % (where, one)] += 1


def kind_of_number(x):
    """The kinds that a check or a sign can turn on."""
    if math.isnan(x):
        return "not-a-number"
    if math.isinf(x):
        return "infinity" if x > 0 else "-infinity"
    if x == 0.0:
        return "-0.0" if math.copysign(1.0, x) < 0 else "0.0"
    return "below 0" if x < 0 else "subnormal" if x < 2.0**-1022 else "above 0"


def see_number(where, name, x):
    see(where, "%s %s" % (name, kind_of_number(x)))


def double(word):
    return struct.unpack(">d", bytes.fromhex(word))[0]


# Records


def damage(data, at, tank, steps):
    """Why the record at a position is refused with 11."""
    if not data:
        return ["empty input"]
    if len(data) - at < 4:
        return ["a length cut short"]
    (length,) = struct.unpack_from("<I", data, at)
    body = data[at + 4 : at + 4 + length]
    if len(body) < length:
        return ["a body cut short"] + (["one byte cut off"] if len(body) == length - 1 else [])
    if length < 2:
        return ["a length below 2"]
    (kind,) = struct.unpack_from("<H", body)
    heaters = len(tank.heaters) if tank else 0

    def size(right):
        return [] if length == right else ["too short" if length < right else "too long"]

    if kind == 1:
        why = size(60)
        if tank:
            why.append("after a step" if steps else "after a heater" if heaters else "a second one")
        return ["tank: " + words for words in why]
    if kind == 2:
        why = size(27)
        if not tank:
            why.append("before the tank")
        elif steps:
            why.append("after an accepted step" if steps[-1] == 0 else "after a refused step")
        elif heaters == model.MOST_HEATERS:
            why.append("a bad ninth one")
        if length == 27 and body[18] > 1:
            why.append("presence byte %d" % body[18])
        return ["heater: " + words for words in why]
    if kind == 3:
        if not tank:
            return ["step: before the tank"]
        if length < 12:
            return ["step: too short"]
        (count,) = struct.unpack_from("<H", body, 10)
        right = 12 + 8 * count + 17 * heaters
        why = size(right)
        present = [body[12 + 8 * count + 17 * k] for k in range(heaters)] if not why else []
        for k, value in enumerate(present):
            if value > 3:
                why.append("presence byte %d" % value)
                why.append("presence byte in the first entry" if k == 0 else "presence byte in a later entry")
        return ["step: " + words for words in why]
    return ["unknown kind", "kind %d" % kind]


def see_numbers(where, record, good, check):
    """Marks each number that decides alone: with a good one in its place the record passes its check."""
    for name, x in vars(record).items():
        if name in good and x is not None:
            fixed = copy.copy(record)
            setattr(fixed, name, good[name])
            if check(fixed) == 0:
                see_number(where, name, x)


GOOD_TANK = {"volume": 16.0, "standby": 1.0, "initial": 20.0, "density": 1.0, "specific_heat": 1.0, "ambient": 20.0, "step_length": 1.0}
GOOD_HEATER = {"rated": 1.0, "position": 0.0, "thermostat": 0.0}


def see_tank(tank):
    see_numbers("tank record", tank, GOOD_TANK, lambda fixed: model.check_tank(fixed, [fixed.initial]))
    see("tank record", "%d layers" % tank.count)
    if tank.count == 0 and not (model.finite(tank.volume) and tank.volume > 0.0):
        see("tank record", "1 before 3")
    if model.check_tank(tank, [tank.initial]) == 3 and not model.finite(tank.initial):
        see("tank record", "3 before 4")


def see_heater(heater, absent, ninth):
    see_numbers("heater record", heater, GOOD_HEATER, model.check_heater)
    if heater.thermostat is not None:
        see("heater record", "thermostat present")
    else:
        see("heater record", "thermostat absent")
        see_number("heater record", "absent thermostat", absent)
    for name, x in (("position", heater.position), ("thermostat", heater.thermostat)):
        if x == 1.0:
            see("heater record", "%s 1" % name)
        if x == 1.0 - 2.0**-53:
            see("heater record", "%s just below 1" % name)
        fixed = copy.copy(heater)
        setattr(fixed, name, 1.0)
        if x == 1.0 + 2.0**-52 and model.check_heater(fixed) == 0:
            see("heater record", "%s just above 1" % name)
    if ninth:
        see("heater record", "a ninth one")
        if model.check_heater(heater):
            see("heater record", "2 before 5")


def see_step_record(tank, record, body):
    """A number is marked if it decides alone: the rest passes the checks."""
    feed, volumes, set_points = record

    def fine(feed=10.0, volumes=volumes, set_points=set_points):
        return model.check_step(tank, (feed, volumes, set_points)) == 0

    if fine():
        see_number("step record", "feed", feed)
    for k, volume in enumerate(volumes):
        if fine(feed, volumes[:k] + [0.0] + volumes[k + 1 :]):
            see_number("step record", "volume", volume)
    for k, points in enumerate(set_points):
        present, *written = struct.unpack_from("<Bdd", body, 10 + 8 * len(volumes) + 17 * k)
        see("step record", "presence value %d" % present)
        alone = fine(feed, volumes, set_points[:k] + [(None, None)] + set_points[k + 1 :])
        for name, x, raw in zip(("lower", "upper"), points, written):
            if x is None:
                see_number("step record", "absent set point", raw)
            elif alone:
                see_number("step record", name, raw)


# Steps


def faults(lower, upper):
    """What is wrong with one heater's set points, in the order of 02 (R-1): number and words."""
    found = []
    for name, point in (("lower", lower), ("upper", upper)):
        if point is not None and not model.finite(point):
            found.append((12, name + " not finite"))
    if lower is not None and upper is None:
        found.append((8, "lower alone"))
    if lower is not None and upper is not None and lower > upper:
        found.append((13, "lower above upper"))
    return found


def why_set_points(tank, set_points):
    """Why a step is refused for its set points; first of all the fault that decides."""
    found = [faults(*points) for points in set_points]
    faulty = [k for k, these in enumerate(found) if these]
    if not faulty:
        return []
    first = found[faulty[0]]
    number = first[0][0]
    why = ["%d, %s" % fault for fault in first if fault[0] == number]
    why += ["%d before %d, of one heater" % (number, other) for other, _ in first if other != number]
    why += ["%d before %d of a later heater" % (number, found[k][0][0]) for k in faulty[1:]]
    if faulty[0] > 0 and len(faulty) == 1:
        why.append("%d, in a later entry alone" % number)
    worked = next(k for k in model.working_order(tank) if k in faulty)
    if found[worked][0][0] != number:
        why.append("set points, by the given order and not the working order")
    return why


def why_refused(tank, record):
    """Why a step is refused, from its arguments and the tank before it."""
    feed, volumes, set_points = record
    why = []
    if not all(map(model.finite, tank.layers)):
        return ["4, a stored layer"]
    if len(volumes) > model.MOST_EVENTS:
        why.append("6, 65 events" if len(volumes) == 65 else "6, more than 65 events")
        return why + ([] if model.finite(feed) else ["6 before 7"])
    points = why_set_points(tank, set_points)
    if not model.finite(feed):
        why.append("7, feed")
    if not all(map(model.finite, volumes)):
        why.append("7, volume not finite")
    if any(v < 0.0 for v in volumes):
        why.append("7, volume below 0")
    if why:
        return why + ["7 before %s" % words.split(",")[0] for words in points[:1]]
    return points or worked_until(tank, record)


def events_of(tank, record):
    """The layers after each event, its energy and volume used, and whether it ended in a mixing (9: no layers)."""
    feed, volumes, _ = record
    layers, totals = tank.layers, model.Totals()
    for wanted in volumes:
        holds, energy, used = model.draw(tank, layers, feed, wanted, totals)
        layers, mixing = model.refill(tank, layers, feed, holds)
        if mixing:
            try:
                layers, _ = model.mix([tank.layer_volume] * tank.count, layers)
            except model.Refusal:
                layers = None
        yield layers, energy, used, mixing
        if layers is None:
            return


def worked_until(tank, record):
    """Where the work of a step draws 9 or 10."""
    layers, energy, used = tank.layers, 0.0, 0.0
    for k, (layers, more_energy, more_used, _) in enumerate(events_of(tank, record)):
        late = ["in a later event"] if k else []
        if layers is None:
            return ["9, an event"] + ["9, " + words for words in late]
        energy, used = energy + more_energy, used + more_used
        bad = [
            words
            for words, fine in (
                ("a layer", all(map(model.finite, layers))),
                ("energy", model.finite(energy)),
                ("volume used", model.finite(used)),
            )
            if not fine
        ]
        if bad:
            return ["10, %s alone after an event" % bad[0]] * (len(bad) == 1) + ["10, " + words for words in ["an event"] + late]
    charged, losses = [0.0] * tank.count, 0.0
    for k, h in enumerate(model.working_order(tank)):
        late = ["in a later turn"] if k else []
        try:
            done = model.turn(tank, tank.heaters[h], tank.flags[h], layers, record[2][h], charged)
        except model.Refusal:
            return ["9, a turn"] + ["9, " + words for words in late]
        layers = done.layers
        charged = [a + b for a, b in zip(charged, done.charges)]
        losses += done.losses
        if not all(map(model.finite, layers)):
            return ["10, a layer after a turn"] + ["10, " + words for words in late]
        if not model.finite(done.losses):
            return ["10, losses alone after a turn"] + ["10, " + words for words in late]
    return ["10, average at the end"] if model.finite(losses * 0.75) else ["10, recoverable at the end"]


def see_accepted(tank, record, lines, refused_before):
    """An accepted step: the tank before it, its arguments, and its lines (S, L, then H in working order)."""
    feed, volumes, set_points = record
    totals = [double(word) for word in lines[0].split()[3:]]
    turns = [line.split() for line in lines[2:]]
    order = model.working_order(tank)
    say = lambda *words: see("accepted step", *words)
    say("layers %d" % tank.count, "heaters %d" % len(tank.heaters), "events %d" % len(volumes))
    if refused_before:
        say("after a refused one")
    positions = [heater.position for heater in tank.heaters]
    if len(set(positions)) < len(positions):
        say("two heaters at one position")
    if 0.0 in positions and {math.copysign(1.0, x) for x in positions if x == 0.0} == {1.0, -1.0}:
        say("positions 0.0 and -0.0")
    if order != sorted(order):
        say("heaters not given in working order")
    for heater in tank.heaters:
        layer = model.layer_of(model.thermostat_place(heater), tank.count)
        elsewhere = layer != model.layer_of(heater.position, tank.count)
        if elsewhere:
            say("a thermostat in another layer than its heater")
        if heater.position == 1.0:
            say("a heater at 1", "a heater at 1, layers %d" % tank.count)
        if heater.thermostat == 1.0:
            say("a thermostat at 1", "a thermostat at 1, its heater in another layer" if elsewhere else "both in the top layer")
    if positions.count(1.0) > 1:
        say("two heaters at 1")
    if 1.0 in positions and 1.0 - 2.0**-53 in positions[positions.index(1.0) :]:
        say("a heater at 1 given before one just below 1")
    begin = tank.layers
    for layers, _, _, mixing in events_of(tank, record):
        begin = layers
        if mixing:
            say("an event that ends in a mixing")
    if any(v == 0.0 for v in volumes):
        say("a draw of 0")
    if any(v > tank.volume for v in volumes):
        say("a draw of more than the tank")
    for k, (h, words) in enumerate(zip(order, turns)):
        was, now = tank.flags[h], words[1] == "1"
        lower, upper = set_points[h]
        say("presence value %d" % ((lower is not None) + 2 * (upper is not None)))
        if lower is not None and lower == upper:
            say("lower equal to upper")
        if now and not was:
            say("a flag that comes on")
        if was and not now:
            say("a flag that goes off")
        if was and upper is None:
            say("no upper set point while on")
        layer = model.layer_of(model.thermostat_place(tank.heaters[h]), tank.count)
        if k == 0 and was and now and (lower is None or begin[layer] > lower):
            say("a flag that stays on above its lower set point")
        if any(kind_of_number(double(word)) == "-0.0" for word in words[2:5]):
            say("a heater's figure of -0.0")
        say("rounds %d" % int(words[5]))
    if len(turns) and max(int(words[5]) for words in turns) > 1:
        say("rounds above 1")
    if any(kind_of_number(double(word)) == "-0.0" for word in lines[1].split()[1:]):
        say("a layer of -0.0")
    if totals[0] < 0.0:
        say("energy below 0")


# Whole cases


def see_job(data, lines, put=False):
    """A job beside its stored lines; complains where the lines cannot be its answer."""
    where = "put" if put else "job"
    whole, data = data, data[: model.MOST_BYTES]
    lines = list(lines)
    at, tank, steps = 0, None, []
    while at < len(data) or at == 0:
        try:
            (kind, record), after = model.read(data, at, tank, bool(steps), put)
        except model.Refusal:
            assert lines == ["E 11 %d" % at], lines
            see("damage", *damage(data, at, tank, steps))
            if len(whole) > model.MOST_BYTES:
                see(where, "past 65,536 bytes, a record across the line")
            return
        if kind == "tank":
            see_tank(record)
            record.make()
            number = model.check_tank(record, [record.initial])
        elif kind == "heater":
            ninth = len(tank.heaters) == model.MOST_HEATERS
            see_heater(record, struct.unpack_from("<d", data, at + 23)[0], ninth)
            number = 2 if ninth else model.check_heater(record)
        if kind in ("tank", "heater"):
            if lines and lines[0].startswith("E ") and lines[0].split()[2] == str(at):
                assert lines == ["E %d %d" % (number, at)], lines
                see("%s record" % kind, "refusal %d" % number)
                return
            assert number == 0
            if kind == "tank":
                tank = record
            else:
                tank.heaters.append(record)
                tank.flags.append(False)
        elif kind == "put":
            tank.layers, tank.flags = record
            if any(a > b for a, b in zip(tank.layers, tank.layers[1:])):
                see(where, "layers out of order")
            if any(tank.flags):
                see(where, "a flag on")
        else:
            see_step_record(tank, record, data[at + 6 : after])
            words = lines[0].split()
            assert words[:2] == ["S", str(len(steps))], lines[0]
            number = int(words[2])
            count = 2 + len(tank.heaters) if number == 0 else 2
            mine, lines = lines[:count], lines[count:]
            layers = [double(word) for word in mine[1].split()[1:]]
            if number:
                why = why_refused(tank, record)
                assert why and why[0].startswith("%d," % number), (number, why)
                see("refused step" if not put else "put: refused step", *why)
            else:
                see_accepted(tank, record, mine, any(steps))
                if put:
                    see(where, "accepted step")
                for h, line in zip(model.working_order(tank), mine[2:]):
                    tank.flags[h] = line.split()[1] == "1"
                tank.layers = layers
            steps.append(number)
        at = after
    assert not lines, lines
    if len(whole) > model.MOST_BYTES:
        see(where, "past 65,536 bytes, a record that ends on the line")
    if len(steps) == 0:
        see(where, "a tank alone" if not tank.heaters else "a tank and heaters alone")
    if len(steps) >= 10:
        see(where, "10 or more steps")


def see_mix(volume, layers, number, rounds, after):
    see("mix", "refusal %d" % number if number else "rounds %d" % rounds, "layers %d" % len(layers))
    if number in (1, 3):
        see("mix", "refusal %d, volume %s, layers %d" % (number, kind_of_number(volume), len(layers)))
        see_number("mix", "refusal %d, volume" % number, volume)
    elif number == 9:
        see("mix", "refusal 9, " + ("finite layers" if all(map(model.finite, layers)) else "layers not finite"))
    else:
        if len(layers) == 1:
            see_number("mix", "one layer,", layers[0])
        elif any(map(math.isinf, layers)):
            see("mix", "accepted, an infinite layer")
        if {kind_of_number(x) for x in layers} >= {"0.0", "-0.0"}:
            see("mix", "accepted, zeros of both signs")
        if len(layers) > 2 and len(set(layers)) == 1:
            see("mix", "accepted, all layers equal")
