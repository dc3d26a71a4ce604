#!/usr/bin/env python3
"""Document 01 in Python, written from its words, as a second opinion beside the Rust.

In one place, marked, it follows the Rust where those words leave the sign of a zero open.

    model.py            reads a job from standard input and prints its lines
    model.py serve      answers many requests, for `judge against`

A request is one byte (J job, P job with put records, M mix), a 4-byte length and the bytes; the answer is a
4-byte length and the lines, or 2^32 - 1 for a call that is not here. A mix is the layer volume and the layers, as
doubles.
"""

import struct
import sys

MOST_LAYERS, MOST_HEATERS, MOST_EVENTS, MOST_BYTES = 32, 8, 64, 65536
INF = float("inf")


class Refusal(Exception):
    def __init__(self, number):
        self.number = number


# Arithmetic underneath


def finite(x):
    return -INF < x < INF


def div(a, b):
    """IEEE division: Python raises where the divisor is zero."""
    if b != 0.0:
        return a / b
    if a == 0.0 or a != a:
        return float("nan")
    negative = (struct.pack(">d", a)[0] ^ struct.pack(">d", b)[0]) & 128
    return -INF if negative else INF


def close(a, b, e):
    if a == b:
        return True
    if abs(a) == INF or abs(b) == INF:
        return False
    distance = abs(a - b)
    return distance <= e or distance <= 1e-9 * max(abs(a), abs(b))


def narrow(a, b):
    return close(a, b, 2.0**-52)


def wide(a, b):
    return close(a, b, 1e-10)


def sum2(terms):
    s = c = 0.0
    for b in terms:
        x = s + b
        z = x - s
        c = c + ((s - (x - z)) + (b - z))
        s = x
    return s + c


def min_of_2(first, second):
    return first if first < second else second


def max_of_2(first, second):
    return first if first > second else second


def cold(feed, v):
    return div(sum2([feed * v]), sum2([v]))


# Tank


class Heater:
    def __init__(self, rated, position, thermostat):
        self.rated, self.position, self.thermostat = rated, position, thermostat


class Tank:
    def __init__(self, layers, volume, standby, initial, density, specific_heat, ambient, step):
        self.count = layers
        self.volume = volume
        self.standby = standby
        self.initial = initial
        self.density = density
        self.specific_heat = specific_heat
        self.ambient = ambient
        self.step_length = step
        self.heaters = []
        self.flags = []
        self.layers = []

    def make(self):
        self.layers = [self.initial] * self.count

    @property
    def layer_volume(self):
        return self.volume / self.count


def layer_of(position, count):
    """Position x layers, cut to a whole number; position exactly 1 is the top layer (02, R-2)."""
    if position == 1.0:
        return count - 1
    return int(position * count)


def thermostat_place(heater):
    """Without a position of its own a thermostat sits with its heater."""
    return heater.position if heater.thermostat is None else heater.thermostat


def check_tank(tank, temperatures):
    if tank.count == 0 or tank.count > MOST_LAYERS:
        return 1
    for x in (tank.volume, tank.density, tank.specific_heat, tank.step_length):
        if not (finite(x) and x > 0.0):
            return 3
    if not finite(tank.standby) or tank.standby < 0.0 or not finite(tank.ambient):
        return 4
    if not all(finite(x) for x in temperatures):
        return 4
    return 0


def check_heater(heater):
    if not finite(heater.rated) or heater.rated < 0.0:
        return 5
    if not 0.0 <= heater.position <= 1.0:
        return 5
    if heater.thermostat is not None and not 0.0 <= heater.thermostat <= 1.0:
        return 5
    return 0


def check_set_points(lower, upper):
    """Of one heater (02, R-1)."""
    if lower is not None and not finite(lower) or upper is not None and not finite(upper):
        return 12
    if lower is not None and upper is None:
        return 8
    if lower is not None and lower > upper:
        return 13
    return 0


def check_step(tank, step):
    feed, volumes, set_points = step
    if len(volumes) > MOST_EVENTS or len(set_points) != len(tank.heaters):
        return 6
    if not finite(feed) or any(not finite(v) or v < 0.0 for v in volumes):
        return 7
    for lower, upper in set_points:
        number = check_set_points(lower, upper)
        if number:
            return number
    return 0


# Draw


def empty(x):
    return x < 0.0 or wide(x, 0.0)


def draw(tank, layers, feed, wanted, totals):
    """One event: what the layers still hold, the energy and the volume used."""
    holds = [tank.layer_volume] * tank.count
    rest = wanted
    energy = 0.0
    for i in reversed(range(tank.count)):
        if empty(rest):
            break
        if empty(holds[i]):
            continue
        if holds[i] < rest or narrow(holds[i], rest):
            share = holds[i]
            rest = rest - share
        else:
            share = rest
            rest = 0.0
        holds[i] = holds[i] - share
        totals.weighted += share * layers[i]
        totals.drawn += share
        energy += tank.density * tank.specific_heat * share * (layers[i] - cold(feed, wanted))
    if rest > 0.0:
        totals.weighted += rest * feed
        totals.drawn += rest
        energy += tank.density * tank.specific_heat * rest * (feed - cold(feed, rest))
    return holds, energy, tank.volume - sum2(holds)


# Refill


def refill(tank, layers, feed, holds):
    """The layers after it, and whether the event ends in a mixing."""
    filled = list(layers)
    mixing = False
    for i in reversed(range(tank.count)):
        lack = tank.layer_volume - holds[i]
        if empty(lack):
            break
        heat = holds[i] * layers[i]
        total = holds[i]
        coldest = layers[i]
        for j in reversed(range(i)):
            if not holds[j] > 0.0:
                continue
            given = lack if lack < holds[j] else holds[j]
            holds[j] -= given
            heat += given * layers[j]
            total += given
            if layers[j] < coldest:
                coldest = layers[j]
            lack -= given
            if empty(lack):
                break
        if lack > 0.0:
            entering = cold(feed, lack)
            heat += lack * entering
            total += lack
            if entering > coldest:
                mixing = True
        filled[i] = div(heat, total)
        holds[i] = total
    return filled, mixing


# Mix


def most_rounds(_layers):
    return 64


def ordered(layers):
    return all(layers[i] <= layers[i + 1] for i in range(len(layers) - 1))


def mix(volumes, layers):
    """The layers after the mixing and the rounds."""
    layers = list(layers)
    count = len(layers)
    for rounds in range(1, most_rounds(count) + 1):
        group = [0.0] * count
        for i in range(count - 1):
            if layers[i] > layers[i + 1] or narrow(layers[i], layers[i + 1]):
                group[i] = group[i + 1] = 1.0
                mean = div(
                    sum2(volumes[k] * layers[k] * group[k] for k in range(count)),
                    sum2(volumes[k] * group[k] for k in range(count)),
                )
                for k in range(count):
                    if group[k]:
                        layers[k] = mean
            else:
                group = [0.0] * count
        if ordered(layers):
            return layers, rounds
    raise Refusal(9)


def mix_call(volume, layers):
    if not 1 <= len(layers) <= MOST_LAYERS:
        raise Refusal(1)
    if not (finite(volume) and volume > 0.0):
        raise Refusal(3)
    return mix([volume] * len(layers), layers)


# One turn


class Turn:
    pass


def turn(tank, heater, flag, begin, set_points, charged):
    lower, upper = set_points
    count = tank.count
    heater_layer = layer_of(heater.position, count)
    thermostat_layer = layer_of(thermostat_place(heater), count)

    # Switch-on
    if upper is None:
        flag = False
    elif lower is not None and (
        begin[thermostat_layer] < lower or narrow(begin[thermostat_layer], lower)
    ):
        flag = True

    # Heat
    heat_capacity = tank.density * tank.specific_heat * tank.layer_volume
    offers = [0.0] * count
    if flag:
        # Added to 0, as the Rust does: a rated power of -0.0 offers 0.0.
        offers[heater_layer] = 0.0 + heater.rated * tank.step_length
    heated = [begin[i] + div(offers[i], heat_capacity) for i in range(count)]
    mixed, rounds = mix([tank.layer_volume] * count, heated)

    # Losses and limit
    h = (1000.0 * tank.standby) / (24.0 * 45.0)
    losses, after = [], []
    for i in range(count):
        warmed = mixed[i] > begin[i] and not wide(mixed[i], begin[i])
        counted = min_of_2(mixed[i], upper) if warmed and upper is not None else mixed[i]
        loss = (
            (h * tank.density * tank.specific_heat)
            * div(tank.layer_volume, tank.volume)
            * (counted - tank.ambient)
            * tank.step_length
        )
        loss = max_of_2(0.0, loss - charged[i])
        losses.append(loss)
        if warmed and upper is not None and mixed[i] > upper and not wide(mixed[i], upper):
            after.append(upper)
        else:
            after.append(mixed[i] - div(loss, heat_capacity))
    surplus = 0.0
    if upper is not None and mixed[heater_layer] > upper and not wide(mixed[heater_layer], upper):
        for i in range(heater_layer, count):
            surplus += heat_capacity * mixed[i] - losses[i] - heat_capacity * upper
    offered = sum2(offers)
    adjusted = 0.0
    if offered > 0.0:
        adjusted = max_of_2(0.0, min_of_2(offered - surplus, offered))

    # Supply and switch-off
    demand = 0.0 if wide(adjusted, 0.0) else adjusted
    supplied = min_of_2(demand, heater.rated * tank.step_length)
    if upper is None or after[thermostat_layer] > upper or narrow(after[thermostat_layer], upper):
        flag = False

    done = Turn()
    done.flag, done.layers, done.charges = flag, after, losses
    done.adjusted, done.supplied, done.losses, done.rounds = adjusted, supplied, sum2(losses), rounds
    return done


# Step


class Totals:
    weighted = 0.0
    drawn = 0.0


def working_order(tank):
    return sorted(range(len(tank.heaters)), key=lambda i: tank.heaters[i].position)


def work(tank, step):
    feed, volumes, set_points = step
    layers = tank.layers
    totals = Totals()
    energy = used = 0.0
    for wanted in volumes:
        holds, event_energy, event_used = draw(tank, layers, feed, wanted, totals)
        layers, mixing = refill(tank, layers, feed, holds)
        if mixing:
            layers, _ = mix([tank.layer_volume] * tank.count, layers)
        energy += event_energy
        used += event_used
        if not all(map(finite, layers)) or not finite(energy) or not finite(used):
            raise Refusal(10)
    average = layers[-1] if wide(totals.drawn, 0.0) else div(totals.weighted, totals.drawn)
    charged = [0.0] * tank.count
    lost = 0.0
    flags = list(tank.flags)
    turns = []
    for i in working_order(tank):
        done = turn(tank, tank.heaters[i], flags[i], layers, set_points[i], charged)
        layers = done.layers
        flags[i] = done.flag
        charged = [a + b for a, b in zip(charged, done.charges)]
        lost += done.losses
        turns.append(done)
        figures = (done.adjusted, done.supplied, done.losses)
        if not all(map(finite, layers)) or not all(map(finite, figures)):
            raise Refusal(10)
    recoverable = lost * 0.75
    if not finite(average) or not finite(recoverable):
        raise Refusal(10)
    tank.layers, tank.flags = layers, flags
    return (energy, used, average, recoverable), turns


def run_step(tank, step):
    number = check_tank(tank, tank.layers) or check_step(tank, step)
    if number:
        raise Refusal(number)
    return work(tank, step)


# Job


def read(data, at, tank, stepped, put):
    """The record at a position and the position after it, or refusal 11."""
    if at + 4 > len(data):
        raise Refusal(11)
    (length,) = struct.unpack_from("<I", data, at)
    body = data[at + 4 : at + 4 + length]
    if len(body) < length or length < 2:
        raise Refusal(11)
    (kind,) = struct.unpack_from("<H", body)
    after = at + 4 + length
    heaters = len(tank.heaters) if tank else 0
    if heaters > MOST_HEATERS:
        raise Refusal(11)
    if kind == 1 and length == 60 and tank is None:
        return ("tank", Tank(*struct.unpack("<H7d", body[2:]))), after
    if kind == 2 and length == 27 and tank is not None and not stepped:
        rated, position, present, thermostat = struct.unpack("<ddBd", body[2:])
        if present <= 1:
            return ("heater", Heater(rated, position, thermostat if present else None)), after
    if kind == 3 and length >= 12 and tank is not None:
        feed, count = struct.unpack_from("<dH", body, 2)
        if length == 12 + 8 * count + 17 * heaters:
            volumes = list(struct.unpack_from("<%dd" % count, body, 12))
            set_points = []
            for k in range(heaters):
                present, lower, upper = struct.unpack_from("<Bdd", body, 12 + 8 * count + 17 * k)
                if present > 3:
                    raise Refusal(11)
                set_points.append((lower if present & 1 else None, upper if present & 2 else None))
            return ("step", (feed, volumes, set_points)), after
    if kind == 256 and put and tank is not None:
        if length == 2 + 8 * tank.count + heaters:
            layers = list(struct.unpack_from("<%dd" % tank.count, body, 2))
            flags = [x != 0 for x in body[2 + 8 * tank.count :]]
            return ("put", (layers, flags)), after
    raise Refusal(11)


def bits(x):
    return struct.pack(">d", x).hex()


def layer_line(tank):
    return " ".join(["L"] + [bits(x) for x in tank.layers])


def job_lines(data, put=False):
    data = data[:MOST_BYTES]
    lines = []
    at = 0
    index = 0
    tank = None
    while at < len(data) or at == 0:
        try:
            (kind, record), after = read(data, at, tank, index > 0, put)
            if kind == "tank":
                number = check_tank(record, [record.initial])
                if number:
                    raise Refusal(number)
                tank = record
                tank.make()
            elif kind == "heater":
                if len(tank.heaters) == MOST_HEATERS:
                    raise Refusal(2)
                number = check_heater(record)
                if number:
                    raise Refusal(number)
                tank.heaters.append(record)
                tank.flags.append(False)
        except Refusal as refusal:
            lines.append("E %d %d" % (refusal.number, at))
            return lines
        if kind == "put":
            tank.layers, tank.flags = record
        elif kind == "step":
            try:
                totals, turns = run_step(tank, record)
                lines.append(" ".join(["S %d 0" % index] + [bits(x) for x in totals]))
                lines.append(layer_line(tank))
                for i, done in zip(working_order(tank), turns):
                    figures = (done.adjusted, done.supplied, done.losses)
                    parts = ["H %d" % tank.flags[i]] + [bits(x) for x in figures]
                    lines.append(" ".join(parts + ["%d" % done.rounds]))
            except Refusal as refusal:
                lines.append("S %d %d" % (index, refusal.number))
                lines.append(layer_line(tank))
            index += 1
        at = after
    return lines


def mix_line(data):
    volume, *layers = struct.unpack("<%dd" % (len(data) // 8), data)
    try:
        layers, rounds = mix_call(volume, layers)
        return " ".join(["M 0 %d" % rounds] + [bits(x) for x in layers])
    except Refusal as refusal:
        return "M %d" % refusal.number


def serve(source, sink):
    while True:
        head = source.read(5)
        if len(head) < 5:
            return
        kind, length = struct.unpack("<cI", head)
        data = source.read(length)
        if kind not in b"JPM":
            sink.write(b"\xff\xff\xff\xff")
            sink.flush()
            continue
        lines = [mix_line(data)] if kind == b"M" else job_lines(data, kind == b"P")
        text = "".join(line + "\n" for line in lines).encode()
        sink.write(struct.pack("<I", len(text)) + text)
        sink.flush()


if __name__ == "__main__":
    if sys.argv[1:] == ["serve"]:
        serve(sys.stdin.buffer, sys.stdout.buffer)
    else:
        for line in job_lines(sys.stdin.buffer.read()):
            print(line)
