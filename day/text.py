"""A day as text: one line a record, names and units on it, numbers in decimal (day/README.md)."""

import re

import progress
from records import Day, Heater, Step, Tank
from units import Unfit, form, number, take_unit

TANK_FIELDS = [
    ("layers", None),
    ("volume", "litres"),
    ("standby loss", "kWh/24h"),
    ("initial", "C"),
    ("density", "kg/litre"),
    ("specific heat", "kWh/kg.K"),
    ("ambient", "C"),
    ("step length", "hours"),
]
HEATER_FIELDS = [("rated power", "kW"), ("position", "of height"), ("thermostat", "of height")]
STEP_FIELDS = [("feed", "C"), ("draws", "litres")]
MOST = 65535  # a job has two bytes for the number of layers, and of draws

WHOLE = re.compile(r"[0-9]{1,9}")


class WrongLine(Exception):
    """The lines that are wrong: (number, what), the first of them in `number` and in the words."""

    def __init__(self, found):
        super().__init__("line %d: %s" % found[0])
        self.found, self.number = found, found[0][0]


# Numbers


def whole(word, name, most):
    if not WHOLE.fullmatch(word) or int(word) > most:
        raise Unfit("expected a whole number of %s from 0 to %d, found '%s'" % (name, most, word))
    return int(word)


def decimal(value):
    """The shortest decimal that reads back to the same double."""
    text = repr(value)
    return text[:-2] if text.endswith(".0") and text != "-0.0" else text


# One field: a name, a number and its unit


def begins(words, name):
    return words[: len(name.split())] == name.split()


def values(part, name, unit):
    """The numbers between a field's name and its unit."""
    taken = take_unit(part.split()[len(name.split()) :], unit)
    if taken is None:
        raise Unfit("expected '%s', found '%s'" % (form(name, unit), part))
    words, factor = taken
    return [number(word, factor) for word in words]


def value(part, name, unit):
    found = values(part, name, unit)
    if len(found) != 1:
        raise Unfit("expected '%s', found '%s'" % (form(name, unit), part))
    return found[0]


def fields_of(kind, rest, fields, free=""):
    """The fields of a line by name, and the parts that begin with the word `free`."""
    found, others = {}, []
    for part in (" ".join(part.split()) for part in rest.split(",")):
        words = part.split()
        if free and words[:1] == [free]:
            others.append(part)
            continue
        name = next((name for name, _ in fields if begins(words, name)), None)
        if name is None:
            names = [name for name, _ in fields] + ([free] if free else [])
            raise Unfit("expected one of %s, each set apart by a comma, found '%s'" % (", ".join(names), part))
        if name in found:
            raise Unfit("expected '%s' once on a %s line, found it twice" % (name, kind))
        found[name] = part
    return found, others


def needed(kind, found, fields, name):
    unit = dict(fields)[name]
    if name not in found:
        raise Unfit("expected '%s' on a %s line" % (form(name, unit), kind))
    return value(found[name], name, unit)


# The three kinds of line


def read_layers(found):
    words = found["layers"].split() if "layers" in found else []
    if len(words) != 2:
        there = "found '%s'" % found["layers"] if words else "on a tank line"
        raise Unfit("expected '%s'%s %s" % (form("layers", None), "," if words else "", there))
    return whole(words[1], "layers", MOST)


def read_tank(rest):
    found, _ = fields_of("tank", rest, TANK_FIELDS)
    layers = read_layers(found)
    return Tank(layers, *(needed("tank", found, TANK_FIELDS, name) for name, _ in TANK_FIELDS[1:]))


def read_heater(rest):
    found, _ = fields_of("heater", rest, HEATER_FIELDS)
    rated, position = (needed("heater", found, HEATER_FIELDS, name) for name in ("rated power", "position"))
    thermostat = needed("heater", found, HEATER_FIELDS, "thermostat") if "thermostat" in found else None
    return Heater(rated, position, thermostat)


def points_form(place):
    start = "heater %s" % place
    return "'%s lower NUMBER C upper NUMBER C', '%s upper NUMBER C' or '%s none'" % (start, start, start)


def read_points(part, heaters):
    """The heater's place and its set points, in either order: `heater 0 lower 50 C upper 60 C`."""
    words = part.split()
    if len(words) < 2 or not WHOLE.fullmatch(words[1]) or heaters is not None and int(words[1]) >= heaters:
        there = "heater 0 to %d" % (heaters - 1) if heaters else "no heater, for no heater line stands before"
        raise Unfit("expected %s, found '%s'" % (there if heaters is not None else "the number of a heater", part))
    place, rest = int(words[1]), words[2:]
    if rest == ["none"]:
        return place, (None, None)
    starts = [at for at, word in enumerate(rest) if word in ("lower", "upper")]
    points = {}
    if starts[:1] != [0]:
        raise Unfit("expected %s, found '%s'" % (points_form(place), part))
    for start, end in zip(starts, starts[1:] + [len(rest)]):
        words, factor = take_unit(rest[start + 1 : end], "C") or ([], 1)
        if len(words) != 1 or rest[start] in points:
            raise Unfit("expected %s, found '%s'" % (points_form(place), part))
        points[rest[start]] = number(words[0], factor)
    return place, (points.get("lower"), points.get("upper"))


def read_step(rest, heaters):
    """`heaters` is how many there are, or None where a wrong line before leaves that open."""
    found, others = fields_of("step", rest, STEP_FIELDS, "heater")
    feed = needed("step", found, STEP_FIELDS, "feed")
    volumes = []
    if "draws" in found:
        volumes = values(found["draws"], "draws", "litres")
        if not 1 <= len(volumes) <= MOST:
            raise Unfit("expected '%s' with 1 to %d numbers, found %d" % (form("draws", "litres"), MOST, len(volumes)))
    points = {}
    for part in others:
        place, pair = read_points(part, heaters)
        if place in points:
            raise Unfit("expected 'heater %d' once on a step line, found it twice" % place)
        points[place] = pair
    for place in range(heaters or 0):
        if place not in points:
            raise Unfit("expected set points for each heater; for heater %d: %s" % (place, points_form(place)))
    return Step(feed, volumes, [points[place] for place in range(heaters or 0)])


# The whole text


class Lines:
    """What the lines of a text came to so far; the wrong ones are kept, so that all can be told."""

    def __init__(self):
        self.tank, self.title = None, None
        self.heaters, self.steps, self.places, self.wrong = [], [], [], []
        self.tanks, self.missed, self.stepped, self.sure = 0, False, False, True

    def count(self, kind):
        """What later lines are judged by, whatever else is wrong with this one."""
        self.tanks += kind == "tank"
        self.stepped = self.stepped or kind == "step"
        if kind == "heater" and not self.stepped:
            self.heaters.append(None)
        elif kind not in ("tank", "step"):
            # A heater's line that stands too late, or one that may have been meant for a heater's.
            self.sure = self.sure and self.stepped and kind != "heater"

    def take(self, at, plain):
        kind, _, rest = " ".join(plain.split()).partition(" ")
        self.count(kind)
        if kind not in ("tank", "heater", "step"):
            raise Unfit("expected a line that begins with tank, heater or step, found '%s'" % kind)
        if self.tanks > 1 and kind == "tank" or not (self.tanks or self.missed):
            self.missed = True
            raise Unfit("expected one tank line, and before all others")
        if kind == "heater" and self.stepped:
            raise Unfit("expected all heater lines before the first step line")
        self.places.append(at)
        if kind == "tank":
            self.tank = read_tank(rest)
        elif kind == "heater":
            self.heaters[-1] = read_heater(rest)
        else:
            self.steps.append(read_step(rest, len(self.heaters) if self.sure else None))

    def line(self, at, raw):
        try:
            line = raw.decode("utf-8-sig" if at == 1 else "utf-8").strip()
        except UnicodeDecodeError as error:
            raise Unfit("expected text in UTF-8 (save it so), found the byte %02x" % raw[error.start]) from None
        plain, _, comment = line.partition("#")
        if self.title is None and not plain and comment.strip() and not self.tanks:
            self.title = comment.strip()
        if plain.strip():
            self.take(at, plain)


def read_text(data):
    """The day that the bytes of a text hold; WrongLine has the lines that are not of one."""
    lines, found = Lines(), data.split(b"\n")
    for at, raw in enumerate(found, 1):
        progress.at(at - 1)
        try:
            lines.line(at, raw)
        except Unfit as unfit:
            lines.wrong.append((at, str(unfit)))
    if not lines.wrong and lines.tank is None:
        lines.wrong.append((len(found), "expected a tank line, found the end"))
    if lines.wrong:
        raise WrongLine(lines.wrong)
    return Day(lines.tank, lines.heaters, lines.steps, lines.places, lines.title)


def tank_line(tank):
    values = ["%d" % tank.layers] + [decimal(x) for x in tank[1:]]
    parts = ["%s %s%s" % (name, value, " " + unit if unit else "") for (name, unit), value in zip(TANK_FIELDS, values)]
    return "tank " + ", ".join(parts)


def heater_line(heater):
    parts = ["%s %s %s" % (name, decimal(x), unit) for (name, unit), x in zip(HEATER_FIELDS, heater) if x is not None]
    return "heater " + ", ".join(parts)


def points_part(place, lower, upper):
    parts = ["%s %s C" % (name, decimal(x)) for name, x in (("lower", lower), ("upper", upper)) if x is not None]
    return "heater %d %s" % (place, " ".join(parts) or "none")


def step_line(step):
    parts = ["feed %s C" % decimal(step.feed)]
    if step.volumes:
        parts.append("draws %s litres" % " ".join(decimal(v) for v in step.volumes))
    parts += [points_part(place, *pair) for place, pair in enumerate(step.points)]
    return "step " + ", ".join(parts)


def write_text(day):
    lines = ["# %s" % day.title] if day.title else []
    lines.append(tank_line(day.tank))
    lines += ["%s  # heater %d" % (heater_line(heater), place) for place, heater in enumerate(day.heaters)]
    lines += ["%s  # step %d" % (step_line(step), index) for index, step in enumerate(day.steps)]
    return "".join(line + "\n" for line in lines).encode()
