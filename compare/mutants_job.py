"""Wrong readers, checks and printers of jobs, for mutants.py: name, then old and new text of model.py, once or more."""

CHECKED = "if not finite(feed) or any(not finite(v) or v < 0.0 for v in volumes):"
NOT_FINITE = """    if lower is not None and not finite(lower) or upper is not None and not finite(upper):
        return 12
"""
ALONE = """    if lower is not None and upper is None:
        return 8
"""
ABOVE = """    if lower is not None and lower > upper:
        return 13
"""
TOP = """    if position == 1.0:
        return count - 1
    return int(position * count)
"""
CUT = """    return count - 1 if position >= 1.0 else int(position * count)
"""
HEATERS = """    for lower, upper in set_points:
        number = check_set_points(lower, upper)
        if number:
            return number
"""
LIMITS = "MOST_LAYERS, MOST_HEATERS, MOST_EVENTS, MOST_BYTES = 32, 8, 64, 65536"
REFUSED = '                lines.append("S %d %d" % (index, refusal.number))\n                lines.append(layer_line(tank))\n'
SET_POINTS = "set_points.append((lower if present & 1 else None, upper if present & 2 else None))"

JOB_MUTANTS = [
    # Reading
    ("a record one byte short is read", "body = data[at + 4 : at + 4 + length]", 'body = (data + b"\\0")[at + 4 : at + 4 + length]'),
    ("presence byte 2 of a heater is read", "if present <= 1:", "if present <= 2:"),
    ("presence byte 4 of a step is read", "if present > 3:", "if present > 4:"),
    ("presence bytes looked at in the first entry only", "if present > 3:", "if present > 3 and k == 0:"),
    ("lengths big-endian", 'struct.unpack_from("<I", data, at)', 'struct.unpack_from(">I", data, at)'),
    ("kinds big-endian", '(kind,) = struct.unpack_from("<H", body)', '(kind,) = struct.unpack_from(">H", body)'),
    ("a tank's numbers big-endian", '"<H7d"', '">H7d"'),
    ("a heater's numbers big-endian", '"<ddBd"', '">ddBd"'),
    ("a step's feed and count big-endian", '"<dH"', '">dH"'),
    ("volumes big-endian", '"<%dd" % count', '">%dd" % count'),
    ("set points big-endian", '"<Bdd"', '">Bdd"'),
    ("a kind's second byte not looked at", '(kind,) = struct.unpack_from("<H", body)', "kind = body[0]"),
    ("a tank longer than it should be is read", "kind == 1 and length == 60", "kind == 1 and length >= 60", "body[2:]))), after", "body[2:60]))), after"),
    ("a heater longer than it should be is read", "kind == 2 and length == 27", "kind == 2 and length >= 27", '"<ddBd", body[2:]', '"<ddBd", body[2:27]'),
    ("a step longer than it should be is read", "if length == 12 + 8 * count", "if length >= 12 + 8 * count"),
    ("a second tank is read", "length == 60 and tank is None", "length == 60"),
    ("a heater after a step is read", "tank is not None and not stepped:", "tank is not None:"),
    ("a heater after refused steps is read", "read(data, at, tank, index > 0, put)",
     'read(data, at, tank, any(line[0] == "S" and line.split()[2] == "0" for line in lines), put)'),
    ("absent set points are read", SET_POINTS, "set_points.append((lower if present else None, upper if present else None))"),
    ("set points in the other order", "present, lower, upper = struct", "present, upper, lower = struct"),
    ("an absent thermostat is at its double", "thermostat if present else None", "thermostat"),
    ("an absent thermostat is at the bottom", "thermostat if present else None", "thermostat if present else 0.0"),
    ("input past 65,536 bytes is read", "    data = data[:MOST_BYTES]\n", ""),
    ("65,535 bytes are read", LIMITS, LIMITS.replace("65536", "65535")),
    ("empty input prints nothing", "while at < len(data) or at == 0:", "while at < len(data):"),
    # Checks
    ("33 layers are made", LIMITS, LIMITS.replace("32", "33")),
    ("31 layers are the most", LIMITS, LIMITS.replace("32", "31")),
    ("9 heaters are made", LIMITS, LIMITS.replace("8, 64", "9, 64")),
    ("7 heaters are the most", LIMITS, LIMITS.replace("8, 64", "7, 64")),
    ("65 events are worked", LIMITS, LIMITS.replace("64", "65")),
    ("63 events are the most", LIMITS, LIMITS.replace("64", "63")),
    ("5 before 2", "                if len(tank.heaters) == MOST_HEATERS:\n                    raise Refusal(2)\n                number = check_heater(record)\n",
     "                number = check_heater(record) or 2 * (len(tank.heaters) == MOST_HEATERS)\n"),
    ("volume not checked", "for x in (tank.volume, tank.density,", "for x in (tank.density,"),
    ("density not checked", "for x in (tank.volume, tank.density,", "for x in (tank.volume,"),
    ("specific heat not checked", "tank.specific_heat, tank.step_length):\n        if", "tank.step_length):\n        if"),
    ("step length not checked", "tank.specific_heat, tank.step_length):\n        if", "tank.specific_heat):\n        if"),
    ("0 and below are above zero", "if not (finite(x) and x > 0.0):\n            return 3", "if not finite(x):\n            return 3"),
    ("infinity is finite in 3", "if not (finite(x) and x > 0.0):\n            return 3", "if not x > 0.0:\n            return 3"),
    ("standby may be infinite", "if not finite(tank.standby) or tank.standby < 0.0", "if tank.standby != tank.standby or tank.standby < 0.0"),
    ("standby may be below 0", " or tank.standby < 0.0", ""),
    ("standby may not be -0.0", "tank.standby < 0.0", 'struct.pack(">d", tank.standby)[0] > 127'),
    ("ambient not checked", " or not finite(tank.ambient)", ""),
    ("initial temperature and layers not checked", "if not all(finite(x) for x in temperatures):", "if False:"),
    ("rated may be infinite", "if not finite(heater.rated) or heater.rated < 0.0:", "if not heater.rated >= 0.0:"),
    ("rated may be below 0", "if not finite(heater.rated) or heater.rated < 0.0:", "if not finite(heater.rated):"),
    ("position may be below 0", "if not 0.0 <= heater.position <= 1.0:", "if not heater.position <= 1.0:"),
    ("thermostat may be below 0", "not 0.0 <= heater.thermostat <= 1.0", "not -INF < heater.thermostat <= 1.0"),
    ("a heater at 1 is refused still", "if not 0.0 <= heater.position <= 1.0:", "if not 0.0 <= heater.position < 1.0:"),
    ("a thermostat at 1 is refused still", "not 0.0 <= heater.thermostat <= 1.0", "not 0.0 <= heater.thermostat < 1.0"),
    ("a heater above 1 is cut to the top", "if not 0.0 <= heater.position <= 1.0:", "if not 0.0 <= heater.position:", TOP, CUT),
    ("a thermostat above 1 is cut to the top", "not 0.0 <= heater.thermostat <= 1.0", "not 0.0 <= heater.thermostat", TOP, CUT),
    ("position 1 is the bottom layer", TOP, TOP.replace("count - 1", "0")),
    ("position 1 is the layer below the top", TOP, TOP.replace("count - 1", "max(count - 2, 0)")),
    ("a thermostat at 1 sits with its heater", "return heater.position if heater.thermostat is None else",
     "return heater.position if heater.thermostat in (None, 1.0) else"),
    ("a heater at 1 works with those just below it", "key=lambda i: tank.heaters[i].position)", "key=lambda i: min(tank.heaters[i].position, 1.0 - 2.0**-53))"),
    ("feed not checked", CHECKED, "if any(not finite(v) or v < 0.0 for v in volumes):"),
    ("volumes may be infinite", CHECKED, "if not finite(feed) or any(not v >= 0.0 for v in volumes):"),
    ("volumes may be below 0", CHECKED, "if not finite(feed) or any(not finite(v) for v in volumes):"),
    ("lower may be not finite", "if lower is not None and not finite(lower) or upper", "if upper"),
    ("upper may be not finite", " or upper is not None and not finite(upper):", ":"),
    ("lower may come alone", ALONE, ALONE.replace("8", "0")),
    ("lower may be above upper", ABOVE, ""),
    ("lower may not be upper", ABOVE, ABOVE.replace("lower > upper", "lower >= upper")),
    ("12 is 8 still", "        return 12\n", "        return 8\n"),
    ("13 is 8 still", "        return 13\n", "        return 8\n"),
    ("8 before 12", NOT_FINITE + ALONE, ALONE + NOT_FINITE),
    ("13 before 12", NOT_FINITE, "    if lower is not None and upper is not None and lower > upper:\n        return 13\n" + NOT_FINITE),
    ("set points only compared", NOT_FINITE, "", ABOVE, ABOVE.replace("lower > upper", "not lower <= upper")),
    ("all heaters searched for 12 first", HEATERS, HEATERS.replace("in set_points", "in sorted(set_points, key=lambda pair: check_set_points(*pair) != 12)")),
    ("the last faulty heater decides", HEATERS, HEATERS.replace("in set_points", "in reversed(set_points)")),
    ("the first faulty heater in working order decides", HEATERS, HEATERS.replace("in set_points", "in [set_points[i] for i in working_order(tank)]")),
    ("7 before 6", "    feed, volumes, set_points = step\n    if len(volumes) > MOST_EVENTS",
     "    feed, volumes, set_points = step\n    if not finite(feed):\n        return 7\n    if len(volumes) > MOST_EVENTS"),
    ("set points before 7", HEATERS, "", "    " + CHECKED, HEATERS + "    " + CHECKED),
    # Printing
    ("a refusal's offset is past its length", '"E %d %d" % (refusal.number, at)', '"E %d %d" % (refusal.number, at + 4)'),
    ("indexes count accepted steps only", REFUSED, REFUSED + "                index -= 1\n"),
    ("a refused step prints H lines", REFUSED, REFUSED + '                lines += ["H 0 %s %s %s 0" % ((bits(0.0),) * 3)] * len(tank.heaters)\n'),
    ("a refused step prints no layers", REFUSED, REFUSED.splitlines(True)[0]),
    ("a refused step ends the job", REFUSED, REFUSED + "                return lines\n"),
    ("a refused step keeps its events' layers", "    average = layers[-1] if wide", "    tank.layers = layers\n    average = layers[-1] if wide"),
    ("a refused step keeps its turns' flags", "flags = list(tank.flags)", "flags = tank.flags"),
    ("H lines in file order", "zip(working_order(tank), turns)", "sorted(zip(working_order(tank), turns), key=lambda pair: pair[0])"),
    ("hexadecimal digits in capitals", 'struct.pack(">d", x).hex()', 'struct.pack(">d", x).hex().upper()'),
    ("layers from the top", "[bits(x) for x in tank.layers]", "[bits(x) for x in reversed(tank.layers)]"),
]
