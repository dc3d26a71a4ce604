"""The layers as lines over a scale of temperatures, with each heater's set points and what its switch-on looked at."""

from picture.frame import axis_name, frame_box, y_ticks
from picture.svg import HEATERS, HEIGHTS, INK
from picture.svg import blend, clamped, element, place, runs, ticks

MANY_LAYERS = 8  # where more layers than these are drawn over shared columns, lines would be one blot


def limits(frame):
    """The least and the greatest temperature that the panel shows, with some room."""
    shown = [frame.day.tank.initial]
    for step, asked, told in zip(frame.report.steps, frame.day.steps, frame.history.steps):
        shown += [min(step.layers), max(step.layers)]
        if step.totals:
            shown += [point for pair in asked.points for point in pair if point is not None]
            shown += [turn.begin for turn in told.turns]
    low, high = min(shown), max(shown)
    room = (high / 2 - low / 2) * 0.1
    return clamped(low - room), clamped(high + room)


# Set points


def points_width(index, heaters):
    """Later heaters are thinner, so that set points that lie on one another all show."""
    return max(1.5, 2.2 + 1.2 * (min(heaters, 4) - 1 - index))


def columns_points(frame, heater):
    """For each column the lower and the upper set points of its accepted steps: the least and the greatest of each."""
    out = []
    steps = [None if refused else step.points[heater] for step, refused in zip(frame.day.steps, frame.refused)]
    for some in frame.columns(steps):
        lower = [pair[0] for pair in some if pair and pair[0] is not None]
        upper = [pair[1] for pair in some if pair and pair[1] is not None]
        out.append(tuple((min(values), max(values)) if values else () for values in (lower, upper)))
    return out


def set_points(frame, scale):
    """The upper one drawn through, the lower one dashed, and what is between them shaded; none in refused steps."""
    out = []
    for heater in range(len(frame.day.heaters)):
        between, lines = [], {"lower": [], "upper": []}
        for first, last, (lower, upper) in runs(columns_points(frame, heater)):
            x, width = frame.span(first, last)
            for name, values in (("lower", lower), ("upper", upper)):
                lines[name] += ["M%s %sh%s" % (place(x), place(scale(v)), place(width)) for v in sorted(set(values))]
            if lower and upper:
                corners = tuple(map(place, (x, scale(upper[1]), width, scale(lower[0]), width)))
                between.append("M%s %sh%sV%sh-%sz" % corners)
        colour = HEATERS[heater % len(HEATERS)]
        stroke = dict(fill="none", stroke=colour, stroke_width=points_width(heater, len(frame.day.heaters)))
        if between:
            faint = "%.2f" % (0.12 if len(frame.day.heaters) <= 2 else 0.04)
            out.append(element("path", d="".join(between), fill=colour, fill_opacity=faint, class_="between"))
        for name, dashes in (("lower", "7 5"), ("upper", None)):
            if lines[name]:
                path = "".join(lines[name])
                out.append(element("path", d=path, stroke_dasharray=dashes, class_=name, data_heater=heater, **stroke))
    return out


# What a switch-on looked at


def circle(x, y, size, colour, **attributes):
    shape = dict(cx=float(x), cy=float(y), r=size, fill="#ffffff", stroke=colour, stroke_width=2)
    return element("circle", **shape, **attributes)


def begins(frame, scale):
    """What each heater's switch-on looked at: its thermostat layer as its turn began, after the draws."""
    out = []
    size = 4.5 if frame.count <= 60 else 3.0
    for step in frame.history.steps if frame.begins_shown else []:
        x, width = frame.span(step.index, step.index)
        for turn in step.turns if not step.number else []:
            marks = dict(class_="begin", data_heater=turn.heater, data_step=step.index)
            colour = HEATERS[turn.heater % len(HEATERS)]
            out.append(circle(x + 0.35 * width, scale(turn.begin), size, colour, **marks))
    return out


def thermostat_layers(day):
    """The heaters that look at a layer, by layer (01, Tank: position times layers, cut to a whole number; 1 is the top, 02, R-2)."""
    found = {}
    for index, heater in enumerate(day.heaters):
        position = heater.position if heater.thermostat is None else heater.thermostat
        found.setdefault(min(int(position * day.tank.layers), day.tank.layers - 1), []).append(index)
    return found


# Layers


def layer_colour(layer, layers):
    return blend(HEIGHTS, layer / (layers - 1) if layers > 1 else 1.0)


def chosen(frame):
    """The layers that have a line: all, or the bottom, the top and those of thermostats."""
    layers = frame.day.tank.layers
    if frame.share == 1 or layers <= MANY_LAYERS:
        return list(range(layers))
    return sorted({0, layers - 1} | set(thermostat_layers(frame.day)))


def layer_points(frame, layer, scale):
    """Through what each step left, at its end; where steps share a column, one line through coldest, one warmest."""
    values = [step.layers[layer] for step in frame.report.steps]
    columns = frame.columns(values)
    out = []
    for pick in (min, max) if frame.share > 1 else (max,):
        line = zip(frame.edges, [frame.day.tank.initial] + [pick(some) for some in columns])
        out.append([(place(x), place(scale(value))) for x, value in line])
    return out


def thickness(frame, layer):
    """Lower layers are thicker, so that lines that lie on one another all show; all thin where some are to be bold."""
    layers = frame.day.tank.layers
    bold = frame.day.heaters and not frame.begins_shown
    return 1.4 if layers > 6 or frame.share > 1 or bold else 2.2 + 0.9 * (layers - 1 - layer)


def layer_lines(frame, scale):
    layers, out, points = frame.day.tank.layers, [], {}
    for layer in chosen(frame):
        thick = thickness(frame, layer)
        points[layer] = layer_points(frame, layer, scale)
        stroke = dict(fill="none", stroke=layer_colour(layer, layers), stroke_linejoin="round")
        for line in points[layer]:
            out.append(element("polyline", points=joined(line), stroke_width=thick, class_="layer", **stroke))
        if frame.count <= 60 and layers <= 8:
            dots = "".join("M%s %sh0" % point for point in points[layer][0])
            out.append(element("path", d=dots, stroke_width=thick + 3.0, stroke_linecap="round", **stroke))
    return out if frame.begins_shown else out + bold_lines(frame, points)


def joined(line):
    return " ".join("%s,%s" % point for point in line)


def bold_lines(frame, points):
    """Without circles, the layers that thermostats look at: black, with a core in the colours of their heaters."""
    out = []
    thick, core = (5, 2.6) if frame.count <= 60 else (4, 2) if frame.share == 1 else (3, 1.5)
    for layer, heaters in sorted(thermostat_layers(frame.day).items()):
        for line in points[layer]:
            shape = dict(points=joined(line), fill="none", stroke_linejoin="round")
            marks = dict(class_="thermostat", data_layer=layer)
            out.append(element("polyline", stroke=INK, stroke_width=thick, **marks, **shape))
            for turn, heater in enumerate(heaters):
                dashes = "14 %d" % (14 * (len(heaters) - 1)) if len(heaters) > 1 else None
                part = dict(stroke_dasharray=dashes, stroke_dashoffset=-14 * turn if dashes else None)
                colour = HEATERS[heater % len(HEATERS)]
                out.append(element("polyline", stroke=colour, stroke_width=core, **part, **shape))
    return out


def temperatures(frame, top, height, scale):
    values = ticks(scale.low, scale.high, max(3, int(height / 28)))
    out = y_ticks(scale, values, "degrees") + set_points(frame, scale)
    out += layer_lines(frame, scale) + begins(frame, scale)
    return out + [frame_box(top, height), axis_name("temperature, °C", top, height)]
