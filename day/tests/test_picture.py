"""The picture: it fits a screen, its marks are where the figures say, a colour is one temperature in all of them."""

import unittest
import xml.etree.ElementTree as ElementTree

from drawn_days import drawn, made_up, outcome, random_day
import picture
from picture.frame import LEFT, RIGHT
from read_picture import SVG, brightness, cells, colour_scale, contrast, numbers, of_class, path_places, places
from read_picture import shared, steps_in, texts, word_boxes


# Layers, heaters, steps, step length.
SHAPES = [(1, 0, 1, 1.0), (1, 1, 3, 0.5), (2, 3, 30, 0.25), (4, 2, 48, 1.0), (7, 8, 60, 1.0), (32, 8, 200, 0.1)]
SHAPES += [(32, 0, 2000, 0.25), (4, 1, 1500, 1.0), (5, 2, 40, 1e-9), (3, 1, 20, 1e6)]
# A day, a week, a month and a year of half hours.
SIZES = [(layers, heaters, steps) for steps in (48, 336, 1488) for layers in (4, 32) for heaters in (1, 8)]
SIZES += [(8, 8, 336), (32, 8, 17520)]


class Checks(unittest.TestCase):
    def check_words(self, root):
        width, height = map(float, root.get("viewBox").split()[2:])
        boxes = word_boxes(root)
        for index, (box, text) in enumerate(boxes):
            self.assertTrue(box[0] >= 0 and box[1] >= 0 and box[2] <= width and box[3] <= height, "outside: %s" % text)
            for other, beside in boxes[:index]:
                apart = box[0] >= other[2] or other[0] >= box[2] or box[1] >= other[3] or other[1] >= box[3]
                self.assertTrue(apart, "'%s' lies on '%s'" % (text, beside))

    def check_flags(self, root, result, heaters):
        """A bar where the flag is on after a step; over a refused step the bar goes on as it was. In a column that
        steps share, a whole bar if all have it, a low one if some."""
        columns = shared(root, len(result.steps))
        for heater in range(heaters):
            on, flag = set(), False
            for step in result.steps:
                flag = step.heaters[heater].flag if not step.number else flag
                on |= {step.index} if flag else set()
            bars = [part for part in of_class(root, "flag") if part.get("data-heater") == "%d" % heater]
            low = {step for part in bars if of_class(part, "some") for step in steps_in(part)}
            whole = {step for part in bars if not of_class(part, "some") for step in steps_in(part)}
            self.assertEqual(whole, {step for steps in columns if on >= set(steps) for step in steps})
            self.assertEqual(low | whole, {step for steps in columns if on & set(steps) for step in steps})
            self.assertEqual(low & whole, set())
            heights = {bool(of_class(part, "some")): float(part.get("height")) for part in bars}
            if len(heights) == 2:
                self.assertLess(heights[True], 0.6 * heights[False])
            warm = {step.index for step in result.steps if not step.number and step.heaters[heater].supplied > 0}
            lines = [part for part in of_class(root, "supplied") if part.get("data-heater") == "%d" % heater]
            told = {step for part in lines for step in steps_in(part)}
            self.assertEqual(told, {step for steps in columns if warm & set(steps) for step in steps})
            for part in bars + lines:
                self.check_place(part, columns)

    def check_place(self, part, columns):
        """A mark stands over the columns of the steps that it is said to be of."""
        steps, count = steps_in(part), columns[-1][-1] + 1
        x, width = numbers(part, "x", "width")
        self.assertAlmostEqual(x, LEFT + (RIGHT - LEFT) * min(steps) / count, delta=0.11)
        self.assertAlmostEqual(x + width, LEFT + (RIGHT - LEFT) * (max(steps) + 1) / count, delta=1.6)

    def check_refused(self, root, result):
        """Hatched where all steps of a column were refused, a small mark above the tank where some were."""
        refused = {step.index for step in result.steps if step.number}
        columns = shared(root, len(result.steps))
        marks = of_class(root, "refused")
        small = [step for part in marks if of_class(part, "some") for step in steps_in(part)]
        hatched = [step for part in marks if not of_class(part, "some") for step in steps_in(part)]
        self.assertEqual(sorted(hatched), [step for steps in columns if refused >= set(steps) for step in steps])
        touched = [step for steps in columns if refused & set(steps) for step in steps]
        self.assertEqual(sorted(small + hatched), touched)
        for part in marks:
            self.check_place(part, columns)
            numbers_met = {result.steps[step].number for step in steps_in(part)} - {0}
            self.assertEqual(part.get("data-number"), " ".join("%d" % number for number in sorted(numbers_met)))
            self.assertEqual(part.get("fill").startswith("url(#"), not of_class(part, "some"))


# Each refusal that a step of a job can have.
STEP_REFUSALS = (6, 7, 8, 9, 10, 12, 13)


class Fits(Checks):
    def test_every_shape(self):
        for seed, (layers, heaters, steps, length) in enumerate(SHAPES):
            with self.subTest(layers=layers, heaters=heaters, steps=steps, length=length):
                day = random_day(seed, layers, heaters, steps, length)
                result, history = outcome(day)
                root = drawn(day, result, history)
                self.assertEqual(len(result.steps), steps)
                self.check_flags(root, result, heaters)
                self.check_refused(root, result)
                self.check_words(root)

    def test_a_screen_shows_all_of_it(self):
        """1300 x 640 is what a laptop's browser has for a page."""
        for seed, (layers, heaters, steps) in enumerate(SIZES):
            with self.subTest(layers=layers, heaters=heaters, steps=steps):
                day, result, history = made_up(seed, layers, heaters, steps)
                text = picture.picture(day, result, history, "A day")
                # Figures from nowhere are the worst case: no two steps are alike.
                self.assertLess(len(text), 2000000)
                self.check_fits(ElementTree.fromstring(text), heaters)

    def test_the_fullest_pictures_fit(self):
        """Each refusal that a step can have, in words, and why the job ended: the foot takes height from the panels."""
        for layers, heaters, steps in ((8, 8, 336), (8, 8, 1488), (32, 8, 100)):
            with self.subTest(layers=layers, heaters=heaters, steps=steps):
                day, result, history = made_up(1, layers, heaters, steps, refused=0.3, kinds=STEP_REFUSALS)
                root = drawn(day, result._replace(ended=(11, 99999)), history)
                self.check_fits(root, heaters)
                for begin in ["refused %d: " % number for number in STEP_REFUSALS] + ["The job ended at "]:
                    self.assertTrue(any(text.startswith(begin) for text in texts(root)), begin)

    def check_fits(self, root, heaters):
        width, height = numbers(root, "width", "height")
        self.assertTrue(width <= 1300 and height <= 640, (width, height))
        self.assertEqual(list(map(float, root.get("viewBox").split())), [0, 0, width, height])
        self.check_words(root)
        self.assertGreaterEqual(min(float(part.get("font-size")) for part in root.iter(SVG + "text")), 11)
        xs, ys = zip(*places(root))
        self.assertTrue(min(xs) >= 0 and max(xs) <= width and min(ys) >= 0 and max(ys) <= height)
        self.check_rows(root, heaters)

    def check_rows(self, root, heaters):
        """A row of flags for each heater, one under the other, between the draws and the words of the axis."""
        rows = []
        for heater in range(heaters):
            self.assertIn("flag h%d" % heater, texts(root))
            bars = [part for part in of_class(root, "flag") if part.get("data-heater") == "%d" % heater]
            tops = [float(part.get("y")) for part in bars]
            ends = [float(part.get("y")) + float(part.get("height")) for part in bars]
            self.assertGreaterEqual(max(ends) - min(tops), 4)
            rows.append((min(tops), max(ends)))
        axis = min(float(part.get("y")) - 12 for part in of_class(root, "hour"))
        draws = max(float(part.get("y")) for part in of_class(root, "litres")) - 4
        edges = [draws] + [edge for row in rows for edge in row] + [axis]
        self.assertEqual(edges, sorted(edges))

    def test_marks_of_long_days_are_honest(self):
        """Of a month and of a year, where steps share columns, and of days that do not begin with a column."""
        cases = [(1488, 0.5, 2), (17520, 0.5, 48), (3001, 0.7, 4), (960, 0.5, 1)]
        for seed, (steps, length, share) in enumerate(cases):
            with self.subTest(steps=steps, length=length):
                day, result, history = made_up(seed, 3, 2, steps, length, high=95.0, refused=0.3)
                root = drawn(day, result, history)
                self.check_words(root)
                columns = shared(root, steps)
                self.assertEqual(len(columns[0]), share)
                self.check_flags(root, result, 2)
                self.check_refused(root, result)
                told = any("a mark above the tank: some were refused" in text for text in texts(root))
                self.assertEqual(told, share > 1)


class Shows(Checks):
    def colours(self, day, result, root):
        """What each temperature looks like: (temperature, colour) of every column's coldest, or warmest above 90."""
        layers, boxes = day.tank.layers, cells(root)
        rows = sorted({row for _, _, row, _ in boxes}, reverse=True)
        self.assertEqual(len(rows), layers)
        columns = shared(root, len(result.steps))
        for left, right, row, colour in boxes:
            part = len(result.steps) / (RIGHT - LEFT)
            for steps in columns:
                if left - 0.1 <= LEFT + steps[0] / part and LEFT + (steps[-1] + 1) / part <= right + 0.1:
                    values = [result.steps[step].layers[rows.index(row)] for step in steps]
                    yield (max(values) if max(values) > 90 else min(values)), colour

    def test_a_colour_is_one_temperature(self):
        """In days of other temperatures, and in one whose columns steps share, each colour is that of the scale."""
        scales, sizes, seen = [], set(), 0
        cases = [(5, 95, 40), (49, 51, 40), (-30, 20, 40), (80, 200, 40), (-5, 95, 2000)]
        for seed, (low, high, steps) in enumerate(cases):
            day, result, history = made_up(seed, 4, 1, steps, low=low, high=high)
            result.steps[0].layers[:] = [0.0, 90.0, -1e-9, 90.000001]
            root = drawn(day, result, history)
            scale = colour_scale(root)
            scales.append(scale)
            sizes.add(tuple(sum(float(part.get(name)) for part in of_class(root, "scale")) for name in ("y", "height")))
            told = [part.text for part in of_class(root, "shared") if "coldest (or above 90)" in part.text]
            self.assertEqual(len(told), 1 if steps == 2000 else 0)
            for temperature, colour in self.colours(day, result, root):
                end = "url(#below)" if temperature < 0 else "url(#above)" if temperature > 90 else None
                self.assertEqual(colour, end or scale[min(int(temperature), 89)], temperature)
                seen += 1
        self.assertEqual(seen, 4 * 4 * 40 + 4 * 667)
        self.assertEqual(len(sizes), 1)
        self.assertEqual(sorted(scales[0]), list(range(90)))
        self.assertEqual(len(set(scales[0].values())), 90)
        for scale in scales:
            self.assertEqual(scale, scales[0])

    def test_the_scale_has_numbers_and_two_ends(self):
        root = drawn(*made_up(1, 4, 8, 48))
        told = [part.text for part in of_class(root, "scale-number")]
        self.assertEqual(told, ["%d" % degree for degree in range(0, 91, 10)])
        ends = [(part.get("fill"), float(part.get("y"))) for part in of_class(root, "end")]
        boxes = [float(part.get("y")) for part in of_class(root, "scale")]
        self.assertEqual([fill for fill, _ in ends], ["url(#above)", "url(#below)"])
        self.assertTrue(ends[0][1] < min(boxes) and max(boxes) < ends[1][1])
        self.assertTrue({"above", "below", "°C"} <= set(texts(root)))
        patterns = {part.get("id"): part for part in root.iter(SVG + "pattern")}
        for name in ("above", "below"):
            fills = {part.get("fill") for part in patterns[name]}
            self.assertEqual(fills, {"#000000", "#ffffff"})
        self.assertNotEqual(patterns["above"][0].get("fill"), patterns["below"][0].get("fill"))

    def test_print_without_hue(self):
        """Hot is brighter than cold, hatches have a dark and a white line, and what is drawn stands out from white."""
        root = drawn(*made_up(1, 4, 8, 48, refused=0.2))
        scale = colour_scale(root)
        bright = [brightness(scale[degree]) for degree in range(90)]
        self.assertEqual(bright, sorted(bright))
        self.assertGreater(bright[-1], 20 * bright[0])
        for part in root.iter(SVG + "pattern"):
            if part.get("id") in ("hatch", "narrow"):
                used = {piece.get("stroke") or piece.get("fill") for piece in part}
                self.assertTrue("#ffffff" in used and max(map(contrast, used)) > 7, part.get("id"))
        for part in of_class(root, "layer") + of_class(root, "upper"):
            self.assertGreaterEqual(contrast(part.get("stroke")), 3)
        for part in of_class(root, "flag") + of_class(root, "draw"):
            self.assertGreaterEqual(contrast(part.get("fill")), 3)
        for part in root.iter(SVG + "text"):
            self.assertGreaterEqual(contrast(part.get("fill")), 4.5)

    def read_temperature(self, root):
        """As a reader does: the ticks beside the panel say which height is which temperature."""
        # The words of a tick stand 4 below its line.
        ticks = [(float(part.get("y")) - 4, float(part.text)) for part in of_class(root, "degrees")]
        (y0, t0), (y1, t1) = ticks[0], ticks[-1]
        return lambda y: t0 + (y - y0) * (t1 - t0) / (y1 - y0), abs((t1 - t0) / (y1 - y0))

    def test_lines_are_at_their_temperatures(self):
        day = random_day(77, 4, 2, 24)
        result, history = outcome(day)
        root = drawn(day, result, history)
        temperature, pixel = self.read_temperature(root)
        lines = of_class(root, "layer")
        self.assertEqual(len(lines), 4)
        for layer, line in enumerate(lines):
            read = [temperature(float(point.split(",")[1])) for point in line.get("points").split()]
            values = [55.0] + [step.layers[layer] for step in result.steps]
            self.assertEqual(len(read), len(values))
            for shown, value in zip(read, values):
                self.assertAlmostEqual(shown, value, delta=0.06 * pixel)
        began = {}
        for part in of_class(root, "begin"):
            began[int(part.get("data-step")), int(part.get("data-heater"))] = float(part.get("cy"))
        accepted = [step for step in history.steps if not step.number]
        told = {(step.index, turn.heater): turn.begin for step in accepted for turn in step.turns}
        self.assertEqual(set(began), set(told))
        for key, y in began.items():
            self.assertAlmostEqual(temperature(y), told[key], delta=0.06 * pixel)

    def test_lines_of_shared_columns_are_the_coldest_and_the_warmest(self):
        day, result, history = made_up(5, 3, 1, 1488)
        root = drawn(day, result, history)
        temperature, pixel = self.read_temperature(root)
        lines = of_class(root, "layer")
        told = "bands show a layer's coldest, lines its coldest and its warmest"
        self.assertIn(told, of_class(root, "shared")[0].text)
        picked = [(layer, pick) for layer in range(3) for pick in (min, max)]
        self.assertEqual(len(lines), len(picked))
        for line, (layer, pick) in zip(lines, picked):
            read = [temperature(float(point.split(",")[1])) for point in line.get("points").split()][1:]
            values = [pick(result.steps[step].layers[layer] for step in steps) for steps in shared(root, 1488)]
            self.assertEqual(len(read), len(values))
            for shown, value in zip(read, values):
                self.assertAlmostEqual(shown, value, delta=0.06 * pixel)

    def test_set_points_are_at_their_temperatures(self):
        """Each step's; of a column that steps share the least and the greatest; none of refused steps."""
        for seed, steps in enumerate((24, 120, 1488)):
            day, result, history = made_up(seed, 2, 2, steps, refused=0.2)
            root = drawn(day, result, history)
            temperature, pixel = self.read_temperature(root)
            for heater in range(2):
                for place, name in enumerate(("lower", "upper")):
                    (path,) = [part for part in of_class(root, name) if part.get("data-heater") == "%d" % heater]
                    self.assertEqual(bool(path.get("stroke-dasharray")), name == "lower")
                    read = [list(path_places("M" + piece)) for piece in path.get("d").split("M")[1:]]
                    for column in shared(root, steps):
                        accepted = [step for step in column if not result.steps[step].number]
                        asked = [day.steps[step].points[heater][place] for step in accepted]
                        middle = LEFT + (RIGHT - LEFT) * (column[0] + column[-1] + 1) / 2 / steps
                        met = sorted(temperature(y) for (left, y), (right, _) in read if left < middle < right)
                        expected = sorted({min(asked), max(asked)}) if asked else []
                        self.assertEqual(len(met), len(expected))
                        for shown, value in zip(met, expected):
                            self.assertAlmostEqual(shown, value, delta=0.06 * pixel)

    def test_draws_are_as_high_as_their_litres(self):
        """Solid for accepted steps, hollow for refused ones; a column that steps share has all of theirs."""
        for seed, steps in enumerate((24, 200, 1488)):
            day, result, history = made_up(seed, 2, 1, steps, refused=0.4)
            root = drawn(day, result, history)
            (y0, l0), *_, (y1, l1) = [(float(part.get("y")) - 4, float(part.text)) for part in of_class(root, "litres")]
            columns, read = shared(root, steps), {}
            for name in ("draw", "refused-draw"):
                for piece in of_class(root, name)[0].get("d").split("M")[1:]:
                    xs, ys = zip(*path_places("M" + piece))
                    index = int(((min(xs) + max(xs)) / 2 - LEFT) / (RIGHT - LEFT) * steps / len(columns[0]))
                    read[index, name] = (max(ys) - min(ys)) * (l1 - l0) / (y0 - y1)
            expected = {}
            for index, column in enumerate(columns):
                for name, refused in (("draw", False), ("refused-draw", True)):
                    some = [sum(day.steps[s].volumes) for s in column if bool(result.steps[s].number) == refused]
                    if sum(some):
                        expected[index, name] = sum(some)
            self.assertEqual(set(read), set(expected))
            for key, litres in expected.items():
                self.assertAlmostEqual(read[key], litres, delta=0.11 * (l1 - l0) / (y0 - y1))
            apart = sum(piece.count("M") for piece in [part.get("d") for part in of_class(root, "apart")])
            self.assertEqual(apart, len(expected) if steps == 24 else 0)

    def test_circles_or_a_bold_layer(self):
        """250 circles are shown; more are left out: that is said, and the lines of the thermostats' layers are bold."""
        for steps in (125, 126, 1488):
            day, result, history = made_up(9, 12, 2, steps, refused=0)
            root = drawn(day, result, history)
            shown, bold = of_class(root, "begin"), of_class(root, "thermostat")
            note = "%d circles are left out:" % (2 * steps)
            if steps == 125:
                self.assertEqual((len(shown), bold), (250, []))
                self.assertIn("thermostat layer as", texts(root))
                self.assertFalse(any("left out" in text for text in texts(root)))
                continue
            self.assertEqual(shown, [])
            self.assertTrue({note, "thermostat layer, bold;"} <= set(texts(root)))
            layers = sorted({int(heater.thermostat * 12) for heater in day.heaters})
            self.assertEqual(sorted({int(part.get("data-layer")) for part in bold}), layers)
            lines = {part.get("points"): part for part in of_class(root, "layer")}
            thickest = max(float(part.get("stroke-width")) for part in lines.values())
            self.assertEqual(len(bold), len(layers) * (1 if steps == 126 else 2))
            for part in bold:
                self.assertIn(part.get("points"), lines)
                self.assertGreaterEqual(float(part.get("stroke-width")), 2 * thickest)
            if steps == 126:
                order = [part.get("points") for part in of_class(root, "layer")]
                self.assertEqual([order.index(part.get("points")) for part in bold], layers)
            else:
                self.assertIn("lines: top, bottom, thermostats", texts(root))

    def test_clock_times(self):
        """Where a day is a whole number of steps; the axis says from when it counts."""
        cases = [
            (24, 1.0, {"06:00": 6, "24:00": 24}, "clock time; step 0 begins at 00:00"),
            (29, 3.0, {"day 3": 72, "12:00": 84}, "clock time; step 0 begins at 00:00 of day 0"),
            (336, 0.5, {"day 6": 144, "24:00": 168}, "clock time; step 0 begins at 00:00 of day 0"),
            (30, 1 / 6, {"00:30": 0.5, "04:30": 4.5}, "clock time; step 0 begins at 00:00"),
            (12, 1 / 60, {"00:05": 1 / 12}, "clock time; step 0 begins at 00:00"),
            (1488, 0.5, {"day 3": 72, "day 30": 720}, "days; step 0 begins at 00:00 of day 0"),
            (17520, 0.5, {"day 30": 720, "day 360": 8640}, "days; step 0 begins at 00:00 of day 0"),
            (700, 24.0, {"day 500": 12000}, "days; step 0 begins at 00:00 of day 0"),
            (24, 0.7, {"6": 6}, "hours from the begin of step 0"),
            (24, 25.0, {"240": 240}, "hours from the begin of step 0"),
            (20, 1e-9, {"1e-08": 1e-8}, "hours from the begin of step 0"),
        ]
        for steps, length, expected, name in cases:
            with self.subTest(steps=steps, length=length):
                root = drawn(*made_up(1, 2, 1, steps, length))
                self.assertIn(name, texts(root))
                found = {}
                for part in of_class(root, "hour"):
                    found.setdefault(part.text, []).append(float(part.get("x")))
                for text, hours in expected.items():
                    x = LEFT + (RIGHT - LEFT) * hours / (steps * length)
                    self.assertAlmostEqual(found[text][-1], x, delta=0.1)

    def test_title_axes_units_and_legend(self):
        day = random_day(3, 4, 2, 24, refused=0.2)
        root = drawn(day, *outcome(day), "Monday & <Tuesday>")
        axes = ["clock time; step 0 begins at 00:00", "temperature, °C", "draws, l", "tank", "00:00", "24:00"]
        key = ["flag h0", "flag h1", "layers", "set points", "top", "bottom", "heater", "thermostat", "upper", "lower"]
        self.assertEqual(set(["Monday & <Tuesday>"] + axes + key) - set(texts(root)), set())
        self.assertTrue(any(text.startswith("refused 7: The feed temperature") for text in texts(root)))

    def test_extreme_numbers(self):
        for steps in (5, 1500):
            day = random_day(4, 3, 1, 5)
            day.tank = day.tank._replace(initial=-1e307)
            day.steps = [step._replace(volumes=[1.7e308], points=[(-1.7e308, 1.7e308)]) for step in day.steps]
            day.steps *= steps // 5
            root = drawn(day, *outcome(day))
            self.assertEqual(len(of_class(root, "layer")), 3 if steps == 5 else 6)
            for part in root.iter():
                for value in part.attrib.values():
                    self.assertNotRegex(value, "nan|inf")


if __name__ == "__main__":
    unittest.main()
