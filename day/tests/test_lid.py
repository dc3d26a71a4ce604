"""Heaters and thermostats in the lid (position 1; 02, R-2): they are in the top layer, in the table, in the reasons and in the picture."""

import unittest
from xml.etree import ElementTree

from common import at_once, tank, told
from picture import temperatures
from read_picture import SVG, numbers

# A heater at a place, and one below it whose thermostat is there.
DAY = (
    "heater rated power 3 kW, position %s of height\n"
    "heater rated power 2 kW, position 0.1 of height, thermostat %s of height\n"
    "step feed 10 C, draws 40 litres, heater 0 lower 50 C upper 60 C, heater 1 lower 52 C upper 60 C\n"
    "step feed 10 C, draws 90 litres, heater 0 lower 50 C upper 60 C, heater 1 lower 52 C upper 60 C\n"
    "step feed 10 C, heater 0 lower 50 C upper 60 C, heater 1 lower 52 C upper 60 C\n"
)
JUST_ABOVE = "1.0000000000000002"


def with_places(layers, place):
    return tank(layers) + DAY % (place, place)


class Lid(unittest.TestCase):
    def test_one_is_in_the_top_layer(self):
        for layers in (1, 2, 4, 32):
            _, _, lines = told(with_places(layers, "1"))
            self.assertEqual([line.split()[2] for line in lines if line.startswith("S")], ["0"] * 3, layers)
            self.assertEqual(lines, told(with_places(layers, "0.999"))[2], layers)
        self.assertNotEqual(told(with_places(4, "1"))[2], told(with_places(4, "0.7"))[2])

    def test_the_reasons_are_those_of_the_top_layer(self):
        """In step 0 the top layer stays warm; step 1 draws until it is cold."""
        reasons = [at_once("why", "-", "--step", "1", given=with_places(4, place).encode()).stdout for place in ("1", "0.999", "0.4")]
        self.assertIn(b"h1 is on. It came on in step 1 (01:00): its turn began", b" ".join(reasons[0].split()))
        self.assertEqual(reasons[0], reasons[1])
        self.assertNotEqual(reasons[0], reasons[2])

    def test_the_picture_has_it_in_the_top_layer(self):
        day, _, _ = told(with_places(4, "1"))
        self.assertEqual(temperatures.thermostat_layers(day), {3: [0, 1]})

    def test_a_name_stands_clear_of_what_sits_in_the_lid(self):
        """The first heater's square is there, and the second one's circle."""
        heights = {}
        for place in ("1", "0.5"):
            drawn = at_once("draw", "-", given=with_places(4, place).encode()).stdout.decode()
            root = ElementTree.fromstring(drawn)
            squares = [part for part in root.iter(SVG + "rect") if numbers(part, "width", "height") == [12.0, 12.0]]
            names = {part.text: part for part in root.iter(SVG + "text")}
            heights[place] = numbers(squares[0], "y") + numbers(names["h0"], "y") + numbers(names["h1"], "y")
        square = heights["1"][0]
        lid = square + 6
        self.assertEqual(heights["1"][1:], [square - 3, square - 3])
        self.assertEqual(heights["0.5"][1:], [lid - 6, lid - 6])

    def test_above_one_is_refused(self):
        for place in ("position %s of height", "position 0 of height, thermostat %s of height"):
            heater = "heater rated power 1 kW, %s\n" % (place % JUST_ABOVE)
            shown = at_once("run", "-", given=(tank(4) + heater).encode())
            self.assertIn("refusal 5", " ".join(shown.stdout.decode().split()), heater)
