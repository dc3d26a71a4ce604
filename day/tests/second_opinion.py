"""What history must print for a job, by document 01 written in Python (compare/model.py).

As a command it reads a job and prints the lines: python3 day/tests/second_opinion.py < JOB
"""

import os
import struct
import sys

ROOT = os.path.dirname(os.path.dirname(os.path.dirname(os.path.abspath(__file__))))
sys.path.insert(0, os.path.join(ROOT, "compare"))

import model  # noqa: E402


def bits(value):
    """As the programs print: one pattern for every not-a-number."""
    if value is None:
        return "-"
    return "7ff8000000000000" if value != value else struct.pack(">d", value).hex()


def at_or_under(temperature, lower):
    """01's narrow-close, or below."""
    return temperature < lower or model.narrow(temperature, lower)


def reached(temperature, upper):
    return temperature > upper or model.narrow(temperature, upper)


def turn_line(tank, heater, flag, layers, points, done):
    """`done` is what the turn came to, or None where its mixing was refused: the turn then ended where it began."""
    lower, upper = points
    ran = flag
    layer = model.layer_of(model.thermostat_place(heater), tank.count)
    if upper is None:
        ran = False
    elif lower is not None and at_or_under(layers[layer], lower):
        ran = True
    number = next(i for i, other in enumerate(tank.heaters) if other is heater)
    end, flag, supplied, rounds = layers[layer], ran, float("nan"), 0
    if done is not None:
        end, flag, supplied, rounds = done.layers[layer], done.flag, done.supplied, done.rounds
    words = [bits(layers[layer]), bits(end), bits(lower), bits(upper), "%d" % ran, "%d" % flag, bits(supplied)]
    return " ".join(["T %d" % number] + words + ["%d" % rounds])


def history_lines(job):
    """The model's own turns, noted as it works them."""
    noted, steps = [], []
    turn, run_step = model.turn, model.run_step

    def noting_turn(tank, heater, flag, begin, points, charged):
        layers = list(begin)
        try:
            done = turn(tank, heater, flag, begin, points, charged)
        except model.Refusal:
            noted.append(turn_line(tank, heater, flag, layers, points, None))
            raise
        noted.append(turn_line(tank, heater, flag, layers, points, done))
        return done

    def noting_step(tank, step):
        noted.clear()
        try:
            return run_step(tank, step)
        finally:
            steps.append(list(noted))

    model.turn, model.run_step = noting_turn, noting_step
    try:
        lines = model.job_lines(job)
    finally:
        model.turn, model.run_step = turn, run_step
    out, index = [], 0
    for line in lines:
        if line.startswith("S "):
            out.append(" ".join(line.split(" ")[:3]))
            out += steps[index]
            index += 1
        elif line.startswith("E "):
            out.append(line)
    return out


if __name__ == "__main__":
    for printed in history_lines(sys.stdin.buffer.read()):
        print(printed)
