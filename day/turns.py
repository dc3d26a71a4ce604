"""The lines that the program history prints, as numbers. This is the only place that knows their form.

    S index number                                            before the turns of each step; number 0: accepted
    T heater begin end lower upper ran flag supplied rounds   a turn, in working order, refused steps as far as they got
    E number offset                                           a refusal outside a step

`heater` is its place in the file; `begin` and `end` are the temperature of its thermostat layer where its turn began
and where it ended; a set point that is not there is `-`; `ran` is the flag after the switch-on, `flag` that at the
turn's end; `rounds` are those of its mixing, and 0 where that was refused: the turn then ended where it began, and
supplied nothing that can be told (not-a-number). Doubles are 16 hexadecimal digits of their bits.
"""

from collections import namedtuple

import progress
from report import WrongOutput, check_steps, double

Turn = namedtuple("Turn", "heater begin end lower upper ran flag supplied rounds")
StepTurns = namedtuple("StepTurns", "index number turns")
History = namedtuple("History", "steps ended")


def set_point(word):
    return None if word == "-" else double(word)


def bit(word):
    return {"0": False, "1": True}[word]


def read_turn(parts):
    heater, begin, end, lower, upper, ran, flag, supplied, rounds = parts
    points = (set_point(lower), set_point(upper))
    return Turn(int(heater), double(begin), double(end), *points, bit(ran), bit(flag), double(supplied), int(rounds))


def read_line(line, steps):
    """Adds to the steps what a line says; the answer is what a line `E` says."""
    kind, *parts = line.split(" ")
    if kind == "S":
        index, number = map(int, parts)
        steps.append(StepTurns(index, number, []))
    elif kind == "T":
        steps[-1].turns.append(read_turn(parts))
    elif kind == "E":
        number, offset = map(int, parts)
        return number, offset
    else:
        raise ValueError(kind)
    return None


def read_history(lines):
    steps, ended = [], None
    for at, line in enumerate(lines):
        progress.at(at)
        try:
            if ended:
                raise ValueError(line)
            ended = read_line(line, steps)
        except (ValueError, IndexError, KeyError):
            raise WrongOutput("history: a line that cannot be read: '%s'" % line) from None
    return History(steps, ended)


def check_history(history, day):
    """An accepted step has a turn of each heater."""
    check_steps(history, day, "history")
    for step in history.steps:
        if step.number == 0 and sorted(turn.heater for turn in step.turns) != list(range(len(day.heaters))):
            raise WrongOutput("history failed: step %d of %d is not whole" % (step.index, len(day.steps)))
