"""Why a heater's flag is on or off: what it remembers (demand 3), read from the turns that history prints.

Only accepted steps count. A flag comes on where a turn runs on that began with the flag off: its thermostat layer was
then at or under the lower set point. It goes off where a turn ends with the upper set point missing or reached.
"""

import itertools

from clock import begin_words
from refusals import words_for
from report import WrongOutput
from table import degrees, numbers, wrapped
from text import decimal


class Memory:
    """What a flag remembers after a step.

    `on`, `off`: the step and the turn where the flag last came on and last went off, or None; `since`: the accepted
    turns from the later of the two to the last, that one included; `refused`: the refused steps among them. The two
    lists are pieces of lists that all memories of a walk share: a copy for each step would grow with its square.
    """

    def __init__(self, flag, on, off, turns, refused):
        self.flag, self.on, self.off = flag, on, off
        self.turns, self.dropped = turns, refused

    @property
    def since(self):
        return piece(*self.turns)

    @property
    def refused(self):
        return piece(*self.dropped)


def piece(whole, first, end):
    return whole[first:end]


def walk(history, heater):
    """The memory of a heater's flag after each step."""
    flag, on, off = False, None, None
    turns, refused, first, first_refused = [], [], 0, 0
    for step in history.steps:
        if step.number:
            refused.append(step.index)
        else:
            turn = next((turn for turn in step.turns if turn.heater == heater), None)
            if turn is None:
                raise WrongOutput("history: step %d was accepted and has no turn of heater %d" % (step.index, heater))
            here = (step.index, turn)
            if turn.ran and not flag:
                on, first, first_refused = here, len(turns), len(refused)
            if (turn.ran or flag) and not turn.flag:
                off, first, first_refused = here, len(turns), len(refused)
            flag = turn.flag
            turns.append(here)
        yield Memory(flag, on, off, (turns, first, len(turns)), (refused, first_refused, len(refused)))


def memory_after(history, heater, last):
    return next(itertools.islice(walk(history, heater), last, None))


def check_agrees(history, report):
    """The flags that history ends its turns with are those that job prints."""
    if [step[:2] for step in history.steps] != [step[:2] for step in report.steps] or history.ended != report.ended:
        raise WrongOutput("job and history do not tell of the same steps")
    for told, printed in zip(history.steps, report.steps):
        flags = {turn.heater: turn.flag for turn in told.turns}
        if not told.number and flags != {place: line.flag for place, line in printed.heaters.items()}:
            raise WrongOutput("job and history differ in the flags after step %d" % told.index)


# In words


def step_words(index, day):
    return "step %d (%s)" % (index, begin_words(index, day.tank.step_length))


def beside(temperature, point):
    """A temperature to be read beside a set point: rounded, unless that would hide on which side it lies."""
    if degrees(temperature) == degrees(point) and temperature != point:
        return decimal(temperature)
    return degrees(temperature)


def came_on(memory, day, came, been):
    """`came` and `been` are the verb: a flag that came on in step 0 has been on from the beginning."""
    index, turn = memory.on
    start = "%s in %s: its turn" % (came, step_words(index, day))
    if index == 0:
        start = "%s on from the beginning: in %s its turn" % (been, step_words(index, day))
    told = "%s began with its thermostat layer at %s C," % (start, beside(turn.begin, turn.lower))
    return "%s at or under the lower set point of %s C." % (told, decimal(turn.lower))


def went_off(memory, day):
    index, turn = memory.off
    told = "It went off in %s:" % step_words(index, day)
    if turn.upper is None:
        return "%s its turn ended with the upper set point missing (thermostat layer %s C)." % (told, degrees(turn.end))
    end = beside(turn.end, turn.upper)
    return "%s its turn ended at %s C, the upper set point of %s C reached." % (told, end, decimal(turn.upper))


def nearest(turns):
    """Of turns that did not come on: how near the thermostat layer was to a lower set point where they began."""
    asked = [here for here in turns if here[1].lower is not None]
    told = " A lower set point was there in %d of %d steps" % (len(asked), len(turns))
    if not asked:
        return told + "."
    index, turn = min(asked, key=lambda here: here[1].begin - here[1].lower)
    began = "which began at %s C, above %s C" % (beside(turn.begin, turn.lower), decimal(turn.lower))
    return "%s; nearest to it came step %d, %s." % (told, index, began)


def stays_on(memory):
    index, turn = memory.since[-1]
    told = "In no accepted step from that one on (%d so far) did its turn end" % len(memory.since)
    ended = "step %d ended at %s C, under %s C" % (index, beside(turn.end, turn.upper), decimal(turn.upper))
    return "%s with the upper set point missing or reached; %s." % (told, ended)


def explained(place, memory, day, last):
    lines = ["h%d is %s." % (place, "on" if memory.flag else "off")]
    if memory.flag:
        lines.append(came_on(memory, day, "It came on", "It has been") + ago(memory.on[0], day, last))
        lines.append(stays_on(memory))
    elif memory.off:
        lines.append(went_off(memory, day) + ago(memory.off[0], day, last))
        lines.append(came_on(memory, day, "It had come on", "It had been"))
        later = [here for here in memory.since if here[0] > memory.off[0]]
        if later:
            lines.append("In no accepted step since did its turn begin at or under a lower set point." + nearest(later))
    elif memory.since:
        never = "in no accepted step did its turn begin at or under a lower set point."
        lines.append("It has been off from the beginning: %s%s" % (never, nearest(memory.since)))
    else:
        lines.append("It has been off from the beginning: no step was accepted.")
    if memory.refused:
        plural = "s" if len(memory.refused) > 1 else ""
        meanwhile = "Refused meanwhile" if memory.on else "Refused"
        lines.append("%s, and so without effect on the flag: step%s %s." % (meanwhile, plural, numbers(memory.refused)))
    return lines


def ago(index, day, last):
    if index == last:
        return ""
    count = last - index
    return " That was %d step%s (%g h) earlier." % (count, "s" if count > 1 else "", count * day.tank.step_length)


def why(day, history, last):
    """The answer for every heater after step `last`."""
    step = history.steps[last]
    lines = ["After %s%s:" % (step_words(last, day), ", the last" if last == len(history.steps) - 1 else "")]
    if step.number:
        refusal = "refusal %d. %s" % (step.number, words_for(step.number, day.steps[last]))
        lines += wrapped("That step was refused and left every flag alone: %s" % refusal)
    if not day.heaters:
        lines += ["", "The tank has no heaters."]
    for place in range(len(day.heaters)):
        first, *rest = explained(place, memory_after(history, place, last), day, last)
        lines += ["", first]
        for told in rest:
            lines += wrapped(told, "  ")
    return "".join(line + "\n" for line in lines)
