"""What a flag remembers: true by 01's own comparisons, and the stored flag, after every step of every stored job."""

import functools
import unittest

from common import at_once, bits, stored_jobs
import programs
import second_opinion
import turns
import why


@functools.lru_cache(maxsize=None)
def printed(job):
    """What history prints, asked once for each job."""
    return programs.lines_of("history", job, 0)


def stored_steps(lines):
    """The steps of stored lines: (number, the words of each line H)."""
    steps = []
    for line in lines:
        kind, *words = line.split(" ")
        if kind == "S":
            steps.append((int(words[1]), []))
        elif kind == "H":
            steps[-1][1].append(words)
    return steps


class StoredJobs(unittest.TestCase):
    def test_history_is_what_01_says(self):
        """Every line of history on every stored job, against document 01 written in Python."""
        for name, job, _ in stored_jobs():
            self.assertEqual(printed(job), second_opinion.history_lines(job), name)

    def test_turns_agree_with_the_stored_lines(self):
        """Accepted steps: a turn for each line H, in the same order, with its flag and its supply."""
        seen = 0
        for name, job, lines in stored_jobs():
            history = turns.read_history(printed(job))
            steps = stored_steps(lines)
            self.assertEqual([step.number for step in history.steps], [number for number, _ in steps], name)
            for step, (number, stored) in zip(history.steps, steps):
                if not number:
                    told = [("%d" % turn.flag, bits(turn.supplied)) for turn in step.turns]
                    lines_h = [(words[0], words[2]) for words in stored]
                    self.assertEqual(told, lines_h, "%s, step %d" % (name, step.index))
                    seen += len(told)
        self.assertGreater(seen, 1000)

    def test_memories_are_true(self):
        """After every step: the flag is the stored one, and the reason given is a true one."""
        kinds = {"on": 0, "missing": 0, "reached": 0, "never": 0}
        for name, job, lines in stored_jobs():
            history = turns.read_history(printed(job))
            order = next(([turn.heater for turn in step.turns] for step in history.steps if not step.number), [])
            for column, heater in enumerate(order):
                flag = False
                for index, ((number, stored), memory) in enumerate(zip(stored_steps(lines), why.walk(history, heater))):
                    flag = stored[column][0] == "1" if not number else flag
                    where = "%s, step %d, heater %d" % (name, index, heater)
                    self.assertEqual(memory.flag, flag, where)
                    kinds[self.check(memory, history, heater, index, where)] += 1
        for kind, count in kinds.items():
            self.assertGreater(count, 20, kind)

    def check(self, memory, history, heater, index, where):
        """Which reason is given; fails if a fact in it is false."""
        start = max([here[0] for here in (memory.on, memory.off) if here], default=-1)
        refused = [step.index for step in history.steps[: index + 1] if step.number and step.index > start]
        self.assertEqual(memory.refused, refused, where)
        accepted = [step for step in history.steps[: index + 1] if not step.number]
        all_turns = [(step.index, turn) for step in accepted for turn in step.turns if turn.heater == heater]
        if memory.flag:
            start, turn = memory.on
            self.assertTrue(second_opinion.at_or_under(turn.begin, turn.lower), where)
            since = [here for here in all_turns if here[0] >= start]
            self.assertEqual(memory.since, since, where)
            for _, later in since:
                self.assertFalse(later.upper is None or second_opinion.reached(later.end, later.upper), where)
            return "on"
        if memory.off is None:
            self.assertEqual(memory.since, all_turns, where)
            self.assertFalse(any(self.starts(turn) for _, turn in all_turns), where)
            return "never"
        start, turn = memory.off
        self.assertEqual(memory.since, [here for here in all_turns if here[0] >= start], where)
        self.assertTrue(second_opinion.at_or_under(memory.on[1].begin, memory.on[1].lower), where)
        self.assertLessEqual(memory.on[0], start, where)
        self.assertTrue(turn.upper is None or second_opinion.reached(turn.end, turn.upper), where)
        self.assertFalse(any(self.starts(later) for at, later in all_turns if at > start), where)
        return "missing" if turn.upper is None else "reached"

    def starts(self, turn):
        return turn.lower is not None and second_opinion.at_or_under(turn.begin, turn.lower)


# 01's figure: two layers at 40, 160 kW at position 0, set points 50 and 60; 45, 50, 55, 60 after the four steps.
FIGURE = (
    "tank layers 2, volume 32 litres, standby loss 0 kWh/24h, initial 40 C, density 1 kg/litre, "
    "specific heat 1 kWh/kg.K, ambient 20 C, step length 1 hours\nheater rated power 160 kW, position 0 of height\n"
)
ASKED = "step feed 12 C, heater 0 lower 50 C upper 60 C\n"
UNSET = "step feed 12 C, heater 0 none\n"
DROPPED = "step feed nan C, heater 0 lower 50 C upper 60 C\n"


class Words(unittest.TestCase):
    def told(self, text, *options):
        done = at_once("why", "-", *options, given=text.encode())
        return done.returncode, " ".join((done.stdout + done.stderr).decode().split())

    def test_on(self):
        status, told = self.told(FIGURE + 4 * ASKED, "--step", "2")
        self.assertEqual(status, 0)
        self.assertIn("After step 2 (02:00): h0 is on. It has been on from the beginning: in step 0 (00:00)", told)
        self.assertIn("its thermostat layer at 40.00 C, at or under the lower set point of 50 C.", told)
        self.assertIn("In no accepted step from that one on (3 so far) did its turn end", told)
        self.assertIn("with the upper set point missing or reached;", told)
        self.assertIn("step 2 ended at 55.00 C, under 60 C.", told)

    def test_reached(self):
        _, told = self.told(FIGURE + 4 * ASKED)
        self.assertIn("After step 3 (03:00), the last: h0 is off. It went off in step 3 (03:00):", told)
        self.assertIn("its turn ended at 60.00 C, the upper set point of 60 C reached.", told)
        self.assertIn("It had been on from the beginning: in step 0 (00:00) its turn began with", told)

    def test_missing(self):
        _, told = self.told(FIGURE + 2 * ASKED + 2 * UNSET)
        self.assertIn("h0 is off. It went off in step 2 (02:00): its turn ended", told)
        self.assertIn("with the upper set point missing (thermostat layer 50.00 C).", told)
        self.assertIn("That was 1 step (1 h) earlier.", told)
        self.assertIn("In no accepted step since did its turn begin at or under a lower set point.", told)
        self.assertIn("A lower set point was there in 0 of 1 steps.", told)

    def test_never(self):
        _, told = self.told(FIGURE + 3 * ASKED.replace("lower 50", "lower 39"))
        self.assertIn("h0 is off. It has been off from the beginning: in no accepted step did its turn begin", told)
        nearest = "nearest to it came step 0, which began at 40.00 C, above 39 C."
        self.assertIn("A lower set point was there in 3 of 3 steps; " + nearest, told)

    def test_refused_steps_do_not_count(self):
        _, told = self.told(FIGURE + ASKED + 2 * DROPPED)
        self.assertIn("That step was refused and left every flag alone: refusal 7. The feed temperature,", told)
        self.assertIn("(1 so far) did its turn end", told)
        self.assertIn("Refused meanwhile, and so without effect on the flag: steps 1, 2.", told)
        _, told = self.told(FIGURE + 2 * DROPPED)
        self.assertIn("It has been off from the beginning: no step was accepted. Refused, and so", told)

    def test_from_the_beginning(self):
        """Said of what has been so since step 0, and of nothing else."""
        early = FIGURE.replace("initial 40", "initial 55")
        for steps, said in (
            (ASKED, "h0 is on. It has been on from the beginning: in step 0 (00:00) its turn began with"),
            (4 * ASKED + UNSET, "h0 is off. It went off in step 3 (03:00): its turn ended at"),
            (4 * ASKED + UNSET, "It had been on from the beginning: in step 0 (00:00) its turn began with"),
            (3 * UNSET, "h0 is off. It has been off from the beginning: in no accepted step did its turn begin"),
        ):
            self.assertIn(said, self.told(FIGURE + steps)[1])
        for steps, said in (
            (UNSET + ASKED, "h0 is on. It came on in step 1 (01:00): its turn began with"),
            (DROPPED + ASKED, "h0 is on. It came on in step 1 (01:00): its turn began with"),
            (UNSET + ASKED + UNSET, "It had come on in step 1 (01:00): its turn began with"),
            (4 * ASKED + UNSET + "step feed 12 C, heater 0 lower 65 C upper 90 C\n", "It came on in step 5 (05:00):"),
        ):
            told = self.told(FIGURE + steps)[1]
            self.assertIn(said, told)
            self.assertNotIn("beginning", told)
        self.assertIn("It has been off from the beginning: in no accepted", self.told(early + ASKED)[1])

    def test_a_hair_is_shown(self):
        """Where rounding would hide the side on which a temperature lies, all its digits are shown."""
        _, told = self.told(FIGURE.replace("initial 40", "initial 49.999") + ASKED)
        self.assertIn("its thermostat layer at 49.999 C, at or under the lower set point of 50 C.", told)

    def test_step_out_of_range(self):
        status, told = self.told(FIGURE + ASKED, "--step", "1")
        self.assertEqual(status, 2)
        self.assertIn("expected --step from 0 to 0, found 1", told)


if __name__ == "__main__":
    unittest.main()
