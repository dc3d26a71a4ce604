"""A short answer is not taken for a whole one: whatever a program does but end well with all steps is a failure."""

import os
import unittest

from common import Folder, at_once, day_of, tank
import programs
import records
import refusals

STEPS = 336
HEATERS = "heater rated power 1 kW, position 0.1 of height\nheater rated power 2 kW, position 0.6 of height\n"
POINTS = "heater 0 lower 50 C upper 60 C, heater 1 lower 40 C upper 60 C\n"
TEXT = tank(layers=2, initial=48) + HEATERS + ("step feed 10 C, draws 5 litres, " + POINTS) * STEPS
DAY = day_of(TEXT)
JOB = records.job_bytes(DAY)
# What the true programs print. A step of job is four lines, S, L, H and H; one of history three, S, T and T.
TRUE = {name: programs.lines_of(name, JOB, STEPS) for name in ("job", "history")}
COMMANDS = (["run"], ["run", "--csv"], ["why"], ["draw"])


def text(lines):
    return "".join(line + "\n" for line in lines)


def kept(name, count):
    """The lines of the first steps."""
    return text(TRUE[name][: count * (4 if name == "job" else 3)])


# What a program prints, what it says on standard error, what it does last, and the reason that must be given for it.
NOTHING = "it ended after 10 of 336 steps and says nothing of why"
LAST = "step 335 of 336 is not whole"
CASES = [
    (lambda name: kept(name, 10), "", "exit 0", NOTHING),
    (lambda name: "", "", "exit 0", NOTHING.replace("10", "0")),
    (lambda name: kept(name, 10), "", "exit 3", "it ended with status 3 after 10 of 336 steps"),
    (lambda name: kept(name, STEPS), "", "exit 3", "it ended with status 3 after 336 of 336 steps"),
    (lambda name: kept(name, 10), "", "kill -9 $$", "it was ended by signal 9 after 10 of 336 steps"),
    (lambda name: kept(name, 10), "no room\n%d", "exit 4", "no room %d (it ended with status 4 after 10 of 336 steps)"),
    (lambda name: kept(name, STEPS), "no room", "exit 0", "no room (after 336 of 336 steps)"),
    (lambda name: kept(name, STEPS), "\n", "exit 0", "it wrote blanks on standard error (after 336 of 336 steps)"),
    (lambda name: kept(name, STEPS), "words " * 100, "exit 0", "words " * 50 + " ... (after 336 of 336 steps)"),
    (lambda name: kept(name, STEPS)[:-1], "", "exit 0", "its last line is cut short, after 336 of 336 steps: '"),
    (lambda name: kept(name, 10)[:-5], "", "exit 0", "its last line is cut short, after 10 of 336 steps: '"),
    (lambda name: text(TRUE[name][:-1]), "", "exit 0", LAST),
    (lambda name: text(TRUE[name][:-2]), "", "exit 0", LAST),
    (lambda name: kept(name, STEPS) + "S 336 7\n", "", "exit 0", "it tells of 337 steps, and the day has 336"),
    (lambda name: kept(name, STEPS).replace("S 4 ", "S 5 "), "", "exit 0", "step 5 stands where step 4 is due"),
]


class Standing(Folder):
    """The day, and stand-ins for both programs."""

    def setUp(self):
        super().setUp()
        self.day = self.write("a.day", TEXT)
        for name in TRUE:
            self.standing(name)

    def standing(self, name, printed=None, said="", last="exit 0"):
        """A stand-in that prints what the true program does, or what is given."""
        lines = self.write("bin/%s.lines" % name, kept(name, STEPS) if printed is None else printed)
        words = self.write("bin/%s.words" % name, said)
        self.program(name, "#!/bin/sh\ncat %s\ncat %s >&2\n%s\n" % (lines, words, last))

    def run_command(self, words, *more):
        target = self.path("out")
        done = at_once(*words, self.day, "--programs", self.path("bin"), "-o", target, *more)
        written = os.path.exists(target)
        if written:
            os.unlink(target)
        return done.returncode, written, done.stdout.decode(), done.stderr.decode()


class Failures(Standing):
    def test_the_stand_ins_are_true(self):
        for words in COMMANDS:
            self.assertEqual(self.run_command(words), (0, True, "", ""))

    def test_whatever_fails_is_one_sentence(self):
        for name in TRUE:
            for at, (printed, said, last, reason) in enumerate(CASES):
                self.standing(name, printed(name), said, last)
                for words in COMMANDS if name == "job" else COMMANDS[2:]:
                    with self.subTest(name=name, case=at, command=words):
                        status, written, out, told = self.run_command(words)
                        self.assertEqual((status, written, out), (2, False, ""))
                        self.assertTrue(told.startswith("day %s: %s failed: %s" % (words[0], name, reason)), told)
                        self.assertEqual(told.count("\n"), 1)
            self.standing(name)

    def test_a_step_without_all_its_figures(self):
        """Its last step lacks its layers, one of them, its totals, or is refused and has heaters all the same."""
        (step, layers, *heaters), rest = TRUE["job"][-4:], TRUE["job"][:-4]
        short = layers.rpartition(" ")[0]
        refused = "S 335 7"
        for lines in ([step], [step, short], ["S 335 0", layers], [refused, layers], [refused + step[7:], layers]):
            self.standing("job", text(rest + lines + heaters))
            told = self.run_command(["run"])
            self.assertEqual(told, (2, False, "", "day run: job failed: step 335 of 336 is not whole\n"), lines)

    def test_run_needs_no_history(self):
        self.standing("history", "", "no room", "exit 3")
        self.assertEqual(self.run_command(["run"]), (0, True, "", ""))

    def test_the_first_failure_is_the_one_that_is_told(self):
        self.standing("job", kept("job", 10), "", "exit 3")
        self.standing("history", "", "no room", "exit 4")
        told = self.run_command(["why"])[3]
        self.assertIn("job failed: it ended with status 3", told)
        self.assertNotIn("history", told)

    def test_lines_that_cannot_be_read(self):
        for name, line in (("job", "S 0 zero"), ("job", "X"), ("history", "T 0"), ("job", "S \\xc3\\xa9")):
            self.standing(name, line.encode().decode("unicode_escape").encode("latin-1") + b"\n")
            status, written, _, told = self.run_command(["draw"])
            self.assertEqual((status, written), (2, False))
            self.assertEqual(told, "day draw: %s: a line that cannot be read: '%s'\n" % (name, line))
            self.standing(name)

    def test_programs_that_differ(self):
        flags = kept("history", STEPS).replace(" 1 1 ", " 1 0 ", 1)
        self.assertNotEqual(flags, kept("history", STEPS))
        self.standing("history", flags)
        self.assertIn("job and history differ in the flags after step ", self.run_command(["why"])[3])


class Cut(Standing):
    """A refusal outside a step: what was run is shown, the reason is told, and the status is 1."""

    def cut_after(self, count):
        """As the programs end at the record of step `count`, or at the first heater's where that is None."""
        offset = 64 if count is None else 64 + 2 * 31 + count * (len(JOB) - 64 - 62) // STEPS
        for name in TRUE:
            self.standing(name, kept(name, count or 0) + "E 11 %d\n" % offset)
        line = 2 if count is None else 4 + count
        where = "line %d (byte %d of its job)" % (line, offset)
        return "The job ended at %s: refusal 11. %s" % (where, refusals.WORDS[11])

    def test_after_some_steps(self):
        reason = self.cut_after(10)
        for words in COMMANDS:
            with self.subTest(command=words):
                self.assertEqual(self.run_command(words), (1, True, "", reason + "\n"))
        done = at_once("run", self.day, "--programs", self.path("bin"))
        self.assertEqual((done.returncode, done.stderr), (1, b""))
        self.assertIn(reason, " ".join(done.stdout.decode().split()))

    def test_before_any_step(self):
        reason = self.cut_after(None)
        for words in COMMANDS:
            with self.subTest(command=words):
                self.assertEqual(self.run_command(words), (1, words[0] == "run", "", reason + "\n"))

    def test_a_step_that_was_not_run(self):
        reason = self.cut_after(10)
        self.assertEqual(self.run_command(["why"], "--step", "200"), (1, False, "", reason + "\n"))
        self.assertEqual(self.run_command(["why"], "--step", "9"), (1, True, "", reason + "\n"))
        self.assertEqual(self.run_command(["why"], "--step", "-1")[0], 2)

    def test_nothing_follows_the_end(self):
        for name in TRUE:
            self.cut_after(10)
            self.standing(name, kept(name, 10) + "E 11 64\n" + text(TRUE[name][-4:]))
            told = self.run_command(["draw"])[3]
            self.assertIn("%s: a line that cannot be read: '%s'" % (name, TRUE[name][-4]), told)


class Programs(Folder):
    def test_not_there_and_not_to_be_run(self):
        day = self.write("a.day", tank() + "step feed 10 C\n")
        none = at_once("run", day, "--programs", self.path("none"))
        self.assertEqual(none.returncode, 2)
        self.assertRegex(none.stderr.decode(), r"the program job is not at \S*none/job; to build it: day/day sample\n$")
        os.makedirs(self.path("bin/job"))
        self.assertIn(b"is not at", at_once("run", day, "--programs", self.path("bin")).stderr)
        os.rmdir(self.path("bin/job"))
        done = at_once("run", day, "--programs", self.program("job", "#!/no/such/shell\n"))
        self.assertEqual(done.returncode, 2)
        self.assertRegex(done.stderr.decode(), r"^day run: the program job at \S*bin/job cannot be run: ")


if __name__ == "__main__":
    unittest.main()
