"""What the user gave is named as it was given, and what is wrong with it said in a plain sentence."""

import os
import re
import subprocess
import sys
import time
import unittest
from unittest import mock

from common import DAY, ROOT, Folder, Terminal, at_once, but_progress, day_of, tank
import inputs
import progress
import records
import report
import text
import turns

TEXT = "# Ein Tag\n" + tank(layers=1) + "step feed 10 C\n" * 3
JOB = records.job_bytes(day_of(TEXT))
READERS = ("pack", "run", "why", "draw")
COMMANDS = READERS + ("unpack",)
UTF_16 = [codec for order in ("le", "be") for codec in ("utf-16-" + order, "mark utf-16-" + order)]


def in_utf_16(codec, text=TEXT):
    mark, _, name = codec.rpartition(" ")
    return ("\ufeff" if mark else "").encode(name) + text.encode(name)


# What is given, and what each command must say of it after the name of the file.
UTF_16_SENTENCE = " is a text in UTF-16: expected UTF-8, so save it again as UTF-8"
NEITHER = " is neither a text nor a job: a job begins with the bytes 3c 00 00 00 01 00, and a text "
GIVEN = [(in_utf_16(codec), COMMANDS, UTF_16_SENTENCE) for codec in UTF_16]
GIVEN += [(in_utf_16(codec, "# \u0434\u0435\u043d\u044c\n" * 9 + TEXT), COMMANDS, UTF_16_SENTENCE) for codec in UTF_16]
# Without the word tank, and where only the mark tells.
GIVEN += [(in_utf_16(codec, "# a day\n"), COMMANDS, UTF_16_SENTENCE) for codec in UTF_16]
GIVEN += [(in_utf_16(codec, "\u0434\u0435\u043d\u044c"), COMMANDS, UTF_16_SENTENCE) for codec in UTF_16[1::2]]
GIVEN += [
    (TEXT.encode("utf-32"), COMMANDS, " is a text in UTF-32: expected UTF-8, so save it again as UTF-8"),
    (b"", COMMANDS, " is empty"),
    (TEXT.encode(), ["unpack"], " is a text already: unpack takes a job"),
    (JOB, ["pack"], " is a job already: pack takes a text"),
    (b"\x89PNG\r\n\x1a\n\0\0\0\rIHDR", COMMANDS, NEITHER + "has no zero byte (the first is byte 8)"),
    (TEXT.encode() + b"step\0\n", COMMANDS, NEITHER + "has no zero byte (the first is byte %d)" % (len(TEXT) + 4)),
    (b"\0", COMMANDS, NEITHER + "has no zero byte (the first is byte 0)"),
    (b"\x1f\x8b\x08\x04\x01\x01\xff", COMMANDS, NEITHER + "is in UTF-8 (byte 1 is not)"),
    (JOB[:5], READERS[1:] + ("unpack",), ", byte 0: cut short: 60 bytes are to follow its length, 1 are there"),
    (JOB[:-1], READERS[1:] + ("unpack",), ", byte 96: cut short: 12 bytes are to follow its length, 11 are there"),
    (JOB[:4] + b"\3" + JOB[5:], READERS[1:] + ("unpack",), ", byte 0: misplaced: a tank stands once"),
    (b"# nothing\n", READERS, ", line 2: expected a tank line, found the end"),
    ("tank°\n".encode("latin-1"), READERS, ", line 1: expected text in UTF-8 (save it so), found the byte b0\n"),
]


class Given(Folder):
    def test_as_a_file_and_as_standard_input(self):
        for at, (data, commands, sentence) in enumerate(GIVEN):
            path = self.write("given", data)
            for command in commands:
                with self.subTest(case=at, command=command):
                    for name, word in ((path, path), ("standard input", "-")):
                        done = at_once(command, word, given=data)
                        told = done.stderr.decode()
                        self.assertTrue(told.startswith("day %s: %s%s" % (command, name, sentence)), told)
                        self.assertEqual((done.returncode, done.stdout, told.count("\n")), (2, b"", 1))

    def test_a_job_is_told_from_a_text(self):
        """No stored job and no text is taken for something else."""
        self.assertEqual(inputs.kind_of(JOB, "a"), "job")
        others = ["\ufeff" + TEXT, TEXT.replace("\n", "\r\n"), "# °C ⅓ л\n" + TEXT, "# \x07\x1b[0m\n" + TEXT, "x"]
        for text in [TEXT] + others:
            self.assertEqual(inputs.kind_of(text.encode(), "a"), "text")

    def test_a_folder_and_a_missing_file(self):
        for command in COMMANDS:
            done = at_once(command, self.folder)
            self.assertEqual(done.stderr.decode(), "day %s: %s is a folder, not a file\n" % (command, self.folder))
            done = at_once(command, self.path("none"))
            said = "day %s: %s cannot be read: there is no such file\n" % (command, self.path("none"))
            self.assertEqual((done.returncode, done.stderr.decode()), (2, said))
            done = at_once(command, os.path.join(self.write("given", TEXT), "below"))
            self.assertIn(b"below cannot be read: a part of its path is a file, not a folder\n", done.stderr)

    def test_lines_that_end_in_cr_alone(self):
        """One line to whoever splits at LF: the first wrong word would be named far from where it is."""
        for command in ("run", "pack"):
            done = at_once(command, self.write("given", TEXT.replace("\n", "\r").encode()))
            said = "lines that end in CR alone: save it with line ends of Unix or of Windows"
            self.assertEqual(done.returncode, 2)
            self.assertIn(said, done.stderr.decode())
        self.assertEqual(at_once("pack", self.write("given", TEXT.replace("\n", "\r\n").encode())).stdout, JOB)

    def test_no_permission(self):
        path = self.write("given", TEXT)
        with mock.patch("builtins.open", side_effect=PermissionError(13, "Permission denied", path)):
            done = at_once("run", path)
        self.assertEqual(done.stderr.decode(), "day run: %s cannot be read: there is no permission for it\n" % path)

    def test_standard_input_closed(self):
        closed = "%s %s run - <&-" % (sys.executable, os.path.join(DAY, "command.py"))
        done = subprocess.run(["sh", "-c", closed], cwd=ROOT, stdout=subprocess.PIPE, stderr=subprocess.PIPE)
        self.assertEqual((done.returncode, but_progress(done.stderr)), (2, b"day run: standard input is closed\n"))

    def test_standard_input_is_a_folder(self):
        """Python itself would end with an error of its own; a command that does not read it does not mind."""
        given = dict(cwd=ROOT, stdout=subprocess.PIPE, stderr=subprocess.PIPE, stdin=os.open(self.folder, os.O_RDONLY))
        self.addCleanup(os.close, given["stdin"])
        done = subprocess.run([os.path.join(DAY, "day"), "run", "-"], **given)
        said = b"day run: standard input is a folder, not a file\n"
        self.assertEqual((done.returncode, done.stdout, done.stderr), (2, b"", said))
        done = subprocess.run([os.path.join(DAY, "day"), "pack", self.write("given", TEXT)], **given)
        self.assertEqual((done.returncode, done.stdout), (0, JOB))

    def test_the_table_names_standard_input(self):
        done = at_once("run", "-", given=JOB)
        self.assertEqual((done.returncode, done.stdout.split(b"\n")[0]), (0, b"standard input"))
        self.assertIn(b">standard input<", at_once("draw", "-", given=JOB).stdout)
        done = at_once("why", "-", "--step", "7", given=JOB)
        self.assertIn(b"standard input: expected --step from 0 to 2, found 7", done.stderr)
        done = at_once("why", "-", given=JOB[:64])
        self.assertEqual((done.returncode, done.stderr), (2, b"day why: standard input: there is no step in it\n"))

    def test_a_name_that_is_no_text(self):
        path = self.write("a.day", TEXT)
        odd = os.fsdecode(os.path.join(os.fsencode(self.folder), b"\xff.day"))
        os.rename(path, odd)
        done = at_once("run", odd)
        self.assertEqual((done.returncode, done.stdout.split(b"\n")[0]), (0, os.fsencode(odd)))


class AllWrongLines(Folder):
    def told(self, text):
        path = self.write("a.day", text)
        done = at_once("pack", path)
        self.assertEqual((done.returncode, done.stdout), (2, b""))
        return [line.replace(path, "a.day") for line in done.stderr.decode().splitlines()]

    def numbers(self, text):
        return [int(re.match(r"day pack: a\.day, line ([0-9]+): expected ", line).group(1)) for line in self.told(text)]

    def test_up_to_ten_are_told(self):
        good = "step feed 10 C\n"
        for count in (1, 2, 10):
            lines = tank() + (good + "step feed ten C\n") * count
            self.assertEqual(self.numbers(lines), list(range(3, 3 + 2 * count, 2)))
        told = self.told(tank() + "step feed ten C\n" * 13)
        self.assertEqual(len(told), 11)
        self.assertIn("line 11: expected a number such as", told[9])
        self.assertEqual(told[10], "day pack: a.day: and 3 more")

    def test_one_mistake_is_told_once(self):
        """A wrong line does not make the lines after it wrong."""
        heater, step = "heater rated power 3 kW, position 0.25 of height\n", "step feed 10 C, heater 0 none\n"
        self.assertEqual(self.numbers(tank().replace("150", "15o") + heater + step), [1])
        self.assertEqual(self.numbers(tank() + heater.replace("kW", "PS") + step), [2])
        self.assertEqual(self.numbers(tank() + "heatre" + heater[6:] + step * 3), [2])
        self.assertEqual(self.numbers(heater + tank() + step), [1])
        self.assertEqual(self.numbers(heater + step * 5), [1])
        late = tank() + step.replace(", heater 0 none", "") + heater + step
        self.assertEqual(self.numbers(late), [3])
        # What is wrong all the same is told.
        late += "step feed ten C, heater 0 none\nstep feed 10 C, heater nil none\n"
        self.assertEqual(self.numbers(late), [3, 5, 6])
        self.assertEqual(self.numbers(tank() + tank() + heater + heater + step), [2, 5])


class CannotWrite(Folder):
    def setUp(self):
        super().setUp()
        self.day = self.write("a.day", TEXT)

    def told(self, target):
        done = at_once("run", self.day, "-o", target)
        self.assertEqual((done.returncode, done.stdout), (2, b""))
        return done.stderr.decode()

    def test_the_target_is_named_and_not_what_is_beside_it(self):
        target = self.path("table")
        self.assertEqual(self.told(self.folder), "day run: %s is a folder, not a file\n" % self.folder)
        for error, words in ((13, "there is no permission for it"), (28, "no space is left for it")):
            with mock.patch("tempfile.mkstemp", side_effect=OSError(error, "words", self.path(".x.part"))):
                self.assertEqual(self.told(target), "day run: %s cannot be written: %s\n" % (target, words))
        long = self.path("x" * 300)
        self.assertEqual(self.told(long), "day run: %s cannot be written: the name is too long\n" % long)
        for target in (self.path("none/table"), "none/table", self.path("a.day/table")):
            self.assertEqual(self.told(target), "day run: %s cannot be written: there is no such folder\n" % target)
        self.assertEqual(self.files(), ["a.day"])

    def test_standard_output(self):
        command = [sys.executable, os.path.join(DAY, "command.py"), "run", self.day]
        with open("/dev/full", "wb") as full:
            done = subprocess.run(command, stdout=full, stderr=subprocess.PIPE)
        said = b"day run: standard output cannot be written: no space is left for it\n"
        self.assertEqual((done.returncode, but_progress(done.stderr)), (2, said))
        done = subprocess.run(["sh", "-c", " ".join(command) + " >&-"], stderr=subprocess.PIPE)
        self.assertEqual((done.returncode, but_progress(done.stderr)), (2, b"day run: standard output is closed\n"))

    def test_standard_error(self):
        """The exit status is the same where nobody can be told why."""
        refused = self.write("b.day", TEXT.replace("150", "-150"))
        for target in ("2>&-", "2>/dev/full", "2</dev/null"):
            for file, status in ((self.path("none"), 2), (refused, 1), (self.day, 0)):
                command = "%s %s run --csv %s %s" % (sys.executable, os.path.join(DAY, "command.py"), file, target)
                done = subprocess.run(["sh", "-c", command], cwd=ROOT, stdout=subprocess.PIPE)
                self.assertEqual((target, done.returncode, bool(done.stdout)), (target, status, status < 2))

    def test_to_standard_output_by_its_short_name(self):
        done = at_once("run", self.day, "-o", "-")
        self.assertEqual((done.returncode, done.stdout), (0, at_once("run", self.day).stdout))


class WaitedFor(Folder):
    """Streams that do not make the command wait: it waits by itself, and nothing is lost, with buffers and without."""

    def start(self, unbuffered, **streams):
        command = [sys.executable] + ["-u"] * unbuffered + [os.path.join(DAY, "command.py"), "unpack", "-"]
        process = subprocess.Popen(command, cwd=ROOT, stderr=subprocess.PIPE, **streams)
        self.addCleanup(process.stderr.close)
        return process

    def setUp(self):
        super().setUp()
        self.job = records.job_bytes(day_of(TEXT + "step feed 10 C, draws 1 litres\n" * 5000))
        self.text = text.write_text(records.read_job(self.job)[0])

    def test_input_that_has_not_come_yet(self):
        for unbuffered in (False, True):
            reading, writing = os.pipe()
            os.set_blocking(reading, False)
            process = self.start(unbuffered, stdin=reading, stdout=subprocess.PIPE)
            os.close(reading)
            with open(writing, "wb", buffering=0) as job:
                job.write(self.job[:64])
                self.assertIn(b"64 bytes so far", process.stderr.readline())
                job.write(self.job[64:])
            self.assertTrue(process.communicate()[0] == self.text)
            self.assertEqual(process.returncode, 0)

    def test_output_that_has_no_room_yet(self):
        path = self.write("given", self.job)
        for unbuffered in (False, True):
            reading, writing = os.pipe()
            os.set_blocking(writing, False)
            with open(path, "rb") as job:
                process = self.start(unbuffered, stdin=job, stdout=writing)
            os.close(writing)
            with open(reading, "rb") as out:
                self.assertEqual(out.read(1), self.text[:1])
                time.sleep(0.2)  # the pipe is full meanwhile
                self.assertTrue(out.read() == self.text[1:])
            self.assertEqual((but_progress(process.stderr.read()), process.wait()), (b"", 0))


class Progress(Folder):
    """What takes longer than a second says how far it is, reading too."""

    def begun(self, stderr):
        """The command, with all of a text but its last byte on its standard input."""
        streams = dict(stdin=subprocess.PIPE, stdout=subprocess.PIPE, stderr=stderr)
        process = subprocess.Popen([sys.executable, os.path.join(DAY, "command.py"), "run", "-"], cwd=ROOT, **streams)
        self.addCleanup(process.wait)
        process.stdin.write(TEXT[:-1].encode())
        process.stdin.flush()
        return process

    def test_reading(self):
        process = self.begun(subprocess.PIPE)
        first = process.stderr.readline()
        out, said = process.communicate(TEXT[-1:].encode(), timeout=30)
        self.assertEqual((process.returncode, b"clock" in out, but_progress(said)), (0, True, b""))
        self.assertEqual(first, b"reading standard input: %d bytes so far\n" % (len(TEXT) - 1))

    def test_one_line_at_a_terminal(self):
        words = b"\rreading standard input: %d bytes so far" % (len(TEXT) - 1)
        with Terminal() as terminal:
            process = self.begun(terminal.inner)
            terminal.until(lambda shown: shown.count(words) > 1)
            out, _ = process.communicate(TEXT[-1:].encode(), timeout=30)
            shown = terminal.until(lambda shown: shown.endswith(b" \r"))
        self.assertEqual((process.returncode, b"clock" in out), (0, True))
        # Written anew, and taken away at the end; something else may have been shown between.
        self.assertRegex(shown.replace(words, b""), rb"^(\r[a-z][^\r\n]*)*\r +\r$")

    def test_a_long_name_stays_on_one_line(self):
        pipe = self.path("long" * 40)
        os.mkfifo(pipe)
        with Terminal() as terminal:
            process = subprocess.Popen([sys.executable, os.path.join(DAY, "command.py"), "pack", pipe], stderr=terminal.inner)
            with open(pipe, "wb"):
                terminal.until(lambda shown: shown.count(b"\r") > 1)
            process.wait(30)
        parts = terminal.shown.split(b"\r")[1:3]
        self.assertEqual([len(part) for part in parts], [79, 79])
        self.assertRegex(parts[0], rb"^\.\.\.[long]*: 0 bytes so far$")

    def test_lines_and_bytes_are_counted(self):
        """What is shown while a large text or job is read."""
        text = TEXT + "step feed 10 C\n" * 1000
        job = records.job_bytes(day_of(text))
        seen = []
        for data, kind, total in ((text.encode(), "line", text.count("\n")), (job, "byte", len(job))):
            path = self.write("given", data)
            with mock.patch("progress.now", lambda *words: seen.append(words)), mock.patch("progress.at") as at:
                inputs.day_of(path)
            counts = [call[0][0] for call in at.call_args_list]
            self.assertIn(len(data), counts)
            self.assertIn(("reading %s: byte" % path, len(data)), seen)
            self.assertIn(("reading %s: %s" % (path, kind), total), seen)
            self.assertGreater(len([count for count in counts if 0 < count < total]), 900)

    def test_lines_of_the_programs_are_counted(self):
        for read, line in ((lambda lines: report.read_report(lines, []), "S 0 7"), (turns.read_history, "S 0 7")):
            with mock.patch("progress.at") as at:
                read([line] * 20)
            self.assertEqual([call[0][0] for call in at.call_args_list], list(range(20)))

    def test_what_has_no_count_says_how_long_it_takes(self):
        with mock.patch("time.monotonic", return_value=5.0):
            progress.now("drawing")
            self.assertEqual(progress.LINE.words(), "drawing")
        with mock.patch("time.monotonic", return_value=17.5):
            self.assertEqual(progress.LINE.words(), "drawing, for 12 s")
        progress.now("job: step", 17520)
        progress.at(1234)
        self.assertEqual(progress.LINE.words(), "job: step 1,234 of 17,520")


if __name__ == "__main__":
    unittest.main()
