"""The first minute: day/day sample builds what is missing, says how far it is, and shows a day."""

import os
import re
import shutil
import signal
import subprocess
import sys
import time
import unittest
import xml.etree.ElementTree as ElementTree
from unittest import mock

from common import DAY, ROOT, Folder, Terminal, at_once, built, but_progress
import build

CRATES = "# words\nnumeric:\nmixing: numeric\njob: numeric mixing io\nlong_job: numeric mixing io\nhistory: mixing\n"
# A stand-in for rt in a repository of five crates. It is asked once a line of `asked`; it proves nothing.
RT = """#!/bin/sh
name=$(basename "$PWD")
cd ../..
echo "$name: $@" >>asked
mkdir -p crates/$name/out
echo "== numeric"
{before}
for done in mixing $name; do
    echo "== $done"
    echo "many words of the prover on $done"
done
case $name in
job) ln -sf {job} crates/job/out/job ;;
history) ln -sf {history} crates/history/out/history ;;
*)
    printf '#!/bin/sh\\n' >crates/long_job/out/long_job
    chmod +x crates/long_job/out/long_job
    ;;
esac
echo stamp >crates/$name/out/$name.stamp
echo "3 of 3 crates ok"
{after}
"""


class Sample(Folder):
    """A small repository: day/ as it is, the sample day, crates of no content, and a stand-in for rt on the path."""

    def setUp(self):
        super().setUp()
        shutil.copytree(DAY, self.path("day"), ignore=shutil.ignore_patterns("tests", "__pycache__"))
        course = os.path.join("docs", "course")
        shutil.copytree(os.path.join(ROOT, course), self.path(course))
        self.write("crates.txt", CRATES)
        for name in ("numeric", "mixing", "job", "long_job", "history"):
            self.write("crates/%s/src/lib.rt" % name, "")
            self.write("crates/%s/must-fail/a.edit" % name, "")
        self.rt()

    def rt(self, before="", after=""):
        self.write("path/rt", RT.format(before=before, after=after, job=built("job"), history=built("history")), 0o755)

    def start(self, path="path", **streams):
        streams = dict(dict(stdout=subprocess.PIPE, stderr=subprocess.PIPE), **streams)
        where = self.path(path) + ":/usr/bin:/bin" if path == "path" else self.path(path)
        environment = dict(os.environ, PATH=where, RT_JOBS="2")
        command = [sys.executable, os.path.join("day", "command.py"), "sample"]
        process = subprocess.Popen(command, cwd=self.folder, env=environment, **streams)
        self.addCleanup(self.end, process)
        return process

    def end(self, process):
        """It ends what it started, also where a test fails."""
        if process.poll() is None:
            process.terminate()
            process.wait(10)

    def sample(self, path="path"):
        process = self.start(path)
        out, said = process.communicate(timeout=60)
        return process.returncode, out.decode(), but_progress(said).decode()

    def times_asked(self):
        """How often rt was asked for the three programs, one after another."""
        asked = self.read(self.path("asked")).decode().splitlines() if os.path.exists(self.path("asked")) else []
        each = ["%s: all test --jobs 2" % name for name in ("job", "history", "long_job")]
        self.assertEqual(asked, len(asked) // 3 * each)
        return len(asked) // 3

    def wait_for(self, name):
        until = time.monotonic() + 30
        while not (os.path.exists(self.path(name)) and self.read(self.path(name))):
            self.assertLess(time.monotonic(), until)
            time.sleep(0.02)


class FirstMinute(Sample):
    def test_builds_and_shows(self):
        status, out, said = self.sample()
        self.assertEqual(status, 0)
        self.assertRegex(said, r"^built job, history, long_job in (a few seconds|[0-9]+ s)\n$")
        path = "docs/course/1-between-set-points.day"
        for command in ("run", "why"):
            shown = at_once(command, os.path.join(ROOT, path)).stdout.decode().replace(ROOT + "/", "")
            self.assertIn("$ day/day %s %s\n%s\n" % (command, path, shown), out)
        picture = re.search(r"^The picture is (\S+): any browser shows it\.$", out, re.MULTILINE).group(1)
        root = ElementTree.fromstring(self.read(self.path(picture)))
        self.assertTrue(root.tag.endswith("svg"))
        self.assertTrue(picture.startswith("target/"))
        self.assertIn(b"many words of the prover on mixing\n", self.read(self.path("target/sample/build.log")))
        self.assertEqual(self.times_asked(), 1)

    def build(self):
        """What sample does before it shows the day, in this process; the answer is what it said."""
        said = []
        target = self.path("target")
        where = dict(ROOT=self.folder, TARGET=target, FOLDER=os.path.join(target, "sample"))
        path = self.path("path") + ":/usr/bin:/bin"
        with mock.patch.multiple(build, **where), mock.patch.dict(os.environ, PATH=path, RT_JOBS="2"):
            build.build(said.append)
        return said

    def test_asked_only_where_something_is_missing_or_changed(self):
        for at, (change, due) in enumerate((
            (lambda: None, 1),
            (lambda: self.write("crates/mixing/must-fail/new.edit", ""), 1),
            (lambda: os.unlink(self.path("crates/history/out/history")), 2),
            (lambda: os.unlink(self.path("crates/long_job/out/long_job.stamp")), 3),
            (lambda: self.write("crates/mixing/src/new.rt", ""), 4),
            (lambda: self.write("crates.txt", CRATES + "other: numeric\n"), 5),
            (lambda: self.write("crates/other/src/lib.rt", ""), 5),
        )):
            change()
            for _ in range(2):
                self.build()
                self.assertEqual(self.times_asked(), due, at)

    def test_asked_once_where_rt_leaves_its_stamps(self):
        """A clone with another's out/: its stamps are older than the files, and rt proves nothing anew."""
        self.build()
        for name in build.PROGRAMS:
            os.utime(self.path("crates/%s/out/%s.stamp" % (name, name)), (1, 1))
        os.unlink(self.path("target/sample/asked"))
        self.rt(before="exit 0")
        for _ in range(2):
            self.assertEqual(self.build(), [])
            self.assertEqual(self.times_asked(), 2)

    def test_no_toolchain(self):
        os.mkdir(self.path("nothing"))
        status, out, said = self.sample("nothing")
        self.assertEqual((status, out), (2, ""))
        self.assertEqual(
            said,
            "day sample: job, history, long_job are not built (crates/*/out), and the Rattle toolchain that proves and "
            "builds them is missing: there is no program rt on the path\n",
        )
        self.sample()
        self.assertEqual(self.sample("nothing")[::2], (0, ""))
        self.write("crates/mixing/src/new.rt", "")
        status, out, said = self.sample("nothing")
        self.assertEqual((status, "h0 is off." in out), (0, True))
        self.assertTrue(said.startswith("note: the programs may be older than their sources"), said)

    def test_what_fails_is_named_with_the_log(self):
        failed = "mixing: failed (1)"
        self.rt(before="echo '%s'; echo 'job: not run, since mixing failed'; exit 1" % failed)
        status, out, said = self.sample()
        log = "all that rt said is in target/sample/build.log"
        words = "day sample: the programs could not be built: %s; %s\n" % (failed, log)
        self.assertEqual((status, out, said), (2, "", words))
        self.assertIn(failed.encode(), self.read(self.path("target/sample/build.log")))
        self.rt(after="rm -f crates/long_job/out/long_job")
        status, out, said = self.sample()
        self.assertEqual((status, out), (2, ""))
        self.assertIn("rt ended well, and not all programs are there; " + log, said)
        self.rt()
        self.assertEqual(self.sample()[0], 0)
        # The programs are there, of another time.
        self.write("crates/mixing/src/new.rt", "")
        self.rt(before="echo '%s'; exit 1" % failed)
        self.assertEqual(self.sample(), (2, "", words))

    def test_one_at_a_time(self):
        self.rt(before="touch begun; echo 1 >begun; while [ ! -f go ]; do sleep 0.05; done")
        first = self.start()
        self.wait_for("begun")
        status, out, said = self.sample()
        words = "day sample: another day/day sample is building the programs: wait until it has ended\n"
        self.assertEqual((status, out, said), (2, "", words))
        self.write("go", "")
        self.assertRegex(first.communicate(timeout=30)[1], rb"(^|\n)built job, history, long_job in .*\n$")


class Interrupted(Sample):
    def setUp(self):
        super().setUp()
        self.hear_signals()

    def interrupted_by(self, number):
        """rt starts another program, as it does; the answer is what was said, when both have ended."""
        self.rt(before="trap '' INT; sleep 300 & echo $! >begun; wait")
        process = self.start()
        self.wait_for("begun")
        process.send_signal(number)
        said = but_progress(process.communicate(timeout=20)[1]).decode()
        sleeping = int(self.read(self.path("begun")))
        until = time.monotonic() + 10
        while self.runs(sleeping) and time.monotonic() < until:
            time.sleep(0.05)
        self.assertFalse(self.runs(sleeping))
        os.unlink(self.path("begun"))
        return process.returncode, said

    def runs(self, number):
        """Whether a process is there; one that has ended and is not yet waited for does not count."""
        try:
            with open("/proc/%d/stat" % number) as file:
                return file.read().rpartition(")")[2].split()[0] != "Z"
        except FileNotFoundError:
            return False

    def test_what_was_started_is_ended(self):
        for number, status in ((signal.SIGINT, 130), (signal.SIGTERM, 143), (signal.SIGHUP, 129)):
            ended, said = self.interrupted_by(number)
            self.assertEqual(ended, status)
            words = "day sample: interrupted; what is proved so far is kept, and the next run goes on from there\n"
            self.assertEqual(said, words if number == signal.SIGINT else "")
        self.rt()
        self.assertEqual(self.sample()[0], 0)

    def test_while_rt_is_being_started(self):
        started, popen = [], subprocess.Popen

        def start(*_, **options):
            started.append(popen(["sleep", "300"], **options))
            os.kill(os.getpid(), signal.SIGINT)
            return started[0]

        with mock.patch("subprocess.Popen", start), self.assertRaises(KeyboardInterrupt):
            build.ask("rt", None, self.path("log"))
        for cleanup in (started[0].stdout.close, started[0].kill):
            self.addCleanup(cleanup)
        self.assertEqual(started[0].poll(), -signal.SIGTERM)


class HowFar(Sample):
    # mixing 2, job 16, history 13, long_job 13.
    WORDS = re.compile(rb"building: crate 2 of 5, mixing; about [2-5]0 s left")

    def test_a_line_now_and_then_and_one_line_at_a_terminal(self):
        self.rt(before="while [ ! -f go ]; do sleep 0.05; done")
        process = self.start()
        self.assertRegex(process.stderr.readline(), self.WORDS)
        self.write("go", "")
        said = but_progress(process.communicate(timeout=30)[1])
        self.assertRegex(said, rb"^built job, history, long_job in .*\n$")
        os.unlink(self.path("go"))
        os.unlink(self.path("crates/job/out/job"))
        with Terminal() as terminal:
            process = self.start(stderr=terminal.inner)
            terminal.until(lambda shown: len(self.WORDS.findall(shown)) > 1)
            self.write("go", "")
            process.communicate(timeout=30)
            shown = terminal.until(lambda shown: shown.endswith(b"\n"))
        self.assertGreater(len(self.WORDS.findall(shown)), 1)
        self.assertRegex(shown, rb"^(\r[a-z][^\r\n]*)*\r +\rbuilt job, history, long_job in .*\r\n$")


class Estimates(unittest.TestCase):
    def setUp(self):
        costs = {"mixing": 41, "job_history": 52, "heating": 38, "cylinder": 6}
        patched = mock.patch.dict(build.COSTS, costs)
        patched.start()
        self.addCleanup(patched.stop)

    def estimate(self, plan, at_once=2):
        with mock.patch("time.monotonic", return_value=0.0):
            return build.Estimate(plan, at_once)

    def left(self, estimate, now):
        with mock.patch("time.monotonic", return_value=now):
            return estimate.left()

    def say(self, estimate, line, now):
        with mock.patch("time.monotonic", return_value=now):
            estimate.line(line)

    def done(self, estimate, name, now):
        """As rt prints it: the crate, and then what it has to say of its proof."""
        self.say(estimate, "== %s" % name, now)
        self.say(estimate, "logic=proved", now)

    def test_levels_of_this_repository(self):
        """As rt takes them: each crate after those that it depends on, and each needed crate once."""
        crates = build.listed()
        plan = build.levels(crates)
        names = [name for level in plan for name in level]
        self.assertEqual(len(names), len(set(names)))
        self.assertTrue({"numeric", "job_run", "job_history", *build.PROGRAMS} <= set(names) <= set(crates))
        self.assertNotIn("shim", names)
        for at, level in enumerate(plan):
            before = {name for part in plan[:at] for name in part}
            for name in level:
                self.assertLessEqual(set(crates.get(name, [])), before)
        self.assertLessEqual(set(build.COSTS), set(names))

    def test_left(self):
        """mixing 41, then job_history 52 beside heating 38, then cylinder 6: 99 seconds where two work at once."""
        plan = [["mixing"], ["job_history", "heating", "cylinder"]]
        estimate = self.estimate(plan)
        self.assertEqual(self.left(estimate, 0), 41 + 52 + 6)
        self.assertEqual(self.left(self.estimate(plan, 1), 0), 41 + 52 + 38 + 6)
        self.assertEqual(self.left(estimate, 11), 30 + 52 + 6)
        # Twice as long as was thought: what comes after will take twice as long too.
        self.assertEqual(self.left(estimate, 82), 2 * (52 + 6))
        # Twice as slow as the machine where the costs were measured.
        self.done(estimate, "mixing", 82)
        self.assertEqual(self.left(estimate, 82), 2 * (52 + 6))
        with mock.patch("time.monotonic", return_value=82):
            self.assertEqual(estimate.words(), "building: crate 2 of 4, job_history and heating; about 2 min left")
        for name, took in (("heating", 76), ("job_history", 104)):
            self.done(estimate, name, 82 + took)
        self.assertEqual(self.left(estimate, 188), 10)
        self.done(estimate, "cylinder", 186 + 12)
        self.assertEqual(self.left(estimate, 198), 0)
        self.assertEqual(estimate.words(), "building: all 4 crates are proved, the programs are tried")

    def test_what_was_proved_before_says_nothing_of_speed(self):
        estimate = self.estimate([["mixing"], ["job_history"]])
        self.say(estimate, "== mixing", 1)
        self.say(estimate, "rt: mixing: begins with what a check kept in another folder", 1)
        self.say(estimate, "== summary", 1)
        self.assertEqual(self.left(estimate, 1), 52)

    def test_the_quick_pass_says_nothing_of_speed(self):
        estimate = self.estimate([["mixing"], ["job_history"]])
        self.say(estimate, "only=0 proved=0", 400)
        self.assertEqual(self.left(estimate, 400), 41 + 52)

    def test_in_words(self):
        said = [build.about(seconds) for seconds in (0, 9, 11, 44, 89, 90, 149, 151, 600)]
        expected = ["a few seconds"] * 2 + ["about 10 s", "about 40 s", "about 90 s"]
        expected += ["about 2 min", "about 2 min", "about 3 min", "about 10 min"]
        self.assertEqual(said, expected)


if __name__ == "__main__":
    unittest.main()
