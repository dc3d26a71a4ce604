"""What the tests share: where things are, the stored jobs, running a command, stand-ins for programs."""

import importlib.machinery
import importlib.util
import io
import os
import pty
import re
import select
import signal
import struct
import subprocess
import sys
import tempfile
import time
import unittest
from unittest import mock

TESTS = os.path.dirname(os.path.abspath(__file__))
DAY = os.path.dirname(TESTS)
ROOT = os.path.dirname(DAY)
sys.path[:0] = [DAY, TESTS]

import programs  # noqa: E402
from programs import built  # noqa: E402, F401
import records  # noqa: E402
import report  # noqa: E402
import text  # noqa: E402


def stored_jobs():
    """Every job of compare/list with the lines that the judge stored for it: (name, job, lines)."""
    folder = os.path.join(ROOT, "compare", "list")
    for file in sorted(name for name in os.listdir(folder) if name.startswith("jobs-")):
        with open(os.path.join(folder, file), "rb") as source:
            data = source.read()
        at, entry = 0, 0
        while at < len(data):
            parts = []
            for _ in range(2):
                (length,) = struct.unpack_from("<I", data, at)
                parts.append(data[at + 4 : at + 4 + length])
                at += 4 + length
            yield "%s %d" % (file, entry), parts[0], parts[1].decode("ascii").splitlines()
            entry += 1


def stored_end(lines):
    """The number and the offset of a stored refusal outside a step, or None."""
    if lines and lines[-1].startswith("E "):
        return tuple(int(word) for word in lines[-1].split(" ")[1:])
    return None


def day_command(*words, **options):
    """Runs day/day from the top of the repository."""
    command = [sys.executable, os.path.join(DAY, "command.py")] + list(words)
    return subprocess.run(command, cwd=ROOT, stdout=subprocess.PIPE, stderr=subprocess.PIPE, **options)


def loaded():
    """The command as a module, whose main() can be called."""
    loader = importlib.machinery.SourceFileLoader("day_command", os.path.join(DAY, "command.py"))
    module = importlib.util.module_from_spec(importlib.util.spec_from_loader("day_command", loader))
    loader.exec_module(module)
    return module


def at_once(*words, given=b""):
    """Runs the command in this process, which is quicker, and without progress; answers as day_command does."""
    out, said = (io.TextIOWrapper(io.BytesIO(), encoding="utf-8") for _ in range(2))
    streams = dict(stdin=io.TextIOWrapper(io.BytesIO(given)), stdout=out, stderr=said, argv=["day/day"] + list(words))
    with mock.patch.multiple(sys, **streams), mock.patch("signal.signal"), mock.patch("progress.begin"):
        status = COMMAND.main()
    for stream in (out, said):
        stream.flush()
    return subprocess.CompletedProcess(words, status, out.buffer.getvalue(), said.buffer.getvalue())


PROGRESS = re.compile(rb"^(reading|writing|drawing|looking back|building|job: step|history: step).*\n", re.MULTILINE)


def but_progress(said):
    """What a command said, but for its progress: another's work may have made it slow."""
    return PROGRESS.sub(b"", said)


class Folder(unittest.TestCase):
    """A folder of its own for each test."""

    def setUp(self):
        held = tempfile.TemporaryDirectory()
        self.addCleanup(held.cleanup)
        self.folder = held.name

    def hear_signals(self):
        """As at a keyboard: in the background, or under nohup, a shell has programs started deaf to these."""
        for number, handler in ((signal.SIGINT, signal.default_int_handler), (signal.SIGHUP, signal.SIG_DFL)):
            self.addCleanup(signal.signal, number, signal.signal(number, handler))

    def path(self, name):
        return os.path.join(self.folder, name)

    def write(self, name, data, mode=None):
        path = self.path(name)
        os.makedirs(os.path.dirname(path), exist_ok=True)
        if os.path.islink(path):
            os.unlink(path)
        with open(path, "wb") as file:
            file.write(data.encode() if isinstance(data, str) else data)
        if mode is not None:
            os.chmod(path, mode)
        return path

    def program(self, name, script):
        """A stand-in for a program, in a folder `bin`; the answer is that folder."""
        return os.path.dirname(self.write(os.path.join("bin", name), script, 0o755))

    def read(self, path):
        with open(path, "rb") as file:
            return file.read()

    def files(self):
        return sorted(name for name in os.listdir(self.folder) if name != "bin")


class Terminal:
    """A terminal of our own: `inner` is what a program writes to, until() what it wrote."""

    def __enter__(self):
        self.outer, self.inner = pty.openpty()
        self.shown = b""
        return self

    def __exit__(self, *_):
        os.close(self.outer)
        os.close(self.inner)

    def until(self, enough, seconds=30):
        """What was written so far, as soon as it is enough."""
        end = time.monotonic() + seconds
        while not enough(self.shown) and time.monotonic() < end:
            if select.select([self.outer], [], [], 0.05)[0]:
                self.shown += os.read(self.outer, 1 << 16)
        return self.shown


def bits(value):
    return struct.pack(">d", value).hex()


TANK = (
    "tank layers {layers}, volume 150 litres, standby loss 1.5 kWh/24h, initial {initial} C, density 1 kg/litre, "
    "specific heat 0.001163 kWh/kg.K, ambient 18 C, step length {length} hours\n"
)


def tank(layers=4, initial=55, length=1):
    return TANK.format(layers=layers, initial=initial, length=length)


def day_of(lines):
    return text.read_text(lines.encode())


def told(lines):
    """The day of a text, what job reports of it, and the lines that it prints."""
    day = day_of(lines)
    printed = programs.lines_of("job", records.job_bytes(day), len(day.steps))
    return day, report.read_report(printed, day.working_order()), printed


COMMAND = loaded()
