"""The programs on streams that fail, stall or are interrupted: all lines come, or a beginning and the reason."""

import contextlib
import fcntl
import os
import resource
import signal
import socket
import struct
import subprocess
import tempfile
import threading
import time
import tty
import unittest

from common import ROOT, built

F_SETPIPE_SZ = 1031  # Linux's; fcntl has its name since Python 3.10
MINUTE = struct.pack("ll", 60, 0)


def stored(program, name):
    with open(os.path.join(ROOT, "crates", program, name), "rb") as file:
        return file.read()


def limit_of_5000():
    resource.setrlimit(resource.RLIMIT_FSIZE, (5000, 5000))


class Streams(unittest.TestCase):
    """A program on streams of the test's choice. It is killed if it does not end."""

    name = "job"

    def setUp(self):
        self.program = built(self.name)
        # A job, and its lines, to which the gate holds the program.
        self.input, self.text = stored(self.name, "stdin"), stored(self.name, "stdout")

    def start(self, stdin, stdout, command=(), **options):
        words = [*command, self.program]
        process = subprocess.Popen(words, stdin=stdin, stdout=stdout, stderr=subprocess.PIPE, **options)
        timer = threading.Timer(20, process.kill)
        timer.start()
        for cleanup in (process.stderr.close, process.wait, process.kill, timer.cancel):
            self.addCleanup(cleanup)
        return process

    def job(self):
        file = tempfile.TemporaryFile()
        self.addCleanup(file.close)
        file.write(self.input)
        file.seek(0)
        return file

    def pair(self, made):
        """Two descriptors, closed when the test ends if not before."""
        for descriptor in made:
            self.addCleanup(self.close, descriptor)
        return made

    def close(self, descriptor):
        with contextlib.suppress(OSError):
            os.close(descriptor)

    def sockets(self, *options):
        """Two sockets: the test's, and the program's, which has these options."""
        ours, other = socket.socketpair()
        self.addCleanup(ours.close)
        self.addCleanup(other.close)
        for option, value in options:
            other.setsockopt(socket.SOL_SOCKET, option, value)
        return ours, other

    def interrupt(self, process):
        """Stops the program in its call and lets it go on: on a socket with a time limit the call fails with EINTR."""
        for number, state in ((None, "S"), (signal.SIGSTOP, "T"), (signal.SIGCONT, "S")):
            if number is not None:
                process.send_signal(number)
            self.wait_for(process, state)

    def wait_for(self, process, state):
        """Until the program sleeps, S, or is stopped, T."""
        for _ in range(5000):
            with open("/proc/%d/stat" % process.pid) as file:
                if file.read().rpartition(")")[2].split()[0] == state:
                    return
            time.sleep(0.001)
        self.fail("the program did not come to the state %s" % state)

    def fill(self, descriptor):
        """As many bytes as there is room for, so that the program finds none."""
        filled = 0
        for _ in range(3):
            with contextlib.suppress(BlockingIOError):
                while True:
                    filled += os.write(descriptor, b"." * 4096)
            time.sleep(0.02)
        return b"." * filled

    def slowly(self, descriptor):
        """All that comes until the other end is closed, by small pieces."""
        pieces = []
        with contextlib.suppress(OSError):  # a terminal's way to say that nobody has it open
            while not pieces or pieces[-1]:
                time.sleep(0.005)
                pieces.append(os.read(descriptor, 700))
        return b"".join(pieces)

    def assert_said(self, process, said):
        """Nothing, or one line: the program, the stream and the reason."""
        self.assertEqual(process.stderr.read().decode(), said and "%s: %s\n" % (self.name, said))
        self.assertEqual(process.wait(), 0)


class Output(Streams):
    def test_device_that_is_full(self):
        with open("/dev/full", "wb") as full:
            process = self.start(self.job(), full)
        self.assert_said(process, "standard output: No space left on device")

    def test_closed(self):
        process = self.start(self.job(), None, ("sh", "-c", 'exec "$0" >&-'))
        self.assert_said(process, "standard output: Bad file descriptor")

    def test_file_that_may_not_grow(self):
        """One write is taken in part, and the next fails."""
        with tempfile.TemporaryFile() as out:
            # Python ignores the signal SIGXFSZ, and so does the program here: else the system would end it.
            process = self.start(self.job(), out, restore_signals=False, preexec_fn=limit_of_5000)
            self.assert_said(process, "standard output: File too large")
            out.seek(0)
            self.assertEqual(out.read(), self.text[:5000])

    def test_nobody_reads(self):
        reading, writing = self.pair(os.pipe())
        os.close(reading)
        # Python ignores SIGPIPE, and so does the program here.
        process = self.start(self.job(), writing, restore_signals=False)
        self.assert_said(process, "standard output: Broken pipe")

    def test_full_pipe_is_waited_for(self):
        reading, writing = self.pair(os.pipe())
        fcntl.fcntl(writing, F_SETPIPE_SZ, 4096)
        os.set_blocking(writing, False)
        filled = self.fill(writing)
        process = self.start(self.job(), writing)
        os.close(writing)
        self.wait_for(process, "S")  # it sleeps meanwhile, and does not ask over and over
        time.sleep(0.2)
        self.assertEqual(self.slowly(reading), filled + self.text)
        self.assert_said(process, "")

    def test_terminal_that_takes_a_part(self):
        ours, terminal = self.pair(os.openpty())
        tty.setraw(terminal)
        os.set_blocking(terminal, False)
        filled = self.fill(terminal)
        process = self.start(self.job(), terminal)
        os.close(terminal)
        self.assertEqual(self.slowly(ours), filled + self.text)
        self.assert_said(process, "")

    def test_interrupted(self):
        ours, other = self.sockets((socket.SO_SNDBUF, 4096), (socket.SO_SNDTIMEO, MINUTE))
        process = self.start(self.job(), other)
        other.close()
        for _ in range(3):
            self.interrupt(process)
        with ours.makefile("rb") as whole:
            self.assertEqual(whole.read(), self.text)
        self.assert_said(process, "")


class Input(Streams):
    def out(self):
        file = tempfile.TemporaryFile()
        self.addCleanup(file.close)
        return file

    def pieces(self):
        size = len(self.input) // 10
        return [self.input[at : at + size] for at in range(0, len(self.input), size)]

    def assert_printed(self, out, text):
        out.seek(0)
        self.assertEqual(out.read(), text)

    def test_folder(self):
        folder, out = os.open(ROOT, os.O_RDONLY), self.out()
        self.addCleanup(self.close, folder)
        process = self.start(folder, out)
        self.assert_said(process, "standard input: Is a directory")
        self.assert_printed(out, b"")

    def test_closed(self):
        out = self.out()
        process = self.start(None, out, ("sh", "-c", 'exec "$0" <&-'))
        self.assert_said(process, "standard input: Bad file descriptor")
        self.assert_printed(out, b"")

    def test_broken_off(self):
        """A connection that is reset after half the job: the half is no job."""
        out = self.out()
        with socket.create_server(("127.0.0.1", 0)) as server:
            ours = socket.create_connection(server.getsockname())
            other = server.accept()[0]
        with ours, other:
            process = self.start(other, out)
            ours.sendall(self.input[: len(self.input) // 2])
            time.sleep(0.1)
            ours.setsockopt(socket.SOL_SOCKET, socket.SO_LINGER, struct.pack("ii", 1, 0))
        self.assert_said(process, "standard input: Connection reset by peer")
        self.assert_printed(out, b"")

    def test_empty_pipe_is_waited_for(self):
        out, (reading, writing) = self.out(), self.pair(os.pipe())
        os.set_blocking(reading, False)
        process = self.start(reading, out)
        for piece in self.pieces():
            time.sleep(0.02)
            os.write(writing, piece)
        os.close(writing)
        self.assert_said(process, "")
        self.assert_printed(out, self.text)

    def test_interrupted(self):
        out, (ours, other) = self.out(), self.sockets((socket.SO_RCVTIMEO, MINUTE))
        process = self.start(other, out)
        other.close()
        for piece in self.pieces():
            self.interrupt(process)
            ours.sendall(piece)
        ours.close()
        self.assert_said(process, "")
        self.assert_printed(out, self.text)


class OutputOfHistory(Output):
    name = "history"


class InputOfHistory(Input):
    name = "history"


class OutputOfLongJob(Output):
    name = "long_job"


class InputOfLongJob(Input):
    name = "long_job"
