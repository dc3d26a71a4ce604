"""How far a command has come, on standard error, once it has taken longer than a second.

One line that is written anew at a terminal; elsewhere a line now and then, more and more seldom.
"""

import os
import sys
import threading
import time

FIRST, AT_A_TERMINAL, ELSEWHERE, SELDOM = 1, 0.2, 5, 30


class Line:
    """A thread shows it, so that it is shown too while a file or a program is waited for."""

    def __init__(self):
        self.what, self.total, self.count, self.since = "", None, 0, 0.0
        self.words = self.counted
        self.ended, self.thread, self.width = threading.Event(), None, 0

    def counted(self):
        if self.total is None:
            seconds = int(time.monotonic() - self.since)
            return "%s, for %d s" % (self.what, seconds) if self.what and seconds else self.what
        return "%s %s of %s" % (self.what, format(self.count, ","), format(self.total, ","))

    def show(self):
        there = sys.stderr.isatty()
        pause, later = FIRST, AT_A_TERMINAL if there else ELSEWHERE
        while not self.ended.wait(pause):
            words = self.words()
            if words:
                words = fitted(words) if there and sys.stderr else words
                write("\r" + words.ljust(self.width) if there else words + "\n")
                self.width = len(words) if there else 0
            pause, later = later, later if there else min(SELDOM, 2 * later)

    def begin(self):
        self.ended = threading.Event()
        if sys.stderr is not None:
            self.thread = threading.Thread(target=self.show, daemon=True)
            self.thread.start()

    def over(self):
        """Takes the line away. What is printed after it stands alone."""
        self.ended.set()
        if self.thread is not None:
            self.thread.join()
            self.thread = None
            if self.width:
                write("\r" + " " * self.width + "\r")
                self.width = 0


def fitted(words):
    """The end of it, if a terminal's line cannot hold all: it could not be written anew."""
    room = os.get_terminal_size(sys.stderr.fileno()).columns or 80
    return words if len(words) < room else "..." + words[4 - room :]


def write(words):
    """Nobody may be there to read it; then no more is written, not what is held back either."""
    try:
        if sys.stderr is not None:
            sys.stderr.write(words)
            sys.stderr.flush()
    except (OSError, ValueError):
        sys.stderr = None


LINE = Line()


def begin():
    LINE.begin()


def over():
    LINE.over()


def now(what, total=None):
    """What is done from here on: `what COUNT of TOTAL`, or `what` and since when."""
    LINE.what, LINE.total, LINE.count, LINE.since, LINE.words = what, total, 0, time.monotonic(), LINE.counted


def now_told(words):
    """What is done from here on: whatever the function says when it is asked."""
    LINE.words = words


def at(count):
    LINE.count = count
