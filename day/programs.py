"""Runs the proved programs. Every figure that is shown comes from them."""

import os
import subprocess
import tempfile

import progress
from records import BYTES_READ

CRATES = os.path.join(os.path.dirname(os.path.dirname(os.path.abspath(__file__))), "crates")
MOST_SAID = 300  # characters of what a program says on standard error


class NoProgram(Exception):
    pass


class Failed(Exception):
    """A program did not end as it should. What it printed counts for nothing then."""


def figures_program(job):
    """The program that prints a job's figures: job, or long_job where the job is longer than job reads."""
    return "job" if len(job) <= BYTES_READ else "long_job"


def built(name, crates=CRATES):
    """Where rt leaves the program of a crate that it has proved."""
    return os.path.join(crates, name, "out", name)


def path_of(name, folder):
    path = os.path.join(folder, name) if folder else built(name)
    if not (os.path.isfile(path) and os.access(path, os.X_OK)):
        raise NoProgram("the program %s is not at %s; to build it: day/day sample" % (name, os.path.relpath(path)))
    return path


def held(data):
    """A temporary file that holds the bytes. A pipe could fill while a program's output waits to be read."""
    try:
        file = tempfile.TemporaryFile()
        file.write(data)
        file.seek(0)
        return file
    except OSError as error:
        raise Failed("no temporary file can be written: %s" % error.strerror) from None


def started(name, path, source, complaints):
    try:
        return subprocess.Popen([path], stdin=source, stdout=subprocess.PIPE, stderr=complaints)
    except OSError as error:
        where = "the program %s at %s" % (name, os.path.relpath(path))
        raise NoProgram("%s cannot be run: %s" % (where, error.strerror)) from None


def lines_of(name, job, steps, folder=None):
    """The lines that a program prints for a job on its standard input; Failed if it does not end well."""
    path, lines, last, seen = path_of(name, folder), [], b"\n", 0
    progress.now("%s: step" % name, steps)
    with held(job) as source, held(b"") as complaints:
        process = started(name, path, source, complaints)
        with process:
            try:
                for last in process.stdout:
                    lines.append(last.decode("ascii", "backslashreplace").rstrip("\n"))
                    if last.startswith(b"S "):
                        seen += 1
                        progress.at(seen)
            except BaseException:
                process.kill()
                raise
        complaints.seek(0)
        said = complaints.read(4 * MOST_SAID).decode("utf-8", "replace")
    reason = failure(process.returncode, said, last, "after %d of %d steps" % (seen, steps))
    if reason:
        raise Failed("%s failed: %s" % (name, reason))
    return lines


def failure(status, said, last, far):
    """Why a run does not count, what the program itself says first; `far` is how far it came."""
    ended = "it ended with status %d" % status if status else ""
    if status < 0:
        ended = "it was ended by signal %d" % -status
    if said:
        said = " ".join(said.split()) or "it wrote blanks on standard error"
        more = " ..." if len(said) > MOST_SAID else ""
        return "%s%s (%s%s)" % (said[:MOST_SAID], more, ended + " " if ended else "", far)
    if ended:
        return "%s %s" % (ended, far)
    if not last.endswith(b"\n"):
        return "its last line is cut short, %s: '%s'" % (far, last.decode("ascii", "backslashreplace"))
    return None
