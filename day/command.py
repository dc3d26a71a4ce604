"""A day of a hot-water tank: write it as text, run it, ask why a heater is on, draw it.

    day/day sample                      the first minute: builds what is missing, then shows a day
    day/day pack DAY [-o JOB]           the job that a text holds
    day/day unpack JOB [-o DAY]         the text of a job
    day/day run DAY [--csv] [-o FILE]   what each step came to, as a table or as CSV
    day/day why DAY [--step N] [-o FILE]
                                        what each heater's flag remembers, at the end or after step N
    day/day draw DAY [-o SVG]           the picture

DAY is a text (day/README.md) or a job; - is standard input. Without -o the result goes to standard output.
"""

import argparse
import itertools
import os
import signal
import sys

import build
import files
import inputs
import picture
import programs
import progress
import records
import report
import text
import turns
import why as reasons
from inputs import Wrong
from table import comma_separated, ended_words, table

FAILURES = (files.CannotRead, files.CannotWrite, programs.NoProgram, programs.Failed, report.WrongOutput)
SAMPLE = os.path.join("docs", "course", "1-between-set-points.day")


def note(words):
    progress.over()
    progress.write(words + "\n")


def encoded(shown):
    """As bytes; a file's name may have bytes in it that are no text."""
    return shown.encode("utf-8", "surrogateescape")


def reported(day, folder):
    """What job, or for a long day long_job, reports: all steps, or why not."""
    job = records.job_bytes(day)
    name = programs.figures_program(job)
    lines = programs.lines_of(name, job, len(day.steps), folder)
    progress.now("reading what %s printed: line" % name, len(lines))
    result = report.read_report(lines, day.working_order(), name)
    report.check_report(result, day, name)
    return result


def told(day, folder):
    """What job reports and what history tells of the same day."""
    result = reported(day, folder)
    lines = programs.lines_of("history", records.job_bytes(day), len(day.steps), folder)
    progress.now("reading what history printed: line", len(lines))
    history = turns.read_history(lines)
    turns.check_history(history, day)
    reasons.check_agrees(history, result)
    return result, history


def too_long(day, name):
    """What is said of a day that the program job does not take whole."""
    ends = list(itertools.accumulate(len(data) for data in records.record_list(day)))
    if ends[-1] <= records.BYTES_READ:
        return None
    fit = sum(end <= records.BYTES_READ for end in ends) - 1 - len(day.heaters)
    takes = "it takes at most %d steps of this shape (%s bytes)" % (max(fit, 0), format(records.BYTES_READ, ","))
    whole = "this day has %d; day/day run and long_job take it whole" % len(day.steps)
    return "%s is too long for the program job: %s, %s" % (name, takes, whole)


def pack(asked):
    day = inputs.day_of_text(asked.file)
    if asked.o is None and sys.stdout is not None and sys.stdout.isatty():
        raise Wrong("a job is bytes, not text: name a file with -o, or send it on to a program")
    progress.now("writing the job")
    files.put(asked.o, records.job_bytes(day))
    words = too_long(day, files.name_of(asked.file))
    if words:
        note("note: %s" % words)


def unpack(asked):
    day, lost = inputs.day_of_job(asked.file)
    progress.now("writing the text")
    files.put(asked.o, text.write_text(day))
    if lost.sentence():
        note("note: %s" % lost.sentence())


def run(asked):
    day = inputs.day_of(asked.file)
    result = reported(day, asked.programs)
    progress.now("writing the table")
    shown = comma_separated(day, result) if asked.csv else table(day, result, files.name_of(asked.file))
    files.put(asked.o, encoded(shown))
    ended = ended_words(day, result)
    if ended and (asked.csv or asked.o):
        # Else the table says it.
        note(ended)
    return 1 if ended else 0


def why(asked):
    day = inputs.day_of(asked.file)
    _, history = told(day, asked.programs)
    ended, count, name = ended_words(day, history), len(history.steps), files.name_of(asked.file)
    last = max(count - 1, 0) if asked.step is None else asked.step
    if not (count or ended):
        raise Wrong("%s: there is no step in it" % name)
    if not 0 <= last < count and not (ended and last >= count):
        raise Wrong("%s: expected --step from 0 to %d, found %d" % (name, count - 1, last))
    if last < count:
        progress.now("looking back")
        files.put(asked.o, encoded(reasons.why(day, history, last)))
    if ended:
        note(ended)
    return 1 if ended else 0


def draw(asked):
    day = inputs.day_of(asked.file)
    result, history = told(day, asked.programs)
    ended, name = ended_words(day, result), files.name_of(asked.file)
    if not (result.steps or ended):
        raise Wrong("%s: there is no step in it" % name)
    if result.steps:
        progress.now("drawing")
        title = day.title or os.path.basename(name)
        files.put(asked.o, encoded(picture.picture(day, result, history, title)))
    if ended:
        note(ended)
    return 1 if ended else 0


def sample(_):
    """Builds what is missing, then shows the course's first day: table, reasons, and where its picture is."""
    build.build(note)
    path, target = build.shown(SAMPLE), build.shown("target", "sample", "sample.svg")
    day = inputs.day_of(path)
    result, history = told(day, None)
    os.makedirs(build.FOLDER, exist_ok=True)
    files.put(target, encoded(picture.picture(day, result, history, day.title)))
    command = build.shown("day", "day")
    parts = ["$ %s run %s" % (command, path), table(day, result, path)]
    parts += ["$ %s why %s" % (command, path), reasons.why(day, history, len(history.steps) - 1)]
    parts.append("The picture is %s: any browser shows it." % target)
    course, words = build.shown("docs", "COURSE.md"), build.shown("day", "README.md")
    parts.append("%s explains this day and four more; %s says how to write your own." % (course, words))
    files.put(None, encoded("\n".join(parts) + "\n"))


def arguments():
    plain = argparse.RawDescriptionHelpFormatter
    parser = argparse.ArgumentParser(prog="day/day", description=__doc__, formatter_class=plain)
    commands = parser.add_subparsers(dest="command", required=True, metavar="COMMAND")
    commands.add_parser("sample").set_defaults(work=sample)
    for work in (pack, unpack, run, why, draw):
        command = commands.add_parser(work.__name__)
        command.set_defaults(work=work)
        command.add_argument("file", metavar="JOB" if work is unpack else "DAY")
        command.add_argument("-o", metavar="FILE", help="write here, whole or not at all; else standard output")
        if work in (run, why, draw):
            command.add_argument("--programs", metavar="FOLDER", help="where the proved programs are; else where rt leaves them")
        if work is run:
            command.add_argument("--csv", action="store_true", help="CSV with every digit instead of a table")
        if work is why:
            command.add_argument("--step", type=int, metavar="N", help="after step N; else after the last")
    asked = parser.parse_args()
    if vars(asked).get("o") == "-":
        asked.o = None
    return asked


def end(number, _):
    """An order to end: what was begun is taken back, and programs that run for us are ended."""
    sys.exit(128 + number)


def interrupted(command):
    if command == "sample":
        return "interrupted; what is proved so far is kept, and the next run goes on from there"
    return "interrupted, no file was written"


def main():
    for name in ("SIGTERM", "SIGHUP"):
        number = getattr(signal, name, None)
        if number and signal.getsignal(number) is not signal.SIG_IGN:
            signal.signal(number, end)
    asked = arguments()
    progress.begin()
    try:
        return asked.work(asked) or 0
    except Wrong as error:
        for line in error.lines:
            note("day %s: %s" % (asked.command, line))
        return 2
    except FAILURES as error:
        note("day %s: %s" % (asked.command, error))
        return 2
    except KeyboardInterrupt:
        note("day %s: %s" % (asked.command, interrupted(asked.command)))
        return 130
    except BrokenPipeError:
        # Whoever read standard output has had enough.
        os.dup2(os.open(os.devnull, os.O_WRONLY), sys.stdout.fileno())
        return 0
    except OSError as error:
        note("day %s: %s" % (asked.command, ": ".join(str(part) for part in (error.filename, error.strerror) if part)))
        return 2
    finally:
        progress.over()


if __name__ == "__main__":
    sys.exit(main())
