"""Builds the proved programs with the toolchain's `rt all test`, where they are missing or older than their sources.

It says in one line how far it is and how long it may still take; what rt prints goes to a file under target/.
"""

import contextlib
import os
import re
import shutil
import signal
import subprocess
import time

import programs
import progress
from inputs import Wrong

ROOT = os.path.dirname(os.path.dirname(os.path.abspath(__file__)))
TARGET = os.path.join(ROOT, "target")
FOLDER = os.path.join(TARGET, "sample")
PROGRAMS = ("job", "history", "long_job")
SAID = re.compile(r"== (\w+)$")  # rt prints it when a crate is done, and what it has to say of it under that
TAKEN = ": begins with what a check kept in "  # what is kept of a crate came from another folder of this machine
FAILED = re.compile(r"\w+: (?:failed \(|not run, since )")
EACH = 3 << 20  # KB of memory for each of the crates that are proved side by side

# Seconds for each crate, measured once, with rattle-kit-5b-plain on two cores: what counts is how they compare.
COSTS = {"refusals": 3, "numeric": 9, "shorter_sums": 4, "streams": 12, "mixing": 2, "plain_mixing": 9, "group_sums": 6, "layer_joining": 9}
COSTS.update({"running_group": 8, "rearrange": 9, "cylinder": 4, "draw_off": 10, "layer_filling": 5, "repeating_layers": 4})
COSTS.update({"refill": 9, "draw_events": 12, "set_points": 3, "layer_losses": 6, "thermal_losses": 8, "heating": 7})
COSTS.update({"heater_switches": 4, "immersion_heater": 9, "working_order": 4, "tank_model": 5, "tank_refusals": 14})
COSTS.update({"heater_turns": 14, "step_work": 10, "storage_tank": 15, "job_lines": 17, "job_records": 6, "record_bodies": 14})
COSTS.update({"job_reader": 7, "job_model": 3, "job_run": 20, "job_history": 20, "input_window": 5, "job_windows": 18, "job": 16})
COSTS.update({"history": 13, "long_job": 13})
UNKNOWN = 20  # for a crate that is not among them


# What there is to do


def listed():
    """The crates of crates.txt, each with those of them that it depends on."""
    try:
        with open(os.path.join(ROOT, "crates.txt"), encoding="utf-8") as file:
            lines = [line.partition("#")[0] for line in file]
    except OSError:
        raise Wrong("%s is not there: the programs are built from a whole repository" % shown("crates.txt")) from None
    pairs = [line.partition(":") for line in lines if ":" in line]
    # After a name may stand what the crate is, as `shim staticlib`.
    names = {name.split()[0] for name, _, _ in pairs}
    return {name.split()[0]: [word for word in needs.split() if word in names] for name, _, needs in pairs}


def levels(crates):
    """The crates that the programs need, by level: those of one level need nothing of each other.

    What a program needs comes with it, and what an earlier one needed has come already.
    """
    found = []
    for program in PROGRAMS:
        before, level = {name for part in found for name in part}, {}

        def visit(name):
            if name not in before and name not in level:
                level[name] = 1 + max([visit(need) for need in crates.get(name, [])], default=0)
            return level.get(name, 0)

        visit(program)
        found += [[name for name in level if level[name] == at] for at in range(1, 1 + max(level.values(), default=0))]
    return found


def newest(names):
    """When a file that a crate is proved from was last changed."""
    times = [os.stat(os.path.join(ROOT, "crates.txt")).st_mtime_ns]
    for name in names:
        for folder, inner, files in os.walk(os.path.join(ROOT, "crates", name)):
            inner[:] = [other for other in inner if other not in ("must-fail", "out")]
            times += [os.stat(os.path.join(folder, file)).st_mtime_ns for file in files]
    return max(times)


def when(path):
    """When a file was written, or 0."""
    try:
        return os.stat(path).st_mtime_ns
    except OSError:
        return 0


def built(name):
    return programs.built(name, os.path.join(ROOT, "crates"))


def there():
    """Every program is there and can be run."""
    return all(os.access(built(name), os.X_OK) for name in PROGRAMS)


def proved(name):
    """When rt proved and built a program, or 0: it leaves its own stamp last, and rt ci what the program wrote.

    A mark of our own says when rt was last asked: it may leave a stamp alone where nothing changed.
    """
    if when(built(name) + ".stamp"):
        return max(when(built(name) + ".stamp"), when(os.path.join(FOLDER, "asked")))
    wrote = when(os.path.join(os.path.dirname(built(name)), "stdout"))
    return when(built(name)) if wrote >= when(built(name)) else 0


def up_to_date():
    """Every program is there as rt left it, and nothing was changed since."""
    names = [name for level in levels(listed()) for name in level]
    return there() and min(map(proved, PROGRAMS)) >= newest(names)


# How far it is


class Estimate:
    """How far rt is, and how long it may still take."""

    def __init__(self, plan, at_once):
        # As rt does it: some crates of a level at once, and the next ones when all of these are done.
        self.batches = [level[at : at + at_once] for level in plan for at in range(0, len(level), at_once)]
        self.count = sum(map(len, plan))
        self.took, self.since, self.began, self.last = {}, time.monotonic(), time.monotonic(), None

    def line(self, line):
        """A crate is done, or what rt did for the one that it named last; of a crate that was there it says nothing."""
        found = SAID.match(line)
        name = found.group(1) if found else None
        if TAKEN in line:
            return
        if line.startswith("only="):
            # A quick pass over the sources has ended, and the proofs begin.
            self.since = self.began = time.monotonic()
        if not found and self.last:
            self.took.update([self.last])
        self.last = None
        if name not in self.took and any(name in batch for batch in self.batches):
            before, self.since = self.now(), time.monotonic()
            self.took[name], self.last = None, (name, self.since - self.began)
            if self.now() != before:
                self.began = self.since

    def now(self):
        """The crates of which rt is proving those that are not done, or None."""
        return next((batch for batch in self.batches if any(name not in self.took for name in batch)), None)

    def slower(self):
        """How this machine's seconds compare with those above, by what was seen so far."""
        seen = [(took, COSTS.get(name, UNKNOWN)) for name, took in self.took.items() if took is not None]
        return sum(took for took, _ in seen) / sum(cost for _, cost in seen) if seen else 1

    def left(self):
        """Seconds. Where the crates of now take longer than was thought, so will those that come."""
        left = [[name for name in batch if name not in self.took] for batch in self.batches]
        now, *later = [max(COSTS.get(name, UNKNOWN) for name in batch) for batch in left if batch] or [0]
        waited = time.monotonic() - self.since
        slower = max(self.slower(), waited / now if now else 0)
        return now * slower - waited + sum(later) * slower if now else 0

    def words(self):
        now = self.now()
        if now is None:
            return "building: all %d crates are proved, the programs are tried" % self.count
        names = " and ".join(name for name in now if name not in self.took)
        at = min(self.count, len(self.took) + 1)
        return "building: crate %d of %d, %s; %s left" % (at, self.count, names, about(self.left()))


def about(seconds):
    if seconds < 10:
        return "a few seconds"
    return "about %d min" % round(seconds / 60) if seconds >= 90 else "about %d s" % (10 * round(seconds / 10))


# Doing it


def at_once():
    """How many crates rt is to prove at a time."""
    asked = os.environ.get("RT_JOBS", "")
    if asked.isdigit() and int(asked):
        return int(asked)
    with open("/proc/meminfo", encoding="ascii") as file:
        free = int(re.search(r"^MemAvailable: +(\d+) kB$", file.read(), re.MULTILINE).group(1))
    return max(1, min(4, len(os.sched_getaffinity(0)), free // EACH))


def shown(*parts):
    return os.path.relpath(os.path.join(ROOT, *parts))


def stop(process):
    """Ends rt and all that it started, which are a group of their own."""
    try:
        os.killpg(process.pid, signal.SIGTERM)
        process.wait(5)
    except ProcessLookupError:
        pass
    except (subprocess.TimeoutExpired, KeyboardInterrupt):
        os.killpg(process.pid, signal.SIGKILL)
        process.wait()


@contextlib.contextmanager
def held_back():
    """A signal that comes meanwhile is heeded at the end: what was being started is known by then, and is ended."""
    came, before = [], {}
    for number in (signal.SIGINT, signal.SIGTERM, signal.SIGHUP):
        if callable(signal.getsignal(number)):
            before[number] = signal.signal(number, lambda *told: came.append(told))
    try:
        yield
    finally:
        for number, handler in before.items():
            signal.signal(number, handler)
    for number, frame in came:
        before[number](number, frame)


def ask(rt, estimate, log):
    """Has rt prove, build and try each program with all that it needs; the answer is the first exit status that is not 0."""
    with open(log, "wb") as out:
        return next(filter(None, (ask_for(name, rt, estimate, out) for name in PROGRAMS)), 0)


def ask_for(name, rt, estimate, out):
    """Runs rt in a program's folder; the answer is its exit status. Whatever interrupts this ends rt too."""
    words, folder = [rt, "all", "test", "--jobs", str(at_once())], os.path.join(ROOT, "crates", name)
    said = dict(stdin=subprocess.DEVNULL, stdout=subprocess.PIPE, stderr=subprocess.STDOUT)
    process = None
    try:
        with held_back():
            process = subprocess.Popen(words, cwd=folder, start_new_session=True, **said)
        with process.stdout:
            for line in process.stdout:
                out.write(line)
                out.flush()
                estimate.line(line.decode("utf-8", "replace"))
        return process.wait()
    finally:
        if process is not None and process.poll() is None:
            stop(process)


def reason_in(log):
    """The line of rt's output that says what failed first: a crate that is not proved, or else the last one."""
    with open(log, encoding="utf-8", errors="replace") as file:
        lines = [line.strip() for line in file]
    failed, last = [line for line in lines if FAILED.match(line)], [line for line in lines if line.startswith("rt: ")][-1:]
    return (failed or last or ["rt said nothing of why"])[0]


def build(note):
    """Builds what is missing; `note` says a line."""
    if there() and up_to_date():
        return
    rt = shutil.which("rt")
    if rt is None and there():
        note("note: the programs may be older than their sources, and there is no rt on the path to build them anew")
        return
    if rt is None:
        missing = [name for name in PROGRAMS if not when(built(name))]
        raise Wrong(
            "%s not built (crates/*/out), and the Rattle toolchain that proves and builds them is missing: "
            "there is no program rt on the path" % (", ".join(missing) + (" are" if len(missing) > 1 else " is"))
        )
    import fcntl  # not there on every system; the other commands do without it

    os.makedirs(FOLDER, exist_ok=True)
    with open(os.path.join(FOLDER, "lock"), "w") as lock:
        try:
            fcntl.flock(lock, fcntl.LOCK_EX | fcntl.LOCK_NB)
        except OSError:
            raise Wrong("another day/day sample is building the programs: wait until it has ended") from None
        build_with(rt, note)


def build_with(rt, note):
    log, mark = os.path.join(FOLDER, "build.log"), os.path.join(FOLDER, "asked")
    began, start = time.time_ns(), time.monotonic()
    estimate = Estimate(levels(listed()), at_once())
    progress.now_told(estimate.words)
    status = ask(rt, estimate, log)
    if status or not there():
        why = reason_in(log) if status else "rt ended well, and not all programs are there"
        raise Wrong("the programs could not be built: %s; all that rt said is in %s" % (why, shown(log)))
    with open(mark, "w"):
        os.utime(mark, ns=(began, began))
    if any(took is not None for took in estimate.took.values()):
        note("built %s in %s" % (", ".join(PROGRAMS), about(time.monotonic() - start).replace("about ", "")))
