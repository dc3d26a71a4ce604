"""README.md and the pages of docs/: samples are passages of proved code, paths and commands name what is there.

The sample program first_tank is held to document 01 written in Python (compare/model.py).
"""

import glob
import os
import re
import textwrap
import unittest

from common import ROOT, bits
import refusals
import second_opinion  # noqa: F401  puts compare/ on the path
import model

BLOCK = re.compile(r"^```(\w*)\n(.*?)^```$", re.MULTILINE | re.DOTALL)
CODE = re.compile(r"`([^`\n]+)`")
LINK = re.compile(r"\]\(([^)#\s]+)[^)]*\)")
SUFFIX = re.compile(r"\.(antt|rt|md|py|rs|edit|day|svg|job|txt)$")


def pages():
    """README.md and docs/*.md with their texts."""
    names = sorted(name for name in os.listdir(os.path.join(ROOT, "docs")) if name.endswith(".md"))
    return [(name, read(name)) for name in ["README.md"] + ["docs/" + name for name in names]]


def read(path):
    with open(os.path.join(ROOT, path), encoding="utf-8") as file:
        return file.read()


def crates():
    lines = [line.split("#")[0] for line in read("crates.txt").splitlines()]
    return [line.split(":")[0].split()[0] for line in lines if ":" in line]


def found(*parts):
    return bool(glob.glob(os.path.join(ROOT, *parts)))


# Samples


def code_files():
    return sorted(glob.glob(os.path.join(ROOT, "crates", "*", "src", "**", "*.rt"), recursive=True))


def holds_passage(lines, passage):
    """Whether the passage's lines stand one after another among the lines, however far both are indented."""
    count = len(passage)
    for at in range(len(lines) - count + 1):
        if lines[at].strip() == passage[0].strip():
            if textwrap.dedent("\n".join(lines[at : at + count])).split("\n") == passage:
                return True
    return False


def is_passage(block):
    passage = textwrap.dedent(block).strip("\n").split("\n")
    for path in code_files():
        with open(path, encoding="utf-8") as file:
            if holds_passage(file.read().split("\n"), passage):
                return True
    return False


class Samples(unittest.TestCase):
    def test_every_sample_is_a_passage_of_the_code(self):
        count = 0
        for page, text in pages():
            for language, block in BLOCK.findall(text):
                if language in ("rust", "rattle"):
                    self.assertTrue(block.strip(), page)
                    self.assertTrue(is_passage(block), "%s: no file of crates/ has this passage:\n%s" % (page, block))
                    count += page == "README.md"
        self.assertGreaterEqual(count, 4, "README.md has a sample for each of the four calls")

    def test_a_changed_sample_is_none(self):
        """Each sample of README.md with one character changed, or with its first two lines exchanged."""
        for _, block in [pair for pair in BLOCK.findall(read("README.md")) if pair[0] == "rust"]:
            lines = block.split("\n")
            self.assertFalse(is_passage(block.replace("0", "1", 1)), block)
            self.assertFalse(is_passage("\n".join(lines[1::-1] + lines[2:])), block)


# Paths and commands


def looks_like_path(word):
    """A path of the repository: one from the root of the machine is none."""
    return not word.startswith("/") and ("/" in word or bool(SUFFIX.search(word)))


def is_there(word):
    """A path from the top, from docs/ or crates/, or within some crate; a crate's wrong program; a file by its name."""
    word = re.sub(r"\b[A-Z]{3,}\b(?!\.md)", "*", word).rstrip("/")
    tries = [(word,), ("docs", word), ("crates", word), ("crates", "*", word), ("compare", "judge", "src", word)]
    crate, _, rest = word.partition("/")
    if rest and "/" not in rest:
        tries.append(("crates", crate, "must-fail", rest + ".edit"))
    if not rest:
        tries += [("crates", "*", part, word) for part in ("specs", "proofs", "src")]
    return any(found(*parts) for parts in tries)


def first_word(command):
    """What a command runs: its first word after assignments."""
    words = command.split()
    while words and re.match(r"^[A-Z_]+=", words[0]):
        words = words[1:]
    return words[0] if words else ""


def is_built(word):
    """A program or a library that a command makes: crates/NAME/out/NAME is the program of a crate, libNAME.a its library."""
    made = re.fullmatch(r"crates/(\w+)/out(/.+)?", word)
    if made:
        crate, file = made.groups()
        source = {"/" + crate: "main.rt", "/lib%s.a" % crate: "lib.rt", None: "*.rt"}.get(file)
        return source is not None and found("crates", crate, "src", source)
    return word.startswith(("target/", "compare/target/"))


def commands(block):
    for line in block.splitlines():
        for command in re.split(r"&&|\|\||[|;]", line.split(" #")[0]):
            if command.strip() and not command.startswith("#"):
                yield command.strip().strip("()")


class Paths(unittest.TestCase):
    def test_every_path_in_backticks_is_there(self):
        count = 0
        for page, text in pages():
            for words in CODE.findall(BLOCK.sub("", text)):
                word = first_word(words)
                if looks_like_path(word) and "..." not in word and not is_built(word):
                    self.assertTrue(is_there(word), "%s names `%s`, which is not there" % (page, words))
                    count += 1
        self.assertGreater(count, 200)

    def test_every_link_is_there(self):
        for page, text in pages():
            for target in LINK.findall(text):
                if "://" not in target:
                    path = os.path.normpath(os.path.join(os.path.dirname(page), target))
                    self.assertTrue(found(path), "%s links to %s, which is not there" % (page, target))

    def test_what_is_not_there_is_noticed(self):
        wrong = "crates/job/stdon", "day/dya", "docs/MODELS.md", "mixing/62_rounds", "specs/Drow.antt", "Lossses.antt"
        for word in wrong:
            self.assertTrue(looks_like_path(word) and not is_there(word) and not is_built(word), word)
        for word in ("crates/jobb/out/jobb", "crates/job/out/jobb", "crates/job/out/libjob.a"):
            self.assertFalse(is_built(word), word)


class Commands(unittest.TestCase):
    def test_every_command_names_a_script_and_files_that_are_there(self):
        listed, count = crates(), 0
        for page, text in pages():
            for language, block in BLOCK.findall(text):
                for command in commands(block) if language == "sh" else ():
                    self.check(page, command, listed)
                    count += 1
        self.assertGreater(count, 10)

    def check(self, page, command, listed):
        said = "%s: %s" % (page, command)
        words = command[command.index(first_word(command)) :].split()
        name, rest = words[0], words[1:]
        if "/" in name:
            path = os.path.join(ROOT, name)
            self.assertTrue(is_built(name) or os.access(path, os.X_OK), said)
        else:
            self.assertIn(name, ("rt", "cd", "git", "python3", "cat", "sed", "valgrind"), said)
        if name == "cd":
            self.assertIn(os.path.relpath(rest[0], "crates"), listed, said)
        if name == "rt":
            self.assertIn(rest[0], ("all", "check", "ci", "doc", "lib", "run", "test", "try", "version"), said)
        if name == "rt" and rest[0] == "ci":
            for crate in rest[1:]:
                self.assertIn(crate, listed, said)
        for before, word in zip(words, rest):
            if "/" in word and before not in ("-o", ">"):
                self.assertTrue(is_there(word) or is_built(word), said)


# The table of crates


class Crates(unittest.TestCase):
    def rows(self):
        """Crates, then the columns of their row in docs/CRATES.md."""
        for line in read("docs/CRATES.md").splitlines():
            if line.startswith("| `"):
                columns = [column.strip() for column in line.strip("|").split("|")]
                yield CODE.findall(columns[0]), columns[1:]

    def test_every_crate_has_one_row(self):
        named = [crate for row, _ in self.rows() for crate in row]
        self.assertEqual(len(named), len(set(named)))
        self.assertEqual([crate for crate in crates() if crate not in named], [])

    def test_the_files_of_a_row_are_there(self):
        """Of the columns promises, code and reasons: a name in backticks is a file of specs/, src/ or proofs/."""
        count = 0
        for names, columns in self.rows():
            for crate in set(names) & set(crates()):
                for folder, suffix, column in zip(("specs", "src", "proofs"), (".antt", ".rt", ".antt"), columns[2:5]):
                    for name in CODE.findall(column):
                        path = (name,) if name == "stdout" else (folder, name + suffix)
                        self.assertTrue(found("crates", crate, *path), (crate, folder, name))
                        count += 1
        self.assertGreater(count, 60)


class Numbers(unittest.TestCase):
    def test_each_number_of_the_model_stands_in_its_file(self):
        """The table of docs/MODEL.md: what is written, and in which file."""
        rows = re.findall(r"^\| ([^|]+) \| [^|]+ \| `([^`]+)` \| `([^`]+)` \|$", read("docs/MODEL.md"), re.MULTILINE)
        self.assertGreater(len(rows), 10)
        for number, written, path in rows:
            self.assertIn(written, read(path), number)


    def test_refusals_have_the_numbers_of_01(self):
        """The rows of docs/MODEL.md are in its own words; their limits are those of 01's sentences."""
        rows = dict(re.findall(r"^\| (\d+) \| ([A-Z][^|]+\.) \|$", read("docs/MODEL.md"), re.MULTILINE))
        self.assertEqual(list(map(int, rows)), list(refusals.WORDS))
        for number, words in refusals.WORDS.items():
            limits = re.findall(r"\d+", re.sub(r"\([^)]*\)", "", words))
            self.assertEqual(re.findall(r"\d+", rows[str(number)]), limits, number)

    def test_sums_of_the_worked_figures(self):
        """Each `sum = number` of the section, worked out again."""
        section = " ".join(read("docs/MODEL.md").partition("## The figures, worked out")[2].split())
        sums = re.findall(r"([\d(][\d (),.×/+-]*[\d)]) = (-?\d[\d.,]*\d|\d+)( / \d+)?", section)
        self.assertGreater(len(sums), 11)
        for left, right, over in sums:
            first, second = (eval(side.replace("×", "*").replace(",", "")) for side in (left, right + over))
            self.assertEqual(first, second, left)

    def test_the_figures_are_those_of_01(self):
        """A draw of one layer, of more than the tank, a warm feed, and the limit, by document 01 in Python."""
        section = " ".join(read("docs/MODEL.md").partition("## The figures, worked out")[2].split())
        for layers, feed, draw, due in ((4, 12, 16, "= 768"), (4, 12, 80, "= 3072"), (2, 70, 16, "= -160")):
            tank = model.Tank(layers, 16.0 * layers, 0.0, 60.0, 1.0, 1.0, 20.0, 1.0)
            tank.make()
            (energy, *_), _ = model.run_step(tank, (float(feed), [float(draw)], []))
            self.assertEqual(due, "= %g" % energy)
            self.assertIn(due, section)


class Small(unittest.TestCase):
    def test_the_stack_is_as_measured(self):
        (measured,) = re.findall(r"^A step's stack is ([\d,]+) bytes", read("docs/PERFORMANCE.md"), re.MULTILINE)
        self.assertIn("a step takes %s bytes of stack" % measured, read("README.md"))

    def test_damage_says_first_how_long_it_takes(self):
        lines = [line for line in read("compare/damage").splitlines() if line and not line.startswith("#")]
        told = [at for at, line in enumerate(lines) if re.search(r'echo ".*: 3 to 5 minutes on two cores', line)]
        works = [at for at, line in enumerate(lines) if " damage " in line]
        self.assertTrue(told and works and told[0] < works[0], lines)
        self.assertIn("3 to 5 minutes on two cores, as it says first", read("compare/README.md"))

    def test_licences(self):
        for name in ("LICENSE", "NOTICE"):
            self.assertTrue(read(name).startswith("The MIT License (MIT)\n\nCopyright (c) 20"), name)
            self.assertIn("`%s` (MIT" % name, read("README.md"))


# The sample program


def shown(x):
    """A double as first_tank prints it."""
    return "%d" % x if 0.0 <= x < 2.0**64 and x == int(x) else bits(x)


def layers_line(layers):
    return "  layers " + " ".join(map(shown, layers))


def step_lines(number, totals, layers, turn):
    names = ("energy", "volume", "average", "recoverable")
    yield "step %d: " % number + ", ".join("%s %s" % pair for pair in zip(names, map(shown, totals)))
    yield layers_line(layers)
    figures = shown(turn.adjusted), shown(turn.supplied), shown(turn.losses)
    told = "adjusted %s, supplied %s, losses %s" % figures
    yield "  heater: flag %d, %s, rounds %d" % (turn.flag, told, turn.rounds)


def tank_lines():
    """01's figure: two layers at 40, 160 kW at position 0, set points 50 and 60; then a feed that is not a number."""
    tank = model.Tank(2, 32.0, 0.0, 40.0, 1.0, 1.0, 20.0, 1.0)
    tank.heaters, tank.flags = [model.Heater(160.0, 0.0, None)], [False]
    tank.make()
    yield "make %d" % (model.check_tank(tank, tank.layers) or model.check_heater(tank.heaters[0]))
    yield layers_line(tank.layers)
    for feed in (12.0, 12.0, float("nan")):
        try:
            number, (totals, (turn,)) = 0, model.run_step(tank, (feed, [], [(50.0, 60.0)]))
        except model.Refusal as refusal:
            number = refusal.number
        yield from step_lines(number, totals, tank.layers, turn)


def mix_lines():
    layers, rounds = model.mix_call(16.0, [50.0, 40.0])
    yield "mix 0: rounds %d" % rounds
    yield layers_line(layers)


def record_words(kind, content):
    if kind == "tank":
        return "tank, layers %d, initial %s" % (content.count, shown(content.initial))
    if kind == "heater":
        return "heater, rated %s, position %s" % (shown(content.rated), shown(content.position))
    feed, volumes, set_points = content
    return "step, feed %s, volume %s, lower %s, upper %s" % tuple(map(shown, (feed, volumes[0]) + set_points[0]))


def record_lines(job):
    at, tank, stepped = 0, None, False
    while True:
        try:
            (kind, content), at = model.read(job, at, tank, stepped, False)
        except model.Refusal as refusal:
            yield "read %d: next %d" % (refusal.number, at)
            return
        yield "read 0: next %d, %s" % (at, record_words(kind, content))
        if kind == "tank":
            tank = content
        elif kind == "heater":
            tank.heaters.append(content)
        stepped = stepped or kind == "step"


class FirstTank(unittest.TestCase):
    def setUp(self):
        with open(os.path.join(ROOT, "crates", "first_tank", "stdin"), "rb") as file:
            self.job = file.read()

    def test_it_must_print_what_document_01_says(self):
        lines = list(tank_lines()) + list(mix_lines()) + list(record_lines(self.job))
        self.assertEqual(read("crates/first_tank/stdout").splitlines(), lines)

    def test_its_job_is_the_second_example_of_the_format(self):
        examples = []
        for at, row in re.findall(r"^    (\d+) +((?:[0-9a-f]{2} )+)", read("docs/JOB_FORMAT.md"), re.MULTILINE):
            if at == "0":
                examples.append(b"")
            examples[-1] += bytes.fromhex(row)
        self.assertEqual(examples[1], self.job)


if __name__ == "__main__":
    unittest.main()
