"""The course runs as it stands: quotes, pictures and numbers are those of the commands."""

import os
import re
import unittest

from common import day_command
import programs
import quoted
import records
import report
import table
import text
import turns
import why

NUMBER = re.compile(r"\b[0-9]+\.[0-9]{2} C\b")


class Course(unittest.TestCase):
    def setUp(self):
        with open(quoted.COURSE, encoding="utf-8") as file:
            self.text = file.read()
        sections = re.finditer(r"## ([1-5])\. .*?(?=\n## |\Z)", self.text, re.DOTALL)
        self.sections = {match.group(1): match.group(0) for match in sections}

    def quotes(self):
        return [quote for block in quoted.BLOCK.findall(self.text) for quote in quoted.commands(block)]

    def test_five_days_each_with_file_picture_and_two_questions(self):
        names = quoted.days()
        self.assertEqual([name[0] for name in names], list("12345"))
        for name in names:
            section = self.sections[name[0]]
            self.assertIn("`docs/course/%s.day`" % name, section)
            self.assertIn("](course/%s.svg)" % name, section)
            asked = re.findall(r"^\*\*(Question [0-9]|Answer)\.\*\* \S", section, re.MULTILINE)
            self.assertEqual(asked, ["Question 1", "Answer", "Question 2", "Answer"])

    def test_tables_are_what_is_printed(self):
        tables = [quote for quote in self.quotes() if "day/day run" in quote[0]]
        self.assertGreaterEqual(len(tables), 5)
        for command, stands in tables:
            self.assertEqual(quoted.printed(command), stands, command)

    def test_reasons_are_what_is_printed(self):
        reasons = [quote for quote in self.quotes() if "day/day why" in quote[0]]
        self.assertGreaterEqual(len(reasons), 5)
        tables = [quote for quote in self.quotes() if "day/day run" in quote[0]]
        self.assertEqual(len(reasons) + len(tables), len(self.quotes()))
        for command, stands in reasons:
            self.assertEqual(quoted.printed(command), stands, command)

    def test_pictures_are_what_is_drawn(self):
        for name in quoted.days():
            with open(quoted.picture_path(name), "rb") as file:
                self.assertEqual(day_command("draw", "docs/course/%s.day" % name).stdout, file.read(), name)

    def test_temperatures_in_the_words_are_the_programs(self):
        """Each `56.44 C` of a section stands in the table of its day or among the reasons after some step."""
        count = 0
        for name in quoted.days():
            asked = set(NUMBER.findall(quoted.BLOCK.sub("", self.sections[name[0]])))
            with open(os.path.join(quoted.FOLDER, name + ".day"), "rb") as file:
                day = text.read_text(file.read())
            job, steps = records.job_bytes(day), len(day.steps)
            result = report.read_report(programs.lines_of("job", job, steps), day.working_order())
            history = turns.read_history(programs.lines_of("history", job, steps))
            shown = table.table(day, result, name) + "".join(why.why(day, history, step) for step in range(steps))
            known = {number + " C" for number in re.findall(r"\b[0-9]+\.[0-9]{2}\b", shown)}
            self.assertEqual(asked - known, set(), name)
            count += len(asked)
        self.assertGreater(count, 10)


if __name__ == "__main__":
    unittest.main()
