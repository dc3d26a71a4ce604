"""The commands that docs/COURSE.md quotes, with what they print, and its pictures.

    python3 day/tests/quoted.py     writes outputs and pictures anew, after a change that was meant
"""

import os
import re
import subprocess

from common import ROOT
import files

COURSE = os.path.join(ROOT, "docs", "COURSE.md")
FOLDER = os.path.join(ROOT, "docs", "course")
BLOCK = re.compile(r"```console\n(.*?)```\n", re.DOTALL)


def printed(command):
    """What the shell prints for a command at the top of the repository, and its complaints."""
    done = subprocess.run(["sh", "-c", command], cwd=ROOT, stdout=subprocess.PIPE, stderr=subprocess.STDOUT)
    return done.stdout.decode()


def commands(block):
    """The commands of a block with what stands under each."""
    found = []
    for line in block.splitlines(keepends=True):
        if line.startswith("$ "):
            found.append([line[2:].rstrip("\n"), ""])
        else:
            found[-1][1] += line
    return found


def days():
    return sorted(name[: -len(".day")] for name in os.listdir(FOLDER) if name.endswith(".day"))


def picture_path(name):
    return os.path.join(FOLDER, name + ".svg")


def anew(match):
    quotes = ["$ %s\n%s" % (command, printed(command)) for command, _ in commands(match.group(1))]
    return "```console\n%s```\n" % "".join(quotes)


def main():
    with open(COURSE, encoding="utf-8") as file:
        text = file.read()
    for name in days():
        print(printed("day/day draw docs/course/%s.day -o docs/course/%s.svg" % (name, name)), end="")
    files.write_whole(COURSE, BLOCK.sub(anew, text).encode())


if __name__ == "__main__":
    main()
