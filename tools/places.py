#!/usr/bin/env python3
"""Lists the places of docs/DESIGN-PASS.md, point by point, in the sources of a checkout.

    python3 tools/places.py [FOLDER] [--lines]

FOLDER is the top of a checkout (this one, if none is given). A line a pattern: how many places match it; with --lines, each of them.
Comments are left out. Points 2, 4 and 7 are found by reading as well: what no pattern finds stands in the page by name."""
import collections
import pathlib
import re
import sys

PATTERNS = [
    ("1", "own enums", r"^(pub )?enum \w+"),
    ("1", "a number of a refusal, or a flag, beside a value: fields and parameters", r"^\s+(pub )?(number|failed|ended|finite|repeats|has_\w+): (u8|bool),$"),
    ("1", "functions that answer a number of one byte", r"^(pub |pub extern \"C\" )?fn .*-> u8$|^    (pub )?fn .*-> u8$|^\) -> u8$"),
    ("1", "a number of a refusal as a parameter in one line", r"^\s*(pub )?fn .*\bnumber: u8[,)]"),
    ("1", "not-a-number or 0 for none", r"0\.0 / 0\.0|^\s+0\.0$"),
    ("3", "loops by while", r"\bwhile\b"),
    ("3", "indexes counted by hand", r"^\s+\w+ [+-]= 1;$"),
    ("3", "loops over numbers by for", r"\bfor \w+ in [^&\[]*\.\."),
    ("4", "conversions by functions of their own", r"^\s*(pub )?fn (\w+_of|\w+_in|\w+_at|of_\w+|flag_number|digit)\b.*"),
    ("4", "comparison, equality, copying by functions of their own", r"^\s*(pub )?fn (is_same|copy_\w+|move_\w+|begins_with|is_\w*sorted)\b.*"),
    ("7", "a switch on what is to run", r"\bhistory: bool"),
    ("7", "flags as parameters", r"^\s*(pub )?fn .*\b\w+: bool[,)]|^    \w+: bool,$"),
]


def code_of(path):
    """The lines of a source, comments taken out."""
    return [re.sub(r"(^|\s)//.*$", "", line.rstrip("\n")) for line in path.open()]


def signatures(lines):
    """Each function's name, parameters and the facts that its `requires` join."""
    text = "\n".join(lines)
    for found in re.finditer(r"\bfn (\w+)(?:<[^(]*>)?\(", text):
        depth, end = 1, found.end()
        while depth and end < len(text):
            depth += {"(": 1, ")": -1}.get(text[end], 0)
            end += 1
        parameters = re.findall(r"(\w+): ([^,]*(?:\[[^\]]*\])?[^,]*)", text[found.end():end - 1])
        body = re.search(r"\n\s*\{\n|\n\s*\{\}|;\n", text[end:])
        head = text[end:end + (body.start() if body else 0)]
        facts = []
        for clause in re.findall(r"requires(?: \w+)? \{(.*?)\}\n", head + "\n", re.S):
            facts += [re.sub(r"\s+", " ", fact).strip(" ()") for fact in clause.split("×")]
        yield found.group(1), [(n, t.strip()) for n, t in parameters], facts


def main():
    arguments = [a for a in sys.argv[1:] if a != "--lines"]
    top = pathlib.Path(arguments[0] if arguments else pathlib.Path(__file__).resolve().parent.parent)
    sources = sorted(top.glob("crates/*/src/**/*.rt"))
    for point, what, pattern in PATTERNS:
        places = []
        for path in sources:
            for k, line in enumerate(code_of(path), 1):
                if re.search(pattern, line):
                    places.append(f"{path.relative_to(top)}:{k}: {line.strip()}")
        print(f"{point}  {what}: {len(places)}")
        if "--lines" in sys.argv:
            print("".join(f"      {place}\n" for place in places), end="")
    facts, takers, buffers = collections.defaultdict(list), collections.defaultdict(list), []
    for path in sources:
        for name, parameters, required in signatures(code_of(path)):
            where = f"{path.relative_to(top).parts[1]}::{name}"
            for fact in set(required):
                facts[fact].append(where)
            for parameter in {f"{n}: {re.sub('&mut ', '&', t)}" for n, t in parameters if n != "rt"}:
                takers[parameter].append(where)
            if any(re.search(r"\[.*; (MAX_\w+|\w+_EACH)\]", t) for n, t in parameters):
                buffers.append(where)
    often = {fact: users for fact, users in facts.items() if len(users) >= 3}
    print(f"5  facts that stand in the contracts of three functions or more: {len(often)}, in {sum(map(len, often.values()))} contracts")
    if "--lines" in sys.argv:
        for fact, users in sorted(often.items(), key=lambda p: -len(p[1])):
            print(f"      {fact}: {len(users)}: {', '.join(users)}")
    pairs = [(first, second) for first in takers for second in takers
             if first != second and len(takers[first]) >= 3 and set(takers[first]) <= set(takers[second])]
    print(f"5  parameters that never come without a certain other, of three functions or more: {len({first for first, _ in pairs})}")
    if "--lines" in sys.argv:
        for first in sorted({first for first, _ in pairs}):
            print(f"      {first}, with {'; '.join(s for f, s in pairs if f == first)}: {', '.join(takers[first])}")
    print(f"6  functions that take an array of a fixed length: {len(buffers)}")
    if "--lines" in sys.argv:
        print("".join(f"      {where}\n" for where in buffers), end="")
    answers = sorted(top.glob("crates/*/proofs/**/Answers.antt"))
    given = sum(len(re.findall(r"^pub [\w-]+ : goal\.", path.read_text(), re.M)) for path in answers)
    raw = sum(len(re.findall(r"\.(?:true|false)-raw", path.read_text())) for path in answers)
    print(f"8  files of answers: {len(answers)}, answers: {given}, citations of Rattle's own names: {raw}")


if __name__ == "__main__":
    main()
