#!/usr/bin/env python3
"""Brings the names of this repository's own definitions, lemmas and ghost fields to the toolchain's one spelling.

usage: python3 tools/respell.py      at the top of the repository, once, right after the toolchain's own port.py

Words joined by a dash or by a capital are joined by an underscore: noVolume and no-volume alike. Types and modules keep their capitals, and so
does whatever the library declares. Functions of src/, exported names, strings, inputs and outputs are not touched. What would fall together
is told apart in APART. Files are rewritten in place; the names that changed are printed, one a line, old and new.
"""

import os
import re
import sys

# Where a definition and a lemma would get one name, the lemma says what it is.
APART = {
    "no-volume": "no_volume_lem",
    "told-from": "told_from_lem",
    "event-of": "event_of_lem",
    "refused-lines": "refused_lines_lem",
    "entry-of": "entry_of_lem",
    "turn-of": "turn_of_lem",
    "shown-order": "shown_order_lem",
    "mix-number": "mix_number_lem",
    "mix-rounds": "mix_rounds_lem",
    "mixing-number": "mixing_number_lem",
    "read-values": "read_values_lem",
    "event-number": "event_number_lem",
    "mixing-of": "mixing_of_lem",
    "turn-number": "turn_number_lem",
    "turn-after": "turn_after_lem",
    "check-at": "check_at_lem",
    "make-refusal": "refusal_of_make",
    "step-refusal": "refusal_of_step",
    "is-nan": "is_nan_lem",
}
# The same, where the toolchain's own script has already joined the lemma's words: by file.
APART_IN = {"crates/tank_model/proofs/Course.antt": {"then_turns": "then_turns_lem"}}
# A module may not be called as one that the toolchain makes.
MOVED = [("crates/tank_arrays/specs/Contracts.antt", "crates/tank_arrays/specs/LaidOut.antt", "Rattle.tank_arrays.specs.Contracts", "Rattle.tank_arrays.specs.LaidOut", "pub mod Contracts", "pub mod LaidOut")]

DECLARED = re.compile(r"^\s*(?:(?:abbrev|unfoldable|pub|private|data|record|inductive) )*([^\s:(){}\[\]@;,.]+)\s*(?:[({].*)?:(?=\s|$)(.*)")
TOKEN = re.compile(r"[^\s(){}\[\].,;:@«»`\"]+")
USED = re.compile(r"\buse ([A-Za-z0-9_.+'-]+)\.\{([^}]*)\}")


def files(*ends):
    for folder, dirs, names in os.walk("crates"):
        dirs[:] = sorted(d for d in dirs if d != "out")
        for name in sorted(names):
            if name.endswith(ends):
                yield os.path.join(folder, name)


def read(path):
    with open(path, encoding="utf-8") as f:
        return f.read()


def write(path, text):
    with open(path, "w", encoding="utf-8") as f:
        f.write(text)


def joined(name):
    word = name.replace("-", "_")
    if re.match(r"[a-z]", word):
        word = re.sub(r"(?<=[a-z0-9])([A-Z])", lambda m: "_" + m.group(1).lower(), word)
    return word


def own_names():
    """Old and new spelling of each name that specs/ and proofs/ declare. Goals and steps that the toolchain makes, which a walk by hand repeats, are none."""
    found, made = set(), set()
    for path in files(".antt"):
        text = read(path)
        made |= set(re.findall(r"\b(?:tie|goal)\.([^\s(){}\[\].,;]+)", text))
        for line in text.splitlines():
            m = DECLARED.match(line)
            if m and not line.lstrip().startswith("--") and not re.match(r"\s*(tie|goal)\.", m.group(2)):
                found.add(m.group(1))
    made |= {m[len("Need-"):] for m in made if m.startswith("Need-")}
    names = {n: APART.get(n, joined(n)) for n in found if re.match(r"[A-Za-z]", n) and re.fullmatch(r"[A-Za-z0-9_'-]+", n) and n not in made}
    return {a: b for a, b in names.items() if a != b}


def imported(text, crates):
    """What a file takes from the library, whose names keep their spelling."""
    kept = set()
    for path, words in USED.findall(text):
        part = path.split(".")
        if not (part[0] == "Rattle" and len(part) > 1 and part[1] in crates):
            kept |= {w.strip().split(" as ")[-1].strip() for w in words.split(",")}
    return kept


def turn(line, names):
    return TOKEN.sub(lambda m: names.get(m.group(0), m.group(0)), line)


def turn_code(line, names):
    """A line of a .rt file: strings stay, and a comment's words where they are not in backticks."""
    code, mark, comment = line.partition("//")
    parts = re.split(r'("(?:[^"\\]|\\.)*")', code)
    code = "".join(p if i % 2 else turn(p, names) for i, p in enumerate(parts))
    return code + mark + turn_ticks(comment, names)


def turn_ticks(text, names):
    return re.sub(r"`[^`\n]*`", lambda m: turn(m.group(0), names), text)


def turn_proof(line, names):
    code, mark, comment = line.partition("-- ") if not line.lstrip().startswith("--") else ("", "", line)
    return turn(code, names) + mark + turn_ticks(comment, names)


def main():
    crates = set(os.listdir("crates"))
    for old, new, path, to, item, item_to in MOVED:
        if os.path.exists(old):
            os.rename(old, new)
            for p in files(".antt", ".rt", ".edit"):
                text = read(p)
                if path in text or os.path.basename(old) in text:
                    write(p, re.sub(re.escape(path) + r"\b", to, text).replace(old.split("/", 2)[2], new.split("/", 2)[2]))
            lib = os.path.join(os.path.dirname(new), "Lib.antt")
            write(lib, read(lib).replace(item, item_to))
    names = own_names()
    for path in files(".antt", ".rt", ".edit"):
        text = read(path)
        here = {a: b for a, b in names.items() if a not in imported(text, crates)} | APART_IN.get(path, {})
        lines = text.split("\n")
        if path.endswith(".antt"):
            lines = [turn_proof(l, here) for l in lines]
        elif path.endswith(".rt"):
            lines = [turn_code(l, here) for l in lines]
        else:
            lines = [turn(l, here) if re.match(r"(old|new): ", l) else l for l in lines]
        if lines != text.split("\n"):
            write(path, "\n".join(lines))
    for old in sorted(names):
        print(old, names[old])


if __name__ == "__main__":
    sys.exit(main())
