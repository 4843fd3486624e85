#!/usr/bin/env python3
"""Brings the repository's own definitions and lemmas to snake case, by the table beside this file: respell.py [FOLDER].

For the move to today's Rattle (docs/PORT.md): run once after /opt/rattle/port/port.py, at the top of the repository. The table was made
once, from the names as port.py leaves them: a definition in camel case gets underscores; a lemma's dash stays where a name of a
definition stands before it, else it becomes an underscore; a name of a library, or one that would fall together with another, stays.
It turns the .antt and .rt files of crates/, and the lines `old:` and `new:` of the must-fail edits.
"""
import os
import re
import sys

HERE = os.path.dirname(os.path.realpath(__file__))
LETTERS = "A-Za-z0-9_'\\-₀₁₂₃₄₅₆₇₈₉α-ωΑ-Ωℕℤ≢≡≤′"
TOKEN = re.compile(f"[{LETTERS}]+")

# lemmas that would have their function's name, in the files that name them; done first
LOCAL = [
    ("crates/run/proofs/Turns.antt", "go_on", "go_on_lem"),
    ("crates/rules/proofs/Plain.antt", "is_true", "is_true_lem"),
    ("crates/compare/proofs/PlainTests.antt", "is_true", "is_true_lem"),
    ("crates/compare/proofs/Starts.antt", "is_true", "is_true_lem"),
    ("crates/rule_laws/proofs/Commands.antt", "by_form", "by_form_lem"),
    ("crates/raised/proofs/Readers.antt", "command-word", "command_here"),
    ("crates/layout/proofs/Spelled.antt", "command-word", "command_here"),
    ("crates/judge/proofs/Going.antt", "one_more", "one_more_lem"),
    ("crates/outcomes/proofs/ProgramGoal.antt", "pre_at", "pre_there"),
    ("crates/sets/proofs/Trees.antt", "seen_all", "seen_all_lem"),
    ("crates/raised/proofs/Judged.antt", "too_large", "too_large_kept"),
]


def table():
    with open(os.path.join(HERE, "respelled.tsv"), encoding="utf-8") as f:
        return dict(line.rstrip("\n").split("\t") for line in f)


def turn(text, names):
    return TOKEN.sub(lambda m: names.get(m.group(0), m.group(0)), text)


def turn_edit(text, names):
    lines = []
    for line in text.split("\n"):
        if line.startswith(("old: ", "new: ")):
            line = turn(line, names)
        lines.append(line)
    return "\n".join(lines)


def main(root):
    names = table()
    for path, old, new in LOCAL:
        path = os.path.join(root, path)
        if os.path.exists(path):
            with open(path, encoding="utf-8") as f:
                text = f.read()
            with open(path, "w", encoding="utf-8") as f:
                f.write(turn(text, {old: new}))
    for folder, folders, files in os.walk(os.path.join(root, "crates")):
        folders[:] = sorted(d for d in folders if d != "out")
        for name in sorted(files):
            path = os.path.join(folder, name)
            if name.endswith((".antt", ".rt", ".edit")):
                with open(path, encoding="utf-8") as f:
                    text = f.read()
                turned = turn_edit(text, names) if name.endswith(".edit") else turn(text, names)
                if turned != text:
                    with open(path, "w", encoding="utf-8") as f:
                        f.write(turned)


main(sys.argv[1] if len(sys.argv) > 1 else ".")
