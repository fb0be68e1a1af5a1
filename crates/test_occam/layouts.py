#!/usr/bin/env python3
"""Writes workers and packets as they stand in `stdin`, the text of each worker in another layout.

    layouts.py SEED <stdin: blanks, comments, line breaks and brackets around numbers where docs/OCCAM.md allows them,
    line ends of both kinds.
"""
import random
import re
import sys

TOKEN = re.compile(r"'(?:\*#..|\*.|[^*])'|\"(?:\*#..|\*.|[^*\"])*\"|--.*|[A-Za-z][A-Za-z0-9.]*|#[0-9A-F]+|[0-9]+"
                   r"|:=|/\\|\\/|><|<<|>>|<>|<=|>=|.")
OPEN = {"+", "-", "*", "/", "\\", "/\\", "\\/", "><", "<<", ">>", "=", "<>", "<", ">", "<=", ">=", "~", ",", ":=", "(", "[",
        "IS", "AFTER", "AND", "BITAND", "BITNOT", "BITOR", "MINUS", "NOT", "OR", "PLUS", "REM", "SIZE", "TIMES"}


def laid_out(rng, line):
    indent = len(line) - len(line.lstrip(" "))
    out = [" " * indent]
    before = ""
    for match in TOKEN.finditer(line.strip(" ")):
        token = match.group()
        if token == " ":
            out.append(" " * rng.choice([1, 1, 1, 2, 5]))
            continue
        if token.startswith("--"):
            break
        is_bracketed = token[0].isdigit() and before in OPEN and rng.random() < 0.15
        out.append(f"({token})" if is_bracketed else token)
        before = token
        if token in OPEN and rng.random() < 0.15:
            out.append(rng.choice(["", " ", "  -- on", " --"]) + "\n")
            if rng.random() < 0.3:
                out.append(" " * rng.randrange(9) + "-- a comment\n")
            out.append(" " * (indent + rng.choice([0, 1, 2, 3, 8])))
    return "".join(out) + rng.choice(["", "", "", " ", " -- \xe9", " --"])


def text_of(rng, text):
    lines = []
    for line in text.split("\n"):
        if rng.random() < 0.1:
            lines.append(rng.choice(["", "   ", "-- a line of its own", "       -- deep"]))
        lines.append(laid_out(rng, line) if line.strip(" ") else line)
    end = rng.choice(["\n", "\n", "\r\n"])
    return end.join("\n".join(lines).split("\n"))


def main():
    rng = random.Random(int(sys.argv[1]))
    text = []
    for line in sys.stdin.read().split("\n"):
        if line.startswith("@"):
            if text:
                sys.stdout.write(text_of(rng, "\n".join(text)) + "\n")
            text = []
            print(line)
        else:
            text.append(line)


main()
