#!/usr/bin/env python3
"""Spells the repository's own definitions and lemmas in snake case, by the table respell.tsv beside this file.

usage: python3 tools/respell.py [FOLDER]    (the top of a checkout; default: the current one)

Run once, after the kit's port.py. A word of the table is turned where it stands whole: in .antt files, and, where it is in
mixed case or has a dash, in .rt files too (Rust names are neither, so these stand only in clauses, ghost items and comments).
A word with a dash is left alone in comments, where it may be plain English. A second run changes nothing.
"""

import os
import re
import sys

HERE = os.path.dirname(os.path.realpath(__file__))
WORD = re.compile(r'[^\s(){}.;,@"«»]+')
COMMENT = re.compile(r"(?<!\S)--[^\n]*")
IN_TEXT = re.compile(r"(?<![\w-])[a-z]+[A-Z]\w*(?![\w-])")


def turn_antt(text, table):
    parts, at = [], 0
    for comment in COMMENT.finditer(text):
        parts.append(WORD.sub(lambda m: table.get(m[0], m[0]), text[at : comment.start()]))
        parts.append(turn_text(comment[0], table))
        at = comment.end()
    parts.append(WORD.sub(lambda m: table.get(m[0], m[0]), text[at:]))
    return "".join(parts)


def turn_rt(text, table):
    dashed = {old: new for old, new in table.items() if "-" in old}
    lines = [line.partition("//") for line in turn_text(text, table).split("\n")]
    return "\n".join(WORD.sub(lambda m: dashed.get(m[0], m[0]), code) + mark + comment for code, mark, comment in lines)


def turn_text(text, table):
    return IN_TEXT.sub(lambda m: table.get(m[0], m[0]), text)


def main(top):
    with open(os.path.join(HERE, "respell.tsv"), encoding="utf-8") as rows:
        table = dict(row.rstrip("\n").split("\t") for row in rows)
    for folder, folders, files in os.walk(os.path.join(top, "crates")):
        folders[:] = [name for name in folders if name != "out"]
        for name in files:
            path = os.path.join(folder, name)
            if not name.endswith((".antt", ".rt")):
                continue
            with open(path, encoding="utf-8") as source:
                old = source.read()
            new = turn_antt(old, table) if name.endswith(".antt") else turn_rt(old, table)
            if new != old:
                with open(path, "w", encoding="utf-8") as target:
                    target.write(new)


if __name__ == "__main__":
    main(sys.argv[1] if len(sys.argv) > 1 else ".")
