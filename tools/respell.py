#!/usr/bin/env python3
"""Spells the repository's own definitions and lemmas in snake case, by the table beside this script.

usage: tools/respell.py [FOLDER]

It ran once (a second run would turn more: names that fell together moved on), right after the toolchain's own port script, and is kept
so that the port can be done again and compared (docs/PORT.md).
A row of tools/respell.tsv is: old, a tab, new, and a tab and '.' where the name is a field or a constructor, which stands behind a dot too.
It turns whole names alone: in specs/ and proofs/ everywhere but in comments, where only names in backticks turn; in src/ the names in
mixed case or with a dash, which no Rust name has; in edits the lines old: and new:.
"""
import os
import re
import sys

HERE = os.path.dirname(os.path.abspath(__file__))
NAME = re.compile(r'[^\s(){}.;,@"«»\[\]`]+')
TICKED = re.compile(r"`([^`\n]+)`")


def rows():
    with open(os.path.join(HERE, "respell.tsv"), encoding="utf-8") as lines:
        for line in lines:
            cells = line.rstrip("\n").split("\t")
            yield cells[0], cells[1], len(cells) > 2


TABLE, DOTTED = {}, set()
for old, new, dotted in rows():
    TABLE[old] = new
    if dotted:
        DOTTED.add(old)
MARKED = {old for old in TABLE if "-" in old or re.search("[A-Z]", old)}


def turned(text, table):
    """The text with each whole name of the table spelled anew."""
    out, last = [], 0
    for found in NAME.finditer(text):
        name = found[0]
        if name not in table:
            continue
        at = found.start()
        if at > 0 and text[at - 1] == "." and name not in DOTTED:
            head = re.search(r'([^\s(){}.;,@"«»\[\]`]+)\.$', text[:at])
            if not (head and head[1][:1].isupper()):
                continue
        out += [text[last:at], table[name]]
        last = found.end()
    return "".join(out) + text[last:]


def ticked(text, table):
    return TICKED.sub(lambda m: "`" + turned(m[1], table) + "`", text)


def lines_turned(text, mark, table):
    """Code turns whole, a comment only in backticks."""
    out = []
    for line in text.split("\n"):
        at = re.search(mark, line)
        end = at.start() if at else len(line)
        out.append(turned(line[:end], table) + ticked(line[end:], table))
    return "\n".join(out)


def edit_turned(text):
    marked = {old: TABLE[old] for old in MARKED}
    return "\n".join(turned(line, marked) if re.match("(old|new):", line) else line for line in text.split("\n"))


def main():
    top = sys.argv[1] if len(sys.argv) > 1 else os.path.dirname(HERE)
    marked = {old: TABLE[old] for old in MARKED}
    changed = 0
    for folder, _, names in os.walk(top):
        if "/.git" in folder or "/out" in folder:
            continue
        for name in names:
            path = os.path.join(folder, name)
            if os.path.islink(path):
                continue
            inside = "/crates/" in path
            if name.endswith(".antt") and inside:
                turn = lambda text: lines_turned(text, r"(?<!\S)--(?!\S)", TABLE)
            elif name.endswith(".rt") and inside:
                turn = lambda text: lines_turned(text, r"//", marked)
            elif name.endswith(".edit") and inside:
                turn = edit_turned
            else:
                continue
            with open(path, encoding="utf-8") as text:
                was = text.read()
            now = turn(was)
            if now != was:
                changed += 1
                with open(path, "w", encoding="utf-8") as text:
                    text.write(now)
    print(f"{changed} files spelled anew")


main()
