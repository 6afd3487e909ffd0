#!/usr/bin/env python3
"""Spells the repository's own definitions and lemmas anew, by respell.tsv beside this file: an old name, a tab, the new one, and, where the name turns in one file alone, a tab and that file.

usage: python3 tools/respell.py [ROOT]      run once, at the top of a tree that port.py has turned

Whole words turn: in the code of .antt files, in the clauses and 'ghost use' items of .rt files, in both texts of must-fail edits, and in code spans of comments and of .md pages.
Rust's own names, strings and what the programs write do not turn.
"""

import os
import re
import sys

HERE = os.path.dirname(os.path.realpath(__file__))
WORD = re.compile(r'[^\s(){}\[\].;,@"«»`:]+')
SPAN = re.compile(r"`[^`\n]+`")
CLAUSE = re.compile(r"(?:requires|ensures)\*?\s*(?:\w+\s*)?\{|ghost\s+(?:\w+\s*:\s*)?\{")


def table():
    everywhere, only = {}, {}
    with open(os.path.join(HERE, "respell.tsv"), encoding="utf-8") as f:
        for line in f:
            row = line.rstrip("\n").split("\t")
            if len(row) == 2:
                everywhere[row[0]] = row[1]
            else:
                only.setdefault(row[2], {})[row[0]] = row[1]
    return everywhere, only


def turned(text, names):
    return WORD.sub(lambda m: names.get(m[0], m[0]), text)


def spans(text, names):
    return SPAN.sub(lambda m: turned(m[0], names), text)


def once(code):
    """An import 'a as b' whose two names became one, as the name alone."""
    return re.sub(r"(?<![^\s{,])(\S+) as \1(?=[,}\s])", r"\1", code)


def antt(text, names):
    """Each line's code, and the code spans of its comment."""
    out = []
    for line in text.split("\n"):
        m = re.search(r"(?<![^\s(){}.;,])--(?!-)", line)
        code, note = (line[: m.start()], line[m.start() :]) if m else (line, "")
        out.append(once(turned(code, names)) + spans(note, names))
    return "\n".join(out)


def clause_end(text, at):
    depth = 1
    while depth and at < len(text):
        depth += {"{": 1, "}": -1}.get(text[at], 0)
        at += 1
    return at


def rt(text, names):
    out, at = [], 0
    for m in re.finditer(r"ghost use[^;]*;|" + CLAUSE.pattern + r"|//[^\n]*", text):
        if m.start() < at:
            continue
        out.append(text[at : m.start()])
        end = m.end() if m[0].startswith(("//", "ghost use")) else clause_end(text, m.end())
        part = text[m.start() : end]
        out.append(spans(part, names) if part.startswith("//") else once(turned(part, names)))
        at = end
    return "".join(out) + text[at:]


def edit(text, names):
    lines = []
    for line in text.split("\n"):
        if line.startswith(("old: ", "new: ")):
            lines.append(turned(line, names))
        else:
            lines.append(spans(line, names))
    return "\n".join(lines)


def pages(text, names):
    blocks = re.split(r"(^```.*?^```[^\n]*$)", text, flags=re.M | re.S)
    return "".join(turned(b, names) if b.startswith("```antt") else b if b.startswith("```") else spans(b, names) for b in blocks)


KINDS = {".antt": antt, ".rt": rt, ".edit": edit, ".md": pages}


def main(root):
    everywhere, only = table()
    for folder, dirs, files in os.walk(root):
        made = re.fullmatch(r"crates/[^/]*", os.path.relpath(folder, root))
        dirs[:] = sorted(d for d in dirs if d not in (".git", "target", "tools") and not (made and d == "out"))
        for name in sorted(files):
            turn = KINDS.get(os.path.splitext(name)[1])
            if not turn:
                continue
            path = os.path.join(folder, name)
            with open(path, encoding="utf-8") as f:
                text = f.read()
            new = turn(text, everywhere | only.get(os.path.relpath(path, root), {}))
            if new != text:
                with open(path, "w", encoding="utf-8") as f:
                    f.write(new)
                print(os.path.relpath(path, root))


if __name__ == "__main__":
    main(os.path.abspath(sys.argv[1] if len(sys.argv) > 1 else "."))
