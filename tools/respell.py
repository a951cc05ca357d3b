#!/usr/bin/env python3
"""Spells this repository's own definitions and lemmas as today's Rattle spells names: words in snake case.

usage: tools/respell.py        at the top of the checkout, once, right behind port.py

respelled.tsv has a row for each name: old, a tab, new, and, where the row is for one file alone, a tab and that file. A name turns as a whole:
  .antt  everywhere; in a comment a name with a dash only in a code span or where a header lists it
  .rt    in clauses and comments, never in a string; names of the code are no rows
  .md    in code spans, but in docs/CHANGES.md, which is history
Behind a dot a name is a field, unless a module stands there: the ending _lem is not for fields. A name that a file imports from a library stays there.
"""

import os
import re

HERE = os.path.dirname(os.path.realpath(__file__))
ROOT = os.path.dirname(HERE)
TOKEN = re.compile(r'[^\s(){}.;,@"«»`\[\]:]+')
IMPORT = re.compile(r"\buse ([^\s;{]+)\{([^}]*)\}")
HISTORY = os.path.join("docs", "CHANGES.md")


def rows():
    everywhere, in_file = {}, {}
    with open(os.path.join(HERE, "respelled.tsv"), encoding="utf-8") as f:
        for line in f:
            old, new, *where = line.rstrip("\n").split("\t")
            if where:
                in_file.setdefault(where[0], {})[old] = new
            else:
                everywhere[old] = new
    return everywhere, in_file


def plain(name):
    return re.sub(r"(?<=[a-z0-9])[A-Z]", lambda m: "_" + m[0].lower(), name).replace("-", "_")


def turned(text, table):
    """The text with each name of the table turned."""

    def one(m):
        name, before = m[0], text[: m.start()]
        if name not in table:
            return name
        if before.endswith(".") and not before.endswith(".."):
            head = re.search(r"([^\s(){}.;,@\"«»`]+)\.$", before)
            if not head or not head[1][0].isupper() or re.fullmatch(r"[A-Z]", head[1][0]) and len(head[1]) == 1:
                return plain(name) if table[name].endswith("_lem") else table[name]
        return table[name]

    return TOKEN.sub(one, text)


def in_spans(text, table):
    return re.sub(r"`[^`\n]+`", lambda m: turned(m[0], table), text)


def of_antt(text, table):
    camel = {old: new for old, new in table.items() if "-" not in old}
    lines = []
    for line in text.split("\n"):
        code, mark, comment = line.partition("--") if re.search(r"(^|\s)--(\s|$)", line) else (line, "", "")
        listed = re.match(r"     (?:[^\s`]+(?:, (?:\.\., )?|  ))+", comment) if not code.strip() else None
        if listed:
            comment = turned(listed[0], table) + in_spans(turned(comment[listed.end() :], camel), table)
        else:
            comment = in_spans(turned(comment, camel), table)
        lines.append(turned(code, table) + mark + comment)
    return "\n".join(lines)


def of_rt(text, table):
    camel = {old: new for old, new in table.items() if "-" not in old}
    parts = re.split(r'("(?:[^"\\]|\\.|\\\n)*")', text)
    return "".join(p if i % 2 else in_spans(turned(p, camel), table) for i, p in enumerate(parts))


def main():
    everywhere, in_file = rows()
    own = set(os.listdir(os.path.join(ROOT, "crates")))
    for folder, dirs, files in os.walk(ROOT):
        dirs[:] = sorted(d for d in dirs if d not in (".git", "out", "target", "rust"))
        for name in sorted(files):
            path = os.path.join(folder, name)
            where = os.path.relpath(path, ROOT)
            kind = {".antt": of_antt, ".rt": of_rt, ".md": in_spans}.get(os.path.splitext(name)[1])
            if not kind or where == HISTORY:
                continue
            with open(path, encoding="utf-8") as f:
                text = f.read()
            table = {**everywhere, **in_file.get(where, {})}
            for module, names in IMPORT.findall(text):
                steps = module.strip(".").split(".")
                if steps[0] != "Rattle" or steps[1] not in own:
                    for it in re.split(r"[,\s]+", names):
                        table.pop(it, None)
            new = kind(text, table)
            if new != text:
                with open(path, "w", encoding="utf-8") as f:
                    f.write(new)


main()
