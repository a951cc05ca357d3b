#!/usr/bin/env python3
"""Lists the theorems whose statements differ between two checkouts: of specs/, and those of proofs/ that README.md or docs/ name.

    python3 tools/statements.py OLD NEW [--all]

Prints, for each, its crate, file and name, and the old and the new statement as a row of a table; --all takes the lemmas that no page names too. By text alone:
a name is found again in its crate, wherever it lies there. What a `module _` assumes stands in the statement of each declaration in it."""
import glob
import os
import re
import sys

DECLARATION = re.compile(r"^([ \t]*)(?:pub )?([^\W\d][\w'₀-₉]*) : (.*)$")
MODULE = re.compile(r"^([ \t]*)(?:pub )?module (?:_|[^\W\d][\w']*)(.*) where\s*$")


def declarations(text):
    """The name and the statement of each declaration, with what its modules assume."""
    lines = [re.sub(r"--.*", "", line).rstrip() for line in text.splitlines()]
    modules, at = [], 0
    while at < len(lines):
        line = lines[at]
        at += 1
        if not line:
            continue
        indent = len(line) - len(line.lstrip())
        modules = [(depth, assumed) for depth, assumed in modules if depth < indent]
        if module := MODULE.match(line):
            modules.append((indent, " ".join(module.group(2).split())))
            continue
        # fields of records and constructors are definitions, which stand below their own
        if (found := DECLARATION.match(line)) and indent == (2 * len(modules)):
            statement = [found.group(3)]
            while at < len(lines) and (not lines[at] or len(lines[at]) - len(lines[at].lstrip()) > indent):
                statement.append(lines[at])
                at += 1
            assumed = [a for _, a in modules if a]
            yield found.group(2), " ".join(" ".join(assumed + statement).split())


def statements(folder):
    found = {}
    for path in sorted(glob.glob(os.path.join(folder, "crates/*/proofs/*.antt")) + glob.glob(os.path.join(folder, "crates/*/specs/*.antt"))):
        crate, part, file = path.split(os.sep)[-3:]
        with open(path, encoding="utf-8") as source:
            for name, statement in declarations(source.read()):
                found.setdefault((crate, name), []).append((f"{part}/{file}", statement))
    return found


def named(folder):
    pages = [os.path.join(folder, "README.md")] + [p for p in glob.glob(os.path.join(folder, "docs/*.md")) if os.path.basename(p) != "DESIGN-PASS.md"]
    quoted = re.findall(r"`([^`]*)`", " ".join(open(p, encoding="utf-8").read() for p in pages))
    return set(re.findall(r"[^\W\d][\w'₀-₉]*", " ".join(quoted)))


def main():
    arguments = [a for a in sys.argv[1:] if a != "--all"]
    old, new = (statements(folder) for folder in arguments)
    words = named(arguments[0])
    same = 0
    for (crate, name), places in sorted(old.items()):
        if "--all" not in sys.argv and name not in words and not any(file.startswith("specs/") for file, _ in places):
            continue
        texts = [text for _, text in new.get((crate, name), [])]
        told = set()
        for file, text in places:
            if text in texts:
                same += 1
            elif text not in told:
                told.add(text)
                others = [t for t in dict.fromkeys(texts) if t not in [p for _, p in places]]
                print(f"| {crate}/{file} `{name}` | `{text}` | {' or '.join(f'`{t}`' for t in others) or 'gone'} |")
    print(f"{same} statements are the same; {sum(map(len, old.values()))} declarations read, then {sum(map(len, new.values()))}")


main()
