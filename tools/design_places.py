#!/usr/bin/env python3
"""Counts the places that docs/DESIGN-PASS.md speaks of, point by point, in the sources of the crates below a folder.

    python3 tools/design_places.py [FOLDER] [--list]

FOLDER is a checkout (this one, where none is given); --list prints each place and not only the counts."""
import collections
import glob
import os
import re
import sys

NUMBER = r"u8|u16|u64|usize"


def without_comments(text):
    return re.sub(r"//.*", "", text)


def block_from(text, at):
    """The block that opens at the first brace behind `at`, where its line has nothing behind that brace or it ends in that line."""
    depth = 0
    for end in range(at, len(text)):
        depth += {"{": 1, "}": -1}.get(text[end], 0)
        if depth == 0 and text[end] == "}":
            return text[at : end + 1]
    return text[at:]


class Function:
    def __init__(self, file, name, parameters, head, body):
        self.file, self.name, self.head, self.body = file, name, head, body
        self.parameters = [p.strip() for p in re.split(r",(?![^<\[(]*[>\])])", parameters) if p.strip()]

    def place(self):
        return f"{self.file}: {self.name}"


def read(folder):
    files, functions = {}, []
    for path in sorted(glob.glob(os.path.join(folder, "crates/*/src/**/*.rt"), recursive=True)):
        name = os.path.relpath(path, os.path.join(folder, "crates"))
        text = files[name] = without_comments(open(path, encoding="utf-8").read())
        for match in re.finditer(r"\bfn (\w+)(?:<[^(]*>)?\(([^)]*)\)", text):
            opens = re.compile(r"^ *\{$|\{$", re.M)
            start = next((m for m in opens.finditer(text, match.end()) if not re.match(r".*\b(requires|ensures)\b", text[text.rfind("\n", 0, m.start()) + 1 : m.start()])), None)
            if start:
                at = text.index("{", start.start())
                functions.append(Function(name, match.group(1), match.group(2), text[match.end() : at], block_from(text, at)))
    return files, functions


def enums(files):
    for name, text in files.items():
        for match in re.finditer(r"\benum (\w+)[^{]*\{", text):
            body = block_from(text, match.end() - 1)
            yield name, match.group(1), re.findall(r"^    (\w+)", body, re.M)


def point_1(files, functions):
    """own enums of the shape of Option or Result; a flag with a value beside it; numbers for kinds, for refusals, for yes and no, for none"""
    for name, enum, variants in enums(files):
        if set(variants) & {"Refused", "Stop", "Stopped", "Nowhere", "Missing"}:
            yield f"{name}: enum {enum}"
    for name, text in files.items():
        for match in re.finditer(r"pub struct (\w+)[^{]*\{", text):
            for flag in re.findall(r"pub (\w+): bool", block_from(text, match.end() - 1)):
                yield f"{name}: {match.group(1)}.{flag}, a flag"
        for match in re.finditer(r"^pub const (\w+): u64 = \d;", text, re.M):
            yield f"{name}: {match.group(1)}, a kind by its number"
    for f in functions:
        if re.search(r"\b(STRICT|DEFEASIBLE|QUERY|STRICT_QUERY|CONJ_SUBSUMED|IN_EXIST|EXIST_IN)\b", f.body):
            yield f"{f.place()}, kinds by their numbers"
        if re.search(r"\{ [01] \} else \{ [01] \}", f.body) or f.name == "yes_of":
            yield f"{f.place()}, yes and no as numbers"
        if re.search(r"(return|==|<|<=) ConceptSet::NUMBERS\b|ConceptSet::NUMBERS <= pick|while 0 < s\b", f.body) and f.name not in ("find_name", "take_number"):
            yield f"{f.place()}, a number for none"


def skeleton(f):
    """A body with its types, constants and names replaced by what they are, in the order in which they stand."""
    names = {}
    words = []
    for word in re.findall(r"\w+|\S", re.sub(rf"\b({NUMBER})\b", "T", f.body)):
        if re.fullmatch(r"\d\w*|[A-Z]\w*", word):
            word = "K"
        elif re.fullmatch(r"[a-z_]\w*", word) and word not in ("if", "else", "while", "for", "in", "let", "mut", "return", "match", "loop", "as", "len"):
            word = names.setdefault(word, f"v{len(names)}")
        words.append(word)
    return " ".join(words)


def point_2(files, functions):
    """twins: functions whose bodies are the same but for types, constants and names, of more than one step"""
    groups = collections.defaultdict(list)
    for f in functions:
        if len(f.body) > 30:
            groups[skeleton(f)].append(f)
    for twins in groups.values():
        if len(twins) > 1:
            yield "; ".join(f.place() for f in twins)


def point_3(files, functions):
    """loops that count an index by hand"""
    for f in functions:
        for match in re.finditer(r"while ([^{]*)\{", f.body):
            body = block_from(f.body, match.end() - 1)
            for counter in re.findall(r"\b(\w+) \+= 1;", body):
                if re.search(rf"\b{counter}\b", match.group(1)):
                    yield f"{f.place()}, {counter}"
                    break


def point_4(files, functions):
    """equality, conversion and printing by hand: same_.. of kinds, a match whose every arm is a literal, print_refused"""
    for f in functions:
        for match in re.finditer(r"\bmatch [^{]*\{", f.body):
            arms = re.findall(r"=> ([^,{]+),", block_from(f.body, match.end() - 1))
            if len(arms) > 2 and all(re.fullmatch(r"\d+|true|false", arm.strip()) for arm in arms):
                yield f"{f.place()}, a match of literals"
        if f.name in ("same_kind", "print_refused") or re.search(r"if let \S+ = \w+ \{\s*true\s*\} else", f.body):
            yield f"{f.place()}, by hand"


def point_5(files, functions):
    """functions of six parameters or more; facts that stand in three contracts or more"""
    for f in functions:
        if len(f.parameters) > 5:
            yield f"{f.place()}, {len(f.parameters)} parameters"
    facts = collections.Counter()
    for f in functions:
        for clause in re.findall(r"requires(?: \w+)? \{(.*?)\}\s*(?=ensures|requires|$)", f.head, re.S):
            for fact in {re.sub(r"\.(old|now|entry)\b", "", " ".join(fact.split()).strip("() ")) for fact in clause.split("×")}:
                facts[fact] += 1
    for fact, count in facts.items():
        if count > 2:
            yield f"the fact {fact}, {count} contracts"


def point_6(files, functions):
    """a buffer with its length beside it, parallel arrays, searches and links by hand, of parameters and fields"""
    pairs = [("out", "size"), ("stack", "depth"), ("values", "count"), ("starts", "lengths"), ("heads", "links"), ("used", "starts"), ("key", "at"), ("rows", "at"), ("order", "start"), ("report", "at")]
    for f in functions:
        names = [re.sub(r"^mut ", "", p.split(":")[0].strip()) for p in f.parameters]
        for pair in pairs:
            if all(n in names for n in pair):
                yield f"{f.place()}, {' and '.join(pair)}"
    for name, text in files.items():
        for match in re.finditer(r"pub struct (\w+)[^{]*\{", text):
            names = re.findall(r"^    (?:pub )?(\w+):", block_from(text, match.end() - 1), re.M)
            for pair in pairs:
                if all(n in names for n in pair):
                    yield f"{name}: struct {match.group(1)}, {' and '.join(pair)}"


def point_7(files, functions):
    """a switch on which step to run, calls that differ only in the step that they run"""
    for f in functions:
        for match in re.finditer(r"\bmatch [^{]*\{", f.body):
            calls = set(re.findall(r"=> (?:return |\{\s*(?:return )?)?([a-z]\w+)\(", block_from(f.body, match.end() - 1)))
            if len(calls) > 2:
                yield f"{f.place()}, a match over {len(calls)} steps"
        if f.name.startswith("shelf_"):
            yield f"{f.place()}, the same steps around another operation"


def point_8(folder):
    answers = glob.glob(os.path.join(folder, "crates/*/proofs/**/Answers.antt"), recursive=True)
    invariants = glob.glob(os.path.join(folder, "crates/*/proofs/**/Invariants.antt"), recursive=True)
    lines = sum(len(open(path, encoding="utf-8").read().splitlines()) for path in answers)
    return f"{len(answers)} files of answers with {lines} lines, {len(invariants)} files of invariants"


def main():
    arguments = [a for a in sys.argv[1:] if a != "--list"]
    folder = arguments[0] if arguments else os.path.join(os.path.dirname(os.path.abspath(__file__)), "..")
    files, functions = read(folder)
    for number, point in enumerate([point_1, point_2, point_3, point_4, point_5, point_6, point_7], 1):
        places = list(point(files, functions))
        print(f"{number}. {len(places)} places: {point.__doc__}")
        if "--list" in sys.argv:
            for place in places:
                print(f"     {place}")
    print(f"8. {point_8(folder)}")


main()
