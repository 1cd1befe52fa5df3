#!/usr/bin/env python3
"""Brings the names of this repository's definitions and lemmas to today's spelling: snake case, with an apostrophe as the prime.

Usage: tools/respell.py [--check]     from anywhere; run once, after the toolchain's port.py

A name is one of ours where specs/ or a file of lemmas has it and nothing outside the repository brings it. Names of types and modules keep their
capitals; names that Rattle makes from the code keep their dashes, so in proofs/F/ a name behind a dot is left alone unless it is a field of one of
our records. Contracts, must-fail edits and the code spans of the pages follow. It prints where two names of one file would become one.
"""
import os
import re
import sys

ROOT = os.path.join(os.path.dirname(os.path.abspath(__file__)), "..")
NAME = re.compile(r"[^\s(){}\[\];,.:\"`λ→⌜⌝«»@]+")
USE = re.compile(r"\buse ([^\s{;]+)\.\{([^}]*)\}")
FIELD = re.compile(r"^\s+(?:pub )?([^\s(){},;:.]+) :", re.M)
ANSWER = re.compile(r"^(?:pub )?([^\s(){},;:.]+) : tie\.", re.M)
SPAN = re.compile(r"`[^`\n]+`")

# Lemmas that had the name of their function in snake case already: the file, or all, and the name.
LEMMAS = {
    "crates/normaliser/proofs/Storing.antt": ("join_front", "put_front"),
    "crates/spelling/proofs/Plains.antt": ("spelled_by",),
    "": ("same_outcome",),
}


def files(*endings):
    for top, folders, names in os.walk(os.path.join(ROOT, "crates")):
        folders[:] = sorted(f for f in folders if f != "out")
        for name in sorted(names):
            if name.endswith(endings):
                yield os.path.join(top, name)


def read(path):
    with open(path, encoding="utf-8") as file:
        return file.read()


def parted(line, mark):
    """The code of a line, and its comment."""
    at = re.search(r"(?:^|(?<=\s))" + re.escape(mark), line)
    return (line[:at.start()], line[at.start():]) if at else (line, "")


def is_walk(path):
    return path.endswith("/Proof.antt")


def ours(path, crates):
    head = path.split(".")
    return head[0] == "Rattle" and head[1] in crates


def snake(name):
    name = re.sub(r"(?<=[a-z0-9])([A-Z])", lambda m: "_" + m.group(1).lower(), name) if name[0].islower() else name
    return name.replace("-", "_").replace("′", "'")


def table():
    """Old name to new, and the old names of fields."""
    crates = set(os.listdir(os.path.join(ROOT, "crates")))
    seen, brought, fields = set(), set(), set()
    for path in files(".antt"):
        text = read(path)
        for module, names in USE.findall(text):
            if not ours(module, crates):
                brought.update(name.strip() for name in names.split(","))
        if is_walk(path):
            answers = set(ANSWER.findall(text))
            declared = re.findall(r"^(?:abbrev )?(?:pub )?([^\s(){},;:.]+) :", text, re.M)
            seen.update(name for name in declared if name not in answers and not name.endswith("-spec"))
            continue
        for line in text.split("\n"):
            seen.update(NAME.findall(re.sub(r"\"[^\"]*\"", "", parted(line, "--")[0])))
        for block in re.split(r"^(?=\S)", text, flags=re.M):
            if re.match(r"(?:pub )?(?:abbrev )?(?:pub )?record\b", block):
                fields.update(FIELD.findall(block))
    new = {name: snake(name) for name in seen - brought
           if re.match(r"[A-Za-z]", name) and (re.match(r"[a-z].*[A-Z]", name) or "-" in name or "′" in name)}
    new = {old: name for old, name in new.items() if old != name}
    taken = {name for old, name in new.items() if "-" not in old} | (seen - set(new))
    # a lemma that would have its function's name
    return {old: name + "_lem" if "-" in old and name in taken else name for old, name in new.items()}, fields


def turned(code, new, keep):
    out, last = [], 0
    for found in NAME.finditer(code):
        word, dotted = found.group(), found.start() > 0 and code[found.start() - 1] == "."
        out.append(code[last:found.start()])
        out.append(word if dotted and word in keep else new.get(word, word))
        last = found.end()
    return "".join(out) + code[last:]


def comment(text, new):
    """In prose a name in camel case is a name; one with a dash only in a code span."""
    camel = {old: name for old, name in new.items() if re.match(r"[a-z].*[A-Z]", old)}
    return turned(SPAN.sub(lambda m: turned(m.group(), new, ()), text), camel, ())


def quoted(code, new, keep):
    parts = re.split(r"(\"(?:[^\"\\]|\\.)*\")", code)
    return "".join(part if at % 2 else turned(part, new, keep) for at, part in enumerate(parts))


def text_of(path, new, fields):
    mark, text = ("--" if path.endswith(".antt") else "//"), read(path)
    keep = set(new) - fields if is_walk(path) else ()
    answers = set(ANSWER.findall(text)) if is_walk(path) else set()
    here = {old: name for old, name in new.items() if old not in answers}
    for file, names in LEMMAS.items():
        if path.endswith(".antt") and os.path.relpath(path, ROOT).startswith(file):
            here.update((name, name + "_lem") for name in names)
    if path.endswith(".md"):
        return SPAN.sub(lambda m: turned(m.group(), new, ()), text)
    camel = {old: name for old, name in here.items() if re.match(r"[a-z].*[A-Z]", old)}
    if path.endswith(".edit"):
        return edit(text, here, camel)
    lines = []
    for line in text.split("\n"):
        code, prose = parted(line, mark)
        lines.append(quoted(code, camel if path.endswith(".rt") else here, keep) + comment(prose, new))
    return "\n".join(lines)


def edit(text, new, camel):
    """An edit of a file of definitions has names with dashes too; an edit of code has minus signs."""
    lines, there = [], camel
    for line in text.split("\n"):
        if line.startswith("file:"):
            there = new if line.endswith(".antt") else camel
        elif line.startswith(("old:", "new:")):
            line = line[:4] + quoted(line[4:], there, ())
        lines.append(line)
    return "\n".join(lines)


def clashes(path, text, new):
    names = set(NAME.findall("\n".join(parted(line, "--")[0] for line in text.split("\n"))))
    back = {}
    for name in names:
        back.setdefault(new.get(name, name), []).append(name)
    return [(name, olds) for name, olds in back.items() if len(olds) > 1]


def main():
    new, fields = table()
    pages = [os.path.join(ROOT, "README.md")]
    for top, _, names in os.walk(os.path.join(ROOT, "docs")):
        pages += [os.path.join(top, name) for name in names if name.endswith(".md")]
    changed = 0
    for path in list(files(".antt", ".rt", ".edit")) + pages:
        text = read(path)
        if path.endswith(".antt"):
            for name, olds in clashes(path, text, new):
                print(f"clash: {os.path.relpath(path, ROOT)}: {name}: {' '.join(sorted(olds))}")
        result = text_of(path, new, fields)
        if result != text:
            changed += 1
            if "--check" not in sys.argv:
                with open(path, "w", encoding="utf-8") as file:
                    file.write(result)
    print(f"{len(new)} names, {changed} files")


main()
