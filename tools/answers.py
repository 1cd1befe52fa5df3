#!/usr/bin/env python3
"""Turns a Proof.antt that walks a function by `tie` into today's Invariants.antt and Answers.antt.

Usage: tools/answers.py NAMES CRATE_FOLDER [FUNCTION..]

NAMES is the names.json that `rt check --generated DIR --old-names` writes for the crate. A place of the old walk reached its facts through a chain of
`.before`; today's record has them side by side, under names that come from the code. So the chains go, helpers that took a place become `let`s of the
answers that use them, and an answer that the check's own search finds is left out. What it can't turn it says in a line that begins 'left:'.
"""
import json
import os
import re
import sys

IDENT = r"[^\s(){}\[\];,.:\"λ→⌜⌝=|↦]+"
PATH = re.compile(rf"(?<![\w.'₀-])({IDENT})((?:\.{IDENT})+)")


def norm(name):
    return name.replace("-", "_")


class Names:
    def __init__(self, table):
        self.needs, self.order = {}, [new for _, new in table["needs"]]
        for old, new in table["needs"]:
            self.needs[norm(old)] = new
        self.settled = {norm(re.sub(r"^overflow_", "", name)) for name in table["settled"]}
        self.steps, self.params = {}, table["params"]
        for _, _, (old, new), callee, fields in table["places"]:
            if old:
                self.steps.setdefault(norm(old), (new, callee, dict(map(tuple, fields))))
        self.arms, self.at, self.parents, self.asked = {}, {}, {}, {}
        for (place, parent, _, _, _), arm in zip(table["places"], table["arms"]):
            self.parents[place] = parent
            here = self.at[place] = {}
            for new, old, path in arm[2] if arm else []:
                here[(norm(old),) + tuple(map(norm, path))] = f"{arm[0]}.{new}"
                if path and not new.endswith("-own"):
                    self.arms.setdefault((norm(old),) + tuple(map(norm, path)), f"{arm[0]}.{new}")
        for (_, new), (place, _) in zip(table["needs"], table["asked_at"]):
            self.asked[new] = place
        self.typed = {}
        for place in table["typed"]:
            for var, old in place:
                self.typed.setdefault(norm(old), var)
        self.loops = [(old, new, variables, changed) for (((old, new), variables), changed) in zip(table["loops"], table["changed"])]

    def need(self, name):
        key = norm(name)
        for form in (key, re.sub(r"^overflow_", "", key)):
            if form in self.needs:
                return self.needs[form]
        return None

    def path(self, segments, need):
        """What stands for `c.SEGMENTS` today, in the answer of a goal."""
        keys, place = [norm(s) for s in segments], self.asked.get(need)
        while place:
            for size in range(len(keys), 0, -1):
                found = self.at[place].get(tuple(keys[:size])) if place in self.at else None
                if found and (size > 1 or found.endswith("-own") and keys[0] == "match"):
                    return ["c", found] + segments[size:]
            place = self.parents.get(place)
        for size in range(len(keys), 1, -1):
            if tuple(keys[:size]) in self.arms:
                return ["c", self.arms[tuple(keys[:size])]] + segments[size:]
        if keys[0] in self.typed and len(keys) > 1 and keys[1] == "given":
            return ["c", "type_inv", self.typed[keys[0]]] + segments[2:]
        if keys[0] in self.steps:
            new, callee, fields = self.steps[keys[0]]
            rest = segments[1:]
            if rest and rest[0] in fields:
                rest = [fields[rest[0]]] + rest[1:]
            if rest and rest[0] == "new" and callee in self.params:
                at = 1
                while at < len(rest) and rest[at] == "1":
                    at += 1
                params = self.params[callee]
                if at < len(rest) and rest[at] == "0" and at - 1 < len(params):
                    rest = ["new", params[at - 1]] + rest[at + 1:]
            return ["c", new] + rest
        return ["c"] + segments


class Decl:
    def __init__(self, text):
        lines = text.split("\n")
        at = 0
        while at < len(lines) and (lines[at].startswith("--") or not lines[at].strip()):
            at += 1
        self.comment, body = lines[:at], lines[at:]
        self.text = "\n".join(body).rstrip()
        head = re.match(rf"((?:abbrev |unfoldable )?(?:pub )?)({IDENT}) :\s*(.*)", body[0], re.S) if body else None
        self.name = head.group(2) if head else None
        self.mark = head.group(1) if head else ""
        self.unfolding, self.type, self.clauses = [], "", []
        if not head:
            return
        kind, self.type = "type", head.group(3)
        for line in body[1:]:
            if line.startswith("unfolding "):
                self.unfolding += line.split()[1:]
                kind = "clauses"
            elif re.match(rf"{re.escape(self.name)}(?=[\s(])", line):
                kind = "clauses"
                self.clauses.append(line)
            elif kind == "type":
                self.type += "\n" + line
            elif self.clauses:
                self.clauses[-1] += "\n" + line
        self.clauses = [clause.rstrip() for clause in self.clauses]
        self.type = self.type.rstrip()


def declarations(text):
    """The use lines, and each declaration with its comment."""
    blocks = [block for block in re.split(r"\n\s*\n", text) if block.strip()]
    uses, header, decls = [], [], []
    for block in blocks:
        lines = block.split("\n")
        if any(re.match(r"use ", line) for line in lines):
            header += [line for line in lines if line.startswith("--")]
            uses += [line for line in lines if not line.startswith("--")]
        else:
            decls.append(Decl(block))
    return header, uses, decls


def rename(text, old, new):
    return re.sub(rf"(?<![\w.'₀-]){re.escape(old)}(?![\w'₀-])", new, text)


def clean(text, places, extra=()):
    """Takes out the chains of `.before`, the functions from place to place, and the names for a place."""
    for var in extra:
        text = rename(text, var, "c")
    while True:
        before = text
        text = re.sub(r"(?<![\w.'₀-])c(?:\.before)+(?![\w'-])", "c", text)
        for place in places:
            text = re.sub(rf"\({re.escape(place)} c\)", "c", text)
            text = re.sub(rf"(?<![\w.'₀-]){re.escape(place)} c(?![\w.'-])", "c", text)
        text = re.sub(r"\(c\)\.", "c.", text)
        found = re.search(rf"let ({IDENT}) = c in\s*", text)
        if found:
            text = text[:found.start()] + rename(text[found.end():], found.group(1), "c")
        if text == before:
            return text


class File:
    def __init__(self, path, names, crate, module, out):
        self.path, self.names, self.out = path, names, out
        self.header, self.uses, self.decls = declarations(open(path, encoding="utf-8").read())
        self.crate, self.module = crate, module
        self.left = []
        self.places, self.helpers, self.answers, self.invariants, self.plain = [], {}, [], [], []
        self.sort()
        # the goals come in the order of the code, then as now
        self.in_order = {}
        if len(self.answers) == len(names.order):
            self.in_order = {decl.name: new for (_, decl), new in zip(self.answers, names.order)}

    def say(self, what):
        self.left.append(what)

    def sort(self):
        for decl in self.decls:
            if not decl.name or re.match(r"^\+?[\w'-]*[-_]spec$", decl.name) and "statement" in decl.type:
                continue
            kind = re.match(r"tie\.(Need|invariant|decreases)-(\S+)", decl.type)
            if kind and kind.group(1) == "Need":
                self.answers.append((kind.group(2), decl))
            elif kind:
                self.invariants.append((f"{kind.group(1)}-{kind.group(2)}", decl))
            elif "tie." in decl.type:
                if re.match(r"tie\.[^→]*→ tie\.[^→]*$", decl.type.replace("\n", " ")):
                    self.places.append(decl.name)
                else:
                    self.helpers[decl.name] = decl
            else:
                self.plain.append(decl)

    def turned(self, text, need):
        """The paths of an answer, by today's names."""
        def one(found):
            if found.group(1) != "c":
                return found.group()
            return ".".join(self.names.path(found.group(2)[1:].split("."), need))
        return PATH.sub(one, text)

    def helper(self, name):
        """A helper as a `let`: its type without the place, and its body."""
        decl = self.helpers[name]
        if len(decl.clauses) != 1:
            self.say(f"helper {name} has {len(decl.clauses)} clauses")
        kind = decl.type
        named = re.match(rf"\(({IDENT}) : tie\.[^()]*(?:\([^()]*\))?[^()]*\)\s*", kind)
        bare = re.match(r"tie\.[^→]*→\s*", kind)
        found = named or bare
        if not found:
            self.say(f"helper {name}: no place first")
            return None, "?", "?"
        rest = kind[found.end():]
        rest = re.sub(r"^\s*→\s*", "", rest)
        head = re.match(rf"{re.escape(name)}\s+({IDENT})((?:\s+{IDENT})*)\s*=\s*", decl.clauses[0])
        if not head:
            self.say(f"helper {name}: its clause has patterns")
            return None, "?", "?"
        body = decl.clauses[0][head.end():]
        params = head.group(2).split()
        rest = clean(rest, self.places, [named.group(1)] if named and named.group(1) != "c" else [])
        body = clean(body, self.places, [head.group(1)] if head.group(1) != "c" else [])
        if params:
            body = f"λ {' '.join(params)}. {body}"
        return decl, rest, body

    def with_helpers(self, text, done=None):
        """The text with its helpers' calls on `c` as names, and the `let`s that bind them, in order."""
        lets, unfolding = [], []
        done = [] if done is None else done
        for name in self.helpers:
            if not re.search(rf"(?<![\w.'₀-]){re.escape(name)}(?![\w'₀-])", text) or name in done:
                continue
            done.append(name)
            decl, kind, body = self.helper(name)
            if not decl:
                continue
            unfolding += decl.unfolding
            kind, body = self.named(kind), self.named(body)
            more, opened = self.with_helpers(kind + " " + body, done)
            lets += more
            unfolding += opened
            if decl.mark.startswith("abbrev") and "→" not in kind and not body.startswith("λ"):
                lets.append((name, None, body))
            else:
                lets.append((name, kind, body))
        return lets, unfolding

    def named(self, text):
        for name in self.helpers:
            text = re.sub(rf"\({re.escape(name)} c\)", name, text)
            text = re.sub(rf"(?<![\w.'₀-]){re.escape(name)} c(?![\w.'-])", name, text)
        return text

    def answer(self, need, decl):
        new = self.names.need(need) or self.in_order.get(decl.name)
        if not new:
            if norm(re.sub("^overflow-", "", need)) not in self.names.settled:
                self.say(f"no goal for {need}")
            return ""
        clause = decl.clauses[0] if decl.clauses else ""
        head = re.match(rf"{re.escape(decl.name)}\s+({IDENT})(?:\s+κs)?\s*=\s*", clause)
        if not head or len(decl.clauses) != 1:
            self.say(f"answer {decl.name}: its clause")
            return "\n".join(decl.comment + [f"pub {new} : goal.{new}"] + decl.clauses) + "\n"
        body = clause[head.end():]
        if re.fullmatch(r"search rules", body.strip()):
            return ""
        body = clean(body, self.places, [head.group(1)] if head.group(1) != "c" else [])
        body = self.named(body)
        lets, opened = self.with_helpers(body)
        text = ""
        for name, kind, value in lets:
            if kind is None:
                body = re.sub(rf"(?<![\w.'₀-]){re.escape(name)}(?![\w'₀-])", lambda m: f"({value})" if " " in value.strip() else value, body)
        values = [(name, value) for name, kind, value in lets if kind is None]
        for name, kind, value in lets:
            if kind is not None:
                for n, v in values:
                    put = f"({v})" if " " in v.strip() else v
                    kind, value = rename(kind, n, put.replace("\\", r"\\")), rename(value, n, put.replace("\\", r"\\"))
                text += f"let {name} : {kind} =\n        {value} in\n    "
        for n, v in values:
            text = rename(text, n, (f"({v})" if " " in v.strip() else v).replace("\\", r"\\"))
            body = rename(body, n, (f"({v})" if " " in v.strip() else v).replace("\\", r"\\"))
        whole = self.turned(text + body, new)
        if re.search(r"\.branch\b|\.match\b", whole):
            self.say(f"answer {new}: a branch by hand")
        unfolding = list(dict.fromkeys(decl.unfolding + opened))
        lines = decl.comment + [f"pub {new} : goal.{new}"]
        lines += ["unfolding " + " ".join(unfolding)] if unfolding else []
        sep = "\n    " if "\n" in whole or len(whole) > 110 else " "
        return "\n".join(lines) + f"\n{new} c ={sep}{whole}\n"

    def invariant(self, name, decl):
        kind, old = name.split("-", 1)
        loops = {norm(loop[0]): loop for loop in self.names.loops}
        if norm(old) not in loops:
            self.say(f"no loop for {name}")
            return decl.text + "\n"
        _, new, variables, changed = loops[norm(old)]
        head = re.match(rf"{re.escape(decl.name)}((?:\s+{IDENT})*)\s*=\s*", decl.clauses[0] if decl.clauses else "")
        if not head:
            self.say(f"{name}: its clause")
            return decl.text + "\n"
        params, body = head.group(1).split(), decl.clauses[0][head.end():]
        moved = [v for v, c in zip(variables, changed) if c]
        if len(params) < len(variables) + len(moved):
            self.say(f"{name}: {len(params)} parameters, {variables} {moved}")
        first, last = params[:len(variables)], params[len(params) - len(moved):] if moved else []
        put = {}
        for param, var, is_changed in zip(first, variables, changed):
            put[param] = f"l.initial.{var}" if is_changed else f"l.{var}"
        for param, var in zip(last, moved):
            put[param] = f"l.{var}"
        for param in params:
            if param not in put and re.search(rf"(?<![\w.'₀-]){re.escape(param)}(?![\w'₀-])", body):
                self.say(f"{name}: {param}")
        body = re.sub(rf"(?<![\w.'₀-])({IDENT})", lambda m: put.get(m.group(1), m.group(1)), body)
        comment = "\n".join(decl.comment) + "\n" if decl.comment else ""
        return f"{comment}abbrev pub {kind}-{new} : goal.{kind}-{new}\n{kind}-{new} l = {body}\n"

    def write(self):
        base = f"Rattle.{self.crate}.proofs.{self.module}"
        uses = [line for line in self.uses if not re.search(r"\.(Statement|Tie)\b", line)]
        folder = os.path.dirname(self.path)
        answers = [self.answer(need, decl) for need, decl in self.answers]
        answers = [text for text in answers if text]
        invariants = [self.invariant(name, decl) for name, decl in self.invariants]
        used = "\n".join(answers)
        plain = [decl for decl in self.plain if decl.name]
        if answers:
            texts = ["\n".join(decl.comment + [decl.text]) + "\n" for decl in plain]
            head = "\n".join(self.header + uses + [f"use {base}.Goals as goal"]) + "\n\n"
            self.put(os.path.join(folder, "Answers.antt"), head + "\n".join(texts + answers))
        elif plain:
            self.say("helpers that no answer has: " + " ".join(decl.name for decl in plain))
        if invariants:
            inside = "\n".join(invariants)
            mine = [decl for decl in plain if re.search(rf"(?<![\w.'₀-]){re.escape(decl.name)}(?![\w'₀-])", inside)]
            if mine:
                self.say("helpers that an invariant has: " + " ".join(decl.name for decl in mine))
            head = "\n".join(uses + [f"use {base}.Given as goal"]) + "\n\n"
            self.put(os.path.join(folder, "Invariants.antt"), head + inside)
        os.remove(self.path)

    def put(self, path, text):
        with open(path, "w", encoding="utf-8") as file:
            file.write(text.rstrip() + "\n")


def main():
    table = json.load(open(sys.argv[1], encoding="utf-8"))
    folder, wanted = sys.argv[2].rstrip("/"), sys.argv[3:]
    crate, out = os.path.basename(folder), []
    for top, _, names in sorted(os.walk(os.path.join(folder, "proofs"))):
        if "Proof.antt" not in names:
            continue
        module = os.path.relpath(top, os.path.join(folder, "proofs")).replace("/", ".")
        key = f"Rattle-{crate}-proofs.{module}.Lts"
        if "+" in module or key not in table or wanted and module.split(".")[-1] not in wanted:
            print(f"left: {crate} {module}: whole")
            continue
        file = File(os.path.join(top, "Proof.antt"), Names(table[key]), crate, module, out)
        file.write()
        for what in file.left:
            print(f"left: {crate} {module}: {what}")


main()
