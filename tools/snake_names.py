#!/usr/bin/env python3
"""Brings the names of this repository's own definitions and lemmas to Rattle's spelling: facts, types and records in upper camel case, everything else in snake case.

usage: python3 tools/snake_names.py        at the top of the repository, once, after port.py

A name is turned where it is declared and in each file that imports it from the module that declares it; comments, strings and code keep their words.
A test that computes, which was written with a question mark, gets `_test`, and the ordinate at any place, Y, is `ordinate_or_zero`.
"""

import os
import re
import sys

OWN = {"Y": "ordinate_or_zero"}
NAME = r"[^\s(){}\[\],;.:λ∀\"“”◌|`]+"
TOKEN = re.compile(r"--[^\n]*|//[^\n]*|\"(?:[^\"\\]|\\.)*\"|" + NAME)


def files(root, suffix):
    for folder, dirs, names in os.walk(os.path.join(root, "crates")):
        dirs[:] = sorted(d for d in dirs if d != "out")
        for n in sorted(names):
            if n.endswith(suffix):
                yield os.path.join(folder, n)


def camel(name):
    return "".join(w[:1].upper() + w[1:] for w in name.split("-"))


def snake(name):
    name = re.sub(r"(?<=[a-z0-9])(?=[A-Z])", "_", name)
    return name.replace("-", "_").lower()


def respelled(name, kind):
    if name in OWN:
        return OWN[name]
    if not re.fullmatch(r"[A-Za-z][\w'-]*\??", name):
        return name
    if kind == "constructor":
        return snake(name)
    if name.endswith("?"):
        return snake(name[:-1]) + "_test"
    return camel(name) if name[0].isupper() else snake(name)


def declared(text):
    """The names that a file of specs/ or proofs/ declares: definitions, types, constructors and local names; and the fields of its records. The answer to a goal keeps the goal's name."""
    names, fields, kind, below = {}, set(), None, 0
    for line in text.splitlines():
        if not line.strip() or line.lstrip().startswith("--"):
            continue
        indent = len(line) - len(line.lstrip())
        if re.match(r"\s*module _ ", line):
            kind = None
            continue
        for name in re.findall(r"\blet (" + NAME + r")(?=\s)", line):
            names.setdefault(name, "definition")
        head = re.match(r"\s*(?:unfoldable\s+|abbrev\s+|pub\s+)*(data|record)\s+(" + NAME + r")\s", line)
        plain = re.match(r"\s*(?:unfoldable\s+|abbrev\s+|pub\s+)*(" + NAME + r")\s*:\s+(?!goal\.)", line)
        if head and line.rstrip().endswith("where"):
            kind, below = head.group(1), indent
            names[head.group(2)] = "type"
        elif kind and indent <= below:
            kind = None
        if plain and kind == "data":
            names[plain.group(1)] = "constructor"
        elif plain and kind == "record":
            fields.add(plain.group(1))
        elif plain:
            names.setdefault(plain.group(1), "definition")
    return names, fields


def module(path, root):
    """Rattle.CRATE.specs.M of crates/CRATE/specs/M.antt; None for the files of a function's proof."""
    parts = os.path.relpath(path, os.path.join(root, "crates"))[: -len(".antt")].split(os.sep)
    return "Rattle." + ".".join(parts) if len(parts) == 3 else None


USE = re.compile(r"use (Rattle\.[\w.]+)\.\{([^}]*)\}")


def turned(text, names, fields, known):
    """The text with its own names turned: those in names, those that its use lines import from known modules, and fields."""
    names = dict(names)
    for path, items in USE.findall(text):
        for item in items.split(","):
            item = item.split(" as ")[0].strip()
            if item in known.get(path, {}):
                names[item] = known[path][item]

    def one(m):
        word = m.group(0)
        if word.startswith(("--", "//", '"')):
            return word
        if m.start() and text[m.start() - 1] == ".":
            return fields.get(word, word)
        return names.get(word, fields.get(word, word))

    def imports(m):
        here = known.get(m.group(1), {})
        items = [i.strip() for i in m.group(2).split(",")]
        return "use " + m.group(1) + ".{" + ", ".join(re.sub("^" + NAME, lambda w: here.get(w.group(0), w.group(0)), i) for i in items) + "}"

    out, at = [], 0
    for m in USE.finditer(text):
        out += [piece(text, at, m.start(), one), imports(m)]
        at = m.end()
    return "".join(out) + piece(text, at, len(text), one)


def piece(text, start, end, one):
    """TOKEN.sub over a part of the text, where `one` still sees the place in the whole."""
    out, at = [], start
    for m in TOKEN.finditer(text, start, end):
        out += [text[at : m.start()], one(m)]
        at = m.end()
    return "".join(out) + text[at:end]


GHOST = re.compile(r"\bghost use [^;]*;|\bghost \w+(?::| =) (?=\{)|\b(?:requires|ensures)(?: \w+)? (?=\{)")


def clauses(text):
    """The spans of a source file that are antt: ghost imports, ghost members and clauses."""
    for m in GHOST.finditer(text):
        if text[m.end() - 1] == ";":
            yield m.start(), m.end()
            continue
        depth, at = 0, m.end()
        while True:
            depth += {"{": 1, "}": -1}.get(text[at], 0)
            at += 1
            if not depth:
                break
        yield m.start(), at


def main():
    root = "."
    known, local, fields = {}, {}, {}
    for path in files(root, ".antt"):
        names, own = declared(open(path, encoding="utf-8").read())
        local[path] = {n: respelled(n, k) for n, k in names.items() if respelled(n, k) != n}
        name = module(path, root)
        if name:
            known[name] = local[path]
            fields |= {f: respelled(f, "field") for f in own if respelled(f, "field") != f}
            spelled = [respelled(n, k) for n, k in names.items()]
            for twice in {n for n in spelled if spelled.count(n) > 1}:
                print(f"{path}: two names become {twice}")
    for path in files(root, ".antt"):
        text = open(path, encoding="utf-8").read()
        new = turned(text, local[path], fields, known)
        if new != text:
            open(path, "w", encoding="utf-8").write(new)
    for path in files(root, ".rt"):
        text = open(path, encoding="utf-8").read()
        spans = list(clauses(text))
        uses = "".join(text[a:b] for a, b in spans if text.startswith("ghost use", a))
        names = {}
        for where, items in USE.findall(uses):
            for item in items.split(","):
                item = item.split(" as ")[0].strip()
                if item in known.get(where, {}):
                    names[item] = known[where][item]
        out, at = [], 0
        for a, b in spans:
            out += [text[at:a], turned(text[a:b], names, fields, known)]
            at = b
        new = "".join(out) + text[at:]
        if new != text:
            open(path, "w", encoding="utf-8").write(new)


if __name__ == "__main__":
    sys.exit(main())
