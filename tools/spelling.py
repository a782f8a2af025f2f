#!/usr/bin/env python3
"""Brings this repository's own definitions and lemmas to today's spelling: words in snake case, types and modules in camel case.

usage:  tools/spelling.py [--list]      at the top, after the kit's port.py; --list only prints old and new names

A name is one that specs/ or proofs/ declares. Functions of src/, strings, inputs and outputs keep theirs; so do the parts of a name
of crates/once, which a dash joins: CRATE-TYPE-FUNCTION-once.
"""
import collections
import pathlib
import re
import sys

ROOT = pathlib.Path.cwd()
DECLARED = re.compile(r"^\s*(?:(?:abbrev|unfoldable|pub|package)\s+)*([^\s(){}.,;:]+)\s*:(?=\s|$)")
TOKEN = re.compile(r"[^\s(){}\[\].,;◌`|\"<>=/:]+")
# A field whose word a definition has.
APART = {"set-up": "as_set_up"}


def snake(name):
    if name in APART:
        return APART[name]
    if re.match(r"[A-Z][a-z]", name):  # a type's name, or a fact about one
        return name
    parts = []
    for part in name.split("-"):
        part = re.sub(r"(?<=[a-z0-9])(?=[A-Z])", "_", part)
        parts.append(part.lower())
    return "_".join(parts)


def once(name):
    return name.endswith("-once")


def own_names():
    """The declared names that are not in today's spelling, and the words that are taken."""
    found, taken = collections.defaultdict(set), set()
    for path in sorted(ROOT.glob("crates/*/*/**/*.antt")):
        if path.parts[-2] == "out" or "out" in path.relative_to(ROOT).parts:
            continue
        walk = path.name == "Proof.antt"
        for line in path.read_text().splitlines():
            m = DECLARED.match(line)
            if not m or line.lstrip().startswith("--") or not m[1].isprintable():
                continue
            name = m[1]
            rest = line[m.end():]
            if walk and (re.match(r"\s*tie\.", rest) or name.endswith("-spec") or "statement" in rest):
                continue
            if re.search(r"[a-z0-9][A-Z]", name) or re.search(r"[A-Za-z0-9]-[A-Za-z0-9]", name):
                found[name].add(path)
            else:
                taken.add(name)
    return found, taken


def renaming():
    """Old and new names. A lemma whose word is taken by what it is about gets _lem."""
    names = {}
    found, taken = own_names()
    for name in sorted(found, key=lambda n: ("-" in n, n)):
        new = name if once(name) else snake(name)
        if "-" in name and new != name and new in taken:
            new += "_lem"
        if new != name:
            names[name] = new
            taken.add(new)
    return names


def turned(text, names):
    return TOKEN.sub(lambda m: names.get(m[0], m[0]), text)


def turn_antt(text, names):
    lines = []
    for line in text.split("\n"):
        code, dash, comment = line.partition("-- ") if line.lstrip().startswith("-- ") else (line, "", "")
        lines.append(turned(code, names) + dash + comment)
    return "\n".join(lines)


def turn_once(text):
    """CRATE-TYPE-FUNCTION: a function's own name keeps its underscores."""
    def words(m):
        alias, path = m[2], m[1].split(".")
        new = "-".join([path[1]] + path[3:-1])
        aliases[alias] = new
        return f"use {m[1]} as {new}"
    aliases = {}
    text = re.sub(r"use (Rattle\.\S+\.Reads) as (\S+)", words, text)
    text = TOKEN.sub(lambda m: aliases.get(m[0], aliases[m[0][:-5]] + "-once" if m[0].endswith("-once") and m[0][:-5] in aliases else m[0]), text)
    return text


def turn_rt(text, names):
    lines = []
    for line in text.split("\n"):
        lines.append(line if re.match(r"\s*//", line) or '"' in line else turned(line, names))
    return "\n".join(lines)


def main():
    names = renaming()
    together = collections.defaultdict(set)
    for old, new in names.items():
        together[new].add(old)
    if "--list" in sys.argv:
        for old, new in sorted(names.items()):
            print(old, new)
    for path in sorted(ROOT.glob("crates/*/*/**/*")):
        if not path.is_file() or "out" in path.relative_to(ROOT).parts:
            continue
        text = path.read_text()
        if path.suffix == ".antt":
            new = turn_antt(text, names)
            if path.parts[-3] == "once" or "once" in path.relative_to(ROOT).parts:
                new = turn_once(new)
        elif path.suffix == ".rt":
            new = turn_rt(text, names)
        else:
            continue
        # names that fall together: a new word that this file already had as a word of its own
        before = set(TOKEN.findall(text))
        for old, word in names.items():
            if old in before and word in before:
                print(f"together: {path.relative_to(ROOT)}: {old} becomes {word}, which stands there")
        if new != text and "--list" not in sys.argv:
            path.write_text(new)
    for new, olds in sorted(together.items()):
        if len(olds) > 1:
            print(f"together: {' '.join(sorted(olds))} become {new}")


main()
