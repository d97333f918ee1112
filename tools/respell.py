#!/usr/bin/env python3
"""Respells the names of this repository's definitions and lemmas, once, after port.py of the kit:
types and facts in upper camel case, everything else in snake case. Names of the kit's library, goals and
labels that the check makes, functions of src/, strings and file names keep their spelling.

usage: python3 tools/respell.py        at the top of the repository
"""
import collections
import os
import re

# a definition whose snake case is the name of a function beside it
APART = {
    "all-printable": "is_all_printable",
    "empty-handed": "nothing_in_hand",
    "read-stamped": "reads_stamped",
}
NAME = re.compile(r"(?<![\w'\-])([A-Za-z_][\w'≢≡]*(?:-[\w'≢≡]+)+)(?![\w'\-])")
DEFINED = re.compile(r"(?m)^\s*(?:abbrev |unfoldable |opaque )*(?:pub )?(?:record |data |module )?([A-Za-z_][\w'≢≡]*(?:-[\w'≢≡]+)+)(?=[:({\s])")


def files():
    for folder, folders, names in os.walk("crates"):
        folders[:] = sorted(f for f in folders if f != "out")
        for name in sorted(names):
            if name.endswith((".antt", ".rt")):
                yield os.path.join(folder, name)


def of_function(path):
    return os.path.basename(path) in ("Answers.antt", "Invariants.antt", "Proof.antt")


def of_lemmas(path):
    return path.endswith(".antt") and not of_function(path)


def split(path, line):
    """The code of a line and its comment."""
    mark = "--" if path.endswith(".antt") else "//"
    at = line.find(mark) if mark == "//" else next((m.start() for m in re.finditer(r"(?<!\S)--(?!\S)", line)), -1)
    return (line, "") if at < 0 else (line[:at], line[at:])


def code(path, text):
    return "".join(split(path, line)[0] + "\n" for line in text.split("\n"))


def of_library(text, own):
    names = set()
    for crate, listed in re.findall(r"use (?:Rattle\.)?(\w+)\.[\w.]*?\.?\{([^}]*)\}", text):
        if crate not in own:
            names |= {n.split(" as ")[0].strip() for n in listed.split(",")}
    return names


def respelt(name):
    if name in APART:
        return APART[name]
    if name[0].isupper():
        return "".join(word[:1].upper() + word[1:] for word in name.split("-"))
    return name.replace("-", "_")


def main():
    own = {line.split(":")[0].split()[0] for line in open("crates.txt", encoding="utf-8") if ":" in line}
    texts = {p: open(p, encoding="utf-8").read() for p in files()}
    defined = set()
    local = collections.defaultdict(set)
    for path, text in texts.items():
        if of_lemmas(path):
            plain = code(path, text)
            defined |= set(DEFINED.findall(plain)) - of_library(plain, own)
    for path, text in texts.items():
        if of_lemmas(path):
            plain = code(path, text)
            library = of_library(plain, own)
            for m in NAME.finditer(plain):
                if m.group(1) not in library and m.group(1) not in defined and plain[m.start() - 1] != ".":
                    local[path].add(m.group(1))
    for path, text in texts.items():
        plain = code(path, text)
        library = of_library(plain, own)
        goals = set(re.findall(r"goal\.([\w'\-]+)", plain)) if of_function(path) else set()

        def turn(m):
            name, before = m.group(1), m.string[: m.start()]
            if name in library or name in goals or before.endswith("goal."):
                return name
            if name in local[path] and not before.endswith("."):
                return respelt(name)
            if name not in defined or re.search(r"(?<![\w'])c\.$", before) and of_function(path):
                return name
            return respelt(name)

        lines = []
        for line in text.split("\n"):
            plain_part, comment = split(path, line)
            lines.append(NAME.sub(turn, plain_part) + re.sub(r"`[^`]*`", lambda q: NAME.sub(turn, q.group(0)), comment))
        new = "\n".join(lines)
        if new != text:
            with open(path, "w", encoding="utf-8") as f:
                f.write(new)
    for page in ["README.md"] + sorted(os.path.join("docs", p) for p in os.listdir("docs")):
        text = open(page, encoding="utf-8").read()
        new = re.sub(r"`[^`\n]*`", lambda q: NAME.sub(lambda m: respelt(m.group(1)) if m.group(1) in defined else m.group(1), q.group(0)), text)
        if new != text:
            with open(page, "w", encoding="utf-8") as f:
                f.write(new)


main()
