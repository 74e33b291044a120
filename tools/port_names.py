#!/usr/bin/env python3
"""Spells the repository's own definitions, fields and lemmas as today's Rattle does, by port_names.tsv beside this file.

usage: tools/port_names.py            at the top of the repository, once, after port.py

A row is an old name, a new name and a kind. A 'field' turns behind a dot too, wherever it stands. A 'name' that has a dash stays behind a dot in the
folder of a function's proof: Rattle makes such names. A 'lemma' has the name of a Rust function and turns only where no dot is beside it.
A file specs/Contracts.antt becomes specs/Clauses.antt. A prime becomes an apostrophe. Comments and pages turn between backticks.
"""
import os
import re
import sys

HERE = os.path.dirname(os.path.realpath(__file__))
TOKEN = re.compile(r"[^\s(){}\[\],;.:@\"«»]+")
COMMENT = {".antt": re.compile(r"(?m)(?:^|(?<=\s))--.*"), ".rt": re.compile(r"(?m)(?:^|(?<=\s))//.*")}
STRING = re.compile(r'b?"(?:\\.|[^"\\\n])*"')
SPAN = re.compile(r"`[^`\n]*`")


def table():
    with open(os.path.join(HERE, "port_names.tsv"), encoding="utf-8") as f:
        return {old: (new, kind) for old, new, kind in (line.rstrip("\n").split("\t") for line in f)}


NAMES = table()


def turned(code, in_function, rust):
    def one(m):
        word = m.group(0)
        if not rust:
            word = word.replace("′", "'")
        stem = word.rstrip("'")
        new, kind = NAMES.get(stem, (None, None))
        if new is None:
            return word
        before = code[m.start() - 1 : m.start()]
        after = code[m.end() : m.end() + 1]
        if kind == "lemma" and (rust or before == "." or after == "."):
            return word
        if kind == "name" and in_function and before == "." and "-" in stem:
            return word
        return new + word[len(stem):]

    return TOKEN.sub(one, code)


def contracts(text):
    text = re.sub(r"(?<=\.)specs\.Contracts\b", "specs.Clauses", text)
    text = re.sub(r"(?m)^pub mod Contracts$", "pub mod Clauses", text)
    return text.replace("specs/Contracts.antt", "specs/Clauses.antt")


def turn(text, ext, in_function):
    rust = ext == ".rt"
    parts, at = [], 0
    quiet = COMMENT[ext]
    spans = sorted([m.span() for m in quiet.finditer(text)] + [m.span() for m in STRING.finditer(text)])
    for start, end in spans:
        if start < at:
            continue
        parts.append(turned(text[at:start], in_function, rust))
        inner = text[start:end]
        if quiet.match(inner):
            inner = SPAN.sub(lambda m: turned(m.group(0), False, False), inner)
        parts.append(inner)
        at = end
    parts.append(turned(text[at:], in_function, rust))
    return contracts("".join(parts))


def files(root):
    for folder, dirs, names in os.walk(root):
        dirs[:] = sorted(d for d in dirs if d != "out")
        for name in sorted(names):
            yield os.path.join(folder, name)


def main():
    for path in list(files("crates")):
        ext = os.path.splitext(path)[1]
        if ext not in COMMENT:
            continue
        parts = path.split(os.sep)
        in_function = len(parts) > 4 and parts[2] == "proofs"
        with open(path, encoding="utf-8") as f:
            text = f.read()
        new = turn(text, ext, in_function)
        to = re.sub(r"specs/Contracts(EditVar\d+)?\.antt$", r"specs/Clauses\1.antt", path)
        if new != text:
            with open(path, "w", encoding="utf-8") as f:
                f.write(new)
        if to != path:
            os.rename(path, to)


if __name__ == "__main__":
    sys.exit(main())
