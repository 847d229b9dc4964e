#!/usr/bin/env python3
"""Respells the repository's own definitions and lemmas: words in snake case, types and modules in camel case.

usage: python3 tools/respell.py        at the top of the repository, once, after the kit's port.py

Turned are lower camel case (numberAt: number_at) and dashes between words (read-back: read_back) of what crates/*/specs and crates/*/proofs
define: definitions, lemmas, constructors and fields. A name that another name of the repository has already gets _of (a definition) or
_lem (a lemma) at its end. Functions of src/, exported names, strings and the toolchain's own names (of goals and steps) stay.
It prints what it turned, old and new, one pair a line.
"""

import glob
import os
import re
import sys

STOP = r"\s(){}\[\],;.«»\"`"
TOKEN = re.compile(rf"[^{STOP}]+")
HEAD = re.compile(r"^\s*(?:(?:pub|abbrev|unfoldable|data|record|mutual|infix[lr]?)\s+)*([^\s:(){}.,=]+(?: [^\s:(){}.,=]+)*) :(?:\s|$)")
CHOSEN = {"for-us": "is_for_us"}
KEYWORDS = {"pub", "abbrev", "unfoldable", "data", "record", "let", "in", "module", "where", "use", "as", "of"}


def read(path):
    with open(path, encoding="utf-8") as f:
        return f.read()


def snake(name):
    words = re.sub(r"([a-z0-9])([A-Z])", r"\1_\2", name).replace("-", "_")
    return words.lower()


def defined(paths):
    """The names that the files define, and which of them are in specs/."""
    found = {}
    for path in paths:
        for line in read(path).split("\n"):
            if line.lstrip().startswith("--"):
                continue
            m = HEAD.match(line)
            if m:
                for name in m.group(1).split():
                    if name not in KEYWORDS:
                        found.setdefault(name, set()).add("/specs/" in path)
    return found


def main():
    specs = sorted(glob.glob("crates/*/specs/*.antt"))
    lemmas = sorted(glob.glob("crates/*/proofs/*.antt"))
    walks = sorted(glob.glob("crates/*/proofs/*/*.antt"))
    sources = sorted(glob.glob("crates/*/src/*.rt"))
    edits = sorted(glob.glob("crates/*/must-fail/*.edit"))
    if not specs:
        print("respell: no crates/*/specs here", file=sys.stderr)
        raise SystemExit(2)
    names = defined(specs + lemmas)
    taken = set()
    for path in specs + lemmas:
        taken.update(TOKEN.findall(read(path)))
    code = "\n".join(read(path) for path in sources)
    taken.update(set(re.findall(r"\w+", code)) - set(re.findall(r"\bfn (\w+)", code)))
    turned = {}
    for name in sorted(names, key=lambda n: ("-" in n, n)):
        own = re.fullmatch(r"[a-z][\w'′-]*", name)
        if not own or ("-" not in name and not re.search(r"[A-Z]", name)):
            continue
        new = CHOSEN.get(name, snake(name))
        if new in taken or new in turned.values():
            new += "_of" if re.search(r"[A-Z]", name) else "_lem"
        while new in taken or new in turned.values():
            new += "_2"
        turned[name] = new
    fields = set()
    for path in specs + lemmas:
        inside = False
        for line in read(path).split("\n"):
            if re.match(r"^\s*(?:pub )?record\s", line):
                inside = True
            elif line and not line.startswith((" ", "\t")):
                inside = False
            elif inside:
                m = re.match(r"^\s+(?:pub )?([^\s:(){}.,=]+) :(?:\s|$)", line)
                if m:
                    fields.add(m.group(1))

    def antt(text, walk):
        def one(m):
            name = m.group(0)
            if name not in turned:
                return name
            before = text[m.start() - 1] if m.start() else ""
            if before == "." and name not in fields and not re.match(r".*[A-Z]", name):
                return name
            return turned[name]
        return TOKEN.sub(one, text)

    def rust(text):
        return TOKEN.sub(lambda m: turned[m.group(0)] if m.group(0) in turned and re.search(r"[A-Z]", m.group(0)) else m.group(0), text)

    for path in specs + lemmas + walks + sources + edits:
        old = read(path)
        new = rust(old) if path.endswith(".rt") else antt(old, path in walks)
        if new != old:
            with open(path, "w", encoding="utf-8") as f:
                f.write(new)
    for name in sorted(turned):
        print(name, turned[name])


main()
