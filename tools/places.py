#!/usr/bin/env python3
"""Counts the places of docs/DESIGN-PASS.md in crates/*/src, for the working tree or for a commit: tools/places.py [-v] [COMMIT]"""
import re, subprocess, sys

args = [a for a in sys.argv[1:] if a != "-v"]
verbose = "-v" in sys.argv[1:]
commit = args[0] if args else None


def git(*words):
    return subprocess.run(["git", *words], capture_output=True, text=True, check=True).stdout


def files(pattern):
    names = git("ls-tree", "-r", "--name-only", commit, "crates") if commit else git("ls-files", "crates")
    return [n for n in names.split("\n") if re.search(pattern, n)]


def text(name):
    return git("show", f"{commit}:{name}") if commit else open(name).read()


SRC = {n: text(n) for n in files(r"/src/.*\.rt$")}
CODE = {n: re.sub(r"//[^\n]*", "", t) for n, t in SRC.items()}


def crate(name):
    return name.split("/")[1]


def block(t, at):
    depth = 0
    for i in range(t.index("{", at), len(t)):
        depth += {"{": 1, "}": -1}.get(t[i], 0)
        if depth == 0:
            return t[t.index("{", at) + 1 : i]


def functions():
    for n, t in CODE.items():
        for m in re.finditer(r"\bfn (\w+)[^;{]*?(?:ensures|requires|\{)", t):
            # the body is the last block before the next item
            rest = t[m.start() :]
            end = re.search(r"\n\}\n", rest)
            yield n, m.group(1), rest[: end.end() if end else None]


def body(f):
    lines = f.split("\n")
    for i, l in enumerate(lines):
        if l in ("{", "    {") or (l.endswith("{") and not l.strip().startswith(("ensures", "requires"))):
            return "\n".join(lines[i + 1 :])
    return ""


found = {}


def count(point, what, places):
    places = list(places)
    found.setdefault(point, []).append((what, places))


# 1
def option_shaped():
    for n, t in CODE.items():
        for m in re.finditer(r"\benum (\w+)[^{]*\{", t):
            variants = [v.strip() for v in re.split(r",\s*\n", block(t, m.start())) if v.strip()]
            if len(variants) == 2 and sum("(" in v for v in variants) == 1:
                yield f"{crate(n)}: {m.group(1)}"


count(1, "enums of two cases, one of which has no fields", option_shaped())
count(1, "fields that say whether another one counts (there, more)", (f"{crate(n)}: {m.group(0)}" for n, t in CODE.items() for m in re.finditer(r"\b(?:there: u8|more: bool),", t)))
count(1, "refusals as numbers: fields, results and literals", (f"{crate(n)}: {m.group(0)}" for n, t in CODE.items() for m in re.finditer(r"\brefusal: u8\b|\bfn \w*refus\w*\([^)]*\) -> u8|\b(?:refused|refuse_if|no_answer|silent|owed_answer)\([^()]*\b\d+[,)]|\bi32\b", t)))


# 2
def twins():
    groups = {}
    for n, f, t in functions():
        b = body(t)
        words = re.findall(r"\w+|[^\w\s]", b)
        if len(words) < 12:
            continue
        names = {}
        key = tuple("#" if w.isdigit() or re.fullmatch(r"0x\w+", w) else names.setdefault(w, len(names)) if re.fullmatch(r"\w+", w) and w not in ("if", "else", "match", "let", "as", "return", "for", "in", "while", "mut") else w for w in words)
        groups.setdefault(key, []).append(f"{crate(n)}: {f}")
    return [" = ".join(g) for g in groups.values() if len(g) > 1]


count(2, "groups of functions whose bodies differ in names, types and numbers only", twins())

# 3
count(3, "loops that count by hand", (f"{crate(n)}: {m.group(0).strip()}" for n, t in CODE.items() for m in re.finditer(r"\bwhile [^\n]*", t)))
count(3, "loops written out: calls of one function that differ in a step of a number", (f"{crate(n)}: {f}" for n, f, t in functions() if any(len(re.findall(rf"\b{re.escape(c)}\(", body(t))) >= 4 for c in ("write_byte", "write_four", "put_four", "util::byte_at", "columns::put_byte"))))

# 4
count(4, "functions of both and either, in place of && and ||", (f"{crate(n)}: {m.group(0)}" for n, t in CODE.items() for m in re.finditer(r"\butil::(?:both|either)\(", t)))
count(4, "equality and conversion by hand", (f"{crate(n)}: {f}" for n, f, t in functions() if re.fullmatch(r"is_same\w*|is_at|is_best_effort|is_unknown|is_timed|wide|flag|bit|flag_number|bytes_of_u\d+|u\d+_at|ifs_code|addressing_mode|digit|put_digit|double|word|half|two|four|first_eight|check_number|with_spare", f)))
count(4, "fields named twice (x: x)", (f"{crate(n)}: {m.group(1)}" for n, t in CODE.items() for m in re.finditer(r"\b(\w+): \1,", t)))
count(4, "values taken out of a field by a let of its name", (f"{crate(n)}: {m.group(0)}" for n, t in CODE.items() for m in re.finditer(r"\blet (\w+) = \w+\.\1;", t)))

# 5
count(5, "functions that take hardware, pan and implicit one by one", (f"{crate(n)}: {f}" for n, f, t in functions() if re.search(r"\bimplicit: \w+", t.split("{")[0])))
count(5, "functions that take or return the four records one by one", (f"{crate(n)}: {f}" for n, f, t in functions() if "RequestRecord,\n    b: RequestRecord" in t))

# 6
count(6, "matches on how many requests wait", (f"{crate(n)}: {m.group(0)}" for n, t in CODE.items() for m in re.finditer(r"\bLine::(?:Zero|One|Two|Three|Four)\b[^=]*=>", t)))
count(6, "structs of four fields for the four places", (f"{crate(n)}: {m.group(1)}" for n, t in CODE.items() for m in re.finditer(r"struct (\w+) \{\s*(?:pub )?(?:outcome[^\n]*\n\s*pub )?first: \w+,\s*(?:pub )?second: \w+,\s*(?:pub )?third", t)))
count(6, "a slice with its length beside it", (f"{crate(n)}: {f}" for n, f, t in functions() if re.search(r"pool: &mut \[u8[^,]*, length: usize", t)))

# 7
count(7, "tables of functions, switches on which step to run next", (f"{crate(n)}: {f}" for n, f, t in functions() if re.search(r"\bfn\([^)]*\) ->|dyn ", t)))

# 8
answers = files(r"/proofs/.*/Answers\.antt$")
count(8, "files of answers", answers)
count(8, "lines of proof", (n for n in files(r"/proofs/.*\.antt$") for _ in text(n).split("\n")[:-1]))

for point in sorted(found):
    for what, places in found[point]:
        print(f"{point}  {len(places):6}  {what}")
        if verbose and point < 8:
            for p in places:
                print(f"              {p}")
