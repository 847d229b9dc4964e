"""Prints the table of docs/CHECK-TIMES.md. From the repository's root:

    RT_JOBS=1 rt ci --anew 2>&1 | python3 docs/check-times.py    proves and tries all, one after the other, and times it
    python3 docs/check-times.py LOG                               from what `.ci/run` printed, with no seconds: rt prints none

A proof's seconds are those between its line and the line before. The edits of a crate are tried one after the other, with no line for
each, so theirs are the mean; the check that the next crate's edits begin with is in them. A crate that an earlier run proved has none.
"""
import glob
import itertools
import os
import re
import sys
import time

PROVED = re.compile(r"rt: (\w+)(: its tests are)? (proved$|is kept: )")
TRYING = re.compile(r"rt: (\w+): trying its must-fail edits \((\d+)\)$")
REFUSED = re.compile(r"rt: must-fail (\w+)/[\w.-]+\.edit: refused")
EDIT = re.compile(r"rt: must-fail ")


def timed(lines):
    """Each line with the seconds at which it came."""
    for line in lines:
        yield time.monotonic(), line


def read(lines):
    """The crates that are proved, each with its seconds; how many edits were refused; the seconds of a crate's edits. Without a time
    a line has None."""
    proved, edits, spent = {}, {}, {}
    before, trying = None, None
    for at, line in lines:
        if before is None:
            before = at
        if match := PROVED.match(line):
            crate, is_kept = match[1], match[3].startswith("is kept")
            if is_kept or at is None:
                proved.setdefault(crate, None)
            else:
                proved[crate] = (proved.get(crate) or 0) + at - before
            before = at
        if trying and at is not None and (TRYING.match(line) or EDIT.match(line)):
            crate, number, since = trying
            spent[crate], trying = (at - since) / number, None
        if match := TRYING.match(line):
            trying = match[1], int(match[2]), at
        if match := REFUSED.match(line):
            edits[match[1]] = edits.get(match[1], 0) + 1
    return proved, edits, spent


def lines(crate, part):
    """Lines of the Rattle and antt files of a crate's part."""
    files = glob.glob("crates/%s/%s/**/*" % (crate, part), recursive=True)
    return sum(len(open(f, encoding="utf-8").readlines()) for f in files if os.path.isfile(f))


def shown(seconds):
    return "" if seconds is None else "%.0f" % seconds


def main():
    begin = time.monotonic()
    if len(sys.argv) > 1:
        with open(sys.argv[1], encoding="utf-8", errors="replace") as log:
            proved, edits, spent = read((None, line) for line in log)
    else:
        sys.stdin.reconfigure(errors="replace")
        proved, edits, spent = read(itertools.chain([(begin, "")], timed(sys.stdin)))
    print("| crate | seconds | must-fail edits | seconds for an edit | lines of src | specs | proofs |")
    print("|---|---|---|---|---|---|---|")
    total = [0] * 5
    for line in open("crates.txt", encoding="utf-8"):
        if line.startswith("#") or ":" not in line:
            continue
        crate = re.match(r"\w+", line)[0]
        if crate not in proved:
            sys.exit("%s was not proved" % crate)
        row = [proved[crate], edits.get(crate, 0)] + [lines(crate, part) for part in ("src", "specs", "proofs")]
        total = [a + (b or 0) for a, b in zip(total, row)]
        print("| %s | %s | %d | %s | %d | %d | %d |" % (crate, shown(row[0]), row[1], shown(spent.get(crate)), *row[2:]))
    print("| all | %s | %d | | %d | %d | %d |" % (shown(total[0] or None), *total[1:]))


main()
