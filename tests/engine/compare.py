"""Compares a replay program with the unchanged Rust service and with a model of documents 01 and 02, over random walks.

    compare.py OURS ORACLE LIST [CALLS [SEED [ALSO]]]

OURS is a replay program of docs/REPLAY-FORMAT.md, ORACLE the oracle of ../shared/oracle, LIST the file that lists the classes of
differences (lines 'Engine class `NAME`', each followed by its smallest script). ALSO is another replay program: on the same records it
must print what OURS prints.

Ends with 0 only if every reply, every pool byte and every byte of the line that is shown is the same on all sides, or the difference is
in a listed class, every listed class occurs, every call is made in every wait, in every wait there are 0 to 4 that wait in the line,
every refusal 2 to 13 is met and so is every destination and every kind of link quality of walk.py and every case of cases.py. The
list's other scripts ('Engine unasked `NAME`', 'Engine script `NAME`') are run too: both sides must reply what is written there. With
'-' for ORACLE the comparison is with the model alone. The Rust has no link quality: there it is left aside, and it is compared with the
model's. It has no line that a call could change: it gets the request that leaves ours, as its queue's.
"""

import collections
import os
import re
import subprocess
import sys
import time

from cases import CASES
from model import CAPACITY, LINE_CALLS, WAITING, WAITS, Model
from records import (CALLS, KINDS, SILENT, ack_line, bytes_line, dump_line, from_script, quality_aside, reply_of, to_line, to_oracle,
                     to_record, to_script)
from walk import ANSWERED, DESTINATIONS, UNANSWERED, Walk, qualities

CHUNK = 20000


class Wrong(Exception):
    pass


def run_both(program, text, **settings):
    """What the program prints, and what it says on standard error; with these settings in its environment."""
    done = subprocess.run([program], input=text.encode(), capture_output=True, env={**os.environ, **settings})
    if done.returncode:
        raise Wrong("%s ended with %d: %s" % (program, done.returncode, done.stderr.decode()[:500]))
    return done.stdout.decode(), done.stderr.decode()


def run(program, text):
    return run_both(program, text)[0]


def run_oracle(oracle, text):
    """The oracle's lines; where one of the Rust's files (copied to target/src) panics, 'panics FILE:LINE' stands for 'refused'."""
    out, why = run_both(oracle, text, ORACLE_WHY="1")
    reasons, place = [], None
    for line in why.splitlines():
        panic = re.match(r"  panicked at target/src/(?:.*/)?([^/]+:\d+):\d+:$", line)
        if panic:
            place = panic.group(1)
        elif line.startswith("  refused: "):
            reasons.append("panics " + place if place else "refused")
            place = None
    lines = out.splitlines()
    if len(reasons) != lines.count("refused"):
        raise Wrong("the oracle gave %d reasons for %d refusals" % (len(reasons), lines.count("refused")))
    reasons = iter(reasons)
    return [next(reasons) if line == "refused" else line for line in lines]


def model_line(item):
    """The line that the model expects of a replay program."""
    what = item.call[0]
    if what in ("dump", "line"):
        return bytes_line(KINDS[what], item.call[1], item.reply)
    if what == "ack":
        return bytes_line("a", *item.reply)
    return to_line(KINDS[what], *item.reply)


def records(items):
    return "".join([to_record(item.call, item.unused) for item in items if item.ours])


def script(items):
    """What the oracle is asked."""
    return "".join(to_oracle(item.call, item.handed) + "\n" for item in items if item.asked)


def since_start(items, index):
    """The script from the last accepted start up to an item."""
    first = max([i for i in range(index + 1) if items[i].call[0] == "start" and items[i].reply[0] == 0], default=0)
    return "\n".join("    " + to_script(i.call) + ("" if i.ours else "   (the Rust alone)") for i in items[first:index + 1])


class Tally:
    def __init__(self):
        self.items = self.calls = self.asked = self.alone = self.pool_bytes = self.line_bytes = self.starts = 0
        self.waits = collections.Counter()
        self.pairs = collections.Counter()
        self.accepted = collections.Counter()
        self.refusals = collections.Counter()
        self.unasked = collections.Counter()
        self.classes = collections.Counter()
        self.destinations = collections.Counter()
        self.qualities = collections.Counter()
        self.cases = collections.Counter()
        self.waiting = collections.Counter()


def rust_line(item, text):
    """The oracle's reply as a line; a refusal takes the model's number, or 255 where the model has none. Link qualities are 0."""
    refusal, action, answers = reply_of(text)
    if refusal is None:
        refusal = item.reply[0] or 255
    return to_line(KINDS[item.call[0]], refusal, action, answers)


def judge_rust(items, ours, theirs, tally):
    """Our lines against the oracle's, link qualities left aside."""
    ours, lines = iter(ours), iter(theirs)
    pool = last = None      # the pool that the oracle showed last, our line to the last call
    for index, item in enumerate(items):
        what = item.call[0]
        if what in SILENT:
            continue
        if not item.ours:
            text = next(lines)
            expected = last if item.rust is None else to_line(KINDS[what], *item.rust)
            if quality_aside(rust_line(item, text)) != quality_aside(expected):
                raise Wrong("the Rust alone says '%s', which is not expected, after\n%s" % (text, since_start(items, index)))
            tally.alone += 1
            if item.group is not None:
                tally.classes[item.group] += 1
            continue
        line = next(ours)
        if what in CALLS:
            last = line
        if what == "dump":
            if item.asked:
                pool = bytes.fromhex(next(lines).split(" ", 1)[1])
            place = item.call[1]
            if line != dump_line(pool, place):
                raise Wrong("pool bytes from %d on differ from the Rust's after\n%s" % (place, since_start(items, index)))
            tally.pool_bytes += 48
            continue
        if not item.asked:
            continue
        text = next(lines)
        if what == "ack":
            seen = bytes.fromhex(text.split(" ", 1)[1])
            at = item.reply[0]
            same = line == ack_line(seen, at)
            expected = item.rust is not None and ack_line(seen, at) == bytes_line("a", *item.rust)
            tally.pool_bytes += 3
        else:
            theirs_line = quality_aside(rust_line(item, text))
            same = quality_aside(line) == theirs_line
            expected = item.rust is not None and theirs_line == quality_aside(to_line(KINDS[what], *item.rust))
            tally.asked += 1
        if item.rust is None and not same:
            raise Wrong("a difference in no class: the Rust says '%s', ours\n    %s after\n%s" % (
                text, line, since_start(items, index)))
        if item.rust is not None and (same or not expected):
            raise Wrong("class %s: the Rust says '%s', which is not what its list says, after\n%s" % (
                item.group or "of the call before", text, since_start(items, index)))
        if item.group is not None:
            tally.classes[item.group] += 1
    rest = list(lines)
    if len(rest) != 1:
        raise Wrong("the oracle printed %d lines too many" % (len(rest) - 1))


def judge_model(items, ours):
    lines = iter(ours)
    for index, item in enumerate(items):
        if not item.ours or item.call[0] in SILENT:
            continue
        line, expected = next(lines), model_line(item)
        if line != expected:
            raise Wrong("ours is not what the model says:\n    %s    %s after\n%s" % (
                line, expected, since_start(items, index)))


def count(items, tally):
    tally.qualities.update(qualities(items))
    for item in items:
        if item.call[0] == "start":
            tally.starts += 1
        if item.call[0] == "line":
            tally.line_bytes += len(item.reply)
        if item.wait is None:
            continue
        tally.calls += 1
        tally.cases.update(item.cases)
        refusal = item.reply[0]
        tally.refusals[refusal] += 1
        if item.about is not None:
            tally.destinations[item.about] += 1
        if not item.asked:
            tally.unasked[refusal] += 1
        if item.wait != "start":
            tally.waits[item.wait] += 1
            tally.waiting[item.wait, item.waiting] += 1
            tally.pairs[item.wait, item.call[0]] += 1
            if refusal == 0:
                tally.accepted[item.wait, item.call[0]] += 1


def chunk(programs, seed, calls, tally, also=None):
    walk = Walk(seed)
    every = walk.run(calls)
    printed = sum(item.ours and item.call[0] not in SILENT for item in every)
    out = run(programs[0], records(every))
    if also and run(also, records(every)) != out:
        raise Wrong("%s and %s do not print the same" % (programs[0], also))
    ours = out.splitlines(keepends=True)
    if len(ours) != printed:
        raise Wrong("ours printed %d lines, not %d" % (len(ours), printed))
    judge_model(every, ours)
    if programs[1]:
        theirs = run(programs[1], script(every)).splitlines()
        judge_rust(every, ours, theirs, tally)
    tally.items += sum(item.ours for item in every)
    count(every, tally)


def listed(path, what):
    """What the list names so, each with its script."""
    text = open(path).read()
    found = {}
    for match in re.finditer(r"^Engine %s `([^`]+)`(.*?)(?=^Engine |^#|\Z)" % what, text, re.M | re.S):
        found[match.group(1)] = re.findall(r"^    (\S.*)$", match.group(2), re.M)
    if not found:
        raise Wrong("%s lists no 'Engine %s'" % (path, what))
    return found


class Script:
    """A script of the list: the calls, what ours is to reply, what the oracle is asked and what it is to reply.

    The Rust gets what its own queue hands over: of the arrivals that wait, the earliest in the direction that it asks for. It gets an
    arrival at once where a reply of the Rust's stands behind it, and it alone gets what stands behind the word `rust`. A call on the
    line without a reply is accepted."""

    def __init__(self, lines):
        self.model, self.queue = Model(), []
        self.calls, self.ours_say, self.asked, self.rust_says = [], [], [], []
        for line in lines:
            text, _, replies = line.partition(" -> ")
            ours, _, rust = (part.strip() for part in replies.partition(" <> "))
            if text.startswith("rust "):
                self.asked.append(text[5:])
                self.rust_says.append(ours)
                continue
            for call in from_script(text.strip()):
                self.add(call, ours, rust)

    def add(self, call, ours, rust):
        what = call[0]
        self.calls.append(call)
        if what in SILENT:
            self.model.other(call)
            self.asked.append(to_oracle(call))
            return
        self.ours_say.append(ours or "ok nothing | -")
        if what not in LINE_CALLS or rust:
            handed = self.hand_over(call)
            says = rust or re.sub(r" q \d+", "", ours)
            self.asked.append(to_oracle(call, handed))
            self.rust_says.append(says)
            if handed in self.queue and says.startswith("ok"):
                self.queue.remove(handed)
        if what == "start":
            self.queue = []
            self.model.start(call)
        elif what in CALLS:
            refusal = self.model.step(call)[0]
            if what == "arrive" and not refusal:
                self.queue.append(call)
            elif what == "withdraw" and not refusal:
                self.queue = [q for q in self.queue if q[1] != call[1]]

    def hand_over(self, call):
        """The arrival that the Rust gets as a request, or None: the call itself."""
        if call[0] == "arrive":
            return call
        if call[0] not in ("request", "none"):
            return None
        outbound = self.model.wait == "ask-window"
        return next((q for q in self.queue if q[2] == "tx" or not outbound), None)


def check_scripts(programs, what, scripts):
    """Each script: the replies of both are as the list says, and, but for 'Engine script', the last one differs."""
    for name, lines in scripts.items():
        script = Script(lines)
        out = run(programs[0], "".join(map(to_record, [("clear",)] + script.calls))).splitlines(keepends=True)
        calls = [call for call in script.calls if call[0] not in SILENT]
        for line, call, say in zip(out, calls, script.ours_say, strict=True):
            kind = KINDS[call[0]]
            expected = say if kind in "aL" else to_line(kind, *reply_of(say)).strip()
            if (line.split()[2] if kind in "aL" else line.strip()) != expected:
                raise Wrong("%s %s: ours says %s, the list '%s'" % (what, name, line, say))
        theirs = [text for text in run_oracle(programs[1], "\n".join(script.asked) + "\n")]
        settings = script.calls[0]
        at = 144 * settings[8] + settings[2]
        for text, say in zip(theirs, script.rust_says):
            seen = text.split()[1][2 * at:2 * at + 6] if text.startswith("pool") else text
            if seen != say:
                raise Wrong("%s %s: the Rust says '%s', the list '%s'" % (what, name, seen, say))
        if what != "script" and script.ours_say[-1] == script.rust_says[-1]:
            raise Wrong("%s %s: its script ends without a difference" % (what, name))


def report(tally, seconds):
    print("%d records, %d calls (%d of them starts, %d accepted), %d of them asked of the Rust too; %d pool bytes compared with it, %d "
          "bytes of the line with the model; %.0f s" % (tally.items, tally.calls, tally.starts, tally.refusals[0], tally.asked,
                                                        tally.pool_bytes, tally.line_bytes, seconds))
    print("refusals: " + ", ".join("%d: %d" % (k, v) for k, v in sorted(tally.refusals.items())))
    print("not asked of the Rust: " + ", ".join("%d: %d" % (k, v) for k, v in sorted(tally.unasked.items())))
    print("classes: " + ", ".join("%s: %d" % (k, v) for k, v in sorted(tally.classes.items())))
    print("calls of the Rust alone: %d" % tally.alone)
    print("destinations: " + ", ".join("%s: %d" % (k, tally.destinations[k]) for k in DESTINATIONS))
    print("qualities answered: " + ", ".join("%s: %d" % (k, tally.qualities[k]) for k in ANSWERED))
    print("qualities not answered: " + ", ".join("%s: %d" % (k, tally.qualities[k]) for k in UNANSWERED))
    print("request E1: " + ", ".join("%s: %d" % (k, tally.cases[k]) for k in CASES))
    print("%-16s %9s  %s" % ("wait", "reached", "  ".join("%7d wait" % k for k in range(CAPACITY + 1))))
    for wait in WAITS:
        cells = "  ".join("%12d" % tally.waiting[wait, k] for k in range(CAPACITY + 1))
        print("%-16s %9d  %s" % (wait, tally.waits[wait], cells))
    for calls in (CALLS[:6], CALLS[6:]):
        print("%-16s  %s" % ("wait", "  ".join("%12s" % c for c in calls)))
        for wait in WAITS:
            cells = ["%d/%d" % (tally.accepted[wait, c], tally.pairs[wait, c]) for c in calls]
            print("%-16s  %s" % (wait, "  ".join("%12s" % c for c in cells)))
    print("(each cell: accepted/made)")


def check_coverage(tally):
    few = [w for w in WAITS if tally.waits[w] * 2000 < tally.calls]
    never = [p for p in ((w, c) for w in WAITS for c in CALLS) if tally.pairs[p] == 0]
    unmet = [n for n in range(2, 14) if tally.refusals[n] == 0]
    absent = [h for h in DESTINATIONS if tally.destinations[h] == 0]
    untold = [k for k in ANSWERED + UNANSWERED if tally.qualities[k] == 0]
    cases = [k for k in CASES if tally.cases[k] == 0]
    waiting = [p for p in WAITING if tally.waiting[p] == 0]
    if few or never or unmet or absent or untold or cases or waiting:
        raise Wrong("waits hardly reached: %s; calls never made in a wait: %s; refusals never met: %s; "
                    "destinations never met: %s; link qualities never met: %s; cases of request E1 never met: %s; "
                    "so many never waited in a wait: %s" % (few, never, unmet, absent, untold, cases, waiting))


def check_classes(tally, classes, path):
    for name in sorted(set(classes) | set(tally.classes)):
        if name not in classes:
            raise Wrong("class %s occurs and is not listed in %s" % (name, path))
        if tally.classes[name] == 0:
            raise Wrong("class %s is listed and does not occur" % name)


def main():
    ours, oracle, path = sys.argv[1:4]
    calls = int(sys.argv[4]) if len(sys.argv) > 4 else 100000
    seed = int(sys.argv[5]) if len(sys.argv) > 5 else 1
    also = sys.argv[6] if len(sys.argv) > 6 else None
    programs = (ours, None if oracle == "-" else oracle)
    begin, index, tally = time.time(), 0, Tally()
    try:
        classes = listed(path, "class")
        if programs[1]:
            for what in ("class", "unasked", "script"):
                check_scripts(programs, what, listed(path, what))
        while (tally.asked if programs[1] else tally.calls) < calls:
            chunk(programs, "%d/%d" % (seed, index), CHUNK, tally, also)
            index += 1
        check_coverage(tally)
        if programs[1]:
            check_classes(tally, classes, path)
    except Wrong as wrong:
        report(tally, time.time() - begin)
        print("FAILED in walk %d of seed %d: %s" % (index, seed, wrong))
        return 1
    report(tally, time.time() - begin)
    against = "the Rust's and the model's, but for the listed classes" if programs[1] else "the model's"
    print("seed %d, %d walks of %d calls: all replies and bytes are %s%s" % (
        seed, index, CHUNK, against, "; a second program prints the same" if also else ""))
    return 0


if __name__ == "__main__":
    sys.exit(main())
