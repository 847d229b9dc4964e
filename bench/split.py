"""Where the instructions of accepted calls go: reading, the service, writing.

    split.py parts PROGRAM TRACES      the parts of the calls; TRACES is what `bench_calls --trace` printed of PROGRAM
    split.py narrow PROGRAM TRACES     of each call how many instructions a processor of 32 bits may need, by a rule of thumb, and
                                       in what time at 64 MHz: from one cycle for each of x86-64's to 1.5 for each of these

Of each call there are four ways through the machine code: the call itself, and the same call on slices of which one byte is spoilt,
which is refused by 1. As long as two ways are the same, nothing has told them apart. So
- up to where the count spoilt tells: the numbers packed, the slices' lengths tested, the state's fields read (decode);
- from there to the call of `state_bytes::encode`: is it a valid state (validity);
- from there to where the state's last byte spoilt tells: written again and compared (canonical test);
- from there to where the line's last byte spoilt tells: all of that for the line;
- from there to the call of `slices::finish`: the service's call itself, and the moving of what it takes and returns (service);
- in `slices::finish`: `state_bytes::encode` once more (the state written), and the rest (the reply written, both stored);
- after it: the line written, in the calls that change it, and the return.
The boundaries are exact; an instruction that the compiler moved across one counts where it stands. Beside each part stands how many
of its instructions only move data (mov and its like, push, pop), and how many are the C library's (memcpy).

The rule of thumb: an instruction on 128 bits counts 4, one on 64 bits 2, others 1; one that works on memory, and does not only
move between it and a register, 1 more; one of the C library 4. Much that x86-64 keeps in 64 bits has 32 or fewer, so it is rather
too high.
"""
import re
import subprocess
import sys
from collections import Counter, defaultdict

PARTS = (
    ("numbers packed", "reading"),
    ("state: lengths, fields", "reading"),
    ("state: validity", "reading"),
    ("state: written again, compared", "reading"),
    ("line: fields, fit, compared", "reading"),
    ("service", "service"),
    ("state written", "writing"),
    ("reply written, both stored", "writing"),
    ("line written, return", "writing"),
)
MEGAHERTZ = 64
STATE_WRITTEN, FINISH, CALL = "state_bytes::encode", "slices::finish", "exported::call"


def run(*command):
    return subprocess.run(command, check=True, capture_output=True, text=True).stdout


def symbols(program):
    found = {}
    for line in run("nm", program).splitlines():
        match = re.match(r"([0-9a-f]+) \w (.+)$", line)
        if match and match.group(2) in (STATE_WRITTEN, FINISH, CALL):
            found[match.group(2)] = match.group(1).lstrip("0")
    for name in (STATE_WRITTEN, FINISH, CALL):
        if name not in found:
            sys.exit("%s has no function %s: the compiler has put it into its caller, and the parts cannot be told" % (program, name))
    return found


def instructions(program):
    """Address to (mnemonic, operands)."""
    found = {}
    for line in run("objdump", "-d", "-w", "--no-show-raw-insn", program).splitlines():
        match = re.match(r"\s+([0-9a-f]+):\t(?:notrack |bnd |rep |repz )?(\S+)\s*([^#<]*)", line)
        if match:
            found[match.group(1)] = (match.group(2), match.group(3).strip())
    return found


def common(one, two):
    for place, (a, b) in enumerate(zip(one, two)):
        if a != b:
            return place
    return min(len(one), len(two))


def bounds(whole, spoilt, at):
    """Where each part ends, by place in the way of the call."""
    entry, finish = whole.index(at[CALL]), whole.index(at[FINISH])
    written = whole.index(at[STATE_WRITTEN])
    again = whole.index(at[STATE_WRITTEN], finish)
    back = return_of(whole, again)
    ends = [entry, common(whole, spoilt["settings"]), written, common(whole, spoilt["state"]), common(whole, spoilt["line"]), finish]
    end = return_of(whole, finish)
    return ends, again, back, end


def return_of(whole, begin):
    """The place after a function's return: that of the instruction after its call."""
    after = NEXT[whole[begin - 1]]
    return whole.index(after, begin)


NEXT = {}


def split(whole, spoilt, at):
    (a, b, c, d, e, f), again, back, end = bounds(whole, spoilt, at)
    if not a < b < c < d < e < f < again < back < end <= len(whole):
        sys.exit("the parts are not in the order that is expected: %s" % ((a, b, c, d, e, f, again, back, end, len(whole)),))
    pieces = [whole[:a], whole[a:b], whole[b:c], whole[c:d], whole[d:e], whole[e:f]]
    return pieces + [whole[again:back], whole[f:again] + whole[back:end], whole[end:]]


def is_move(word):
    return word.startswith(("mov", "push", "pop", "lddqu")) or word in ("cltq", "cqto")


def narrow(word, operands):
    """By the rule of thumb."""
    registers = re.sub(r"\(.*?\)", "", operands)
    if "%xmm" in operands:
        steps = 4
    elif word.endswith("q") or re.search(r"%r(?:[a-d]x|[sd]i|[sb]p|\d+(?![bwd\d]))", registers):
        steps = 2
    else:
        steps = 1
    works = "(" in operands and not word.startswith(("lea", "nop")) and not (is_move(word) and "$" not in operands)
    return steps + works


def read(traces):
    """For each call its name and its ways by what is spoilt."""
    calls = []
    with open(traces, encoding="utf-8") as file:
        for line in file:
            name, what, *addresses = line.split()
            if what == "whole":
                calls.append((name, {}))
            calls[-1][1][what] = addresses
    return calls


def table(calls, code, at):
    spent, moves, outside, by_name = Counter(), Counter(), Counter(), defaultdict(Counter)
    for name, ways in calls:
        for (part, kind), piece in zip(PARTS, split(ways["whole"], ways, at)):
            spent[part] += len(piece)
            by_name[name][kind] += len(piece)
            outside[part] += piece.count("-")
            moves[part] += sum(1 for each in piece if each != "-" and is_move(code[each][0]))
    whole = sum(spent.values())
    print("%-34s %12s %7s %12s %12s" % ("part, mean of %d calls" % len(calls), "instructions", "share", "moves alone", "C library's"))
    for part, kind in PARTS:
        row(part, spent[part], whole, moves[part], outside[part], len(calls))
    for kind in ("reading", "service", "writing"):
        own, moved, libc = (sum(each[part] for part, its in PARTS if its == kind) for each in (spent, moves, outside))
        row("= " + kind, own, whole, moved, libc, len(calls))
    row("= all", whole, whole, sum(moves.values()), sum(outside.values()), len(calls))
    return by_name


def row(part, spent, whole, moves, outside, calls):
    print("%-34s %12.1f %6.1f%% %12.1f %12.1f" % (part, spent / calls, 100 * spent / whole, moves / calls, outside / calls))


def parts(program, traces):
    at, code, calls = symbols(program), instructions(program), read(traces)
    order = sorted(code, key=lambda each: int(each, 16))
    NEXT.update(zip(order, order[1:]))
    by_name = table(calls, code, at)
    print("%-34s %8s %8s %8s %8s" % ("mean of a function", "reading", "service", "writing", "all"))
    made = Counter(name for name, _ in calls)
    for name, spent in by_name.items():
        means = [spent[kind] / made[name] for kind in ("reading", "service", "writing")]
        print("%-34s %8.1f %8.1f %8.1f %8.1f" % ("widosha_" + name, *means, sum(means)))


def estimates(program, traces):
    code, made = instructions(program), defaultdict(list)
    for name, ways in read(traces):
        whole = ways["whole"]
        made[name].append((len(whole), sum(4 if at == "-" else narrow(*code[at]) for at in whole)))
    print("%-34s %12s %11s %22s" % ("call, mean of its calls", "instructions", "on 32 bits", "microseconds, from to"))
    for name, counts in made.items():
        estimate(name, counts)
    if len(made) < len(sum(made.values(), [])):
        estimate("all", [each for counts in made.values() for each in counts])


def estimate(name, counts):
    before, after = (sum(each) / len(counts) for each in zip(*counts))
    print("%-34s %12.1f %11.1f %11.1f %10.1f" % (name, before, after, before / MEGAHERTZ, 1.5 * after / MEGAHERTZ))


if __name__ == "__main__":
    {"parts": parts, "narrow": estimates}[sys.argv[1]](*sys.argv[2:])
