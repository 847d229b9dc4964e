"""The fixed input of the replay programs and what they must print.

    sample.py walk FOLDER                the first part of FOLDER/stdin and FOLDER/stdout is what docs/WALK.md says
    sample.py rust FOLDER ORACLE         the rest of them is what the oracle says; it is never made from our program's output
    sample.py make FOLDER ORACLE         writes both files
    sample.py exported FOLDER PROGRAM    PROGRAM, which replays over the exported library, prints FOLDER/stdout from FOLDER/stdin; but
                                         for the calls before the first accepted start, which have no state: refusal 1

Of a line of the rest, a refusal's number and the link qualities of the answers (request E6) are the model's, as the Rust has none;
so are the bytes of the line that are shown (request E1), and the whole line where the Rust is not asked (docs/DIFFERENCES.md, "Not
asked of the Rust"). In the class damaged-ack-off the Rust's rollback flag is taken off. At the Header call of a broadcast with request
bit and number (request E4) the oracle's frame has bit 5 clear. Everything else is the oracle's.
"""

import re
import sys

from cases import CASES
from compare import Wrong, model_line, records, run, rust_line, script
from model import WAITS
from records import (CALLS, KINDS, SILENT, TELLING, ack_line, bytes_line, dump_line, from_record, from_script, reply_of, to_line,
                     to_record, unused_of, with_qualities)
from walk import ANSWERED, DESTINATIONS, UNANSWERED, Walk, qualities

ROW = re.compile(r"^(  \d|[ \d]\d\d|   )  (?:(.*?) -> )?(.*?)(?:  # .*)?$")
CALLS_OF_SAMPLE = 3000
# What the sample must meet: each call in each wait, the cases of request E1, the destinations around request E4 and the link qualities
# of E6. Rollback in ackrx-off makes the states diverge; docs/WALK.md has it.
DEMANDED = ({(w, c) for w in WAITS for c in CALLS} - {("ackrx-off", "rollback")} | {("case", c) for c in CASES}
            | {("destination", d) for d in DESTINATIONS} | {("quality", k) for k in ANSWERED + UNANSWERED})


def scripted(path):
    """The records of docs/WALK.md, and the lines that they must print."""
    calls, lines, ack = [], [], 0
    block = False
    for text in open(path):
        text = text.rstrip("\n")
        if text.startswith("```"):
            block = text == "```text"
            continue
        if not block:
            continue
        number, call, reply = ROW.match(text).groups()
        if not number.strip():
            calls += from_script(reply)
            continue
        (made,) = from_script(call)
        calls.append(made)
        if int(number) != len(lines) + 1:
            raise Wrong("row %s of %s is row %d" % (number, path, len(lines) + 1))
        kind = KINDS[made[0]]
        if kind in "dL":
            lines.append(bytes_line(kind, made[1], bytes.fromhex(reply.replace(" ", "").ljust(96, "0"))))
        elif kind == "a":
            lines.append(bytes_line("a", ack, bytes.fromhex(reply)))
        else:
            if kind == "s" and reply.startswith("ok"):
                ack = 144 * made[8] + made[2]
            lines.append(to_line(kind, *reply_of(reply)))
    return calls, lines


def met(items):
    return ({(item.wait, item.call[0]) for item in items} | {("case", case) for item in items for case in item.cases}
            | {("destination", item.about) for item in items} | {("quality", kind) for kind in qualities(items)})


def sampled():
    """Walks without diverging differences: first those that meet much of what was not met yet."""
    items, calls, index = [], 0, 0
    missing = set(DEMANDED)
    while missing or calls < CALLS_OF_SAMPLE:
        walk = Walk("sample/%d" % index, classes=False)
        walk.segment(30)
        walk.segment(10)    # a start when something may wait
        new = missing & met(walk.items)
        if len(new) >= min(len(missing), max(1, 12 - index // 200)):
            missing -= new
            items += walk.items
            calls += walk.calls
        index += 1
    return items


def noted(texts):
    """The items of given records, such as the sample's."""
    walk = Walk(0, classes=False)
    for text in texts:
        call = from_record(text)
        what = call[0]
        if what in SILENT:
            walk.model.other(call)
            walk.put(call, asked=what == "pool")
        elif what == "start":
            walk.note_start(call, asked=call[10] == 144 * call[1])
        elif what == "line":
            walk.show_line(call[1])
        elif what == "dump":
            walk.put(call, asked=walk.items[-1].call[0] != "dump")
        elif what == "ack":
            walk.put(call, reply=(walk.model.frame(walk.model.ack), None), asked=True)
        elif what in TELLING:
            walk.note(call, unused=unused_of(text))
        else:
            walk.note(call)
    return walk.items, walk.calls, DEMANDED - met(walk.items)


def rust_lines(items, oracle):
    """What must be printed for the sample, from the oracle's replies, with the model's link qualities."""
    replies = iter(run(oracle, script(items)).splitlines())
    lines, pool = [], None
    for item in items:
        what = item.call[0]
        if what in SILENT:
            continue
        if what in ("dump", "ack"):
            if item.asked:
                pool = bytes.fromhex(next(replies).split()[1])
            lines.append(dump_line(pool, item.call[1]) if what == "dump" else ack_line(pool, item.reply[0]))
        elif not item.asked:
            lines.append(model_line(item))
        elif item.group == "damaged-ack-off":
            if reply_of(next(replies)) != (0, ("off", 1), ()):
                raise Wrong("the Rust does not go off with rollback on")
            lines.append(to_line(KINDS[what], 0, ("off", 0), ()))
        else:
            line = model_line(item)
            lines.append(with_qualities(rust_line(item, next(replies)), line[78:80], line[119:121]))
    return lines


def exported_lines(lines):
    """What the exported library's program must print of these lines: before a start there are no bytes of a state, so calls are
    refused by 1 and not by 2."""
    kinds = [KINDS[what] for what in CALLS]
    started = False
    for line in lines:
        started = started or line.startswith("s 00")
        yield line[0] + " 01" + line[4:] if not started and line[0] in kinds else line


def check_exported(folder, program):
    out = run(program, open(folder + "/stdin").read()).splitlines(keepends=True)
    expected = list(exported_lines(open(folder + "/stdout")))
    for number, (line, says) in enumerate(zip(out, expected), 1):
        if line != says:
            raise Wrong("line %d is\n    %s    and not\n    %s" % (number, line, says))
    print("%d lines of the exported library's program, of %d that are expected" % (len(out), len(expected)))
    return 0 if len(out) == len(expected) else 1


def main():
    what, folder = sys.argv[1:3]
    if what == "exported":
        return check_exported(folder, sys.argv[3])
    root = __file__.rsplit("/", 3)[0] if "/" in __file__ else "../.."
    calls, lines = scripted(root + "/docs/WALK.md")
    stdin, stdout = "".join(map(to_record, calls)), "".join(lines)
    if what == "walk":
        same = (open(folder + "/stdin").read().startswith(stdin) and open(folder + "/stdout").read().startswith(stdout))
        print("%d records and %d lines of docs/WALK.md: %s" % (len(calls), len(lines), "as they stand" if same else "NOT as they stand"))
        return 0 if same else 1
    if what == "make":
        items = sampled()
        open(folder + "/stdin", "w").write(stdin + records(items))
        open(folder + "/stdout", "w").write(stdout + "".join(rust_lines(items, sys.argv[3])))
    found = open(folder + "/stdin").read()
    if not found.startswith(stdin):
        raise Wrong("%s/stdin does not begin with docs/WALK.md" % folder)
    rest = found[len(stdin):].splitlines(keepends=True)
    items, made, missing = noted(rest)
    same = (found == stdin + records(items)
            and open(folder + "/stdout").read() == stdout + "".join(rust_lines(items, sys.argv[3])))
    print("%d calls of the sample; pairs of wait and call, cases, destinations and link qualities missing: %s; the files are %s" % (
        made, sorted(missing) or "none", "what the Rust says" if same else "NOT what the Rust says"))
    return 0 if same and not missing else 1


if __name__ == "__main__":
    try:
        sys.exit(main())
    except Wrong as wrong:
        print("FAILED: %s" % wrong)
        sys.exit(1)
