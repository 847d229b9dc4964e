"""Between the oracle's language and the replay programs' records and lines, from standard input to standard output.

    convert.py records          a script to records; a start is preceded by a record that empties the pool, as the oracle's is,
                                a dump becomes dumps of every 48 bytes, and a request with fields an Arrive, a Request and a Withdraw,
                                which is refused if it has left
    convert.py script           records to a script, a Request with the fields of the request that leaves our line, or else of the first
                                that waits; what the oracle has no word for is left out: lend, clear, link qualities, calls on the line
                                and the line's bytes, and a Request with an empty line
    convert.py lines SCRIPT     the oracle's replies to that script, to lines; a refusal's number, which it does not give, is ff, a
                                link quality 00; of a call on the line, which it is not asked, there is no line

A line of a script that no record can hold (a number too big for its type, a word that there is not) is named on standard error.
"""

import sys

from model import LINE_CALLS, Model
from records import KINDS, SILENT, dump_line, from_record, from_script, reply_of, to_line, to_oracle, to_record


def places(count):
    return range(0, 144 * count, 48)


def calls_of(texts):
    """The calls of a script; a dump has the number of buffers with it."""
    count = 0
    for text in texts:
        try:
            calls = from_script(text)
            if calls and calls[0][0] != "dump" and any(len(to_record(call)) != 64 for call in calls):
                raise ValueError
        except (ValueError, KeyError, IndexError, OverflowError):
            sys.stderr.write("no record: %s\n" % text.strip())
            yield None
            continue
        for call in calls:
            if call[0] == "start":
                count = call[1]
            yield ("dump", count) if call[0] == "dump" else call


def records():
    for call in calls_of(sys.stdin):
        if call is None:
            continue
        if call[0] == "dump":
            for place in places(call[1]):
                sys.stdout.write(to_record(("dump", place)))
            continue
        if call[0] == "start":
            sys.stdout.write(to_record(("clear",)))
        sys.stdout.write(to_record(call))


def make(model, call):
    """Makes a call, or any other record, on the model."""
    if call[0] == "start":
        model.start(call)
    elif call[0] in SILENT:
        model.other(call)
    elif call[0] not in ("dump", "line", "ack"):
        model.step(call)


def script():
    model, dumped = Model(), False
    for text in sys.stdin:
        call = from_record(text)
        q = (model.leaving() or (model.line or [None])[0]) if call[0] == "request" else None
        make(model, call)
        if call[0] in ("lend", "clear", "line") + LINE_CALLS or call[0] == "request" and q is None:
            continue
        dump = call[0] in ("dump", "ack")
        if not (dump and dumped):
            print(to_oracle(call, q.call() if q else None))
        dumped = dump


def lines(path):
    for call in calls_of(open(path)):
        if call is not None and call[0] in SILENT + LINE_CALLS + ("line",):
            continue
        text = sys.stdin.readline().strip()
        if call is None:
            continue
        if call[0] == "dump":
            pool = bytes.fromhex(text.split(" ")[1])
            for place in places(call[1]):
                sys.stdout.write(dump_line(pool, place))
            continue
        refusal, action, answers = reply_of(text)
        sys.stdout.write(to_line(KINDS[call[0]], 255 if refusal is None else refusal, action, answers))


if __name__ == "__main__":
    if sys.argv[1] == "lines":
        lines(sys.argv[2])
    else:
        {"records": records, "script": script}[sys.argv[1]]()
