"""Reads what callgrind_annotate printed.

    instructions.py calls COUNTS INCLUSIVE    mean instructions per call of each exported function, of all, and of all but those on
                                              the waiting line
    instructions.py rust CALLS EXCLUSIVE      mean instructions per call that stand on lines of the Rust repository's own files
"""
import re
import sys

# The files of the Rust repository that the script runner is built from unchanged.
UNCHANGED = """dot15d4/src/driver.rs dot15d4-driver/src/timer.rs dot15d4-driver/src/radio/mod.rs dot15d4-driver/src/radio/constants.rs
dot15d4-driver/src/radio/phy.rs dot15d4-driver/src/radio/tasks.rs dot15d4-driver/src/radio/frame/mod.rs
dot15d4-driver/src/radio/frame/addressing.rs dot15d4-driver/src/radio/frame/frame_control.rs
dot15d4-driver/src/radio/frame/radio_frame.rs dot15d4-driver/src/radio/frame/repr.rs dot15d4-driver/src/radio/frame/utils.rs
dot15d4-frame/src/lib.rs dot15d4-frame/src/fields/mpdu.rs dot15d4-frame/src/mpdu/ack.rs dot15d4-frame/src/mpdu/frame.rs
dot15d4-frame/src/repr/mpdu.rs dot15d4-frame/src/repr/seq_nr.rs""".split()
# They reach the line alone, and the rounds measured before there was one have none of them.
ON_LINE = ("widosha_arrive", "widosha_withdraw")


def rows(path):
    """(instructions, file, function) of each line."""
    for line in open(path, encoding="utf-8"):
        match = re.match(r"\s*([\d,]+) \(\s*[\d.]+%\)\s+(\S+?):(\S+)", line)
        if match:
            yield int(match.group(1).replace(",", "")), match.group(2), match.group(3)


def total(path):
    found = re.search(r"([\d,]+) \(100\.0%\)\s+PROGRAM TOTALS", open(path, encoding="utf-8").read())
    return int(found.group(1).replace(",", ""))


def calls(counts, inclusive):
    cost = {}
    for instructions, _, function in rows(inclusive):
        if function.startswith("widosha_"):
            cost[function] = max(cost.get(function, 0), instructions)
    if sum(cost.values()) != total(inclusive):
        sys.exit("the functions' instructions (%d) are not all that was counted (%d)" % (sum(cost.values()), total(inclusive)))
    made, spent, on_line = 0, 0, [0, 0]
    print("%-30s %9s %9s %22s" % ("function", "accepted", "refused", "instructions per call"))
    for line in open(counts, encoding="utf-8").read().splitlines()[1:]:
        function, accepted, refused = line.split()
        number = int(accepted) + int(refused)
        if number:
            made, spent = made + number, spent + cost[function]
            if function in ON_LINE:
                on_line = [on_line[0] + number, on_line[1] + cost[function]]
            print("%-30s %9s %9s %22.1f" % (function, accepted, refused, cost[function] / number))
    print("%-30s %19d %22.1f" % ("all", made, spent / made))
    if on_line[0]:
        made, spent = made - on_line[0], spent - on_line[1]
        print("%-30s %19d %22.1f" % ("all but arrive and withdraw", made, spent / made))


def rust(number, exclusive):
    own = [(instructions, path) for instructions, path, _ in rows(exclusive) if path.split("target/src/")[-1] in UNCHANGED]
    print("%.1f instructions per call on lines of the Rust repository's own files" % (sum(i for i, _ in own) / int(number)))


{"calls": calls, "rust": rust}[sys.argv[1]](*sys.argv[2:])
