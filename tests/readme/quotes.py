"""quotes.py RUN FILE..: what the documents show of this repository's ./run is what it prints.

A quote is an indented block whose first line is a command, ./run and its arguments alone, and whose second line is empty. The command
is run, and the lines that follow must stand in what it prints, next to one another and in this order; a line `...` stands for lines
that are left out. Other indented blocks must have no line of the story. Last, each digit of each quote is changed, one at a time:
with any of them wrong, the quote must not be found.
"""
import re
import subprocess
import sys

LEFT_OUT = "..."
# As the lines of the story begin, and those of checked frames.
STORY = re.compile(r" {0,5}\d+  (\(?(cell|hub) [A-D]\)?|port|handset B|reader B|byte \d+)  ")


def blocks(path):
    """The indented blocks, each with the number of its first line; empty lines within them are theirs."""
    found, block, first = [], [], 0
    with open(path, encoding="utf-8") as document:
        lines = document.read().split("\n") + ["end"]
    for number, line in enumerate(lines, 1):
        if line.startswith("    "):
            first = first if block else number
            block.append(line[4:])
        elif line == "" and block:
            block.append("")
        elif block:
            found.append((first, "\n".join(block).rstrip("\n").split("\n")))
            block = []
    return found


def is_quote(block):
    return len(block) > 2 and block[0].startswith("./run") and "  " not in block[0] and block[1] == ""


def printed(run, command, kept={}):
    if command not in kept:
        words = [run] + command.split()[1:]
        kept[command] = subprocess.run(words, stdout=subprocess.PIPE, check=False).stdout.decode().split("\n")
    return kept[command]


def pieces(lines):
    """The runs of lines between those left out."""
    piece = []
    for line in lines + [LEFT_OUT]:
        if line == LEFT_OUT:
            if piece:
                yield piece
            piece = []
        else:
            piece.append(line)


def agree(piece, output, start):
    """How many lines of the piece stand in the output from there."""
    pairs = list(zip(piece, output[start:]))
    return next((number for number, (line, other) in enumerate(pairs) if line != other), len(pairs))


def stands_in(lines, output):
    """The line of the quote that is not found, or None. Each piece is taken at the first place after the one before, which leaves
    the most places for those that follow."""
    place = 0
    for piece in pieces(lines):
        starts = range(place, len(output))
        start = next((each for each in starts if agree(piece, output, each) == len(piece)), None)
        if start is None:
            return piece[max((agree(piece, output, each) for each in starts), default=0)]
        place = start + len(piece)
    return None


def unnoticed(lines, output):
    """The digits that may be wrong without being noticed, and how many digits there are."""
    digits, wrong = 0, []
    for number, line in enumerate(lines):
        for place, letter in enumerate(line):
            if not letter.isdigit():
                continue
            digits += 1
            changed = line[:place] + str((int(letter) + 1) % 10) + line[place + 1:]
            if stands_in(lines[:number] + [changed] + lines[number + 1:], output) is None:
                wrong.append(changed)
    return wrong, digits


def main():
    run, documents = sys.argv[1], sys.argv[2:]
    failed, counted, digits = 0, 0, 0
    for path in documents:
        for first, block in blocks(path):
            if not is_quote(block):
                stories = [line for line in block if STORY.match(line)]
                if stories:
                    print("%s:%d: no command says where this is from: %s" % (path, first, stories[0]))
                    failed = 1
                continue
            counted += 1
            output, lines = printed(run, block[0]), block[2:]
            missing = stands_in(lines, output)
            if missing is not None:
                print("%s:%d: %s does not print this, or not here: %s" % (path, first, block[0], missing))
                failed = 1
                continue
            wrong, number = unnoticed(lines, output)
            digits += number
            for line in wrong:
                print("%s:%d: a wrong digit is not noticed: %s" % (path, first, line))
                failed = 1
    print("%d quotes; %d digits changed, one at a time" % (counted, digits))
    # Those of README.md: scene 2 with and without its calls, scenes 7 and 8, the two tables, and the check of a capture.
    sys.exit(failed or counted < 7)


main()
