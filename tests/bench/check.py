"""Holds what the programs of bench/ printed against each other.

    check.py FOLDER      has worst.txt, stack.txt, traces.txt, parts.txt, narrow.txt, sizes.txt and size.txt
"""
import os
import re
import sys


def read(name):
    with open(os.path.join(sys.argv[1], name), encoding="utf-8") as file:
        return file.read()


def require(holds, what):
    if not holds:
        sys.exit("bench: " + what)


def stack():
    """Bytes that were met are at most those of the bound; for each function, and some calls of each."""
    bound = {name: int(number) for name, number in re.findall(r"^(widosha_\w+) +(\d+)$", read("stack.txt"), re.MULTILINE)}
    met = {}
    for line in read("worst.txt").splitlines()[2:]:
        words = line.split()
        if len(words) == 10 and all(word.isdigit() for word in words[1:]):
            met[words[0]] = int(words[9])
    require(len(bound) >= 15, "bounds of %d functions, not of 15 or more" % len(bound))
    require(len(met) >= 12, "only calls of %d functions were counted" % len(met))
    for name, most in met.items():
        require(0 < most <= bound[name], "%s took %d bytes of stack, the bound is %d" % (name, most, bound[name]))
    return max(met.values())


def parts():
    """The parts' mean is that of the instructions in the traces, as is the functions' and the estimate's left column."""
    whole = [line.split()[2:] for line in read("traces.txt").splitlines() if line.split()[1] == "whole"]
    mean = sum(map(len, whole)) / len(whole)
    text = read("parts.txt")
    said = {name: float(number) for name, number in re.findall(r"^= (\w+) +([\d.]+)", text, re.MULTILINE)}
    require(abs(said["all"] - mean) < 0.06, "the parts have a mean of %.1f instructions, the traces %.1f" % (said["all"], mean))
    three = said["reading"] + said["service"] + said["writing"]
    require(abs(three - mean) < 0.2, "reading, service and writing add up to %.1f, not %.1f" % (three, mean))
    found = re.search(r"^all +([\d.]+) +([\d.]+)", read("narrow.txt"), re.MULTILINE)
    require(abs(float(found.group(1)) - mean) < 0.06, "the estimate begins with %s" % found.group(1))
    require(mean < float(found.group(2)) < 4 * mean, "by the rule of thumb a call has %s" % found.group(2))
    return len(whole), mean


def sizes():
    """A program that names all functions holds all code and constants of the two libraries; binutils' size adds up to the same."""
    row = re.compile(r"^(.{32}) +(\d+) +(\d+) +(\d+)$", re.MULTILINE)
    rows = {name.strip(): tuple(map(int, rest)) for name, *rest in row.findall(read("sizes.txt"))}
    both = [rows["lib%s.a, all of it" % name] for name in ("driver_c", "frame_c")]
    every = rows["every function"]
    require(every == tuple(map(sum, zip(*both))), "every function is %s, the libraries %s" % (every, both))
    text = [int(number) for number in re.findall(r"^ *(\d+)\t", read("size.txt"), re.MULTILINE)]
    require(text == [sum(each) for each in both], "the libraries are %s, size has %s" % (both, text))
    require(all(each[2] == 0 for each in rows.values()), "a library has data that can be written")
    require(0 < rows["start alone"][0] < both[0][0], "what is not named is not dropped")
    return every


calls, mean = parts()
print("%d accepted calls, %.1f instructions each, by parts and whole" % (calls, mean))
print("at most %d bytes of stack were met; code and constants are %d and %d bytes" % (stack(), *sizes()[:2]))
