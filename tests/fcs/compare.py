"""The library's checksums and checks against another rule (rule.py), frame by frame.

    compare.py PROGRAM        asks PROGRAM (answers.rs) about all frames; prints counts; a difference ends with 1
    compare.py --self-test    puts wrong rules (wrong.py) in the library's place, one at a time, and checks that each is found
"""
import random
import subprocess
import sys
from collections import Counter

from rule import NO, REFUSED, YES, check, fcs, sent
from wrong import CHECKSUMS, WRONG, checked

SEED = 20261116
RANDOM_FRAMES = 100_000
# 89 21 is what catalogues of checksums give for this rule, under its names CRC-16/KERMIT and CRC-16/CCITT-TRUE; E4 79 stands in
# request E5 for the standard's example.
PUBLISHED = {b"123456789": b"\x89\x21", b"\x02\x00\x6a": b"\xe4\x79"}
WORDS = {YES: "yes", NO: "no", REFUSED: "refused"}
# What the check has to say at least once of each kind of frame; of the kinds in MADE it may say nothing else. That one wrong bit is
# always found is known without any rule, as the polynomial has more than one term.
ANSWERS = {
    "published": {YES, NO},
    "every length": {YES, REFUSED},
    "long": {REFUSED},
    "one byte": {REFUSED},
    "two bytes": {REFUSED},
    "zeros before": {NO},
    "every checksum": {YES, NO},
    "right": {YES, REFUSED},
    "one bit wrong": {NO, REFUSED},
    "random": {NO, REFUSED},
}
MADE = ("one byte", "two bytes", "zeros before", "every length", "long", "right", "one bit wrong")


def with_fcs(message):
    return message + sent(fcs(message))


def random_frames(source):
    """Half are right, a quarter have one wrong bit, the rest is random; most have 3 to 127 bytes."""
    for _ in range(RANDOM_FRAMES):
        length = source.randint(3, 127) if source.random() < 0.8 else source.randint(0, 260)
        kind = source.choice(["right", "right", "one bit wrong", "random"])
        if kind == "random" or length < 2:
            yield "random", source.randbytes(length)
            continue
        frame = with_fcs(source.randbytes(length - 2))
        if kind == "one bit wrong":
            number = int.from_bytes(frame, "little") ^ 1 << source.randrange(8 * length)
            frame = number.to_bytes(length, "little")
        yield kind, frame


def short_frames():
    """All messages of one and two bytes; the latter with as many zeros before them as the longest frame has place for too, which
    changes no checksum, as the start value is zero."""
    for byte in range(256):
        yield "one byte", bytes([byte])
    for number in range(65_536):
        yield "two bytes", number.to_bytes(2, "big")
    for number in range(1, 65_536):
        yield "zeros before", bytes(125) + number.to_bytes(2, "big")
    for number in range(65_536):
        yield "every checksum", b"\x02\x00\x6a" + number.to_bytes(2, "big")


def all_frames():
    """(kind, frame), the same in every run."""
    source = random.Random(SEED)
    for message, checksum in PUBLISHED.items():
        yield "published", message
        yield "published", message + checksum
    for length in range(261):
        yield "every length", with_fcs(source.randbytes(length - 2)) if length > 1 else source.randbytes(length)
    for length in (65_535, 65_536, 65_537, 131_073, 1 << 20):
        yield "long", with_fcs(source.randbytes(length - 2))
    yield from short_frames()
    yield from random_frames(source)


def asked(program, frames):
    """The program's answers, as (checksum, check)."""
    given = b"".join(len(frame).to_bytes(4, "little") + frame for _, frame in frames)
    found = subprocess.run([program], input=given, stdout=subprocess.PIPE, check=True).stdout
    if len(found) != 3 * len(frames):
        sys.exit("%d bytes of answers for %d frames" % (len(found), len(frames)))
    return [(found[at] | found[at + 1] << 8, found[at + 2]) for at in range(0, len(found), 3)]


def differences(frames, answers, rule=fcs, verdict_of=check):
    """Each difference, in a sentence."""
    for (kind, frame), (checksum, verdict) in zip(frames, answers):
        against = None
        if (checksum, verdict) != (rule(frame), verdict_of(frame)):
            against = "by the rule %04x %d" % (rule(frame), verdict_of(frame))
        elif kind in MADE and verdict not in ANSWERS[kind]:
            against = "it was made otherwise"
        elif sent(checksum) != PUBLISHED.get(frame, sent(checksum)):
            against = "published is %s" % PUBLISHED[frame].hex()
        if against:
            yield "%s, %d bytes, %s: %04x %d, but %s" % (kind, len(frame), frame[:130].hex(), checksum, verdict, against)


def shown(number):
    answers = ", ".join("%d %s" % (number[verdict], word) for verdict, word in WORDS.items())
    return "%6d frames: %s" % (sum(number.values()), answers)


def counts(frames, verdicts):
    """Prints the counts; false if an answer that a kind of frame has to meet did not occur."""
    number = {kind: Counter() for kind in ANSWERS}
    for (kind, _), verdict in zip(frames, verdicts):
        number[kind][verdict] += 1
    met = True
    for kind, demanded in ANSWERS.items():
        print("%-14s %s" % (kind, shown(number[kind])))
        missed = [WORDS[verdict] for verdict in demanded if not number[kind][verdict]]
        if missed:
            print("none is %s" % " or ".join(missed))
            met = False
    print("%-14s %s" % ("all", shown(Counter(verdicts))))
    lengths = {len(frame) for kind, frame in frames if kind in ("right", "one bit wrong", "random")}
    return met and lengths == set(range(261)) and number["every checksum"][YES] == 1


def compare(program):
    frames = list(all_frames())
    answers = asked(program, frames)
    found = list(differences(frames, answers))
    if found:
        print("%d differences; the first:" % len(found))
        print("\n".join(found[:5]))
        return False
    return counts(frames, [verdict for _, verdict in answers])


def answers_by(rule, verdict_of, frames):
    """One at a time, as the first difference is enough."""
    return ((rule(frame), verdict_of(frame)) for _, frame in frames)


def self_test():
    frames = list(all_frames())
    missed = []
    if next(differences(frames, answers_by(fcs, check, frames)), None):
        missed.append("found: the right rule")
    for what, (rule, verdict_of) in WRONG.items():
        if not next(differences(frames, answers_by(rule, verdict_of, frames)), None):
            missed.append("not found: %s" % what)
    # The published values find a mistake that both sides share.
    published = [(kind, frame) for kind, frame in frames if kind == "published"]
    shared = {what: rule for what, rule in CHECKSUMS.items() if not what.startswith("entry")}
    for what, rule in shared.items():
        verdict_of = checked(rule)
        if not next(differences(published, answers_by(rule, verdict_of, published), rule, verdict_of), None):
            missed.append("not found by the published values: %s" % what)
    print("\n".join(missed) or "each of %d wrong rules is found, %d of them by the published values" % (len(WRONG), len(shared)))
    return not missed


def main():
    if len(sys.argv) != 2:
        sys.exit(__doc__)
    sys.exit(0 if (self_test() if sys.argv[1] == "--self-test" else compare(sys.argv[1])) else 1)


main()
