"""Compares host/examples/check_capture with Wireshark, on captures that Wireshark's own tools have written.

    wireshark.py PROGRAM FOLDER

Writes frames as text, has text2pcap, editcap, mergecap and tshark make captures of them in FOLDER, in each form that the program
reads, and compares what the program says of each frame with what tshark says of its checksum (wpan.fcs_ok). A capture of link type
230, which has no checksums, has to be refused.
"""
import os
import random
import re
import subprocess
import sys

sys.path.insert(0, os.path.join(os.path.dirname(os.path.abspath(__file__)), "..", "fcs"))
from rule import fcs, sent

SEED = 20261117
FRAMES = 1000
# tshark looks at the checksum of frames that it can read, so these begin with a header: control, number, addresses.
HEADERS = (
    bytes.fromhex("02 00 6a"),
    bytes.fromhex("41 88 07 34 12 ff ff 01 0a"),
    bytes.fromhex("61 88 41 0a a0 00 0a 01 0a"),
    bytes.fromhex("41 cc 05 34 12 08 07 06 05 04 03 02 01 18 17 16 15 14 13 12 11"),
)
LINE = re.compile(
    r" *(\d+)  byte \d+ +length +(\d+)  (yes|no|refused)"
    r"(?:: it ends in [^;]*|(?: \(14\): (?:under|over) \d+ bytes))?(?:; (\d+) of (\d+) bytes captured)?$"
)


def frames():
    """Half are right, a quarter have one wrong bit after the header, a quarter a random checksum; one in sixteen is too long."""
    source = random.Random(SEED)
    for number in range(FRAMES):
        header = source.choice(HEADERS)
        length = source.randint(len(header) + 2, 127) if number % 16 else source.randint(128, 200)
        if header[0] == 2:
            length = 5
        frame = header + source.randbytes(length - 2 - len(header))
        frame += sent(fcs(frame)) if number % 4 else source.randbytes(2)
        if number % 4 == 1:
            place = source.randrange(8 * len(header), 8 * length)
            frame = (int.from_bytes(frame, "little") ^ 1 << place).to_bytes(length, "little")
        yield frame


def run(*command):
    return subprocess.run(command, check=True, stdout=subprocess.PIPE, stderr=subprocess.DEVNULL, text=True).stdout


def captures(folder):
    """The captures by name."""
    text = os.path.join(folder, "frames.txt")
    with open(text, "w") as out:
        for frame in frames():
            out.write("0000 %s\n" % frame.hex(" "))
    path = {
        name: os.path.join(folder, name)
        for name in ("made.pcapng", "micro.pcap", "nano.pcap", "saved.pcapng", "comments.pcapng", "merged.pcapng", "cut.pcapng")
    }
    made = path["made.pcapng"]
    run("text2pcap", "-q", "-l", "195", text, made)
    run("editcap", "-F", "pcap", made, path["micro.pcap"])
    run("editcap", "-F", "nsecpcap", made, path["nano.pcap"])
    run("tshark", "-r", made, "-w", path["saved.pcapng"])
    run("editcap", "--capture-comment", "the berth", "-a", "1:the first frame", "-a", "3:another", made, path["comments.pcapng"])
    run("mergecap", "-a", "-w", path["merged.pcapng"], made, path["nano.pcap"])
    run("editcap", "-s", "40", made, path["cut.pcapng"])
    return path


def by_tshark(path):
    """(captured length, length, whether the checksum is right or None) of each frame."""
    fields = ("frame.cap_len", "frame.len", "wpan.fcs_ok")
    options = [word for field in fields for word in ("-e", field)]
    told = run("tshark", "-r", path, "-o", "wpan.fcs_format:ITU-T CRC-16", "-T", "fields", *options)
    for line in told.splitlines():
        captured, length, right = line.split("\t")
        yield int(captured), int(length), {"1": True, "0": False, "": None}[right]


def by_program(program, path):
    """The same, from the program's lines; refused is None."""
    told = subprocess.run([program, path], stdout=subprocess.PIPE, text=True)
    if told.returncode != 1:
        sys.exit("%s: the program ended with %d" % (path, told.returncode))
    for line in told.stdout.splitlines()[:-1]:
        found = LINE.match(line)
        if not found:
            sys.exit("%s: a line of another form: %s" % (path, line))
        _, length, word, part, whole = found.groups()
        if part not in (None, length):
            sys.exit("%s: two lengths: %s" % (path, line))
        yield int(length), int(whole or length), {"yes": True, "no": False, "refused": None}[word]


def compare(program, name, path):
    ours, theirs = list(by_program(program, path)), list(by_tshark(path))
    counted = {True: 0, False: 0, None: 0, "cut": 0}
    if [each[:2] for each in ours] != [each[:2] for each in theirs]:
        return "%s: other frames: %d and %d" % (name, len(ours), len(theirs))
    for number, ((captured, length, verdict), (_, _, right)) in enumerate(zip(ours, theirs), 1):
        if captured < length:
            counted["cut"] += 1
            continue
        counted[verdict] += 1
        expected = right if 3 <= length <= 127 else None
        if verdict is not expected:
            return "%s, frame %d, %d bytes: %s, but by tshark %s" % (name, number, length, verdict, right)
    print(
        "%-15s %4d frames: %d yes, %d no, %d refused, %d cut"
        % (name, len(ours), counted[True], counted[False], counted[None], counted["cut"])
    )
    if not (counted[True] and counted[False]) or bool(counted["cut"]) != name.startswith("cut"):
        return "%s: an answer that did not occur" % name
    return None


def refused(program, folder):
    path = os.path.join(folder, "other.pcapng")
    run("text2pcap", "-q", "-l", "230", os.path.join(folder, "frames.txt"), path)
    told = subprocess.run([program, path], stdout=subprocess.PIPE, stderr=subprocess.PIPE, text=True)
    if told.returncode != 2 or "link type 230" not in told.stderr:
        return "link type 230: status %d, %s" % (told.returncode, told.stderr)
    return None


def main():
    if len(sys.argv) != 3:
        sys.exit(__doc__)
    program, folder = sys.argv[1:]
    found = [compare(program, name, path) for name, path in captures(folder).items()] + [refused(program, folder)]
    found = [each for each in found if each]
    print("\n".join(found) or "tshark says the same of each frame's checksum")
    sys.exit(1 if found else 0)


main()
