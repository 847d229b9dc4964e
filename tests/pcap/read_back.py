"""read_back.py CAPTURE STORY: the capture that the demonstration wrote, read by the description of the form alone, has the frames
that its story prints: each once, with the time of its line, in order, and with the checksum that the division of its bits leaves.
"""
import re
import struct
import sys


def checksum(message):
    """The remainder of the division by x^16 + x^12 + x^5 + 1, bit by bit as on paper: the lowest bit of each byte first."""
    bits = [byte >> place & 1 for byte in message for place in range(8)] + [0] * 16
    for first in range(8 * len(message)):
        if bits[first]:
            for term in (16, 12, 5, 0):
                bits[first + 16 - term] ^= 1
    rest = bits[-16:]
    return bytes(sum(rest[8 * byte + place] << place for place in range(8)) for byte in range(2))


def read(path):
    """Link type, and each record's time in microseconds and bytes."""
    with open(path, "rb") as file:
        content = file.read()
    order = {b"\xd4\xc3\xb2\xa1": "<", b"\xa1\xb2\xc3\xd4": ">"}[content[:4]]
    major, minor, zone, accuracy, longest, link = struct.unpack(order + "HHiIII", content[4:24])
    assert (major, minor, zone, accuracy) == (2, 4, 0, 0), "version 2.4, and times of no zone"
    records, place = [], 24
    while place < len(content):
        seconds, microseconds, captured, original = struct.unpack(order + "IIII", content[place:place + 16])
        place += 16
        assert microseconds < 1_000_000 and captured == original <= longest
        records.append((seconds * 1_000_000 + microseconds, content[place:place + captured]))
        place += captured
    assert place == len(content), "the last record is whole"
    return link, records


def printed(path):
    """The frames of the story: scene N begins at second N. And the number that its last line tells."""
    scene, frames, counted = None, [], None
    with open(path, encoding="utf-8") as story:
        for line in story:
            title = re.match(r"(\d)\. ", line)
            scene = int(title[1]) if title else scene
            frame = re.match(r" *(\d+)  \S.{8} => ((?:[0-9a-f]{2} ?)+)$", line)
            if frame:
                frames.append((scene * 1_000_000 + int(frame[1]), bytes.fromhex(frame[2])))
            told = re.search(r" has the (\d+) frames, ", line)
            counted = int(told[1]) if told else counted
        return frames, counted


def main():
    assert checksum(bytes.fromhex("02 00 6a")) == bytes.fromhex("e4 79"), "the example of request E5"
    link, records = read(sys.argv[1])
    frames, counted = printed(sys.argv[2])
    assert link == 195, "IEEE 802.15.4 with FCS"
    assert frames and counted == len(frames), "the story tells how many there are: %s, %s" % (counted, len(frames))
    assert len({time // 1_000_000 for time, _ in records}) == 8, "every scene has frames"
    assert records == sorted(records, key=lambda each: each[0]), "in order of time"
    assert len(set(records)) == len(records), "no frame twice"
    for (time, found), (told, frame) in zip(records, frames):
        assert time == told, "%s at %d, printed at %d" % (found.hex(" "), time, told)
        assert found == frame + checksum(frame), "%s at %d, printed %s" % (found.hex(" "), time, frame.hex(" "))
    assert len(records) == len(frames), "%d records, %d printed" % (len(records), len(frames))
    print("%d frames read back, each as it is printed, with its time and its checksum" % len(records))


main()
