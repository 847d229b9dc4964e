"""A second reader of captures, and a comparison of host/examples/check_capture with it.

    reference.py PROGRAM COUNT CAPTURE..

Takes the captures, and others that it writes from the frames of the first in forms that they do not have. Damages each COUNT
times, with fixed random numbers, runs PROGRAM on every one of them, and compares what it prints, its exit status and the place
where it tells damage. Written from the descriptions of pcap (24 bytes, then records of 16 and the captured bytes), of pcapng
(blocks: kind, length, body, length) and of request E5's checksum; it shares no code with the program.
"""
import random
import re
import struct
import subprocess
import sys

WITH_FCS = 195


class Damaged(Exception):
    """The place is the argument, in the words of the program."""


def checksum(message):
    """Bit by bit, each byte's lowest bit first. The register is mirrored: its low bit is the highest term, so that the terms 12, 5
    and 0 become the number 8408."""
    register = 0
    for byte in message:
        for place in range(8):
            carry = (register ^ (byte >> place)) & 1
            register = (register >> 1) ^ (0x8408 if carry else 0)
    return bytes([register & 0xFF, register >> 8])


def frames_of_pcap(data, order):
    if len(data) < 24:
        raise Damaged("byte 0")
    major, minor = struct.unpack_from(order + "HH", data, 4)
    field, = struct.unpack_from(order + "I", data, 20)
    if major != 2 or minor < 4 or field % 65536 != WITH_FCS:
        raise Damaged("byte 0")
    record = 24
    while record < len(data):
        begin = record + 16
        if begin > len(data):
            raise Damaged("byte %d" % record)
        captured, original = struct.unpack_from(order + "II", data, record + 8)
        if begin + captured > len(data) or captured > original:
            raise Damaged("byte %d" % record)
        yield "byte %d" % begin, data[begin:begin + captured], original
        record = begin + captured


# How many bytes of the body are always there, by the kind of block.
FIXED = {0x0A0D0D0A: 16, 1: 8, 2: 20, 3: 4, 6: 20}


def blocks_of_pcapng(data):
    """Kind, order, begin and end of the body, and begin of each block."""
    block, order = 0, None
    while block < len(data):
        here = Damaged("byte %d" % block)
        if len(data) - block < 12:
            raise here
        if data[block:block + 4] == b"\n\r\r\n":
            order = {b"\x1a\x2b\x3c\x4d": ">", b"\x4d\x3c\x2b\x1a": "<"}.get(data[block + 8:block + 12])
            if order is None:
                raise here
        kind, length = struct.unpack_from(order + "II", data, block)
        if length % 4 or length < 12 + FIXED.get(kind, 0) or length > len(data) - block:
            raise here
        if struct.unpack_from(order + "I", data, block + length - 4) != (length,):
            raise here
        yield kind, order, block + 8, block + length - 4, block
        block += length


def frames_of_pcapng(data):
    snap_lengths = []
    for kind, order, begin, end, block in blocks_of_pcapng(data):
        here = Damaged("byte %d" % block)
        if kind == 0x0A0D0D0A:
            snap_lengths = []
            if struct.unpack_from(order + "H", data, begin + 4) != (1,):
                raise here
        elif kind == 1:
            link_type, _, snap_length = struct.unpack_from(order + "HHI", data, begin)
            if link_type != WITH_FCS:
                raise here
            snap_lengths.append(snap_length)
        elif kind in (2, 3, 6):
            if kind == 3:
                interface, begin = 0, begin + 4
                original, = struct.unpack_from(order + "I", data, begin - 4)
                captured = min([original] + [limit for limit in snap_lengths[:1] if limit])
            else:
                interface, = struct.unpack_from(order + ("H" if kind == 2 else "I"), data, begin)
                captured, original = struct.unpack_from(order + "II", data, begin + 12)
                begin += 20
            if interface >= len(snap_lengths) or captured > end - begin or captured > original:
                raise here
            yield "byte %d" % begin, data[begin:begin + captured], original


def frames_of_text(data):
    lines, some = data.split(b"\n"), False
    for number, line in enumerate(lines, 1):
        if number < len(lines) and line.endswith(b"\r"):
            line = line[:-1]
        right = re.match(rb"(?:[0-9A-Fa-f]{2}|[ \t])*", line).end()
        if right < len(line):
            raise Damaged("line %d, column %d" % (number, right + 1))
        pairs = re.sub(rb"[ \t]", b"", line)
        if pairs:
            some = True
            frame = bytes.fromhex(pairs.decode())
            yield "line %d" % number, frame, len(frame)
    if not some:
        raise Damaged("byte 0")


def frames(data):
    if not data:
        raise Damaged("byte 0")
    first = data[:4].hex()
    if first in ("a1b2c3d4", "a1b23c4d"):
        return frames_of_pcap(data, ">")
    if first in ("d4c3b2a1", "4d3cb2a1"):
        return frames_of_pcap(data, "<")
    return frames_of_pcapng(data) if first == "0a0d0d0a" else frames_of_text(data)


def verdict(frame):
    """The answer's word, and what is printed of it."""
    if len(frame) < 3:
        return "refused", "refused (14): under 3 bytes"
    if len(frame) > 127:
        return "refused", "refused (14): over 127 bytes"
    stands, right = frame[-2:], checksum(frame[:-2])
    if stands == right:
        return "yes", "yes"
    return "no", "no: it ends in %s, right would be %s" % (stands.hex(" "), right.hex(" "))


def expected(data):
    """What the program owes: its lines, the place of damage or None, and its status."""
    lines, counts, cut, place = [], {"yes": 0, "no": 0, "refused": 0}, 0, None
    try:
        for where, frame, original in frames(data):
            answer, words = verdict(frame)
            counts[answer] += 1
            if original > len(frame):
                words += "; %d of %d bytes captured" % (len(frame), original)
                cut += 1
            lines.append("%6d  %-12s length %3d  %s" % (len(lines) + 1, where, len(frame), words))
    except Damaged as damaged:
        place = damaged.args[0]
    closing = "frames: %d, yes: %d, no: %d, refused: %d" % ((len(lines),) + tuple(counts.values()))
    lines.append(closing + (", of these cut: %d" % cut if cut else ""))
    status = 2 if place else 1 if counts["no"] + counts["refused"] else 0
    return lines, place, status


def pcap(magic, order, content):
    """Every other frame cut by a byte."""
    written = struct.pack(order + "IHHIIII", magic, 2, 4, 0, 0, 65535, WITH_FCS)
    for place, frame in enumerate(content):
        written += struct.pack(order + "IIII", 1, place, len(frame), len(frame) + place % 2) + frame
    return written


def section(order, snap_length, content):
    """A section header, two interfaces, and each frame as simple, obsolete and enhanced packet, a block to skip after it."""
    def block(kind, body):
        length = struct.pack(order + "I", 12 + len(body) + -len(body) % 4)
        return struct.pack(order + "I", kind) + length + body + bytes(-len(body) % 4) + length

    written = block(0x0A0D0D0A, struct.pack(order + "IHHq", 0x1A2B3C4D, 1, 2, -1))
    written += block(1, struct.pack(order + "HHI", WITH_FCS, 0, snap_length)) * 2
    for frame in content:
        written += block(3, struct.pack(order + "I", len(frame)) + frame[:snap_length or None])
        written += block(2, struct.pack(order + "HHIIII", 1, 0, 0, 0, len(frame), len(frame)) + frame)
        written += block(6, struct.pack(order + "IIIII", 1, 0, 0, len(frame), len(frame)) + frame) + block(4, frame)
    return written


def others(content):
    yield "pcap, high byte first", pcap(0xA1B2C3D4, ">", content)
    yield "pcap, nanoseconds", pcap(0xA1B23C4D, "<", content)
    yield "pcap, nanoseconds, high byte first", pcap(0xA1B23C4D, ">", content)
    yield "pcapng, sections of both orders", section(">", 20, content[:3]) + section("<", 0, content[3:6])


def damage(data, chance):
    """One to three changes. Those of numbers are near to what they were, so that many a capture stays readable."""
    data = bytearray(data)
    for _ in range(chance.randint(1, 3)):
        place = chance.randrange(len(data))
        kind = chance.randrange(8)
        if kind == 0:
            data[place] = chance.randrange(256)
        elif kind == 1:
            data[place] ^= 1 << chance.randrange(8)
        elif kind == 2:
            data[place] = chance.choice(b"0aF \t\r\n")
        elif kind == 3:
            place -= place % 4
            data[place] = (data[place] + chance.choice([1, 4, 252, 255])) % 256
        elif kind == 4:
            data[place:place + 4] = chance.choice([b"\0\0\0\0", b"\xff\xff\xff\xff", b"\x03\0\0\0", b"\x02\0\0\0"])
        elif kind == 5:
            del data[place:place + chance.randint(1, 40)]
        elif kind == 6:
            data[place:place] = data[place:place + chance.randint(1, 40)]
        elif chance.random() < 0.3:
            del data[place:]
        if not data:
            break
    return bytes(data)


def difference(program, data):
    """What is not as it should be, and the status."""
    ran = subprocess.run([program, "-"], input=data, stdout=subprocess.PIPE, stderr=subprocess.PIPE, timeout=60)
    lines, place, status = expected(data)
    told = ran.stderr.decode()
    start = "check_capture: standard input: %s: " % place
    if ran.returncode != status:
        return "status %d, expected %d" % (ran.returncode, status), status
    if ran.stdout.decode() != "".join(line + "\n" for line in lines):
        return "printed\n%sexpected\n%s" % (ran.stdout.decode(), "\n".join(lines)), status
    if place and not (told.startswith(start) and told.count("\n") == 1 and told.endswith("\n")):
        return "told %r, expected %r" % (told, start), status
    return ("told %r, expected nothing" % told if told and not place else None), status


def main():
    program, count, paths = sys.argv[1], int(sys.argv[2]), sys.argv[3:]
    assert checksum(bytes.fromhex("02006a")) == bytes.fromhex("e479")
    captures = []
    for path in paths:
        with open(path, "rb") as file:
            captures.append((path, file.read()))
    captures += others([frame for _, frame, _ in frames(captures[0][1])])
    chance = random.Random(15)
    seen = [0, 0, 0]
    for name, whole in captures:
        for number in range(count):
            data = damage(whole, chance) if number else whole
            wrong, status = difference(program, data)
            if wrong:
                sys.exit("%s, damaged capture %d (%s): %s" % (name, number, data.hex(), wrong))
            seen[status] += 1
    print("%d captures as the second reader has them: status 0 %d times, 1 %d times, 2 %d times" % ((sum(seen),) + tuple(seen)))
    if 0 in seen:
        sys.exit("some status was not met")


main()
