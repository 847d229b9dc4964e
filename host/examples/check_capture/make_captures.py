"""Writes the small capture in its three forms, small.pcap, small.pcapng and small.txt, beside this file or into the folder that is
given. The content is fixed: what is kept here is what this program writes (tests/43-capture.sh compares). tests/43-capture.sh has
the answer that check_capture owes for each frame.
"""
import binascii
import os
import struct
import sys

# LINKTYPE_IEEE802_15_4_WITHFCS: frames that end in their checksum.
LINK_TYPE = 195
SNAP_LENGTH = 262144
# When the first frame was captured, in microseconds; the others follow 10 milliseconds apart.
FIRST_TIME = 1_700_000_000_000_000
SPACING = 10_000


def mirrored(number, bits):
    return int(format(number, "0%db" % bits)[::-1], 2)


def checksum(message):
    """crc_hqx divides by the same polynomial (terms 16, 12, 5, 0), start value zero, but takes each byte's highest bit first. So
    the bytes are mirrored before, and the result after; it is sent low byte first."""
    remainder = binascii.crc_hqx(bytes(mirrored(byte, 8) for byte in message), 0)
    return struct.pack("<H", mirrored(remainder, 16))


def weighing(number, container, kilograms):
    """From cell 0A01 to hub 0A00 of PAN A00A: control 8861, number, PAN, hub, cell; container; mass. 15 bytes without checksum."""
    header = bytes.fromhex("61 88 %02x 0a a0 00 0a 01 0a" % number)
    return header + container + struct.pack("<I", kilograms)


def frames():
    """Each frame with its checksum, and in the comment what it is there for."""
    # 1. Right. The acknowledgement of number 6A; request E5 itself gives its checksum, E4 79.
    yield bytes.fromhex("02 00 6a e4 79")
    # 2. Right. A weighing of 24,100 kg.
    right = weighing(0x41, b"A2", 24_100)
    yield right + checksum(right)
    # 3. Wrong. The same with the lowest bit of the mass turned, which makes it 24,101 kg; the checksum is still that of 24,100.
    yield weighing(0x41, b"A2", 24_101) + checksum(right)
    # 4. Wrong. The next weighing, its two checksum bytes exchanged: high byte first.
    right = weighing(0x42, b"A3", 22_600)
    low, high = checksum(right)
    assert low != high
    yield right + bytes([high, low])
    # 5. Refused. Two bytes. They are the checksum of no bytes at all, but a frame has at least one byte before its checksum.
    yield checksum(b"")
    # 6. Right. The shortest frame that is checked: one byte. The start value is zero, so the checksum of a zero is zero.
    yield b"\0" + checksum(b"\0")
    # 7. Right. The longest frame, 127 bytes.
    right = weighing(0x43, b"A4", 21_300) + bytes(range(110))
    assert len(right) == 125
    yield right + checksum(right)
    # 8. Refused. One byte more, with the checksum that belongs to its bytes.
    right = weighing(0x44, b"A5", 25_700) + bytes(range(111))
    yield right + checksum(right)


def pcap():
    """Microseconds, low byte first, version 2.4."""
    written = struct.pack("<IHHiIII", 0xA1B2C3D4, 2, 4, 0, 0, SNAP_LENGTH, LINK_TYPE)
    for place, frame in enumerate(frames()):
        seconds, microseconds = divmod(FIRST_TIME + place * SPACING, 1_000_000)
        written += struct.pack("<IIII", seconds, microseconds, len(frame), len(frame)) + frame
    return written


def padded(content):
    return content + bytes(-len(content) % 4)


def option(code, value):
    return struct.pack("<HH", code, len(value)) + padded(value)


def block(kind, body):
    length = len(body) + 12
    return struct.pack("<II", kind, length) + body + struct.pack("<I", length)


def time(microseconds):
    return struct.pack("<II", microseconds >> 32, microseconds & 0xFFFFFFFF)


def pcapng():
    """As Wireshark saves a capture: section header, interface, a packet for each frame, and what the interface counted."""
    end = option(0, b"")
    # Byte-order magic, version 1.0, length not given; hardware (2), system (3) and program (4).
    section = struct.pack("<IHHq", 0x1A2B3C4D, 1, 0, -1)
    section += option(2, b"van") + option(3, b"none") + option(4, b"make_captures.py") + end
    # Link type, snap length; name (2), and times in units of 10 to the minus 6 (9).
    interface = struct.pack("<HHI", LINK_TYPE, 0, SNAP_LENGTH) + option(2, b"wpan0") + option(9, b"\x06") + end
    written = block(0x0A0D0D0A, section) + block(1, interface)
    last = FIRST_TIME
    for place, frame in enumerate(frames()):
        last = FIRST_TIME + place * SPACING
        packet = struct.pack("<I", 0) + time(last) + struct.pack("<II", len(frame), len(frame)) + padded(frame)
        written += block(6, packet)
    # Statistics of interface 0: first (2) and last time (3), received (4), dropped (5).
    counts = struct.pack("<I", 0) + time(last) + option(2, time(FIRST_TIME)) + option(3, time(last))
    counts += option(4, struct.pack("<Q", len(list(frames())))) + option(5, struct.pack("<Q", 0)) + end
    return written + block(5, counts)


def text():
    """A frame on each line: pairs with blanks between them, those of the long frames without. One line is empty."""
    lines = [frame.hex() if len(frame) > 100 else frame.hex(" ").upper() for frame in frames()]
    lines.insert(4, "")
    return "".join(line + "\n" for line in lines).encode()


def main():
    folder = sys.argv[1] if len(sys.argv) > 1 else os.path.dirname(os.path.abspath(__file__))
    assert checksum(bytes.fromhex("02 00 6a")) == bytes.fromhex("e4 79")
    for name, content in (("small.pcap", pcap()), ("small.pcapng", pcapng()), ("small.txt", text())):
        with open(os.path.join(folder, name), "wb") as out:
            out.write(content)


main()
