"""The 16-bit FCS of IEEE 802.15.4, and the check of a frame, by another rule than the library's.

binascii.crc_hqx of Python's own library has the same polynomial and takes each byte's highest bit first. So it is given bytes with
their bits in reverse, and its answer is reversed too."""
import binascii

YES, NO, REFUSED = 0, 255, 14
REVERSED = bytes(int("{:08b}".format(byte)[::-1], 2) for byte in range(256))


def reversed_bits(number):
    return REVERSED[number & 0xFF] << 8 | REVERSED[number >> 8]


def fcs(data):
    """The checksum as a number."""
    return reversed_bits(binascii.crc_hqx(data.translate(REVERSED), 0))


def sent(number):
    """The two bytes of a checksum in the order in which they are sent."""
    return number.to_bytes(2, "little")


def check(frame):
    if not 3 <= len(frame) <= 127:
        return REFUSED
    return YES if frame[-2:] == sent(fcs(frame[:-2])) else NO
