"""Wrong rules, each of which the comparison has to find where it stands in the library's place."""
import binascii

from rule import NO, REFUSED, REVERSED, YES, check, fcs, reversed_bits, sent


def by_table(table):
    def rule(data):
        register = 0
        for byte in data:
            register = register >> 8 ^ table[(register ^ byte) & 0xFF]
        return register

    return rule


def wrong_entry(place):
    """A table with one wrong bit in one entry."""
    table = [fcs(bytes([byte])) for byte in range(256)]
    table[place] ^= 1
    return by_table(table)


def other_terms(mask):
    """Another polynomial, given as its terms below 16, term 15 as the lowest bit."""
    table = list(range(256))
    for _ in range(8):
        table = [entry >> 1 ^ (mask if entry & 1 else 0) for entry in table]
    return by_table(table)


def from_length(least, rule):
    """Another rule for so many bytes or more; the library has two ways, one for short slices and one for long."""
    return lambda data: (rule if len(data) >= least else fcs)(data)


def below_length(limit, rule):
    return lambda data: (rule if len(data) < limit else fcs)(data)


def checked(rule=fcs, least=3, most=127, compared=slice(0, 2)):
    """The check with another rule, with other lengths, or with some bytes of the checksum compared alone."""
    def verdict(frame):
        if not least <= len(frame) <= most:
            return REFUSED
        return YES if frame[-2:][compared] == sent(rule(frame[:-2]))[compared] else NO

    return verdict


def answered(answers):
    """The check with some answers in place of others."""
    return lambda frame: answers.get(check(frame), check(frame))


CHECKSUMS = {
    "start value FFFF": lambda data: reversed_bits(binascii.crc_hqx(data.translate(REVERSED), 0xFFFF)),
    "highest bit first": lambda data: binascii.crc_hqx(data, 0),
    "highest bit first in the bytes alone": lambda data: reversed_bits(binascii.crc_hqx(data, 0)),
    "highest bit first in the answer alone": lambda data: binascii.crc_hqx(data.translate(REVERSED), 0),
    "bytes exchanged": lambda data: int.from_bytes(sent(fcs(data)), "big"),
    "complement": lambda data: fcs(data) ^ 0xFFFF,
    "first byte left out": lambda data: fcs(data[1:]),
    "last byte left out": lambda data: fcs(data[:-1]),
    "first byte left out where they are odd in number": lambda data: fcs(data[len(data) % 2:]),
    "bytes in reverse": lambda data: fcs(data[::-1]),
    "terms 16, 15, 2 and 0": other_terms(0xA001),
    "terms 16, 12 and 0": other_terms(0x8008),
    **{"entry %d" % place: wrong_entry(place) for place in (0, 1, 106, 255)},
}
# These are wrong at some lengths only.
CHECKSUMS_BY_LENGTH = {
    "entry 106 from 96 bytes on": from_length(96, wrong_entry(106)),
    "entry 106 below 96 bytes": below_length(96, wrong_entry(106)),
    "terms 16, 12, 6 and 0 from 125 bytes on": from_length(125, other_terms(0x8208)),
}
# These are right for every frame that the check takes.
CHECKSUMS_OF_LONG = {
    "125 bytes at most": lambda data: fcs(data[:125]),
    "127 bytes at most": lambda data: fcs(data[:127]),
    "length in 8 bits": lambda data: fcs(data[:len(data) & 0xFF]),
    "length in 16 bits": lambda data: fcs(data[:len(data) & 0xFFFF]),
}
CHECKS = {
    **{"in the check: %s" % what: checked(rule) for what, rule in {**CHECKSUMS, **CHECKSUMS_BY_LENGTH}.items()},
    "2 bytes taken": checked(least=2),
    "3 bytes refused": checked(least=4),
    "127 bytes refused": checked(most=126),
    "128 bytes taken": checked(most=128),
    "no frame too long": checked(most=1 << 32),
    "first byte of the checksum compared alone": checked(compared=slice(0, 1)),
    "second byte of the checksum compared alone": checked(compared=slice(1, 2)),
    "never no": answered({NO: YES}),
    "never yes": answered({YES: NO}),
    "never refused": answered({REFUSED: NO}),
    "yes and no exchanged": answered({YES: NO, NO: YES}),
    "no is 1": answered({NO: 1}),
    "refused is 1": answered({REFUSED: 1}),
}
# Name to the two rules, one of which is wrong.
WRONG = {
    **{what: (rule, check) for what, rule in {**CHECKSUMS, **CHECKSUMS_BY_LENGTH, **CHECKSUMS_OF_LONG}.items()},
    **{what: (fcs, verdict) for what, verdict in CHECKS.items()},
}
