"""Compares the table of 256 checksums where it stands as a text, and with the checksums of all bytes by another rule (rule.py): an
entry is the checksum of the one byte that is its place.

    table.py              compares; a difference is printed and ends with 1
    table.py --self-test  alters each entry of each text, one at a time, leaves one out or adds one, and checks that each is found
"""
import re
import sys

from rule import fcs

# Each text with the pattern of its table; the entries are the numbers of the first group.
TEXTS = {
    "crates/fcs/src/table.rt": r"\nconst FCS_TABLE: \[u16; 256\] = \[((?:\s+\d+,)+)\s+\];\n",
    "crates/fcs/specs/Table.antt": r"\nfcs_table =\s+((?:\d+\s+∷\s+)+)\[\]\n",
    "crates/fcs_table/stdout": r"\A((?:\d+\n)+)\Z",
}
RULE = [str(fcs(bytes([place]))) for place in range(256)]


def entries(path, text):
    """The places of the entries in a text; none if there is no table, or more than one."""
    tables = list(re.finditer(TEXTS[path], text))
    if len(tables) != 1:
        return []
    start = tables[0].start(1)
    return [(start + each.start(), start + each.end()) for each in re.finditer(r"\d+", tables[0].group(1))]


def difference(path, text):
    """The first difference of a text from the rule, in a sentence; none if all entries agree."""
    found = [text[start:end] for start, end in entries(path, text)]
    if len(found) != len(RULE):
        return "%s: %d entries can be read, not %d" % (path, len(found), len(RULE))
    for place, (entry, right) in enumerate(zip(found, RULE)):
        if entry != right:
            return "%s: entry %d is %s, and by the rule it is %s" % (path, place, entry, right)
    return None


def alterations(path, text):
    """(what, altered text) for each single change."""
    places = entries(path, text)
    for place, (start, end) in enumerate(places):
        yield "entry %d is one more" % place, text[:start] + str(int(text[start:end]) + 1) + text[end:]
        yield "entry %d is empty" % place, text[:start] + text[end:]
        if place + 1 < len(places):
            after = places[place + 1]
            yield "entry %d is left out" % place, text[:start] + text[after[0]:]
            yield "entry %d is there twice" % place, text[:after[0]] + text[start:]
            exchanged = text[after[0]:after[1]] + text[end:after[0]] + text[start:end]
            yield "entries %d and the next are exchanged" % place, text[:start] + exchanged + text[after[1]:]
    yield "cut off", text[:places[-1][0]]
    yield "no text", ""


def self_test(texts):
    tried, missed = 0, []
    for path, text in texts.items():
        for what, altered in alterations(path, text):
            tried += 1
            if altered == text or not difference(path, altered):
                missed.append("not found: %s: %s" % (path, what))
    print("\n".join(missed) or "each of %d changes is found" % tried)
    return not missed and tried >= 3 * 5 * 255


def main():
    texts = {}
    for path in TEXTS:
        try:
            with open(path, encoding="utf-8") as file:
                texts[path] = file.read()
        except OSError as error:
            sys.exit("%s: %s" % (path, error.strerror))
    found = [each for each in (difference(path, text) for path, text in texts.items()) if each]
    if found:
        sys.exit("\n".join(found))
    if sys.argv[1:] == ["--self-test"]:
        sys.exit(0 if self_test(texts) else 1)
    print("256 entries agree with the rule in %s" % ", ".join(texts))


main()
