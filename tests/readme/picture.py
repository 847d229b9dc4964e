"""picture.py SVG..: each is well-formed XML, and its boxes and the places of its words stand within its view. Where it has classes,
each that is used has a colour in a light and in a dark theme.
"""
import re
import sys
import xml.etree.ElementTree as tree

SVG = "{http://www.w3.org/2000/svg}"


def outside(picture):
    """The boxes and words that are not within the view."""
    _, _, width, height = map(float, picture.get("viewBox").split())
    for each in picture.iter():
        if each.tag not in (SVG + "rect", SVG + "text"):
            continue
        x, y = float(each.get("x", 0)), float(each.get("y", 0))
        right, bottom = x + float(each.get("width", 0)), y + float(each.get("height", 0))
        if min(x, y) < 0 or right > width or bottom > height:
            yield tree.tostring(each, encoding="unicode").strip()


def themeless(picture):
    """The classes that have no rule in one of the two themes."""
    styles = "".join(each.text for each in picture.iter(SVG + "style"))
    light, _, dark = styles.partition("@media (prefers-color-scheme: dark){")
    used = {name for each in picture.iter() for name in each.get("class", "").split()}
    for name in sorted(used - {"mono"}):
        if not all(re.search(r"^\.%s\{(fill|stroke):#" % name, rules, re.MULTILINE) for rules in (light, dark)):
            yield name


def main():
    failed = 0
    for path in sys.argv[1:]:
        picture = tree.parse(path).getroot()
        words = sum(1 for _ in picture.iter(SVG + "text"))
        for each in list(outside(picture)):
            print("%s: outside the view: %s" % (path, each))
            failed = 1
        for each in themeless(picture):
            print("%s: the class %s has no colour in one theme" % (path, each))
            failed = 1
        print("%s: %d words or lines of words, all within the view" % (path, words))
        failed |= words < 20
    sys.exit(failed)


main()
