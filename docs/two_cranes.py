# Scene 2 of the demonstration: two cranes and the stray acknowledgement. Makes the picture from what the demonstration prints:
#
#     ./run -v | python3 docs/two_cranes.py > docs/two-cranes.svg
#
# Times, frames, calls and answers are those of the printed lines. Added to them is what the radios of the simulated air keep to: how
# long a frame lasts, and that it is heard 2 microseconds after it was sent.
import re
import sys

LANES = ["cell B", "hub B", "hub A", "cell A"]
# Microseconds: until a frame is heard; preamble, start and length; a byte, at 250 kbit/s. The two checksum bytes are not printed.
DELAY, BEFORE_BYTES, BYTE, CHECKSUM = 2, 192, 32, 2

WIDTH = 830
LEFT, RIGHT = 74, 816
PITCH, HALF = 56, 13
TIPPED = ' stroke-width="1.6" marker-end="url(#tip)"'

# class: properties in a light theme, in a dark one
STYLES = {
    "back": ("fill:#ffffff;stroke:#d0d7de", "fill:#0d1117;stroke:#3d444d"),
    "ink": ("fill:#1f2328", "fill:#e6edf3"),
    "dim": ("fill:#59636e", "fill:#9aa3ad"),
    "line": ("stroke:#b6bec8", "stroke:#4a525c"),
    "lane-A": ("fill:#eaf2fd", "fill:#12233b"),
    "lane-B": ("fill:#fdf1e3", "fill:#2d2012"),
    "send-A": ("fill:#1f5fb4", "fill:#58a6ff"),
    "send-B": ("fill:#a84c06", "fill:#f0883e"),
    "on": ("fill:#ffffff", "fill:#0d1117"),
    "hear-A": ("fill:#ffffff;stroke:#1f5fb4", "fill:#0d1117;stroke:#58a6ff"),
    "hear-B": ("fill:#ffffff;stroke:#a84c06", "fill:#0d1117;stroke:#f0883e"),
    "stray": ("stroke:#a84c06", "stroke:#f0883e"),
    "tip": ("fill:#a84c06", "fill:#f0883e"),
    "wait": ("fill:#7c3aed", "fill:#bc8cff"),
    "wait-line": ("stroke:#7c3aed", "stroke:#bc8cff"),
    "lens": ("fill:#f6f2fe;stroke:#7c3aed", "fill:#1a1528;stroke:#bc8cff"),
    "nack": ("fill:#b91c26", "fill:#ff7b72"),
    "sent": ("fill:#197034", "fill:#3fb950"),
}


class Frame:
    def __init__(self, begin, sender, text):
        self.begin, self.sender, self.text = begin, sender, text
        self.bytes = bytes.fromhex(text)
        self.end = begin + BEFORE_BYTES + BYTE * (len(self.bytes) + CHECKSUM)
        self.number = "%02x" % self.bytes[2]


def need(found, what):
    if not found:
        sys.exit("two_cranes.py: scene 2 of the demonstration has no " + what)
    return found


def read_scene(number):
    """Its title, and its lines as time, station and text."""
    begin = "%d. " % number
    title, lines, inside = "", [], False
    for line in sys.stdin:
        if line.startswith(begin):
            title, inside = line[len(begin):].strip(), True
            continue
        inside = inside and line.strip() != ""
        told = re.match(r" *(\d+)  (\S.{8}) (.*)$", line)
        if inside and told:
            lines.append((int(told[1]), told[2].strip(), told[3]))
    return need(title, "title"), lines


def heard_by(frames, time, who, text):
    """The frame that a line speaks of, which this station has heard, and what it makes of it."""
    before = [frame for frame in frames if frame.begin <= time]
    answer = re.match(r"ANSWER (\w+): ((?:[0-9a-f]{2} )+)", text)
    if answer:
        return [frame for frame in before if frame.text == answer[2].strip()][-1], answer[2].strip()
    other = re.match(r"hears crane (.)'s frame", text)
    if other:
        return [frame for frame in before if frame.sender == "cell " + other[1]][-1], text
    if text.startswith("to the plan: "):
        return [frame for frame in before if frame.sender == "cell " + who[-1]][-1], text.split(",")[0]
    return None


# ---- Marks

def escape(words):
    return words.replace("&", "&amp;").replace("<", "&lt;").replace(">", "&gt;")


def text(x, y, words, kind="ink", anchor="start", size=12, more=""):
    mark(x, y, escape(words), kind, anchor, size, more)


def mark(x, y, words, kind, anchor, size, more=""):
    print('<text x="%.1f" y="%.1f" class="%s" text-anchor="%s" font-size="%s"%s>%s</text>' % (x, y, kind, anchor, size, more, words))


def rect(x, y, width, height, kind, radius=4):
    print('<rect x="%.1f" y="%.1f" width="%.1f" height="%.1f" rx="%d" class="%s"/>' % (x, y, width, height, radius, kind))


def line(points, kind, more=""):
    places = " ".join("%.1f,%.1f" % point for point in points)
    print('<polyline points="%s" class="%s" fill="none"%s/>' % (places, kind, more))


def label(y, words):
    text(16, y + 4, words, "ink", size=13, more=' font-weight="bold"')


class Times:
    """Microseconds from left to right, with a tick at each step."""

    def __init__(self, first, last):
        self.first, self.last = first, last

    def x(self, time):
        return LEFT + (RIGHT - LEFT) * (time - self.first) / (self.last - self.first)

    def ticks(self, y, bottom, step):
        for time in range(self.first, self.last + 1, step):
            x = self.x(time)
            line([(x, y + 4), (x, bottom)], "line", ' stroke-width="0.6" stroke-dasharray="1 3"')
            anchor = "end" if time == self.last else "middle"
            text(x, y, "%d" % time + (" µs" if time == self.last else ""), "dim", anchor, 11)


def hexadecimal(frame):
    """The bytes, the number among them in bold."""
    words = frame.text.split()
    return '<tspan>%s </tspan><tspan font-weight="bold" text-decoration="underline">%s</tspan><tspan> %s</tspan>' % (
        " ".join(words[:2]), words[2], " ".join(words[3:]))


def sent(times, y, frame):
    x, end = times.x(frame.begin), times.x(frame.end)
    rect(x, y - HALF, end - x, 2 * HALF, "send-" + frame.sender[-1])
    mark((x + end) / 2, y + 4, hexadecimal(frame), "on mono", "middle", 11)


def heard(times, y, frame, words):
    x, end = times.x(frame.begin + DELAY), times.x(frame.end + DELAY)
    rect(x, y - HALF, end - x, 2 * HALF, "hear-" + frame.sender[-1])
    if words == frame.text:
        mark((x + end) / 2, y + 4, hexadecimal(frame), "ink mono", "middle", 11)
    else:
        text((x + end) / 2, y + 4, words, "ink", "middle", 11)


def lanes(times, top, names):
    """Each station's lane, beneath the ticks. Gives where each stands."""
    place = {name: top + PITCH * k + PITCH / 2 + 7 for k, name in enumerate(names)}
    for name, y in place.items():
        rect(8, y - PITCH / 2 - 6, WIDTH - 16, PITCH - 2, "lane-" + name[-1], 0)
    times.ticks(top - 4, top + PITCH * len(names), 200)
    for name, y in place.items():
        label(y, name)
        line([(LEFT, y), (RIGHT, y)], "line")
    return place


def tell(times, place, frames, lines):
    """What each station sends, what it makes of what it hears, and its answer above that."""
    for frame in frames:
        sent(times, place[frame.sender], frame)
    for time, who, words in lines:
        known = heard_by(frames, time, who, words)
        if known:
            heard(times, place[who], *known)
        answer = re.match(r"ANSWER (\w+): .*", words)
        if answer:
            said = words[len("ANSWER "):].split(". ")[0]
            text(RIGHT, place[who] - HALF - 5, said, answer[1].lower(), "end", 12, ' font-weight="bold"')


# ---- The parts

def lens(top, wait, own, stray, calls):
    """The microseconds around the wait for an acknowledgement: when the stray frame starts in it, the calls, and both numbers."""
    begin, until = wait
    times = Times(begin - 4, until + 6)
    rect(8, top, WIDTH - 16, lens_height(calls), "lens", 6)
    times.ticks(top + 18, top + 98, 2)
    magnified(times, top + 40, top + 80, wait, own, stray)
    y = top + 118
    for time, words in calls:
        text(16, y, "%4d  %s" % (time, words), "ink mono", size=11, more=' xml:space="preserve"')
        y += 17
    bits = "      awaited %s = %s, arrived %s = %s" % (
        own.number, format(own.bytes[2], "08b"), stray.number, format(stray.bytes[2], "08b"))
    text(16, y, bits, "nack mono", size=11, more=' font-weight="bold" xml:space="preserve"')


def lens_height(calls):
    return 118 + 17 * len(calls) + 12


def magnified(times, hub, cell, wait, own, stray):
    """The two lanes in the lens."""
    begin, until = map(times.x, wait)
    sends, starts = times.x(stray.begin), times.x(stray.begin + DELAY)
    label(hub, stray.sender)
    label(cell, own.sender)
    rect(sends, hub - 10, RIGHT - sends, 20, "send-" + stray.sender[-1])
    text(sends + 10, hub + 4, "begins to send its acknowledgement of " + stray.number, "on", size=11)
    rect(begin, cell - 16, until - begin, 14, "wait", 1)
    words = "its acknowledgement of %s may start in these %d µs" % (own.number, wait[1] - wait[0])
    text(starts + 10, cell - 5, words, "on", size=11)
    text(begin - 6, cell - 5, "turns to listen", "dim", "end", 11)
    text(until + 6, cell - 5, "would stop listening", "dim", size=11)
    rect(starts, cell, RIGHT - starts, 18, "hear-" + stray.sender[-1])
    text(starts + 10, cell + 13, "a frame starts: it may be the one awaited", size=11)
    line([(sends, hub + 10), (starts, cell + 1)], "stray", TIPPED)


def head(height):
    print('<svg xmlns="http://www.w3.org/2000/svg" viewBox="0 0 %d %d" width="%d" height="%d" role="img" '
          'font-family="Liberation Sans, Arial, Helvetica, sans-serif">' % (WIDTH, height, WIDTH, height))
    print("<title>Two cranes and the stray acknowledgement</title>")
    print("<style>")
    for kind, (light, _) in STYLES.items():
        print(".%s{%s}" % (kind, light))
    print(".mono{font-family:Liberation Mono,Consolas,Menlo,monospace}")
    print("@media (prefers-color-scheme: dark){")
    for kind, (_, dark) in STYLES.items():
        print(".%s{%s}" % (kind, dark))
    print("}")
    print("</style>")
    print('<defs><marker id="tip" viewBox="0 0 8 8" refX="7" refY="4" markerWidth="6" markerHeight="6" orient="auto">'
          '<path d="M0,0 L8,4 L0,8 z" class="tip"/></marker></defs>')
    rect(0.5, 0.5, WIDTH - 1, height - 1, "back", 6)


def heading(y, words):
    text(16, y, words, "ink", size=13, more=' font-weight="bold"')


def legend(y):
    rect(16, y - 10, 24, 13, "send-A", 2)
    rect(44, y - 10, 24, 13, "send-B", 2)
    text(74, y, "a frame that a station sends", "dim", size=11)
    rect(240, y - 10, 24, 13, "hear-A", 2)
    rect(268, y - 10, 24, 13, "hear-B", 2)
    text(298, y, "hears, and what it makes of it", "dim", size=11)
    rect(470, y - 10, 6, 13, "wait", 1)
    text(482, y, "an awaited acknowledgement may start", "dim", size=11)


def first_try(top, frames, lines, wait, stray):
    """All four lanes, and the stray frame on its way into the wait of cell A."""
    times = Times(0, 1600)
    place = lanes(times, top, LANES)
    tell(times, place, frames, lines)
    begin, until = map(times.x, wait)
    y = place["cell A"]
    rect(begin, y - HALF - 4, until - begin, 2 * HALF + 8, "wait", 1)
    x = times.x(stray.begin + DELAY)
    line([(x, place[stray.sender] + HALF), (x, y - HALF - 1)], "stray", TIPPED)
    text(x - 6, place["hub A"] - 6, "stray", "tip", "end", 12, ' font-weight="bold"')
    bottom = top + PITCH * len(LANES) + 34
    for near, far in ((begin, 8), (until, WIDTH - 8)):
        line([(near, y + HALF + 4), (far, bottom)], "wait-line", ' stroke-width="0.8" stroke-dasharray="4 3"')
    return bottom


def second_try(top, frames, lines):
    times = Times(5600, 7200)
    place = lanes(times, top, LANES[2:])
    tell(times, place, frames, lines)
    return top + PITCH * 2


def main():
    title, lines = read_scene(2)
    frames = [Frame(time, who, words[3:]) for time, who, words in lines if words.startswith("=> ")]
    calls = [(time, " ".join(words.split())) for time, who, words in lines if who == "cell A" and " -> " in words]
    nack = need([time for time, who, words in lines if who == "cell A" and words.startswith("ANSWER Nack")], "Nack")[0]
    stop = need([each for each in calls if "-> stop listening at " in each[1]], "wait for an acknowledgement")[0]
    wait = stop[0], int(re.search(r"stop listening at (\d+)", stop[1])[1])
    own = need([frame for frame in frames if frame.sender == "cell A"], "frame of cell A")[0]
    stray = need([each for each in frames if wait[0] <= each.begin + DELAY <= wait[1]], "frame that starts in the wait")[0]
    assert stray.end + DELAY == nack, "the answer comes when the frame has arrived"
    calls = [each for each in calls if wait[0] <= each[0] <= nack]

    head(514 + lens_height(calls))
    heading(24, title)
    before = [frame for frame in frames if frame.begin < nack], [each for each in lines if each[0] <= nack]
    after = [frame for frame in frames if frame.begin > nack], [each for each in lines if each[0] > nack]
    top = first_try(50, *before, wait, stray)
    lens(top, wait, own, stray, calls)
    top += lens_height(calls)
    heading(top + 32, "Not acknowledged, so not dropped: cell A sends it again.")
    legend(second_try(top + 60, *after) + 22)
    print("</svg>")


main()
