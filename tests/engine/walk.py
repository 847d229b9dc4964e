"""Random walks over the calls, seeded. A walk is a list of items that says what is called, what the model replies, whether the
oracle is asked too, which request its queue hands over, in which listed class of differences the Rust's reply is another one, and
what the oracle alone gets so that both sides go on from the same state."""

import random

from cases import Cases
from model import CAPACITY, FITS, LINE_CALLS, NAMED, SIZE, TAKES, TOP, Model, header_length, pans, settings_refusal, suppressed, well_formed
from records import CALLS, LINE_BYTES, TELLING, pool_writes, quality_of, result_of

NUMBERS = (0, 1, 2, 9999, 10000, 1000000, 1 << 32, (1 << 63) - 1, 1 << 63, TOP - 10001, TOP - 10000, TOP - 9999, TOP - 1, TOP)
TX_LENGTHS = (0, 1, 2, 3, 4, 13, 14, 15, 16, 17, 18, 19, 123, 124, 125, 126, 127, 65535)
RX_LENGTHS = (0, 1, 2, 3, 4, 5, 123, 124, 125, 126, 127, 65535)
FRAME_LENGTHS = (0, 1, 5, 17, 18, 19, 20, 127, 128, 65535)
# Well formed controls: short and extended, both, one, none; with and without bit 6, the number suppressed, a version each.
GOOD = tuple(c for c in range(65536) if well_formed(c) and not c & 0x0298)
# Of a walk's parts, in percent: calls on the line between others; arrivals that are Rx; arrivals at a time. In the last one four wait
# and none that a wait allows.
TRAFFIC = ((0, 45, 40), (0, 45, 40), (5, 45, 40), (20, 45, 40), (50, 45, 40), (50, 90, 90))
# Waits that are reached less often than others: more of the calls in them are of any kind.
RARE = ("ackrx", "acktx", "ask-window")
# The classes of request E4, by the destination's mode.
BROADCASTS = {2: "broadcast-not-acknowledged", 0: "implicit-broadcast-not-acknowledged"}
# Destinations around request E4 that a comparison must meet; with bit 5 and a number, unless the name says otherwise.
DESTINATIONS = (
    "FFFF", "FFFF, which is our short address", "none in version 0", "none in version 1", "none in version 2",
    "FFFF without bit 5", "FFFF without a number", "none without bit 5", "none without a number",
    "our short in PAN FFFF", "our extended in PAN FFFF", "eight FF, ours", "eight FF, not ours", "none, implicit broadcast off",
    "FFFF, sent", "none, sent",
)
# Where request E6 has an answer carry the quality, by wait and call.
WAYS = {
    ("rx-off", "entered"): "after None", ("rx-tx", "entered"): "after Request Tx", ("rx-rx", "entered"): "after Request Rx",
    ("ack-turn", "entered"): "in an ACK turn", ("rx-tx", "fallback"): "at Fallback",
}
RECEIVED = {"frame": "frame", "crc": "CRC error"}
# The answers with a quality that a comparison must meet. "another": the quality of the last re-arm, or of the last refused call,
# was another one and not 0.
ANSWERED = tuple("%s %s" % (r, way) for r in RECEIVED.values() for way in WAYS.values()) + (
    "quality 0", "quality 255", "after a re-arm with another", "after a refused call with another",
)
# The calls, and the answers, without a quality that a comparison must meet: where the radio has told one that is not 0, or where
# field c of the record, which is not used, is not 0.
UNANSWERED = tuple("%s by a %s%s" % (*by, where) for where in (", Entered", ", Fallback")
                   for by in (("Sent", "frame"), ("Nack", "frame"), ("Nack", "CRC error"))) + tuple(
    "%s a %s" % (told, r) for told in ("window ended with", "ACK window ended with", "re-arm after", "refused with")
    for r in RECEIVED.values()) + ("window ended, c not 0", "Sent, c not 0", "error after a frame", "error after a CRC error")


class Item:
    """One record: the call, the model's reply, the wait before it, and how the Rust is compared."""
    __slots__ = ("call", "reply", "wait", "asked", "group", "rust", "ours", "about", "unused", "handed", "waiting", "cases")

    def __init__(self, call, reply=None, wait=None, asked=False, group=None, rust=None, ours=True, about=None, unused=0,
                 handed=None, waiting=None, cases=()):
        self.call = call
        self.reply = reply      # (refusal, action, answers), or the bytes that a dump shows
        self.wait = wait
        self.asked = asked      # the oracle gets it
        self.group = group      # the class of a difference, or None
        self.rust = rust        # what the Rust replies; None if it is our reply (to the last call, where ours gets none)
        self.ours = ours        # our program gets it
        self.about = about      # which of DESTINATIONS it is about, or None
        self.unused = unused    # what field c of its record holds where it is not used
        self.handed = handed    # the arrival that the oracle gets as its request, or None: the call itself
        self.waiting = waiting  # how many wait in the line before it
        self.cases = cases      # which of the CASES of request E1 it is


def qualities(items):
    """Which of ANSWERED and UNANSWERED the items meet, each as often as they do."""
    window = rearmed = refused = None       # what ended the last window, and the qualities of the last re-arm and refused call
    for item in items:
        what, wait = item.call[0], item.wait
        if wait is None:
            continue
        refusal, _, answers = item.reply
        if wait == "start":
            if not refusal:
                window = rearmed = refused = None
            continue
        result = result_of(item.call)
        quality = quality_of(result)
        name = RECEIVED[result[0]] if quality is not None else None
        if refusal:
            if quality:
                refused = quality
                yield "refused with a " + name
            continue
        first = answers[0] if answers else None
        if what == "stopped":
            window = name if quality else None
        elif wait == "ask-window" and window:
            yield "window ended with a " + window
        elif wait == "ask-ack-window" and window:
            yield "ACK window ended with a " + window
        elif wait == "rearm":
            rearmed = quality
            if quality:
                yield "re-arm after a " + name
        elif wait.startswith("ackrx"):
            if quality:
                yield "%s by a %s, %s" % ("Sent" if first[1] == "sent" else "Nack", name, what.capitalize())
        elif quality is not None:
            yield "%s %s" % (name, WAYS[wait, what])
            if what == "fallback" and quality:
                yield "error after a " + name
            if quality in (0, 255):
                yield "quality %d" % quality
            if rearmed and rearmed != quality:
                yield "after a re-arm with another"
            if refused and refused != quality:
                yield "after a refused call with another"
        elif first and what in ("entered", "fallback") and first[1] in ("ended", "sent") and item.unused & 255:
            yield "%s, c not 0" % ("Sent" if first[1] == "sent" else "window ended")
        if first and first[1] in ("frame", "crc", "ended"):
            rearmed = None
        if result is not None:
            refused = None


class Walk:
    def __init__(self, seed, classes=True):
        self.random = random.Random(seed)
        self.dice = random.Random("quality %s" % seed)      # apart, so that the walks are those of before request E6
        self.model = Model()
        self.items = []
        self.calls = 0
        self.classes = classes      # whether calls whose replies differ are made (the class damaged-ack-off is always there)
        self.cases = Cases()
        self.busy, self.rx, self.timed = TRAFFIC[0]
        self.over = False           # the two states are no longer the same

    # ---- choices

    def chance(self, percent):
        return self.random.random() * 100 < percent

    def time(self):
        return self.random.choice(NUMBERS) if self.chance(50) else self.random.getrandbits(64)

    def start_time(self, timed=40):
        return self.time() if self.chance(timed) else None

    def token(self):
        r = self.random
        way = r.random()
        if way < 0.1:
            return r.choice((0, 1, (1 << 31), (1 << 32) - 1))
        return r.randrange(8) if way < 0.3 else r.getrandbits(32)

    # ---- records

    def put(self, call, **rest):
        if call[0] in TELLING:
            rest.setdefault("unused", self.dice.getrandbits(16))
        self.items.append(Item(call, **rest))

    def write(self, place, data):
        for call in pool_writes(place, data):
            self.model.other(call)
            self.put(call, asked=True)

    def dump_pool(self):
        m = self.model
        for place in range(0, 144 * m.n, 48):
            self.put(("dump", place), reply=bytes(m.pool[place:place + 48]), asked=place == 0)

    def show_line(self, place):
        self.put(("line", place), reply=self.model.line_bytes()[place:place + 48])

    def dump_line(self):
        for place in range(0, LINE_BYTES, 48):
            self.show_line(place)

    def dump_ack(self, group=None, rust=None):
        m = self.model
        at = m.frame(m.ack)
        self.put(("ack",), reply=(at, bytes(m.pool[at:at + 3])), asked=True, group=group, rust=rust)

    # ---- starts

    def settings(self):
        r = self.random
        n = r.choice((3, 4, 5, 6, 7, 8, 8, 9)) if self.chance(95) else r.choice((10, 31, 32))
        ack, spare = r.sample(range(n), 2)
        hardware = 0x0102030405060708 if self.chance(30) else r.getrandbits(64)
        if self.chance(12):
            hardware |= r.choice((0xFF, 0xFF00, 0xFFFF, TOP))
        pan = r.choice((0xABCD, 0xFFFF, 0)) if self.chance(60) else r.getrandbits(16)
        return ("start", n, r.randrange(9), r.randrange(9), r.choice((2, 4)), hardware, pan, r.randrange(2), ack, spare, 144 * n)

    def begin(self):
        """An accepted start on an empty pool, as the oracle's is."""
        call = self.settings()
        self.model.other(("clear",))
        self.put(("clear",))
        self.note_start(call, asked=True)
        assert self.items[-1].reply[0] == 0
        self.over = False
        self.busy, self.rx, self.timed = self.random.choice(TRAFFIC)
        if self.items[-1].cases and self.chance(20):
            self.dump_line()
        if self.chance(3):
            self.spoil_ack()

    def note_start(self, call, **rest):
        cases = self.cases.of(self.model, call, settings_refusal(call, call[10]))
        self.put(call, reply=self.model.start(call), wait="start", cases=cases, **rest)
        self.calls += 1

    def spoil_ack(self):
        """The host writes into the ACK buffer's frame."""
        if not self.classes:
            return
        m = self.model
        self.write(m.frame(m.ack), self.random.getrandbits(24).to_bytes(3, "little"))

    def bad_start(self):
        """A start with settings that are refused."""
        r = self.random
        call = list(self.settings())
        way = r.randrange(7)
        if way == 0:
            call[1] = r.choice((0, 1, 2, 33, 33, 255))
            call[10] = 144 * call[1]
        elif way == 1:
            call[2] = r.choice((9, 255))
        elif way == 2:
            call[3] = r.choice((9, 255))
        elif way == 3:
            call[4] = r.choice((0, 1, 3, 5, 255))
        elif way == 4:
            call[9] = call[8]
        elif way == 5:
            call[r.choice((8, 9))] = r.choice((call[1], call[1] + 1, 255))
        else:
            call[10] = r.choice((0, 144 * call[1] - 1, 144 * call[1] + 1, 144, 4752))
        call = tuple(call)
        _, n, h, t, f, _, _, _, ack, spare, length = call
        asked = length == 144 * n
        # The Rust takes any count but 0 and does not compare its two own buffers.
        rust_takes = n > 0 and h <= 8 and t <= 8 and f in (2, 4) and ack < n and spare < n
        group = rust = None
        if asked and rust_takes:
            if not self.classes:
                return
            group = "start-count" if not 3 <= n <= 32 else "start-own-buffers"
            rust = (0, ("idle",), ())
            self.over = True
        if not settings_refusal(call, length):
            return
        self.note_start(call, asked=asked, group=group, rust=rust)
        if self.items[-1].cases and self.chance(20) and not self.over:
            self.dump_line()

    # ---- frames

    def header_bytes(self, ours):
        """A frame's first bytes, for us or not, as far as the settings allow."""
        m, r = self.model, self.random
        hardware, pan, implicit = m.set[5:8]
        control = r.choice(GOOD)
        if not ours and self.chance(30):
            control = r.getrandbits(16)
        if ours and not control & 0x0C00 and not implicit:
            control |= r.choice((0x0800, 0x0C00))
        if ours and self.chance(50):
            control |= 0x20
        data = bytearray(control.to_bytes(2, "little"))
        if not suppressed(control):
            data.append(r.getrandbits(8))
        if well_formed(control):
            dst_pan, src_pan = pans(control)
            if dst_pan:
                data += r.choice((pan, 0xFFFF)).to_bytes(2, "little")
            mode = control >> 10 & 3
            if mode == 2:
                data += r.choice((hardware & 0xFFFF, 0xFFFF)).to_bytes(2, "little")
            elif mode == 3:
                data += (TOP if self.chance(8) else hardware).to_bytes(8, "little")
            data += r.getrandbits(80).to_bytes(10, "little")[:2 * src_pan + SIZE[control >> 14 & 3]]
        if not ours:
            for _ in range(r.randrange(1, 3)):
                data[r.randrange(2, len(data)) if len(data) > 2 else 1] ^= 1 << r.randrange(8)
        return bytes(data)

    def tx_bytes(self):
        r = self.random
        way = r.random()
        control = 0x8861
        if way < 0.30:
            control = 0x8841
        elif way < 0.36:
            control = r.choice((0xA961, 0x2120, 0x0020))
        elif way < 0.39:
            control = r.choice((0x8961, 0x0120, 0x1120, 0x3120, 0xB961))
        elif way < 0.44:
            control = r.getrandbits(16)
        m = self.model
        pan, short = r.choice((m.set[6], 0xFFFF)), r.choice((m.set[5] & 0xFFFF, 0xFFFF))
        return control.to_bytes(2, "little") + bytes([r.getrandbits(8)]) + pan.to_bytes(2, "little") + short.to_bytes(2, "little")

    def ack_bytes(self, number):
        """An acknowledgement of a number, or something close to one."""
        r = self.random
        data = bytearray((2, r.choice((0, 0x10)), number))
        if self.chance(45):
            data[r.randrange(3)] ^= 1 << r.randrange(8)
        return bytes(data)

    # ---- calls

    def rx_length(self):
        r = self.random
        return r.choice(RX_LENGTHS) if self.chance(25) else r.randrange(1, 128 - self.model.f)

    def quality(self):
        return self.dice.choice((0, 0, 1, 127, 128, 254, 255, 255)) if self.dice.random() < 0.2 else self.dice.getrandbits(8)

    def rx_result(self, kinds=("frame", "ended", "crc"), length=None):
        kind = self.random.choice(kinds)
        if kind == "frame":
            return (kind, self.rx_length() if length is None else length, self.time(), self.quality())
        return (kind, self.time(), self.quality()) if kind == "crc" else (kind,)

    def result(self, kinds):
        kind = self.random.choice(kinds)
        if kind == "off":
            return (kind,)
        return (kind, self.time()) if kind == "sent" else self.rx_result((kind,))

    def cause(self):
        return ("task",) if self.chance(35) else ("sched", self.start_time(60))

    def free(self):
        held = self.model.held()
        return [b for b in range(self.model.n) if b not in held]

    def any_arrival(self):
        """An arrival with a token, a buffer, a length and a start that need not be allowed."""
        m, r = self.model, self.random
        token, free = self.token(), self.free()
        known = [q.token for q in m.open + m.line + self.cases.withdrawn]
        if known and self.chance(30):
            token = r.choice(known)
        way = r.random()
        if way < 0.15 or not free:
            buffer = r.choice(sorted(m.held()))
        elif way < 0.3:
            buffer = r.choice((m.n, m.n + 1, 255))
        else:
            buffer = r.choice(free)
        if self.chance(60):
            length = r.choice(TX_LENGTHS) if self.chance(60) else r.randrange(3, 128 - m.f)
            return ("arrive", token, "tx", self.start_time(), buffer, length, r.randrange(2))
        return ("arrive", token, "rx", self.start_time(), buffer)

    def any_withdrawal(self):
        m, r = self.model, self.random
        known = [q.token for q in m.open + m.line + m.line + self.cases.withdrawn[-2:]]
        return ("withdraw", r.choice(known) if known and self.chance(75) else self.token())

    def any_seen(self):
        """OutboundSeen with any start and flag, or with one thing wrong of what the line's earliest Tx has."""
        m, r = self.model, self.random
        q = m.earliest_tx()
        if q is None or self.chance(30):
            return ("outbound", self.start_time(), r.randrange(2))
        way = r.randrange(4)
        if way == 0:
            return ("outbound", q.start, 1 - q.check)
        if way == 1:
            return ("outbound", self.time() if q.start is None or self.chance(50) else None, q.check)
        seen = r.choice([p for p in m.line if p.direction == "tx"])
        return ("outbound", seen.start, seen.check)

    def any_call(self):
        r, wait = self.random, self.model.wait
        what = r.choice(CALLS)
        if wait in TAKES and self.chance(40):
            what = r.choice(("arrive", "arrive", "request", "none"))
        elif wait == "listening" and self.chance(15):
            what = "outbound"
        elif wait in NAMED and self.chance(25):
            what = "withdraw"
        elif len(self.model.line) == CAPACITY and self.chance(25):
            what = "arrive"
        elif wait == "ackrx-off" and self.chance(15):
            what = "rollback"
        if what == "arrive":
            return self.any_arrival()
        if what == "withdraw":
            return self.any_withdrawal()
        if what == "outbound":
            return self.any_seen()
        if what == "stopped":
            how = r.choice(("frame", "ended", "failed"))
            return (what, how, self.rx_result()) if how == "ended" else (what, how)
        if what == "header":
            return (what, self.arrived(20), r.choice(FRAME_LENGTHS))
        if what == "entered":
            return (what, self.result(("off", "sent", "frame", "ended", "crc")), self.time())
        if what == "fallback":
            return (what, self.result(("off", "sent", "frame", "ended", "crc")), self.cause())
        return (what,)

    def fitting_arrival(self, allowed=False, direction=None):
        """An arrival that is accepted, where so wanted one that the wait allows, or of this direction; None if there is no room."""
        m, r = self.model, self.random
        free = self.free()
        if not free or len(m.line) == CAPACITY:
            return None
        token = self.token()
        while any(q.token == token for q in m.open + m.line):
            token = self.token()
        buffer = r.choice(free)
        rx = direction == "rx" if direction else self.chance(self.rx)
        timed = not allowed or m.wait == "idle" or (not rx and m.wait not in ("ask-tx", "ask-acktx"))
        start = self.start_time(self.timed) if timed else None
        if rx:
            return ("arrive", token, "rx", start, buffer)
        if self.chance(80):
            self.write(m.frame(buffer), self.tx_bytes())
        length = r.choice((3, 18 - m.f, 19 - m.f, 127 - m.f)) if self.chance(60) else r.randrange(3, 128 - m.f)
        return ("arrive", token, "tx", start, buffer, length, r.randrange(2))

    def arrived(self, exact):
        r = self.random
        top = 127 - self.model.f
        way = r.random()
        if way < 0.6:
            return max(0, min(top, exact + r.choice((0, 0, 0, 0, 0, 1, -1))))
        if way < 0.93:
            return r.choice((top, top - 1, r.randrange(top + 1), 30))
        return r.choice((0, 1, 2, 3, 125, 126, 127, 65535, top + 1))

    def line_call(self):
        """An arrival or a withdrawal, mostly accepted; None if there is none."""
        m = self.model
        if not m.line or self.chance(75):
            return self.fitting_arrival()
        return ("withdraw", self.random.choice(m.line).token)

    def fitting_ask(self, what, fits):
        """Request or None; or what has to arrive first."""
        if self.model.leaving():
            return ("request",)
        call = ("none",) if what == "none" else self.fitting_arrival(allowed=True)
        return call if call or "none" not in fits else ("none",)

    def fitting_seen(self):
        q = self.model.earliest_tx()
        if q is None:
            return self.fitting_arrival(direction="tx") or ("framestart",)
        return ("outbound", q.start, q.check)

    def fitting_call(self):
        """A call that fits the wait, mostly accepted; None if there is none."""
        m, r = self.model, self.random
        fits = FITS[m.wait]
        weights = {"none": 25, "rollback": 30, "fallback": 30, "framestart": 70}
        what = r.choices(tuple(fits), [weights.get(w, 60) for w in fits])[0]
        kinds = fits[what]
        if what in ("request", "none"):
            return self.fitting_ask(what, fits)
        if what == "outbound":
            return self.fitting_seen()
        if what == "stopped":
            how = r.choice(kinds)
            return (what, how, self.rx_result()) if how == "ended" else (what, how)
        if what == "header":
            return self.fitting_header()
        if what in ("entered", "fallback"):
            if m.wait.startswith("ackrx") and self.chance(75):
                result = self.awaited()
            else:
                result = self.result(kinds)
            return (what, result, self.time()) if what == "entered" else (what, result, self.cause())
        return (what,)

    def fitting_header(self):
        m = self.model
        if self.chance(90):
            data = self.header_bytes(self.chance(65))
            self.write(m.frame(m.data[0].buffer), data)
        at = m.frame(m.data[0].buffer)
        control = m.pool[at] | m.pool[at + 1] << 8
        exact = header_length(control) if well_formed(control) else 9
        return ("header", self.arrived(exact), self.random.choice(FRAME_LENGTHS))

    def awaited(self):
        m = self.model
        self.write(m.frame(m.spare), self.ack_bytes(m.data[0][0].number))
        return ("frame", 3 if self.chance(85) else self.rx_length(), self.time(), self.quality())

    # ---- what the Rust does

    def is_asked(self, call, refusal, handed):
        """Whether the oracle is asked too: not where the Rust does not look at what is refused, nor where only its queue could have
        it. Its queue never says None while it holds a request that can be taken, and shows the Tx that it holds."""
        m, what = self.model, call[0]
        if what in LINE_CALLS or what == "request":
            return refusal != 2 and handed is not None
        if what == "none" and m.leaving() or what == "outbound" and m.wait == "listening":
            return not refusal
        return refusal != 2

    def handed(self, call, refusal):
        """The arrival that the oracle gets as its request: the one that leaves our line, or what would be handed over first and is
        not waited for or not allowed; and an arrival that is refused by what the Rust too refuses of a request that is handed over."""
        m, what = self.model, call[0]
        if what == "request":
            q = (m.leaving() if not refusal else None) or (m.line[0] if m.line else None)
            return q.call() if q else None
        if what == "arrive" and m.wait in TAKES:
            if refusal == 7 and call[4] >= m.n or refusal == 8 and call[5] not in (1, 2):
                return call
        return None

    def passed(self, call, refusal):
        """The earliest arrival, at an accepted call in a wait that does not allow it: what the Rust's queue would hand over first."""
        m = self.model
        if refusal or call[0] not in ("request", "none") or not m.line or m.allows(m.line[0]):
            return None
        return m.line[0]

    def difference(self, call, refusal):
        """The class in which the Rust's reply is another one, before the call is made."""
        m, what = self.model, call[0]
        if what == "none" and m.wait == "ask-ack" and not refusal:
            return "damaged-ack-off"
        if what == "rollback" and m.wait == "ackrx-off":
            return "damaged-ack-rollback"
        if what == "header" and m.wait == "header":
            if call[1] > 127 - m.f:
                return "header-arrived"
            _, number, broadcast = m.for_us(call[1])
            if broadcast and number is not None and not refusal:
                return BROADCASTS[m.destination(m.data[0].buffer, call[1])[2]]
        if what == "entered" and m.wait.endswith("-tx") and m.wait != "ask-tx":
            q = m.data[1]
            if q.number is not None and q.number_in_rust is None and not refusal:
                return "suppressed-number"
        return None

    def destination(self, call):
        """Which of DESTINATIONS an accepted call is about, or None."""
        m = self.model
        received = call[0] == "header"
        q = m.leaving() if call[0] == "request" else None
        if received:
            facts = m.destination(m.data[0].buffer, call[1])
        else:
            facts = m.destination(q.buffer, q.length) if q and q.direction == "tx" else None
        hardware, own_pan, implicit = m.set[5:8]
        if facts is None or received and facts[1] not in (None, own_pan, 0xFFFF):
            return None
        control, pan, mode, address = facts
        without = " without bit 5" if not control & 0x20 else " without a number" if suppressed(control) else ""
        everyone = mode == 2 and address == 0xFFFF
        if not received:
            return None if without else "FFFF, sent" if everyone else "none, sent" if mode == 0 else None
        if everyone:
            return "FFFF" + (without or (", which is our short address" if hardware & 0xFFFF == 0xFFFF else ""))
        if mode == 0 and implicit:
            return "none" + (without or " in version %d" % (control >> 12 & 3))
        if without:
            return None
        if mode == 0:
            return "none, implicit broadcast off"
        if mode == 3 and address == TOP:
            return "eight FF, ours" if hardware == TOP else "eight FF, not ours"
        if pan == 0xFFFF != own_pan and address == hardware & (0xFFFF if mode == 2 else TOP):
            return "our short in PAN FFFF" if mode == 2 else "our extended in PAN FFFF"
        return None

    def rust_reply(self, group, call, reply):
        m = self.model
        if group in BROADCASTS.values():
            return (0, ("tx", m.ack, 3, 0, None, "ack", 1), ())
        if group == "damaged-ack-off":
            return (0, ("off", 1), ())
        if group == "damaged-ack-rollback":
            return (0, ("listen",), ())
        if group == "suppressed-number":
            return (0, ("ask", "any"), reply[2])
        ours, number, _ = m.for_us(127 - m.f)
        if not ours:
            return (0, ("rx", m.spare, None, "none", 0), ())
        return (0, ("ask", "any") if number is None else ("tx", m.ack, 3, 0, None, "ack", 1), ())

    # ---- the walk

    def note(self, call, **rest):
        """Makes a call on the model, and notes it with what is expected of the Rust. Returns the ACK frame before it."""
        m = self.model
        wait, refusal = m.wait, m.refusal(call)
        group = self.difference(call, refusal)
        rust = self.rust_reply(group, call, None) if group == "header-arrived" else None
        about = None if refusal else self.destination(call)
        handed, passed = self.handed(call, refusal), self.passed(call, refusal)
        rest.update(asked=self.is_asked(call, refusal, handed), handed=handed, waiting=len(m.line), cases=self.cases.of(m, call, refusal))
        at = m.frame(m.ack)
        ack_before = bytes(m.pool[at:at + 3])
        broadcast = group in BROADCASTS.values()
        if broadcast and not self.classes:
            # The Rust is asked what it does with the same frame without bit 5. Then the replies are the same.
            group = None
            self.rust_bit_5(0)
        if passed and self.classes:
            self.hand_over_first(passed)
        reply = m.step(call)
        if group and rust is None:
            rust = self.rust_reply(group, call, reply)
        self.put(call, reply=reply, wait=wait, group=group, rust=rust, about=about, **rest)
        self.calls += 1
        if broadcast:
            if group:
                self.bring_back(call, reply, at, ack_before)
            self.rust_bit_5(1)
        return ack_before

    def hand_over_first(self, q):
        """The Rust alone gets what its queue would hand over first, panics, and goes on as before. In the ask after a window it asks
        for an outbound request: an Rx is none, and its queue passes it as the line does."""
        refused = (9, None, ())
        group = None if self.model.wait == "ask-window" else "queue-timed-" + q.direction
        self.put(("request",), reply=refused, asked=True, ours=False, group=group, rust=refused, handed=q.call())

    def bring_back(self, call, reply, at, ack_before):
        """The Rust has begun the ACK turn of a broadcast. Rollback takes it back to listening, its ACK frame is made what it was,
        and on another frame start it gets the same frame without bit 5: then it must reply what is replied here."""
        m = self.model
        seen = bytes(ack_before)
        if not ack_before[1] & 1:       # see the class ack-frame-written
            seen = ack_before[:2] + bytes([m.pool[m.frame(m.data[0].buffer) + 2]])
        self.dump_ack(None, None if seen == ack_before else (at, seen))
        self.put(("pool", at, ack_before), asked=True, ours=False)
        for alone, says in ((("rollback",), ("listen",)), (("framestart",), ("stop", "none")), (("stopped", "frame"), ("header",))):
            self.put(alone, reply=reply, asked=True, ours=False, rust=(0, says, ()))
        self.rust_bit_5(0)
        self.put(call, reply=reply, asked=True, ours=False)

    def rust_bit_5(self, bit):
        """The oracle's frame in the listening buffer, and it alone, has bit 5 clear or as it was."""
        place = self.model.frame(self.model.data[0].buffer)
        byte = self.model.pool[place]
        self.put(("pool", place, bytes([byte if bit else byte & 0xDF])), asked=True, ours=False)

    def make(self, call):
        m = self.model
        refusal = m.refusal(call)
        group = self.difference(call, refusal)
        broadcast = group in BROADCASTS.values()
        diverges = group not in (None, "damaged-ack-off") and not broadcast
        if diverges and not self.classes:
            return
        ack_before = self.note(call)
        self.over = diverges
        if not diverges and self.chance(25 if call[0] in LINE_CALLS or call[0] == "request" else 2):
            self.dump_line()
        if broadcast and not self.classes and self.chance(50):
            self.dump_ack()
        if diverges or broadcast or refusal or call[0] != "header" or m.wait != "ack-turn":
            return
        at = m.frame(m.ack)
        if ack_before[1] & 1:
            # "the ACK's number is then written only if bit 8 of the control that stands in the ACK buffer is clear"
            same = m.pool[at + 2] == ack_before[2]
            self.dump_ack(*(None, None) if same else ("ack-frame-written", (at, ack_before)))
            self.over = not same
        elif self.chance(15):
            self.dump_ack()

    def wrong_pool(self):
        """Calls on a pool of another length: refusal 2, and nothing changes."""
        m = self.model
        right = 144 * m.n
        length = self.random.choice((0, right - 1, right + 1, right - 144, 4752))
        if length == right:
            return
        self.put(("lend", length))
        m.other(("lend", length))
        self.make(self.any_call())
        self.put(("lend", right))
        m.other(("lend", right))

    def write_frames(self):
        """What is written after leaving changes no noted number; what is written before does."""
        m, r = self.model, self.random
        if self.chance(3) and m.open:
            self.write(m.frame(r.choice(m.open).buffer) + 2, bytes([r.getrandbits(8)]))
        if self.chance(10) and m.line:
            place = m.frame(r.choice(m.line).buffer)
            if self.chance(50):
                self.write(place + 2, bytes([r.getrandbits(8)]))
            else:
                self.write(place, self.tx_bytes())

    def segment(self, length):
        """A start and up to so many calls; it ends early where the states part or nothing fits."""
        self.begin()
        stop = self.calls + length
        while self.calls < stop and not self.over:
            m = self.model
            if self.chance(50 if m.wait.startswith(RARE) else 30):
                if self.chance(5):
                    self.wrong_pool()
                elif self.chance(4):
                    self.bad_start()
                    if self.over:
                        return
                else:
                    self.make(self.any_call())
                continue
            busy = 2 * self.busy if m.wait.endswith("-off") else self.busy
            call = (self.chance(busy) and self.line_call()) or self.fitting_call()
            if call is None:
                break
            self.write_frames()
            self.make(call)
        if not self.over:
            self.dump_line()
            self.dump_pool()

    def run(self, calls):
        while self.calls < calls:
            self.segment(self.random.randrange(5, 90))
        return self.items
