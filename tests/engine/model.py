"""Document 01, with requests E1, E4 and E6, as a plain model, one wait to a name: what a call does to it, with the number of the
refusal.

Written from their sentences (quoted in the comments). It shares nothing with the Rattle engine and its definitions.
Held tokens and buffers are kept as the book of document 01 keeps them, not read off the wait; so is what waits in the line.
"""

TOP = (1 << 64) - 1
POOL = 4752
# Request E1: "`DRIVER_CHANNEL_CAPACITY` is 4".
CAPACITY = 4

# Which calls fit a wait, and with which outcome kinds. Request E1: "Requests arrive and may be withdrawn by token in every wait": of
# these two nothing stands here.
RX = ("frame", "ended", "crc")
ACK = ("frame", "crc")  # "and "window ended" does not fit"
FITS = {
    "idle": {"request": None},
    "off-tx": {"entered": ("off",), "fallback": ("off",)},
    "off-rx": {"entered": ("off",)},
    "listening": {"framestart": None, "outbound": None},
    "stop-frame": {"stopped": ("frame",)},
    "stop-outbound": {"stopped": ("frame", "ended", "failed")},
    "ask-window": {"request": None},
    "header": {"header": None},
    "rearm": {"entered": RX},
    "ack-turn": {"entered": RX, "rollback": None},
    "ask-rx": {"request": None, "none": None},
    "rx-tx": {"entered": RX, "fallback": RX},
    "rx-rx": {"entered": RX},
    "rx-off": {"entered": RX, "rollback": None},
    "ack-wait": {"entered": ("sent",)},
    "stop-ack": {"stopped": ("frame", "ended", "failed")},
    "stop-ack-again": {"stopped": ("frame", "ended")},
    "ask-ack-window": {"request": None, "none": None},
    "ask-ack": {"request": None, "none": None},
    "ackrx-tx": {"entered": ACK, "fallback": ACK},
    "ackrx-rx": {"entered": ACK},
    "ackrx-off": {"entered": ACK},
    "ask-tx": {"request": None, "none": None},
    "tx-tx": {"entered": ("sent",), "fallback": ("sent",)},
    "tx-rx": {"entered": ("sent",)},
    "tx-off": {"entered": ("sent",)},
    "ask-acktx": {"request": None, "none": None},
    "acktx-tx": {"entered": ("sent",), "fallback": ("sent",)},
    "acktx-rx": {"entered": ("sent",)},
    "acktx-off": {"entered": ("sent",)},
}
WAITS = tuple(FITS)
LINE_CALLS = ("arrive", "withdraw")

# What a wait that asks allows: which of Tx at a time, Rx best effort, Rx at a time (Tx best effort it allows always).
TAKES = {
    "idle": (True, True, True),
    "ask-window": (True, False, False),
    "ask-rx": (True, True, False),
    "ask-ack-window": (True, True, False),
    "ask-ack": (True, True, False),
    "ask-tx": (False, True, False),
    "ask-acktx": (False, True, False),
}


# The waits in which the Tx that OutboundSeen named is named still: "its stop or the ask after its window ended still open" (E1).
NAMED = ("stop-outbound", "ask-window")
# How many can wait in each wait.
WAITING = tuple((wait, k) for wait in WAITS for k in range(1 if wait in NAMED else 0, CAPACITY + 1))


class Req:
    """A request from its arrival to its answer; the two numbers are noted when it leaves the line."""
    __slots__ = ("token", "direction", "start", "buffer", "length", "check", "number", "number_in_rust")

    def __init__(self, call):
        """As it arrives."""
        _, self.token, self.direction, self.start, self.buffer = call[:5]
        self.length, self.check = call[5:] if self.direction == "tx" else (0, 0)
        self.number = self.number_in_rust = None

    def call(self):
        """Its arrival."""
        head = ("arrive", self.token, self.direction, self.start, self.buffer)
        return head + (self.length, self.check) if self.direction == "tx" else head

    def bytes(self):
        """Its record of 24 bytes (docs/LAYOUTS.md, "The line's 96 bytes")."""
        kind = 1 if self.direction == "tx" else 2
        start = 0 if self.start is None else 1
        return (bytes((kind, start, self.check, self.buffer)) + self.token.to_bytes(4, "little")
                + (self.start or 0).to_bytes(8, "little") + self.length.to_bytes(2, "little") + bytes(6))


def settings_refusal(call, pool_length):
    _, n, h, t, f, _, _, _, ack, spare, _ = call
    if not 3 <= n <= 32 or pool_length != 144 * n:
        return 2
    if h > 8 or t > 8 or f not in (2, 4):
        return 3
    if ack == spare or ack >= n or spare >= n:
        return 4
    return 0


def well_formed(control):
    return control & 7 <= 3 and control >> 12 & 3 <= 2 and control >> 10 & 3 != 1 and control >> 14 != 1


def suppressed(control):
    return control >> 12 & 3 == 2 and control >> 8 & 1 == 1


def pans(control):
    """Whether a destination PAN and a source PAN stand in the header."""
    dst, src, bit6 = control >> 10 & 3, control >> 14 & 3, control >> 6 & 1
    if control >> 12 & 3 < 2:
        return dst != 0, src != 0 and not (dst != 0 and bit6)
    if not dst and not src:
        return bool(bit6), False
    if not dst or not src:
        return bool(dst) and not bit6, bool(src) and not bit6
    if dst == 3 and src == 3:
        return not bit6, False
    return True, not bit6


SIZE = (0, 0, 2, 8)


def header_length(control):
    dst_pan, src_pan = pans(control)
    return ((2 if suppressed(control) else 3) + 2 * dst_pan + SIZE[control >> 10 & 3] + 2 * src_pan
            + SIZE[control >> 14 & 3])


class Model:
    def __init__(self):
        self.pool = bytearray(POOL)
        self.lent = 0
        self.set = ("start", 0, 0, 0, 0, 0, 0, 0, 0, 0, 0)
        self.wait = "idle"
        self.data = ()
        self.open = []      # unanswered requests that have left the line
        self.line = []      # those that wait, in the order of their arrival
        self.named = None   # the Tx that the last OutboundSeen named
        self.spare = 0

    # -- settings

    def start(self, call):
        refusal = settings_refusal(call, call[10])
        if refusal:
            return refusal, None, ()
        self.set = call
        self.n, self.h, self.f, self.ack, self.spare = call[1], call[2], call[4], call[8], call[9]
        self.lent = call[10]
        self.wait, self.data, self.open = "idle", (), []
        self.line, self.named = [], None    # "Start empties it." (E1)
        at = self.frame(self.ack)
        self.pool[at:at + 3] = b"\x02\x10\x00"
        return 0, ("idle",), ()

    def frame(self, buffer):
        return 144 * buffer + self.h

    def other(self, call):
        """Records that are no calls; the text that is printed."""
        what = call[0]
        if what == "pool":
            data = call[2][:max(0, POOL - call[1])]
            self.pool[call[1]:call[1] + len(data)] = data
        elif what == "clear":
            self.pool[:] = bytes(POOL)
        elif what == "lend":
            self.lent = call[1]

    # -- the book

    def held(self):
        """Request E1: "A waiting request's buffer is held from arrival and counts in the held total; withdrawal frees it"."""
        return {self.ack, self.spare} | {q.buffer for q in self.open + self.line}

    def answer(self, q, what, *rest):
        self.open.remove(q)
        return (q.token, what, q.buffer) + rest

    def received(self, q, result):
        """The receive answer made from a receive result. Request E6: 'The receive results "frame" and "CRC error" gain the
        standard's link quality, one byte, and the receive answers made from them, no others, carry it unaltered.'"""
        if result[0] == "frame":
            _, length, time, quality = result
            return self.answer(q, "frame", length, time, quality)
        if result[0] == "crc":
            _, time, quality = result
            return self.answer(q, "crc", time, quality)
        return self.answer(q, "ended")

    # -- refusals

    def refusal(self, call):
        wrong = settings_refusal(self.set[:9] + (self.spare,) + self.set[10:], min(self.lent, POOL))
        if wrong:
            return wrong
        what = call[0]
        if what in LINE_CALLS:
            return self.arrive_refusal(call) if what == "arrive" else self.withdraw_refusal(call[1])
        fits = FITS[self.wait]
        if what not in fits:
            return 5
        kinds = fits[what]
        if what == "request":
            # "a Request, now without fields, that finds none such is 9" (E1)
            return 0 if self.leaving() else 9
        if what == "none":
            # "where a wait takes None, it now fits exactly if the line holds no such arrival" (E1)
            return 5 if self.leaving() else 0
        if what == "outbound":
            return 0 if self.is_seen(*call[1:]) else 5
        if what == "stopped":
            if call[1] not in kinds:
                return 5
            if call[1] == "ended":
                return self.length_refusal(call[2])
        elif what in ("entered", "fallback"):
            if call[1][0] not in kinds:
                return 5
            if self.length_refusal(call[1]):
                return 10
            if self.wait == "ack-wait" and call[2] + 10000 > TOP:
                return 11
        elif what == "header" and call[1] > 127 - self.f:
            return 10
        return 0

    def length_refusal(self, result):
        return 10 if result[0] == "frame" and not 1 <= result[1] <= 127 - self.f else 0

    def arrive_refusal(self, call):
        """Document 01's 6 to 8, as request E1 has them: "6 is for arrivals only and looks at requests that have left the line",
        "A waiting request's buffer is held from arrival", "Arrival skips 9"; then "12 for an arrival when four wait; 13 when the token
        already waits ..; both after 8"."""
        token, direction, _, buffer = call[1:5]
        if any(q.token == token for q in self.open):
            return 6
        if buffer >= self.n or buffer in self.held():
            return 7
        if direction == "tx" and not 3 <= call[5] <= 127 - self.f:
            return 8
        if len(self.line) == CAPACITY:
            return 12
        return 13 if self.waiting(token) else 0

    def withdraw_refusal(self, token):
        """Request E1: "13 when the token .., for a withdrawal, does not [wait] or is the Tx OutboundSeen named, its stop or the ask
        after its window ended still open"."""
        q = self.waiting(token)
        return 13 if q is None or self.wait in NAMED and q is self.named else 0

    # -- the line

    def waiting(self, token):
        """The request that waits with this token, or None."""
        return next((q for q in self.line if q.token == token), None)

    def allows(self, q):
        """Whether the wait, which asks, allows a request's direction and start."""
        timed_tx, rx, timed_rx = TAKES[self.wait]
        if q.direction == "tx":
            return q.start is None or timed_tx
        return rx if q.start is None else timed_rx

    def leaving(self):
        """Request E1: "An ask takes the earliest arrival whose direction and start the wait allows". None where nothing is asked."""
        return next((q for q in self.line if self.allows(q)), None) if self.wait in TAKES else None

    def earliest_tx(self):
        return next((q for q in self.line if q.direction == "tx"), None)

    def is_seen(self, start, check):
        """Request E1: "OutboundSeen fits only with the start and flag of its earliest Tx"."""
        q = self.earliest_tx()
        return q is not None and (q.start, q.check) == (start, check)

    def line_bytes(self):
        """The line's 96 bytes: a record for each that waits; free ones come last and are all 0."""
        return b"".join(q.bytes() for q in self.line).ljust(24 * CAPACITY, b"\0")

    # -- accepted calls

    def step(self, call):
        """(refusal, action, answers)"""
        refusal = self.refusal(call)
        if refusal:
            return refusal, None, ()
        action, answers = getattr(self, call[0])(call)
        return 0, action, answers

    def go(self, wait, *data):
        self.wait, self.data = wait, data

    def arrive(self, call):
        """No action for the radio, and no answer; the wait stays."""
        self.line.append(Req(call))
        return ("nothing",), ()

    def withdraw(self, call):
        self.line.remove(self.waiting(call[1]))
        return ("nothing",), ()

    def noted(self, q):
        """The number that is noted of a Tx frame whose bytes stand in the pool now, and the one that the Rust notes; None where no
        ACK is wanted. "A Tx frame wants an ACK if its control at acceptance has bit 5 and its number is not suppressed", to whomever
        it goes; request E1: "Acceptance, where it says when a Tx frame's bytes are noted, is leaving."."""
        at = self.frame(q.buffer)
        control = self.pool[at] | self.pool[at + 1] << 8
        if q.direction == "rx" or not control >> 5 & 1:
            return None, None
        number = self.pool[at + 2]
        return None if suppressed(control) else number, None if control >> 8 & 1 else number

    def leave_line(self):
        """6, 7 and 8 are not tested again: "on leaving the buffer is no ground for 7" (E1)."""
        q = self.leaving()
        self.line.remove(q)
        q.number, q.number_in_rust = self.noted(q)
        self.open.append(q)
        return q

    def spacing(self, length):
        return "short" if length <= 18 else "long"

    def request(self, call):
        wait, data = self.wait, self.data
        answers, spacing, prefix, left = (), "none", "off", ()
        if wait == "ask-window":
            answers = (self.answer(data[0], "ended"),)
        elif wait == "ask-ack-window":
            answers = (self.answer(data[0], "nack", data[1]),)
        elif wait == "ask-rx":
            prefix, left, spacing = "rx", (data[0],), data[1]
        elif wait == "ask-ack":
            prefix, left, spacing = "ackrx", data, self.spacing(data[0].length + self.f)
        elif wait == "ask-tx":
            prefix, left, spacing = "tx", data, self.spacing(data[0].length + self.f)
        elif wait == "ask-acktx":
            prefix, left, spacing = "acktx", (), data[0]
        q = self.leave_line()
        self.go("%s-%s" % (prefix, q.direction), left, q)
        if q.direction == "tx":
            return ("tx", q.buffer, q.length, q.check, q.start, spacing, 0), answers
        return ("rx", q.buffer, q.start, spacing, 0), answers

    def none(self, call):
        wait, data = self.wait, self.data
        if wait == "ask-ack-window":
            self.go("idle")
            return ("idle",), (self.answer(data[0], "nack", data[1]),)
        if wait == "ask-rx":
            self.go("rx-off", (data[0],), None)
            return ("off", 1), ()
        prefix = {"ask-ack": "ackrx", "ask-tx": "tx", "ask-acktx": "acktx"}[wait]
        self.go(prefix + "-off", () if prefix == "acktx" else data, None)
        return ("off", 0), ()

    def framestart(self, call):
        self.go("stop-frame", *self.data)
        return ("stop", "none"), ()

    def outbound(self, call):
        self.named = self.earliest_tx()
        self.go("stop-outbound", *self.data)
        return (("stop", "none") if call[1] is None else ("stop", "before", call[1], call[2])), ()

    def stopped(self, call):
        wait, data, how = self.wait, self.data, call[1]
        if wait in ("stop-frame", "stop-outbound"):
            if how == "frame":
                self.go("header", *data)
                return ("header",), ()
            if how == "failed":
                self.go("listening", *data)
                return ("listen",), ()
            self.go("ask-window", *data)
            return ("ask", "outbound"), ()
        if how == "failed":
            self.go("stop-ack-again", *data)
            return ("stop", "none"), ()
        self.go("ask-ack" if how == "frame" else "ask-ack-window", *data)
        return ("ask", "any"), ()

    def destination(self, buffer, arrived):
        """(control, destination PAN or None, mode, address); None unless control is well formed and addressing is there."""
        at = self.frame(buffer)
        bytes_ = self.pool[at:at + arrived]
        if arrived < 2:
            return None
        control = bytes_[0] | bytes_[1] << 8
        if not well_formed(control) or arrived < header_length(control):
            return None
        pan, place = None, 2 if suppressed(control) else 3
        if pans(control)[0]:
            pan = bytes_[place] | bytes_[place + 1] << 8
            place += 2
        mode = control >> 10 & 3
        return control, pan, mode, int.from_bytes(bytes_[place:place + SIZE[mode]], "little")

    def for_us(self, arrived):
        """(for us, the number that comes with a request bit or None, a broadcast in the sense of E4)"""
        buffer = self.data[0].buffer
        facts = self.destination(buffer, arrived)
        if facts is None:
            return False, None, False
        control, pan, mode, address = facts
        hardware = self.set[5]
        if pan not in (None, self.set[6], 0xFFFF):
            ours = False
        elif mode == 0:
            ours = bool(self.set[7])
        elif mode == 2:
            ours = address == 0xFFFF or address == hardware & 0xFFFF
        else:
            ours = address == hardware
        if not ours:
            return False, None, False
        number = None
        if control >> 5 & 1 and not suppressed(control):
            number = self.pool[self.frame(buffer) + 2]
        # The destination address decides, not its PAN: "short FFFF, or which passed by implicit broadcast" (E4).
        return True, number, mode == 0 or mode == 2 and address == 0xFFFF

    def header(self, call):
        q = self.data[0]
        ours, number, broadcast = self.for_us(call[1])
        if not ours:
            self.go("rearm", q)
            return ("rx", self.spare, None, "none", 0), ()
        # Document 01: "For us with request bit and sequence number: write it in the ACK frame, send it, rollback on. Else ask, any
        # direction." Request E4: "From now on a frame for us whose destination is short FFFF, or which passed by implicit
        # broadcast, is received without an ACK turn."
        if number is None or broadcast:
            self.go("ask-rx", q, self.spacing(call[2]))
            return ("ask", "any"), ()
        self.pool[self.frame(self.ack) + 2] = number
        self.go("ack-turn", q, self.spacing(call[2]))
        return ("tx", self.ack, 3, 0, None, "ack", 1), ()

    def leave(self, result):
        """The answers that leaving the present task owes."""
        kind, left = self.wait.split("-")[0], self.data[0]
        if kind in ("off", "acktx"):
            return ()
        if kind == "rx":
            return (self.received(left[0], result),)
        if kind == "tx":
            return (self.answer(left[0], "sent", result[1]),)
        q, time = left
        at = self.frame(self.spare)
        seen = self.pool[at:at + 3]
        control = seen[0] | seen[1] << 8
        right = result[0] == "frame" and result[1] == 3 and control & 0xEFFF == 2 and seen[2] == q.number
        return (self.answer(q, "sent" if right else "nack", time),)

    def entered(self, call):
        wait, data, result = self.wait, self.data, call[1]
        if wait == "rearm":
            q = data[0]
            q.buffer, self.spare = self.spare, q.buffer
            self.go("listening", q)
            return ("listen",), ()
        if wait == "ack-turn":
            answers = (self.received(data[0], result),)
            self.go("ask-acktx", data[1])
            return ("ask", "any"), answers
        if wait == "ack-wait":
            self.go("stop-ack", data[0], result[1])
            return ("stop", "at", call[2] + 10000), ()
        answers, q = self.leave(result), data[1]
        if q is None:
            self.go("idle")
            return ("idle",), answers
        if q.direction == "rx":
            self.go("listening", q)
            return ("listen",), answers
        if q.number is None:
            self.go("ask-tx", q)
            return ("ask", "any"), answers
        self.go("ack-wait", q)
        return ("rx", self.spare, None, "ack", 0), answers

    def fallback(self, call):
        answers, q, cause = self.leave(call[1]), self.data[1], call[2]
        error = self.answer(q, "error-task") if cause[0] == "task" else self.answer(q, "error-sched", cause[1])
        self.go("idle")
        return ("idle",), answers + (error,)

    def rollback(self, call):
        q = self.data[0][0] if self.wait == "rx-off" else self.data[0]
        self.go("listening", q)
        return ("listen",), ()
