"""The cases of request E1 that the random walks have to meet, and which of them a call is."""

from model import CAPACITY, TAKES, Req

# What is behind a colon is refused with the number before it; the others are accepted.
ARRIVE = tuple("Arrive, %d wait" % k for k in range(CAPACITY)) + (
    "Arrive of what the wait does not allow", "Arrive with a withdrawn token", "Arrive with a withdrawn buffer",
    "Arrive 6: an unanswered request that has left has the token", "Arrive 6: four wait",
    "Arrive 7: not below n", "Arrive 7: an own buffer", "Arrive 7: of one that has left", "Arrive 7: of one that waits",
    "Arrive 7: four wait", "Arrive 8", "Arrive 8: four wait", "Arrive 8: the token waits",
    "Arrive 12", "Arrive 12: the token waits", "Arrive 13",
)
WITHDRAW = (
    "Withdraw of the only one", "Withdraw of the first", "Withdraw from between", "Withdraw of the last",
    "Withdraw of another Tx, the named one's stop open", "Withdraw of another Tx, the ask after its window open",
    "Withdraw of the once named, as the stop failed", "Withdraw of the once named, the frame's header to come",
    "Withdraw of the once named, later",
    "Withdraw 13: never there", "Withdraw 13: it has left", "Withdraw 13: it was withdrawn",
    "Withdraw 13: the named, its stop open", "Withdraw 13: the named, the ask after its window open",
)
REQUEST = tuple("Request takes number %d" % k for k in range(1, CAPACITY + 1)) + (
    "Request, four wait", "a best-effort Tx passes a Tx at a time", "a best-effort Rx passes an Rx at a time",
    "a best-effort Tx passes an Rx at a time", "a best-effort Rx passes a Tx at a time", "a Tx at a time passes an Rx at a time",
    "the named Tx passes an Rx", "the noted number was another at arrival",
    "an ACK is wanted that was not at arrival", "no ACK is wanted that was at arrival",
    "Request 9: none waits", "Request 9: none that waits is allowed", "Request 5: one waits",
)
NONE = ("None, none waits", "None, what waits is not allowed", "None, four wait that are not allowed", "None 5: one that waits is allowed",
        "None 5: one that waits is allowed, behind one that is not")
OUTBOUND = (
    "OutboundSeen of one behind an Rx", "OutboundSeen 5: none waits", "OutboundSeen 5: only Rx wait", "OutboundSeen 5: another time",
    "OutboundSeen 5: a time for best effort", "OutboundSeen 5: best effort for a time", "OutboundSeen 5: another flag",
    "OutboundSeen 5: another flag, best effort", "OutboundSeen 5: the second Tx",
)
START = ("start empties the line", "a refused start, some wait")
CASES = ARRIVE + WITHDRAW + REQUEST + NONE + OUTBOUND + START


class Cases:
    """Which of the cases each call is, asked before it is made; keeps what has become of requests since the start."""

    def __init__(self):
        self.forget()

    def forget(self):
        self.withdrawn = []     # requests
        self.at_arrival = {}    # by token: what would have been noted of those that wait
        self.once = None        # the Tx that OutboundSeen named last and that was not taken

    def of(self, m, call, refusal):
        return list(getattr(self, call[0], self.other)(m, call, refusal))

    def other(self, m, call, refusal):
        return ()

    def start(self, m, call, refusal):
        if m.line:
            yield "a refused start, some wait" if refusal else "start empties the line"
        if not refusal:
            self.forget()

    def arrive(self, m, call, refusal):
        token, buffer, four = call[1], call[4], len(m.line) == CAPACITY
        waits = m.waiting(token) is not None
        if refusal == 6:
            yield "Arrive 6: an unanswered request that has left has the token"
        if refusal == 7:
            yield ("Arrive 7: not below n" if buffer >= m.n else "Arrive 7: an own buffer" if buffer in (m.ack, m.spare)
                   else "Arrive 7: of one that has left" if any(q.buffer == buffer for q in m.open) else "Arrive 7: of one that waits")
        if refusal in (6, 7, 8) and four:
            yield "Arrive %d: four wait" % refusal
        if refusal == 8:
            yield "Arrive 8"
            if waits:
                yield "Arrive 8: the token waits"
        if refusal == 12:
            yield "Arrive 12"
            if waits:
                yield "Arrive 12: the token waits"
        if refusal == 13:
            yield "Arrive 13"
        if not refusal:
            yield from self.arrived(m, call)

    def arrived(self, m, call):
        yield "Arrive, %d wait" % len(m.line)
        q = Req(call)
        if m.wait in TAKES and not m.allows(q):
            yield "Arrive of what the wait does not allow"
        if any(w.token == q.token for w in self.withdrawn):
            yield "Arrive with a withdrawn token"
        if any(w.buffer == q.buffer for w in self.withdrawn):
            yield "Arrive with a withdrawn buffer"
        self.at_arrival[q.token] = m.noted(q)[0]

    def withdraw(self, m, call, refusal):
        token = call[1]
        q = m.waiting(token)
        where = {"stop-outbound": "stop", "ask-window": "ask after its window"}.get(m.wait)
        if refusal == 13:
            if q is not None:
                yield "Withdraw 13: the named, %s open" % ("its stop" if where == "stop" else "the ask after its window")
            elif any(w.token == token for w in m.open):
                yield "Withdraw 13: it has left"
            elif any(w.token == token for w in self.withdrawn):
                yield "Withdraw 13: it was withdrawn"
            else:
                yield "Withdraw 13: never there"
        if refusal:
            return
        place, last = m.line.index(q), len(m.line) - 1
        yield "Withdraw " + ("of the only one" if not last else "of the first" if not place else "of the last" if place == last
                             else "from between")
        if where and q.direction == "tx":
            yield "Withdraw of another Tx, the %s open" % ("named one's stop" if where == "stop" else where)
        if self.once is q:
            places = {"listening": "as the stop failed", "header": "the frame's header to come"}
            yield "Withdraw of the once named, " + places.get(m.wait, "later")
        self.withdrawn.append(q)

    def stopped(self, m, call, refusal):
        if not refusal and m.wait == "stop-outbound" and call[1] != "ended":
            self.once = m.named
        return ()

    def request(self, m, call, refusal):
        if refusal == 9:
            yield "Request 9: none that waits is allowed" if m.line else "Request 9: none waits"
        if refusal == 5 and m.line:
            yield "Request 5: one waits"
        if refusal:
            return
        q = m.leaving()
        yield "Request takes number %d" % (m.line.index(q) + 1)
        if len(m.line) == CAPACITY:
            yield "Request, four wait"
        for p in m.line[:m.line.index(q)]:
            yield from self.passes(m, q, p)
        before, now = self.at_arrival[q.token], m.noted(q)[0]
        if None not in (before, now) and before != now:
            yield "the noted number was another at arrival"
        if before is None and now is not None:
            yield "an ACK is wanted that was not at arrival"
        if before is not None and now is None:
            yield "no ACK is wanted that was at arrival"

    def passes(self, m, q, p):
        """One that leaves passes one before it."""
        name = {"tx": "Tx", "rx": "Rx"}
        if m.wait == "ask-window":
            yield "the named Tx passes an Rx"
        elif q.start is None:
            yield "a best-effort %s passes %s %s at a time" % (name[q.direction], "a" if p.direction == "tx" else "an", name[p.direction])
        else:
            yield "a Tx at a time passes an Rx at a time"

    def none(self, m, call, refusal):
        q = m.leaving()
        if refusal == 5 and q is not None:
            yield "None 5: one that waits is allowed" + ("" if q is m.line[0] else ", behind one that is not")
        if not refusal:
            yield "None, what waits is not allowed" if m.line else "None, none waits"
            if len(m.line) == CAPACITY:
                yield "None, four wait that are not allowed"

    def outbound(self, m, call, refusal):
        q, (start, check) = m.earliest_tx(), call[1:]
        if not refusal and m.line[0] is not q:
            yield "OutboundSeen of one behind an Rx"
        if refusal != 5 or m.wait != "listening":
            return
        if q is None:
            yield "OutboundSeen 5: only Rx wait" if m.line else "OutboundSeen 5: none waits"
            return
        if check == q.check:
            yield "OutboundSeen 5: " + ("a time for best effort" if q.start is None else "best effort for a time" if start is None
                                        else "another time")
        elif start == q.start:
            yield "OutboundSeen 5: another flag" + (", best effort" if start is None else "")
        if any((p.start, p.check) == (start, check) for p in m.line if p.direction == "tx"):
            yield "OutboundSeen 5: the second Tx"
