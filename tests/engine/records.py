"""Calls and replies in three forms: tuples, the oracle's script language, and the records and lines of the replay programs.

docs/REPLAY-FORMAT.md has the records and lines, ../shared/oracle/README.md the script language, and docs/WALK.md what it has more
here. The tuples:

    ("start", n, headroom, tailroom, checksum, hardware, pan, implicit, ack, spare, pool length)
    ("pool", place, bytes)  ("clear",)  ("lend", pool length)  ("dump", place)  ("line", place)  ("ack",)
    ("arrive", token, "tx", start, buffer, length, check)  ("arrive", token, "rx", start, buffer)
    ("withdraw", token)  ("request",)  ("none",)  ("framestart",)
    ("outbound", start, check)  ("stopped", "frame")  ("stopped", "ended", rx result)  ("stopped", "failed")
    ("header", arrived, length)  ("entered", result, entry)  ("fallback", result, cause)  ("rollback",)

A start is None (best effort) or a time. An rx result is ("frame", length, time, quality), ("ended",) or ("crc", time, quality);
a result is one of these, ("off",) or ("sent", time); a cause is ("sched", start) or ("task",).

A reply is (refusal, action, answers): actions and answers are tuples with the words of the script language, flags as 0 or 1,
without the channel-check flag of error-sched. The action of an accepted call on the line is ("nothing",). The answers "frame" and
"crc" have their quality last. The oracle has no word for a quality: to_script leaves it out where its quality is False, and one that
is not written is read as 0. Nor has it a line: what it is asked is the request that its queue hands over (to_oracle).
"""

KINDS = {
    "start": "s", "pool": "w", "clear": "z", "lend": "l", "dump": "d", "line": "L", "ack": "a", "arrive": "A", "withdraw": "W",
    "request": "q", "none": "n", "framestart": "f", "outbound": "o", "stopped": "p", "header": "h", "entered": "e",
    "fallback": "b", "rollback": "r",
}
CALLS = ("arrive", "withdraw", "request", "none", "framestart", "outbound", "stopped", "header", "entered", "fallback", "rollback")
SILENT = ("pool", "clear", "lend")
LINE_BYTES = 96
# The calls that tell a result. Field c of their records has a quality, or is not used.
TELLING = ("stopped", "entered", "fallback")
# How many parts a result and an answer have, the word and the quality among them.
RESULT_PARTS = {"off": 1, "sent": 2, "frame": 4, "ended": 1, "crc": 3}
ANSWER_PARTS = {"sent": 4, "nack": 4, "error-sched": 4, "error-task": 3, "frame": 6, "ended": 3, "crc": 5}


def has_quality(what):
    """Of a result's word or an answer's. Request E6: 'The receive results "frame" and "CRC error" .. and the receive answers made
    from them, no others'."""
    return what in ("frame", "crc")


def result_of(call):
    """The result that a call tells, or None."""
    if call[0] == "stopped":
        return call[2] if call[1] == "ended" else None
    return call[1] if call[0] in ("entered", "fallback") else None


def quality_of(result):
    """The quality that a result has, or None."""
    return result[-1] if result is not None and has_quality(result[0]) else None


# ---------------------------------------------------------------- records

def record(kind, a=0, b=0, c=0, d=0, e=0, x="-", y="-", z=0, w="-"):
    return "%s %08x %04x %04x %016x %016x %s %s %d %s \n" % (kind, a, b, c, d, e, x, y, z, w)


def result_fields(result):
    """The code, length and time of a result."""
    what = result[0]
    if what == "frame":
        return "f", result[1], result[2]
    if what == "sent":
        return "s", 0, result[1]
    if what == "crc":
        return "c", 0, result[1]
    return ("o" if what == "off" else "w"), 0, 0


def to_record(call, unused=0):
    """A call, or any other record, as 64 characters. Where field c of a call that tells a result is not used, it is `unused`."""
    what = call[0]
    kind = KINDS[what]
    if what in TELLING:
        quality = quality_of(result_of(call))
        c = unused if quality is None else unused & 0xFF00 | quality
    if what == "entered":
        w, b, d = result_fields(call[1])
        return record(kind, b=b, c=c, d=d, e=call[2], w=w)
    if what == "arrive":
        _, token, direction, start, buffer = call[:5]
        y, d = ("b", 0) if start is None else ("t", start)
        if direction == "rx":
            return record(kind, token, 0, buffer, d, x="r", y=y)
        return record(kind, token, call[5], buffer, d, x="t", y=y, z=call[6])
    if what == "pool":
        data = call[2]
        assert len(data) <= 16
        padded = (data + bytes(16 - len(data))).hex()
        return record(kind, call[1], len(data), 0, int(padded[:16], 16), int(padded[16:], 16))
    if what == "stopped":
        if call[1] == "ended":
            w, b, d = result_fields(call[2])
            return record(kind, b=b, c=c, d=d, x="e", w=w)
        return record(kind, c=c, x="f" if call[1] == "frame" else "x")
    if what == "header":
        return record(kind, b=call[1], c=call[2])
    if what == "fallback":
        w, b, d = result_fields(call[1])
        if call[2][0] == "task":
            return record(kind, b=b, c=c, d=d, x="t", w=w)
        start = call[2][1]
        y, e = ("b", 0) if start is None else ("t", start)
        return record(kind, b=b, c=c, d=d, e=e, x="s", y=y, w=w)
    if what == "outbound":
        y, d = ("b", 0) if call[1] is None else ("t", call[1])
        return record(kind, d=d, y=y, z=call[2])
    if what == "start":
        _, n, h, t, f, hardware, pan, implicit, ack, spare, length = call
        return record(kind, (n << 24) | (h << 16) | (t << 8) | f, (ack << 8) | spare, pan, length, hardware, z=implicit)
    if what == "lend":
        return record(kind, d=call[1])
    if what in ("dump", "line", "withdraw"):
        return record(kind, call[1])
    return record(kind)


def from_record(text):
    """The tuple of a record."""
    kind, a, b, c, d, e, x, y, z, w = text.split()
    a, b, c, d, e, z = int(a, 16), int(b, 16), int(c, 16), int(d, 16), int(e, 16), int(z)
    rx = {"f": ("frame", b, d, c & 255), "w": ("ended",), "c": ("crc", d, c & 255)}
    result = {"o": ("off",), "s": ("sent", d), **rx}
    what = {v: k for k, v in KINDS.items()}[kind]
    if what == "start":
        return (what, a >> 24, a >> 16 & 255, a >> 8 & 255, a & 255, e, c, z, b >> 8, b & 255, d)
    if what == "pool":
        return (what, a, bytes.fromhex("%016x%016x" % (d, e))[:b])
    if what == "lend":
        return (what, d)
    if what in ("dump", "line", "withdraw"):
        return (what, a)
    if what == "arrive":
        start = d if y == "t" else None
        return (what, a, "tx", start, c, b, z) if x == "t" else (what, a, "rx", start, c)
    if what == "outbound":
        return (what, d if y == "t" else None, z)
    if what == "stopped":
        return (what, "frame") if x == "f" else (what, "failed") if x == "x" else (what, "ended", rx[w])
    if what == "header":
        return (what, b, c)
    if what == "entered":
        return (what, result[w], e)
    if what == "fallback":
        return (what, result[w], ("task",) if x == "t" else ("sched", e if y == "t" else None))
    return (what,)


def unused_of(text):
    """What field c of a record holds, for to_record, where the call tells a result; else 0."""
    return int(text.split()[3], 16) if text[0] in [KINDS[what] for what in TELLING] else 0


# ---------------------------------------------------------------- lines

WIDTH = 121     # of a line, without its end

SPACING = {"none": "n", "ack": "a", "short": "s", "long": "l"}
ANSWER = {"sent": "s", "nack": "n", "error-sched": "e", "error-task": "t", "frame": "f", "ended": "w", "crc": "c"}
NO_ACTION = "%s 00 0000 %d - %016x - 0"
NO_ANSWER = "- 00000000 00 0000 - 0000000000000000 00"


def action_text(action):
    what = action[0]
    if what == "tx":
        _, buffer, length, check, start, spacing, rollback = action
        return "T %02x %04x %d %s %016x %s %d" % (
            buffer, length, check, "b" if start is None else "t", start or 0, SPACING[spacing], rollback)
    if what == "rx":
        _, buffer, start, spacing, rollback = action
        return "R %02x 0000 0 %s %016x %s %d" % (
            buffer, "b" if start is None else "t", start or 0, SPACING[spacing], rollback)
    if what == "off":
        return "O 00 0000 0 - 0000000000000000 - %d" % action[1]
    if what == "stop":
        how = action[1]
        if how == "none":
            return NO_ACTION % ("s", 0, 0)
        if how == "at":
            return NO_ACTION % ("t", 0, action[2])
        return NO_ACTION % ("b", action[3], action[2])
    if what == "ask":
        return NO_ACTION % ("q" if action[1] == "any" else "o", 0, 0)
    return NO_ACTION % ("-" if what == "nothing" else what[0], 0, 0)


def answer_text(answer):
    token, what, buffer = answer[:3]
    assert len(answer) == ANSWER_PARTS[what], answer
    length, start, time, quality = 0, "-", 0, 0
    if what == "frame":
        length, time, quality = answer[3:]
    elif what == "crc":
        time, quality = answer[3:]
    elif what == "error-sched":
        start, time = ("b", 0) if answer[3] is None else ("t", answer[3])
    elif what in ("sent", "nack"):
        time = answer[3]
    return "%s %08x %02x %04x %s %016x %02x" % (ANSWER[what], token, buffer, length, start, time, quality)


def to_line(kind, refusal, action, answers):
    """The line that a replay program prints for a call of this kind: 122 characters."""
    if refusal:
        return "%s %02x - 00 0000 0 - 0000000000000000 - 0 %s %s\n" % (kind, refusal, NO_ANSWER, NO_ANSWER)
    texts = [answer_text(a) for a in answers] + [NO_ANSWER, NO_ANSWER]
    return "%s 00 %s %s %s\n" % (kind, action_text(action), texts[0], texts[1])


def with_qualities(line, first, second):
    """A call's line with these two digits each for the qualities of its two answers."""
    return line[:78] + first + line[80:119] + second + line[121:]


def quality_aside(line):
    """A call's line as it is compared with the Rust, which has no qualities."""
    return with_qualities(line, "--", "--")


def bytes_line(kind, place, data):
    return ("%s %08x %s" % (kind, place, data.hex())).ljust(WIDTH) + "\n"


def dump_line(pool, place):
    data = bytes(pool[place:place + 48])
    return bytes_line("d", place, data + bytes(48 - len(data)))


def ack_line(pool, place):
    return bytes_line("a", place, bytes(pool[place:place + 3]))


def line_line(line, place):
    """What is printed of the waiting line's 96 bytes."""
    data = bytes(line[place:place + 48])
    return bytes_line("L", place, data + bytes(48 - len(data)))


# ---------------------------------------------------------------- the oracle's language

def start_word(start):
    return "best" if start is None else str(start)


def result_word(result, quality):
    parts = result if quality or not has_quality(result[0]) else result[:-1]
    return ":".join(str(part) for part in parts)


def to_script(call, quality=True):
    """A call as a line of a script, with its result's quality or, as the oracle has it, without. Records that the oracle has no
    word for are words of WALK.md only."""
    what = call[0]
    if what == "entered":
        return "entered %s %d" % (result_word(call[1], quality), call[2])
    if what == "arrive":
        if call[2] == "rx":
            return "arrive %d rx %s %d" % (call[1], start_word(call[3]), call[4])
        return "arrive %d tx %s %d %d %d" % (call[1], start_word(call[3]), call[4], call[5], call[6])
    if what == "pool":
        return "pool %d %d %s" % (call[1] // 144, call[1] % 144, call[2].hex())
    if what == "stopped":
        return "stopped ended %s" % result_word(call[2], quality) if call[1] == "ended" else "stopped %s" % call[1]
    if what == "header":
        return "header %d %d" % call[1:]
    if what == "fallback":
        cause = call[2]
        word = "task" if cause[0] == "task" else "sched" if cause[1] is None else "sched:%d" % cause[1]
        return "fallback %s %s" % (result_word(call[1], quality), word)
    if what == "outbound":
        return "outbound %s %d" % (start_word(call[1]), call[2])
    if what == "start":
        text = "start %d %d %d %d %016x %04x %d %d %d" % call[1:10]
        return text if call[10] == 144 * call[1] else "%s pool %d" % (text, call[10])
    if what in ("lend", "dump", "line", "withdraw"):
        return "%s %d" % (what, call[1])
    return what


def to_oracle(call, handed=None):
    """What the oracle is asked for a call: the request that its queue hands over, an arrival's tuple, or else the call itself."""
    if handed is not None:
        return to_script(handed).replace("arrive", "request", 1)
    return "dump" if call[0] in ("dump", "ack") else to_script(call, quality=False)


def word_start(word):
    return None if word == "best" else int(word)


def word_result(word):
    what, *numbers = word.split(":")
    if has_quality(what) and len(numbers) == RESULT_PARTS[what] - 2:
        numbers.append("0")
    if len(numbers) != RESULT_PARTS[what] - 1 or has_quality(what) and not 0 <= int(numbers[-1]) <= 255:
        raise ValueError(word)
    return (what,) + tuple(int(n) for n in numbers)


def from_script(text):
    """The tuples of a line of the script; a pool write of more than 16 bytes gives several, and so does a request with fields, which
    the oracle has: it arrives, is taken, and does not stay if it was not."""
    words = text.split("#")[0].split()
    if not words:
        return []
    what = words[0]
    if what == "start":
        numbers = [int(w) for w in words[1:5]]
        length = int(words[11]) if len(words) > 10 else 144 * numbers[0]
        return [(what, *numbers, int(words[5], 16), int(words[6], 16), *(int(w) for w in words[7:10]), length)]
    if what == "pool":
        place, data = 144 * int(words[1]) + int(words[2]), bytes.fromhex(words[3])
        return pool_writes(place, data)
    if what == "arrive":
        head = (what, int(words[1]), words[2], word_start(words[3]), int(words[4]))
        return [head + (int(words[5]), int(words[6]))] if words[2] == "tx" else [head]
    if what == "request" and len(words) > 1:
        return from_script(text.replace("request", "arrive", 1)) + [("request",), ("withdraw", int(words[1]))]
    if what == "outbound":
        return [(what, word_start(words[1]), int(words[2]))]
    if what == "stopped":
        return [(what, "ended", word_result(words[2]))] if words[1] == "ended" else [(what, words[1])]
    if what == "header":
        return [(what, int(words[1]), int(words[2]))]
    if what == "entered":
        return [(what, word_result(words[1]), int(words[2]))]
    if what == "fallback":
        parts = words[2].split(":")
        cause = ("task",) if parts[0] == "task" else ("sched", int(parts[1]) if len(parts) > 1 else None)
        return [(what, word_result(words[1]), cause)]
    return [(what,) + tuple(int(w) for w in words[1:])]


def pool_writes(place, data):
    return [("pool", place + i, data[i:i + 16]) for i in range(0, len(data), 16)]


def action_of(words):
    what = words[0]
    if what == "tx":
        return (what, int(words[1]), int(words[2]), int(words[3]), word_start(words[4]), words[5], int(words[6]))
    if what == "rx":
        return (what, int(words[1]), word_start(words[2]), words[3], int(words[4]))
    if what == "off":
        assert len(words) == 2, words
        return (what, int(words[1]))
    if what == "stop":
        return (what, words[1]) + tuple(int(w) for w in words[2:])
    return tuple(words)


def answer_of(text):
    words = text.split()
    token, what, buffer = int(words[0]), words[1], int(words[2])
    if what == "error-sched":
        assert len(words) < 6, text     # the flag may follow
        return (token, what, buffer, word_start(words[3]))
    numbers = words[3:]
    if has_quality(what):
        numbers = numbers[:-2] + numbers[-1:] if numbers[-2:-1] == ["q"] else numbers + ["0"]
    return (token, what, buffer) + tuple(int(n) for n in numbers)


def reply_of(text):
    """The reply in a line of the oracle's output: (None, None, ()) for "refused", else (0, action, answers).

    "refused N", with a number, is a word of WALK.md."""
    if text.startswith("refused"):
        words = text.split()
        return (int(words[1]) if len(words) > 1 else None, None, ())
    assert text.startswith("ok "), text
    action, answers = text[3:].split(" | ")
    answers = answers.strip()
    return (0, action_of(action.split()), () if answers == "-" else tuple(answer_of(a) for a in answers.split(" + ")))
