"""Compares the declarations of the exported functions: include/widosha.h, the sources of crates/driver_c and crates/frame_c,
host/src/ffi.rs and the tables of docs/LAYOUTS.md. Names, argument names, their order, widths and results have to agree, and no
function may be missing anywhere. So does whether a slice is only read.

Compares every number that has a name: the header, host/src/ffi.rs, the tables of docs/LAYOUTS.md and the definitions in specs (of
the codes of a call also the code). None may be missing anywhere, and a code that the definitions state and the header does not is a
difference.
Compares the sentence of each refusal: the header, host/src/ffi.rs, docs/LAYOUTS.md and c/widosha_host.h.

    compare.py              compares; a difference is printed and ends with 1
    compare.py --self-test  mutates the text of each declaration, number and sentence, one change at a time, and checks that each
                            change is found
"""
import re
import sys

SOURCES = {
    "header": "include/widosha.h",
    "source": "crates/driver_c/src/lib.rt crates/frame_c/src/lib.rt",
    "host": "host/src/ffi.rs",
    "table": "docs/LAYOUTS.md",
}
# Where numbers and sentences stand beside these. The definitions are what the contracts cite; the code is that of the codes' tables.
BESIDE = {
    "definitions": """crates/abi_version/specs/Version.antt crates/slices/specs/Slices.antt crates/radio_frame/specs/Settings.antt
        crates/info_bytes/specs/Info.antt crates/fcs/specs/Check.antt crates/call_codes/specs/Codes.antt crates/phy/specs/Phy.antt
        crates/reply_bytes/specs/Reply.antt crates/refusals/specs/Refusals.antt crates/call_codes/src/lib.rt
        crates/header/specs/Header.antt crates/service/specs/Service.antt crates/service/specs/Refusals.antt
        crates/service/specs/LineClaims.antt""",
    "helper": "c/widosha_host.h",
}
# Which of them state numbers.
STATING = ("header", "host", "table", "definitions")
# What docs/LAYOUTS.md says of every function in its first table: its slices, in order.
SLICES = r"then four slices in this\s+order: (the state [^.]*)\. "
SLICE = r"the (\w+)\s+\([^)]*\)"
WIDTHS = ("u8", "u16", "u32", "u64")
# In Rattle `result` is what a function returns, so no parameter has that name, and the sources have another.
IN_SOURCE = {"res": "result"}
# How a text gives a name its number. In docs/LAYOUTS.md a row's first or second column is the number, and its last the name.
NAMED = {
    "header": [r"#define WIDOSHA_(?P<name>\w+) (?P<number>\d+)\b", r"\n    WIDOSHA_(?P<name>\w+) = (?P<number>\d+)\b"],
    "host": [r"\npub const (?P<name>\w+): (?:u8|u32|u64|usize) = (?P<number>\d+);"],
    "table": [r"\n\| (?:[a-z_, ]*\| )?(?P<number>\d+) \|[^\n]* \| `WIDOSHA_(?P<name>\w+)` \|(?=\n)"],
}
# Every name in a text, also one that no pattern above reads.
ANY_NAME = {"header": r"\bWIDOSHA_(\w+)\b", "host": r"\bconst (\w+):", "table": r"`WIDOSHA_(\w+)`"}
NO_NUMBER = {"header": ("H", "")}
# What docs/LAYOUTS.md states in its text too.
IN_TEXT = {
    "ABI_VERSION": [r"The version is (\d+)\. "],
    "STATE_LENGTH": [r"the state\s+\((\d+)\s+bytes\)", r"## The state's (\d+) bytes\n"],
    "LINE_LENGTH": [r"the line\s+\((\d+)\s+bytes\)", r"## The line's (\d+) bytes\n"],
    "REPLY_LENGTH": [r"the reply\s+\((\d+)\s+bytes\)", r"## The reply's (\d+) bytes\n"],
    "BUFFER_LENGTH": [r"the pool\s+\((\d+)\s+×\s+n\s+bytes\)"],
    "INFO_LENGTH": [r"the facts\s+\((\d+)\s+bytes\)", r"## The facts' (\d+) bytes\n"],
    "FCS_YES": [r"8 bits: (\d+) yes,"],
    "FCS_NO": [r"8 bits: \d+ yes, (\d+) no,"],
    "FCS_REFUSED": [r"\d+ no, or refusal (\d+) \|"],
}


def action(start):
    return r"action_fields %s = (?:plain_action|action_of) (\d+)\b" % start


def answer(start):
    return r"%s = came_to (\d+) " % start


def refusal(case):
    return r"\nrefusal_number Refusal\.%s = (\d+)\n" % case


# Where the definitions state each number: in every one of these ways.
DEFINED = {
    "ABI_VERSION": [r"\nabi_version_number = (\d+)\n"],
    "STATE_LENGTH": [r"\nslices_fit state line reply = eqb state (\d+) "],
    "LINE_LENGTH": [r"\nslices_fit [^\n]*eqb line (\d+) "],
    "REPLY_LENGTH": [r"\nslices_fit [^\n]*eqb reply (\d+)\)"],
    "BUFFER_LENGTH": [r"\nbuffer_length = (\d+)\n"],
    "INFO_LENGTH": [
        r"number : r ≡ cond \(eqb \(length info\) (\d+)\)",
        r"bytes : info' ≡ cond \(eqb \(length info\) (\d+)\)",
    ],
    "LINE_CAPACITY": [
        r"\(leb (\d+) \(length qs\)\) \(any_passes ",
        r"\(cond \(leb (\d+) \(length qs\)\) 12\n",
        r"at_most_four : length b\.waiting ≤ (\d+)\n",
    ],
    "COUNT_LEAST": [r"\npool_unfit s pool = \(ltb s\.count (\d+) ", r"pub low : (\d+) ≤ s\.count\n"],
    "COUNT_MOST": [r"\npool_unfit s pool = [^\n]* ltb (\d+) s\.count\)", r"pub high : s\.count ≤ (\d+)\n"],
    "FRAME_LENGTH": [r"\nphy_max_packet_size = (\d+)\n", r"\nunfit_length frame = [^\n]* ltb (\d+) \(length frame\)\n"],
    "HEADER_LENGTH": [r"\(header_length fc ≤ (\d+)\)", r"pub at_most : end ≤ (\d+)\n"],
    "ACK_WAIT_NANOSECONDS": [
        r"\nlatest_ack_start_of entry = cond \(ltb \(entry \+ (\d+)\)",
        r"\(Some \(entry \+ (\d+)\)\) None\n",
    ],
    "FCS_YES": [r"\ncheck_number \(Ok true\) = (\d+)\n"],
    "FCS_NO": [r"\ncheck_number \(Ok false\) = (\d+)\n"],
    "FCS_REFUSED": [r"cond \(unfit_length frame\) (\d+) ", refusal("FrameLength")],
    "DIRECTION_TX": [
        r"(\d+) => Some\(Task::Tx\(",
        r"\narrival_numbers q \(Task\.Tx [^\n]*\n    ExportedCall\.Arrive q\.token (\d+) ",
    ],
    "DIRECTION_RX": [r"(\d+) => Some\(Task::Rx\)", r"\narrival_numbers q Task\.Rx = ExportedCall\.Arrive q\.token (\d+) "],
    "START_BEST_EFFORT": [r"(\d+) => Some\(Timestamp::BestEffort\)", r"\nstart_code Timestamp\.BestEffort = (\d+)\n"],
    "START_AT": [r"(\d+) => Some\(Timestamp::Scheduled\(", r"\nstart_code \(Timestamp\.Scheduled t\) = (\d+)\n"],
    "OUTCOME_FRAME_STARTED": [
        r"(\d+) => Some\(StopResult::FrameStarted\)",
        r"\nstop_numbers StopResult\.FrameStarted = ExportedCall\.Stopped (\d+) ",
    ],
    "OUTCOME_FAILED": [
        r"(\d+) => Some\(StopResult::Failed\)",
        r"\nstop_numbers StopResult\.Failed = ExportedCall\.Stopped (\d+) ",
    ],
    "RESULT_OFF": [r"(\d+) => Some\(TaskResult::Off\)", r"\nresult_numbers make TaskResult\.Off = make (\d+) "],
    "RESULT_SENT": [r"(\d+) => Some\(TaskResult::Sent\(", r"\nresult_numbers make \(TaskResult\.Sent time\) = make (\d+) "],
    "CAUSE_SCHEDULING": [r"(\d+) => Some\(Cause::Scheduling\(Timestamp::BestEffort\)\)"],
    "CAUSE_SCHEDULING_AT": [r"(\d+) => Some\(Cause::Scheduling\(Timestamp::Scheduled\("],
    "CAUSE_TASK": [r"(\d+) => Some\(Cause::Task\)", r"\nfallback_numbers r Cause\.Task = [^\n]* length time (\d+) 0 quality"],
    "ACTION_NOTHING": [action(r"Action\.Nothing")],
    "ACTION_RECEIVE_REQUEST": [action(r"Action\.ReceiveRequest")],
    "ACTION_TRY_RECEIVE_REQUEST": [r"\ndirection_code TaskDirection\.Any = (\d+)\n"],
    "ACTION_TRY_RECEIVE_OUTBOUND": [r"\ndirection_code TaskDirection\.Outbound = (\d+)\n"],
    "ACTION_LISTEN": [action(r"Action\.Listen")],
    "ACTION_STOP_NOW": [r"\nstop_fields StopListening\.Now = plain_action (\d+)\n"],
    "ACTION_STOP_AT": [r"\nstop_fields \(StopListening\.At t\) = action_of (\d+) "],
    "ACTION_STOP_BEFORE": [r"\nstop_fields \(StopListening\.Before t cca\) = action_of (\d+) "],
    "ACTION_READ_HEADER": [action(r"Action\.ReadHeader")],
    "ACTION_TX": [r"\naction_fields \(Action\.Tx [^\n]*\n    action_of (\d+) "],
    "ACTION_RX": [r"\naction_fields \(Action\.Rx [^\n]*\n    action_of (\d+) "],
    "ACTION_OFF": [action(r"\(Action\.Off rollback\)")],
    "FLAG_CCA": [r"\ntask_flags [^\n]*= cond cca (\d+) 0 ", r"\nstop_fields \(StopListening\.Before [^\n]*\(cond cca (\d+) 0\)"],
    "FLAG_ROLLBACK": [
        r"\ntask_flags [^\n]* cond rollback (\d+) 0 ",
        r"\naction_fields \(Action\.Off [^\n]*\(cond rollback (\d+) 0\)",
    ],
    "FLAG_AT": [r"\nstart_bit \(Timestamp\.Scheduled t\) = (\d+)\n"],
    "SPACING_SHIFT": [r"\nspacing_bits \(Some i\) = (\d+) \* \(1 \+ ifs_code i\)\n"],
    "SPACING_NONE": [r"\nspacing_bits None = (\d+)\n"],
    "SPACING_AIFS": [r"\nifs_code Ifs\.Aifs = (\d+)\n"],
    "SPACING_SIFS": [r"\nifs_code Ifs\.Sifs = (\d+)\n"],
    "SPACING_LIFS": [r"\nifs_code Ifs\.Lifs = (\d+)\n"],
    "ANSWER_NONE": [r"\nno_answer = [^\n]* response = came_to (\d+) "],
    "ANSWER_SENT": [answer(r"\nresponse_fields \(Response\.Sent t\)")],
    "ANSWER_NACK": [answer(r"\nresponse_fields \(Response\.Nack t\)")],
    "ANSWER_ERROR_SCHEDULING": [answer(r"\nscheduling_fields Timestamp\.BestEffort")],
    "ANSWER_ERROR_SCHEDULING_AT": [answer(r"\nscheduling_fields \(Timestamp\.Scheduled t\)")],
    "ANSWER_ERROR_TASK": [answer(r"\ncause_fields Cause\.Task")],
    "ANSWER_FRAME": [answer(r"\nreceived_fields \(RxResult\.Frame n t quality\)")],
    "ANSWER_WINDOW_ENDED": [answer(r"\nreceived_fields RxResult\.RxWindowEnded")],
    "ANSWER_CRC_ERROR": [answer(r"\nreceived_fields \(RxResult\.CrcError t quality\)")],
    "ADDRESS_ABSENT": [r"\naddress_fields Address\.Absent = record \{ mode = (\d+);"],
    "ADDRESS_SHORT": [r"\naddress_fields \(Address\.Short a\) = record \{ mode = (\d+);"],
    "ADDRESS_EXTENDED": [r"\naddress_fields \(Address\.Extended a\) = record \{ mode = (\d+);"],
    "REFUSAL_STATE": [refusal("Slices")],
    "REFUSAL_COUNT": [refusal("Pool")],
    "REFUSAL_ROOMS": [refusal("Lengths")],
    "REFUSAL_OWN_BUFFERS": [refusal("OwnBuffers")],
    "REFUSAL_UNFIT": [refusal("Unfit")],
    "REFUSAL_TOKEN_HELD": [refusal("TokenHeld")],
    "REFUSAL_BUFFER_HELD": [refusal("BufferHeld")],
    "REFUSAL_TX_LENGTH": [refusal("TxLength")],
    "REFUSAL_NOT_ALLOWED": [refusal("NotAllowed")],
    "REFUSAL_RECEIVED_LENGTH": [refusal("ReceivedLength")],
    "REFUSAL_ENTRY_TOO_LATE": [refusal("LatestAckStart")],
    "REFUSAL_LINE_FULL": [refusal("LineFull")],
    "REFUSAL_TOKEN_WAITS": [refusal("TokenWaits")],
    "REFUSAL_FRAME_LENGTH": [refusal("FrameLength")],
}
# What is received has the same codes in an outcome and in a result.
for family in ("OUTCOME", "RESULT"):
    DEFINED.update({
        family + "_FRAME": [
            r"(\d+) => Some\(RxResult::Frame\(",
            r"\nreceived_numbers make \(RxResult\.Frame [^\n]* = make (\d+) ",
        ],
        family + "_WINDOW_ENDED": [
            r"(\d+) => Some\(RxResult::RxWindowEnded\)",
            r"\nreceived_numbers make RxResult\.RxWindowEnded = make (\d+) ",
        ],
        family + "_CRC_ERROR": [
            r"(\d+) => Some\(RxResult::CrcError\(",
            r"\nreceived_numbers make \(RxResult\.CrcError [^\n]* = make (\d+) ",
        ],
    })
# Every code of a kind that the definitions state: what `plain_action`, `came_to` and so on begin with, and the arms of the code's
# tables.
RECEIVED = r"(\d+) => Some\(RxResult::"
FAMILIES = {
    "DIRECTION": [r"(\d+) => Some\(Task::"],
    "START": [r"(\d+) => Some\(Timestamp::"],
    "OUTCOME": [r"(\d+) => Some\(StopResult::", RECEIVED],
    "RESULT": [r"(\d+) => Some\(TaskResult::", RECEIVED],
    "CAUSE": [r"(\d+) => Some\(Cause::"],
    "ACTION": [r"(?:plain_action|action_of) (\d+)\b", r"\ndirection_code TaskDirection\.\w+ = (\d+)(?=\n)"],
    "SPACING": [r"\nspacing_bits None = (\d+)(?=\n)", r"\nifs_code Ifs\.\w+ = (\d+)(?=\n)"],
    "ANSWER": [r"came_to (\d+) "],
    "ADDRESS": [r"record \{ mode = (\d+);"],
    "REFUSAL": [r"\nrefusal_number Refusal\.\w+ = (\d+)(?=\n)"],
}
# The spacing's two bits hold one more than its code, and the definitions have the factor of its place.
IN_REPLY = {
    "SPACING_AIFS": lambda code: code + 1,
    "SPACING_SIFS": lambda code: code + 1,
    "SPACING_LIFS": lambda code: code + 1,
    "SPACING_SHIFT": lambda factor: factor.bit_length() - 1 if factor & (factor - 1) == 0 else None,
}
# The sentence of each refusal; in the helper as a string or several.
SENTENCES = {
    "header": r"\n    /\* (?P<sentence>[^*]*) \*/\n    WIDOSHA_REFUSAL_(?P<name>\w+) = ",
    "host": r"\n/// (?P<sentence>[^\n]*)\npub const REFUSAL_(?P<name>\w+): ",
    "table": r"\n\| \d+ \| (?P<sentence>[^|\n]*) \| [^|\n]* \| `WIDOSHA_REFUSAL_(?P<name>\w+)` \|",
    "helper": r"\n    case WIDOSHA_REFUSAL_(?P<name>\w+):\s+return (?P<sentence>(?:\"[^\"]*\"\s*)+);",
}


class Unreadable(Exception):
    pass


class Declaration:
    """A function as it stands in a text: its name, parameters and result, each with its place."""

    def __init__(self, name, parameters, result, whole=True):
        # whole: its slices stand among its parameters
        self.name, self.parameters, self.result, self.whole = name, parameters, result, whole


class Piece:
    """Text with its place: (start, end) in the whole."""

    def __init__(self, text, start):
        stripped = text.strip()
        self.start = start + text.index(stripped) if stripped else start
        self.text, self.end = stripped, self.start + len(stripped)


def blank(match):
    """A comment as so many spaces, so that places stay."""
    return re.sub(r"[^\n]", " ", match.group())


def pieces(text, start, separator=","):
    """The parts between separators that stand in no bracket."""
    found, depth, begin = [], 0, 0
    for place, letter in enumerate(text):
        depth += (letter in "([{") - (letter in ")]}")
        if letter == separator and depth == 0:
            found.append(Piece(text[begin:place], start + begin))
            begin = place + 1
    found.append(Piece(text[begin:], start + begin))
    return [piece for piece in found if piece.text]


def declarations(text, pattern, name_group, parameters_group, result_group):
    found = []
    for match in re.finditer(pattern, text):
        name = Piece(match.group(name_group), match.start(name_group))
        result = Piece(match.group(result_group), match.start(result_group))
        parameters = pieces(match.group(parameters_group), match.start(parameters_group))
        if [each.text for each in parameters] == ["void"]:
            parameters = []
        found.append(Declaration(name, parameters, result))
    return found


def read_header(text):
    text = re.sub(r"/\*.*?\*/|//[^\n]*", blank, text, flags=re.S)
    # In C empty brackets leave open what a function takes.
    found = declarations(text, r"(\w+)\s+(widosha_\w+)\s*\(([^)]*\w[^)]*)\)\s*;", 2, 3, 1)
    expect_all(found, len(re.findall(r"(?<!enum )\bwidosha_\w*", text)))
    return found


def read_source(text):
    text = re.sub(r"//[^\n]*", blank, text)
    pattern = r'#\[unsafe\(no_mangle\)\]\s*pub\s+extern\s+"C"\s+fn\s+(\w+)\s*\(([^)]*)\)\s*->\s*(\w+)'
    found = declarations(text, pattern, 1, 2, 3)
    expect_all(found, len(re.findall(r"no_mangle", text)))
    expect_all(found, len(re.findall(r'\bextern\s+"C"\s+fn\b', text)))
    return found


def read_host(text):
    text = re.sub(r"//[^\n]*", blank, text)
    block = re.search(r'unsafe extern "C" \{(.*?)\n\}', text, flags=re.S)
    if not block:
        raise Unreadable("no block of declarations")
    found = declarations(text, r"\bfn\s+(\w+)\s*\(([^)]*)\)\s*->\s*(\w+)\s*;", 1, 2, 3)
    expect_all(found, len(re.findall(r"\bfn\b", text)))
    return found


def read_table(text):
    """A row of the first table gives the numbers; slices and result are what the text above it says of all its functions. A row of
    the others gives slices and result, also where there are none."""
    shared = re.search(r"four slices after its numbers, and returns (\d+ bits):\n", text)
    if not shared:
        raise Unreadable("no sentence about the slices and results of the first table")
    found = []
    for match in re.finditer(r"^\| `(widosha_\w+)` \| ([^|\n]*?) \|(?: (\d+ bits): [^|\n]* \|)?$", text, flags=re.M):
        parameters = [] if match.group(2) == "none" else pieces(match.group(2), match.start(2))
        result = Piece(match.group(3), match.start(3)) if match.group(3) else Piece(shared.group(1), shared.start(1))
        found.append(Declaration(Piece(match.group(1), match.start(1)), parameters, result, bool(match.group(3))))
    expect_all(found, len(re.findall(r"^\| `widosha_", text, flags=re.M)))
    return found


def slices_of(text):
    """The four slices of the sentence that docs/LAYOUTS.md has of them, as matches with their places in the text."""
    sentence = re.search(SLICES, text)
    found = list(re.finditer(SLICE, text[: sentence.end(1)])) if sentence else []
    found = [each for each in found if each.start() >= sentence.start(1)]
    if len(found) != 4:
        raise Unreadable("no sentence about the four slices")
    return found


def expect_all(found, number):
    if len(found) != number:
        raise Unreadable("%d declarations, but %d functions named" % (len(found), number))


READERS = {"header": read_header, "source": read_source, "host": read_host, "table": read_table}


def in_header(parameter):
    match = re.fullmatch(r"(const\s+)?(uint(8|16|32|64)_t|size_t)\s*(\*?)\s*(\w+)", parameter)
    if not match or (match.group(1) and not match.group(4)):
        raise Unreadable(parameter)
    width = "u" + match.group(3) if match.group(3) else "size"
    pointer = "pointer to " if match.group(4) else ""
    return match.group(5), pointer + ("const " if match.group(1) else "") + width


def in_source(parameter):
    match = re.fullmatch(r"(\w+)\s*:\s*(.+)", parameter, flags=re.S)
    if not match:
        raise Unreadable(parameter)
    kinds = {"&mut [u8]": "slice", "&[u8]": "slice that is only read"}
    kind = " ".join(match.group(2).split())
    kind = kinds.get(kind, kind)
    if kind not in WIDTHS + tuple(kinds.values()):
        raise Unreadable(parameter)
    return IN_SOURCE.get(match.group(1), match.group(1)), kind


def in_host(parameter):
    match = re.fullmatch(r"(\w+)\s*:\s*(.+)", parameter, flags=re.S)
    kinds = {"*mut u8": "pointer to u8", "*const u8": "pointer to const u8", "usize": "size"}
    kind = kinds.get(match.group(2), match.group(2)) if match else None
    if kind not in WIDTHS + tuple(kinds.values()):
        raise Unreadable(parameter)
    return match.group(1), kind


def in_table(parameter):
    match = re.fullmatch(r"(\w+) \((?:(8|16|32|64)(?:| bits|: 0 or 1)|(only read|written))\)", parameter)
    if not match:
        raise Unreadable(parameter)
    kinds = {"only read": "slice that is only read", "written": "slice"}
    return match.group(1), "u" + match.group(2) if match.group(2) else kinds[match.group(3)]


FORMS = {"header": in_header, "source": in_source, "host": in_host, "table": in_table}


def fold(arguments):
    """A pointer and, next to it, its length are one slice."""
    slices = {"pointer to u8": "slice", "pointer to const u8": "slice that is only read"}
    folded = []
    for name, kind in arguments:
        last = folded[-1] if folded else ("", "")
        if kind == "size" and last[1] in slices and name == last[0] + "_len":
            folded[-1] = (last[0], slices[last[1]])
        else:
            folded.append((name, kind))
    return folded


def result_of(text):
    match = re.fullmatch(r"uint(8|16|32|64)_t|u(8|16|32|64)|(8|16|32|64) bits", text)
    if not match:
        raise Unreadable("result %s" % text)
    return "u" + (match.group(1) or match.group(2) or match.group(3))


def signatures(which, text):
    """Function name to (arguments, result), each in words that all four texts share."""
    found = {}
    for declaration in READERS[which](text):
        name = declaration.name.text
        arguments = fold([FORMS[which](parameter.text) for parameter in declaration.parameters])
        if which == "table" and not declaration.whole:
            arguments += [(piece.group(1), "slice") for piece in slices_of(text)]
        if name in found:
            raise Unreadable("%s is declared twice" % name)
        found[name] = (arguments, result_of(declaration.result.text))
    if not found:
        raise Unreadable("no function at all")
    return found


def stated(which, text):
    """Name to the places, (start, end), where a text states its number; in the definitions for each way of stating it."""
    found = {}
    if which == "definitions":
        for name, ways in DEFINED.items():
            found[name] = [[match.span(1) for match in re.finditer(way, text)] for way in ways]
        return found
    for pattern in NAMED[which]:
        for match in re.finditer(pattern, text):
            found.setdefault(match.group("name"), [[]])[0].append(match.span("number"))
    for name, ways in IN_TEXT.items() if which == "table" else ():
        found.setdefault(name, [[]]).extend([match.span(1) for match in re.finditer(way, text)] for way in ways)
    return found


def number_at(which, text, name, place):
    number = int(text[place[0]:place[1]] or "-1")
    return IN_REPLY[name](number) if which == "definitions" and name in IN_REPLY else number


def numbers_of(which, text):
    """Name to the list of its numbers for each way of stating it."""
    found = stated(which, text)
    return {name: [[number_at(which, text, name, place) for place in way] for way in ways] for name, ways in found.items()}


def uncommented(which, text):
    return re.sub(r"/\*.*?\*/", "", text, flags=re.S) if which == "header" else text


def unread_names(which, text, numbers):
    """What has the form of a name, but is read as none."""
    if which not in ANY_NAME:
        return []
    return sorted(set(re.findall(ANY_NAME[which], uncommented(which, text))) - set(numbers) - set(NO_NUMBER.get(which, ())))


def codes_of(which, text):
    """The codes of each kind that the definitions state."""
    if which != "definitions":
        return {}
    return {family: sorted({int(code) for way in ways for code in re.findall(way, text)}) for family, ways in FAMILIES.items()}


def sentences(which, text):
    """Name to (sentence, its place)."""
    found = {}
    for match in re.finditer(SENTENCES[which], text) if which in SENTENCES else ():
        sentence = match.group("sentence")
        if which == "helper":
            sentence = "".join(re.findall(r'"([^"]*)"', sentence))
        found[match.group("name")] = (" ".join(sentence.split()), match.span("sentence"))
    return found


class Reading:
    """What is compared of one text."""

    def __init__(self, which, text):
        self.unreadable, self.signatures, self.numbers = None, {}, {}
        try:
            self.signatures = signatures(which, text) if which in SOURCES else {}
        except Unreadable as what:
            self.unreadable = str(what)
        self.numbers = numbers_of(which, text) if which in STATING else {}
        self.unread = unread_names(which, text, self.numbers)
        self.codes = codes_of(which, text)
        self.sentences = {name: sentence for name, (sentence, _) in sentences(which, text).items()}


def differences_of_numbers(read):
    """Each name has one number, which all four texts state: the header and the crate once, the definitions once in each way."""
    found = []
    held = {which: read[which].numbers for which in STATING}
    for name in sorted({name for each in held.values() for name in each}):
        numbers = {which: each.get(name, [[]]) for which, each in held.items()}
        for which, ways in numbers.items():
            if not all(ways) or which != "table" and any(len(way) != 1 for way in ways):
                found.append("%s: %s does not state its number once in each place" % (name, which))
        if len({number for ways in numbers.values() for way in ways for number in way}) != 1:
            found.append("%s differs: %s" % (name, numbers))
    for which in ANY_NAME:
        found += ["%s has %s, which is not read" % (SOURCES[which], name) for name in read[which].unread]
    return found


def differences_of_codes(read):
    """The definitions state no code of a kind that the header has no name for."""
    found = []
    for family, codes in read["definitions"].codes.items():
        names = [name for name in read["header"].numbers if name.startswith(family + "_") and name != "SPACING_SHIFT"]
        named = [number for name in names for way in read["definitions"].numbers.get(name, []) for number in way]
        # Of the spacing the definitions have the code, one less than its two bits.
        wanted = sorted({max(number - 1, 0) if family == "SPACING" else number for number in named})
        if codes != wanted:
            found.append("%s: the definitions have the codes %s, the header has names for %s" % (family, codes, wanted))
    return found


def differences_of_sentences(read):
    found = []
    held = {which: read[which].sentences for which in SENTENCES}
    names = {name[len("REFUSAL_"):] for name in read["header"].numbers if name.startswith("REFUSAL_")}
    for name in sorted(names.union(*held.values())):
        said = {which: each.get(name) for which, each in held.items()}
        if len(set(said.values())) != 1 or None in said.values():
            lines = ["    %s: %s" % each for each in said.items()]
            found.append("the sentence of REFUSAL_%s differs:\n%s" % (name, "\n".join(lines)))
    return found


def differences_of_functions(read):
    readable = [which for which in SOURCES if not read[which].unreadable]
    found = ["%s cannot be read: %s" % (SOURCES[which], read[which].unreadable) for which in SOURCES if which not in readable]
    for name in sorted({name for which in readable for name in read[which].signatures}):
        held = {which: read[which].signatures.get(name) for which in readable}
        if len({repr(signature) for signature in held.values()}) > 1:
            lines = ["    %s: %s" % (SOURCES[which], shown(signature)) for which, signature in held.items()]
            found.append("%s differs:\n%s" % (name, "\n".join(lines)))
    return found


def differences(read):
    """What does not agree, in sentences; empty if all does."""
    compared = (differences_of_functions, differences_of_numbers, differences_of_codes, differences_of_sentences)
    return [difference for compare in compared for difference in compare(read)]


def shown(signature):
    if signature is None:
        return "missing"
    arguments, result = signature
    return "(%s) -> %s" % (", ".join("%s: %s" % argument for argument in arguments), result)


# ---- The self-test


def replaced(text, start, end, by):
    return text[:start] + by + text[end:]


def other_width(text):
    """The same parameter or result with another width or kind."""
    match = re.search(r"(?<=uint)(8|16|32|64)(?=_t)|(?<=\bu)(8|16|32|64)\b|\b(8|16|32|64)\b|\bsize_t|\busize", text)
    word = {"8": "16", "16": "32", "32": "64", "64": "8", "size_t": "uint64_t", "usize": "u64"}[match.group()]
    return replaced(text, match.start(), match.end(), word)


# What is only read, and what is written.
ACCESS = {
    "header": ("const uint8_t *", "uint8_t *"),
    "source": ("&[u8]", "&mut [u8]"),
    "host": ("*const u8", "*mut u8"),
    "table": ("(only read)", "(written)"),
}


# No parameter, as it stands behind a name, and one.
NO_PARAMETER = {
    "header": ("(void)", "(uint8_t extra)"),
    "source": ("()", "(extra: u8)"),
    "host": ("()", "(extra: u8)"),
    "table": ("` | none", "` | extra (8)"),
}


def other_access(which, text):
    """The same pointer or slice, only read instead of written or the other way round; the same text if it is neither."""
    only_read, written = ACCESS[which]
    return text.replace(only_read, written) if only_read in text else text.replace(written, only_read)


def mutations_of(which, text, declaration):
    """(what, mutated text) for each single change of one declaration."""
    name, parameters = declaration.name, declaration.parameters
    yield "rename", replaced(text, name.start, name.end, name.text + "x")
    if not parameters:
        none, extra = NO_PARAMETER[which]
        yield "a number", replaced(text, name.end, name.end + len(none), extra)
        yield "nothing of numbers", replaced(text, name.end, name.end + len(none), "()" if which == "header" else "")
    result = declaration.result
    yield "result", replaced(text, result.start, result.end, other_width(result.text))
    for place, each in enumerate(parameters):
        access = other_access(which, each.text)
        # The table gives a slice no width.
        if which != "table" or access == each.text:
            yield "width of %s" % each.text, replaced(text, each.start, each.end, other_width(each.text))
        if access != each.text:
            yield "access of %s" % each.text, replaced(text, each.start, each.end, access)
        label = re.match(r"\w+", each.text) if which != "header" else re.search(r"\w+$", each.text)
        start = each.start + label.start()
        yield "name of %s" % each.text, replaced(text, start, start + len(label.group()), label.group() + "x")
        if place + 1 < len(parameters):
            after = parameters[place + 1]
            swapped = after.text + text[each.end:after.start] + each.text
            yield "drop %s" % each.text, replaced(text, each.start, after.start, "")
            yield "swap %s" % each.text, replaced(text, each.start, after.end, swapped)
        else:
            before = parameters[place - 1].end if place else each.start
            yield "drop %s" % each.text, replaced(text, before, each.end, "" if place or which != "table" else "none")


def mutations_of_numbers(which, text):
    """Each place with another number, with none and, of a name, with another name, and one more row or line of the same kind."""
    for name, ways in stated(which, text).items():
        for start, end in sum(ways, []):
            yield "%s is another" % name, replaced(text, start, end, str(int(text[start:end]) + 60))
            yield "%s is none" % name, replaced(text, start, end, "")
    for pattern in NAMED.get(which, ()):
        for match in re.finditer(pattern, text):
            begin, end = text.rindex("\n", 0, match.end("number")), text.index("\n", match.end("number"))
            line, at = text[begin:end], match.end("name") - begin
            yield "name %s" % match.group("name"), replaced(text, match.end("name"), match.end("name"), "X")
            yield "one more beside %s" % match.group("name"), replaced(text, end, end, line[:at] + "X" + line[at:])
            yield "%s twice" % match.group("name"), replaced(text, end, end, line) if which != "table" else ""
            yield "%s dropped" % match.group("name"), replaced(text, begin, end, "")
    for family, ways in FAMILIES.items() if which == "definitions" else ():
        for match in (match for way in ways for match in re.finditer(way, text)):
            begin, end = text.rindex("\n", 0, match.end(1)), text.index("\n", match.end(1))
            line = replaced(text[begin:end], match.start(1) - begin, match.end(1) - begin, "77")
            yield "one more of %s" % family, replaced(text, end, end, line)


def mutations_of_sentences(which, text):
    for name, (_, place) in sentences(which, text).items():
        yield "sentence of %s" % name, replaced(text, place[1] - 2, place[1] - 2, "x")


def mutations_of_slices(text):
    """The sentence about the slices with one of them missing, twice, of another name or behind the next."""
    found = slices_of(text)
    for this, after in zip(found, found[1:] + [None]):
        name = this.group(1)
        yield "slice %s twice" % name, replaced(text, this.end(), this.end(), ", " + this.group())
        yield "slice %s renamed" % name, replaced(text, this.start(1), this.end(1), name + "x")
        if after:
            swapped = after.group() + text[this.end():after.start()] + this.group()
            yield "slice %s behind the next" % name, replaced(text, this.start(), after.end(), swapped)
            yield "slice %s dropped" % name, replaced(text, this.start(), after.start(), "")


def mutations(which, text):
    """(what, mutated text) for each single change of one text."""
    if which in SOURCES:
        for declaration in READERS[which](text):
            for what, changed in mutations_of(which, text, declaration):
                yield "%s: %s" % (declaration.name.text, what), changed
    if which == "table":
        yield from mutations_of_slices(text)
    if which not in ("source", "helper"):
        yield from mutations_of_numbers(which, text)
    if which in SENTENCES:
        yield from mutations_of_sentences(which, text)


def self_test(texts, read):
    tried, missed = 0, []
    for which, text in texts.items():
        for what, changed in mutations(which, text):
            tried += 1
            if changed == text or not differences({**read, which: Reading(which, changed)}):
                missed.append("%s: %s" % (which, what))
    return tried, missed


def main():
    texts = {}
    for which, paths in {**SOURCES, **BESIDE}.items():
        texts[which] = ""
        for path in paths.split():
            try:
                with open(path, encoding="utf-8") as file:
                    texts[which] += file.read()
            except OSError as error:
                sys.exit("%s: %s" % (path, error.strerror))
    read = {which: Reading(which, text) for which, text in texts.items()}
    found = differences(read)
    if found:
        print("\n".join(found))
        sys.exit(1)
    if sys.argv[1:] == ["--self-test"]:
        tried, missed = self_test(texts, read)
        print("\n".join("not found: " + each for each in missed) or "each of %d changes is found" % tried)
        sys.exit(1 if missed or tried < 3650 else 0)
    header = read["header"]
    print("%d functions and %d numbers agree in %s" % (len(header.signatures), len(header.numbers), ", ".join(SOURCES.values())))
    print("the numbers are those of the definitions")
    print("the sentences of %d refusals agree in %s" % (len(header.sentences), ", ".join(SENTENCES)))


main()
