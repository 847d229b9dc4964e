# The waits of the engine and the calls between them. Makes the picture: python3 docs/waits.py > docs/waits.svg
# Names are those of crates/tasks/src/lib.rt, words beneath them those of document 01; edges follow crates/*/specs.

# kind: colour, the calls that fit, where the legend has it
KINDS = {
    "Asking": ("#dbe8fb", "Asking: Request, None", 60),
    "Entering": ("#fcebc8", "Entering: Entered, Fallback, Rollback", 280),
    "Listening": ("#d9f2dc", "Listening: FrameStart, OutboundSeen", 590),
    "Stopping": ("#f7d9d9", "Stopping: Stopped", 890),
    "Reading": ("#e6dcf5", "Reading: Header", 1090),
}

# wait: kind, centre, width, words of document 01
WAITS = {
    "ReceivingAck": ("Asking", 145, 122, 160, "ACK: frame started"),
    "AfterAckWindow": ("Asking", 325, 122, 160, "ACK: window ended"),
    "Idle": ("Asking", 530, 122, 150, "idle"),
    "Sending": ("Asking", 710, 122, 170, "sending otherwise"),
    "AfterWindow": ("Asking", 930, 122, 160, "window ended"),
    "Receiving": ("Asking", 1120, 122, 160, "receiving, asked"),
    "SendingAck": ("Asking", 1320, 122, 180, "sending without a token"),
    "Request(left, Off)": ("Entering", 480, 352, 160, "goes off"),
    "Request(left, Tx)": ("Entering", 670, 352, 160, "to sending"),
    "Request(left, Rx)": ("Entering", 870, 352, 160, "to listening"),
    "AckWait": ("Entering", 670, 465, 190, "listen with the spare buffer"),
    "AckTurn": ("Entering", 1300, 465, 170, "ACK turn"),
    "Rearm": ("Entering", 1060, 605, 140, "re-arm"),
    "Listening": ("Listening", 870, 705, 170, "listening"),
    "Frame": ("Stopping", 1130, 695, 160, "after FrameStart"),
    "Outbound": ("Stopping", 1130, 800, 160, "after OutboundSeen"),
    "Ack": ("Stopping", 290, 580, 170, "stop at latest ACK start"),
    "AckAgain": ("Stopping", 290, 710, 170, "failed once"),
    "Reading": ("Reading", 1300, 605, 170, "header"),
}

# line from point to point ("*" at its end: it joins another one there), where its words begin ("e": where they end), words
# ("|" ends a line, "!" begins an answer)
CALLS = [
    ("530,30 530,94", (537, 45), "start"),
    # asks, to the transition for the request or for None
    ("85,150 85,285", (91, 195), "Request Tx any start,|Rx best effort; None|left: ReceivingAck"),
    ("265,150 265,285", (271, 195), "Request Tx any start,|Rx best effort|left: Off|!Nack"),
    ("405,122 455,122", (415, 116), "None"),
    ("", (409, 140), "!Nack"),
    ("494,150 494,285", (500, 195), "Request Tx, Rx|any start|left: Off"),
    ("755,150 755,285", (761, 195), "Request Tx, Rx|best effort; None|left: Sending"),
    ("890,150 890,285", (896, 195), "Request Tx|any start|left: Off|!window ended"),
    ("1060,150 1060,285", (1066, 195), "Request Tx any start,|Rx best effort; None|left: Receiving"),
    ("1250,150 1250,285", (1256, 195), "Request Tx, Rx|best effort; None|left: SendingAck"),
    # transitions for a request or for None
    ("466,324 466,150", (460, 260, "e"), "Entered|!left's"),
    ("598,324 598,150", (604, 248), "Fallback|!left's,|!error"),
    ("665,324 665,150", (671, 195), "Entered, no|ACK wanted|!left's"),
    ("670,380 670,437", (676, 405), "Entered, ACK wanted|!left's"),
    ("870,380 870,677", (864, 405, "e"), "Entered|!left's"),
    ("480,380 480,705 785,705", (490, 699), "Rollback, if left is Receiving"),
    # an awaited ACK
    ("575,465 290,465 290,552", (500, 459), "Entered"),
    ("205,567 38,567 38,122 65,122", (48, 561), "Stopped: frame started"),
    ("205,593 16,593 16,36 325,36 325,94", (48, 608), "Stopped: window ended"),
    ("290,608 290,682", (297, 650), "Stopped: failed"),
    ("205,697 38,697 38,567*", (48, 691), "Stopped: frame started"),
    ("205,723 16,723 16,593*", (48, 738), "Stopped: window ended"),
    # a reception
    ("955,695 1050,695", (963, 689), "FrameStart"),
    ("905,733 905,790 1050,790", (915, 784), "OutboundSeen"),
    ("1050,812 835,812 835,733", (915, 827), "Stopped: failed"),
    ("1210,695 1290,695 1290,633", (1214, 676), "Stopped:|frame started"),
    ("1210,790 1340,790 1340,633", (1214, 784), "Stopped: frame started"),
    ("1210,812 1486,812 1486,16 930,16 930,94", (1216, 827), "Stopped: window ended"),
    ("1215,605 1130,605", (1142, 583), "Header:|not for us"),
    ("1300,577 1300,493", (1307, 519), "Header: for us,|request bit and|number, not a|broadcast"),
    ("1385,605 1466,605 1466,36 1120,36 1120,94", (1390, 599), "Header: else"),
    ("990,605 930,605 930,677", (937, 599), "Entered"),
    ("1215,465 895,465 895,677", (1150, 459), "Rollback"),
    ("1385,465 1446,465 1446,122 1410,122", (1391, 459), "Entered"),
    ("", (1391, 481), "!received"),
]

# further words: place, size, weight, words
WORDS = [
    (345, 82, 14, "bold", "Asking"),
    (66, 310, 14, "bold", "Entering, for a request or for None"),
    (66, 330, 12, "normal", "next: Tx after Request Tx, Rx after Request Rx,|Off after None; left: the task that the ask leaves"),
    (965, 310, 12, "normal", "Answers for left: Receiving the receive result, Sending Sent,|"
     "ReceivingAck Sent or Nack, Off and SendingAck none.|"
     "Rollback is on for Request(Receiving, Off) and AckTurn only.|"
     "Request(Off, Off) is not reached."),
    (60, 905, 12, "normal", "Only accepted calls are drawn. A call or outcome that does not fit the wait is refused by 5. "
     "Answers stand in red, the answer for left first.|"
     "The waiting line: Arrive and Withdraw fit every wait and lead to no other. Request takes the earliest arrival whose direction "
     "and start the ask allows (as drawn; none: 9); None fits only if none such waits.|"
     "OutboundSeen fits only with the start and the flag of the line's earliest Tx."),
]


def escape(words):
    return words.replace("&", "&amp;").replace("<", "&lt;").replace("'", "&#8217;")


def text(x, y, words, size=12, weight="normal", anchor="start"):
    for k, line in enumerate(words.split("|")):
        style = ' fill="#b01818" font-style="italic"' if line.startswith("!") else ""
        print(f'<text x="{x}" y="{y + k * (size + 2)}" font-size="{size}" font-weight="{weight}" '
              f'text-anchor="{anchor}"{style}>{escape(line.lstrip("!"))}</text>')


def box(x, y, w, h, fill, stroke):
    print(f'<rect x="{x}" y="{y}" width="{w}" height="{h}" rx="8" fill="{fill}" stroke="{stroke}"/>')


print('<svg xmlns="http://www.w3.org/2000/svg" viewBox="0 0 1502 948" '
      'font-family="Liberation Sans, Arial, Helvetica, sans-serif">')
print("<title>The waits and the calls between them</title>")
print('<defs><marker id="a" viewBox="0 0 8 8" refX="8" refY="4" markerWidth="8" markerHeight="8" orient="auto">'
      '<path d="M0,0 L8,4 L0,8 z"/></marker>'
      '<marker id="j" viewBox="0 0 8 8" refX="4" refY="4" markerWidth="6" markerHeight="6">'
      '<circle cx="4" cy="4" r="4"/></marker></defs>')
print('<rect width="1502" height="948" fill="white"/>')
box(52, 60, 1380, 105, "#f4f8fe", "#9db7dc")
box(52, 285, 1380, 105, "#fff9ec", "#d9b566")
for line, place, words in CALLS:
    if line:
        end = "j" if line.endswith("*") else "a"
        print(f'<polyline points="{line.rstrip("*")}" fill="none" stroke="#333" stroke-width="1.3" marker-end="url(#{end})"/>')
    text(place[0], place[1], words, anchor="end" if len(place) == 3 else "start")
for name, (kind, x, y, w, words) in WAITS.items():
    box(x - w / 2, y - 28, w, 56, KINDS[kind][0], "#333")
    text(x, y - 4, name, 14, "bold", "middle")
    text(x, y + 15, words, 12, "normal", "middle")
for x, y, size, weight, words in WORDS:
    text(x, y, words, size, weight)
for colour, words, x in KINDS.values():
    box(x, 862, 22, 16, colour, "#333")
    text(x + 30, 875, words, 13)
print("</svg>")
