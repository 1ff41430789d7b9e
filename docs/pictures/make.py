#!/usr/bin/env python3
"""Makes the pictures of this folder: the frame format, the windows, the lives of frames and transactions, a frame's
journey, a table of cards, the crates.

`make.py` writes them; `make.py --check` writes nothing and exits with 1 where a stored picture is not the one made
here. Crates and floors are read from crates.txt; a name that begins with no word of its floor, and a crate that sees
what is not below it, is an error.
"""
import math
import pathlib
import re
import sys

HERE = pathlib.Path(__file__).resolve().parent
CRATES = HERE.parent.parent / "crates.txt"

INK, SOFT, RULE, RED_INK = "#1b1f24", "#57606a", "#8c959f", "#a40e26"
BLUE, GREEN, AMBER, RED = "#cfe3fb", "#cdeed6", "#fbe6b5", "#f9d3d0"
VIOLET, GREY, TEAL, ROSE = "#e3d8f8", "#eceff2", "#c9ecec", "#f6d9ea"


# ---- drawing


class Picture:
    """An SVG on white. Texts are measured roughly, so that two that would overlap or leave the picture are an error."""

    def __init__(self, name, width, height, title):
        self.name, self.width, self.height, self.title = name, width, height, title
        self.parts, self.boxes = [], []

    def text(self, x, y, words, size=13, anchor="middle", colour=INK, bold=False, mono=False, halo=None):
        wide = len(words) * size * (0.6 if mono else 0.56 + 0.05 * bold)
        left = x - {"start": 0, "middle": wide / 2, "end": wide}[anchor]
        self.boxes.append((left, y - 0.75 * size, left + wide, y + 0.2 * size, words))
        self.put_text(x, y, words, size, anchor, colour, bold, mono, halo=halo)

    def put_text(self, x, y, words, size, anchor, colour, bold=False, mono=False, turn=None, halo=None):
        words = words.replace("&", "&amp;").replace("<", "&lt;").replace(">", "&gt;")
        family = "monospace" if mono else "sans-serif"
        weight = ' font-weight="bold"' if bold else ""
        turned = f' transform="rotate({turn} {num(x)} {num(y)})"' if turn else ""
        around = f' stroke="{halo}" stroke-width="4" paint-order="stroke"' if halo else ""
        self.parts.append(
            f'<text x="{num(x)}" y="{num(y)}" font-family="{family}" font-size="{size}" '
            f'text-anchor="{anchor}" fill="{colour}"{weight}{turned}{around}>{words}</text>'
        )

    def lines(self, x, y, rows, size=13, anchor="middle", colour=INK, lead=1.35):
        for i, row in enumerate(rows):
            self.text(x, y + i * size * lead, row, size, anchor, colour)

    def rect(self, x, y, w, h, fill="none", stroke=INK, round=0, dash="", width=1.2):
        dashed = f' stroke-dasharray="{dash}"' if dash else ""
        self.parts.append(
            f'<rect x="{num(x)}" y="{num(y)}" width="{num(w)}" height="{num(h)}" rx="{round}" '
            f'fill="{fill}" stroke="{stroke}" stroke-width="{width}"{dashed}/>'
        )

    def path(self, d, stroke=INK, width=1.4, fill="none", dash="", arrow=False):
        dashed = f' stroke-dasharray="{dash}"' if dash else ""
        head = ' marker-end="url(#head)"' if arrow else ""
        self.parts.append(f'<path d="{d}" fill="{fill}" stroke="{stroke}" stroke-width="{width}"{dashed}{head}/>')

    def line(self, x1, y1, x2, y2, **style):
        self.path(f"M{num(x1)} {num(y1)}L{num(x2)} {num(y2)}", **style)

    def render(self):
        self.refuse_overlaps()
        head = (
            f'<svg xmlns="http://www.w3.org/2000/svg" viewBox="0 0 {self.width} {self.height}" '
            f'width="{self.width}" height="{self.height}" role="img">\n<title>{self.title}</title>\n'
            '<defs><marker id="head" viewBox="0 0 8 8" refX="7.5" refY="4" markerWidth="8" markerHeight="8" '
            f'markerUnits="userSpaceOnUse" orient="auto"><path d="M0 0.5L8 4L0 7.5z" fill="{INK}"/></marker></defs>\n'
            f'<rect width="{self.width}" height="{self.height}" fill="#ffffff"/>\n'
        )
        return head + "\n".join(self.parts) + "\n</svg>\n"

    def refuse_overlaps(self):
        for i, (l, t, r, b, words) in enumerate(self.boxes):
            if l < 0 or t < 0 or r > self.width or b > self.height:
                raise SystemExit(f"make.py: {self.name}: '{words}' leaves the picture")
            for l2, t2, r2, b2, other in self.boxes[:i]:
                if l < r2 and l2 < r and t < b2 and t2 < b:
                    raise SystemExit(f"make.py: {self.name}: '{words}' lies over '{other}'")


def num(x):
    """At most one decimal, so that the same picture comes out everywhere."""
    short = f"{x:.1f}"
    return short[:-2] if short.endswith(".0") else short


def grouped(n):
    return f"{n:,}"


# ---- frame and message layout

FRAME_HEADER = [
    ("destination ID", 2), ("source ID", 2), ("frame number", 2), ("ACKStart", 2), ("ACKCount", 1), ("flags", 1),
]
MESSAGE_HEADER = [
    ("transaction", 4), ("completion address", 4), ("completion value", 4), ("count of data messages", 2),
    ("unused", 2),
    ("data address", 4), ("data length", 2), ("unused", 1), ("trailing", 1),
]
FRAME_HEAD = sum(size for _, size in FRAME_HEADER)
MESSAGE_HEAD = sum(size for _, size in MESSAGE_HEADER)
assert (FRAME_HEAD, MESSAGE_HEAD) == (10, 24)


def next_header(end):
    """The first offset of the form 10 + 8k that is not before `end`."""
    return 10 + (end - 10 + 7) // 8 * 8


def strip(p, x, y, unit, fields, fill):
    """A header's fields to scale: offset above, name and size inside."""
    at = 0
    for name, size in fields:
        left, wide = x + at * unit, size * unit
        p.rect(left, y, wide, 62, GREY if name == "unused" else fill)
        p.text(left + 3, y - 5, f"+{at}" if at else "0", 11, "start", SOFT, mono=True)
        rows = split_words(name, int(wide / 6.6))
        for i, row in enumerate(rows):
            p.text(left + wide / 2, y + 33 - 7 * len(rows) + 14 * i, row, 11 if wide > 50 else 9)
        p.text(left + wide / 2, y + 56, f"{size} byte{'s' * (size > 1)}", 10, colour=SOFT)
        at += size
    p.text(x + at * unit + 3, y - 5, f"{at}", 11, "start", SOFT, mono=True)


def split_words(name, most):
    rows = [""]
    for word in name.split():
        if rows[-1] and len(rows[-1]) + 1 + len(word) > most:
            rows.append("")
        rows[-1] = (rows[-1] + " " + word).strip()
    return rows


def frame_parts(lengths):
    """The parts of a frame whose messages have these data lengths: (kind, start, end)."""
    parts, at = [("frame header", 0, FRAME_HEAD)], FRAME_HEAD
    for i, length in enumerate(lengths):
        parts.append((f"message header {i + 1}", at, at + MESSAGE_HEAD))
        end = at + MESSAGE_HEAD + length
        parts.append((f"data {i + 1}", at + MESSAGE_HEAD, end))
        at = next_header(end)
        if i + 1 < len(lengths):
            parts.append(("gap", end, at))
    return parts


def frame_bar(p, x, y, unit, parts):
    """The whole frame to scale, with the offsets at which its parts start."""
    fills = {"f": BLUE, "m": GREEN, "d": AMBER, "g": "#ffffff"}
    for name, start, end in parts:
        left, wide = x + start * unit, (end - start) * unit
        p.rect(left, y, wide, 44, fills[name[0]], dash="3 3" if name == "gap" else "")
        p.text(left + 2, y - 6, str(start), 11, "start", SOFT, mono=True)
        rows = split_words(name, 40 if name[0] in "fm" else 4)
        for i, row in enumerate(rows):
            p.text(left + wide / 2, y + 34 - 7 * len(rows) + 14 * i, row, 12 if name[0] in "fm" else 11)
    last = parts[-1][2]
    p.text(x + last * unit + 4, y - 6, str(last), 11, "start", SOFT, mono=True)
    p.line(x + last * unit, y - 18, x + last * unit, y + 106, stroke=RED_INK, width=2)
    for k in range((last - 10) // 8 + 1):
        p.line(x + (10 + 8 * k) * unit, y + 44, x + (10 + 8 * k) * unit, y + 51, stroke=SOFT, width=1)


def whole_frame(p, x, y, lengths):
    parts, unit = frame_parts(lengths), 13
    title = f"A frame with two messages, of {lengths[0]} and {lengths[1]} bytes of data"
    p.text(x, y - 48, title, 17, "start", bold=True)
    p.text(x, y - 28, "Offsets in bytes from the frame's first. All numbers little endian. At most 9,000 bytes.",
           12, "start", SOFT)
    frame_bar(p, x, y, unit, parts)
    p.text(x, y + 66, "ticks: offsets 10 + 8k; a message header starts at these alone", 11, "start", SOFT)
    _, end, second = parts[3]
    p.line(x + (end + second) / 2 * unit, y + 46, x + (end + second) / 2 * unit, y + 72, stroke=SOFT, width=1)
    p.lines(x + end * unit - 4, y + 84, [
        f"gap {end} to {second - 1}: written as zeros, ignored on reading;",
        f"{second} = 10 + 8 * {(second - 10) // 8} is the first such offset not before {end}",
    ], 11, "start")
    p.lines(x + parts[-1][2] * unit, y + 118, [
        "nothing is padded after the last message;",
        "a reader ignores whatever stands there",
    ], 11, "end", RED_INK)


def frame_header(p, x, y):
    p.text(x, y - 24, "Frame header, 10 bytes", 15, "start", bold=True)
    strip(p, x, y, 60, FRAME_HEADER, BLUE)
    p.lines(x + 636, y + 6, [
        "flags: bit 0 is set exactly if there is at least",
        "one message; bits 1 to 7 are zero (else refusal 4)",
        "ACKCount n > 0 acknowledges n frame numbers",
        "from ACKStart on, modulo 65,536; with n = 0",
        "ACKStart is written 0 and ignored on reading",
    ], 11.5, "start", lead=1.3)


def message_header(p, x, y):
    p.text(x, y - 24, "Message header, 24 bytes; offsets from its own start", 15, "start", bold=True)
    strip(p, x, y, 40, MESSAGE_HEADER, GREEN)
    p.lines(x, y + 88, [
        "trailing: written 1 where another message follows, 0 at the last; 0 is read as \"last\", all else as "
        "\"another follows\"",
        "unused: written 0, ignored on reading",
        "data: follows the header at once, as many bytes as data length says",
        "completion: its 4-byte value goes to its address, straight after the data of the message that completes the "
        "transaction",
        "count 0: one bare message of data length 0, which carries the completion alone",
    ], 11.5, "start", lead=1.5)


def acknowledgement(p, x, y):
    p.text(x, y - 8, "Acknowledgement frame: a frame header alone", 15, "start", bold=True)
    p.text(x, y + 14, "10 bytes, flags 0; the frame number is the one that its sender's next message frame will have",
           11.5, "start")
    p.text(x, y + 32, "of frame 0, from 1 to 2:", 11.5, "start", SOFT)
    p.text(x + 160, y + 32, "0200 0100 0000 0000 01 00", 12, "start", mono=True)


def draw_frame():
    p = Picture("frame.svg", 1020, 656, "A frame with two messages, its headers and their offsets")
    whole_frame(p, 30, 78, (5, 4))
    frame_header(p, 30, 250)
    message_header(p, 30, 394)
    acknowledgement(p, 30, 600)
    return p


# ---- the windows

FRAMES, WINDOW, HALF = 65536, 64, 32768
TRANSACTIONS, OPEN = 2 ** 32, 32


def point(cx, cy, r, turn):
    """The point at a part `turn` of a whole turn, clockwise from the top."""
    angle = 2 * math.pi * turn
    return cx + r * math.sin(angle), cy - r * math.cos(angle)


def arc(p, cx, cy, inner, outer, start, end, fill):
    (a, b), (c, d) = point(cx, cy, outer, start), point(cx, cy, outer, end)
    (e, f), (g, h) = point(cx, cy, inner, end), point(cx, cy, inner, start)
    large = 1 if end - start > 0.5 else 0
    p.path(
        f"M{num(a)} {num(b)}A{outer} {outer} 0 {large} 1 {num(c)} {num(d)}L{num(e)} {num(f)}"
        f"A{inner} {inner} 0 {large} 0 {num(g)} {num(h)}z", fill=fill,
    )


def direction(p, cx, cy, r):
    (a, b), (c, d) = point(cx, cy, r, 0.55), point(cx, cy, r, 0.70)
    p.path(f"M{num(a)} {num(b)}A{r} {r} 0 0 1 {num(c)} {num(d)}", stroke=SOFT, arrow=True)


def edge_label(p, cx, cy, r, turn, words, colour=INK):
    (a, b), (c, d) = point(cx, cy, r, turn), point(cx, cy, r + 12, turn)
    p.line(a, b, c, d, stroke=SOFT, width=1)
    side = math.sin(2 * math.pi * turn)
    anchor = "start" if side > 0.05 else "end" if side < -0.05 else "middle"
    tx, ty = point(cx, cy, r + 17, turn)
    p.text(tx, ty + 4, words, 12, anchor, colour, mono=True)


def frame_ring(p, cx, cy):
    inner, outer = 92, 132
    arc(p, cx, cy, inner, outer, 0.0, 0.14, GREEN)
    arc(p, cx, cy, inner, outer, 0.14, 0.5, RED)
    arc(p, cx, cy, inner, outer, 0.5, 1.0, AMBER)
    p.lines(cx, cy - 38, ["d = (number - next)", f"mod {grouped(FRAMES)}"], 12)
    direction(p, cx, cy, 74)
    p.text(cx, cy + 22, "numbers grow", 11, colour=SOFT)
    p.text(cx, cy + 38, "clockwise", 11, colour=SOFT)
    for turn, words in [(0.022, "0 = next"), (0.118, str(WINDOW - 1)), (0.165, str(WINDOW)), (0.475, grouped(HALF - 1)),
                        (0.525, grouped(HALF)), (0.978, grouped(FRAMES - 1))]:
        edge_label(p, cx, cy, outer, turn, words)


def verdicts(p, x, y, rows):
    for i, (fill, left, right) in enumerate(rows):
        p.rect(x, y + 24 * i - 12, 15, 15, fill)
        p.text(x + 24, y + 24 * i, left, 12, "start", mono=True)
        p.text(x + 182, y + 24 * i, right, 12, "start")


def transaction_ring(p, cx, cy):
    inner, outer = 92, 132
    arc(p, cx, cy, inner, outer, 0.0, 0.14, GREEN)
    arc(p, cx, cy, inner, outer, 0.14, 1.0, RED)
    p.lines(cx, cy - 38, ["e = (number - lowest)", "mod " + grouped(TRANSACTIONS)], 11.5)
    direction(p, cx, cy, 74)
    p.text(cx, cy + 22, "numbers grow", 11, colour=SOFT)
    p.text(cx, cy + 38, "clockwise", 11, colour=SOFT)
    last = grouped(TRANSACTIONS - 1)
    for turn, words in [(0.022, "0 = lowest"), (0.118, str(OPEN - 1)), (0.165, str(OPEN)), (0.978, last)]:
        edge_label(p, cx, cy, outer, turn, words)


def cells(p, x, y, first, space, marked, shown, window, note):
    """The first cells of a window from `first` on, with the marked ones filled, and its last."""
    wide = 54 if space == FRAMES else 98
    p.text(x, y - 10, note, 12, "start")
    for i in range(shown):
        number = (first + i) % space
        p.rect(x + i * wide, y, wide, 26, GREEN if number in marked else "#ffffff")
        p.text(x + i * wide + wide / 2, y + 17, grouped(number), 11, mono=True)
        p.text(x + i * wide + wide / 2, y + 40, str(i), 10, colour=SOFT, mono=True)
    p.text(x + shown * wide + 22, y + 17, ". . .", 12)
    last = (first + window - 1) % space
    p.rect(x + shown * wide + 44, y, 54, 26, GREEN if last in marked else "#ffffff")
    p.text(x + shown * wide + 71, y + 17, grouped(last), 11, mono=True)
    p.text(x + shown * wide + 71, y + 40, str(window - 1), 10, colour=SOFT, mono=True)


def passed(first, space, marked):
    """Where the window starts once it has moved past consecutive marked numbers."""
    while first in marked:
        first = (first + 1) % space
    return first


def draw_windows():
    p = Picture("windows.svg", 1040, 860, "The window of 64 frame numbers and the window of 32 transactions")
    p.text(30, 32, "Frame numbers at the host: a window of 64 of 65,536", 15, "start", bold=True)
    p.text(540, 32, "Transactions at the host: a window of 32 of 2^32", 15, "start", bold=True)
    frame_ring(p, 265, 220)
    transaction_ring(p, 795, 220)
    p.text(30, 52, "not to scale: the windows are drawn larger than they are", 11, "start", SOFT)
    verdicts(p, 30, 408, [
        (GREEN, "0 to 63", "in the window: judged; again if accepted before"),
        (RED, "64 to 32,767", "ahead: refusal 6"),
        (AMBER, "32,768 to 65,535", "behind: again"),
    ])
    verdicts(p, 600, 408, [
        (GREEN, "0 to 31", "in the window: judged; 8 if closed"),
        (RED, "32 to 4,294,967,295", "outside: refusal 7"),
    ])
    first, marked = 65530, {65531, 65532, 3}
    p.text(30, 510, "The window wraps with the numbers", 16, "start", bold=True)
    said = "next is 65,530; 65,531, 65,532 and 3 are accepted (3 has d = 9):"
    cells(p, 30, 548, first, FRAMES, marked, 11, WINDOW, said)
    moved = passed(first, FRAMES, marked | {first})
    cells(p, 30, 634, moved, FRAMES, marked, 11, WINDOW,
          f"65,530 is accepted: next moves past every consecutive accepted number, to {grouped(moved)} "
          f"(3 has d = {(3 - moved) % FRAMES}):")
    p.text(30, 700, f"With next 3, frame 65,530 has d = {grouped((65530 - 3) % FRAMES)}: behind.", 12, "start")
    lowest = 4294967290
    cells(p, 30, 754, lowest, TRANSACTIONS, set(), 8, OPEN,
          f"Transactions: lowest not complete 4,294,967,290; number {(lowest + 31) % TRANSACTIONS} is the last in the "
          "window, "
          f"{(lowest + 32) % TRANSACTIONS} gets refusal 7:")
    p.lines(30, 826, [
        "The card's side: with 64 sealed frames not released no message is added (21); with 32 transactions from the",
        "lowest unfinished one on, open or finished, none is opened (20).",
    ], 12, "start", lead=1.5)
    return p


# ---- lives

STATE_W, STATE_H = 150, 54


def state(p, x, y, name, under, fill):
    p.rect(x, y, STATE_W, STATE_H, fill, round=8)
    p.text(x + STATE_W / 2, y + 23, name, 14, bold=True)
    p.text(x + STATE_W / 2, y + 42, under, 10.5, colour=SOFT)


def step_to(p, x, y, above, below=()):
    """The arrow from the state at x to the one on its right, with what brings it about."""
    start, end = x + STATE_W, x + 283
    p.line(start, y + STATE_H / 2, end - 1, y + STATE_H / 2, arrow=True)
    for i, row in enumerate(above):
        p.text((start + end) / 2, y + STATE_H / 2 - 6 - 13 * (len(above) - 1 - i), row, 10.5)
    for i, row in enumerate(below):
        p.text((start + end) / 2, y + STATE_H / 2 + 15 + 13 * i, row, 10.5)


def meanwhile(p, x, y, rows):
    """What may happen in a state without leaving it."""
    for i, row in enumerate(rows):
        p.text(x + STATE_W / 2, y + STATE_H + 17 + 14 * i, row, 10.5, colour=INK)


def lane(p, y, title, states, steps, whiles):
    p.text(24, y - 18, title, 15, "start", bold=True)
    for i, (name, under, fill) in enumerate(states):
        state(p, 24 + 283 * i, y, name, under, fill)
        meanwhile(p, 24 + 283 * i, y, whiles[i])
    for i, (above, below) in enumerate(steps):
        step_to(p, 24 + 283 * i, y, above, below)


def card_frame(p, y):
    lane(p, y, "A frame at the card", [
        ("being built", "in slot number mod 64", BLUE),
        ("held", "sealed, not acknowledged", GREEN),
        ("acknowledged", "its slot stays taken", AMBER),
        ("released", "its slot is free", GREY),
    ], [
        (["seal: it gets the", "next frame number"], []),
        (["an arriving", "range covers it"], []),
        (["all sealed before it", "are acknowledged"], ["(at once where they", "already are)"]),
    ], [
        ["starts with its first message", "64 sealed not released: 21", "a message past L: 22"],
        ["shown as often as asked for;", "chosen if the oldest held and", "no acknowledgement is lent"],
        ["no longer shown: 25", "counts among the 64 of 21"],
        ["further acknowledgements", "of it are ignored"],
    ])


def host_frame(p, y):
    lane(p, y, "A frame's number at the host, d = (number - next) mod 65,536", [
        ("ahead", "d 64 to 32,767", RED),
        ("new", "d 0 to 63, not marked", BLUE),
        ("accepted", "d 1 to 63, marked", GREEN),
        ("behind", "d 32,768 to 65,535", AMBER),
    ], [
        (["next moves on:", "d falls below 64"], []),
        (["it arrives and no", "message is refused"], ["all take effect", "in their order"]),
        (["next moves", "past it"], ["(at once where", "it is next)"]),
    ], [
        ["arrives: refusal 6"],
        ["arrives, a message is refused:", "7 to 12, not a byte is written"],
        ["arrives: again"],
        ["arrives: again"],
    ])
    bottom = y + STATE_H + 26
    right, left = 24 + 283 * 3 + STATE_W / 2, 24 + STATE_W / 2
    p.path(f"M{num(right)} {bottom}V{bottom + 24}H{num(left)}V{bottom + 1}", stroke=SOFT, dash="4 3", arrow=True)
    said = "numbers wrap: d falls below 32,768, and a later frame has the number"
    p.text((left + right) / 2, bottom + 40, said, 10.5)
    p.text(24, bottom + 62,
           "Whatever the number: refusals 1 to 5 come first, then a clear flag is answered \"no messages\". "
           "Accepted and again are each acknowledged.", 11.5, "start", SOFT)


def card_transaction(p, y):
    lane(p, y, "A transaction at the card", [
        ("opened", "count and completion set", BLUE),
        ("adding", "some added, not all", BLUE),
        ("all added", "none more is taken", GREEN),
        ("finished", "marked, and stays so", GREY),
    ], [
        (["its first message", "is added"], []),
        (["its last message", "is added"], []),
        (["all its messages lie", "in released frames"], []),
    ], [
        ["it gets the next number;", "refusal 20 with 32 from the", "lowest unfinished one on"],
        ["add: one message more", "into the frame being built"],
        ["add: refusal 23", "frames are sealed,", "acknowledged, released"],
        ["add: refusal 23", "the window of 32 moves past", "consecutive finished ones"],
    ])
    p.text(24, y + 130, "Count n above 0 takes n messages; count 0 takes one bare message, without data (else 27). "
           "One message alone leads from opened to all added.", 11.5, "start", SOFT)


def host_transaction(p, y):
    lane(p, y, "A transaction's number at the host, e = (number - lowest) mod 4,294,967,296", [
        ("not open", "e 0 to 31", BLUE),
        ("open", "received < count", GREEN),
        ("closed", "e 1 to 31: complete", AMBER),
        ("passed", "outside the window", GREY),
    ], [
        (["its first message", "opens it"], []),
        (["received = count"], ["completion is written", "after that data"]),
        (["all from the lowest", "up to it are closed"], ["(at once where it", "is the lowest)"]),
    ], [
        ["count 0 with data: 10", "past the memory: 11, 12"],
        ["other count, completion", "address or value: 9", "past the memory: 11, 12"],
        ["a message of it:", "refusal 8"],
        ["a message of it:", "refusal 7"],
    ])
    p.text(24, y + 130,
           "Count 0 and count 1: the message that opens it closes it. A number outside the window, on either side: "
           "refusal 7.", 11.5, "start", SOFT)


def draw_lives():
    p = Picture("lives.svg", 1050, 770, "The life of a frame and of a transaction at the card and at the host")
    card_frame(p, 50)
    host_frame(p, 230)
    card_transaction(p, 434)
    host_transaction(p, 622)
    return p


# ---- a frame's journey

CARD_X, HOST_X = 108, 242


def note(p, x, y, side, tag, fill, rows=()):
    """What one end makes of what came: a word on a colour, and lines below it. Side -1 is the card's, 1 the host's."""
    anchor = "end" if side < 0 else "start"
    if tag:
        wide = len(tag) * 11 * 0.67 + 10
        p.rect(x - wide if side < 0 else x, y - 12, wide, 17, fill, round=5, width=0.8)
        p.text(x + side * wide / 2, y, tag, 11, bold=True)
    for i, row in enumerate(rows):
        p.text(x, y + (16 if tag else 0) + 13 * i, row, 10.5, anchor, INK if tag else SOFT)


def sent(p, x1, y1, x2, y2, words, dash=""):
    """An arrow through the network, with its name above the middle of it."""
    p.line(x1, y1, x2, y2, arrow=True, dash=dash)
    p.text((x1 + x2) / 2, (y1 + y2) / 2 - 12, words, 10.5, halo=GREY)


def lost(p, x1, y1, x2, words):
    """An arrow that ends in the network."""
    x, y = (x1 + x2) / 2 + (x2 - x1) / 12, y1 + 14
    p.line(x1, y1, x, y)
    for a in (-5, 5):
        p.line(x - 5, y - a, x + 5, y + a, stroke=RED_INK, width=2)
    p.text((x1 + x2) / 2, y1 - 6, words, 10.5, halo=GREY)


class Journey:
    """A cell of the picture: card, network and host side by side, time downwards. Times are pixels from its top."""

    def __init__(self, p, x, y, title, height):
        self.p, self.card, self.host, self.top = p, x + CARD_X, x + HOST_X, y + 50
        p.text(x + 8, y + 2, title, 14, "start", bold=True)
        p.rect(self.card, y + 34, self.host - self.card, height - 34, GREY, GREY)
        for at, name, fill in [(self.card, "card", BLUE), (self.host, "host", AMBER)]:
            p.line(at, y + 34, at, y + height, stroke=INK, width=1.6)
            p.rect(at - 24, y + 16, 48, 20, fill, round=5)
            p.text(at, y + 30, name, 12, bold=True)
        p.text((self.card + self.host) / 2, y + 30, "network", 10.5, colour=SOFT)

    def frame(self, start, end, words):
        sent(self.p, self.card, self.top + start, self.host - 1, self.top + end, words)

    def ack(self, start, end, words):
        sent(self.p, self.host, self.top + start, self.card + 1, self.top + end, words)

    def frame_lost(self, start, words):
        lost(self.p, self.card, self.top + start, self.host, words)

    def ack_lost(self, start, words):
        lost(self.p, self.host, self.top + start, self.card, words)

    def at_card(self, at, tag, fill=GREY, rows=()):
        note(self.p, self.card - 9, self.top + at, -1, tag, fill, rows)

    def at_host(self, at, tag, fill=GREY, rows=()):
        note(self.p, self.host + 9, self.top + at, 1, tag, fill, rows)


WAITING = ["still held: the", "caller has it sent", "again"]


def nothing_lost(p, x, y):
    j = Journey(p, x, y, "Nothing is lost", 254)
    j.at_card(16, "held", GREEN, ["sealed, and kept", "in its slot"])
    j.frame(20, 40, "frame 0")
    j.at_host(44, "accepted", GREEN, ["judged, written,", "number marked"])
    j.ack(76, 96, "acknowledges 0")
    j.at_card(104, "released", GREY, ["its slot is free"])


def frame_lost(p, x, y):
    j = Journey(p, x, y, "The frame is lost: it is sent again", 254)
    j.at_card(16, "held", GREEN)
    j.frame_lost(20, "frame 0")
    j.at_host(38, "", rows=["has not seen it"])
    j.at_card(58, "", rows=WAITING)
    j.frame(92, 112, "frame 0, resent")
    j.at_host(116, "accepted", GREEN, ["judged, written,", "number marked"])
    j.ack(148, 168, "acknowledges 0")
    j.at_card(176, "released", GREY)


def ack_lost(p, x, y):
    j = Journey(p, x, y, "The acknowledgement is lost", 254)
    j.at_card(16, "held", GREEN)
    j.frame(20, 40, "frame 0")
    j.at_host(44, "accepted", GREEN)
    j.ack_lost(64, "acknowledges 0")
    j.at_card(74, "", rows=WAITING)
    j.frame(108, 128, "frame 0, resent")
    j.at_host(132, "again", AMBER, ["not a byte is", "written; it is", "acknowledged"])
    j.ack(158, 178, "acknowledges 0")
    j.at_card(186, "released", GREY)


def repeated(p, x, y):
    j = Journey(p, x, y, "The frame is repeated by the network", 254)
    j.at_card(16, "held", GREEN)
    j.frame(20, 40, "frame 0")
    middle = (j.card + j.host) / 2
    x, y = num(middle), j.top
    bend = f"M{x} {num(y + 30)}C{x} {num(y + 80)} {x} {num(y + 96)} {num(j.host - 1)} {num(y + 116)}"
    p.path(bend, dash="4 3", arrow=True)
    j.at_host(44, "accepted", GREEN, ["judged, written,", "number marked"])
    j.ack(62, 82, "acknowledges 0")
    j.at_card(90, "released", GREY)
    p.text(middle - 4, j.top + 116, "a copy of it", 10.5, halo=GREY)
    j.at_host(120, "again", AMBER, ["not a byte is", "written; it is", "acknowledged"])
    j.ack(146, 166, "acknowledges 0")
    j.at_card(172, "", rows=["ignored: frame 0", "is released"])


def reordered(p, x, y):
    j = Journey(p, x, y, "Two frames change places", 254)
    j.at_card(16, "both held", GREEN)
    p.line(j.card, j.top + 16, j.host - 1, j.top + 126, arrow=True)
    p.text(j.card + 30, j.top + 22, "frame 0", 10.5, "start", halo=GREY)
    p.line(j.card, j.top + 46, j.host - 1, j.top + 60, arrow=True)
    p.text(j.host - 8, j.top + 48, "frame 1", 10.5, "end", halo=GREY)
    j.at_host(64, "accepted", GREEN, ["1 is marked,", "next stays 0"])
    p.line(j.host, j.top + 84, j.card + 1, j.top + 104, arrow=True)
    p.text(j.card + 6, j.top + 119, "acknowledges 1", 10.5, "start", halo=GREY)
    j.at_card(108, "acknowledged", AMBER, ["1: not released", "before 0 is", "acknowledged"])
    j.at_host(130, "accepted", GREEN, ["next moves past", "both, to 2"])
    j.ack(158, 178, "acknowledges 0 and 1")
    j.at_card(182, "released", GREY, ["0, and 1 with it"])


def in_every_case(p, x, y):
    p.text(x + 8, y + 2, "In every case", 14, "start", bold=True)
    p.lines(x + 8, y + 32, [
        "The card keeps a frame until it, and every frame",
        "sealed before it, is acknowledged. When to send a",
        "held frame again the caller decides: there are no",
        "timers.",
        "",
        "The host acknowledges each copy that it answers",
        "accepted or again, and with it the run of numbers",
        "from there on that are accepted or behind. Only the",
        "first copy is written and counted.",
        "",
        "A refused frame is not acknowledged and changes",
        "nothing; it stays held.",
        "",
        "Nothing is altered or invented, and nothing comes",
        "more than 32,768 numbers late: the theorem's",
        "premises.",
    ], 11.5, "start", lead=1.22)


def draw_journey():
    p = Picture("journey.svg", 1070, 576,
                "A frame's journey from the card to the host, its acknowledgement, and what happens where each is lost")
    cells = [nothing_lost, frame_lost, ack_lost, repeated, reordered, in_every_case]
    for i, cell in enumerate(cells):
        cell(p, 10 + 354 * (i % 3), 24 + 284 * (i // 3))
    return p


# ---- a table of cards

# Of three cards: the ID, and the first byte and the length of its region, in a memory of 1,000 bytes.
CARDS = [(2, 0, 300, BLUE), (7, 300, 250, GREEN), (3, 650, 200, AMBER)]
MEMORY = 1000


def table_words(p, x, y):
    """The words of a table, not to scale: our ID, sources, first bytes, lengths, and one pair for each place."""
    p.text(x, y - 24, "the table: 1,121 words that the caller lends", 13, "start", bold=True)
    columns = [("ID", 44, "1"), ("16 sources", 96, "16"), ("16 first bytes", 116, "16"), ("16 lengths", 100, "16")]
    for name, wide, size in columns:
        p.rect(x, y, wide, 46, GREY)
        p.text(x + wide / 2, y + 20, name, 12)
        p.text(x + wide / 2, y + 38, f"{size} word{'s' * (size != '1')}", 10, colour=SOFT)
        x += wide
    centres = []
    for source, _, _, fill in CARDS:
        p.rect(x, y, 112, 46, fill)
        p.text(x + 56, y + 20, f"pair of card {source}", 12)
        p.text(x + 56, y + 38, "67 words", 10, colour=SOFT)
        centres.append(x + 56)
        x += 112
    p.rect(x, y, 188, 46, "#ffffff", RULE, dash="4 3")
    p.text(x + 94, y + 20, "13 free places", 12, colour=SOFT)
    p.text(x + 94, y + 38, "67 words each, all 0", 10, colour=SOFT)
    return centres


def table_memory(p, x, y, unit):
    """The memory with the cards' regions to scale."""
    p.text(x, y + 84, "one memory, lent to each call", 13, "start", bold=True)
    p.rect(x, y, MEMORY * unit, 46, "#ffffff", RULE)
    p.text(x + 600 * unit, y + 28, "no card's", 11, colour=SOFT)
    p.text(x + 925 * unit, y + 28, "no card's", 11, colour=SOFT)
    for source, first, size, fill in CARDS:
        p.rect(x + first * unit, y, size * unit, 46, fill)
        p.text(x + (first + size / 2) * unit, y + 20, f"region of card {source}", 12)
        p.text(x + (first + size / 2) * unit, y + 38, f"{size} bytes", 10, colour=SOFT)
        p.text(x + first * unit, y + 60, f"byte {first} is its address 0", 11, "start", SOFT)


def draw_table():
    p = Picture("table.svg", 960, 330, "A table of cards: the words of a table, and the regions of one memory")
    x, unit = 30, 0.9
    centres = table_words(p, x, 60)
    table_memory(p, x, 220, unit)
    for (_, first, size, _), centre in zip(CARDS, centres):
        p.line(centre, 106, x + (first + size / 2) * unit, 219, arrow=True)
    p.text(x, 150, "A frame from card 7 changes only", 12, "start", SOFT)
    p.text(x, 168, "its pair and its region.", 12, "start", SOFT)
    return p


# ---- the house

KIT = "kit"
# Of each floor its colour and where it is drawn: left, right, row from above. A row is as high as its fullest floor.
FLOORS = {
    "program": (ROSE, 30, 480, 0), "C": (TEAL, 520, 970, 0), "face": (TEAL, 30, 970, 1), "theorem": (VIOLET, 30, 970, 2),
    "above": (ROSE, 30, 660, 3), "host": (AMBER, 30, 480, 4), "card": (GREEN, 520, 970, 4), "wire": (BLUE, 30, 970, 5),
    "ground": (GREY, 30, 700, 6), KIT: ("#ffffff", 740, 970, 6),
}
# The two ends do not see each other, though one stands before the other in crates.txt.
APART = {"host", "card"}
# The handful of arrows, each from a floor to one that it stands on, and the x at which it is drawn; floors beside each
# other are joined from edge to edge.
STANDS = [("program", "face", None), ("C", "face", 745), ("face", "theorem", None), ("theorem", "above", 255),
          ("above", "host", 255), ("theorem", "card", 815), ("host", "wire", 255), ("card", "wire", 745),
          ("wire", "ground", 345), ("ground", KIT, None)]
HEADING = re.compile(r"## ((\w+)[\w ]*?)(?: \[([\w ]+)\])?: (.+)")


class Crate:
    """A crate: its floor, the label of its row there, and the crates that it sees."""

    def __init__(self, floor, row, sees):
        self.floor, self.row, self.sees = floor, row, sees


def read_crates():
    """The crates and the titles of the floors, in the order of crates.txt. A crate's name begins with a word of its floor, and
    it sees its own floor and those before it; all that crates.txt does not list is the kit's."""
    found, titles, words, row = {}, {}, [], ""
    for line in CRATES.read_text(encoding="utf-8").splitlines():
        if heading := HEADING.fullmatch(line):
            title, floor, own, says = heading.groups()
            words, titles[floor], row = (own or floor).split(), f"{title}: {says}", ""
        elif line.startswith("# ") and titles:
            row = line[2:]
        elif ":" in line and not line.startswith("#"):
            said, _, seen = line.partition(":")
            # Behind the name may stand that it is a static library.
            name = said.split()[0]
            if name.split("_")[0] not in words:
                raise SystemExit(f"make.py: the name of crate '{name}' begins with no word of its floor, {floor}")
            found[name] = Crate(floor, row, seen.split())
    for name, crate in found.items():
        for b in crate.sees:
            below = found[b].floor if b in found else KIT
            order = [KIT, *titles]
            if order.index(below) > order.index(crate.floor) or {below, crate.floor} == APART:
                raise SystemExit(f"make.py: crate '{name}' of floor {crate.floor} may not see '{b}' of floor {below}")
    return found, titles


def lines_of(rows, left, right):
    """The crates of a floor in lines: each row begins one, and goes on in the next where it has no more room. A line is the
    row's label, and each crate's name with its left edge and its width."""
    lines = []
    indent = 14 + 7 * max(len(label) for label in rows) if any(rows) else 14
    for label, names in rows.items():
        lines.append((label, []))
        x = left + indent
        for name in names:
            wide = 18 + 7.9 * len(name)
            if lines[-1][1] and x + wide > right - 8:
                lines.append(("", []))
                x = left + indent
            lines[-1][1].append((name, x, wide))
            x += wide + 10
    return lines


def draw_crates(found, titles):
    kits = sorted({b for crate in found.values() for b in crate.sees if b not in found})
    rows = {floor: {} for floor in FLOORS}
    for name, crate in found.items():
        rows[crate.floor].setdefault(crate.row, []).append(name)
    rows[KIT], titles = {"": kits}, {**titles, KIT: "the Rattle kit's libraries"}
    lines = {floor: lines_of(rows[floor], left, right) for floor, (_, left, right, _) in FLOORS.items()}
    levels = range(1 + max(level for _, _, _, level in FLOORS.values()))
    high = [40 + 36 * max(len(lines[f]) for f in FLOORS if FLOORS[f][3] == level) for level in levels]
    top = [56 + sum(high[:level]) + 34 * level for level in levels]
    p = Picture("crates.svg", 1000, top[-1] + high[-1] + 40, "The house: floors, their crates, and which floor stands on which")
    p.text(30, 28, "A floor stands on those that its arrows lead to, and on what is below them.", 12.5, "start", SOFT)
    for floor, (fill, left, right, level) in FLOORS.items():
        p.rect(left, top[level], right - left, high[level], fill, RULE, 10, "4 3" if floor == KIT else "", 0.8)
        p.text(left + 14, top[level] + 20, titles[floor], 11.5, "start", SOFT)
        for i, (label, names) in enumerate(lines[floor]):
            if label:
                p.text(left + 14, top[level] + 51 + 36 * i, label, 11.5, "start", SOFT)
            for name, x, wide in names:
                p.rect(x, top[level] + 32 + 36 * i, wide, 28, "#ffffff", round=5)
                p.text(x + wide / 2, top[level] + 51 + 36 * i, name, 13, mono=True)
    for above, below, x in STANDS:
        draw_stand(p, FLOORS[above], FLOORS[below], x, top, high)
    return p


def draw_stand(p, above, below, x, top, high):
    """An arrow from a floor to one that it stands on."""
    (_, left, right, level), (_, left2, right2, level2) = above, below
    y = top[level] + high[level] / 2
    if level != level2:
        x = (left + right) / 2 if x is None else x
        p.line(x, top[level] + high[level], x, top[level2], arrow=True)
    elif left < left2:
        p.line(right, y, left2, y, arrow=True)
    else:
        p.line(left, y, right2, y, arrow=True)


# ---- writing and checking


def pictures():
    return [draw_frame(), draw_windows(), draw_lives(), draw_journey(), draw_table(), draw_crates(*read_crates())]


def check(made):
    wrong = [name for name, text in made.items() if not (HERE / name).is_file() or (HERE / name).read_bytes() != text]
    strange = sorted(f.name for f in HERE.glob("*.svg") if f.name not in made)
    for name in wrong:
        print(f"docs/pictures/{name} is not what make.py makes: run 'make pictures'")
    for name in strange:
        print(f"docs/pictures/{name} is made by nothing")
    if wrong or strange:
        sys.exit(1)
    print(f"{len(made)} pictures are as make.py makes them")


def main(arguments):
    made = {p.name: p.render().encode() for p in pictures()}
    if arguments == ["--check"]:
        check(made)
    elif arguments:
        sys.exit("make.py: the only argument is --check")
    else:
        for name, text in made.items():
            (HERE / name).write_bytes(text)


if __name__ == "__main__":
    main(sys.argv[1:])
