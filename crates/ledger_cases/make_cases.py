#!/usr/bin/env python3
"""Makes this crate's stdin and stdout, and the sample month with its answers (samples/).

Written from document 01 ("The ledger", "Frames", "Numbers that are turned away") and document 02 (#101) alone: an independent model, on whole numbers and
dictionaries, of what the program `ledger` prints. A case is its heading, a byte 01, the input, a byte 00; no input here has either byte.
"""
import os
import random

HERE = os.path.dirname(os.path.abspath(__file__))
OPEN, POST, REPLACE, WITHDRAW, BASIC, CLOSE, EXCESS = range(7)


def frame(kind, day=0, hour=0, amount=0):
    body = bytes([kind, day, hour]) + (amount % 2**64).to_bytes(8, "big")
    return (body + bytes([sum(body) % 256])).hex().upper().encode()


def is_digit(byte):
    return ord("0") <= byte <= ord("9") or ord("A") <= byte <= ord("F")


def read(line):
    """The refusal, or the entry."""
    if len(line) != 24:
        return 1
    if not all(is_digit(b) for b in line):
        return 11
    body = bytes.fromhex(line.decode())
    if sum(body[:11]) % 256 != body[11]:
        return 12
    kind, day, hour = body[:3]
    amount = int.from_bytes(body[3:11], "big", signed=True)
    if kind > EXCESS:
        return 13
    unused = {OPEN: (hour, amount), WITHDRAW: (amount,), BASIC: (day, hour), EXCESS: (day, hour), CLOSE: (day, hour, amount)}.get(kind, ())
    return 13 if any(unused) else (kind, day, hour, amount)


class Desk:
    def __init__(self):
        self.days, self.hours, self.fees, self.closed = None, {}, {BASIC: 0, EXCESS: 0}, False

    def take(self, entry):
        kind, day, hour, amount = entry
        if (kind == OPEN) != (self.days is None):
            return 14
        if kind == OPEN:
            if not 28 <= day <= 31:
                return 6
            self.days = day
            return 0
        if self.closed:
            return 9
        if kind == CLOSE:
            self.closed = True
            return 0
        if kind in self.fees:
            if not 0 <= amount <= 10**11:
                return 3
            self.fees[kind] = amount
            return 0
        if not (1 <= day <= self.days and hour <= 23):
            return 6
        if kind != WITHDRAW and not -(10**9) <= amount <= 10**9:
            return 3
        place = (day, hour)
        if kind == POST:
            if place in self.hours:
                return 7
            self.hours[place] = amount
            return 0
        if place not in self.hours:
            return 8
        if kind == REPLACE:
            self.hours[place] = amount
        else:
            del self.hours[place]
        return 0


def transcript(data):
    lines = data.split(b"\n")
    if lines[-1] == b"":
        lines.pop()
    desk, said = Desk(), []
    for number, line in enumerate(lines[:1000000], 1):
        entry = read(line)
        said.append(f"{number} {entry if isinstance(entry, int) else desk.take(entry)}\n")
    return ("".join(said) + f"total {sum(desk.hours.values()) - sum(desk.fees.values())}\n").encode()


def lines(*parts):
    return b"".join(part + b"\n" for part in parts)


def damaged(line):
    """The line with another sum."""
    return line[:22] + (b"00" if line[22:] != b"00" else b"01")


def month():
    """October, 31 days: 744 posts, an hour that the logger sent twice, corrections, a torn line, the basic loss fee set twice, the close, a late post. No frame is of kind 06."""
    chance = random.Random(31)
    entries = [frame(OPEN, 31)]
    for day in range(1, 32):
        for hour in range(24):
            amount = chance.randint(3900, 4700) if chance.random() < 0.93 else -chance.randint(3500, 9000)
            entries.append(frame(POST, day, hour, amount))
            if (day, hour) == (25, 1):
                entries.append(frame(POST, day, hour, 4275))
    entries += [frame(REPLACE, 12, 17, 4350), frame(WITHDRAW, 19, 4), frame(POST, 19, 4, -7900), frame(REPLACE, 32, 0, 1)]
    entries += [frame(POST, 31, 23, 4400)[:17], frame(BASIC, 0, 0, 151200), frame(BASIC, 0, 0, 100800), frame(CLOSE), frame(POST, 8, 8, 4430)]
    return lines(*entries)


LEAST, LARGEST = -(2**63), 2**63 - 1
OPENED = frame(OPEN, 30)

CASES = [
    ("document 01's sample", lines(frame(OPEN, 31), frame(POST, 3, 10, 7800), frame(POST, 3, 10, 6280), frame(BASIC, 0, 0, 8658))),
    (
        "every refusal: 1, 11, 12, 13 twice, 14, 6 and 14, then 14, 6 four times, 3 four times, 7, 8 twice, 9 twice",
        lines(
            b"01",
            b"G" + OPENED[1:],
            damaged(OPENED),
            frame(7),
            frame(OPEN, 30, 1),
            frame(POST, 1, 0, 5),
            frame(OPEN, 27),
            frame(CLOSE),
            OPENED,
            OPENED,
            frame(POST, 31, 0, 5),
            frame(POST, 0, 0, 5),
            frame(REPLACE, 1, 24, 5),
            frame(WITHDRAW, 255, 255),
            frame(POST, 1, 0, 10**9 + 1),
            frame(REPLACE, 1, 0, -(10**9) - 1),
            frame(BASIC, 0, 0, 10**11 + 1),
            frame(BASIC, 0, 0, -1),
            frame(POST, 1, 0, 5),
            frame(POST, 1, 0, 5),
            frame(REPLACE, 1, 1, 5),
            frame(WITHDRAW, 1, 1),
            frame(CLOSE),
            frame(POST, 31, 0, 5),
            frame(CLOSE),
        ),
    ),
    ("months of 27 to 32 days", b"".join(lines(frame(OPEN, days)) for days in (27, 32, 0, 255, 28))),
    ("a month of 28 days and its last day", lines(frame(OPEN, 28), frame(POST, 28, 23, 1), frame(POST, 29, 0, 1))),
    ("a month of 29 days and its last day", lines(frame(OPEN, 29), frame(POST, 29, 23, 1), frame(POST, 30, 0, 1))),
    ("a month of 30 days and its last day", lines(frame(OPEN, 30), frame(POST, 30, 23, 1), frame(POST, 31, 0, 1))),
    ("a month of 31 days and its last day", lines(frame(OPEN, 31), frame(POST, 31, 23, 1), frame(POST, 32, 0, 1))),
    ("an hour that comes twice is refused, and the first one stands", lines(OPENED, frame(POST, 29, 1, 410), frame(POST, 29, 1, 395))),
    (
        "a replaced hour, a withdrawn one, and one that is posted again",
        lines(
            OPENED,
            frame(POST, 4, 0, 100),
            frame(REPLACE, 4, 0, -250),
            frame(POST, 4, 1, 30),
            frame(WITHDRAW, 4, 1),
            frame(WITHDRAW, 4, 1),
            frame(REPLACE, 4, 1, 7),
            frame(POST, 4, 1, 8),
        ),
    ),
    ("a basic fee replaces the former", lines(OPENED, frame(BASIC, 0, 0, 900), frame(BASIC, 0, 0, 40), frame(BASIC, 0, 0, 10**11 + 1))),
    (
        "document 01's loss example: the basic fee set twice, the excess fee once",
        lines(frame(OPEN, 31), frame(POST, 1, 0, 300000), frame(BASIC, 0, 0, 1), frame(BASIC, 0, 0, 151200), frame(EXCESS, 0, 0, 100800)),
    ),
    (
        "each fee replaces its own former and leaves the other",
        lines(
            OPENED,
            frame(EXCESS, 0, 0, 7),
            frame(BASIC, 0, 0, 900),
            frame(EXCESS, 0, 0, 40),
            frame(EXCESS, 0, 0, 10**11 + 1),
            frame(EXCESS, 0, 0, -1),
            frame(BASIC, 0, 0, 5),
            frame(EXCESS, 0, 0, 0),
        ),
    ),
    (
        "an excess fee: with an hour, with a day, before a month is open, the largest beside the largest basic fee, after the close",
        lines(
            frame(EXCESS, 0, 0, 1),
            OPENED,
            frame(EXCESS, 0, 1, 1),
            frame(EXCESS, 1, 0, 1),
            frame(EXCESS, 0, 0, 10**11),
            frame(BASIC, 0, 0, 10**11),
            frame(CLOSE),
            frame(EXCESS, 0, 0, 1),
        ),
    ),
    (
        "the largest and the least amounts and fees that are taken",
        lines(OPENED, frame(POST, 1, 0, 10**9), frame(POST, 1, 1, -(10**9)), frame(BASIC, 0, 0, 10**11), frame(POST, 1, 2, -(10**9))),
    ),
    (
        "the least and the largest 64-bit amount",
        lines(
            OPENED,
            frame(POST, 1, 0, LEAST),
            frame(POST, 1, 0, LARGEST),
            frame(POST, 1, 0, 1),
            frame(REPLACE, 1, 0, LEAST),
            frame(REPLACE, 1, 0, LARGEST),
            frame(BASIC, 0, 0, LEAST),
            frame(BASIC, 0, 0, LARGEST),
            frame(WITHDRAW, 1, 0, LEAST),
            frame(CLOSE, 0, 0, LARGEST),
        ),
    ),
    ("lower-case digits", lines(OPENED, frame(POST, 3, 10, 6280).lower(), frame(POST, 3, 10, 6280))),
    (
        "each of the sixteen digits; the bytes beside them, and beside a and f",
        lines(OPENED, frame(0x01, 0x23, 0x45, 0x6789ABCDEF000000), *(OPENED[:23] + bytes([b]) for b in b"/:@G`g")),
    ),
    ("a logger's frame is of no kind that the ledger knows", lines(frame(0x10, 0, 0, 0), OPENED, frame(0x10, 0, 1, 0x4270000042C80000), frame(POST, 1, 0, 5))),
    ("a carriage return before the line end", b"".join(line + b"\r\n" for line in (OPENED, frame(POST, 1, 0, 5)))),
    ("a space before, a space after, a tab between", lines(b" " + OPENED, OPENED + b" ", OPENED[:12] + b"\t" + OPENED[13:])),
    ("an empty line between two frames", lines(OPENED, b"", frame(POST, 1, 0, 5))),
    ("nothing but three line ends", b"\n\n\n"),
    ("a last line with its end", OPENED + b"\n" + frame(POST, 1, 0, 5) + b"\n"),
    ("a last line without its end", OPENED + b"\n" + frame(POST, 1, 0, 5)),
    ("a last line that is cut short", OPENED + b"\n" + frame(POST, 1, 0, 5)[:23]),
    ("one byte too many", OPENED + b"0\n" + OPENED),
    ("a line of 100,000 bytes between two frames", OPENED + b"\n" + b"0" * 100000 + b"\n" + frame(POST, 1, 0, 5) + b"\n"),
    ("a last line of 100,000 bytes", OPENED + b"\n" + b"F" * 100000),
    ("nothing", b""),
    ("the sample month: frames 00 to 05, as before there was kind 06", month()),
    ("no open", lines(frame(POST, 1, 0, 5), frame(BASIC, 0, 0, 5), frame(CLOSE), b"")),
    ("a refused open, and no other", lines(frame(OPEN, 32), frame(POST, 1, 0, 5))),
    (
        "frames after close",
        lines(
            OPENED,
            frame(POST, 1, 0, 5),
            frame(CLOSE),
            frame(POST, 1, 1, 5),
            frame(REPLACE, 1, 0, 6),
            frame(WITHDRAW, 1, 0),
            frame(BASIC, 0, 0, 1),
            frame(CLOSE),
            OPENED,
        ),
    ),
]


def keep(path, data):
    with open(os.path.join(HERE, path), "wb") as out:
        out.write(data)


said = b""
for name, data in CASES:
    said += b"== " + name.encode() + b"\n" + transcript(data)
keep("stdin", b"".join(b"== " + name.encode() + b"\x01" + data + b"\x00" for name, data in CASES))
keep("stdout", said)
keep("../../samples/october", month())
keep("../../samples/october.answers", transcript(month()))
