#!/usr/bin/env python3
"""make_log.py [--check]: writes crates/list_log/stdin, a log longer than two pieces of 65,536 bytes that ends within a record, and crates/list_log/stdout, its listing, longer than two as well.

The listing is put together from what went into each record, and no frame is read: so it says what the program must print, and does not come from it. The log begins
with document 01's sample, records stand across the ends of the pieces, and each run writes the same. No program is needed. With --check nothing is written, and the status is 1
where what stands there differs.
"""
import pathlib
import sys

CRATE = pathlib.Path(__file__).resolve().parent.parent / "crates" / "list_log"
PIECE = 65536
SLOTS = (0x00, 0x01, 0x03, 0x07, 0x0F)
# Document 01's examples of the grounds: number, code and frame. I8 stands for an IDm.
GROUNDS = """1 --
2 -- 02
3 -- 01
4 14 0214
5 01 0201
6 04 0204
7 00 0200
8 04 0B04I800
9 02 0A02I8
10 02 0B02I800
11 06 0D06I8010B10
12 06 0E06I8010B1000
13 02 0B02I801
14 06 0E06I8010B1001
15 06 0F06I8010B100180
16 06 1006I8010B10010005
17 08 1008I8010910018000
18 70 04700001
19 00 0600FFFF0300
20 00 0600FFFF0002""".splitlines()
state = 1


def draw(below):
    global state
    state = (state * 1103515245 + 12345) % 2**31
    return (state >> 12) % below


def drawn(count):
    return bytes(draw(256) for _ in range(count))


def mark(code):
    return "s" if code == 0xFFFF else "a" if code % 64 < 2 else "ko"[code % 2]


def code_list(count):
    """Codes of every mark, as text and as they stand in a frame."""
    drawers = (lambda: 0xFFFF, lambda: draw(1024) * 64 + draw(2), lambda: draw(65536), lambda: 0x1009 + 64 * draw(16))
    codes = [drawers[draw(4)]() for _ in range(count)]
    return "".join(map(mark, codes)), bytes([count]) + b"".join(it.to_bytes(2, "little") for it in codes)


def elements(short, long):
    """So many short and long elements, each kind together, behind their count."""
    of_short = [bytes([0x80 | draw(128), draw(256)]) for _ in range(short)]
    of_long = [bytes([draw(128)]) + drawn(2) for _ in range(long)]
    return bytes([short + long]) + b"".join(of_short + of_long if draw(2) else of_long + of_short)


def accepted(code, *parts, marks="", short=0, long=0):
    """A frame, its line behind the ordinal, and how many blocks it has."""
    body = bytes([code]) + b"".join(parts)
    blocks = short + long
    return bytes([1 + len(body)]) + body, f"OK {code:02X} {len(marks)} {blocks} {long} {marks or '-'}", blocks


def refused():
    number, code, *frame = GROUNDS[draw(len(GROUNDS))].split()
    return bytes.fromhex("".join(frame).replace("I8", drawn(8).hex())), f"NO {number} {code}", 0


def of_wrong_size():
    return bytes([1 + draw(9)]) + drawn(11), "NO 2 --", 0


def polling():
    return accepted(0x00, drawn(2), bytes([draw(3), SLOTS[draw(5)]]))


def plain():
    code, behind = ((0x04, b""), (0x0A, drawn(2)), (0x12, drawn(8)), (0x1A, drawn(4)), (0x22, bytes(2)), (0x24, drawn(2)))[draw(6)]
    return accepted(code, drawn(8), behind)


def request():
    marks, codes = code_list(1 + draw(32))
    return accepted((0x02, 0x0E, 0x1E, 0x32)[draw(4)], drawn(8), codes, marks=marks)


def authentication():
    areas, area_codes = code_list(draw(33))
    services, service_codes = code_list(draw(33))
    return accepted(0x10, drawn(8), area_codes, service_codes, drawn(8), marks=areas + services)


def read():
    (marks, codes), short, long = code_list(1 + draw(16)), 1 + draw(4), draw(3)
    return accepted(0x06, drawn(8), codes, elements(short, long), marks=marks, short=short, long=long)


def write():
    (marks, codes), short, long = code_list(1 + draw(3)), draw(2), 1 + draw(2)
    return accepted(0x08, drawn(8), codes, elements(short, long), drawn(16 * (short + long)), marks=marks, short=short, long=long)


def of_255():
    """The longest record: a read of 241 bytes of elements behind one code, or a write of 33 bytes of elements and 208 of data."""
    marks, codes = code_list(1)
    if draw(2):
        short, long = ((119, 1), (2, 79), (59, 41))[draw(3)]
        return accepted(0x06, drawn(8), codes, elements(short, long), marks=marks, short=short, long=long)
    return accepted(0x08, drawn(8), codes, elements(6, 7), drawn(16 * 13), marks=marks, short=6, long=7)


# Many are short, so that the listing of a piece is longer than the piece.
KINDS = (*[polling] * 12, *[refused] * 10, *[plain] * 3, of_wrong_size, request, authentication, read, write)


def sample():
    """Document 01's sample log."""
    idm = bytes(range(1, 9))
    yield accepted(0x00, bytes.fromhex("FFFF0000"))
    yield bytes([1]), "NO 3 --", 0
    yield accepted(0x06, idm, bytes.fromhex("010B10"), bytes.fromhex("018000"), marks="o", short=1)


def next_record(log):
    """The longest ones stand across the ends of the pieces, and here and there."""
    near_end = len(log) % PIECE < 600 and len(log) > 600 or PIECE - len(log) % PIECE < 600
    return of_255() if near_end or draw(200) == 0 else KINDS[draw(len(KINDS))]()


def make():
    log, lines, totals, starts = bytearray(), [], [0, 0, 0, 0], []
    records = sample()
    while len(log) < 2 * PIECE + 2000:
        frame, text, blocks = next(records, None) or next_record(log)
        starts.append(len(log))
        log += bytes([len(frame)]) + frame
        is_accepted = text.startswith("OK")
        totals = [totals[0] + 1, totals[1] + is_accepted, totals[2] + (not is_accepted), totals[3] + blocks]
        lines.append(f"{totals[0]} {text}\n")
    # The program's second piece begins with what its first one leaves.
    second = max(it for it in starts if it <= PIECE)
    assert not {PIECE, 2 * PIECE, second + PIECE} & {*starts}, "a piece ends where a record does"
    for piece in (0, second):
        text = "".join(line for at, line in zip(starts, lines) if piece <= at < piece + PIECE)
        assert len(text) > PIECE, "the listing of a piece is not longer than the piece"
    log += bytes([255, 255, 0x06]) + drawn(8)
    return log, "".join(lines) + f"CUT {255 - 10}\nTOTAL {' '.join(map(str, totals))}\n"


def main():
    log, listing = make()
    made = {CRATE / "stdin": bytes(log), CRATE / "stdout": listing.encode()}
    if sys.argv[1:] == ["--check"]:
        differ = [path.name for path, content in made.items() if path.read_bytes() != content]
        sys.exit(f"make_log.py makes another {' and '.join(differ)} of list_log" if differ else 0)
    if sys.argv[1:]:
        sys.exit("usage: make_log.py [--check]")
    for path, content in made.items():
        path.write_bytes(content)
    print(f"{len(log)} bytes of log, {len(listing)} of listing, {listing.count(chr(10))} lines")


main()
