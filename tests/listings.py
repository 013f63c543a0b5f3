#!/usr/bin/env python3
"""listings.py [CORPUS]: holds the program list_log to logs whose listings are known, whole and in small pieces. With the logs of this file alone it is part of the gate.

CORPUS is a folder that is not part of this repository. It has logs/NAME.log with logs/NAME.w204, the listing expected of it since W-204, and full-w204.tsv, logs of a million records
as recipes: name, form, record in hexadecimal, how many times, the bytes behind them in hexadecimal or -, and the SHA-256 of the listing. Nothing is built: running.py says where the
program is taken from.
"""
import hashlib
import pathlib
import struct
import sys

from running import FAILURES, ROOT, run, run_in_pieces, stop_without

POLLING = bytes.fromhex("06060001020000")
READ = bytes.fromhex("10100601020304050607080109100180FF")


def lines_of(count, text):
    return "".join(f"{n} {text}\n" for n in range(1, count + 1))


def own_logs():
    """Name, log and listing: the sample, the limit and what may stand behind it, every mark, and logs longer than any buffer of the program."""
    yield "sample", bytes.fromhex("060600FFFF000001011010060102030405060708010B10018000"), "1 OK 00 0 0 0 -\n2 NO 3 --\n3 OK 06 1 1 0 o\nTOTAL 3 2 1 1\n"
    crate = ROOT / "crates" / "list_log"
    yield "the log that the gate replays", (crate / "stdin").read_bytes(), (crate / "stdout").read_text()
    yield "nothing", b"", "TOTAL 0 0 0 0\n"
    full = lines_of(1000000, "NO 1 --")
    for name, behind, last in (
        ("limit", "", ""),
        ("limit and a record", "00", "FULL\n"),
        ("limit and a cut record", "0501", "FULL\n"),
    ):
        yield name, bytes(1000000) + bytes.fromhex(behind), f"{full}{last}TOTAL 1000000 0 1000000 0\n"
    yield "one less and cut", bytes(999999) + b"\5\1", lines_of(999999, "NO 1 --") + "CUT 4\nTOTAL 999999 0 999999 0\n"
    yield "polling", POLLING * 40000, lines_of(40000, "OK 00 0 0 0 -") + "TOTAL 40000 40000 0 0\n"
    codes = (0x0000, 0x0001, 0x0040, 0x0041, 0xFFC1, 0xFFFF, 0xFFFE, 0x1009, 0x100B, 0x1008, 0x0002, 0x0003, 0x003F)
    payload = bytes([2, 1, 2, 3, 4, 5, 6, 7, 8, len(codes)]) + struct.pack(f"<{len(codes)}H", *codes)
    yield "marks", bytes([len(payload) + 1] * 2) + payload, "1 OK 02 13 0 0 aaaaaskookkoo\nTOTAL 1 1 0 0\n"
    yield "reads, cut", READ * 9000 + READ[:3], lines_of(9000, "OK 06 1 1 0 o") + "CUT 14\nTOTAL 9000 9000 0 9000\n"


def corpus_logs(corpus):
    for path in sorted((corpus / "logs").glob("*.log")):
        yield path.name, path.read_bytes(), path.with_suffix(".w204").read_text()


def corpus_recipes(corpus):
    for line in (corpus / "full-w204.tsv").read_text().splitlines():
        name, form, record, times, behind, digest = line.split("\t")[:6]
        if form == "old":
            yield name, bytes.fromhex(record) * int(times) + bytes.fromhex("" if behind == "-" else behind), digest


def digest_of(listing):
    return hashlib.sha256(listing).hexdigest()


def is_listed(attempt, wanted):
    """Whether the program ends well, says nothing on the error output, and has written the listing with that digest."""
    try:
        listing, said, status = attempt()
    except FAILURES:
        return False
    return digest_of(listing) == wanted and not said and status == 0


def main():
    stop_without("list_log")
    corpus = [pathlib.Path(it) for it in sys.argv[1:2]]
    known = [*own_logs(), *(log for it in corpus for log in corpus_logs(it))]
    logs = [(name, log, digest_of(listing.encode())) for name, log, listing in known]
    logs += (recipe for it in corpus for recipe in corpus_recipes(it))
    results = []
    for name, log, wanted in logs:
        results.append((name, is_listed(lambda log=log: run("list_log", given=log), wanted)))
        for size in (1, 3, 17) if len(log) < 2000 else ():
            results.append((f"{name} in pieces of {size}", is_listed(lambda log=log, size=size: run_in_pieces("list_log", log, size), wanted)))
    differ = [name for name, same in results if not same]
    for name in differ:
        print(f"differs: {name}")
    print(f"{len(results) - len(differ)} listings as expected, {len(differ)} differ")
    sys.exit(1 if differ else 0)


main()
