#!/usr/bin/env python3
"""programs.py: holds felica and list_log to what only a run can show. Part of the gate.

What waits is written before each read; what fails is told on the error output and by the status; a call in the arguments is answered without reading; of input in pieces, of long lines
and of long inputs no line is lost. A line for each test that differs, and one with the counts. Nothing is built: running.py says where the programs are taken from.
"""
import fcntl
import os
import pathlib
import select
import subprocess
import sys
import tempfile
import time

from running import FAILURES, PIPE, ROOT, SECONDS, bytes_in, ended, pipe, program, run, run_in_pieces, started, stop_without

# In which all is tried, each run in the seconds that running.py gives it. Where many programs hang it is not enough.
MOST_SECONDS = 240
# What fcntl calls F_SETPIPE_SZ since Python 3.10.
SET_PIPE_SIZE = 1031
PIECE = 65536
I8 = "0102030405060708"
READ = f"1006{I8}010B10018000"
CALLS = {
    "F 0600FFFF0000": "OK 00 system=FFFF request=00 slots=00",
    f"F {READ}": f"OK 06 idm={I8} first=100B blocks=0000/0/0",
    "F 02": "NO 2 --",
    f"L F {READ} 1 0 1 1 1": "OK 06 first=100B second=- numbers=0000 places=0 modes=0",
    f"L F {READ} 1 0 0 1 1": "NO 21 06",
    f"LONG F 1106{I8}010B1001000500": "OK longs=1",
    "P 700000": "OK 70",
    "P 700001": "NO 18 70",
    "S 8E -": "OK 8E",
    "S 82 0901AB": "OK 82 node=0109 package=AB",
    "W 6 00 system=FFFF slots=01": "OK 6 0600FFFF0001",
    "W 6 00 request=03": "NO 22 00",
    "F": "BAD CALL: missing field",
    "F 02 X": "BAD CALL: extra field",
    "F 0G": "BAD CALL: not a hexadecimal digit",
    "F 020": "BAD CALL: odd number of hexadecimal digits",
    "F -": "NO 1 --",
}
# Calls that stand as lines alone: as arguments they are none.
LINES = {**CALLS, "X 02": "BAD CALL: unknown call", "": "BAD CALL: empty line", "P 01": "NO 5 01"}
RECORDS = {b"\6\6\0\xff\xff\0\0": "OK 00 0 0 0 -", b"\1\1": "NO 3 --", b"\x10" + bytes.fromhex(READ): "OK 06 1 1 0 o", b"\0": "NO 1 --"}
UNREAD = {"felica": b"felica: the calls cannot be read\n", "list_log": b"list_log: the log cannot be read\n"}
UNWRITTEN = {"felica": b"felica: the answers cannot be written\n", "list_log": b"list_log: the listing cannot be written\n"}
UNSAID = {"felica": b"felica: the answer cannot be written\n", "list_log": b"list_log: the usage cannot be written\n"}


def lines(texts):
    return "".join(f"{text}\n" for text in texts).encode()


def listed(texts):
    return lines(f"{n} {text}" for n, text in enumerate(texts, 1))


def well(output):
    return output, b"", 0


def sample(name):
    """What the gate gives a program, and what it must write."""
    crate = ROOT / "crates" / name
    return (crate / "stdin").read_bytes(), (crate / "stdout").read_bytes()


def read_now(pipe, count):
    """So many bytes or more, if they come within some seconds; of none, what comes at once."""
    got, deadline = b"", time.monotonic() + (4 if count else 0.05)
    while len(got) < max(count, 1) and select.select([pipe], [], [], max(deadline - time.monotonic(), 0))[0]:
        piece = os.read(pipe.fileno(), PIECE)
        if not piece:
            break
        got += piece
    return got


def talk(name, parts):
    """What is answered to each part of the input before the next is written, as far as it is what it must be, and then how the program ends."""
    said = []
    with started(name) as running:
        for part, answer in parts:
            running.stdin.write(part)
            said.append(read_now(running.stdout, len(answer)))
            if said[-1] != answer:
                break
        running.stdin.close()
        return said, *ended(running)


def whole(name, given):
    """How many lines that end, or records, an input has."""
    if name == "felica":
        return given.count(b"\n")
    count, at = -1, 0
    while at <= len(given):
        count, at = count + 1, at + 1 + (given[at] if at < len(given) else 0)
    return count


def in_parts(name):
    """What the gate gives a program in parts of 65,536 bytes, each with the answers to what is whole with it, and what is answered behind the last."""
    given, wanted = sample(name)
    answers = wanted.splitlines(True)
    counts = [whole(name, given[:at]) for at in range(0, len(given) + PIECE, PIECE)]
    parts = [given[at : at + PIECE] for at in range(0, len(given), PIECE)]
    pairs = zip(parts, counts, counts[1:])
    return [(part, b"".join(answers[first:last])) for part, first, last in pairs], b"".join(answers[counts[-1] :])


def run_unread(name, *words):
    """With arguments, and an input of five bytes: how the program ends, and how many of the five are left."""
    reading, writing = pipe()
    with reading, writing:
        writing.write(b"F 02\n")
        writing.close()
        return *run(name, *words, stdin=reading), bytes_in(reading)


def run_dry(name, given):
    """With an input that fails behind what is given, a pipe that does not block."""
    reading, writing = pipe()
    with reading, writing:
        os.set_blocking(reading.fileno(), False)
        writing.write(given)
        return run(name, stdin=reading)


def run_stalled(name):
    """With an output that fails when it is full, a pipe of 65,536 bytes that does not block and that nobody reads: whether it has the front of the answers, and how the program ends."""
    given, answers = sample(name)
    reading, writing = pipe()
    with reading, writing:
        os.set_blocking(writing.fileno(), False)
        fcntl.fcntl(writing, SET_PIPE_SIZE, PIECE)
        _, said, status = run(name, given=given, stdout=writing)
        writing.close()
        front = reading.read()
        return len(front) > 0 and answers.startswith(front), said, status


def run_unheard(name):
    """With an output whose reader is gone."""
    reading, writing = pipe()
    with reading, writing:
        reading.close()
        return run(name, given=sample(name)[0], stdout=writing)[1:]


def run_slow(name):
    """With an output that is read slowly."""
    given, _ = sample(name)
    with tempfile.TemporaryFile() as file:
        file.write(given)
        file.seek(0)
        with started(name, stdin=file) as running:
            parts = []
            while parts[-1:] != [b""]:
                time.sleep(0.002)
                parts.append(os.read(running.stdout.fileno(), 4099))
            return b"".join(parts), *ended(running)[1:]


def run_example(name, example):
    """A line of the usage, as the shell takes it where the program is found by its name, beside a log."""
    with tempfile.TemporaryDirectory() as folder:
        pathlib.Path(folder, "frames.log").write_bytes(sample("list_log")[0])
        path = f"{program(name).parent}:{os.environ['PATH']}"
        ran = subprocess.run(["sh", "-c", example], cwd=folder, env={**os.environ, "PATH": path}, stdin=subprocess.DEVNULL, stdout=PIPE, stderr=PIPE, timeout=SECONDS)
        return ran.stdout, ran.stderr, ran.returncode


def examples(name):
    """The lines behind the last empty one of the usage."""
    usage = run(name, "--help")[0].decode()
    return [line.strip() for line in usage.split("\n\n")[-1].splitlines()]


def run_file(name, given):
    with tempfile.TemporaryFile() as file:
        file.write(given)
        file.seek(0)
        return run(name, stdin=file)


# The tests: what is tried, what it must come to, and what it comes to.


def answers_at_once():
    calls = [(lines([call]), lines([answer])) for call, answer in LINES.items()]
    yield "felica, a call at a time", ([answer for _, answer in calls], *well(b"")), lambda: talk("felica", calls)
    parts = [(b"F 0", b""), (b"2\nF", b"NO 2 --\n"), (b" 01\nF 02\nF -\nF ", b"NO 3 --\nNO 2 --\nNO 1 --\n"), (b"01", b"")]
    yield "felica, parts of calls", ([answer for _, answer in parts], *well(b"NO 3 --\n")), lambda: talk("felica", parts)
    records = [(record, f"{n} {text}\n".encode()) for n, (record, text) in enumerate(RECORDS.items(), 1)]
    end = b"TOTAL 4 2 2 1\n"
    yield "list_log, a record at a time", ([line for _, line in records], *well(end)), lambda: talk("list_log", records)
    cut = [(b"\6\6\0\xff", b""), (b"\xff\0\0\1", b"1 OK 00 0 0 0 -\n"), (b"\1\0\0\5", b"2 NO 3 --\n3 NO 1 --\n4 NO 1 --\n")]
    end = b"CUT 5\nTOTAL 4 1 3 0\n"
    yield "list_log, parts of records", ([line for _, line in cut], *well(end)), lambda: talk("list_log", cut)


def answers_to_pieces():
    """Parts as large as the room that a program reads to: no part is written before what is whole is answered."""
    for name in ("felica", "list_log"):
        parts, last = in_parts(name)
        wanted = ([answer for _, answer in parts], *well(last))
        yield f"{name}, {len(parts)} parts of {PIECE} bytes", wanted, lambda name=name, parts=parts: talk(name, parts)
    parts = [(b"F -\n" * (PIECE // 4), b"NO 1 --\n" * (PIECE // 4))] * 3
    yield f"felica, parts of {PIECE} bytes that end where a line does", ([answer for _, answer in parts], *well(b"")), lambda parts=parts: talk("felica", parts)
    ordinals = [range(n, n + PIECE) for n in range(1, 3 * PIECE, PIECE)]
    answers = [lines(f"{n} NO 1 --" for n in part) for part in ordinals]
    parts = [(bytes(PIECE), answer) for answer in answers]
    end = f"TOTAL {3 * PIECE} 0 {3 * PIECE} 0\n".encode()
    yield f"list_log, parts of {PIECE} bytes that end where a record does", (answers, *well(end)), lambda parts=parts: talk("list_log", parts)


def reads_that_fail():
    """What is whole before that is answered; a line or record that the failure cuts is not, nor is a listing ended."""
    given = {
        "felica": ((b"F 02\n", b"NO 2 --\n"), (b"F 02\nF 0600", b"NO 2 --\n"), (b"", b"")),
        "list_log": ((b"\1\1", b"1 NO 3 --\n"), (b"\1\1\6\6\0", b"1 NO 3 --\n"), (b"", b"")),
    }
    for name, inputs in given.items():
        for redirected in ("< /", "<&-"):
            yield f"{name} {redirected}", (b"", UNREAD[name], 1), lambda name=name, redirected=redirected: run(name, redirected=redirected)
        for front, answer in inputs:
            yield f"{name}, an input that fails behind {front}", (answer, UNREAD[name], 1), lambda name=name, front=front: run_dry(name, front)


def writes_that_fail():
    """At the first write, at one among many, and at the last, of what does not end or of nothing; and so for words."""
    given = {"felica": (b"F 02\n", b"F 02"), "list_log": (b"\1\1", b"")}
    words = {"felica": (["F", "02"], ["F 02"], ["--help"]), "list_log": (["--help"],)}
    for name in ("felica", "list_log"):
        for redirected in ("> /dev/full", ">&-"):
            for front in (*given[name], sample(name)[0]):
                end = (b"", UNWRITTEN[name], 1)
                yield f"{name} {redirected}, {len(front)} bytes", end, lambda name=name, front=front, how=redirected: run(name, given=front, redirected=how)
            for it in words[name]:
                yield f"{name} {it} {redirected}", (b"", UNSAID[name], 1), lambda name=name, it=it, how=redirected: run(name, *it, redirected=how)
        yield f"{name}, an output that is full", (True, UNWRITTEN[name], 1), lambda name=name: run_stalled(name)
        yield f"{name}, an output that nobody reads", (UNWRITTEN[name], 1), lambda name=name: run_unheard(name)


def call_in_arguments():
    for call, answer in CALLS.items():
        for words in {(call,), (*call.split(" "),)}:
            yield f"felica {words}", (*well(lines([answer])), 5), lambda words=words: run_unread("felica", *words)
    words = ("W 6", "00", "system=FFFF slots=01")
    yield f"felica {words}", (*well(b"OK 6 0600FFFF0001\n"), 5), lambda: run_unread("felica", *words)


def words_as_lines():
    """The answer to words is the answer to a line of them, parted by blanks."""
    calls = {
        f"W 255 08 idm={I8} first=1009 numbers=0001 places=0 modes=0 data={'AB' * 16}": f"OK 32 2008{I8}010910018001{'AB' * 16}",
        "L F 0600FFFF0000" + " 1 0" * 20: "BAD CALL: extra field",
        f"L F {READ} 1 0 1 1 1": CALLS[f"L F {READ} 1 0 1 1 1"],
        "P " + "0" * 65533: "BAD CALL: odd number of hexadecimal digits",
        "S 82 " + "0" * 65530: "BAD CALL: too many bytes",
        "F" + " 000000000" * 6553 + " 000": "BAD CALL: blank inside the bytes",
        "W 6 00 \x1b[2K=1": "BAD CALL: unknown field: ?",
        "W 6 00 system=FFFF  slots=01": "BAD CALL: unknown field: -",
        "F 06 00": "BAD CALL: blank inside the bytes",
        "F ": "BAD CALL: missing field",
        "W 6 00 slots=01 slots=01": "BAD CALL: field given twice: slots",
        "W x 00": "BAD CALL: not a decimal number",
    }
    for call, answer in calls.items():
        wanted = well(lines([answer]))
        yield f"felica, {short(call)}", wanted, lambda call=call: run("felica", given=lines([call]))
        yield f"felica, {short(call)} as words", (*wanted, 5), lambda call=call: run_unread("felica", *call.split(" "))
        yield f"felica, {short(call)} as one word", (*wanted, 5), lambda call=call: run_unread("felica", call)


# More characters than a call may have: in one word, in two, in a second one behind as many as are read at once, and by one in many words.
TOO_LONG = (["F " + "0" * 69998], ["F " + "0" * 35000, "0" * 35000], ["F " + "0" * (PIECE - 2), "0"], ["F", *["000000000"] * 6553, "0000"])


def is_usage(name, text):
    """Whether it says how the program is called, with two examples."""
    return b"usage" in text.lower() and text.count(name.encode()) >= 3


def usage_told():
    def told(name, *words):
        out, said, status, left = run_unread(name, *words)
        return is_usage(name, out) or out, is_usage(name, said) or said, status, left

    both = (["--help", "--help"], ["-h"], ["--version"], [""], ["x"], ["-"], *TOO_LONG)
    unknown = {
        "felica": (["f", "02"], ["FX", "02"], ["LONGER", "F", "02"], ["-F", "02"], ["--help", "F", "02"], ["F 02\nF 03"], ["F", "02\n"], ["F", *["02"] * 38, "\n"], ["P " + "0" * 65534]),
        "list_log": (["/dev/null"], ["--help\n"]),
    }
    for name in ("felica", "list_log"):
        yield f"{name} --help", (True, b"", 0, 5), lambda name=name: told(name, "--help")
        for words in (*both, *unknown[name]):
            yield f"{name} {short(words)}", (b"", True, 2, 5), lambda name=name, words=words: told(name, *words)


def usage_examples():
    """What the usage gives as examples, run as it stands there."""
    wanted = {
        "felica": [b"OK 00 system=FFFF request=00 slots=00\n", b"OK 00 system=FFFF request=00 slots=00\nNO 2 --\n"],
        "list_log": [sample("list_log")[1], b"1 OK 00 0 0 0 -\nTOTAL 1 1 0 0\n"],
    }
    for name, outputs in wanted.items():
        yield f"{name}, the examples of its usage", [well(output) for output in outputs], lambda name=name: [run_example(name, example) for example in examples(name)]


def forms_of_calls():
    yield "felica, CR before LF", well(lines(LINES.values())), lambda: run("felica", given=lines(LINES).replace(b"\n", b"\r\n"))
    small = {
        "F 0d0201020304050607fe010b1a": "OK 02 idm=01020304050607FE first=1A0B",
        "S 8e -": "OK 8E",
        "P 2e0a0b": "OK 2E property=0B0A",
        "W 6 00 system=ffff slots=0f": "OK 6 0600FFFF000F",
        "W 10 0c idm=abcdefABCDEFabcd": "OK 10 0A0CABCDEFABCDEFABCD",
    }
    faults = {
        "F 06 00 FF": "BAD CALL: blank inside the bytes",
        "P 70 0000": "BAD CALL: blank inside the bytes",
        "F 0x0600FFFF0000": "BAD CALL: 0x in front of the bytes",
        "S 82 0X0901": "BAD CALL: 0x in front of the bytes",
        "W 6 00 blocks=00": "BAD CALL: unknown field: blocks",
        "W 6 00 a_rather_long_name=1": "BAD CALL: unknown field: a_rather_long_n",
        "W 6 00 a-b=1": "BAD CALL: unknown field: a-b",
        "W 6 00 é=1": "BAD CALL: unknown field: ?",
        "W 6 00 a\rOK=1": "BAD CALL: unknown field: ?",
        "W 6 00 =1": "BAD CALL: unknown field: -",
        "W 10 0C idm=12": "BAD CALL: malformed value: idm",
    }
    for call, answer in {**small, **faults}.items():
        yield f"felica, {call!r}", well(lines([answer])), lambda call=call: run("felica", given=lines([call]))


def input_in_pieces():
    """Short logs are tried by listings.py."""
    calls, answers = lines(LINES)[:-1], lines(LINES.values())
    for size in (1, 3, 17):
        yield f"felica in pieces of {size}", well(answers), lambda size=size: run_in_pieces("felica", calls, size)
    for name in ("felica", "list_log"):
        given, wanted = sample(name)
        yield f"{name}, what the gate gives it in pieces of 4099", well(wanted), lambda name=name, given=given: run_in_pieces(name, given, 4099)


def long_lines():
    """The longest line has 65,535 characters."""
    longest, too_long = "S 82 " + "0" * 65530, "S 82 " + "0" * 65531
    told = {longest: "BAD CALL: too many bytes", too_long: "BAD CALL: line too long", "F" * 200000: "BAD CALL: line too long"}
    between = [part for line in told for part in (line, "F 02")]
    answers = lines(part for answer in told.values() for part in (answer, "NO 2 --"))
    yield "felica, long lines", well(answers), lambda: run("felica", given=lines(between))
    for size in (4096, 65535):
        yield f"felica, long lines in pieces of {size}", well(answers), lambda size=size: run_in_pieces("felica", lines(between), size)
    for line, answer in told.items():
        yield f"felica, {len(line)} characters at the end", well(lines(["NO 2 --", answer])), lambda line=line: run("felica", given=lines(["F 02", line])[:-1])


def long_inputs():
    calls, answers = sample("felica")
    record = bytes.fromhex(f"FF06{I8}010B1078") + b"\x80\0" * 119 + bytes(3)
    logs = b"\xff" + record
    for name, given, wanted in (
        ("felica", (calls.rstrip(b"\n") + b"\n") * 12, answers * 12),
        ("list_log", logs * 50000, listed(["OK 06 1 120 1 o"] * 50000) + b"TOTAL 50000 50000 0 6000000\n"),
    ):
        yield f"{name}, {len(given)} bytes by a pipe", well(wanted), lambda name=name, given=given: run(name, given=given)
        yield f"{name}, {len(given)} bytes of a file", well(wanted), lambda name=name, given=given: run_file(name, given)
        yield f"{name}, a slow reader", well(sample(name)[1]), lambda name=name: run_slow(name)
    million = range(1000000)
    calls = lines(f"F 0A04{n:016X}" if n % 3 else f"P 04{n:016X}" for n in million)
    yield "felica, a million lines", well(lines(f"OK 04 idm={n:016X}" for n in million)), lambda: run("felica", given=calls)


TESTS = (
    answers_at_once,
    answers_to_pieces,
    reads_that_fail,
    writes_that_fail,
    call_in_arguments,
    words_as_lines,
    usage_told,
    usage_examples,
    forms_of_calls,
    input_in_pieces,
    long_lines,
    long_inputs,
)


def short(it):
    """The same, written so that nothing in it is long."""
    if isinstance(it, (tuple, list)):
        cut = [*it[:10], "and so on", *it[-10:]] if len(it) > 30 else it
        return ", ".join(map(short, cut))
    if isinstance(it, (bytes, str)) and len(it) > 200:
        return f"{it[:60]!r} and so on, {len(it)} in all"
    return repr(it)


def differs(wanted, attempt, until):
    """What it comes to, if that is not what it must be."""
    try:
        got = attempt() if time.monotonic() < until else "not tried, for want of time"
    except FAILURES as error:
        got = error
    return "" if got == wanted else f"{short(got)}; and not {short(wanted)}"


def main():
    stop_without("felica", "list_log")
    until = time.monotonic() + MOST_SECONDS
    found = [(name, differs(wanted, attempt, until)) for test in TESTS for name, wanted, attempt in test()]
    failed = [(name, how) for name, how in found if how]
    for name, how in failed:
        print(f"differs: {name}: {how}")
    print(f"programs: {len(found) - len(failed)} as expected, {len(failed)} differ")
    sys.exit(1 if failed else 0)


main()
