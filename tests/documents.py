#!/usr/bin/env python3
"""documents.py: holds README.md and docs/ to what they speak of. Part of the gate; needs the program felica as rt ci leaves it (running.py).

- Lines: README.md has at most 80 of at most 110 characters, lines of docs/ at most 120 characters. Rows of tables, fenced blocks, a long piece of code within a line and a commit at its end may be longer.
- Links lead to files that are there.
- Commands: a block marked sh is run as it stands, and what it prints is the block marked text behind it. A block marked bash takes minutes or needs what is not here, and is not run.
- Grounds and codes: those of docs/CALLS.md are those of include/felica.h, which tests/callers.sh holds to the code, and its codes those of docs/FORMAT.md.
- Layouts: each line of docs/FORMAT.md is tried on felica: every value of each byte that has a range, every count, the body cut at each byte and one byte longer,
  and each part must come back under its name. So docs/CALLS.md has the fields of each command, in the order of the answer.
- Definitions: what those in docs/TRUST.md stand on is named there too.
"""
import re
import subprocess
import sys

from running import FAILURES, ROOT, run, stop_without

PAGES = [ROOT / "README.md", *sorted((ROOT / "docs").glob("*.md"))]
# What a run of rt try may take on a busy machine.
COMMAND_SECONDS = 300
# What felica calls a part of docs/FORMAT.md that does not have the field's name in its own.
FIELDS = {"codes": "first", "areas": "first", "services": "second", "elements": "blocks", "area code": "node", "service code": "node"}
# docs/TRUST.md needs one definition of it, and says which.
NEED_NOT_BE_READ = "felica_cursor"


def text_of(name):
    return (ROOT / name).read_text()


def blocks_of(page):
    """The fenced blocks: what each is marked with, and its text."""
    return re.findall(r"^```(\w*)\n(.*?)^```$", page.read_text(), re.S | re.M)


def prose_of(page):
    """Each line outside of fences that is no row of a table, with its number."""
    fenced = False
    for number, line in enumerate(page.read_text().splitlines(), 1):
        fenced ^= line.startswith("```")
        if not fenced and not line.startswith(("|", "```")):
            yield number, line


def long_lines():
    readme = PAGES[0].read_text().splitlines()
    if len(readme) > 80:
        yield f"README.md has {len(readme)} lines"
    yield from (f"README.md:{n}: {len(line)} characters" for n, line in enumerate(readme, 1) if len(line) > 110)
    for page in PAGES[1:]:
        for number, line in prose_of(page):
            if len(line) > 120 and not re.search(r"`[^`]{80,}`", line) and not re.search(r"\b[0-9a-f]{40}$", line):
                yield f"docs/{page.name}:{number}: {len(line)} characters"


def dead_links():
    for page in PAGES:
        for target in re.findall(r"\]\(([^)#]+)\)", page.read_text()):
            if not (page.parent / target).exists():
                yield f"{page.name}: no file {target}"


def wrong_commands():
    for page in PAGES:
        blocks = blocks_of(page)
        for (mark, command), (behind, printed) in zip(blocks, blocks[1:] + [("", "")]):
            if mark != "sh":
                continue
            shell = ["bash", "-euo", "pipefail", "-c", command]
            ran = subprocess.run(shell, cwd=ROOT, stdout=subprocess.PIPE, text=True, timeout=COMMAND_SECONDS)
            if ran.returncode or (behind == "text" and ran.stdout != printed):
                yield f"{page.name}: status {ran.returncode} and {ran.stdout!r} of: {command.strip()}"


def rows_of(page, heading):
    """The cells of the table under a heading."""
    section = text_of(f"docs/{page}").split(f"\n## {heading}\n")[1].split("\n## ")[0]
    rows = [[cell.strip() for cell in line.strip("|").split("|")] for line in section.splitlines() if line.startswith("|")]
    return rows[2:]


def same(what, one, other):
    if one != other:
        yield f"{what} differ at {sorted({key for key, _ in one.items() ^ other.items()})}"


def wrong_grounds():
    page = {int(number): text for number, text in rows_of("CALLS.md", "Grounds")}
    enum = text_of("include/felica.h").split("enum felica_refusal {")[1].split("};")[0]
    header = {int(number): text for number, text in re.findall(r"= (\d+),? +/\* (.*) \*/$", enum, re.M) if number != "0"}
    yield from same("the grounds of docs/CALLS.md and of include/felica.h", page, header)


def wrong_codes():
    page = {code: name.removesuffix(", secure").upper().replace(" ", "_") for code, name, _ in rows_of("CALLS.md", "Commands")}
    header = {code: name for name, code in re.findall(r"FELICA_(\w+)_COMMAND_CODE = 0x(\w\w)", text_of("include/felica.h"))}
    yield from same("the commands of docs/CALLS.md and of include/felica.h", page, header)
    yield from same("the codes of docs/CALLS.md and docs/FORMAT.md", dict.fromkeys(page), dict.fromkeys(layouts()))


def layouts():
    """The lines of docs/FORMAT.md: the parts of each code's body."""
    lines = re.findall(r"^    ([0-9A-F]{2}) \|(.*)$", text_of("docs/FORMAT.md"), re.M)
    return {code: [part.strip() for part in parts.split("|") if part.strip()] for code, parts in lines}


def values_of(part):
    """The values that a byte may have: of `request code 00..02` three, of `00` one, of `n 1..16` sixteen."""
    last = part.split()[-1]
    base = 10 if re.match(r"[nm] ", part) else 16
    if ".." in last:
        least, greatest = (int(bound, base) for bound in last.split(".."))
        return range(least, greatest + 1)
    return [int(value, 16) for value in last.split(",")]


def entry_of(part):
    """An entry of a list, by its size: a block list's is short here."""
    size = int(part.split("×")[1].split()[0])
    return bytes([0x80, 0]) if part.startswith("elements") else bytes(size)


def pieces_of(parts):
    """The parts as functions from a byte to a piece of the body, each with the bytes that are allowed. A count takes the lists behind it along."""
    pieces = []
    for at, part in enumerate(parts):
        if "×" in part or part.endswith("rest"):
            continue
        if re.match(r"[nm] ", part):
            lists = [entry_of(other) for other in parts[at + 1 :] if f" {part[0]} ×" in other]
            pieces.append((lambda byte, lists=lists: bytes([byte]) + b"".join(entry * byte for entry in lists), values_of(part)))
        elif re.fullmatch(r"00( 00)*", part):
            pieces += [(lambda byte: bytes([byte]), [0])] * len(part.split())
        elif re.search(r" \d{1,2}$", part):
            pieces.append((lambda byte, size=int(part.split()[-1]): bytes([byte]) * size, range(256)))
        else:
            pieces.append((lambda byte: bytes([byte]), values_of(part)))
    return pieces


def bodies_of(parts):
    """Bodies, each with whether the line allows it."""
    pieces = pieces_of(parts)
    plain = [make(1 if 1 in allowed else 0) for make, allowed in pieces]
    body = b"".join(plain)
    yield body, True
    for at, (make, allowed) in enumerate(pieces):
        for byte in range(256):
            yield b"".join(plain[:at] + [make(byte)] + plain[at + 1 :]), byte in allowed
    yield from ((body[:size], False) for size in range(len(body)))
    yield body + b"\0", any(part.endswith("rest") for part in parts)
    if b"\x80\0" in body:
        # In the long form, and in the long form with a byte too few.
        yield body.replace(b"\x80\0", b"\0\0\1"), True
        yield body.replace(b"\x80\0", b"\0\0"), False


def calls_of(bodies):
    """The calls that ask for bodies of codes."""
    plain, _ = text_of("docs/FORMAT.md").split("\n## Secure bodies\n")
    codes = set(re.findall(r"^    ([0-9A-F]{2}) \|", plain, re.M))
    return [f"P {code}{body.hex()}" if code in codes else f"S {code} {body.hex() or '-'}" for code, body in bodies]


def answers_to(calls):
    answers = run("felica", given="".join(f"{call}\n" for call in calls).encode())[0].decode().splitlines()
    if len(answers) != len(calls):
        raise ValueError(f"{len(calls)} calls and {len(answers)} answers")
    return answers


def wrong_layouts():
    tried = [(code, body, allowed) for code, parts in layouts().items() for body, allowed in bodies_of(parts)]
    calls = calls_of((code, body) for code, body, _ in tried)
    for (code, _, allowed), call, answer in zip(tried, calls, answers_to(calls)):
        if not answer.startswith(f"OK {code}" if allowed else "NO "):
            yield f"docs/FORMAT.md: {call[:80]} is answered by {answer[:80]}"


def filled(part, fresh):
    """The bytes of a part, each free one with a value of its own, and how felica gives them: None where it does not."""
    taken = lambda count: bytes(next(fresh) for _ in range(count))
    size = re.search(r" (\d{1,2})$", part)
    if re.fullmatch(r"00( 00)*", part):
        return bytes(len(part.split())), None
    if re.match(r"[nm] ", part):
        return b"\2", None
    if part.startswith("elements"):
        short, low, high = taken(3)
        return bytes([0x93, short, 0x25, low, high]), f"{short:04X}/3/1,{high:02X}{low:02X}/5/2"
    if part.startswith("data"):
        data = taken(32)
        return data, data.hex().upper()
    if "×" in part:
        codes = taken(2), taken(2)
        return b"".join(codes), ",".join(code[::-1].hex().upper() for code in codes)
    if part.endswith("rest"):
        rest = taken(3)
        return rest, None if part.startswith("ignored") else rest.hex().upper()
    if size:
        value = taken(int(size[1]))
        return value, (value[::-1] if len(value) == 2 and part != "system code 2" else value).hex().upper()
    last = values_of(part)[-1]
    return bytes([last]), f"{last:02X}"


def names_of(part):
    """What felica may call a part: of `node code 2` node_code, node and code."""
    words = re.match(r"[A-Za-z ]*[A-Za-z](?= [nm] ×| rest| [0-9])", part)[0].lower()
    return {FIELDS.get(words, ""), words.replace(" ", "_"), *words.split()}


def example_of(parts):
    """A body of a line, and the names and the value of each part that felica gives."""
    fresh = iter(range(0x11, 0xF0))
    pieces = [(part, *filled(part, fresh)) for part in parts]
    return b"".join(body for _, body, _ in pieces), [(names_of(part), value) for part, _, value in pieces if value is not None]


def wrong_fields():
    examples = {code: example_of(parts) for code, parts in layouts().items()}
    answers = answers_to(calls_of((code, body) for code, (body, _) in examples.items()))
    page = {code: re.findall(r"`(\w+)`", fields) for code, _, fields in rows_of("CALLS.md", "Commands")}
    for (code, (_, wanted)), answer in zip(examples.items(), answers):
        told = re.findall(r"(\w+)=(\S+)", answer)
        if len(told) != len(wanted) or any(name not in names or value != part for (name, value), (names, part) in zip(told, wanted)):
            yield f"docs/FORMAT.md: {code} is answered by {answer}"
        if page[code] != [name for name, _ in told]:
            yield f"docs/CALLS.md: {code} has the fields of {answer}"


def unread_definitions():
    """What definitions that must be read stand on, and docs/TRUST.md does not name."""
    linked = [ROOT / "docs" / target for target in re.findall(r"\]\((\.\./crates/\w+/specs[^)]*)\)", text_of("docs/TRUST.md"))]
    files = {file.resolve() for target in linked for file in (sorted(target.glob("*.antt")) if target.is_dir() else [target])}
    for file in sorted(files):
        if NEED_NOT_BE_READ in file.parts:
            continue
        for crate, module in re.findall(r"^use Rattle\.(felica\w*|list_log)\.specs\.(\w+)\.\{", file.read_text(), re.M):
            used = ROOT / "crates" / crate / "specs" / f"{module}.antt"
            if used not in files:
                yield f"docs/TRUST.md lacks {used.relative_to(ROOT)}, on which {file.name} stands"


def main():
    stop_without("felica")
    checks = (long_lines, dead_links, unread_definitions, wrong_grounds, wrong_codes, wrong_layouts, wrong_fields, wrong_commands)
    found = []
    for check in checks:
        try:
            found += check()
        except (*FAILURES, LookupError) as failure:
            found.append(f"{check.__name__}: {failure!r}")
    print("".join(f"{line}\n" for line in found[:40]) + f"{len(PAGES)} documents, {len(layouts())} layouts: {len(found)} differ")
    return 1 if found else 0


if __name__ == "__main__":
    sys.exit(main())
