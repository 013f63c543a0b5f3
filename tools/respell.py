#!/usr/bin/env python3
"""Spells the repository's own definitions and lemmas as the language's library does: words in snake case.

Types and modules keep their camel case, Rust's functions, exported names, strings, inputs and outputs are not touched, and neither are names
that come from the library or that the checker gives to a goal.

    python3 tools/respell.py           at the top of the repository, behind the kit's port.py
    python3 tools/respell.py --list    prints each name, old and new, and changes nothing
"""

import re
import sys
from collections import defaultdict
from pathlib import Path

NAME = r"[A-Za-z_][A-Za-z0-9_']*(?:-[A-Za-z0-9_'+]+)*"
TOKEN = re.compile(rf"(?<![A-Za-z0-9_'])({NAME})(?![A-Za-z0-9_'])")
IMPORT = re.compile(r"^\s*(?:pub )?(?:ghost )?use ([^{;\s]+?)(?:\.\{([^}]*)\}|);?\s*$")
GOAL = re.compile(r"^\s*pub (\S+) : goal\.", re.M)
GOAL_FILES = ("Answers.antt", "Invariants.antt", "Proof.antt")

# A lemma that was told from a definition by its dash alone, and what it is called beside that definition.
BESIDE = {
    "all-read": "all_read_once_over",
    "all-zero": "all_zero_is_zeros",
    "at-front": "front_at",
    "blocks-at": "blocks_behind",
    "codes-part": "codes_part_is",
    "command-is": "command_given",
    "command-of": "one_length_of_command",
    "data-part": "data_part_is",
    "if-codes": "if_codes_grounded",
    "line-from": "line_first",
    "lines-text": "text_of_lines",
    "no-codes": "no_codes_read",
    "no-selector": "no_selector_read",
    "one-element": "one_element_read",
    "one-length": "one_length_of_elements",
    "package-bytes": "package_bytes_at",
    "package-part": "package_part_is",
    "property-index": "index_of_property",
    "read-secure": "read_code_secure",
    "too-long": "does_not_fit",
}
# Definitions whose spelling would be a theorem's.
RENAMED = {"codeOr0": "code_or_zero", "numberAlone": "only_number"}


def snake(name):
    """the name in snake case; names of types stay"""
    if name[0].isupper():
        return name
    name = name.replace("++", "append").replace("-", "_")
    return re.sub(r"(?<=[a-z])([A-Z])", r"_\1", name).lower()


def own_files(root):
    for path in sorted(root.glob("crates/*/*/**/*")):
        if path.suffix in (".antt", ".rt", ".edit") and "out" not in path.relative_to(root).parts:
            yield path


def is_goal_file(path):
    return path.name in GOAL_FILES and path.parent.name not in ("specs", "proofs")


def code_of(line):
    """a line of a proof without its comment"""
    return re.split(r"(?:^|\s)--\s", line, maxsplit=1)[0]


def library_names(files):
    """names that some file takes from the library"""
    names = set()
    for path in files:
        for line in path.read_text().splitlines():
            found = IMPORT.match(line)
            if found and not re.match(r"Rattle[.·](felica|list_log)", found[1]):
                names.update(part.strip().split(" as ")[0] for part in (found[2] or found[1].split(".")[-1]).split(","))
    return names


def own_names(files):
    """names that specs/ and the files of lemmas declare or bind, and those that an import of Rust's files or a proof of a goal gives"""
    names = set()
    for path in files:
        if path.suffix == ".rt":
            names.update(re.findall(rf"\bas ({NAME})[,}}]", path.read_text()))
        if is_goal_file(path):
            names.update(name for name in re.findall(rf"(?:let|λ) ({NAME})[ .]", path.read_text()) if "-" in name)
        if path.suffix != ".antt" or is_goal_file(path):
            continue
        for line in path.read_text().splitlines():
            if not line.startswith(("use ", "pub use ")):
                names.update(TOKEN.findall(code_of(line)))
    return names


def spelling(root):
    """old name to new"""
    files = list(own_files(root))
    known = own_names(files)
    library = library_names(files)
    new = {}
    for name in known - library:
        if re.match(r"^x[0-9A-F]+$", name):
            # the digits of a number in hexadecimal
            continue
        if name in RENAMED:
            new[name] = RENAMED[name]
        elif name in BESIDE:
            new[name] = BESIDE[name]
        elif name != snake(name):
            new[name] = snake(name)
    # port.py respells some lemmas by itself: where the definition still stands beside one, the lemma is the one that gives way
    spelt = {snake(name): name for name in known if snake(name) != name and "-" not in name}
    for old, beside in BESIDE.items():
        if snake(old) in known and snake(old) in spelt:
            new[snake(old)] = beside
    return new


def respelt_proof(text, new, goals, in_goal_file):
    lines = []
    for line in text.split("\n"):
        code = code_of(line)
        lines.append(respelt_code(code, new, goals, in_goal_file) + respelt_words(line[len(code):], new))
    return "\n".join(lines)


def respelt_code(code, new, goals, in_goal_file):
    """a name with dashes is the checker's where it stands behind the facts of a goal, and a lemma's elsewhere"""

    def one(found):
        name = found[1]
        if name not in new or name in goals:
            return name
        chain = re.search(r"[A-Za-z0-9_.'\-]*\.$", code[: found.start()])
        if in_goal_file and "-" in name and chain and re.fullmatch(r"(c|goal|loop)\.", chain[0]):
            return name
        return new[name]

    return TOKEN.sub(one, code)


def respelt_words(text, new):
    """in prose, code and edits a word in camel case is a name; one with dashes only where it is quoted"""

    def plain(found):
        return new.get(found[1], found[1]) if "-" not in found[1] and snake(found[1]) != found[1] else found[1]

    def quoted(found):
        return "`" + TOKEN.sub(lambda name: new.get(name[1], name[1]), found[1]) + "`"

    return re.sub(r"`([^`\n]*)`", quoted, TOKEN.sub(plain, text))


def respelt(path, new):
    text = path.read_text()
    if path.suffix == ".antt":
        in_goal_file = is_goal_file(path)
        return respelt_proof(text, new, set(GOAL.findall(text)) if in_goal_file else set(), in_goal_file)
    return respelt_words(text, new)


def fallen_together(path, new):
    """names of one file that are told apart today and would not be"""
    spelt = defaultdict(set)
    for name in TOKEN.findall(path.read_text()):
        spelt[new.get(name, name)].add(name)
    return {name: both for name, both in spelt.items() if len(both) > 1}


def main():
    root = Path(".")
    new = spelling(root)
    if "--list" in sys.argv:
        for name in sorted(new):
            print(name, new[name])
        return
    pages = [Path("README.md"), *sorted(Path("docs").glob("*.md"))]
    for path in [*own_files(root), *pages]:
        if path.suffix != ".md":
            for name, both in fallen_together(path, new).items():
                print(f"together: {path}: {name}: {' '.join(sorted(both))}")
        text = respelt_words(path.read_text(), new) if path.suffix == ".md" else respelt(path, new)
        if text != path.read_text():
            path.write_text(text)


if __name__ == "__main__":
    main()
