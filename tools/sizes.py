#!/usr/bin/env python3
"""Sees, in a second, that no line, lemma, function, file or crate is longer than docs/WORKING.md says.

usage: tools/sizes.py    at the top of the repository; prints what is too long, and ends with status 1 if anything is
"""
import os
import re
import sys

COLUMNS = 120
LINES_A_LEMMA = 80
LINES_A_PROOF_FILE = 800
LINES_A_BODY = 60
LINES_A_CRATE = 2500
FUNCTIONS_A_CRATE = 155
# A crate of tests costs as much before its first test as some twelve functions do, so there are few and large ones.
LINES_A_CRATE_OF_TESTS = 3800
FUNCTIONS_A_CRATE_OF_TESTS = 230

# Where a part of a proof file begins: the type of a definition, or a line that holds none.
PART = re.compile(r"( *)(?:(?:pub|abbrev|unfoldable) )*(?:(record|data|module|use|mod) |([^\s:(=]+) :(?: |$))")
FUNCTION = re.compile(r"( *)(?:pub(?:\([\w:]+\))? )?(?:const )?fn (\w+)")


def files(crate, ending):
    """Returns the paths of a crate's files with this ending, apart from what checks keep."""
    for at, folders, names in os.walk(f"crates/{crate}"):
        folders[:] = sorted(it for it in folders if it != "out")
        yield from (f"{at}/{name}" for name in sorted(names) if name.endswith(ending))


def lines_of(path):
    with open(path, encoding="utf-8") as file:
        return file.read().splitlines()


def lemmas(lines):
    """Returns each definition at the margin, or in a module: its name, where it begins, and its lines without those above it."""
    parts, is_module = [], False
    for start, line in enumerate(lines):
        found = PART.match(line)
        if found and (not found[1] or is_module and len(found[1]) == 2):
            parts.append((start, found[3]))
            is_module = is_module if found[1] else found[2] == "module"
    for (start, name), (end, _) in zip(parts, [*parts[1:], (len(lines), None)]):
        while end > start and (not lines[end - 1].strip() or lines[end - 1].lstrip().startswith("--")):
            end -= 1
        if name:
            yield name, start + 1, end - start


def functions(lines):
    """Returns each function that has a body: its name, where it begins, and how many lines stand between its braces."""
    for start, line in enumerate(lines):
        found = FUNCTION.match(line)
        if not found:
            continue
        # The head ends at a brace of the function's own, or at a semicolon where it has no body.
        ends = re.compile(rf"{found[1]}(?:[{{)].*)?(\{{|\{{\}})$|.*;$")
        last = start if line.endswith(("{", "}", ";")) else next(it for it in range(start + 1, len(lines)) if ends.match(lines[it]))
        if lines[last].endswith(";"):
            continue
        closed = last + 1
        if lines[last].endswith("{"):
            closed = next(it for it in range(last, len(lines)) if lines[it] == f"{found[1]}}}")
        yield found[2], start + 1, closed - last - 1


def faults(crate):
    """Returns a line for each thing of the crate that is too long."""
    proofs = {path: lines_of(path) for path in files(crate, ".antt")}
    code = {path: lines_of(path) for path in files(crate, ".rt")}
    for path, lines in {**proofs, **code}.items():
        for number, line in enumerate(lines):
            # (the one name of a `use` line has no place to break it, and neither has a text)
            if len(line) > COLUMNS and not re.fullmatch(r"use \S+\.\{[^\s,]+\}| *\".*\",?", line):
                yield f"{path}:{number + 1}: {len(line)} columns, and not at most {COLUMNS}"
    for path, lines in proofs.items():
        if len(lines) > LINES_A_PROOF_FILE:
            yield f"{path}: {len(lines)} lines, and not at most {LINES_A_PROOF_FILE}"
        for name, number, length in lemmas(lines):
            # (a proof by hand of a function's whole body goes statement by statement, as the body does)
            if length > LINES_A_LEMMA and not path.endswith("/Proof.antt"):
                yield f"{path}:{number}: {name} has {length} lines, and not at most {LINES_A_LEMMA}"
    count = 0
    for path, lines in code.items():
        for name, number, length in functions(lines):
            count += 1
            if length > LINES_A_BODY:
                yield f"{path}:{number}: the body of {name} has {length} lines, and not at most {LINES_A_BODY}"
    is_of_tests = crate.startswith("tests_")
    most_functions = FUNCTIONS_A_CRATE_OF_TESTS if is_of_tests else FUNCTIONS_A_CRATE
    if count > most_functions:
        yield f"{crate}: {count} functions, and not at most {most_functions}"
    most_lines = LINES_A_CRATE_OF_TESTS if is_of_tests else LINES_A_CRATE
    # (neither blank lines nor sentences above clauses count)
    lines_of_code = sum(1 for lines in code.values() for line in lines if line.strip() and not line.strip().startswith("// "))
    if lines_of_code > most_lines:
        yield f"{crate}: {lines_of_code} lines of code, and not at most {most_lines}"


def main():
    crates = sorted(os.listdir("crates"))
    found = [fault for crate in crates for fault in faults(crate)]
    for fault in found:
        print(fault)
    print(f"{len(crates)} crates, and {len(found)} of their lines, lemmas, functions and files are too long")
    return 1 if found else 0


if __name__ == "__main__":
    sys.exit(main())
