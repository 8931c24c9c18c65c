#!/usr/bin/env python3
"""Gives scripts to the programs that the gate has built, and compares what they write with what was worked out by hand.

usage: tools/runs.py [--try]    at the top of the repository, behind tools/gate.py; --try: compiles the programs, and proves nothing

A program's scripts stand in crates/NAME/runs.txt, whose head says how. epoch_draw draws the scripts of docs/pictures too, and
each picture has to be the one beside its script, byte for byte. It ends with status 1 if anything else was written.
"""
import glob
import os
import re
import subprocess
import sys


def text_of(path):
    with open(path, encoding="utf-8") as file:
        return file.read()


def lines_of(parts):
    """Returns the lines of these parts, with those that stand for several written out."""
    for part in parts:
        found = re.match(r"(\d+)\.\.(\d+): ", part)
        first, end = (int(found[1]), int(found[2])) if found else (0, 1)
        for number in range(first, end):
            for line in part[found.end() if found else 0 :].split(";"):
                yield line.replace("#", str(number)) if found else line


def bytes_of(parts, end):
    """Returns the bytes of these parts, in which \\xff is the byte 255. The last line ends so, if there is one."""
    lines = list(lines_of(parts))
    whole = "\n".join(lines) + (end if lines else "")
    return re.sub(rb"\\x([0-9a-f]{2})", lambda it: bytes([int(it[1], 16)]), whole.encode())


def blocks(path):
    """Returns the blocks of a file of runs: the title, and the parts by their signs."""
    for text in re.split(r"^# ", text_of(path), flags=re.M)[1:]:
        title, *lines = text.rstrip("\n").split("\n")
        yield title, {sign: [line[2:] for line in lines if line[:1] == sign] for sign in "<>!~?$%"}


def run(program, script):
    """Returns what the program writes to standard output and to standard error, and its status."""
    ran = subprocess.run(program, input=script, stdout=subprocess.PIPE, stderr=subprocess.PIPE, check=False)
    return ran.stdout, ran.stderr, ran.returncode


def status_where_full(program, script):
    """Returns the program's status where each write is refused."""
    with open("/dev/full", "wb") as full:
        return subprocess.run(program, input=script, stdout=full, stderr=full, check=False).returncode


def fault(program, script, parts):
    """Returns what the program writes if it is something else than these parts say, or None."""
    if parts["%"]:
        status = status_where_full(program, script)
        return None if str(status) == parts["%"][0] else f"status {status}"
    printed, told, status = run(program, script)
    fits = all(it.encode() in printed for it in parts["~"]) if parts["~"] else printed == bytes_of(parts[">"], "\n")
    if fits and (told, status) == (bytes_of(parts["!"], "\n"), 2 if parts["!"] else 0):
        return None
    return f"status {status}, printed {printed[:2000]!r}, told {told!r}"


def faults(program, path):
    """Returns a line for each run of this file that writes something else, and counts the runs."""
    found, count = [], 0
    for title, parts in blocks(path):
        for line in parts["?"] or ["?"]:
            script = [line if it == "?" else it for it in parts["<"]]
            words = [word for it in parts["$"] for word in (line if it == "?" else it).split(" ")]
            wrong = fault([*program, *words], bytes_of(script, ""), parts)
            count += 1
            if wrong:
                found.append(f"{path}: {title}: {line}: {wrong}")
    return found, count


def drawn_faults(program):
    """Returns a line for each script of the pictures that is drawn in another way."""
    scripts = sorted(glob.glob("docs/pictures/*.txt"))
    for path in scripts:
        drawn = path.removesuffix(".txt") + ".svg"
        if run(program, text_of(path).encode()) != (text_of(drawn).encode(), b"", 0):
            yield f"{drawn}: the script beside it is drawn in another way: make pictures"


def program_of(crate, is_try):
    if not is_try:
        return [f"crates/{crate}/out/{crate}"]
    with open(f"crates/{crate}/stdin", "rb") as file:
        subprocess.run(["tools/try.py", crate], stdin=file, stdout=subprocess.DEVNULL, check=True)
    return glob.glob(f"out/try/{crate}/*")[:1]


def main():
    is_try, found, count = "--try" in sys.argv[1:], [], 0
    for path in sorted(glob.glob("crates/*/runs.txt")):
        program = program_of(path.split("/")[1], is_try)
        if not os.access(program[0], os.X_OK):
            sys.exit(f"tools/runs.py: {program[0]} is missing: tools/gate.py builds it")
        wrong, runs = faults(program, path)
        found, count = [*found, *wrong], count + runs
        if path == "crates/epoch_draw/runs.txt":
            found += drawn_faults(program)
    for it in found:
        print(it)
    pictures = len(glob.glob("docs/pictures/*.txt"))
    print(f"{count} scripts were run, and {pictures} pictures drawn:")
    print(f"{count + pictures - len(found)} passed, {len(found)} failed")
    return 1 if found else 0


if __name__ == "__main__":
    sys.exit(main())
