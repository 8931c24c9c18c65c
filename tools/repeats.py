#!/usr/bin/env python3
"""Counts what is said again in the library crates, and what is there for the prover alone, and refuses more than today.

usage: tools/repeats.py [--list]    at the top of the repository; --list says where

- Clauses that stand again, word for word, in their crate, beyond the first of each.
- Lists of at least LIST clauses that two contracts of a crate share.
- Public lemmas with no sentence above them.
- Statements 'let _ = name;': the prover needs the name there, and the program does nothing.

A change that lowers a number lowers its limit here, so that it stays low.
"""
import collections
import glob
import re
import sys

LIST = 5
CLAUSES = 997
LISTS = 30
LEMMAS = 0
STATEMENTS = 24

CONTRACT = re.compile(r"^( *)(?:pub(?:\([a-z]+\))? )?(?:const |unsafe )*fn (\w+)")
CLAUSE = re.compile(r"^ *(?:requires|ensures)\*? ")
LEMMA = re.compile(r"^pub ([^\s:({]+)(?=[^\n]* :)", re.M)


def library_crates():
    return [path.split("/")[1] for path in sorted(glob.glob("crates/*/src/lib.rt")) if "/tests_" not in path]


def contracts(text):
    """Yields each function's line and its clauses, each as one line."""
    function, number, clauses = None, 0, []
    for at, line in enumerate(text.split("\n"), 1):
        found = CONTRACT.match(line)
        if found:
            if clauses:
                yield function, number, clauses
            function, number, clauses = found[2], at, []
        elif CLAUSE.match(line):
            clauses.append(line.strip())
        elif clauses and not clauses[-1].endswith("}") and not line.strip().startswith("//"):
            clauses[-1] += " " + line.strip()
    if clauses:
        yield function, number, clauses


def said_again(crate):
    """Yields what a crate's contracts say again: kind, place, and what it is."""
    seen, lists = collections.Counter(), []
    for path in sorted(glob.glob(f"crates/{crate}/src/**/*.rt", recursive=True)):
        with open(path, encoding="utf-8") as file:
            text = file.read()
        for function, line, clauses in contracts(text):
            for clause in clauses:
                seen[clause] += 1
                if seen[clause] > 1:
                    yield "CLAUSES", f"{path}:{line}", clause
            for other, place in lists:
                if len(other & set(clauses)) >= LIST:
                    yield "LISTS", f"{path}:{line}", f"{function}, as {place}"
                    break
            lists.append((set(clauses), f"{path}:{line}"))
        for found in re.finditer(r"^ *let _ = \w+;$", text, re.M):
            yield "STATEMENTS", f"{path}:{text.count(chr(10), 0, found.start()) + 1}", found[0].strip()


def lemmas_without_a_sentence(crate):
    for path in sorted(glob.glob(f"crates/{crate}/proofs/**/*.antt", recursive=True)):
        if re.search(r"/(Answers|Invariants|Proof)\.antt$", path):
            continue
        with open(path, encoding="utf-8") as file:
            text = file.read()
        for found in LEMMA.finditer(text):
            above = text[: found.start()].rstrip("\n").rpartition("\n")[2]
            if not above.startswith("--") and found[1] not in ("use", "mod"):
                yield "LEMMAS", f"{path}:{text.count(chr(10), 0, found.start()) + 1}", found[1]


def main():
    found = collections.defaultdict(list)
    for crate in library_crates():
        for kind, place, what in [*said_again(crate), *lemmas_without_a_sentence(crate)]:
            found[kind].append(f"{place}: {what}")
    failed = False
    for kind in ("CLAUSES", "LISTS", "LEMMAS", "STATEMENTS"):
        if sys.argv[1:] == ["--list"]:
            print(*found[kind], sep="\n")
        count, limit = len(found[kind]), globals()[kind]
        failed |= count > limit
        print(f"{kind.lower()}: {count}, of at most {limit}")
    sys.exit(failed)


if __name__ == "__main__":
    main()
