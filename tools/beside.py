#!/usr/bin/env python3
"""Runs this library and crossbeam-epoch side by side: a table of times, or random histories that both are given.

usage: tools/beside.py table|histories    at the top of the repository

It proves and builds the library's programs, builds the folder beside/ with cargo, which it keeps offline, and runs both.
The environment says more. ORIGINAL: a checkout of crossbeam or of its crate crossbeam-epoch, in place of Debian's
package. For the table, ROWS: a regular expression over whole names; THREADS, as 1,4; PASSES. For the histories, LINES
and SEED. A whole table, of all rows, is written into docs/PERFORMANCE.md, too.
"""
import os
import re
import shutil
import subprocess
import sys
import time

DEBIAN = "/usr/share/cargo/registry"
BUILT = "out/beside"
PAGE, FIRST, LAST = "docs/PERFORMANCE.md", "<!-- by make beside, from here -->\n", "<!-- to here -->\n"
ROUNDS = 12
HOW = f"""crossbeam-epoch isn't in {DEBIAN}. On Debian or Ubuntu it is installed by
    apt-get update && apt-get install librust-crossbeam-epoch-dev
Elsewhere, name a checkout of https://github.com/crossbeam-rs/crossbeam by ORIGINAL=FOLDER."""


def setting(name, usual):
    return os.environ.get(name) or usual


def stop(text):
    print(text, file=sys.stderr)
    sys.exit(2)


def original():
    """Returns the folder of the crate that ORIGINAL names, or None for Debian's package."""
    named = setting("ORIGINAL", None)
    if named is None:
        found = os.listdir(DEBIAN) if os.path.isdir(DEBIAN) else []
        if not any(name.startswith("crossbeam-epoch-") for name in found):
            stop(HOW)
        return None
    for folder in (f"{named}/crossbeam-epoch", named):
        if os.path.isfile(f"{folder}/src/epoch.rs"):
            return os.path.abspath(folder)
    stop(f"ORIGINAL={named}: no crate crossbeam-epoch is there")


def build_original():
    """Builds the program of beside/, and returns where it is and which crossbeam-epoch it is made of."""
    if not shutil.which("cargo"):
        stop("cargo is missing: on Debian or Ubuntu it is installed by apt-get install cargo")
    folder = original()
    words = ["cargo", "build", "--offline", "--release", "--quiet", "--target-dir", os.path.abspath(BUILT)]
    if os.path.isdir(DEBIAN):
        words += ["--config", "debian.toml"]
    if folder:
        words += ["--config", f'patch.crates-io.crossbeam-epoch.path="{folder}"']
    # (the last build may have been of another version)
    if os.path.exists("beside/Cargo.lock"):
        os.remove("beside/Cargo.lock")
    if subprocess.run(words, cwd="beside", check=False).returncode:
        stop("the folder beside/ isn't built" + ("" if os.path.isdir(DEBIAN) else f"\n{HOW}"))
    with open("beside/Cargo.lock", encoding="utf-8") as file:
        version = re.search(r'name = "crossbeam-epoch"\nversion = "(.*)"', file.read()).group(1)
    return f"{BUILT}/release/beside", f"crossbeam-epoch {version} of {folder or DEBIAN}"


def build_port(crate):
    """Proves and builds a program of this repository, and returns where it is."""
    if subprocess.run(["tools/prove.py", crate], check=False).returncode:
        sys.exit(1)
    words = {"stdin": subprocess.DEVNULL, "stdout": subprocess.DEVNULL, "stderr": subprocess.PIPE, "text": True}
    ran = subprocess.run(["rt", "run"], cwd=f"crates/{crate}", check=False, **words)
    if ran.returncode:
        stop(f"{ran.stderr}\n{crate} isn't proved and built")
    return f"crates/{crate}/out/{crate}"


def answer(words):
    return subprocess.run(words, check=True, stdout=subprocess.PIPE, text=True).stdout


def heading(version):
    compiler = answer(["rustc", "--version"]).strip()
    commit = answer(["git", "describe", "--always", "--dirty"]).strip()
    day = time.strftime("%Y-%m-%d", time.gmtime())
    print(f"# {version}, {compiler}; this library at {commit}; {day}, {os.cpu_count()} processors", flush=True)


def least(words, turns):
    """Runs one side, and returns the least time of a turn, and what it says of turns that did nothing."""
    fields = answer([*words, str(turns), str(ROUNDS)]).split()
    return float(fields[2]), "" if fields[4:5] == fields[6:7] else f"  {' '.join(fields[4:])} turns"


def keep(lines):
    """Writes the table into its page, between the two marks."""
    with open(PAGE, encoding="utf-8") as file:
        before, mark, rest = file.read().partition(FIRST)
    if mark:
        with open(PAGE, "w", encoding="utf-8") as file:
            file.write(f"{before}{mark}\n{''.join(f'    {line}' + chr(10) for line in lines)}\n{LAST}{rest.partition(LAST)[2]}")


def table():
    beside, version = build_original()
    wanted = setting("ROWS", ".*")
    threads = setting("THREADS", "1,2,4").split(",")
    rows = [line.split() for line in answer([beside, "rows"]).splitlines()]
    rows = [row for row in rows if re.fullmatch(wanted, row[0])]
    port = build_port("epoch_beside")
    heading(version)
    lines = [f"{'# name':38} {'threads':>7} {'original':>9} {'port':>9} {'quotient':>8}"]
    print(lines[0], flush=True)
    for name, all_threads, turns in rows:
        for count in all_threads.split(","):
            if count not in threads:
                continue
            best, said = [float("inf")] * 2, ""
            for _ in range(int(setting("PASSES", "10"))):
                for side, words in enumerate([[beside, "time", name, count], [port, name, count]]):
                    taken, missed = least(words, turns)
                    best[side], said = min(best[side], taken), missed or said
            lines.append(f"{name:38} {count:>7} {best[0]:9.2f} {best[1]:9.2f} {best[1] / best[0]:8.2f}{said}")
            print(lines[-1], flush=True)
    if len(lines) == 1:
        stop(f"no row is named {wanted} and measured on {','.join(threads)} threads")
    if wanted == ".*":
        keep(lines)


def histories():
    beside, version = build_original()
    port = build_port("epoch_run_script")
    heading(version)
    words = [beside, "histories", port, setting("LINES", "100000"), setting("SEED", "1")]
    sys.exit(subprocess.run(words, check=False).returncode)


if __name__ == "__main__":
    if sys.argv[1:] == ["table"]:
        table()
    elif sys.argv[1:] == ["histories"]:
        histories()
    else:
        stop(__doc__)
