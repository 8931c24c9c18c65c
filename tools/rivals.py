#!/usr/bin/env python3
"""Runs this library and what a user would pick instead side by side, and prints a table of times.

usage: tools/rivals.py    at the top of the repository

It builds the folder beside/rivals with cargo, which it keeps offline, and with a C compiler, proves and builds the
library's program, and runs all sides in turn. The environment says more. ROWS and SIDES: regular expressions over whole
names; THREADS, as 1,4; PASSES. If neither a side of the library nor one of its kit is asked for, nothing is proved.
"""
import contextlib
import os
import re
import shutil
import statistics
import subprocess
import sys

from beside import DEBIAN, build_port, heading, setting, stop

BUILT = "out/rivals"
PORT = "epoch_rivals"
LOCK = "beside/rivals/Cargo.lock"
ROUNDS = 3
# A run takes a second at most, unless its threads wait for one another.
SECONDS = 60
CRATES = ["arc-swap", "crossbeam-epoch", "crossbeam-queue", "dashmap"]
HOW = f"""On Debian or Ubuntu, all that is needed is installed by
    apt-get update && apt-get install cargo gcc liburcu-dev {' '.join(f'librust-{it}-dev' for it in CRATES)}"""

# Each row: its name, how many turns of a thread a round has, and its sides, of which the library's is the first.
ROWS = [
    ("read_pin_each", 1_024_000, "library library_pin crossbeam_epoch arc_swap_cache urcu kit_rwlock"),
    ("read_64_a_pin", 4_096_000, "library crossbeam_epoch"),
    ("queue_push_pop", 192_000, "library crossbeam_epoch seg_queue kit_seg_queue"),
    ("stack_push_pop", 192_000, "library crossbeam_epoch"),
    ("replace_retire", 192_000, "library crossbeam_epoch"),
    ("replace_retire_busy_4096", 192_000, "library crossbeam_epoch"),
    ("replace_retire_busy_262144", 192_000, "library crossbeam_epoch"),
    ("replace_retire_busy_1048576", 192_000, "library crossbeam_epoch"),
    ("map_get_1000", 768_000, "library crossbeam_epoch dashmap dashmap_fast_hash kit_rwlock"),
    ("map_get_100000", 384_000, "library library_grown crossbeam_epoch dashmap dashmap_fast_hash kit_rwlock"),
    ("map_64_a_pin_100000", 384_000, "library crossbeam_epoch"),
    ("map_zipfian_100000", 384_000, "library crossbeam_epoch dashmap dashmap_fast_hash kit_rwlock"),
    ("map_90_5_5_100000", 192_000, "library crossbeam_epoch dashmap dashmap_fast_hash kit_rwlock"),
    ("map_get_1000000", 192_000, "library crossbeam_epoch dashmap dashmap_fast_hash kit_rwlock"),
    ("ordered_get_10000", 48_000, "library crossbeam_epoch"),
    ("ordered_get_100000", 24_000, "library crossbeam_epoch"),
    ("ordered_range_100", 3_000, "library crossbeam_epoch"),
]


def is_busy(row):
    return "_busy_" in row


def is_port(side):
    """Says whether the library's program has this side: one of the library, or of the kit that it is written with."""
    return side.startswith(("library", "kit_"))


def build_rust():
    """Builds the program of the Rust crates, and returns where it is and which versions it is made of."""
    found = os.listdir(DEBIAN) if os.path.isdir(DEBIAN) else []
    missing = [it for it in CRATES if not any(re.fullmatch(rf"{it}-[0-9.]+", name) for name in found)]
    if missing:
        stop(f"{', '.join(missing)}: not in {DEBIAN}. {HOW}")
    if not shutil.which("cargo"):
        stop(f"cargo is missing. {HOW}")
    # (the last build may have been of other versions)
    if os.path.exists(LOCK):
        os.remove(LOCK)
    words = ["cargo", "build", "--offline", "--release", "--quiet", "--target-dir", os.path.abspath(BUILT)]
    if subprocess.run([*words, "--config", "../debian.toml"], cwd="beside/rivals", check=False).returncode:
        stop("the folder beside/rivals isn't built")
    with open(LOCK, encoding="utf-8") as file:
        versions = dict(re.findall(r'name = "(.*)"\nversion = "(.*)"', file.read()))
    return f"{BUILT}/release/rivals", [f"{it} {versions[it]}" for it in CRATES]


def build_c():
    """Builds the program of liburcu, and returns where it is."""
    program = f"{BUILT}/urcu"
    os.makedirs(BUILT, exist_ok=True)
    words = ["cc", "-O3", "-o", program, "beside/rivals/urcu.c", "-lurcu-memb", "-lurcu-common", "-lpthread"]
    if not shutil.which("cc") or subprocess.run(words, check=False).returncode:
        stop(f"beside/rivals/urcu.c isn't built: it needs a C compiler and liburcu. {HOW}")
    return program


@contextlib.contextmanager
def other_work(rust, row):
    """Keeps each processor busy meanwhile, if the row says so."""
    if not is_busy(row):
        yield
        return
    with subprocess.Popen([rust, "busy", str(os.cpu_count())], stdin=subprocess.PIPE) as busy:
        yield
        busy.stdin.close()


def run(words):
    """Runs one side. Returns each round's nanoseconds a turn, and what it says of turns that weren't done."""
    try:
        words = [str(word) for word in words]
        fields = subprocess.run(words, check=True, stdout=subprocess.PIPE, text=True, timeout=SECONDS).stdout.split()
    except subprocess.TimeoutExpired:
        return [], f"  not done in {SECONDS} s"
    done, wanted = fields[:2]
    return [float(it) for it in fields[2:]], "" if done == wanted else f"  {done} of {wanted} turns"


def measure(programs, row, turns, sides, threads):
    """Returns each side's times, and what is to be said of it."""
    times, said = {it: [] for it in sides}, dict.fromkeys(sides, "")
    with other_work(programs["rust"], row):
        for _ in range(int(setting("PASSES", "8"))):
            for side in sides:
                program = "port" if is_port(side) else "rust"
                words = [programs["c"]] if side == "urcu" else [programs[program], row, side]
                taken, missed = run([*words, threads, turns, ROUNDS])
                times[side] += taken
                said[side] = missed or said[side]
    return times, said


def show(row, threads, times, said):
    first = None
    for side, taken in times.items():
        if not taken:
            print(f"{row:28} {threads:>7} {side:18} {said[side]}", flush=True)
            continue
        best, middle = min(taken), statistics.median(taken)
        first = first or (best, middle)
        quotients = f"{first[0] / best:9.2f} {first[1] / middle:10.2f}"
        print(f"{row:28} {threads:>7} {side:18} {best:9.2f} {middle:9.2f} {quotients}{said[side]}", flush=True)


def main():
    rows, sides = setting("ROWS", ".*"), setting("SIDES", ".*")
    wanted = [
        (row, turns, [side for side in all_sides.split() if re.fullmatch(sides, side)])
        for row, turns, all_sides in ROWS
        if re.fullmatch(rows, row)
    ]
    names = [side for _, _, asked in wanted for side in asked]
    if not names:
        stop(f"no row is named {rows} and has a side named {sides}")
    rust, versions = build_rust()
    programs = {"rust": rust, "c": build_c() if "urcu" in names else None}
    if any(map(is_port, names)):
        programs["port"] = build_port(PORT)
    heading(", ".join(versions))
    print(f"{'# row':28} {'threads':>7} {'side':18} {'least':>9} {'median':>9} {'quotient':>9} of medians", flush=True)
    most = 4 if os.cpu_count() >= 4 else 2
    for row, turns, asked in wanted:
        usual = range(2, most + 1, 2) if is_busy(row) else (1, most)
        named = setting("THREADS", None)
        for threads in map(int, named.split(",")) if named else usual:
            if asked:
                show(row, threads, *measure(programs, row, turns, asked, threads))


if __name__ == "__main__":
    if sys.argv[1:]:
        stop(__doc__)
    main()
