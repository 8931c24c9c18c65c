#!/usr/bin/env python3
"""Runs the merge gate, `rt ci`, says which crate it is at, and prints a table of what each crate took.

usage: tools/gate.py    at the top of the repository

Processor seconds (user and system) are sampled each second, and memory each ten seconds: the most that a crate's proof, the proof
of its tests, and its wrong bodies took. The total is the system's own count. What failed is told last, below the table.
"""
import os
import re
import resource
import subprocess
import sys
import threading
import time

TICKS = os.sysconf("SC_CLK_TCK")
# To count a process's memory takes the system as long as some ten looks at its processor seconds.
LOOKS_A_COUNT_OF_MEMORY = 10
KINDS = ("proof", "tests", "wrong bodies")


def text_of(path):
    with open(path, encoding="utf-8", errors="replace") as file:
        return file.read()


def work_of(pid):
    """Returns what a process of the checker works on, as crate and kind, or None for any other process."""
    words = text_of(f"/proc/{pid}/cmdline").split("\0")
    if os.path.basename(words[0]) != "rattle" or "--crate-name" not in words:
        return None
    crate = words[words.index("--crate-name") + 1]
    is_edit = os.path.basename(os.readlink(f"/proc/{pid}/cwd")).startswith("rt-edit-")
    return crate, KINDS[2] if is_edit else KINDS[1] if "--test" in words else KINDS[0]


def usage_of(pid):
    """Returns a process's parent, when it started and its processor seconds."""
    fields = text_of(f"/proc/{pid}/stat").rpartition(")")[2].split()
    return fields[1], fields[19], (int(fields[11]) + int(fields[12])) / TICKS


def memory_of(pid):
    """Returns a process's memory in bytes, with its share of what several processes of one check have in common."""
    try:
        return 1024 * int(re.search(r"^Pss:\s+(\d+)", text_of(f"/proc/{pid}/smaps_rollup"), re.M)[1])
    except (OSError, TypeError):
        # (it has ended meanwhile)
        return 0


def is_below(pid, found):
    """Whether this very program started the process, or one of those that led to it."""
    while pid in found and pid != str(os.getpid()):
        pid = found[pid][1]
    return pid in found


class Samples:
    """What each process of the checker has taken so far, and the most memory that a crate's work took at once."""

    def __init__(self, said):
        self.said, self.started = said, time.monotonic()
        self.seconds, self.memory, self.looks, self.is_over = {}, {}, 0, False

    def take(self):
        found, held = {}, {}
        counts_memory = self.looks % LOOKS_A_COUNT_OF_MEMORY == 0
        self.looks += 1
        for pid in filter(str.isdigit, os.listdir("/proc")):
            try:
                found[pid] = work_of(pid), *usage_of(pid)
            except (OSError, IndexError, ValueError):
                # (it has ended meanwhile)
                pass
        for pid, (work, _, since, seconds) in found.items():
            if work and is_below(pid, found):
                self.seconds[pid, since] = work, seconds
                held[work] = held.get(work, 0) + (memory_of(pid) if counts_memory else 0)
        for work, memory in held.items():
            if work not in self.memory:
                self.said(f"at {time.monotonic() - self.started:.0f} s: {work[0]}, {work[1]}")
            self.memory[work] = max(memory, self.memory.get(work, 0))

    def go_on(self):
        while not self.is_over:
            self.take()
            time.sleep(1)

    def rows(self):
        """Returns a row a crate, in the order of crates.txt: seconds and most memory of each kind of work."""
        sums = {}
        for work, seconds in self.seconds.values():
            sums[work] = sums.get(work, 0) + seconds
        for crate in re.findall(r"^(\w+)[ :]", text_of("crates.txt"), re.M):
            cells = [f"{sums[crate, kind]:.0f}" if (crate, kind) in sums else "" for kind in KINDS]
            most = max((self.memory.get((crate, kind), 0) for kind in KINDS), default=0)
            yield f"| `{crate}` | {' | '.join(cells)} | {most / 1e9:.1f} |"
        cells = [f"{sum(it for work, it in sums.items() if work[1] == kind):.0f}" for kind in KINDS]
        yield f"| in all | {' | '.join(cells)} | {max(self.memory.values(), default=0) / 1e9:.1f} |"


def main():
    said = lambda line: print(line, flush=True)
    samples = Samples(said)
    sampling = threading.Thread(target=samples.go_on, daemon=True)
    sampling.start()
    ran = subprocess.Popen(["rt", "ci"], stdin=subprocess.DEVNULL, stdout=subprocess.PIPE, stderr=subprocess.STDOUT, text=True, errors="replace")
    last = []
    for line in ran.stdout:
        last.append(line.rstrip("\n"))
        # (two lines: what failed, and how many)
        if len(last) > 2:
            said(last.pop(0))
    status = ran.wait()
    samples.is_over = True
    sampling.join()
    used = resource.getrusage(resource.RUSAGE_CHILDREN)
    said(f"| Crate | {', s | '.join(KINDS)}, s | GB |\n|---|---|---|---|---|")
    for row in samples.rows():
        said(row)
    said(f"{used.ru_utime + used.ru_stime:.0f} processor seconds, {time.monotonic() - samples.started:.0f} s on {len(os.sched_getaffinity(0))} processors")
    said("\n".join(last))
    return status


if __name__ == "__main__":
    sys.exit(main())
