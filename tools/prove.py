#!/usr/bin/env python3
"""Proves a crate's libraries, side by side where none stands on the other, and prints a line a crate with its time.

usage: tools/prove.py NAME..    at the top of the repository; the crates themselves are left to `rt run` or `rt check`

One `rt` at a time works in a crate and in all that it stands on. So each library is proved in a folder of its own, below
.git, to which the files are linked; what the proof keeps is moved back to the library's out/.
"""
import os
import shutil
import subprocess
import sys
import time
from concurrent.futures import FIRST_COMPLETED, ThreadPoolExecutor, wait

# A proof takes up to 4 GB.
BYTES_A_PROOF = 4_000_000_000
ROOM = ".git/proving"
# A chain with this part of the longest one's work may take as long: how much work a proof is can only be guessed before.
NEARLY = 0.85


def libraries():
    """Returns, for each crate of crates.txt, the libraries that it uses."""
    with open("crates.txt", encoding="utf-8") as file:
        lines = [line.partition("#")[0].partition(":") for line in file]
    return {name.split()[0]: used.split() for name, colon, used in lines if colon}


def below(uses, names):
    """Returns the crates that these stand on, each after those that it stands on itself."""
    found = []
    for name in names:
        for it in filter(uses.__contains__, uses[name]):
            found += [low for low in [*below(uses, [it]), it] if low not in found]
    return found


def linked(folder, to):
    """Copies a folder by links to its files, or whole where the file system has no links."""
    if subprocess.run(["cp", "-al", folder, to], stderr=subprocess.DEVNULL, check=False).returncode:
        subprocess.run(["cp", "-a", folder, to], check=True)


def apart(room):
    """Makes a folder that `rt` passes over where it looks for this repository's crates."""
    os.makedirs(room, exist_ok=True)
    with open(f"{room}/MODULE.bazel", "w", encoding="utf-8"):
        pass
    return os.path.abspath(room)


def prove(uses, name, jobs, nice):
    """Proves one library, and returns its name, the check's status, its output and the seconds that it took."""
    start, room = time.monotonic(), f"{ROOM}/{name}"
    shutil.rmtree(room, ignore_errors=True)
    os.makedirs(f"{room}/crates/{name}")
    with open(f"{room}/crates.txt", "w", encoding="utf-8") as file:
        file.writelines(f"{it}: {' '.join(uses[it])}\n" for it in [*below(uses, [name]), name])
    for it in below(uses, [name]):
        linked(f"crates/{it}", f"{room}/crates/{it}")
    for part in os.listdir(f"crates/{name}"):
        # (a proof writes into what an earlier one kept)
        copies = ["cp", "-a", f"crates/{name}/{part}", f"{room}/crates/{name}/{part}"]
        subprocess.run(copies, check=True)
    words = ["nice", "-n", str(nice), "rt", "lib", "--jobs", str(jobs)]
    ran = subprocess.run(words, cwd=f"{room}/crates/{name}", stdout=subprocess.PIPE, stderr=subprocess.STDOUT, errors="replace")
    if os.path.isdir(f"{room}/crates/{name}/out"):
        shutil.rmtree(f"crates/{name}/out", ignore_errors=True)
        os.rename(f"{room}/crates/{name}/out", f"crates/{name}/out")
    shutil.rmtree(room, ignore_errors=True)
    return name, ran.returncode, ran.stdout, time.monotonic() - start


def work_in(name):
    """Returns about how much work the proof of a crate is, as bytes: a line of code takes some ten times as long as one of a proof."""
    files = [f"{at}/{it}" for part in ("src", "specs", "proofs") for at, _, found in os.walk(f"crates/{name}/{part}") for it in found]
    return sum(os.path.getsize(it) * (10 if it.endswith(".rt") else 1) for it in files)


def chains(uses, order):
    """Returns, for each crate, how much work the longest chain is that begins with its proof."""
    found = {}
    for name in reversed(order):
        found[name] = work_in(name) + max((found[it] for it in found if name in uses[it]), default=0)
    return found


def main(names):
    uses = libraries()
    apart(ROOM)
    left, done, running = below(uses, names), set(), {}
    length = chains(uses, left)
    left.sort(key=lambda it: -length[it])
    memory = os.sysconf("SC_PHYS_PAGES") * os.sysconf("SC_PAGE_SIZE")
    lanes = max(1, min(len(os.sched_getaffinity(0)), memory // BYTES_A_PROOF))
    total = len(left)
    with ThreadPoolExecutor(lanes) as pool:
        while left or running:
            ready = [it for it in left if done.issuperset(filter(uses.__contains__, uses[it]))][: lanes - len(running)]
            for name in ready:
                # The longest chains decide how long all of it takes. So proofs that begin one go before the others, which take what
                # these leave of the processors; and one that is alone gets as many jobs as there are processors.
                longest = max(length[it] for it in [*left, *running.values()])
                leads = length[name] >= NEARLY * longest
                rivals = [it for it in [*ready, *running.values()] if length[it] >= NEARLY * longest]
                left.remove(name)
                jobs = lanes if leads and len(rivals) == 1 else max(1, lanes // 2)
                running[pool.submit(prove, uses, name, jobs, 0 if leads else 5)] = name
            ended, _ = wait(running, return_when=FIRST_COMPLETED)
            for it in ended:
                name, status, output, seconds = it.result()
                del running[it]
                if status:
                    pool.shutdown(cancel_futures=True)
                    print(f"{output}\n{name} is not proved", file=sys.stderr)
                    return status
                done.add(name)
                print(f"{len(done)} of {total}: {name} stands, after {seconds:.0f} s", file=sys.stderr, flush=True)
    return 0


if __name__ == "__main__":
    try:
        sys.exit(main(sys.argv[1:]))
    finally:
        shutil.rmtree(ROOM, ignore_errors=True)
