#!/usr/bin/env python3
"""Wrong bodies that stand in crates/NAME/refuted/, outside the gate: tries whether the prover refuses each.

usage: tools/refute.py [NAME..]    at the top of the repository; with no name, every crate that has any
       tools/refute.py --stand     only sees, in a second, that the text which each one replaces still stands once in its file
"""
import os
import shutil
import subprocess
import sys
import tempfile
import time
from concurrent.futures import ThreadPoolExecutor

sys.dont_write_bytecode = True
from prove import BYTES_A_PROOF, apart, linked


def crates_with_any():
    return sorted(it for it in os.listdir("crates") if os.path.isdir(f"crates/{it}/refuted"))


def fault_of(crate, name):
    """Returns why an edit of the crate can't be applied, or an empty text."""
    path, old, texts = "", "", {}
    with open(f"crates/{crate}/refuted/{name}", encoding="utf-8") as file:
        lines = file.read().split("\n")
    for line in lines:
        word, _, text = line.partition(":")
        text = text.removeprefix(" ")
        if word == "file":
            path = text
            with open(f"crates/{crate}/{path}", encoding="utf-8") as file:
                texts.setdefault(path, file.read())
        elif word == "old":
            old = text
        elif word == "new":
            if texts[path].count(old) != 1:
                return f"an 'old:' text is in {path} {texts[path].count(old)} times, and not once"
            texts[path] = texts[path].replace(old, text)
    return "" if old else "it has no 'old:' and 'new:' pair"


def stand():
    """Prints each edit that can't be applied any more, and returns 1 where there is one."""
    edits = [(crate, name) for crate in crates_with_any() for name in sorted(os.listdir(f"crates/{crate}/refuted"))]
    faults = [(crate, name, fault) for crate, name in edits for fault in [fault_of(crate, name)] if fault]
    for crate, name, fault in faults:
        print(f"crates/{crate}/refuted/{name}: {fault}")
    print(f"{len(edits) - len(faults)} of {len(edits)} wrong bodies outside the gate can be applied")
    return 1 if faults else 0


def copied(room):
    """Copies the repository's files there, and what checks have kept of its libraries."""
    named = subprocess.run(["git", "ls-files", "-co", "--exclude-standard", "-z"], stdout=subprocess.PIPE, check=True).stdout
    for path in filter(os.path.isfile, named.decode().split("\0")):
        os.makedirs(os.path.dirname(f"{room}/{path}") or room, exist_ok=True)
        shutil.copyfile(path, f"{room}/{path}")
    for crate in os.listdir("crates"):
        if os.path.isdir(f"crates/{crate}/out"):
            linked(f"crates/{crate}/out", f"{room}/crates/{crate}/out")
    subprocess.run(["git", "init", "-q", room], check=True)


def refused(room, crate):
    """Tries one crate's edits, and returns whether each was refused."""
    folder, start = f"{room}/crates/{crate}", time.monotonic()
    shutil.rmtree(f"{folder}/must-fail", ignore_errors=True)
    shutil.copytree(f"crates/{crate}/refuted", f"{folder}/must-fail")
    ran = subprocess.Popen(["rt", "must-fail", crate], cwd=room, stdout=subprocess.PIPE, stderr=subprocess.STDOUT, text=True, errors="replace")
    said = ran.stdout.read()
    _, status, used = os.wait4(ran.pid, 0)
    taken = f"{used.ru_utime + used.ru_stime:.0f} processor seconds, {time.monotonic() - start:.0f} s"
    print(f"{said}{crate}: {'each was refused' if status == 0 else 'NOT EACH WAS REFUSED'}, {taken}", flush=True)
    return status == 0


def main(words):
    if words == ["--stand"]:
        return stand()
    crates = words or crates_with_any()
    if stand():
        return 1
    memory = os.sysconf("SC_PHYS_PAGES") * os.sysconf("SC_PAGE_SIZE")
    with tempfile.TemporaryDirectory(dir=apart(".git/refuting")) as room:
        copied(room)
        # (the libraries below are built once, before several runs want them)
        if subprocess.run([os.path.abspath("tools/prove.py"), *crates], cwd=room, check=False).returncode:
            return 1
        with ThreadPoolExecutor(max(1, min(len(os.sched_getaffinity(0)), memory // BYTES_A_PROOF))) as pool:
            is_well = all([*pool.map(lambda crate: refused(room, crate), crates)])
    return 0 if is_well else 1


if __name__ == "__main__":
    sys.exit(main(sys.argv[1:]))
