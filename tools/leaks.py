#!/usr/bin/env python3
"""Runs this library's programs under valgrind, and sees that they lose no memory.

usage: tools/leaks.py    at the top of the repository

It proves and builds the programs first. It ends with status 1 if one of them lost memory, or used it in a wrong way.
"""
import shutil
import subprocess
import sys
import tempfile

sys.dont_write_bytecode = True
from beside import build_port, stop

# Each program, and the arguments of its runs.
RUNS = {
    "epoch_service": [""],
    "epoch_run": ["threads 4 50", "stack 4 50", "queue 4 50"],
    "epoch_rivals": ["growth 2 20000", "maps 10000"],
}
# The C library frees what it allocates for a thread only once the thread has left, which may be after the program's end.
LEAVING = """{
    what a thread has that is leaving
    Memcheck:Leak
    match-leak-kinds: possible
    fun:calloc
    ...
    fun:_dl_allocate_tls
    ...
    fun:pthread_create*
}
"""
VALGRIND = ["valgrind", "--quiet", "--leak-check=full", "--show-leak-kinds=all", "--errors-for-leak-kinds=all", "--error-exitcode=99"]


def is_clean(program, words):
    """Runs the program with these arguments, prints what valgrind says, and returns whether it found nothing."""
    with tempfile.NamedTemporaryFile("w", suffix=".supp") as leaving:
        leaving.write(LEAVING)
        leaving.flush()
        checked = [*VALGRIND, f"--suppressions={leaving.name}", program, *words.split()]
        ran = subprocess.run(checked, stdin=subprocess.DEVNULL, stdout=subprocess.DEVNULL, check=False)
    print(f"{program} {words}: {'no memory is lost' if ran.returncode == 0 else 'NOT CLEAN'}", flush=True)
    return ran.returncode == 0


def main():
    if not shutil.which("valgrind"):
        stop("valgrind is missing. On Debian or Ubuntu: apt-get install valgrind")
    built = {crate: build_port(crate) for crate in RUNS}
    return 0 if all([is_clean(built[crate], words) for crate, runs in RUNS.items() for words in runs]) else 1


if __name__ == "__main__":
    if sys.argv[1:]:
        stop(__doc__)
    sys.exit(main())
