#!/usr/bin/env python3
"""Takes crates along: copies them, and all that they stand on, into a repository of your own.

usage: tools/take.py TO WHAT..    at the top of this repository; TO is the top of yours, WHAT the crates that yours names
       tools/take.py --test       takes crates into an empty folder, runs the programs of README.md and docs/MAPS.md
                                  there, and sees that what was changed there is left alone

Copies src/, specs/ and proofs/ of each crate, and out/rlib where nothing changed since the crate was proved: then it isn't
proved again. The lines go into TO's crates.txt, between two marks, each with a checksum of what was copied. What an
earlier call took is taken anew. A crate that isn't as this program left it stays, nothing is copied, and the status is 2.
"""
import hashlib
import os
import re
import shutil
import subprocess
import sys
import tempfile

HEAD, TAIL = "# Taken along by tools/take.py of Moskwyln. Change nothing between these two lines.", "# The end of what was taken along."
PARTS = ("src", "specs", "proofs")
LICENSES = ("LICENSE-APACHE", "LICENSE-MIT")
# The pages that have a whole program, with the crates that it names, and with what it prints.
PROGRAMS = (("README.md", "epoch_shared", "400 reads"), ("docs/MAPS.md", "epoch_lend_pointers epoch_map", "42"))
# As in tools/prove.py: a byte of code is as much work as some ten of a proof. Measured: so much in a processor second.
BYTES_A_SECOND = 4_000


class Refused(Exception):
    """Why nothing was copied."""


def lines_of(path):
    if not os.path.isfile(path):
        return []
    with open(path, encoding="utf-8") as file:
        return file.read().splitlines()


def crates_of(lines):
    """Returns the crates of these lines of a crates.txt: for each the line, what it uses, and the comment behind it."""
    found = {}
    for line in lines:
        code, _, comment = line.partition("#")
        name, colon, uses = code.partition(":")
        if colon:
            found[name.split()[0]] = code.strip(), uses.split(), comment.strip()
    return found


def below(crates, names):
    """Returns these crates and those that they stand on, each after those that it stands on itself."""
    found = []
    for name in filter(crates.__contains__, names):
        found += [it for it in [*below(crates, crates[name][1]), name] if it not in found]
    return found


def files_of(crate):
    return sorted(f"{at}/{it}" for part in PARTS for at, _, names in os.walk(f"{crate}/{part}") for it in names)


def sum_of(crate):
    """Returns a checksum of a crate's code, definitions and proofs."""
    found = hashlib.sha256()
    for path in files_of(crate):
        with open(path, "rb") as file:
            found.update(repr((os.path.relpath(path, crate), file.read())).encode())
    return found.hexdigest()[:16]


def proved(crates, names):
    """Returns those of the crates for which no file, of them or below, is newer than what their proof left."""
    found = set()
    for name in names:
        stamp = f"crates/{name}/out/rlib/stamp"
        if found.issuperset(filter(crates.__contains__, crates[name][1])) and os.path.isfile(stamp):
            newest = max(map(os.path.getmtime, files_of(f"crates/{name}")))
            if newest <= os.path.getmtime(stamp):
                found.add(name)
    return found


def split(lines):
    """Returns the lines of a crates.txt that its owner wrote, and the crates between the marks."""
    if HEAD not in lines:
        return lines, {}
    first, last = lines.index(HEAD), lines.index(TAIL) if TAIL in lines else len(lines)
    return lines[:first] + lines[last + 1 :], crates_of(lines[first:last])


def refusals(to, crates, names, own, before):
    """Returns why each crate that can't be copied to TO can't."""
    for name in names:
        if name in own:
            yield f"{to}/crates.txt has a crate {name} of its own"
        elif name in before and os.path.isdir(f"{to}/crates/{name}") and sum_of(f"{to}/crates/{name}") != before[name][2]:
            yield f"{to}/crates/{name} was changed since it was taken along: move your changes elsewhere, and delete the folder"
        elif name not in before and os.path.exists(f"{to}/crates/{name}"):
            yield f"{to}/crates/{name} is there, and no call of this program made it"
    for name in before.keys() - crates.keys():
        yield f"{name} was taken along, and isn't here any more: delete {to}/crates/{name} and its line of {to}/crates.txt"


def copy(name, to, takes_results):
    """Copies one crate. What checks of TO left in out/ stays: `rt` sees by itself what of it is still valid."""
    source, target = f"crates/{name}", f"{to}/crates/{name}"
    for part in PARTS:
        shutil.rmtree(f"{target}/{part}", ignore_errors=True)
        if os.path.isdir(f"{source}/{part}"):
            shutil.copytree(f"{source}/{part}", f"{target}/{part}")
    if takes_results:
        shutil.rmtree(f"{target}/out/rlib", ignore_errors=True)
        shutil.copytree(f"{source}/out/rlib", f"{target}/out/rlib")
    for license_file in LICENSES:
        shutil.copyfile(license_file, f"{target}/{license_file}")


def work_in(name):
    return sum(os.path.getsize(it) * (10 if it.endswith(".rt") else 1) for it in files_of(f"crates/{name}"))


def take(to, what, takes_results=True):
    """Copies the crates, and returns what to tell."""
    crates = crates_of(lines_of("crates.txt"))
    strange = [it for it in what if it not in crates]
    if strange:
        raise Refused(f"no crate {', '.join(strange)} is here; there are {', '.join(sorted(crates))}")
    if not os.path.isdir(to):
        raise Refused(f"there is no folder {to}")
    own_lines, before = split(lines_of(f"{to}/crates.txt"))
    own = crates_of(own_lines)
    if own and not os.path.isdir(f"{to}/crates"):
        raise Refused(f"{to} has its crates beside its crates.txt: move them to {to}/crates, where these crates have to be")
    names = below(crates, [*before, *what])
    amiss = [*refusals(to, crates, names, own, before)]
    if amiss:
        raise Refused("\n".join([*amiss, "nothing was copied"]))
    with_results = proved(crates, names) if takes_results else set()
    for name in names:
        copy(name, to, name in with_results)
    taken = [f"{crates[it][0]}  # {sum_of(f'crates/{it}')}" for it in names]
    with open(f"{to}/crates.txt", "w", encoding="utf-8") as file:
        file.write("\n".join([*own_lines, HEAD, *taken, TAIL]) + "\n")
    left = [it for it in names if it not in with_results]
    minutes = sum(map(work_in, left)) / BYTES_A_SECOND / 60
    first = "The results of all proofs were copied" if not left else (
        f"The results of {len(names) - len(left)} proofs were copied. Your first check proves the other {len(left)} crates, "
        f"in some {minutes:.0f} minutes of one processor"
    )
    return [
        f"{len(names)} crates are in {to}/crates: {' '.join(names)}",
        f"{first}, and then your own crate is proved.",
        f"The line of your crate in {to}/crates.txt: my_app: {' '.join(what)}",
    ]


def see_printed(to, name, page, what, printed):
    """Takes along what a page's program names, compiles the program as this crate, and sees what it prints."""
    print("\n".join(take(to, what.split(), takes_results=False)))
    program = re.search(r"<!-- tried by tools/take.py -->\n```rust\n(.*?)```", "\n".join(lines_of(page)), re.S)[1]
    os.makedirs(f"{to}/crates/{name}/src")
    with open(f"{to}/crates/{name}/src/main.rt", "w", encoding="utf-8") as file:
        file.write(program)
    with open(f"{to}/crates.txt", "a", encoding="utf-8") as file:
        file.write(f"{name}: {what}\n")
    ran = subprocess.run(["rt", "try"], cwd=f"{to}/crates/{name}", stdout=subprocess.PIPE, text=True, check=False)
    assert (ran.returncode, ran.stdout.splitlines()[:1]) == (0, [printed]), (page, ran)


def test():
    """Runs the programs of pages, and sees that a folder which was changed, or isn't ours, stays as it is."""
    with tempfile.TemporaryDirectory() as to:
        take(to, ["epoch"], takes_results=False)
        for number, (page, what, printed) in enumerate(PROGRAMS):
            see_printed(to, f"my_app_{number}", page, what, printed)
        changed = f"{to}/crates/epoch_map/src/lib.rt"
        with open(changed, "a", encoding="utf-8") as file:
            file.write("// Mine.\n")
        see_refused(to, "epoch_map was changed")
        assert lines_of(changed)[-1] == "// Mine."
    with tempfile.TemporaryDirectory() as to:
        os.makedirs(f"{to}/crates/epoch_cells")
        see_refused(to, "epoch_cells is there")
        assert os.listdir(to) == ["crates"] and os.listdir(f"{to}/crates") == ["epoch_cells"]
    print(f"Crates were taken along, the programs of {len(PROGRAMS)} pages run, and what isn't ours stays")


def see_refused(to, why):
    ran = subprocess.run([sys.argv[0], to, "epoch_map"], stderr=subprocess.PIPE, text=True, check=False)
    assert ran.returncode == 2 and why in ran.stderr, ran


def main():
    if sys.argv[1:] == ["--test"]:
        return test()
    if len(sys.argv) < 3 or not sys.argv[1]:
        print(__doc__, file=sys.stderr)
        return 2
    try:
        print("\n".join(take(sys.argv[1].rstrip("/"), sys.argv[2:])))
    except Refused as why:
        print(why, file=sys.stderr)
        return 2
    return 0


if __name__ == "__main__":
    sys.exit(main())
