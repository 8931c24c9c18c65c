#!/usr/bin/env python3
"""Says whether the names that documents give still stand in the code, and whether their links lead somewhere.

- A link leads to a file of the repository, and what follows '#' is a heading there.
- 'Type::call' stands in a file that names the type.
- A word with two or more underscores is a word of the code, of Rust's side beside it too, or a file's name; so is one that
  begins as a crate's name.
- In a row of PROMISES.md, a clause stands in a contract of a call that is named in the same cell, a definition in the
  code, and a lemma in a proof. 'S/Name' and 'P/Name' are files in specs/ and proofs/.
- A row of DIFFERENCES.md that quotes a script's name quotes one of crates/epoch_run_script/runs.txt.
- No two public types of all crates have one name, and no two definitions in specs/.
- README.md says which crates of the toolchain are trusted: those that the lines of library crates in crates.txt name.
- WORKING.md has the limits of tools/sizes.py.
- Where a page has a line '<!-- path: a > b > c -->', each function of the path calls the next one.
"""
import glob
import re
import sys

WORD = r"[A-Za-z_][A-Za-z0-9_]*"
DOCUMENTS = ["README.md", "CHANGELOG.md", "beside/README.md", *sorted(glob.glob("docs/*.md"))]


def words(text):
    return set(re.findall(WORD, text))


def files(folder, suffix):
    found = glob.glob(f"crates/*/{folder}/**/*{suffix}", recursive=True)
    return {f: open(f, encoding="utf-8").read() for f in found}


SOURCES = files("src", ".rt")
SPECS, PROOFS = files("specs", ".antt"), files("proofs", ".antt")
SOURCE_WORDS = {f: words(t) for f, t in SOURCES.items()}
CODE = set().union(*SOURCE_WORDS.values(), *map(words, SPECS.values()))
RUST = set().union(*(words(open(f, encoding="utf-8").read()) for f in glob.glob("beside/**/*.rs", recursive=True)))
LEMMAS = set().union(*map(words, PROOFS.values()))
NAMES = words(" ".join([*SOURCES, *SPECS, *PROOFS, *glob.glob("crates/*"), *glob.glob("crates/*/*.txt")]))
SCRIPTS = re.findall(r"^# (.*)$", open("crates/epoch_run_script/runs.txt", encoding="utf-8").read(), flags=re.M)


CLAUSE = r"(?:ensures|requires)\*? (" + WORD + r") \{"


def functions():
    """The texts of all functions of one name, by that name."""
    found = {}
    for text in SOURCES.values():
        for piece in re.split(r"\bfn (?=" + WORD + r"\s*[<(])", text)[1:]:
            found.setdefault(re.match(WORD, piece)[0], []).append(piece)
    return found


FUNCTIONS = functions()
# The names of the clauses of all functions of one name, by that name.
CONTRACTS = {name: set(re.findall(CLAUSE, " ".join(pieces))) for name, pieces in FUNCTIONS.items()}
TYPE = re.compile(rf"^\s*pub (?:struct|enum|trait|type) ({WORD})", re.M)
DEFINITION = re.compile(r"^(?:(?:abbrev|unfoldable) )*pub (?:(?:record|data) )?(?!use |mod )([^\s:({]+)", re.M)
GHOSTS = set(re.findall(r"ghost (" + WORD + r")\s*[:=]", "".join(SOURCES.values())))


def anchors(path):
    text = re.sub(r"```.*?```", "", open(path, encoding="utf-8").read(), flags=re.DOTALL)
    headings = re.findall(r"^#+ (.*)$", text, flags=re.MULTILINE)
    return {re.sub(r"[^\w\- ]", "", h.lower()).strip().replace(" ", "-") for h in headings}


def bad_links(document, text):
    for target in re.findall(r"\]\(([^)\s]+)\)", text):
        path, _, part = target.partition("#")
        parts = [p for p in f"{document.rpartition('/')[0]}/{path}".split("/") if p]
        while ".." in parts:
            at = parts.index("..")
            parts[at - 1 : at + 1] = []
        file = "/".join(parts) if path else document
        if not target.startswith("http") and not (glob.glob(file) and (not part or part in anchors(file))):
            yield f"the link {target} leads nowhere"


def bad_words(text):
    for owner, item in set(re.findall(rf"`({WORD})::({WORD})[^`]*`", text)):
        if not any(owner in w and item in w for w in SOURCE_WORDS.values()):
            yield f"{owner}::{item} isn't there"
    for word in set(re.findall(rf"`({WORD})`", text)):
        is_long = word.count("_") >= 2 or word.startswith(("epoch_", "tests_")) and not word.endswith("_")
        if not is_long or not word.islower() or word in CODE | RUST | LEMMAS | NAMES:
            continue
        # A text may speak of all tests whose names begin so.
        if not any(known.startswith(word + "_") for known in CODE):
            yield f"{word} isn't there"


def bad_rows(text):
    for row in re.findall(r"^\| .* \|$", text, flags=re.MULTILINE):
        cells = [c.strip() for c in row.strip("|").split("|")]
        if len(cells) != 4 or cells[1] == "Call and clause":
            continue
        named = set(re.findall(WORD, " ".join(re.findall(r"`[^`]*`", cells[1])))) - {"requires", "ensures"}
        calls = named & set(CONTRACTS)
        types = {w for w in named if w[0].isupper()}
        known = GHOSTS.union(*(CONTRACTS[w] for w in calls or CONTRACTS))
        for kind in re.findall(rf"calls of `({WORD})`", cells[1]):
            known |= set(re.findall(CLAUSE, "".join(t for f, t in SOURCES.items() if kind in SOURCE_WORDS[f])))
        if not calls:
            known |= CONTRACTS.keys()
        for word in named - known - calls - types - NAMES:
            yield f"no clause {word} in a contract beside it: {cells[0][:70]}"
        for kind, name in re.findall(rf"\b([SP])/({WORD})", row):
            if not re.search(rf"/{name}\b", "\n".join(SPECS if kind == "S" else PROOFS)):
                yield f"no file {kind}/{name}: {cells[0][:70]}"
        for word in re.findall(rf"`({WORD})`", cells[2] + cells[3]):
            if word not in CODE and word not in LEMMAS:
                yield f"no definition or lemma {word}: {cells[0][:70]}"


def bad_scripts(text):
    for name in re.findall(r'[;|] "([^"]+)"', text):
        if name not in SCRIPTS:
            yield f"no script is named {name}"


def bad_paths(text):
    """Says which functions of a page's paths don't call the next one."""
    for path in re.findall(r"<!-- path: (\w.*) -->", text):
        names = path.split(" > ")
        for caller, called in zip(names, names[1:]):
            if not any(re.search(rf"\b{called}(::<.*>)?\(", piece) for piece in FUNCTIONS.get(caller, [])):
                yield f"no function {caller} calls {called}"


def doubles():
    """Says which public types have one name, and which definitions."""
    for what, texts, pattern in ("public types", SOURCES, TYPE), ("definitions", SPECS, DEFINITION):
        places = {}
        for file in sorted(texts):
            for name in pattern.findall(texts[file]):
                places.setdefault(name, []).append(file)
        for name, files in sorted(places.items()):
            if len(files) > 1:
                yield f"{len(files)} {what} are named {name}: in {', '.join(files)}"


def bad_trust():
    """Says which crates of the toolchain README.md trusts though no library names them, and which it leaves out."""
    lines = [line.partition(":") for line in open("crates.txt", encoding="utf-8") if not line.startswith("#") and ":" in line]
    ours = {name.split()[0] for name, _, _ in lines}
    libraries = {name.split()[0]: used.split() for name, _, used in lines if glob.glob(f"crates/{name.split()[0]}/src/lib.rt")}
    named = {it for name, used in libraries.items() if not name.startswith("tests_") for it in used} - ours
    # (these are parts of the standard library)
    named -= {"core", "std_alloc"}
    told = re.search(r"^Trusted: .*$", open("README.md", encoding="utf-8").read(), flags=re.MULTILINE)
    for word in named ^ set(re.findall(rf"`({WORD})`", told[0] if told else "")):
        yield f"README.md: the crates of the toolchain that libraries name are {', '.join(sorted(named))}: see {word}"


def bad_limits():
    """Says which limits of tools/sizes.py are not in WORKING.md."""
    page = open("docs/WORKING.md", encoding="utf-8").read()
    for name, number in re.findall(r"^([A-Z_]+) = (\d+)$", open("tools/sizes.py", encoding="utf-8").read(), flags=re.MULTILINE):
        if f"{int(number):,}" not in page:
            yield f"docs/WORKING.md: {name} of tools/sizes.py is {number}"


def main():
    amiss = 0
    for document in DOCUMENTS:
        text = open(document, encoding="utf-8").read()
        found = [*bad_links(document, text), *bad_paths(text), *(bad_words(text) if document != "CHANGELOG.md" else [])]
        found += bad_rows(text) if document == "docs/PROMISES.md" else []
        found += bad_scripts(text) if document == "docs/DIFFERENCES.md" else []
        for line in found:
            print(f"{document}: {line}")
        amiss += len(found)
    named_alike = [*doubles(), *bad_trust(), *bad_limits()]
    print("".join(f"{line}\n" for line in named_alike), end="")
    amiss += len(named_alike)
    print(f"{len(DOCUMENTS)} documents, {amiss} names or links amiss")
    return 1 if amiss else 0


sys.exit(main())
