#!/usr/bin/env python3
"""Writes the pages that follow from the sources alone: a README.md in the folder of each library crate, the map of the
crates in docs/ARCHITECTURE.md, and the tables of claims and of tests in docs/PROMISES.md, each between two marks.

usage: tools/pages.py            at the top of the repository; writes them
       tools/pages.py --check    writes nothing, and ends with status 1 if a page is not what would be written, if a line
                                 of crates.txt names a crate that no file of its own crate names, or if a file of tests
                                 doesn't say what it is about

A crate's page has the text at the head of its lib.rt, what it stands on, and each public item with its first sentence:
of a call, with its clauses and with the sentence that stands above a clause. A claim is such a sentence.
"""
import glob
import os
import re
import sys

MAP_PAGE, PROMISES = "docs/ARCHITECTURE.md", "docs/PROMISES.md"
FIRST, LAST = "<!-- by make pages, from here -->\n", "<!-- to here -->\n"
WRITTEN = "<!-- Written by `make pages` from the sources: change those. -->"

ITEM = re.compile(r"pub (struct|enum|trait|type|const) (\w+)")
IMPL = re.compile(r"(?:unsafe )?impl\b")
# The definitions that a file's clauses can cite: a clause's own variables may have the name of one elsewhere.
CITES = re.compile(r"^ *ghost use Rattle\.epoch\w*\.specs\.(\w+)\.\{([^}]*)\}", re.M)
CITED = re.compile(r"^(?:ghost )?use Rattle\.epoch\w*\.proofs\.(\w+)\.\{([^}]*)\}", re.M)
CLAUSE = re.compile(r"(requires|ensures)\*?(?: (\w+))? \{")
LINK = re.compile(r"\[(`[^`]+`)\](?:\([^)]*\))?")


def text_of(path):
    with open(path, encoding="utf-8") as file:
        return file.read()


def sections():
    """Returns the sections of crates.txt: what each is about, and the crates in it with those that their lines name."""
    found = []
    for line in text_of("crates.txt").splitlines():
        name, colon, used = line.partition(":")
        if line.startswith("#"):
            found.append((line.strip("# "), {}))
        elif colon:
            found[-1][1][name] = used.split()
    return found


def root_of(crate):
    return next(filter(os.path.isfile, (f"crates/{crate}/src/{it}.rt" for it in ("lib", "main"))))


def head(crate):
    """Returns the text at the head of a crate's first file."""
    return " ".join(line[3:].strip() for line in text_of(root_of(crate)).splitlines() if line.startswith("//!"))


def sentence(text):
    """Returns the first sentence of a text, without its full stop."""
    return re.split(r"\.(?= |$)", LINK.sub(r"\1", text))[0]


def below(uses, name):
    """Returns all that a crate stands on, itself left out."""
    return set().union(*({it} | below(uses, it) for it in uses.get(name, [])))


def nearest(uses, name):
    """Returns what a crate stands on, without what another one of these stands on already."""
    return [it for it in uses[name] if not any(it in below(uses, other) for other in uses[name])]


def table(found):
    uses = {name: used for _, crates in found for name, used in crates.items()}
    yield "| Crate | What it is | Stands on |\n|---|---|---|\n"
    for about, crates in found:
        yield f"| **{about.rstrip('.')}** | | |\n"
        for name in crates:
            stands = ", ".join(f"`{it}`" for it in nearest(uses, name))
            yield f"| `{name}` | {sentence(head(name))} | {stands} |\n"


def closed(text, start):
    """Returns where the brace at this place is closed."""
    depth = 0
    for at in range(start, len(text)):
        depth += {"{": 1, "}": -1}.get(text[at], 0)
        if depth == 0:
            return at
    raise ValueError("a brace isn't closed")


def one_line(text):
    return re.sub(r"\s+", " ", text).strip().replace("( ", "(").replace(", )", ")")


def paragraph(lines, at, mark):
    """Returns the first paragraph of the comment that ends above line `at`, without attributes in between."""
    while at > 0 and re.match(r"\s*(#\[|\]|\)\])", lines[at - 1]):
        at -= 1
    start = at
    while start > 0 and lines[start - 1].strip().startswith(mark):
        start -= 1
    texts = [line.strip()[len(mark) :].strip() for line in lines[start:at]]
    return " ".join(texts[: texts.index("")] if "" in texts else texts)


def head_end(text):
    """Returns where the head of the function at the text's beginning ends: at its body's brace, or at a semicolon."""
    # (a comment may have semicolons and brackets of its own)
    text = re.sub(r"//[^\n]*", lambda it: " " * len(it[0]), text)
    at, depth = 0, 0
    while text[at] != ";" or depth:
        if text[at] == "{":
            if not re.search(CLAUSE.pattern + "$", text[: at + 1]):
                return at
            at = closed(text, at)
        depth += {"(": 1, "[": 1, ")": -1, "]": -1}.get(text[at], 0)
        at += 1
    return at


def clauses(text):
    """Returns the clauses of a function's head: kind, name, the sentence above, what it says, and whether a line is free
    above it."""
    at = 0
    while found := CLAUSE.search(text, at):
        end = closed(text, found.end() - 1)
        lines = text[: found.start()].rstrip(" ").splitlines()
        above = paragraph(lines, len(lines), "// ")
        yield found[1], found[2] or "", above, one_line(text[found.end() : end]), not lines[-1].strip()
        at = end


class Call:
    """A function, as its head tells: how it is called, its first paragraph and its clauses."""

    def __init__(self, owner, name, lines, at, is_shown):
        text = "\n".join(lines[at:])
        text = text[: head_end(text)]
        first = CLAUSE.search(text)
        told = one_line(re.sub(r"^\s*//.*$", "", text[: first.start() if first else len(text)], flags=re.MULTILINE)).rstrip("{;} ")
        self.owner, self.last, self.is_shown = owner, name, is_shown
        self.told = re.sub(r"^pub (?:const )?(?:unsafe )?fn ", "", told)
        self.told = re.sub(r"^fn ", "", self.told).rstrip(",")
        self.about = paragraph(lines, at, "///")
        self.clauses = [*clauses(text)]


class Module:
    """The items of a file, the names that it passes on, and the modules below it."""

    def __init__(self, path):
        self.items, self.calls, self.modules = {}, [], {}
        lines = text_of(path).splitlines()
        self.head = " ".join(line[3:].strip() for line in lines if line.startswith("//!"))
        folder = os.path.dirname(path) if os.path.basename(path) in ("lib.rt", "main.rt") else path[: -len(".rt")]
        owner, shows_all = None, False
        for at, line in enumerate(lines):
            found = re.match(r"(pub )?mod (\w+);", line)
            call = re.match(r"( *)(pub )?(?:pub\(\w+\) )?(?:const )?(?:unsafe )?fn (\w+)", line)
            if found:
                self.modules[found[2]] = bool(found[1]), Module(f"{folder}/{found[2]}.rt")
            elif call and (owner or not call[1]):
                made = Call(owner if call[1] else "", call[3], lines, at, bool(call[2]) or shows_all)
                self.calls.append(made)
                if not call[1] and call[2]:
                    self.items[call[3]] = made
            elif line and not line.startswith((" ", "}", ")", "/", "#")):
                owner, shows_all = self.take(lines, at)
        cites = {name: file for file, names in CITES.findall("\n".join(lines)) for name in re.findall(r"[^\s,]+", names)}
        for call in self.calls:
            call.cites = cites
        uses = re.findall(r"^pub use ([^;]+);", "\n".join(lines), re.M)
        self.passed = [it for use in uses for it in paths_of(re.sub(r"\s+", "", use))]

    def take(self, lines, at):
        """Takes the item that begins in this line, and returns whose calls follow and whether all of them are shown."""
        found = ITEM.match(lines[at])
        if found:
            self.items[found[2]] = found[1], paragraph(lines, at, "///")
            return (found[2], True) if found[1] == "trait" else (None, False)
        if not IMPL.match(lines[at]):
            return None, False
        text = "\n".join(lines[at : at + 12])
        named = without_bounds(text[: text.index("{")]).partition(" for ")
        return (re.search(r"(\w+)(?:<|$)", (named[2] or named[0]).replace("impl", "", 1).strip()) or [None, None])[1], False


def without_bounds(text):
    """Returns the head of an `impl` without its type parameters and without what follows `where`."""
    text = one_line(text.partition("\nwhere")[0])
    if not text.startswith("impl<"):
        return text
    depth = 0
    for at in range(4, len(text)):
        depth += {"<": 1, ">": -1}.get(text[at], 0)
        if depth == 0:
            return "impl" + text[at + 1 :]
    return text


def paths_of(use):
    """Returns the paths of a `use`, each as its words."""
    found = re.match(r"(.*?)\{(.*)\}$", use)
    if not found:
        return [use.split("::")]
    return [path for part in found[2].split(",") if part for path in paths_of(found[1] + part)]


def exported(module):
    """Returns what a module exports: local items with their module, and the paths that are of other crates."""
    items, others = {name: module for name in module.items}, []
    for is_public, low in module.modules.values():
        if is_public:
            found, elsewhere = exported(low)
            items, others = {**found, **items}, others + elsewhere
    for path in module.passed:
        if path[0] == "crate":
            # (the crate's root exports it itself)
            continue
        words = [it for it in path if it != "self"]
        at = module
        for word in words[:-1]:
            at = at.modules[word][1] if at and word in at.modules else None
        found = exported(at)[0] if at else {}
        if words[-1] in found:
            items[words[-1]] = found[words[-1]]
        else:
            others.append(path)
    return items, others


def calls_of(module, name):
    """Returns the calls on a type that this module or one below it has."""
    found = [it for it in module.calls if it.owner == name and it.is_shown]
    for _, low in module.modules.values():
        found += calls_of(low, name)
    return found


def told(call):
    yield f"\n**`{call.told}`**\n\n" + (f"{sentence(call.about)}.\n" if call.about else "")
    for at, (kind, name, above, says, _) in enumerate(call.clauses):
        named = f"*{kind}*" + (f" **{name}**" if name else "")
        yield ("\n" if at == 0 else "") + f"- {named}: " + (f"{above} " if above else "") + f"`` {says} ``\n"


def page_of(crate, uses):
    """Returns the text of a library crate's page."""
    root = Module(root_of(crate))
    items, others = exported(root)
    yield f"# {crate}\n\n{WRITTEN}\n\n{LINK.sub(chr(92) + '1', head(crate))}\n\n"
    yield "It stands on " + (", ".join(f"`{it}`" for it in uses[crate]) or "the standard library alone") + ".\n"
    if others:
        yield "\nIt passes on " + ", ".join(f"`{'::'.join(it)}`" for it in others) + ".\n"
    for name in sorted(items, key=lambda it: (isinstance(items[it].items[it], Call), it)):
        item = items[name].items[name]
        if isinstance(item, Call):
            yield f"\n## {name}\n"
            yield from told(item)
            continue
        kind, about = item
        yield f"\n## {name}\n\n{kind.capitalize()}." + (f" {sentence(about)}.\n" if about else "\n")
        for call in calls_of(root, name):
            yield from told(call)


def lemmas(crate, call):
    """Returns the lemmas that the proof files of a function cite, by their files."""
    found = {}
    for path in sorted(glob.glob(f"crates/{crate}/proofs/**/{call.last}/*.antt", recursive=True)):
        if os.path.basename(os.path.dirname(os.path.dirname(path))).startswith(call.owner or ""):
            for file, names in CITED.findall(text_of(path)):
                found.setdefault(file, []).extend(re.findall(r"\w+", names))
    return found


def all_calls(module):
    """Returns all functions of a module and of those below it."""
    return [*module.calls, *(it for _, low in module.modules.values() for it in all_calls(low))]


def groups(call):
    """Returns a function's claims: each sentence with the clauses below it, up to the next sentence or free line."""
    found, is_open = [], False
    for kind, name, above, says, is_apart in call.clauses:
        if kind == "ensures" and above:
            found.append((above, [name], [says]))
        elif kind == "ensures" and is_open and not is_apart:
            found[-1][1].append(name)
            found[-1][2].append(says)
        is_open = kind == "ensures" and (bool(above) or is_open and not is_apart)
    return found


def promises(crate):
    """Returns the table of a crate's claims: each sentence above a clause, with the call, and what the clause rests on."""
    rows = []
    for call in all_calls(Module(root_of(crate))):
        for above, names, says in groups(call):
            cited = sorted({it for it in re.findall(r"[^\s(){},.]+", " ".join(says)) if it in call.cites})
            where = f"`{call.owner}::{call.last}`" if call.owner else f"`{call.last}`"
            which = " " + ", ".join(f"`{it}`" for it in names) if names[0] else ""
            rest = ", ".join(f"`{it}` (S/{call.cites[it]})" for it in cited)
            low = [f"{', '.join(f'`{it}`' for it in sorted(set(many)))} (P/{file})" for file, many in sorted(lemmas(crate, call).items())]
            cells = [above.rstrip(".").replace("|", r"\|"), where + which, rest, "; ".join(low)]
            rows.append(re.sub("  +", " ", f"| {' | '.join(cells)} |\n"))
    counts = [len(glob.glob(f"crates/{crate}/{folder}/*.edit")) for folder in ("must-fail", "refuted")]
    if rows:
        yield f"\n## {crate}\n\n{sentence(head(crate))}. Wrong bodies: {counts[0]} in the gate, {counts[1]} in `refuted/`.\n\n"
        yield "| Claim | Call and clause | Definitions | Lemmas |\n|---|---|---|---|\n"
        yield from rows


def tested(crates):
    """Returns the table of tests: each file with what it is about, and the names of its tests as sentences."""
    yield "\n## What is only tested\n\nA test is named for what happens. The gate runs each of them.\n\n| Tests | What they are about | What happens in them |\n|---|---|---|\n"
    for path in sorted(it for crate in crates for it in glob.glob(f"crates/{crate}/src/**/*.rt", recursive=True)):
        names = re.findall(r"#\[test\]\n\s*fn (\w+)", text_of(path))
        if names:
            about = sentence(" ".join(line[3:].strip() for line in text_of(path).splitlines() if line.startswith("//!"))).replace("|", r"\|")
            if not about:
                raise SystemExit(f"{path} has tests, and no line with //! that says what they are about")
            yield f"| `{path[len('crates/'):].replace('/src/', ' ')}` | {about} | {'; '.join(it.replace('_', ' ') for it in names)} |\n"


def filled(path, text):
    """Returns a page's text with this one between its marks."""
    before, mark, rest = text_of(path).partition(FIRST)
    if not mark or LAST not in rest:
        raise SystemExit(f"{path} lacks the marks {FIRST.strip()} and {LAST.strip()}")
    return f"{before}{FIRST}\n{text}\n{LAST}{rest.partition(LAST)[2]}"


def unnamed(crate, used):
    """Returns which of these crates no file of the crate names."""
    folders = [f"crates/{crate}/{part}" for part in ("src", "specs", "proofs")]
    files = [f"{at}/{name}" for folder in folders for at, _, names in os.walk(folder) for name in names]
    text = "".join(map(text_of, files))
    return [it for it in used if not re.search(rf"\b{it}::|\bRattle\.{it}\b|\buse {it}\b", text)]


def wanted(found):
    """Returns each page that is written, with its text."""
    uses = {name: used for _, crates in found for name, used in crates.items()}
    libraries = [it for it in uses if root_of(it).endswith("lib.rt") and not it.startswith("tests_")]
    pages = {f"crates/{it}/README.md": "".join(page_of(it, uses)) for it in libraries}
    claims = "".join([*(part for it in libraries for part in promises(it)), *tested(uses)])
    return {**pages, MAP_PAGE: filled(MAP_PAGE, "".join(table(found))), PROMISES: filled(PROMISES, claims.lstrip())}


def main(words):
    found = sections()
    pages = wanted(found)
    if words != ["--check"]:
        for path, text in pages.items():
            with open(path, "w", encoding="utf-8") as file:
                file.write(text)
        return 0
    faults = [f"{path}: `make pages` would write another text" for path, text in pages.items() if not os.path.isfile(path) or text_of(path) != text]
    for name, used in [it for _, crates in found for it in crates.items()]:
        faults += [f"crates.txt: no file of {name} names {it}" for it in unnamed(name, used)]
    print("\n".join(faults) or f"{len(pages)} pages are what `make pages` writes")
    return 1 if faults else 0


if __name__ == "__main__":
    sys.exit(main(sys.argv[1:]))
