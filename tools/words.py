#!/usr/bin/env python3
"""Prints how many words each page has that is written by hand, and refuses more than the pages may have.

usage: tools/words.py            at the top of the repository
       tools/words.py --check    prints only what is too long

What stands between the marks of `make pages` or `make beside` is written by a command.
"""
import glob
import re
import sys

sys.dont_write_bytecode = True
from pages import text_of

WORDS_BY_HAND = 29_000
README_LINES, README_WORDS, UNRELEASED_WORDS, DECISION_WORDS = 120, 1_200, 900, 70
# The pages for users, without code: those that docs/CALLING.md leads to, and itself.
PAGE_WORDS = 700
FOR_USERS = (
    "CALLING READY_TO_USE SHARED_VALUES MAPS ORDERED_MAPS STACKS_AND_QUEUES STRUCTURES COUNTED_VALUES WORLDS FAULTS".split()
)


def by_hand(path):
    return len(re.sub(r"<!-- by make \w+, from here -->.*?<!-- to here -->", "", text_of(path), flags=re.DOTALL).split())


def without_code(path):
    return len(re.sub(r"```.*?```|<!--.*?-->", "", text_of(path), flags=re.DOTALL).split())


def too_long(pages):
    """Returns what is longer than it may be."""
    readme, changes = text_of("README.md"), text_of("CHANGELOG.md")
    unreleased = changes.partition("unreleased")[2].partition("\n## ")[0]
    entries = [it for it in text_of("docs/DECISIONS.md").split("\n\n") if it.startswith("**")]
    sizes = [
        ("the words of all pages", sum(map(by_hand, pages)), WORDS_BY_HAND),
        ("the lines of README.md", readme.count("\n"), README_LINES),
        ("the words of README.md", len(readme.split()), README_WORDS),
        ("the words of what is unreleased in CHANGELOG.md", len(unreleased.split()), UNRELEASED_WORDS),
        *((f"the words of {it}.md, besides code,", without_code(f"docs/{it}.md"), PAGE_WORDS) for it in FOR_USERS),
        *((f"the words of the decision {it[:40]}..", len(it.split()), DECISION_WORDS) for it in entries),
    ]
    return [f"{what} are {size}, and not at most {most}" for what, size, most in sizes if size > most]


def main(words):
    pages = ["README.md", "CHANGELOG.md", "beside/README.md", *sorted(glob.glob("docs/*.md"))]
    if words != ["--check"]:
        print("\n".join(f"{by_hand(it):6} {it}" for it in pages))
    faults = too_long(pages)
    print("\n".join(faults) or f"{sum(map(by_hand, pages)):6} words by hand, of at most {WORDS_BY_HAND}")
    return 1 if faults else 0


if __name__ == "__main__":
    sys.exit(main(sys.argv[1:]))
