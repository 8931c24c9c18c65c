#!/usr/bin/env python3
"""Says whether the code that documents quote still stands in the files that they name.

A quote is a block of code right below a line '<!-- quoted from FILE -->'. Comments don't matter, nor do spaces and line
breaks, nor a comma before a closing bracket, so that a document may break lines otherwise than the file does.
"""
import glob
import re
import sys

QUOTE = re.compile(r"<!-- quoted from (\S+) -->\n```\w+\n(.*?)\n```\n", re.DOTALL)


def squeezed(text):
    """The text without comments, and without what the layout decides."""
    code = re.sub(r"^\s*(//|--).*$", "", text, flags=re.MULTILINE)
    return re.sub(r",(?=[)}\]])", "", re.sub(r"\s+", "", code))


def main():
    count, missing = 0, 0
    for document in ["README.md", *sorted(glob.glob("docs/*.md"))]:
        text = open(document, encoding="utf-8").read()
        marks = text.count("\n<!-- quoted from ")
        quotes = QUOTE.findall(text)
        if len(quotes) != marks:
            print(f"{document}: {marks} marks of quotes, and {len(quotes)} quotes")
            missing += 1
        for name, code in quotes:
            count += 1
            if squeezed(code) not in squeezed(open(name, encoding="utf-8").read()):
                print(f"{document}: not in {name}:\n{code}\n")
                missing += 1
    print(f"{count} quotes, {missing} amiss")
    return 1 if missing else 0


sys.exit(main())
