"""The examples, each with the words of the command that its README.md tells.

    python3 examples.py
    python3 examples.py NAME OUT
    python3 examples.py --traced
    python3 examples.py --compared

prints their names, or the words of one of them, a word in each line; or of those that are traced the names, each with the
words of the tracer behind it in one line; or of each comparison the name, that of its expected text, and the words.
"""
import os
import re
import sys
from collections import namedtuple

TOP = os.path.dirname(os.path.dirname(os.path.realpath(__file__)))
COMMAND = re.compile(r"^\./megaswitch (.*) out (.*)$", re.MULTILINE)

TRACE = re.compile(r"^\./megatrace (.*)$", re.MULTILINE)
COMPARISON = re.compile(r"^\./megadiff (.*)$", re.MULTILINE)

# The options, the name of the edits and the ports; names are from the top of the repository.
Example = namedtuple("Example", "name options edits ports")


def readmes():
    folder = os.path.join(TOP, "examples")
    for name in sorted(os.listdir(folder)):
        readme = os.path.join(folder, name, "README.md")
        if os.path.exists(readme):
            with open(readme, encoding="utf-8") as file:
                yield name, file.read()


def examples():
    for name, text in readmes():
        if found := COMMAND.search(text):
            before, ports = found.groups()
            *options, edits = before.split()
            yield Example(name, options, edits, ports.split())


def traced_examples():
    for name, text in readmes():
        if found := TRACE.search(text):
            yield name, found[1]


def comparisons():
    """Each with the text that it is to print: `brief`, or that of the name of NEW."""
    for name, text in readmes():
        for words in COMPARISON.findall(text):
            brief = words.startswith("--brief ")
            _, new, *_ = words.removeprefix("--brief ").split()
            yield name, "brief" if brief else os.path.basename(new), words


def main(words):
    if words == ["--compared"]:
        for compared in comparisons():
            print(*compared)
        return
    if words == ["--traced"]:
        for traced in traced_examples():
            print(*traced)
        return
    for example in examples():
        if not words:
            print(example.name)
        elif example.name == words[0]:
            print(*example.options, example.edits, words[1], *example.ports, sep="\n")


if __name__ == "__main__":
    main(sys.argv[1:])
