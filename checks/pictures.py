#!/usr/bin/env python3
"""Whether tools/plot shows the numbers of the summary, for each example: in its text, and on some pages.

    python3 pictures.py PROGRAM

It prints what is otherwise and ends with 1, else with 0.
"""
import os
import re
import subprocess
import sys
import tempfile

sys.dont_write_bytecode = True
from examples import TOP, examples

PLOT = os.path.join(TOP, "tools", "plot")
# The words of the summary that the files of a run tell.
TOLD = ["ports", "frames", "blocks", "exact", "mega", "miss", "installed", "present", "full", "entries"]
# A page takes some seconds.
PAGES = ["cache-sweeps", "flow-limit"]
NUMBER = re.compile(r"\b([a-z]+)=(\d+)")
FIRST_PARAGRAPH = re.compile("<pre>(.*?)</pre>", re.DOTALL)


def run(*words):
    return subprocess.run(words, cwd=TOP, check=True, capture_output=True, text=True).stdout


def numbers_in(text):
    return {name: number for name, number in NUMBER.findall(text) if name in TOLD}


def shown(out, has_page):
    """The numbers that the text and the page show."""
    yield "text", numbers_in(run(PLOT, "--text", out).partition("\n\n")[0])
    if has_page:
        run(PLOT, out)
        with open(f"{out}.html", encoding="utf-8") as file:
            yield "page", numbers_in(FIRST_PARAGRAPH.search(file.read())[1])


def main(words):
    program, wrong = os.path.abspath(words[0]), 0
    with tempfile.TemporaryDirectory() as folder:
        for example in examples():
            out = os.path.join(folder, example.name)
            wanted = numbers_in(run(program, *example.options, example.edits, out, *example.ports))
            for where, numbers in shown(out, example.name in PAGES):
                if numbers != wanted or len(numbers) != len(TOLD):
                    print(f"{example.name}: the {where} has {numbers}, not {wanted}")
                    wrong += 1
    return wrong > 0


if __name__ == "__main__":
    sys.exit(main(sys.argv[1:]))
