#!/usr/bin/env python3
"""Compares the program with the simulation on the runs of made_runs.py.

    python3 compare.py PROGRAM ROUNDS

Status, text and files of each run have to be the same, byte by byte: the summary, the dumps and the journal among them.
Where there are workers, the simulation takes the steps that the program's journal tells; workers.py has more of such runs.
Round n is the same at each call. It prints the first run that differs and keeps its folder, and ends with 1; else it
prints nothing.
"""
import os
import shutil
import sys
import tempfile

sys.dont_write_bytecode = True
from made_runs import made_run
from whole_run import journal_of, ran_in, simulated


def compare(program, number, folder):
    """Tries one run in an empty folder, and tells what is wrong."""
    words, given = made_run(number)
    got = ran_in(folder, program, words, given)
    wanted = simulated(words, given, journal_of(got))
    if (got.status, got.text) != (wanted.status, wanted.text):
        return f"{words}: status {got.status} and {got.text!r}, not {wanted.status} and {wanted.text!r}"
    names = got.files.keys() | wanted.files.keys()
    wrong = sorted(name for name in names if got.files.get(name) != wanted.files.get(name))
    return f"{words}: {', '.join(wrong)}" if wrong else None


def main(words):
    program, rounds = os.path.abspath(words[0]), int(words[1])
    for number in range(rounds):
        folder = tempfile.mkdtemp(prefix="megaswitch-")
        wrong = compare(program, number, folder)
        if wrong:
            print(f"round {number} differs, in {folder}: {wrong}")
            return 1
        shutil.rmtree(folder)
    return 0


if __name__ == "__main__":
    sys.exit(main(sys.argv[1:]))
