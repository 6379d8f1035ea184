#!/usr/bin/env python3
"""Counts the threads that the program asks the system for, and lets the system refuse them, by strace.

    refused_threads.py PROGRAM

A run of a switch whose rules change while frames come. With 1, 2, 4 and 16 workers each block has as many receive workers
and as many handlers, an editor and a revalidator, each in a thread of its own. With four workers the system then refuses all
threads, all from the second on, or so on, and their work has to be done all the same. Each run has to end with status 0,
and what it writes has to be what the steps of its journal make.
"""
import os
import re
import subprocess
import sys
import tempfile

sys.dont_write_bytecode = True
from made_runs import made_run
from simulation.replay import Unlawful
from thread_marks import blocks_in
from whole_run import Ended, journal_of, simulated
from workers import PATIENCE, WORKERS, without_steps, wrong_in

# The calls by which the system makes a thread.
CALLS = "clone,clone3"
# A run of made_runs.py whose rules change from block to block.
ROUND = 17
# The first of the threads that are refused. A run with four workers asks for ten in each block.
FIRST = [1, 2, 5, 6, 7, 10, 11, 16]


def run(program, words, given, inject):
    """How the program ends, and the calls for threads that it made."""
    with tempfile.TemporaryDirectory() as room:
        for name, data in given.items():
            with open(os.path.join(room, name), "wb") as file:
                file.write(data)
        log = os.path.join(room, "strace.log")
        strace = ["strace", "-f", "-o", log, "-e", f"trace={CALLS}", *inject]
        ran = subprocess.run([*strace, program, *words], cwd=room, capture_output=True, timeout=PATIENCE)
        files = {}
        for name in set(os.listdir(room)) - set(given) - {"strace.log"}:
            with open(os.path.join(room, name), "rb") as file:
                files[name] = file.read()
        with open(log) as lines:
            calls = re.findall(r"\bclone3?\(.*", lines.read())
    return Ended(ran.returncode, ran.stdout.decode(), files), calls


def wrong_with(program, words, given, inject, is_right):
    """What is wrong in a run, or None. The threads that it asked for have to be right for its number of blocks."""
    try:
        got, calls = run(program, words, given, inject)
        wrong = wrong_in(got, simulated(words, given, journal_of(got)))
    except subprocess.TimeoutExpired:
        return "it hangs"
    except Unlawful as unlawful:
        return f"the journal has no such step: {unlawful}"
    [blocks] = {len(blocks) for blocks in blocks_in(journal_of(got)).values()}
    return wrong or (None if is_right(blocks, calls) else f"{len(calls)} threads in {blocks} blocks")


def has_as_many(workers):
    return lambda blocks, calls: len(calls) == (2 * workers + 2) * blocks


def has_refused(blocks, calls):
    return any("INJECTED" in call for call in calls)


def main():
    program = os.path.realpath(sys.argv[1])
    words, given = made_run(ROUND)
    words = without_steps(words)
    for workers in WORKERS:
        wrong = wrong_with(program, [f"--workers={workers}", *words], given, [], has_as_many(workers))
        if wrong:
            print(f"with {workers} workers: {wrong}")
            return 1
    for first in FIRST:
        inject = [f"--inject={CALLS}:error=EAGAIN:when={first}+"]
        wrong = wrong_with(program, ["--workers=4", *words], given, inject, has_refused)
        if wrong:
            print(f"threads from number {first} on are refused: {wrong}")
            return 1
    return 0


if __name__ == "__main__":
    sys.exit(main())
