#!/usr/bin/env python3
"""Refuses requests for memory of the program, one after the other, and compares how it ends.

    python3 failing_memory.py PROGRAM [MOST] [SEED]

A small run with given steps, flows and mirrors, and one with workers: of each the first 200 requests are refused, and of the
others as many as make MOST (600 where none is given), by a seed; each alone, and each with all later ones. Such a run ends
with status 8 and its text, and of the files some are there that were written as far as docs/FORMATS.md says; or it ends
well, with all that is written where there is enough memory. With workers what they choose is held against the journal.
It needs gcc, which compiles failing_memory.c, and takes 15 seconds. It prints each run that ends otherwise, and then ends
with 1.
"""
import os
import random
import struct
import subprocess
import sys
import tempfile
from collections import Counter

sys.dont_write_bytecode = True
HERE = os.path.dirname(os.path.abspath(__file__))
from run_rows import DATAGRAM, F, QUESTION, WEB, WEB_ANSWER, WEB_TABLES, trace
from simulation.replay import Unlawful
from whole_run import Ended, journal_of, simulated
from workers import PATIENCE, same_for_all, wrong_in

DONE, OUT_OF_MEMORY = 0, 8
TEXT = "out of memory\n"
# How many of the first requests are refused, each of them.
FIRST, MOST, SEED = 200, 600, 1
OUTLETS = ["--netflow", "--mirrors", "mirrors"]
PORTS = ["out", "1=a.pcap", "2=b.pcap"]
RUNS = {
    "steps": [*OUTLETS, "--steps", "steps", "edits", *PORTS],
    "workers": [*OUTLETS, "--workers", "4", "apart", *PORTS],
}
RULES = WEB_TABLES.removesuffix("\nsync 0").encode()
FIRST_STEPS = b"edit\n" * 12 + b"rx 1\nsnap 1 1\nedit\nsweep 1\nswept 1\nsettle 1 1\nsnap 1 1\nsettle 1 1\n"
MORE_STEPS = b"rx 1\nsnap 1 2\nsettle 1 2\nsweep 1\ncheck 1 1\nput 1 1\nrx 1\nrx 2\nsnap 2 1\nsettle 2 1\n"
LAST_STEPS = b"check 1 2\nput 1 2\nswept 1\n"
GIVEN = {
    "edits": RULES + b"\nmodify table=2,icmp,actions=drop\nsync 4\ndelete table=2,tcp,reg1=1\n",
    # Its edits are apart from frames.
    "apart": RULES + b"\nsync 0\nsync 4\ndelete table=2,tcp,reg1=1\nsync 4\n",
    "steps": FIRST_STEPS + MORE_STEPS + LAST_STEPS,
    "mirrors": b"select_src_port=1\nselect_dst_port=2\n",
    "a.pcap": trace([QUESTION, WEB, WEB, DATAGRAM, F, WEB]),
    "b.pcap": trace([WEB_ANSWER, WEB_ANSWER, F, WEB_ANSWER]),
}


class Refusing:
    """The program with its requests for memory refused by the library."""

    def __init__(self, program, library, words):
        self.program, self.library, self.words = program, library, words
        self.good = simulated(words, GIVEN)

    def run(self, refused=""):
        """How the program ends where this is refused, as failing_memory.c has it, and how many requests it made."""
        with tempfile.TemporaryDirectory() as room, tempfile.NamedTemporaryFile("w+b", buffering=0) as count:
            count.write(bytes(struct.calcsize("l")))
            for name, data in GIVEN.items():
                with open(os.path.join(room, name), "wb") as file:
                    file.write(data)
            given = {**os.environ, "LD_PRELOAD": self.library, "COUNT": count.name}
            given |= {"REFUSED": refused} if refused else {}
            words = [self.program, *self.words]
            ran = subprocess.run(words, cwd=room, env=given, capture_output=True, timeout=PATIENCE)
            files = {}
            for name in set(os.listdir(room)) - set(GIVEN):
                with open(os.path.join(room, name), "rb") as file:
                    files[name] = file.read()
            count.seek(0)
            (requests,) = struct.unpack("l", count.read())
            return Ended(ran.returncode, ran.stdout.decode(), files), requests

    def wrong_with(self, refused):
        """What is wrong with a run of which this is refused, or None; and its status."""
        try:
            end, _ = self.run(refused)
        except subprocess.TimeoutExpired:
            return "it hangs", None
        wrong = self.wrong_in_whole(end) if end.status == DONE else self.wrong_in_part(end)
        return wrong, end.status

    def wrong_in_whole(self, end):
        """What is wrong with a run that ended well."""
        try:
            return wrong_in(end, simulated(self.words, GIVEN, journal_of(end)))
        except Unlawful as unlawful:
            return f"the journal has no such step: {unlawful}"

    def wrong_in_part(self, end):
        """What is wrong with a run that ended for want of memory: the files before the last that is there are whole, of that
        there is a prefix, and the text is told."""
        if (end.status, end.text) != (OUT_OF_MEMORY, TEXT):
            return f"status {end.status} and {end.text!r}"
        names = list(self.good.files)[: len(end.files)]
        if set(names) != end.files.keys():
            return f"these files are there: {', '.join(sorted(end.files))}"
        same = same_for_all(self.good.files) if "--workers" in self.words else self.good.files
        for name in names:
            whole = same.get(name, end.files[name])
            if end.files[name] != whole and (name != names[-1] or not whole.startswith(end.files[name])):
                return f"{name} has other bytes"
        return None


def chosen(count, most, pick):
    """The numbers of the requests that are refused."""
    rest = range(FIRST + 1, count + 1)
    return [*range(1, min(FIRST, count) + 1), *sorted(pick.sample(rest, min(len(rest), max(0, most - FIRST))))]


def try_run(name, refusing, most, pick):
    """Refuses requests of a run, and tells how many runs end otherwise."""
    good, count = refusing.run()
    wrong = refusing.wrong_in_whole(good) if good.status == DONE else f"status {good.status}"
    if wrong or not count:
        print(f"{name}: where nothing is refused: {wrong or 'no request is counted'}")
        return 1
    statuses, wrongs = Counter(), 0
    for number in chosen(count, most, pick):
        for refused in (f"{number}", f"{number}+"):
            wrong, status = refusing.wrong_with(refused)
            statuses[status] += 1
            if wrong:
                wrongs += 1
                print(f"{name}: request {refused} is refused: {wrong}", flush=True)
    by_status = ", ".join(f"{number} with status {status}" for status, number in statuses.items())
    print(f"{name}: of {count} requests some were refused, {by_status}; {wrongs} end otherwise", flush=True)
    return wrongs


def main(words):
    program, most, seed = os.path.abspath(words[0]), int((words[1:] or [MOST])[0]), int((words[2:] or [SEED])[0])
    with tempfile.TemporaryDirectory() as folder:
        library = os.path.join(folder, "failing_memory.so")
        subprocess.run(["gcc", "-O2", "-shared", "-fPIC", "-o", library, f"{HERE}/failing_memory.c"], check=True)
        wrongs = [try_run(name, Refusing(program, library, run), most, random.Random(seed)) for name, run in RUNS.items()]
    return any(wrongs)


if __name__ == "__main__":
    sys.exit(main(sys.argv[1:]))
