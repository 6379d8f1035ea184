#!/usr/bin/env python3
"""Compares the tracer with its simulation on made-up words, edits and flows, some of them out of form.

    python3 trace_rows.py PROGRAM ROUNDS

Status and text of each trace have to be the same, byte by byte. Round n is the same at each call. It prints the first
trace that differs, and ends with 1; else it tells how many ended with which status.
"""
import os
import subprocess
import sys
import tempfile
from collections import Counter

sys.dont_write_bytecode = True
TOP = os.path.join(os.path.dirname(os.path.abspath(__file__)), "..")
sys.path.insert(0, os.path.join(TOP, "vectors"))
from made_runs import CacheMaker, Maker
from simulation.flow_fields import KEY_FIELD, full, packed
from simulation.flow_text import Match, print_match
from simulation.frame_key import key_of
from simulation.tracer import traced

ODD_FLOWS = ["", " ", "#", "in_port=1 # all", "in_port=0", "in_port=1,in_port=1", "ip,arp", "foo", "table=255", "cookie=1"]
ODD_FLOWS += ["in_port=1,actions=drop", "tun_id=1", "in_port=1\n", "in_port=1,\x80", "x" * 4097, "in_port=1".ljust(4096), "\u00e9"]
ODD_PORTS = ["", ",", "1,", "0", "01", "65280", "1,1", "1 ,2", "1;2", ",".join(map(str, range(1, 34)))]


class FlowMaker:
    """Makes flows out of the frames of a maker, and perhaps a register or an item that is left out or odd."""

    def __init__(self, maker):
        self.maker = maker

    def flow(self):
        maker = self.maker
        if maker.chance(0.1):
            return maker.one(*ODD_FLOWS)
        key = {"vlan_tci": 0} | key_of(maker.one(*maker.ports), maker.one(*maker.frames))
        key[maker.one("metadata", "reg0", "reg1")] = maker.one(0, 1, 5)
        names = [name for name in key if name == "in_port" or maker.chance(0.9)]
        mask = {name: full(KEY_FIELD[name].width) for name in names}
        text = print_match(Match(packed(key) & packed(mask), packed(mask)))
        return text.replace(",", maker.one(",", ",", " ", ", "))

    def words(self):
        maker = self.maker
        ports = ",".join(map(str, maker.ports))
        words = ["edits", self.flow(), maker.one(*ODD_PORTS) if maker.chance(0.05) else ports]
        if maker.chance(0.03):
            words = maker.one(words[:2], [*words, "x"], ["none", *words[1:]], ["", *words[1:]], [])
        return words


def made_trace(number):
    """The words and the file of a trace, which is the same for the same number."""
    maker = (CacheMaker if number % 3 else Maker)(number)
    edits = maker.edits()
    return FlowMaker(maker).words(), {"edits": edits}


def ran(program, words, given):
    """How the program ends in an empty folder with the given files, where it makes none."""
    with tempfile.TemporaryDirectory(prefix="megatrace-") as folder:
        for name, data in given.items():
            with open(os.path.join(folder, name), "wb") as file:
                file.write(data)
        got = subprocess.run([program, *words], cwd=folder, stdin=subprocess.DEVNULL, stdout=subprocess.PIPE)
        made = set(os.listdir(folder)) - set(given)
        return got.returncode, got.stdout.decode() + "".join(f"made {name}\n" for name in made)


def simulated(words, given):
    def contents(name):
        if name not in given:
            raise FileNotFoundError(name)
        return given[name]

    return tuple(traced(words, contents))


def ended(program, words, given):
    """How the program ends, or where none is named the simulation."""
    return ran(program, words, given) if program else simulated(words, given)


def main(words):
    program, rounds = os.path.abspath(words[0]), int(words[1])
    statuses = Counter()
    for number in range(rounds):
        said, given = made_trace(number)
        got, wanted = ran(program, said, given), simulated(said, given)
        if got != wanted:
            print(f"round {number} differs: {said} over {given['edits']!r}: {got}, not {wanted}")
            return 1
        statuses[got[0]] += 1
    print(f"{rounds} traces: " + ", ".join(f"{count} with status {status}" for status, count in sorted(statuses.items())))
    return 0


if __name__ == "__main__":
    sys.exit(main(sys.argv[1:]))
