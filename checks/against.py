#!/usr/bin/env python3
"""Runs tools/against-ovs on the examples: no frame may leave otherwise than in Open vSwitch, but those that are known to.

    python3 against.py PROGRAM

It prints what left otherwise and ends with 1, else with 0.
"""
import os
import subprocess
import sys

sys.dont_write_bytecode = True
from examples import TOP, examples

# What Open vSwitch can't be compared on.
LEFT_OUT = {
    "first-switch": "one of its ports is hexadecimal, which Open vSwitch refuses",
    "stale-settle": "its steps say which version decides a frame",
    "replaced-entry": "its steps say which version decides a frame",
    "swapped-rules": "its steps say which version decides a frame",
}
# The frames that leave otherwise, each with the difference of docs/OPEN_VSWITCH.md that it shows.
KNOWN = {
    "provider-bridge": {"frame 4 of port 1": "a tag is pushed on two tags"},
}


def is_as_known(name, ran):
    """Whether the frames that left otherwise are those that are known, and nothing else went wrong."""
    known = KNOWN.get(name, {})
    frames = {line.partition(",")[0] for line in ran.stdout.splitlines() if line.startswith("frame ")}
    return frames == known.keys() and ran.returncode == bool(known)


def main(words):
    program, wrong = os.path.abspath(words[0]), 0
    for example in examples():
        if example.name not in LEFT_OUT:
            tool = [os.path.join(TOP, "tools", "against-ovs"), "--program", program]
            ran = subprocess.run([*tool, example.edits, *example.ports], cwd=TOP, capture_output=True, text=True)
            if not is_as_known(example.name, ran):
                print(f"{example.name}: {ran.stdout}{ran.stderr}".strip())
                wrong += 1
    return wrong > 0


if __name__ == "__main__":
    sys.exit(main(sys.argv[1:]))
