#!/usr/bin/env python3
"""Tries the commands by which docs/GUIDE.md takes the rules of a running Open vSwitch, on the examples.

    python3 dumped_flows.py PROGRAM

The edits of an example are given to an Open vSwitch block by block. Its dumps of all kinds, and what differs between two
of them, are converted by the commands of the page; that has to be a file of edits by which the program sends the same
frames. It prints what is otherwise and ends with 1, else with 0.
"""
import filecmp
import os
import re
import subprocess
import sys
import tempfile

sys.dont_write_bytecode = True
from examples import TOP, examples

sys.path.insert(0, os.path.join(TOP, "vectors"))
from open_vswitch import NEW, NEWER, OLD, Switch

COMMAND = re.compile(r"sed -E '[^']*'")
BY_OLD, BY_NEWER = [["ovs-ofctl", "-O", version, "--no-names", "dump-flows", "br0"] for version in [OLD, NEWER]]
BY_SWITCH = ["ovs-appctl", "bridge/dump-flows", "br0"]
# One of its ports is hexadecimal, which Open vSwitch refuses; steps say which version decides a frame.
LEFT_OUT = ["first-switch", "replaced-entry", "stale-settle", "swapped-rules"]
# What a dump by OpenFlow 1.0 lacks.
LACKED = "push_vlan"
# Flows with what no example has: times, flags and fragments.
ODD_FLOWS = [
    "idle_timeout=60,hard_timeout=9,importance=7,send_flow_rem,priority=3,udp,ip_frag=later,actions=2",
    "idle_timeout=5,check_overlap,priority=8,actions=3",
    "cookie=7,reset_counts,in_port=1,actions=all",
]


def commands():
    """The commands of the page: for dumps, and for what differs between two."""
    from_openflow, from_switch, from_difference = COMMAND.findall(read(os.path.join(TOP, "docs", "GUIDE.md")))
    return [(BY_OLD, from_openflow), (BY_NEWER, from_openflow), (BY_SWITCH, from_switch)], from_difference


def shell(command, given):
    return subprocess.run(command, shell=True, check=True, input=given, capture_output=True, text=True).stdout


def run(program, example, edits, out):
    """Runs the program, which has to end well."""
    words = [program, *example.options, edits, out, *example.ports]
    ran = subprocess.run(words, cwd=TOP, capture_output=True, text=True)
    if ran.returncode:
        raise RuntimeError(f"status {ran.returncode} of {edits}: {ran.stdout}{ran.stderr}")


def ports_of(example):
    return [int(word.partition("=")[0]) for word in example.ports]


def blocks_of(edits):
    """The sync lines of a file of edits, and the edits of each block."""
    lines = [line for line in edits.splitlines() if line.partition("#")[0].strip()]
    syncs = [at for at, line in enumerate(lines) if line.startswith("sync")]
    bounds = [-1, *syncs, len(lines)]
    return [lines[at] for at in syncs], [lines[begin + 1 : end] for begin, end in zip(bounds, bounds[1:])]


def write(name, text):
    with open(name, "w", encoding="ascii") as file:
        file.write(text)
    return name


def dumped(example, dump, convert, folder):
    """The edits of an example as dumps of an Open vSwitch have them."""
    syncs, blocks = blocks_of(read(os.path.join(TOP, example.edits)))
    dumps = []
    with Switch(ports_of(example)) as switch:
        for number, block in enumerate(blocks):
            switch.add_flows(block)
            dumps.append(write(os.path.join(folder, f"dump-{number}"), shell(convert, switch.run(*dump))))
    text = read(dumps[0])
    for sync, before, after in zip(syncs, dumps, dumps[1:]):
        # Its status is 2 where they differ.
        differs = subprocess.run(["ovs-ofctl", "diff-flows", before, after], capture_output=True, text=True)
        text += f"{sync}\n{shell(commands()[1], differs.stdout)}"
    return text


def read(name):
    with open(name, encoding="utf-8") as file:
        return file.read()


def compare(program, example, folder):
    """Tries one example, and tells what is otherwise."""
    first, second = os.path.join(folder, "first"), os.path.join(folder, "second")
    run(program, example, example.edits, first)
    for dump, convert in commands()[0]:
        if dump != BY_OLD or LACKED not in read(os.path.join(TOP, example.edits)):
            run(program, example, write(os.path.join(folder, "edits"), dumped(example, dump, convert, folder)), second)
            for port in ports_of(example):
                if not filecmp.cmp(f"{first}.p{port}.pcap", f"{second}.p{port}.pcap", shallow=False):
                    yield f"port {port} sends other frames by the rules of {' '.join(dump)}"


def try_odd_flows(program, folder):
    """Dumps with what no example has are read."""
    with Switch([1]) as switch:
        for flow in ODD_FLOWS:
            switch.run("ovs-ofctl", "-O", NEW, "add-flow", "br0", flow)
        for dump, convert in commands()[0]:
            text = shell(convert, switch.run(*dump))
            words = [program, write(os.path.join(folder, "odd"), text), os.path.join(folder, "out"), "1="]
            ran = subprocess.run(words, capture_output=True, text=True)
            if ran.returncode or len(text.splitlines()) != len(ODD_FLOWS):
                yield f"status {ran.returncode} of {text!r} by {' '.join(dump)}: {ran.stdout}"


def main(words):
    program, wrong = os.path.abspath(words[0]), 0
    for example in examples():
        if example.name not in LEFT_OUT:
            with tempfile.TemporaryDirectory() as folder:
                for why in compare(program, example, folder):
                    print(f"{example.name}: {why}")
                    wrong += 1
    with tempfile.TemporaryDirectory() as folder:
        for why in try_odd_flows(program, folder):
            print(why)
            wrong += 1
    return wrong > 0


if __name__ == "__main__":
    sys.exit(main(sys.argv[1:]))
