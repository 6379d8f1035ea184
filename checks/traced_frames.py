#!/usr/bin/env python3
"""Tries tools/trace-frame on the frames of the examples, and tools/send-netflow on their flows.

    python3 traced_frames.py PROGRAM

PROGRAM is a built `megatrace`. The flow that a trace tells has to be the key of its frame, but for what no flow
states, which has to be told; and a collector has to get each datagram as it stands in the file. It prints what is
otherwise, and then ends with 1.
"""
import os
import socket
import subprocess
import sys
from glob import glob

sys.dont_write_bytecode = True
from examples import TOP, examples
from netflow_collectors import LOOPBACK, datagrams_of
from simulation.captures import MOST_FRAMES, read_format, read_frames
from simulation.flow_fields import packed
from simulation.frame_key import key_of
from simulation.tracer import print_key

TRACE_FRAME, SEND_NETFLOW = ([os.path.join(TOP, "tools", name)] for name in ["trace-frame", "send-netflow"])
UNSTATED = ("vlan_tpid", "vlan_tci2", "vlan_tpid2")
CUSTOMER_TAG = 0x8100
TOLD = "no flow states"
# How many frames of a capture are traced.
FRAMES = 4
PATIENCE = 5.0


def read(name):
    with open(os.path.join(TOP, name), "rb") as file:
        return file.read()


def is_told(key):
    """Whether a frame has what no flow states."""
    return bool(key.get("vlan_tci2")) or key.get("vlan_tpid", 0) not in (0, CUSTOMER_TAG)


def traced(program, example):
    """What is otherwise in the traces of an example's frames."""
    ports = ",".join(word.partition("=")[0] for word in example.ports)
    for port, name in (word.split("=") for word in example.ports if not word.endswith("=")):
        data = read(name)
        for frame in read_frames(data, read_format(data, name), int(port), name, MOST_FRAMES)[:FRAMES]:
            key = key_of(int(port), frame.bytes)
            tool = [*TRACE_FRAME, "--program", program, example.edits, name, str(frame.place), port, ports]
            ran = subprocess.run(tool, cwd=TOP, capture_output=True, text=True)
            stated = print_key(packed({field: value for field, value in key.items() if field not in UNSTATED}))
            if ran.stdout.partition("\n")[0] != f"flow: {stated}" or (TOLD in ran.stderr) != is_told(key):
                yield f"frame {frame.place} of {name}: {ran.stdout.partition(chr(10))[0]} {ran.stderr}"


def sent(export):
    """What is otherwise in what a collector gets of an export."""
    with socket.socket(socket.AF_INET, socket.SOCK_DGRAM) as collector:
        collector.bind((LOOPBACK, 0))
        collector.settimeout(PATIENCE)
        target = f"{LOOPBACK}:{collector.getsockname()[1]}"
        ran = subprocess.run([*SEND_NETFLOW, export, target], capture_output=True, text=True)
        wanted = list(datagrams_of(read(export)))
        if ran.returncode or [collector.recv(2000) for _ in wanted] != wanted:
            yield f"{export}: {ran.stdout}{ran.stderr}"


def main(words):
    program, wrong = os.path.abspath(words[0]), 0
    exports = sorted(glob(os.path.join(TOP, "examples", "*", "expected", "out.netflow")))
    for differences in [*(traced(program, example) for example in examples()), *map(sent, exports)]:
        for difference in differences:
            wrong += 1
            print(difference)
    return wrong > 0 or not exports


if __name__ == "__main__":
    sys.exit(main(sys.argv[1:]))
