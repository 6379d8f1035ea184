#!/usr/bin/env python3
"""Holds NetFlow, mirrors, bundles and replaced flows beside a running Open vSwitch, as docs/OPEN_VSWITCH.md has them.

    python3 beside.py [PROGRAM]

Each row has rules and frames, and what either of the two says of them. Both are asked: the program, or where none is
named the simulation. A row with one answer is one in which they are alike. It prints each answer that is another than
the row's, and then ends with 1.
"""
import os
import re
import socket
import sys
import time
from collections import namedtuple
from dataclasses import dataclass

sys.dont_write_bytecode = True
TOP = os.path.join(os.path.dirname(os.path.abspath(__file__)), "..")
sys.path.insert(0, os.path.join(TOP, "vectors"))
import open_vswitch
from headers import (
    ADDRESSES, ARP, CUSTOMER_TAG, DESTINATION_PORT, ICMP, IPV4, IPV4_DESTINATION, IPV4_SOURCE, SOURCE_PORT, TCP, UDP,
    arp, icmp, ipv4, tcp, udp, word,
)
from simulation.captures import MICROSECOND, Frame, read_format, read_frames, write_trace
from simulation.netflow import HEADER, RECORD, FlowRecord
from whole_run import ended

EDITS, OUT, MIRRORS = "edits", "out", "mirrors"
OUTPUTS = [1, 2]
# The port where the frames of the first row come in; those of the others follow. The copies of the same row's mirror
# leave by the port that is as many above that as this.
FIRST_PORT, COPIES_ABOVE = 101, 100
SHORTEST = 60
# In seconds: how long Open vSwitch is waited for to export what it has, with an active timeout of 1.
PATIENCE = 3.0
LOOPBACK = "127.0.0.1"
VERSIONS = [f"OpenFlow1{minor}" for minor in range(6)]


def number(address):
    return int.from_bytes(address, "big")


def frame(*parts):
    """A frame, filled up to the shortest that there is."""
    return (ADDRESSES + b"".join(parts)).ljust(SHORTEST, b"\0")


def datagram(data=b"", **rest):
    """A packet of UDP over IPv4, with its type in front."""
    return word(IPV4) + ipv4(UDP, 8 + len(data), **rest) + udp(len(data)) + data


def segment(flags):
    header = bytearray(tcp())
    header[13] = flags
    return frame(word(IPV4), ipv4(TCP, len(header)), bytes(header))


def tag(tci):
    return word(CUSTOMER_TAG) + word(tci)


PLAIN = frame(datagram())
OTHER_TARGET = bytes([0, 0, 0, 0, 0, 7])
TO_OTHER = OTHER_TARGET + PLAIN[len(OTHER_TARGET) :]
DEI = 0x1000


# ---- flows


# What a record tells, but for its times and the port where the packets came in.
Told = namedtuple("Told", "src dst output packets octets sport dport flags proto tos")
UDP_FLOW = Told(number(IPV4_SOURCE), number(IPV4_DESTINATION), 1, 1, 28, SOURCE_PORT, DESTINATION_PORT, 0, UDP, 0)
# Open vSwitch counts whole frames.
WHOLE = UDP_FLOW._replace(octets=SHORTEST)
SEVERAL, ALL, NONE = 65534, 65535, 65533
NOBODY = Told(0, 0, 1, 1, SHORTEST, 0, 0, 0, 0, 0)


@dataclass
class FlowRow:
    name: str
    actions: str
    frames: list
    here: list
    # Where it is None, the same as here.
    there: list | None = None


FLOW_ROWS = [
    FlowRow("octets are those of the IP packets; there, of the frames", "1", [PLAIN] * 3,
            [UDP_FLOW._replace(packets=3, octets=84)], [WHOLE._replace(packets=3, octets=180)]),
    FlowRow("addresses, ports and TOS are those of the packet; there, those that are left at the end",
            "1,mod_nw_src:192.0.2.99,mod_tp_src:77,mod_nw_tos:4", [PLAIN],
            [UDP_FLOW], [WHOLE._replace(src=number(bytes([192, 0, 2, 99])), sport=77, tos=4)]),
    FlowRow("several outputs", "1,2", [PLAIN], [UDP_FLOW], [WHOLE._replace(output=SEVERAL)]),
    FlowRow("all", "all", [PLAIN], [UDP_FLOW], [WHOLE._replace(output=ALL)]),
    FlowRow("flood", "flood", [PLAIN], [UDP_FLOW], [WHOLE._replace(output=ALL)]),
    FlowRow("dropped", "drop", [PLAIN], [UDP_FLOW._replace(output=0)], [WHOLE._replace(output=NONE)]),
    FlowRow("ECN is a part of the class; there it isn't", "1", [frame(datagram(tos=tos)) for tos in (1, 2, 4)],
            [UDP_FLOW._replace(tos=tos) for tos in (1, 2, 4)],
            [WHOLE._replace(packets=2, octets=120), WHOLE._replace(tos=4)]),
    FlowRow("the ports of a first fragment are 0; there they are its own", "1",
            [frame(datagram(flags=1)), frame(datagram(offset=4))],
            [UDP_FLOW._replace(sport=0, dport=0, packets=2, octets=56)],
            [WHOLE, WHOLE._replace(sport=0, dport=0)]),
    FlowRow("a malformed header is no flow; there it is one of 0.0.0.0", "1", [frame(datagram(words=4))],
            [], [NOBODY]),
    FlowRow("another version in the header is no flow; there it isn't looked at", "1", [frame(datagram(version=6))],
            [], [WHOLE]),
    FlowRow("type and code of ICMP", "1", [frame(word(IPV4), ipv4(ICMP, 8), icmp(8, 3))],
            [UDP_FLOW._replace(sport=0, dport=2051, proto=ICMP)], [WHOLE._replace(sport=0, dport=2051, proto=ICMP)]),
    FlowRow("flags of TCP", "1", [segment(flags) for flags in (1, 2, 16)],
            [UDP_FLOW._replace(packets=3, octets=120, flags=19, proto=TCP)],
            [WHOLE._replace(packets=3, octets=180, flags=19, proto=TCP)]),
    FlowRow("ARP is no flow", "1", [frame(word(ARP), arp(1))], []),
]


def records_in(datagrams):
    """What records tell, by the port where their packets came in."""
    for data in datagrams:
        for fields in RECORD.iter_unpack(data[HEADER.size :]):
            record = FlowRecord(*fields)
            yield record.input, Told(*(getattr(record, name) for name in Told._fields))


def datagrams_of(data):
    while data:
        size = HEADER.size + RECORD.size * HEADER.unpack_from(data)[1]
        yield data[:size]
        data = data[size:]


def received(collector):
    """The datagrams that come in so long."""
    end = time.monotonic() + PATIENCE
    while (left := end - time.monotonic()) > 0:
        collector.settimeout(left)
        try:
            yield collector.recv(2000)
        except TimeoutError:
            return


def exported_there(rows):
    with socket.socket(socket.AF_INET, socket.SOCK_DGRAM) as collector:
        collector.bind((LOOPBACK, 0))
        target = f'targets="{LOOPBACK}:{collector.getsockname()[1]}"'
        with open_vswitch.Switch([*OUTPUTS, *ports_of(rows)]) as switch:
            switch.configure("set", "Bridge", "br0", "netflow=@n", "--", "--id=@n", "create", "NetFlow", target,
                             "active_timeout=1")
            switch.add_flows(rules_of(rows))
            for port, row in zip(ports_of(rows), rows):
                for data in row.frames:
                    switch.sent(port, data)
            # What caches have counted is credited.
            switch.run("ovs-appctl", "revalidator/purge")
            return list(records_in(received(collector)))


def exported_here(program, rows):
    ran = run_of(program, rows, ["--netflow"], {})
    return list(records_in(datagrams_of(ran.files[f"{OUT}.netflow"])))


# ---- what rows are made of


def ports_of(rows):
    return range(FIRST_PORT, FIRST_PORT + len(rows))


def rules_of(rows):
    """Each row's frames come in at a port of its own. A write to a port is of a packet that has one."""
    return [f"in_port={port}{',udp' if 'mod_tp' in row.actions else ''},actions={row.actions}"
            for port, row in zip(ports_of(rows), rows)]


def run_of(program, rows, options, given):
    """One run of all rows, each frame at a second of its own."""
    words, files, second = [], {EDITS: "".join(rule + "\n" for rule in rules_of(rows)).encode(), **given}, 0
    for port, row in zip(ports_of(rows), rows):
        frames = []
        for place, data in enumerate(row.frames, 1):
            second += 1
            frames.append(Frame(second * 1_000_000_000, port, place, data))
        files[f"{port}.pcap"] = write_trace(frames, MICROSECOND)
        words.append(f"{port}={port}.pcap")
    ran = ended(program, [*options, EDITS, OUT, *words, *(f"{port}=" for port in OUTPUTS)], files)
    if ran.status:
        raise RuntimeError(f"status {ran.status}: {ran.text}")
    return ran


def differences(rows, here, there):
    """What either says of a row other than the row does."""
    for at, row in enumerate(rows):
        expected = [row.here, row.here if row.there is None else row.there]
        for who, answers, wanted in zip(["here", "in Open vSwitch"], [here, there], expected):
            if sorted(answers[at]) != sorted(wanted):
                yield f"{row.name}: {who} {sorted(answers[at])}, and not {sorted(wanted)}"


def by_row(rows, pairs):
    return [[value for port, value in pairs if port == own] for own in ports_of(rows)]


def flow_differences(program):
    here, there = exported_here(program, FLOW_ROWS), exported_there(FLOW_ROWS)
    return differences(FLOW_ROWS, by_row(FLOW_ROWS, here), by_row(FLOW_ROWS, there))


# ---- mirrors


@dataclass
class MirrorRow:
    """The answers are the copies."""

    name: str
    actions: str
    frames: list
    # What is selected: the row's own port, an output, or all.
    selects: list
    here: list
    there: list | None = None


SOURCE, FIRST_OUTPUT, SECOND_OUTPUT = "source", 1, 2
BEHIND = word(IPV4) + PLAIN[14:]
NO_NUMBER, UNTAGGED = ADDRESSES + tag(0) + BEHIND, ADDRESSES + BEHIND
TWO_TAGS = ADDRESSES + tag(0) + tag(5) + BEHIND
MIRROR_ROWS = [
    MirrorRow("what comes in and is sent on", "2", [PLAIN], [SOURCE], [PLAIN]),
    MirrorRow("what comes in and is dropped", "drop", [PLAIN], [SOURCE], [PLAIN]),
    MirrorRow("of two outputs, and a write between, the first is copied",
              "1,mod_dl_dst:00:00:00:00:00:07,1", [PLAIN], [FIRST_OUTPUT], [PLAIN]),
    MirrorRow("of outputs to two ports that are selected the first is copied",
              "1,mod_dl_dst:00:00:00:00:00:07,2", [PLAIN], [FIRST_OUTPUT, SECOND_OUTPUT], [PLAIN]),
    MirrorRow("what was copied as it came in isn't copied as it goes out",
              "mod_dl_dst:00:00:00:00:00:07,1", [PLAIN], [SOURCE, FIRST_OUTPUT], [PLAIN]),
    MirrorRow("what goes out is copied as it leaves", "mod_dl_dst:00:00:00:00:00:07,2", [PLAIN], [SECOND_OUTPUT],
              [TO_OTHER]),
    MirrorRow("a tag of number 0 and priority 0 isn't in the copy there", "2", [NO_NUMBER], [SOURCE],
              [NO_NUMBER], [UNTAGGED]),
    MirrorRow("nor is the tag behind it", "2", [TWO_TAGS], [SOURCE], [TWO_TAGS], [UNTAGGED]),
    MirrorRow("a tag with a number is in both", "2", [ADDRESSES + tag(DEI | 5) + BEHIND], [SOURCE],
              [ADDRESSES + tag(DEI | 5) + BEHIND]),
    MirrorRow("what the limit of depth drops isn't copied there", "2,resubmit(,0)", [PLAIN], [SOURCE], [PLAIN], []),
    MirrorRow("select_all copies what comes in, once", "mod_dl_dst:00:00:00:00:00:07,1,2", [PLAIN], ["all"], [PLAIN]),
]


def mirror_line(row, port):
    items = {"all": "select_all", SOURCE: f"select_src_port={port}"}
    return ",".join(items.get(it, f"select_dst_port={it}") for it in row.selects)


# Of these rows each is a run of its own, since an output belongs to all of them.
def copies_here(program, row):
    ran = run_of(program, [row], ["--mirrors", MIRRORS], {MIRRORS: mirror_line(row, FIRST_PORT).encode()})
    name = f"{OUT}.m1.pcap"
    data = ran.files[name]
    return [it.bytes for it in read_frames(data, read_format(data, name), 0, name, sys.maxsize)]


def copies_there(rows):
    """One Open vSwitch serves all rows in turn; the mirror and the rules of each replace those before."""
    ports = [*OUTPUTS, FIRST_PORT, FIRST_PORT + COPIES_ABOVE]
    with open_vswitch.Switch(ports) as switch:
        for row in rows:
            selects = [f"select-{'src' if it == SOURCE else 'dst'}-port=@p{FIRST_PORT if it == SOURCE else it}"
                       for it in row.selects if it != "all"]
            sources = [it for it in selects if "src" in it]
            targets = [it.partition("=")[2] for it in selects if "dst" in it]
            switch.configure(
                *(word for port in ports for word in ["--", f"--id=@p{port}", "get", "Port", f"p{port}"]),
                "--", "--id=@m", "create", "Mirror", "name=m", f"output-port=@p{ports[-1]}", *sources,
                *([f"select-dst-port={','.join(targets)}"] if targets else []),
                *(["select-all=true"] if "all" in row.selects else []), "--", "set", "Bridge", "br0", "mirrors=@m",
            )
            switch.replace_flows(rules_of([row]))
            # No megaflow of a row before decides: there the copy of a frame with two tags depends on that.
            switch.run("ovs-appctl", "revalidator/purge")
            sent = [it for data in row.frames for it in switch.sent(FIRST_PORT, data)]
            yield [data for port, data in sent if port == ports[-1]]


def mirror_differences(program):
    rows = MIRROR_ROWS
    shown = lambda copies: [data.hex() for data in copies]
    for row in rows:
        row.here, row.there = shown(row.here), None if row.there is None else shown(row.there)
    here = [shown(copies_here(program, row)) for row in rows]
    return differences(rows, here, [shown(copies) for copies in copies_there(rows)])


# ---- edits, by the version of OpenFlow that hands them over


@dataclass
class EditRow:
    """The answers are the rules at the end, each with its packets. Both begin with rules that one frame has met."""

    name: str
    first: list
    then: list
    versions: list
    here: list
    there: list | None = None
    is_bundle: bool = False


BEFORE_12, FROM_12, BUNDLES = VERSIONS[:2], VERSIONS[2:], ["OpenFlow14"]
LOW, HIGH = f"priority=10,in_port={FIRST_PORT}", "priority=50,dl_dst=00:00:00:00:00:07"
SAME_MASK, THIRD = "priority=5,dl_dst=00:00:00:00:00:09", "priority=9,in_port=103"
EDIT_ROWS = [
    EditRow("an add in the place of a flow counts from 0, by 1.0 and 1.1 too", [f"{LOW},actions=output:1"],
            [f"add {LOW},actions=output:2"], BEFORE_12, [f"0 {LOW} actions=output:2"]),
    EditRow("and goes on from 1.2", [f"{LOW},actions=output:1"], [f"add {LOW},actions=output:2"], FROM_12,
            [f"0 {LOW} actions=output:2"], [f"1 {LOW} actions=output:2"]),
    *(EditRow(f"a {edit} that fits nothing adds a flow by 1.0 and 1.1", [f"{LOW},actions=output:1"],
              [f"{edit} {THIRD},actions=drop"], BEFORE_12, [f"1 {LOW} actions=output:1"],
              [f"1 {LOW} actions=output:1", f"0 {THIRD} actions=drop"]) for edit in ["modify", "modify_strict"]),
    *(EditRow(f"a {edit} with its table that fits nothing adds a flow by 1.0 and 1.1", [f"{LOW},actions=output:1"],
              [f"{edit} table=0,{THIRD},actions=drop"], BEFORE_12, [f"1 {LOW} actions=output:1"],
              [f"1 {LOW} actions=output:1", f"0 {THIRD} actions=drop"]) for edit in ["modify", "modify_strict"]),
    *(EditRow(f"a {edit} that fits nothing changes nothing from 1.2", [f"{LOW},actions=output:1"],
              [f"{edit} table=0,{THIRD},actions=drop"], FROM_12, [f"1 {LOW} actions=output:1"])
      for edit in ["modify", "modify_strict"]),
    EditRow("a loose delete misses a flow of the same bundle whose mask is new, where one of less priority is there",
            [f"{LOW},actions=output:1"], [f"add {HIGH},actions=output:2", "delete dl_dst=00:00:00:00:00:07"], BUNDLES,
            [f"1 {LOW} actions=output:1"], [f"1 {LOW} actions=output:1", f"0 {HIGH} actions=output:2"],
            is_bundle=True),
    EditRow("and so does a loose modify", [f"{LOW},actions=output:1"],
            [f"add {HIGH},actions=output:2", "modify dl_dst=00:00:00:00:00:07,actions=drop"], BUNDLES,
            [f"1 {LOW} actions=output:1", f"0 {HIGH} actions=drop"],
            [f"1 {LOW} actions=output:1", f"0 {HIGH} actions=output:2"], is_bundle=True),
    EditRow("but no strict delete", [f"{LOW},actions=output:1"],
            [f"add {HIGH},actions=output:2", f"delete_strict {HIGH}"], BUNDLES, [f"1 {LOW} actions=output:1"],
            is_bundle=True),
    EditRow("nor a loose one where the table has the mask",
            [f"{LOW},actions=output:1", f"{SAME_MASK},actions=output:1"],
            [f"add {HIGH},actions=output:2", "delete dl_dst=00:00:00:00:00:07"], BUNDLES,
            [f"1 {LOW} actions=output:1", f"0 {SAME_MASK} actions=output:1"], is_bundle=True),
    EditRow("nor one out of a bundle", [f"{LOW},actions=output:1"],
            [f"add {HIGH},actions=output:2", "delete dl_dst=00:00:00:00:00:07"], BUNDLES,
            [f"1 {LOW} actions=output:1"]),
]
RULE_HERE = re.compile(r"^cookie=\S+ table=\d+, n_packets=(\d+), n_bytes=\d+, (\S+ actions=\S+)", re.MULTILINE)
RULE_THERE = re.compile(
    r"n_packets=(\d+), n_bytes=\d+, (?:idle_age=\d+, |hard_age=\d+, |reset_counts )*(\S+ actions=\S+)"
)


def rules_here(program, row):
    then = ["begin", *row.then, "commit"] if row.is_bundle else row.then
    edits = "\n".join([*row.first, "sync 100", *then]) + "\n"
    trace = write_trace([Frame(1_000_000_000, FIRST_PORT, 1, PLAIN)], MICROSECOND)
    words = [EDITS, OUT, f"{FIRST_PORT}=a.pcap", *(f"{port}=" for port in OUTPUTS)]
    ran = ended(program, words, {EDITS: edits.encode(), "a.pcap": trace})
    return [" ".join(it) for it in RULE_HERE.findall(ran.files[f"{OUT}.rules"].decode())]


def rules_there(switch, row, version):
    switch.replace_flows(row.first)
    switch.sent(FIRST_PORT, PLAIN)
    switch.run("ovs-appctl", "revalidator/purge")
    bundle = ["--bundle"] if row.is_bundle else []
    switch.run("ovs-ofctl", "-O", version, *bundle, "add-flows", "br0", "-", input="\n".join(row.then))
    dump = switch.run("ovs-ofctl", "-O", "OpenFlow15", "--no-names", "dump-flows", "br0")
    return [" ".join(it) for it in RULE_THERE.findall(dump)]


def edit_differences(program):
    rows = [EditRow(f"{row.name}, by {version}", row.first, row.then, [version], row.here, row.there, row.is_bundle)
            for row in EDIT_ROWS for version in row.versions]
    with open_vswitch.Switch([*OUTPUTS, FIRST_PORT]) as switch:
        switch.configure("set", "Bridge", "br0", f"protocols={','.join(VERSIONS)}")
        there = [rules_there(switch, row, row.versions[0]) for row in rows]
    return differences(rows, [rules_here(program, row) for row in rows], there)


def main(words):
    if not open_vswitch.is_installed():
        print(f"not compared: Open vSwitch is not installed ({open_vswitch.PACKAGE})")
        return 0
    program, wrong = os.path.abspath(words[0]) if words else None, 0
    for compare in [flow_differences, mirror_differences, edit_differences]:
        for difference in compare(program):
            wrong += 1
            print(difference)
    return wrong > 0


if __name__ == "__main__":
    sys.exit(main(sys.argv[1:]))
