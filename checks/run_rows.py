#!/usr/bin/env python3
"""Worked rows of whole runs, each named by what it shows: files, steps and mirrors in, and dumps, journal and summary out.

    python3 run_rows.py [PROGRAM]

runs the program, or where none is named the simulation, on each row, in a folder of its own. It prints each row that ends
otherwise, and ends with 1 where there is one. What is wanted was written by hand.
"""
import os
import re
import sys
from collections import namedtuple

sys.dont_write_bytecode = True
from row_check import tell
from simulation.captures import MICROSECOND, SECOND, Frame, read_format, read_frames, write_trace
from whole_run import ended

# The edits, the frames in the trace of port 1, and what is wanted of the run: see `seen`.
Row = namedtuple("Row", "edits frames wanted words steps traces mirrors", defaults=["edits out 1=a.pcap 2=", None, {}, None])
STEPS_WORDS = "--steps steps edits out 1=a.pcap 2="

# ---- frames


def frame(last):
    """60 bytes of an unknown type, from 00:00:00:00:00:01 to an address with this last octet."""
    return bytes([0, 0, 0, 0, 0, last, 0, 0, 0, 0, 0, 1, 0x88, 0xB5]) + bytes(46)


F, F6, F7 = frame(2), frame(6), frame(7)


def ipv4_frame(header, rest):
    return F[:12] + bytes.fromhex("0800" + header + rest)


# From 10.0.0.1 port 1000 to port 53 of 10.0.0.2 and of 192.168.0.1, and the first of two fragments of the former.
DATAGRAM_HEADER = "4500001c00000000401166cf0a0000010a000002"
UDP = "03e8003500080000"
DATAGRAM = ipv4_frame(DATAGRAM_HEADER, UDP)
FAR_DATAGRAM = ipv4_frame("4500001c000000004011b02700000000c0a80001", UDP)
FIRST_FRAGMENT = ipv4_frame("4500001c00002000401146cf0a0000010a000002", UDP)

# Segments of TCP from 10.0.0.5 port 40000 to 192.0.2.7 port 80 and back, the former with a TTL of 64 and of 63, and a
# question of ARP. One from 10.0.0.1 to port 80 of 10.0.0.2.
SEGMENT = "{}{}00000000000000005002000000000000"
ASKING, ANSWERING = SEGMENT.format("9c40", "0050"), SEGMENT.format("0050", "9c40")
WEB = ipv4_frame("45000028000000004006aec80a000005c0000207", ASKING)
WEB_LOWERED = ipv4_frame("4500002800000000" + "3f06afc80a000005c0000207", ASKING)
WEB_ANSWER = ipv4_frame("45000028000000004006aec8c00002070a000005", ANSWERING)
NEAR_SEGMENT = ipv4_frame("450000280000000040064cb30a0000010a000002", ASKING)
QUESTION = F[:12] + bytes.fromhex("0806 0001 0800 06 04 0001 000000000001 0a000005 000000000000 0a000001")


def trace(frames):
    """A trace of these frames: one each second from the first on, or at the time that stands beside it."""
    timed = [it if isinstance(it, tuple) else (place * SECOND, it) for place, it in enumerate(frames, 1)]
    return write_trace([Frame(time, 1, place, data) for place, (time, data) in enumerate(timed, 1)], MICROSECOND)


def address_of_bit(bit):
    """The address of Ethernet that has one bit, counted from the last."""
    return (1 << bit).to_bytes(6, "big").hex(":")


# ---- runs

FROM_1 = "in_port=1,actions=2"
MODIFIED = f"{FROM_1}\nmodify in_port=1,actions=3"
WIDENED = """\
priority=1,actions=2
priority=10,dl_dst=00:00:00:00:00:09,actions=3
delete_strict priority=10,dl_dst=00:00:00:00:00:09"""
ADDRESS_2 = "in_port=1,dl_dst=00:00:00:00:00:02,actions=2"
THREE_PORTS = "--steps steps edits out 1=a.pcap 2= 3="
# The first of the rules, which are in the order of rising bits and priorities, states the one that frames have.
EACH_BIT = "\n".join(f"priority={bit + 1},dl_src={it}/{it},actions=2" for bit, it in enumerate(map(address_of_bit, range(48))))
ONE_DECIDED = "exact=0 mega=0 miss=1|installed=1 present=0 full=0|sent=1 dropped=0 entries=1"
NO_FRAMES = "exact=0 mega=0 miss=0|installed=0 present=0 full=0|sent=0 dropped=0 entries=0"
FIRST_STEPS = "edit|rx 1|snap 1 1|settle 1 1"
FIRST_LINES = "look 1 miss|settle 1 1 installed 1"

WEB_TABLES = """\
table=0,priority=100,arp,actions=flood
table=0,priority=90,in_port=1,actions=load:1->reg0[],resubmit(,1)
table=0,priority=90,in_port=2,actions=load:2->reg0[],resubmit(,1)
table=0,priority=0,actions=drop
table=1,priority=50,ip,nw_dst=10.0.0.0/24,actions=load:1->reg1[],resubmit(,2)
table=1,priority=40,ip,nw_dst=192.0.2.0/24,actions=dec_ttl,load:2->reg1[],resubmit(,2)
table=1,priority=0,actions=drop
table=2,priority=80,tcp,reg1=2,tp_dst=80,actions=output:reg1[0..15]
table=2,priority=80,tcp,reg1=2,tp_dst=443,actions=output:2
table=2,priority=80,tcp,reg1=1,tp_src=80,actions=output:1
table=2,priority=10,icmp,actions=in_port
table=2,priority=0,actions=drop
sync 0"""
# ARP has 42 bytes here, and TCP 54.
WEB_RULES = """\
cookie=0x0, table=0, n_packets=1, n_bytes=42, priority=100,arp actions=flood # rule=1
cookie=0x0, table=0, n_packets=2, n_bytes=108, priority=90,in_port=1 actions=set_field:0x1->reg0,resubmit(,1) # rule=2
cookie=0x0, table=0, n_packets=1, n_bytes=54, priority=90,in_port=2 actions=set_field:0x2->reg0,resubmit(,1) # rule=3
cookie=0x0, table=0, n_packets=0, n_bytes=0, priority=0 actions=drop # rule=4
cookie=0x0, table=1, n_packets=1, n_bytes=54, priority=50,ip,nw_dst=10.0.0.0/24 actions=set_field:0x1->reg1,resubmit(,2) # rule=5
cookie=0x0, table=1, n_packets=2, n_bytes=108, priority=40,ip,nw_dst=192.0.2.0/24 actions=dec_ttl,set_field:0x2->reg1,resubmit(,2) # rule=6
cookie=0x0, table=1, n_packets=0, n_bytes=0, priority=0 actions=drop # rule=7
cookie=0x0, table=2, n_packets=2, n_bytes=108, priority=80,reg1=0x2,tcp,tp_dst=80 actions=output:reg1[0..15] # rule=8
cookie=0x0, table=2, n_packets=0, n_bytes=0, priority=80,reg1=0x2,tcp,tp_dst=443 actions=output:2 # rule=9
cookie=0x0, table=2, n_packets=1, n_bytes=54, priority=80,reg1=0x1,tcp,tp_src=80 actions=output:1 # rule=10
cookie=0x0, table=2, n_packets=0, n_bytes=0, priority=10,icmp actions=in_port # rule=11
cookie=0x0, table=2, n_packets=0, n_bytes=0, priority=0 actions=drop # rule=12"""

RUNS = {
    "a frame that is sent on, with all that is told of it": Row(FROM_1, [F], {
        "said": f"ports=2 frames=1 edits=1 blocks=1|{ONE_DECIDED}",
        "sent by 1": [], "sent by 2": [F],
        "out.rules": "cookie=0x0, table=0, n_packets=1, n_bytes=60, priority=32768,in_port=1 actions=output:2 # rule=1",
        "out.megaflows": "port=1 entry=1 version=1 packets=0 bytes=0 owed_packets=0 owed_bytes=0 used=1.000000000 visits=1 "
                         "match=in_port=1,dl_type=0x88b5 actions=2",
        "out.journal": "port 1|begin 1|end|look 1 miss|settle 1 1 installed 1|port 2|begin 1|end",
    }),
    "without rules there is no sweep, and an entry without visits drops": Row("", [F], {
        "said": "ports=2 frames=1 edits=0 blocks=1|exact=0 mega=0 miss=1|installed=1 present=0 full=0|"
                "sent=0 dropped=1 entries=1",
        "sent by 2": [],
        "out.rules": "",
        "out.megaflows": "port=1 entry=1 version=0 packets=0 bytes=0 owed_packets=0 owed_bytes=0 used=1.000000000 visits=- "
                         "match=in_port=1,dl_type=0x88b5 actions=drop",
        "out.journal": "port 1|look 1 miss|settle 1 0 installed 1|port 2",
    }),
    "a trace without frames": Row(FROM_1, [], {
        "said": f"ports=2 frames=0 edits=1 blocks=1|{NO_FRAMES}",
        "sent by 2": [],
        "out.rules": "cookie=0x0, table=0, n_packets=0, n_bytes=0, priority=32768,in_port=1 actions=output:2 # rule=1",
        "out.megaflows": "",
        "out.journal": "port 1|begin 1|end|port 2|begin 1|end",
    }),
    "each sync line begins a block, edits or not": Row("sync 1\nsync 1\nsync 2", [], {
        "said": f"ports=2 frames=0 edits=0 blocks=4|{NO_FRAMES}",
        "journal of 1": "open 1|open 2|open 3",
    }),
    "an address beside the one prefix of a table": Row("ip,nw_dst=10.0.0.0/8,actions=2", [FAR_DATAGRAM], {
        "match in out.megaflows": "in_port=1,dl_type=0x0800,nw_dst=128.0.0.0/1,ip_frag=no",
        "actions in out.megaflows": "drop",
    }),
    "ports aren't consulted where the address tells": Row("tcp,nw_dst=10.0.0.1,tp_dst=80,actions=2", [NEAR_SEGMENT], {
        "match in out.megaflows": "in_port=1,dl_type=0x0800,nw_dst=10.0.0.2/31,ip_frag=no",
    }),
    "of fragments no ports are known": Row("udp,tp_dst=53,actions=2", [FIRST_FRAGMENT], {
        "match in out.megaflows": "in_port=1,dl_type=0x0800,nw_proto=17,ip_frag=first,tp_dst=0",
        "actions in out.megaflows": "drop",
    }),
    "a rule that goes pays for what it sent, and stands among those that are gone": Row(
        "priority=5,in_port=1,actions=2\npriority=5,dl_dst=00:00:00:00:00:02,actions=3\nsync 2\n"
        "delete_strict priority=5,in_port=1", [F, F],
        {
            "sent by 2": [F], "sent by 3": [F],
            "journal of 1": "begin 2|end|look 1 miss|settle 1 2 installed 1|open 1|begin 3|put 1 3 replaced|end|look 2 mega 1",
            "out.rules": "cookie=0x0, table=0, n_packets=1, n_bytes=60, priority=5,dl_dst=00:00:00:00:00:02 actions=output:3 "
                         "# rule=2|# gone rule=1 n_packets=1 n_bytes=60",
        },
        "edits out 1=a.pcap 2= 3=",
    ),
    "rules stand by table, falling priority and number; one that is replaced is gone, one that is modified stays": Row(
        "table=1,priority=5,actions=2\npriority=5,in_port=1,actions=resubmit(,1)\ncookie=0x1F,priority=7,in_port=2,actions=\n"
        "sync 2\n"
        "priority=5,in_port=1,actions=resubmit(,1),resubmit(,1)\nmodify cookie=10,in_port=2,actions=1\n"
        "delete_strict priority=9\npriority=5,in_port=3,actions=in_port", [F, F],
        {
            "said": "ports=2 frames=2 edits=7 blocks=2|exact=0 mega=1 miss=1|installed=1 present=0 full=0|"
                    "sent=3 dropped=0 entries=1",
            "sent by 2": [F, F, F],
            "journal of 1": "begin 3|end|look 1 miss|settle 1 3 installed 1|open 1|begin 7|put 1 7 replaced|end|look 2 mega 1",
            "out.rules":
                "cookie=0xa, table=0, n_packets=0, n_bytes=0, priority=7,in_port=2 actions=output:1 # rule=3|"
                "cookie=0x0, table=0, n_packets=1, n_bytes=60, priority=5,in_port=1 actions=resubmit(,1),resubmit(,1) # rule=4|"
                "cookie=0x0, table=0, n_packets=0, n_bytes=0, priority=5,in_port=3 actions=in_port # rule=7|"
                "cookie=0x0, table=1, n_packets=3, n_bytes=180, priority=5 actions=output:2 # rule=1|"
                "# gone rule=2 n_packets=1 n_bytes=60",
            "out.megaflows": "port=1 entry=1 version=7 packets=1 bytes=60 owed_packets=1 owed_bytes=60 used=2.000000000 "
                             "visits=4+1x2 match=in_port=1,dl_type=0x88b5 actions=2,2",
        },
    ),
    "a match of which nothing is left": Row("nw_src=10.0.0.1,actions=2", [F, DATAGRAM], {
        "sent by 2": [F, DATAGRAM],
        "out.rules": "cookie=0x0, table=0, n_packets=2, n_bytes=102, priority=32768 actions=output:2 # rule=1",
    }),
    "a rule that looks itself up again": Row("actions=resubmit(,0)", [F], {
        "visits in out.megaflows": "1x65",
        "actions in out.megaflows": "drop",
        "out.rules": "cookie=0x0, table=0, n_packets=65, n_bytes=3900, priority=32768 actions=resubmit(,0) # rule=1",
    }),
    "a write of what is there consults it": Row("in_port=1,actions=set_field:00:00:00:00:00:02->dl_dst,2", [F, F7], {
        "journal of 1": "begin 1|end|look 1 miss|settle 1 1 installed 1|look 2 miss|settle 2 1 installed 2",
        "sent by 2": [F, F],
        "match in out.megaflows":
            "in_port=1,dl_dst=00:00:00:00:00:02,dl_type=0x88b5|in_port=1,dl_dst=00:00:00:00:00:07,dl_type=0x88b5",
        "actions in out.megaflows": "2|set(dl_dst=00:00:00:00:00:00/00:00:00:00:00:05),2",
    }),
    "an address that is written, with its checksums": Row("in_port=1,actions=mod_nw_src:10.0.0.9,2", [DATAGRAM], {
        "match in out.megaflows": "in_port=1,dl_type=0x0800,nw_src=10.0.0.1,ip_frag=no",
        "actions in out.megaflows": "set(nw_src=0.0.0.8/0.0.0.8),2",
        "sent by 2": [ipv4_frame("4500001c00000000401166c70a0000090a000002", UDP)],
    }),
    "a tag that is added": Row("in_port=1,actions=mod_vlan_vid:5,2", [F], {
        "match in out.megaflows": "in_port=1,dl_type=0x88b5,vlan_tci=0x0000,vlan_tpid=0x0000,vlan_tci2=0x0000,vlan_tpid2=0x0000",
        "actions in out.megaflows": "push_vlan(vid=5,pcp=0),2",
        "sent by 2": [F[:12] + bytes.fromhex("81000005") + F[12:]],
        "n_bytes in out.rules": "60",
    }),
    "a flow limit": Row(ADDRESS_2, [F, F6, F6], {
        "said": "ports=2 frames=3 edits=1 blocks=1|exact=0 mega=0 miss=3|installed=1 present=0 full=2|"
                "sent=1 dropped=2 entries=1",
        "journal of 1": "begin 1|end|look 1 miss|settle 1 1 installed 1|look 2 miss|settle 2 1 full|look 3 miss|settle 3 1 full",
        "n_packets in out.rules": "1",
    }, "--flow-limit 1 edits out 1=a.pcap 2="),
    "a web capture at two ports, through three tables": Row(WEB_TABLES, [QUESTION, WEB, WEB], {
        "said": "ports=2 frames=4 edits=12 blocks=2|exact=0 mega=1 miss=3|installed=3 present=0 full=0|"
                "sent=4 dropped=0 entries=3",
        "sent by 1": [WEB_ANSWER], "sent by 2": [QUESTION, WEB_LOWERED, WEB_LOWERED],
        "out.rules": WEB_RULES.replace("\n", "|"),
        "visits in out.megaflows": "1|2+6+8|3+5+10",
        "match in out.megaflows":
            "in_port=1,dl_type=0x0806|"
            "in_port=1,dl_type=0x0800,nw_dst=192.0.2.0/24,nw_proto=6,nw_ttl=64,ip_frag=no,tp_dst=80|"
            "in_port=2,dl_type=0x0800,nw_dst=10.0.0.0/24,nw_proto=6,ip_frag=no,tp_src=80",
        "actions in out.megaflows": "2|set(nw_ttl=0x3f/0x7f),2|1",
    }, "edits out 1=a.pcap 2=b.pcap", traces={"b.pcap": trace([WEB_ANSWER])}),
    "the greatest port and the last table": Row(
        "priority=65535,in_port=65279,actions=resubmit(,254)\ntable=254,priority=0,actions=in_port", [F],
        {
            "sent by 65279": [F],
            "visits in out.megaflows": "1+2",
            "out.rules":
                "cookie=0x0, table=0, n_packets=1, n_bytes=60, priority=65535,in_port=65279 actions=resubmit(,254) # rule=1|"
                "cookie=0x0, table=254, n_packets=1, n_bytes=60, priority=0 actions=in_port # rule=2",
        },
        "edits out 65279=a.pcap",
    ),
    "48 rules, each of which states another bit of an address": Row(EACH_BIT, [F], {
        "visits in out.megaflows": "1",
        "match in out.megaflows": "in_port=1,dl_src=00:00:00:00:00:01,dl_type=0x88b5",
        "actions in out.megaflows": "2",
    }),
    "nanoseconds": Row(FROM_1, [], {
        "out.p2.pcap": bytes.fromhex("4d3cb2a1020004000000000000000000000004000100000001000000050000003c0000003c000000") + F,
        "used in out.megaflows": "1.000000005",
    }, "edits out 1=b.pcap 2=", traces={
        "b.pcap": bytes.fromhex("a1b23c4d000200040000000000000000000400000000000100000001000000050000003c0000003c") + F,
    }),
}

# ---- given steps

# An entry is kept by a sweep, and then dropped, since a later one of fewer bits covers what it covers.
WIDER_STEPS = f"edit|{FIRST_STEPS}|edit|sweep 1|check 1 1|put 1 1|swept 1|rx 1|rx 1|snap 1 3|settle 1 3"
DROPPED = {
    "journal of 1": "look 1 miss|settle 1 2 installed 1|begin 3|put 1 3 kept|end|look 2 mega 1|look 3 miss|"
                    "settle 3 3 installed 2 drop 1",
    "out.rules": "cookie=0x0, table=0, n_packets=3, n_bytes=180, priority=1 actions=output:2 # rule=1|"
                 "# gone rule=2 n_packets=0 n_bytes=0",
    "owed_packets in out.megaflows": "0",
}

GIVEN = {
    "a settle by a version before the sweep is stale": Row(MODIFIED, [F], {
        "said": f"ports=3 frames=1 edits=2 blocks=1|{ONE_DECIDED}|steps=9 unmet=1",
        "journal of 1": "look 1 miss|begin 2|end|settle 1 2 installed 1",
        "sent by 2": [], "sent by 3": [F],
    }, THREE_PORTS, "edit|rx 1|snap 1 1|edit|sweep 1|swept 1|settle 1 1|snap 1 1|settle 1 1"),
    "an entry is put while frames go on, and owes what came after": Row(MODIFIED, [F, F, F], {
        "said": "ports=3 frames=3 edits=2 blocks=1|exact=1 mega=1 miss=1|installed=1 present=0 full=0|"
                "sent=3 dropped=0 entries=1|steps=11 unmet=0",
        "out.journal": "port 1|look 1 miss|settle 1 1 installed 1|look 2 mega 1|begin 2|put 1 2 replaced|end|look 3 exact 1|"
                       "port 2|begin 2|end|port 3|begin 2|end",
        "sent by 2": [F, F], "sent by 3": [F],
        "out.rules": "cookie=0x0, table=0, n_packets=3, n_bytes=180, priority=32768,in_port=1 actions=output:3 # rule=1",
        "out.megaflows": "port=1 entry=1 version=2 packets=2 bytes=120 owed_packets=1 owed_bytes=60 used=3.000000000 visits=1 "
                         "match=in_port=1,dl_type=0x88b5 actions=3",
    }, THREE_PORTS, f"{FIRST_STEPS}|edit|rx 1|sweep 1|check 1 1|put 1 1|swept 1|rx 1"),
    "a bundle is published at once, and its rules have the numbers of their edits": Row(
        f"{FROM_1}\nbegin\ndelete in_port=1\nin_port=1,actions=3\ncommit", [F, F],
        {
            "said": "ports=3 frames=2 edits=3 blocks=1|exact=0 mega=1 miss=1|installed=1 present=0 full=0|"
                    "sent=2 dropped=0 entries=1|steps=10 unmet=0",
            "journal of 1": f"{FIRST_LINES}|begin 2|put 1 2 replaced|end|look 2 mega 1",
            "sent by 2": [F], "sent by 3": [F],
            "out.rules": "cookie=0x0, table=0, n_packets=1, n_bytes=60, priority=32768,in_port=1 actions=output:3 # rule=3|"
                         "# gone rule=1 n_packets=1 n_bytes=60",
        },
        THREE_PORTS, f"{FIRST_STEPS}|edit|sweep 1|check 1 1|put 1 1|swept 1|rx 1",
    ),
    "no bundle is left behind the last one": Row(f"begin\n{FROM_1}\n{FROM_1}\ncommit\nbegin\ncommit", [F], {
        "said": f"ports=2 frames=1 edits=2 blocks=1|{ONE_DECIDED}|steps=3 unmet=1",
        "out.rules": "cookie=0x0, table=0, n_packets=1, n_bytes=60, priority=32768,in_port=1 actions=output:2 # rule=2|"
                     "# gone rule=1 n_packets=0 n_bytes=0",
    }, STEPS_WORDS, "edit|edit|rx 1"),
    "an entry that is kept, and dropped by a wider one": Row(WIDENED, [F, F, F6], DROPPED, STEPS_WORDS, WIDER_STEPS),
    "also where no more than one may be": Row(WIDENED, [F, F, F6], DROPPED, f"--flow-limit 1 {STEPS_WORDS}", WIDER_STEPS),
    "an entry that is dropped by a wider one before a sweep has put it": Row(WIDENED, [F, F6], {
        "said": "ports=2 frames=2 edits=3 blocks=1|exact=0 mega=0 miss=2|installed=2 present=0 full=0|"
                "sent=2 dropped=0 entries=1|steps=13 unmet=2",
        "journal of 1": "look 1 miss|settle 1 2 installed 1|begin 3|look 2 miss|settle 2 3 installed 2 drop 1|end",
        "n_packets in out.rules": "2|0",
        "owed_packets in out.megaflows": "0",
    }, STEPS_WORDS, f"edit|{FIRST_STEPS}|edit|sweep 1|rx 1|snap 1 2|settle 1 2|check 1 1|put 1 1|swept 1"),
    "an entry is checked twice, and put once": Row(MODIFIED, [F], {
        "said": f"ports=3 frames=1 edits=2 blocks=1|{ONE_DECIDED}|steps=11 unmet=1",
        "journal of 1": f"{FIRST_LINES}|begin 2|put 1 2 replaced|end",
        "sent by 2": [F],
    }, THREE_PORTS, f"{FIRST_STEPS}|edit|sweep 1|check 1 1|check 1 1|put 1 1|put 1 1|swept 1"),
    "an entry is put by the version of its check, though rules changed since": Row(MODIFIED, [F], {
        "said": f"ports=3 frames=1 edits=2 blocks=1|{ONE_DECIDED}|steps=9 unmet=0",
        "journal of 1": f"{FIRST_LINES}|begin 1|put 1 1 kept|end|begin 2|put 1 2 replaced|end",
    }, THREE_PORTS, f"{FIRST_STEPS}|sweep 1|check 1 1|edit|put 1 1|swept 1"),
    "a frame whose key has an entry by the time that it is settled": Row(FROM_1, [F, F], {
        "said": "ports=2 frames=2 edits=1 blocks=1|exact=0 mega=0 miss=2|installed=1 present=1 full=0|"
                "sent=2 dropped=0 entries=1|steps=7 unmet=0",
        "journal of 1": "look 1 miss|look 2 miss|settle 1 1 installed 1|settle 2 1 present 1|begin 1|put 1 1 kept|end",
        "n_packets in out.rules": "2",
    }, STEPS_WORDS, "edit|rx 1|rx 1|snap 1 1|snap 1 2|settle 1 1|settle 1 2"),
    "an entry that stood unused for long": Row(ADDRESS_2, [F, (20 * SECOND, F6)], {
        "journal of 1": f"{FIRST_LINES}|look 2 miss|begin 1|put 1 1 idle|end|settle 2 1 installed 2",
        "entry in out.megaflows": "2", "used in out.megaflows": "20.000000000",
    }, STEPS_WORDS, f"{FIRST_STEPS}|rx 1|sweep 1|check 1 1|put 1 1|swept 1"),
    "an entry whose mask lacks what is consulted now": Row(
        "priority=1,actions=2\npriority=5,dl_dst=00:00:00:00:00:09,actions=3", [F],
        {
            "said": "ports=2 frames=1 edits=2 blocks=1|exact=0 mega=0 miss=1|installed=1 present=0 full=0|"
                    "sent=1 dropped=0 entries=0|steps=9 unmet=0",
            "journal of 1": f"{FIRST_LINES}|begin 2|put 1 2 removed|end",
            "out.megaflows": "",
            "n_packets in out.rules": "0|1",
        },
        STEPS_WORDS, f"{FIRST_STEPS}|edit|sweep 1|check 1 1|put 1 1|swept 1",
    ),
    "a port in a later block than another": Row(f"{FROM_1}\nsync 2\nmodify in_port=1,actions=3", [F, F], {
        "journal of 1": f"{FIRST_LINES}|begin 1|put 1 1 kept|end|open 1|look 2 mega 1|begin 2|put 1 2 replaced|end",
        "sent by 2": [F, F],
        "said": "ports=3 frames=2 edits=2 blocks=2|exact=0 mega=1 miss=1|installed=1 present=0 full=0|"
                "sent=2 dropped=0 entries=1|steps=11 unmet=1",
    }, THREE_PORTS, f"{FIRST_STEPS}|sweep 1|check 1 1|put 1 1|swept 1|open 1|edit|rx 1"),
    "blank lines and comments are no steps": Row(FROM_1, [F], {
        "said": f"ports=2 frames=1 edits=1 blocks=1|{ONE_DECIDED}|steps=2 unmet=0",
        "journal of 1": "look 1 miss|settle 1 1 installed 1|begin 1|put 1 1 kept|end",
    }, STEPS_WORDS, "# none|||  edit # one|\t|rx\t 1#2"),
    "no step at all": Row(FROM_1, [F], {
        "said": f"ports=2 frames=1 edits=1 blocks=1|{ONE_DECIDED}|steps=0 unmet=0",
    }, STEPS_WORDS, ""),
    "steps of places and entries that are none": Row(FROM_1, [F], {
        "said": f"ports=2 frames=1 edits=1 blocks=1|{ONE_DECIDED}|steps=6 unmet=6",
        "journal of 1": "begin 1|end|look 1 miss|settle 1 1 installed 1",
    }, STEPS_WORDS, "snap 1 4294967295|settle 1 1|check 2 1|put 2 4294967295|swept 1|open 2"),
}

# ---- flows and mirrors

NETFLOW_WORDS = "--netflow edits out 1=a.pcap 2="
MIRRORS_WORDS = "--mirrors mirrors edits out 1=a.pcap 2="
SEND_OTHERWISE = "in_port=1,actions=2,mod_dl_dst:00:00:00:00:00:07,2"


def datagram_from(port):
    """The datagram from another port."""
    return ipv4_frame(DATAGRAM_HEADER, f"{port:04x}003500080000")


OUTLETS = {
    "packets of a class are one flow": Row("in_port=1,actions=mod_nw_src:10.0.0.9,2", [DATAGRAM, (3 * SECOND, DATAGRAM)], {
        "out.netflow": bytes.fromhex(
            "00050001 000007d0 00000003 00000000 00000000 00000000"
            "0a000001 0a000002 00000000 00010002 00000002 00000038 00000000 000007d0 03e80035 00001100 00000000 00000000"
        ),
    }, NETFLOW_WORDS),
    "a datagram has 30 flows at most": Row(FROM_1, [(SECOND, datagram_from(port)) for port in range(1000, 1031)], {
        "bytes of out.netflow": 1536,
        "bytes 1464 to 1488 of out.netflow": bytes.fromhex("00050001 00000000 00000001 00000000 0000001e 00000000"),
    }, NETFLOW_WORDS),
    "without IPv4 there is no flow": Row(FROM_1, [F], {"out.netflow": b""}, NETFLOW_WORDS),
    "what is dropped is in a flow": Row("actions=drop", [DATAGRAM], {
        "bytes 36 to 40 of out.netflow": bytes.fromhex("00010000"),
    }, NETFLOW_WORDS),
    "mirrors copy what comes in, what goes out, or either": Row(WEB_TABLES, [QUESTION, WEB, WEB], {
        "copied by 1": [QUESTION, WEB, WEB],
        "copied by 2": [QUESTION, WEB_LOWERED, WEB_LOWERED],
        "copied by 3": [QUESTION, WEB_ANSWER, WEB_LOWERED, WEB_LOWERED],
    }, "--mirrors mirrors edits out 1=a.pcap 2=b.pcap", traces={"b.pcap": trace([WEB_ANSWER])},
        mirrors="select_src_port=1|select_dst_port=2|select_src_port=2,select_dst_port=2"),
    "a frame that is sent twice is copied once": Row(SEND_OTHERWISE, [F], {
        "sent by 2": [F, F7], "copied by 1": [F],
    }, MIRRORS_WORDS, mirrors="select_dst_port=2"),
    "a mirror of all copies what is dropped": Row("actions=drop", [F, F7], {"copied by 1": [F, F7]}, MIRRORS_WORDS, mirrors="select_all"),
}

MIRROR_FAULTS = {
    "another port": ("select_src_port=9", "mirrors:1:17: bad value"),
    "a port with a leading zero": ("select_dst_port=01", "mirrors:1:17: bad value"),
    "another name": ("select_all|select_vlan=5", "mirrors:2:1: unknown name"),
    "a selection without a port": ("select_all,select_dst_port", "mirrors:1:12: syntax"),
    "a value after what takes none": ("select_all=", "mirrors:1:1: syntax"),
    "a byte above 127": ("select_all \xff", "mirrors:1:12: syntax"),
    "a port twice": ("select_src_port=1 select_src_port=1", "mirrors:1:19: repeated"),
    "all twice": ("select_all,select_all", "mirrors:1:12: repeated"),
    "a mirror too many": ("|".join(["select_all"] * 17), "limit: mirrors 16"),
    "a line that is too long": ("select_all" + " " * 4087, "limit: line 4096"),
    "a file that is too long": ("|" * 65537, "limit: mirrors-bytes 65536"),
}

# ---- steps files with a fault: what they show, the file, and what is told

STEPS_FAULTS = {
    "a word that is none": ("edit|sync 1", "steps:2:1: unknown name"),
    "a word in capitals": ("EDIT", "steps:1:1: unknown name"),
    "a carriage return is part of a word": ("edit\r", "steps:1:1: unknown name"),
    "and of a number": ("rx 1\r", "steps:1:4: bad value"),
    "a comma parts no words": ("rx,1", "steps:1:1: unknown name"),
    "a word before the number of words": ("  foo 1 2 3", "steps:1:3: unknown name"),
    "a step without its port": ("|\trx # 1", "steps:2:2: syntax"),
    "a step with a number too many": ("edit 1", "steps:1:1: syntax"),
    "the number of words before their values": ("snap 0", "steps:1:1: syntax"),
    "another port": ("rx 3", "steps:1:4: bad value"),
    "a port of 0": ("rx 0", "steps:1:4: bad value"),
    "a port with a leading zero": ("rx 01", "steps:1:4: bad value"),
    "a hexadecimal port": ("rx 0x1", "steps:1:4: bad value"),
    "a place of 0": ("snap 1 0", "steps:1:8: bad value"),
    "a place with a leading zero": ("snap 2\t 01", "steps:1:9: bad value"),
    "a place above 32 bits": ("put 1 4294967296", "steps:1:7: bad value"),
    "the port before the place": ("check 3 0", "steps:1:7: bad value"),
    "a byte above 127 as another one": ("rx \xff", "steps:1:4: bad value"),
    "the first line decides": ("edit|open|foo", "steps:2:1: syntax"),
    "a line that is too long": ("edit" + " " * 4093, "limit: line 4096"),
    "also in a comment, after good lines and before bad ones": ("edit|#" + " " * 4096 + "|foo", "limit: line 4096"),
}

USAGE = (
    "usage: megaswitch [--workers N] [--steps FILE] [--flow-limit N] [--netflow] [--mirrors FILE] EDITS OUT PORT=FILE..."
)
GOOD = {"edits": b"actions=2", "steps": b"edit", "mirrors": b"select_all", "a.pcap": trace([F])}
BAD = {"edits": b"actions", "steps": b"rx 3", "mirrors": b"select_src_port=3", "a.pcap": b""}

# What a row shows, the words, which of the files are bad or none, the status and the text.
REFUSALS = {
    "the edits are refused before the steps": (STEPS_WORDS, "edits steps a.pcap", "", 3, "edits:1:1: syntax"),
    "and the steps before the traces": (STEPS_WORDS, "steps a.pcap", "", 3, "steps:1:4: bad value"),
    "a trace after good steps": (STEPS_WORDS, "a.pcap", "", 4, "a.pcap: short header"),
    "there are no edits": (STEPS_WORDS, "steps", "edits", 5, "read fault: edits"),
    "there are no steps": (STEPS_WORDS, "a.pcap", "steps", 5, "read fault: steps"),
    "steps for workers": (f"--workers=1 {STEPS_WORDS}", "", "", 2, USAGE),
    "steps for no workers": (f"--workers=0 {STEPS_WORDS}", "steps", "", 3, "steps:1:4: bad value"),
    "steps without a name": ("--steps= edits out 1=a.pcap 2=", "", "", 2, USAGE),
    "steps twice": (f"--steps=steps {STEPS_WORDS}", "", "", 2, USAGE),
    "steps for what a number makes": ("--generate 7 --steps=steps", "", "", 2, USAGE),
    "files beside what a number makes": ("--generate 7 edits", "", "", 2, USAGE),
    "a number above 32 bits": ("--generate 4294967296", "", "", 2, USAGE),
    "a number with a leading zero": ("--generate 07", "", "", 2, USAGE),
    "a flow limit of none for what a number makes": ("--generate 7 --flow-limit 0", "", "", 2, USAGE),
    "flows of what a number makes": ("--generate 7 --netflow", "", "", 2, USAGE),
    "mirrors of what a number makes": ("--generate 7 --mirrors mirrors", "", "", 2, USAGE),
    "mirrors without a name": ("--mirrors= edits out 1=a.pcap 2=", "", "", 2, USAGE),
    "a value of the flag": ("--netflow=x edits out 1=a.pcap 2=", "", "", 2, USAGE),
    "the flag twice": ("--netflow --netflow edits out 1=a.pcap 2=", "", "", 2, USAGE),
    "the steps are refused before the mirrors": (f"--mirrors mirrors {STEPS_WORDS}", "steps mirrors", "", 3, "steps:1:4: bad value"),
    "and the mirrors before the traces": (f"--mirrors mirrors {STEPS_WORDS}", "mirrors a.pcap", "", 3, "mirrors:1:17: bad value"),
    "there are no mirrors": (MIRRORS_WORDS, "a.pcap", "mirrors", 5, "read fault: mirrors"),
}


# ---- what is seen of a run


def lines_of(data):
    """Lines that each end with a line feed, with a bar between them."""
    text = data.decode()
    return text[:-1].replace("\n", "|") if text.endswith("\n") else text


def values_of(name, text):
    """What stands behind `NAME=`, line by line."""
    return "|".join(re.findall(rf"\b{name}=([^ ]*?),?(?: |(?=\||$))", text))


def frames_in(data):
    return [it.bytes for it in read_frames(data, read_format(data, ""), 1, "", sys.maxsize)]


def journal_of(port, text):
    """The steps of a port in a journal."""
    found = re.search(rf"\bport {port}((?:\|(?!port )[^|]*)*)", text)
    return found[1][1:]


def seen(what, end):
    """What a name asks of a run: what it said, the frames sent by a port, the steps of one, or a file, of which as text
    perhaps the values of one name."""
    if what == "said":
        return lines_of(end.text.encode())
    if found := re.fullmatch(r"sent by (\d+)", what):
        return frames_in(end.files[f"out.p{found[1]}.pcap"])
    if found := re.fullmatch(r"copied by (\d+)", what):
        return frames_in(end.files[f"out.m{found[1]}.pcap"])
    if found := re.fullmatch(r"bytes of (\S+)", what):
        return len(end.files[found[1]])
    if found := re.fullmatch(r"bytes (\d+) to (\d+) of (\S+)", what):
        return end.files[found[3]][int(found[1]):int(found[2])]
    if found := re.fullmatch(r"journal of (\d+)", what):
        return journal_of(found[1], lines_of(end.files["out.journal"]))
    if found := re.fullmatch(r"(\w+) in (\S+)", what):
        return values_of(found[1], lines_of(end.files[found[2]]))
    return end.files[what] if what.endswith((".pcap", ".netflow")) else lines_of(end.files[what])


def run_row(program, row):
    given = {"edits": row.edits.encode(), "a.pcap": trace(row.frames), **row.traces}
    if row.steps is not None:
        given["steps"] = row.steps.replace("|", "\n").encode()
    if row.mirrors is not None:
        given["mirrors"] = row.mirrors.replace("|", "\n").encode()
    return ended(program, row.words.split(), given)


def refused(program, words, given):
    """The status, the text and the files of a run that is refused."""
    end = ended(program, words.split(), given)
    return end.status, lines_of(end.text.encode()), end.files


def fault_rows(program, words, file, faults):
    """A row for each fault of one file."""
    for name, (text, wanted) in faults.items():
        given = GOOD | {file: text.replace("|", "\n").encode("latin-1")}
        status = 7 if wanted.startswith("limit") else 3
        yield name, refused(program, words, given), (status, wanted, {})


def refusal_rows(program):
    yield from fault_rows(program, STEPS_WORDS, "steps", STEPS_FAULTS)
    yield from fault_rows(program, MIRRORS_WORDS, "mirrors", MIRROR_FAULTS)
    for name, (words, bad, missing, status, text) in REFUSALS.items():
        given = {it: (BAD if it in bad.split() else GOOD)[it] for it in GOOD if it not in missing.split()}
        yield name, refused(program, words, given), (status, text, {})


def all_rows(program):
    """Each row: its name, what is given, and what is wanted."""
    for name, row in {**RUNS, **GIVEN, **OUTLETS}.items():
        end = run_row(program, row)
        yield f"{name}: the status", end.status, 0
        for what, wanted in row.wanted.items() if end.status == 0 else []:
            yield f"{name}: {what}", seen(what, end), wanted
    yield from refusal_rows(program)


if __name__ == "__main__":
    sys.exit(tell(all_rows(os.path.abspath(sys.argv[1]) if sys.argv[1:] else None)))
