#!/usr/bin/env python3
"""Worked rows of masks, each named by what it shows, against the simulation.

    python3 mask_rows.py

prints each row that the simulation gives otherwise, and ends with 1 where there is one. Beside rows that were worked by
hand there are made-up tables and frames, whose rules have to be those of a plain scan.
"""
import os
import sys

sys.dont_write_bytecode = True
TOP = os.path.join(os.path.dirname(os.path.abspath(__file__)), "..")
sys.path.insert(0, os.path.join(TOP, "vectors"))
from made_runs import CacheMaker
from rewriting_rows import (
    FIRST, HOPS, LAST_HOP, LATER, REQUEST, TO_2, TO_WEB, UDP_FRAME, datagram, datagram_6, plain,
)
from row_check import tell
from simulation.classifier import Tables
from simulation.dump_text import print_datapath_actions, print_entry_match
from simulation.flow_fields import packed
from simulation.flow_rules import last_version
from simulation.flow_text import read_script
from simulation.frame_key import key_of
from simulation.translation import translate

PORTS = [1, 2, 3]
MADE_TABLES = 300

# ---- frames, in hexadecimal


def to(last):
    """A frame from ..:01 to ..:d of an unknown type."""
    return plain(addresses=f"0000000000{last:02x}000000000001")


def over_ipv4(protocol, source, target, ports):
    """A packet with this protocol, addresses and transport header, a TTL of 64 and a checksum that nobody looks at."""
    return datagram(f"4500{20 + len(ports) // 2:04x}0000000040{protocol:02x}0000" + source + target, ports)


TCP, UDP = 6, 17
SEGMENT = "{:04x}{:04x}000000010000000050022000{:08x}"
HOST_1, HOST_2, HOST_5, OUTSIDE, WEB = "0a000001", "0a000002", "0a000005", "c0a80001", "c0000207"
TO_PORT_80 = SEGMENT.format(40000, 80, 0)
QUESTION = "03e8003500080000"

WEB_FLOWS = """
table=0,priority=100,arp,actions=flood
table=0,priority=90,in_port=1,actions=load:1->reg0[],resubmit(,1)
table=0,priority=90,in_port=2,actions=load:2->reg0[],resubmit(,1)
table=0,priority=0,actions=drop
table=1,priority=50,ip,nw_dst=10.0.0.0/24,actions=load:1->reg1[],resubmit(,2)
table=1,priority=40,ip,nw_dst=192.0.2.0/24,actions=dec_ttl,load:2->reg1[],resubmit(,2)
table=1,priority=0,actions=drop
table=2,priority=80,tcp,reg1=2,tp_dst=80,actions=output:reg1[0..15]
table=2,priority=80,tcp,reg1=2,tp_dst=443,actions=output:2
table=2,priority=80,tcp,reg1=1,tp_src=80,actions=output:1
table=2,priority=10,icmp,actions=in_port
table=2,priority=0,actions=drop
"""

WRITTEN_BACK = "in_port=1,actions=set_field:00:00:00:00:00:02->dl_dst,2"
ONE_PORT_STATED = (
    "priority=2,in_port=1,dl_dst=00:00:00:00:00:09,actions=2\npriority=1,in_port=2,actions=3"
)
BOTH_PREFIXES = "ip,nw_dst=10.0.0.0/8,actions=2\nip,nw_dst=10.1.0.0/16,actions=3"
SERVERS = "tcp,nw_dst=10.0.0.1,tp_dst=80,actions=2"

# What a row shows, the frame, the port where it comes in, the flows, and what is wanted: rules, match and actions.
ROWS = {
    # lookups
    "without rules nothing more than each translation consults": (to(2), 1, "", "- in_port=1,dl_type=0x88b5 drop"),
    "a rule that states nothing adds nothing": (UDP_FRAME, 1, "actions=2", "1 in_port=1,dl_type=0x0800,ip_frag=no 2"),
    "a mask that is left at its first stage": (
        to(2), 2, ONE_PORT_STATED, "2 in_port=2,dl_type=0x88b5 3",
    ),
    "a mask that is left at its second stage": (
        to(2), 1, ONE_PORT_STATED, "- in_port=1,dl_dst=00:00:00:00:00:02,dl_type=0x88b5 drop",
    ),
    "a mask of rules of less priority is not tried": (
        to(2), 1, "priority=2,in_port=1,actions=2\npriority=1,dl_src=0:0:0:0:0:1,actions=3",
        "1 in_port=1,dl_type=0x88b5 2",
    ),
    "a mask of the winner's priority is": (
        to(2), 1, "priority=2,in_port=1,actions=2\npriority=2,dl_src=0:0:0:0:0:7,actions=3",
        "1 in_port=1,dl_src=00:00:00:00:00:01,dl_type=0x88b5 2",
    ),
    "its best rule decides whether a mask is tried": (
        to(2), 1,
        "priority=2,in_port=1,actions=2\npriority=1,dl_src=0:0:0:0:0:1,actions=3\n"
        "priority=3,dl_src=0:0:0:0:0:7,actions=3",
        "1 in_port=1,dl_src=00:00:00:00:00:01,dl_type=0x88b5 2",
    ),
    "a stage on which another rule of the mask agrees is passed": (
        over_ipv4(TCP, HOST_5, WEB, TO_PORT_80), 1,
        "tcp,in_port=1,tp_dst=443,actions=2\ntcp,in_port=3,tp_dst=80,actions=3",
        "- in_port=1,dl_type=0x0800,nw_proto=6,ip_frag=no,tp_dst=80 drop",
    ),
    "a protocol that differs saves the ports": (
        UDP_FRAME, 1, "tcp,tp_dst=443,actions=2", "- in_port=1,dl_type=0x0800,nw_proto=17,ip_frag=no drop",
    ),
    # prefixes
    "one bit tells that an address is outside of a prefix": (
        over_ipv4(UDP, HOST_1, OUTSIDE, QUESTION), 1, "ip,nw_dst=10.0.0.0/8,actions=2",
        "- in_port=1,dl_type=0x0800,nw_dst=128.0.0.0/1,ip_frag=no drop",
    ),
    "31 bits tell a neighbour, and no port is read": (
        over_ipv4(TCP, HOST_5, HOST_2, TO_PORT_80), 1, SERVERS,
        "- in_port=1,dl_type=0x0800,nw_dst=10.0.0.2/31,ip_frag=no drop",
    ),
    "a prefix that matches is consulted, and of a longer one what tells that it doesn't": (
        over_ipv4(UDP, HOST_1, "0a000001", QUESTION), 1, BOTH_PREFIXES,
        "1 in_port=1,dl_type=0x0800,nw_dst=10.0.0.0/16,ip_frag=no 2",
    ),
    "as many bits as tell all prefixes apart, but not more than the mask has": (
        over_ipv4(UDP, HOST_1, "0b000001", QUESTION), 1, BOTH_PREFIXES,
        "- in_port=1,dl_type=0x0800,nw_dst=11.0.0.0/8,ip_frag=no drop",
    ),
    "a prefix of one length beside an address of another": (
        over_ipv4(UDP, HOST_1, "0a010203", QUESTION), 1, "ip,nw_dst=10.1.2.4,actions=2\nip,nw_dst=10.1.0.0/16,actions=3",
        "2 in_port=1,dl_type=0x0800,nw_dst=10.1.2.0/30,ip_frag=no 3",
    ),
    "a mask that is no prefix is consulted as other fields are": (
        over_ipv4(UDP, HOST_1, "0b000001", QUESTION), 1, "ip,nw_dst=10.0.0.1/255.0.0.255,actions=2",
        "- in_port=1,dl_type=0x0800,nw_dst=11.0.0.1/255.0.0.255,ip_frag=no drop",
    ),
    "prefixes of the source are tried before those of the destination": (
        over_ipv4(UDP, HOST_1, OUTSIDE, QUESTION), 1, "ip,nw_src=192.0.0.0/8,nw_dst=10.0.0.0/8,actions=2",
        "- in_port=1,dl_type=0x0800,nw_src=0.0.0.0/1,ip_frag=no drop",
    ),
    "prefixes of IPv6": (
        datagram_6(HOPS, TO_2, QUESTION), 1, "ipv6,ipv6_dst=2001:db8::/32,actions=2",
        "- in_port=1,dl_type=0x86dd,ipv6_dst=0:0:0:0:0:0:0:0/3,ip_frag=no drop",
    ),
    "prefixes of ARP": (
        REQUEST, 1, "arp,arp_tpa=10.0.0.0/24,actions=2",
        "1 in_port=1,dl_type=0x0806,nw_dst=10.0.0.0/24 2",
    ),
    # fragments
    "the port of a first fragment is 0": (
        FIRST, 1, "udp,tp_dst=53,actions=2",
        "- in_port=1,dl_type=0x0800,nw_proto=17,ip_frag=first,tp_dst=0 drop",
    ),
    "a write to a port consults whether there is one": (
        LATER, 1, "actions=mod_tp_dst:80,2", "1 in_port=1,dl_type=0x0800,nw_proto=17,ip_frag=later 2",
    ),
    # writes
    "a field that is written as it was": (
        to(2), 1, WRITTEN_BACK, "1 in_port=1,dl_dst=00:00:00:00:00:02,dl_type=0x88b5 2",
    ),
    "and another one, which differs": (
        to(7), 1, WRITTEN_BACK,
        "1 in_port=1,dl_dst=00:00:00:00:00:07,dl_type=0x88b5 set(dl_dst=00:00:00:00:00:00/00:00:00:00:00:05),2",
    ),
    "an address that is written": (
        UDP_FRAME, 1, "in_port=1,actions=mod_nw_src:10.0.0.9,2",
        "1 in_port=1,dl_type=0x0800,nw_src=10.0.0.1,ip_frag=no set(nw_src=0.0.0.8/0.0.0.8),2",
    ),
    "an address that isn't written, as the frame is of another type": (
        to(2), 1, "actions=mod_nw_src:10.0.0.9,2", "1 in_port=1,dl_type=0x88b5 2",
    ),
    "some bits that are written": (
        to(2), 1, "actions=load:1->dl_dst[4..7],2",
        "1 in_port=1,dl_dst=00:00:00:00:00:00/00:00:00:00:00:f0,dl_type=0x88b5 "
        "set(dl_dst=00:00:00:00:00:10/00:00:00:00:00:10),2",
    ),
    "the six bits of a class": (
        UDP_FRAME, 1, "actions=mod_nw_tos:8,2",
        "1 in_port=1,dl_type=0x0800,nw_tos=0x0/0xfc,ip_frag=no set(nw_tos=0x8/0x8),2",
    ),
    "a port that is written": (
        UDP_FRAME, 1, "actions=mod_tp_dst:54,2",
        "1 in_port=1,dl_type=0x0800,nw_proto=17,ip_frag=no,tp_dst=53 set(tp_dst=0x2/0x3),2",
    ),
    "a port of another protocol": (
        UDP_FRAME, 1, "actions=set_field:54->tcp_dst,2", "1 in_port=1,dl_type=0x0800,nw_proto=17,ip_frag=no 2",
    ),
    "a TTL that is lowered": (
        UDP_FRAME, 1, "actions=dec_ttl,2", "1 in_port=1,dl_type=0x0800,nw_ttl=64,ip_frag=no set(nw_ttl=0x3f/0x7f),2",
    ),
    "a TTL that ends the list": (
        datagram(LAST_HOP), 1, "actions=dec_ttl,mod_nw_src:10.0.0.9,2",
        "1 in_port=1,dl_type=0x0800,nw_ttl=1,ip_frag=no drop",
    ),
    "a TTL that isn't there": (to(2), 1, "actions=dec_ttl,2", "1 in_port=1,dl_type=0x88b5 2"),
    # moves
    "bits that are read and bits that are written": (
        to(2), 1, "actions=move:dl_src[0..7]->dl_dst[8..15],2",
        "1 in_port=1,dl_src=00:00:00:00:00:01/00:00:00:00:00:ff,dl_dst=00:00:00:00:00:00/00:00:00:00:ff:00,"
        "dl_type=0x88b5 set(dl_dst=00:00:00:00:01:00/00:00:00:00:01:00),2",
    ),
    "bits that are read into a register": (
        UDP_FRAME, 1, "actions=move:nw_ttl[6..7]->reg3[0..1],2", "1 in_port=1,dl_type=0x0800,nw_ttl=0x40/0xc0,ip_frag=no 2",
    ),
    "a move that doesn't act reads nothing": (
        to(2), 1, "actions=move:dl_src[0..31]->nw_src[],2", "1 in_port=1,dl_type=0x88b5 2",
    ),
    "an output to bits that are read": (
        to(2), 1, "actions=output:dl_dst[0..7]", "1 in_port=1,dl_dst=00:00:00:00:00:02/00:00:00:00:00:ff,dl_type=0x88b5 2",
    ),
    # tags
    "a tag that is added": (
        to(2), 1, "in_port=1,actions=mod_vlan_vid:5,2",
        "1 in_port=1,dl_type=0x88b5,vlan_tci=0x0000,vlan_tpid=0x0000,vlan_tci2=0x0000,vlan_tpid2=0x0000 "
        "push_vlan(vid=5,pcp=0),2",
    ),
    "a tag is consulted whole, whatever of it is read": (
        plain("8100e007"), 1, "actions=move:vlan_tci[13..15]->reg1[0..2],2",
        "1 in_port=1,dl_type=0x88b5,vlan_tci=0xf007 2",
    ),
    "what is matched of a tag, and no more": (
        plain("8100e007"), 1, "dl_vlan=7,actions=2", "1 in_port=1,dl_type=0x88b5,vlan_tci=0x1007/0x1fff 2",
    ),
    "a tag that would be written, without a tag": (
        to(2), 1, "actions=set_field:3->vlan_pcp,2",
        "1 in_port=1,dl_type=0x88b5,vlan_tci=0x0000,vlan_tpid=0x0000,vlan_tci2=0x0000,vlan_tpid2=0x0000 2",
    ),
    "no bits of a tag": (to(2), 1, "actions=set_field:0/0->vlan_tci,2", "1 in_port=1,dl_type=0x88b5 2"),
    "a second tag": (
        plain("8100000a"), 1, "in_port=1,actions=push_vlan:0x88a8,mod_vlan_vid:100,2",
        "1 in_port=1,dl_type=0x88b5,vlan_tci=0x100a,vlan_tpid=0x8100,vlan_tci2=0x0000,vlan_tpid2=0x0000 "
        "push_vlan(tpid=0x88a8,vid=100,pcp=0),2",
    ),
    "a service tag that is taken away": (
        plain("88a800648100000a"), 1, "in_port=1,actions=pop_vlan,2",
        "1 in_port=1,dl_type=0x88b5,vlan_tci=0x1064,vlan_tpid=0x88a8,vlan_tci2=0x100a,vlan_tpid2=0x8100 pop_vlan,2",
    ),
    "a third tag": (
        plain("88a800648100000a"), 1, "actions=2,push_vlan:0x8100,mod_dl_dst:0:0:0:0:0:7,3",
        "1 in_port=1,dl_type=0x88b5,vlan_tci=0x1064,vlan_tpid=0x88a8,vlan_tci2=0x100a,vlan_tpid2=0x8100 drop",
    ),
    "what is matched is the outer tag": (
        plain("88a800648100000a"), 1, "dl_vlan=100,actions=2", "1 in_port=1,dl_type=0x88b5,vlan_tci=0x1064/0x1fff 2",
    ),
    "and not the inner one": (
        plain("88a800648100000a"), 1, "dl_vlan=10,actions=2", "- in_port=1,dl_type=0x88b5,vlan_tci=0x1064/0x1fff drop",
    ),
    # tables and registers
    "registers are left out": (
        to(2), 1, "actions=load:7->reg0[],resubmit(,1)\ntable=1,reg0=7,dl_src=0:0:0:0:0:1,actions=output:reg0[0..1]",
        "1+2 in_port=1,dl_src=00:00:00:00:00:01,dl_type=0x88b5 3",
    ),
    "what was written is consulted where another table matches it": (
        to(2), 1, "actions=mod_dl_dst:0:0:0:0:0:9,resubmit(,1)\ntable=1,dl_dst=0:0:0:0:0:9/0:0:0:0:0:f,actions=2",
        "1+2 in_port=1,dl_dst=00:00:00:00:00:02,dl_type=0x88b5 "
        "set(dl_dst=00:00:00:00:00:09/00:00:00:00:00:0b),2",
    ),
    "what was consulted on a way that ends with nothing": (
        to(2), 1, "dl_dst=0:0:0:0:0:2,actions=2,resubmit(,0)",
        "+".join(["1"] * 65) + " in_port=1,dl_dst=00:00:00:00:00:02,dl_type=0x88b5 drop",
    ),
    "a segment to the web, through three tables": (
        datagram(TO_WEB, TO_PORT_80), 1, WEB_FLOWS,
        "2+6+8 in_port=1,dl_type=0x0800,nw_dst=192.0.2.0/24,nw_proto=6,nw_ttl=64,ip_frag=no,tp_dst=80 "
        "set(nw_ttl=0x3f/0x7f),2",
    ),
}


def rules_of(text):
    return last_version(read_script(text.encode()).edits).live.values()


def shown(frame, port, text):
    """Rules, match and actions of what becomes of a frame."""
    key = packed(key_of(port, bytes.fromhex(frame)))
    translated = translate(Tables(rules_of(text)), PORTS, key)
    visits = "+".join(str(number) for number in translated.visits) or "-"
    return f"{visits} {print_entry_match(key, translated.mask)} {print_datapath_actions(translated.actions)}"


def scanned(rules, table, key):
    """The rule of a table that decides a key, by going through all of them."""
    best = None
    for rule in rules:
        if rule.table == table and key & rule.matching.mask == rule.matching.key:
            if best is None or (best.priority, -best.number) < (rule.priority, -rule.number):
                best = rule
    return best


def looked_up(rules, table, key):
    """The rule by masks, and whether the bits that were consulted are all of it."""
    rule, consulted = Tables(rules).look_up(table, key)
    return rule, rule is None or rule.matching.mask & ~consulted == 0


def all_rows():
    """Each row: its name, what is given, and what is wanted."""
    for name, (frame, port, text, wanted) in ROWS.items():
        yield name, shown(frame, port, text), wanted
    for number in range(MADE_TABLES):
        maker = CacheMaker(number)
        rules, table = rules_of("\n".join(maker.good_flows(20))), maker.one(0, 0, 0, 1)
        for frame in maker.frames:
            key = packed(key_of(maker.one(*maker.ports), frame))
            yield f"the rule of made-up tables {number}", looked_up(rules, table, key), (scanned(rules, table, key), True)


if __name__ == "__main__":
    sys.exit(tell(all_rows()))
