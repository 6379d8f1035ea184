#!/usr/bin/env python3
"""Worked rows of translation and rewriting, each named by what it shows, against the simulation.

    python3 rewriting_rows.py

prints each row that the simulation gives otherwise, and ends with 1 where there is one. Beside rows that were worked by
hand there are made-up lists of actions on frames whose checksums are right: those of what is sent have to be right too,
computed anew over all that they cover. And the headers of the frames of vectors/ have to stand where tshark has them.
"""
import os
import random
import sys

sys.dont_write_bytecode = True
TOP = os.path.join(os.path.dirname(os.path.abspath(__file__)), "..")
sys.path.insert(0, os.path.join(TOP, "vectors"))
import expected
import make
from frames import ALL_FRAMES
from made_actions import ActionMaker
from rewritings import ROWS
from row_check import tell
from simulation.classifier import Tables
from simulation.flow_fields import (
    ETHERTYPE_ARP, ETHERTYPE_IPV4, ETHERTYPE_IPV6, PROTOCOL_ICMP, PROTOCOL_ICMPV6, PROTOCOL_TCP, PROTOCOL_UDP, packed,
)
from simulation.flow_rules import last_version
from simulation.flow_text import Action, read_script
from simulation.frame_key import ETHERNET_HEADER, headers_of, key_of, transport_protocol
from simulation.rewriting import sent, transport_begin
from simulation.translation import translate
from sums import wrong_sums

PORTS = [1, 2, 3]
MADE_LISTS = 2000

# ---- frames, in hexadecimal

ADDRESSES = "000000000002000000000001"
# From 10.0.0.1 to 10.0.0.2, and the header of it with a TTL of 63, with a TTL of 1, and from 10.0.0.9.
FROM_1 = "4500001c00000000401166cf0a0000010a000002"
LOWERED = "4500001c000000003f1167cf0a0000010a000002"
LAST_HOP = "4500001c000000000111a5cf0a0000010a000002"
FROM_9 = "4500001c00000000401166c70a0000090a000002"
# From port 1000 to 53, without a checksum.
QUESTION = "03e8003500080000"
# From 10.0.0.5 to 192.0.2.7, a SYN from port 40000 to 80; and to 10.0.0.9, from port 80, and of class 46.
TO_WEB = "45000028000000004006aec40a000005c0000207"
TO_9 = "4500002800000000400666c30a0000050a000009"
FAST = "45b80028000000004006ae0c0a000005c0000207"
SYN = "9c40005000000001000000005002200027450000"
SYN_TO_9 = "9c400050000000010000000050022000df430000"
SYN_FROM_80 = "00500050000000010000000050022000c3350000"
# From ::1 to ::2, or to ::3, with a hop limit of 64.
HOPS, TO_2, TO_3 = "6000000000081140", f"{1:032x}{2:032x}", f"{1:032x}{3:032x}"


def datagram(header, body=QUESTION):
    return ADDRESSES + "0800" + header + body


def datagram_6(header, addresses, body):
    return ADDRESSES + "86dd" + header + addresses + body


def plain(tag="", addresses=ADDRESSES):
    return addresses + tag + "88b5" + "00" * 46


UDP_FRAME = datagram(FROM_1)
# Who has 10.0.0.2? Tell 10.0.0.1.
REQUEST = ADDRESSES + "0806" + "0001080006040001" + "0000000000010a000001" + "0000000000000a000002"
FIRST, LATER = (datagram(FROM_1.replace("00000000", part, 1)) for part in ["00002000", "00000003"])
SERVICE_TAGGED = plain("88a80007")

# What a row shows, the frame that comes in at port 1, the flows, and what is sent: pairs of a port and a frame.
WORKED = {
    # writes, and the checksums that follow
    "an address": (UDP_FRAME, "actions=mod_nw_src:10.0.0.9,2", [(2, datagram(FROM_9))]),
    "a TTL": (UDP_FRAME, "actions=dec_ttl,2", [(2, datagram(LOWERED))]),
    "an output before a write": (UDP_FRAME, "actions=2,dec_ttl,3", [(2, UDP_FRAME), (3, datagram(LOWERED))]),
    "an address in a segment": (
        datagram(TO_WEB, SYN), "actions=mod_nw_dst:10.0.0.9,2", [(2, datagram(TO_9, SYN_TO_9))],
    ),
    "a port": (datagram(TO_WEB, SYN), "actions=mod_tp_src:80,2", [(2, datagram(TO_WEB, SYN_FROM_80))]),
    "a class": (datagram(TO_WEB, SYN), "actions=mod_nw_tos:184,2", [(2, datagram(FAST, SYN))]),
    "an address of IPv6": (
        datagram_6(HOPS, TO_2, "03e800350008fbbe"), "actions=set_field:::3->ipv6_dst,2",
        [(2, datagram_6(HOPS, TO_3, "03e800350008fbbd"))],
    ),
    "a class and a hop limit": (
        datagram_6(HOPS, TO_2, "03e800350008fbbe"), "actions=mod_nw_tos:184,dec_ttl,2",
        [(2, datagram_6("6b8000000008113f", TO_2, "03e800350008fbbe"))],
    ),
    "a write of what is there leaves a wrong checksum": (
        datagram(FROM_1.replace("66cf", "ffff")), "actions=mod_nw_src:10.0.0.1,2",
        [(2, datagram(FROM_1.replace("66cf", "ffff")))],
    ),
    "a UDP checksum of 0 over IPv6 becomes a number": (
        datagram_6(HOPS, TO_2, "03e8003500080000"), "actions=set_field:::3->ipv6_dst,2",
        [(2, datagram_6(HOPS, TO_3, "03e800350008fffe"))],
    ),
    "of the two zeros of a sum the one that equation 3 gives": (
        datagram("4500001c000000004011ffffffff00010a000002"), "actions=mod_nw_src:0.0.0.1,2",
        [(2, datagram("4500001c000000004011ffff000000010a000002"))],
    ),
    "a frame without a whole header": (
        plain()[:26], "actions=mod_dl_dst:0:0:0:0:0:8,push_vlan:0x8100,2", [(2, plain()[:26])],
    ),
    # what a write needs
    "a port of TCP in a datagram of UDP": (UDP_FRAME, "actions=set_field:80->tcp_dst,2", [(2, UDP_FRAME)]),
    "an address in a frame of another type": (
        plain(), "actions=mod_nw_src:10.0.0.9,mod_tp_dst:1,dec_ttl,2", [(2, plain())],
    ),
    "an address of a header that is malformed": (
        datagram("4f" + FROM_1[2:]), "actions=mod_nw_src:10.0.0.9,2", [(2, datagram("4f" + FROM_1[2:]))],
    ),
    "a port of a header that is cut": (
        datagram(TO_WEB, SYN[:38]), "actions=mod_tp_src:80,mod_nw_dst:10.0.0.9,2", [(2, datagram(TO_9, SYN[:38]))],
    ),
    "an IPv4 address in a message of ARP": (REQUEST, "actions=mod_nw_src:10.0.0.9,2", [(2, REQUEST)]),
    "an address of ARP": (
        REQUEST, "actions=set_field:10.0.0.9->arp_spa,2", [(2, REQUEST.replace("0a000001", "0a000009"))],
    ),
    "a port of a first fragment": (FIRST, "actions=mod_tp_dst:80,2", [(2, FIRST)]),
    "a port of a later fragment": (LATER, "actions=mod_tp_dst:80,2", [(2, LATER)]),
    # lists that end
    "a TTL of 1": (datagram(LAST_HOP), "actions=2,dec_ttl,3", [(2, datagram(LAST_HOP))]),
    "a TTL of 1 in an inner list": (
        datagram(LAST_HOP), "actions=resubmit(,1),3\ntable=1,actions=dec_ttl,2", [(3, datagram(LAST_HOP))],
    ),
    "a malformed header has a TTL of 0": (datagram("4f" + FROM_1[2:]), "actions=dec_ttl,2", []),
    # tags
    "a VLAN for a frame without a tag": (plain(), "actions=mod_vlan_vid:5,2", [(2, plain("81000005"))]),
    "a VLAN of a tag": (plain("8100e007"), "actions=mod_vlan_vid:5,2", [(2, plain("8100e005"))]),
    "a priority of a tag of type 0x88a8": (plain("88a80007"), "actions=mod_vlan_pcp:3,2", [(2, plain("88a86007"))]),
    "a tag that is taken away": (plain("88a80007"), "actions=strip_vlan,2", [(2, plain())]),
    "a tag that is written as none": (plain("8100e007"), "actions=load:0->vlan_tci[12],2", [(2, plain())]),
    "parts of a tag that isn't there": (
        plain(), "actions=set_field:3->vlan_pcp,set_field:0x1005->vlan_vid,2", [(2, plain())],
    ),
    "a tag that is pushed": (plain(), "actions=push_vlan:0x8100,2", [(2, plain("81000000"))]),
    "no bits of a tag": (plain(), "actions=set_field:0/0->vlan_tci,2", [(2, plain())]),
    "a tag on a tag": (
        plain("81000007"), "actions=2,push_vlan:0x8100,3", [(2, plain("81000007")), (3, plain("8100000081000007"))],
    ),
    "a service tag around a customer's": (
        plain("8100000a"), "actions=push_vlan:0x88a8,mod_vlan_vid:100,2", [(2, plain("88a800648100000a"))],
    ),
    "a service tag that is taken away again": (plain("88a800648100000a"), "actions=pop_vlan,2", [(2, plain("8100000a"))]),
    "a tag on two tags": (plain("88a800648100000a"), "actions=2,push_vlan:0x8100,3", []),
    "the outer of two tags": (plain("8100000781000008"), "actions=pop_vlan,2", [(2, plain("81000008"))]),
    # tables, registers and ports
    "a register that another table matches": (
        plain(), "actions=load:7->reg0[],resubmit(,1),3\ntable=1,reg0=7,actions=mod_vlan_vid:5,2",
        [(2, plain("81000005")), (3, plain("81000005"))],
    ),
    "a field that is written back": (UDP_FRAME, "actions=dec_ttl,mod_nw_ttl:64,2", [(2, UDP_FRAME)]),
    "a move, whatever the packet is": (
        UDP_FRAME, "actions=move:tcp_src[]->dl_dst[0..15],2", [(2, UDP_FRAME.replace("0002", "03e8", 1))],
    ),
    "a port in a register": (plain(), "actions=load:3->reg1[4..19],output:reg1[4..19]", [(3, plain())]),
    "a register with the number of no port": (
        plain(), "actions=load:0xfffb->reg1[],output:reg1[0..15],in_port", [(1, plain())],
    ),
    "a register with the number of the port where it came in": (
        plain(), "actions=load:1->reg1[],output:reg1[],2", [(2, plain())],
    ),
    "nothing is written for a port that is none": (plain(), "actions=mod_vlan_vid:5,1,9,strip_vlan,2", [(2, plain())]),
    "ECN beside a class": (
        datagram(FROM_1.replace("4500", "4503").replace("66cf", "66cc")), "actions=mod_nw_tos:8,2",
        [(2, datagram(FROM_1.replace("4500", "450b").replace("66cf", "66c4")))],
    ),
}


def chain(length):
    """Tables that each lead to the next one; the last one sends."""
    steps = [f"table={table},actions=resubmit(,{table + 1})\n" for table in range(length)]
    return "".join(steps) + f"table={length},actions=2"


# 9 lookups for each of 56 in table 1, and 7 or 8 more beside the first.
LOOKUPS = "table=1,actions=" + "resubmit(,2)," * 8 + "\ntable=3,actions=resubmit(,2)\nactions=2," + "resubmit(,1)," * 56

# 120 outputs before those of table 1.
ALL_60 = "actions=" + "all," * 60 + "resubmit(,1)\ntable=1,actions="

LIMITS = {
    "depth 64": (plain(), chain(64), [(2, plain())]),
    "depth 65": (plain(), chain(65), []),
    "a table that leads to itself": (plain(), "actions=2,resubmit(,0)", []),
    "512 lookups": (plain(), LOOKUPS + "resubmit(,2)," * 7, [(2, plain())]),
    "513 lookups": (plain(), LOOKUPS + "resubmit(,2)," * 6 + "resubmit(,3)", []),
    "a write and an output as the 127th and the 128th": (
        plain(), ALL_60 + "2," * 6 + "mod_dl_dst:0:0:0:0:0:8,2",
        [(2, plain()), (3, plain())] * 60 + [(2, plain())] * 6 + [(2, plain(addresses="000000000008000000000001"))],
    ),
    "a write and an output as the 128th and the 129th": (plain(), ALL_60 + "2," * 7 + "mod_dl_dst:0:0:0:0:0:8,2", []),
}


# On a switch of one port: a write before nothing is sent, and back, leaves even the type of a tag.
ALONE = (SERVICE_TAGGED, "actions=mod_vlan_vid:5,all,9,mod_vlan_vid:7,in_port", [(1, SERVICE_TAGGED)])

# Datapath actions that no flow asks for, on a frame that they leave as it is.
UNSUMMED_6 = datagram_6(HOPS, TO_2, "03e8003500080000")
LEFT = {
    "a tag taken from a frame without one": (plain(), Action("PopVlan", ())),
    "an address that is there, beside a checksum of 0": (UNSUMMED_6, Action("Set", ("ipv6_dst", 2, 3))),
    "a port of ICMP": (datagram(FROM_1.replace("4011", "4001")), Action("Set", ("tp_src", 80, 0xFFFF))),
}


def sent_of(frame, text, ports=PORTS):
    """What is sent of a frame that comes in at port 1: pairs of a port and bytes."""
    rules = last_version(read_script(text.encode()).edits).live.values()
    return list(sent(translate(Tables(rules), ports, packed(key_of(1, frame))).actions, frame))


def sent_in_hexadecimal(frame, text, ports=PORTS):
    return [(port, data.hex()) for port, data in sent_of(bytes.fromhex(frame), text, ports)]


def after_action(frame, action):
    """A frame after a datapath action."""
    [(_, data)] = sent([action, Action("Output", (2,))], bytes.fromhex(frame))
    return data.hex()


def wrong_after(frame, actions):
    """The checksums that are wrong in what is sent."""
    return [wrong for _, data in sent_of(frame, f"actions={actions}") for wrong in wrong_sums(data)]


def made_lists():
    """Frames with right checksums, and lists of actions."""
    pick = random.Random(1)
    frames = [row.frame for row in ROWS if headers_of(row.frame).network and is_whole(row.frame)]
    maker = ActionMaker(pick, PORTS, frames)
    for _ in range(MADE_LISTS):
        yield pick.choice(frames), ",".join(maker.list(0))


def is_whole(frame):
    """Whether a frame has all that its checksums cover, and these are right."""
    network = headers_of(frame).network
    return not network.fields.get("ip_frag") and not network.routed and not wrong_sums(frame)


# ---- where headers stand

NETWORK_NAMES = {ETHERTYPE_ARP: "Arp", ETHERTYPE_IPV4: "Ipv4", ETHERTYPE_IPV6: "Ipv6"}
TRANSPORT_NAMES = {PROTOCOL_TCP: "Tcp", PROTOCOL_UDP: "Udp", PROTOCOL_ICMP: "Icmp", PROTOCOL_ICMPV6: "Icmp6"}


def layout_of(frame):
    """How many tags a frame has, its network and its transport header with their offsets, and whether it is routed."""
    if len(frame) < ETHERNET_HEADER:
        return False, None, None, False
    headers = headers_of(frame)
    tags, network, protocol = len(headers.tags), headers.network, transport_protocol(headers)
    if network is None:
        return tags, None, None, False
    transport = None if protocol is None else (TRANSPORT_NAMES[protocol], transport_begin(headers))
    return tags, (NETWORK_NAMES[headers.dl_type], headers.begin), transport, network.routed


def printed_layout(frame, printed):
    layout = expected.by_the_rules(printed[frame.name], frame.difference)
    return layout.tags, layout.l3, layout.l4, layout.routed


def all_rows():
    """Each row: its name, what is given, and what is wanted."""
    for name, (frame, text, wanted) in (WORKED | LIMITS).items():
        yield name, sent_in_hexadecimal(frame, text), wanted
    frame, text, wanted = ALONE
    yield "a write before nothing is sent", sent_in_hexadecimal(frame, text, [1]), wanted
    for name, (frame, action) in LEFT.items():
        yield name, after_action(frame, action), frame
    for frame, actions in made_lists():
        yield f"wrong checksums after {actions}", wrong_after(frame, actions), []
    printed = make.read_table()
    for frame in ALL_FRAMES:
        yield f"the headers of {frame.name}", layout_of(frame.bytes), printed_layout(frame, printed)


if __name__ == "__main__":
    sys.exit(tell(all_rows()))
