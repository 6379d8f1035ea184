"""Frames and the flows that rewrite them: each row with a name, a frame, what is done to it, and whether Open vSwitch
does otherwise by design.

A row has a source address of its own, by which its flows tell its frame from the others.
"""
import struct
from dataclasses import dataclass

from headers import *

DATA = b"rewrite"
HOME = ipv6_address("2001:db8:0:0:0:0:0:77")


@dataclass(frozen=True)
class Row:
    name: str
    frame: bytes
    match: str
    actions: str
    # Flows of other tables, whole; each table is of one row.
    more: tuple = ()
    # Why Open vSwitch does otherwise.
    differs: str = ""


# ---- frames


def with_sum(message, at, pseudo_header=b""):
    """A message with its checksum, which stands at a place in it and is 0 in what is given."""
    summed = pseudo_header + message
    return message[:at] + word(checksum(summed + bytes(len(summed) % 2))) + message[at + 2 :]


def pseudo_4(protocol, length):
    return IPV4_ADDRESSES + struct.pack("!BBH", 0, protocol, length)


def pseudo_6(protocol, length, addresses=IPV6_ADDRESSES):
    return addresses + struct.pack("!II", length, protocol)


def pseudo_home(protocol, length):
    """With the destination that a routing header leads to."""
    return pseudo_6(protocol, length, IPV6_ADDRESSES[:16] + HOME)


def message(protocol, header, at, pseudo_header):
    whole = header + DATA
    return with_sum(whole, at, pseudo_header(protocol, len(whole)))


MESSAGES_4 = {
    TCP: message(TCP, tcp(), 16, pseudo_4),
    UDP: message(UDP, udp(len(DATA)), 6, pseudo_4),
    ICMP: with_sum(icmp() + DATA, 2),
}
MESSAGES_6 = {
    TCP: message(TCP, tcp(), 16, pseudo_6),
    UDP: message(UDP, udp(len(DATA)), 6, pseudo_6),
    ICMPV6: message(ICMPV6, icmpv6() + bytes(4), 2, pseudo_6),
}


def ethernet(kind, packet, tags=b"", link=b""):
    """A frame of 60 bytes at least: with tags before its type, and perhaps with LLC and SNAP in its place."""
    return (ADDRESSES + tags + (link or word(kind)) + packet).ljust(60, b"\0")


def tag(tci, kind=CUSTOMER_TAG):
    return word(kind) + word(tci)


def over_ipv4(protocol, payload=None, tags=b"", **rest):
    payload = MESSAGES_4[protocol] if payload is None else payload
    return ethernet(IPV4, ipv4(protocol, len(payload), **rest) + payload, tags)


def over_ipv6(protocol, *extensions, payload=None, tags=b"", **rest):
    """With these extension headers, each a function of the number that follows with the number of its own."""
    payload, following = MESSAGES_6[protocol] if payload is None else payload, protocol
    for number, extension in reversed(extensions):
        payload, following = extension(following) + payload, number
    return ethernet(IPV6, ipv6(following, len(payload), **rest) + payload, tags)


def routing_home(following):
    """A routing header of type 2, with one segment left, to a home address (RFC 6275, 6.4.1)."""
    return bytes([following, 2, 2, 1]) + bytes(4) + HOME


def routing_at_its_end(following):
    """A routing header without segments left."""
    return bytes([following, 0, 253, 0]) + bytes(4)


PLAIN = ethernet(EXPERIMENT, bytes(46))
REQUEST = ethernet(ARP, arp(1))
TCP_4, UDP_4, ICMP_4 = over_ipv4(TCP), over_ipv4(UDP), over_ipv4(ICMP)
TCP_6, UDP_6, ICMP_6 = over_ipv6(TCP), over_ipv6(UDP), over_ipv6(ICMPV6)
UNSUMMED = over_ipv4(UDP, udp(len(DATA)) + DATA)
IN_SNAP = ethernet(IPV4, TCP_4[14:], link=word(len(TCP_4) - 14 + 8) + snap(IPV4))
LAST_HOP = over_ipv4(TCP, ttl=1)
FIRST_4 = over_ipv4(UDP, flags=1)
LATER_4 = over_ipv4(UDP, DATA * 2, offset=3)
TO_HOME = over_ipv6(UDP, (ROUTING, routing_home), payload=message(UDP, udp(len(DATA)), 6, pseudo_home))
WHOLE_6 = over_ipv6(UDP, (FRAGMENT, fragment))


def port_for_zero(segment, at):
    """The source port with which the checksum at a place in a segment becomes 0."""
    number = struct.unpack_from("!H", segment, at)[0] + SOURCE_PORT
    return (number & 0xFFFF) + (number >> 16)


ZERO_TCP = port_for_zero(MESSAGES_4[TCP], 16)
ZERO_UDP = port_for_zero(MESSAGES_4[UDP], 6)
ZERO_UDP_6 = port_for_zero(MESSAGES_6[UDP], 6)

# ---- rows

FAULTY = "a fault of Open vSwitch: "
SERVER_6 = "2001:db8:99::7:1"

ETHERNET_ROWS = (
    Row("a_destination", TCP_4, "tcp", "mod_dl_dst:02:00:00:00:00:99,2"),
    Row("a_source", REQUEST, "arp", "mod_dl_src:02:00:00:00:00:99,2"),
    Row("part_of_a_destination", PLAIN, "", "set_field:0a:00:00:00:00:07/ff:00:00:00:00:0f->eth_dst,2"),
    Row("addresses_moved", UDP_6, "udp6",
        "move:NXM_OF_ETH_SRC[]->NXM_OF_ETH_DST[],mod_dl_src:02:00:00:00:00:99,in_port"),
)

IPV4_ROWS = (
    Row("a_source_of_tcp", TCP_4, "tcp", "mod_nw_src:10.0.0.9,2"),
    Row("a_destination_of_udp", UDP_4, "udp", "mod_nw_dst:10.0.0.9,2"),
    Row("a_source_of_udp_without_a_checksum", UNSUMMED, "udp", "mod_nw_src:10.0.0.9,2"),
    Row("a_destination_of_icmp", ICMP_4, "icmp", "mod_nw_dst:10.0.0.9,2"),
    Row("an_octet_of_a_destination", TCP_4, "tcp", "load:10->NXM_OF_IP_DST[24..31],2"),
    Row("a_source_after_options", over_ipv4(TCP, options=b"\x01" * 8), "tcp", "mod_nw_src:10.0.0.9,mod_tp_dst:80,2"),
    Row("a_source_after_snap", IN_SNAP, "tcp", "mod_nw_src:10.0.0.9,2"),
    Row("a_source_whose_header_checksum_is_wrong", TCP_4[:24] + b"\x12\x34" + TCP_4[26:], "tcp", "mod_nw_src:10.0.0.9,2"),
    Row("a_class_of_traffic", TCP_4, "tcp", "mod_nw_tos:184,2"),
    Row("a_class_that_leaves_ecn", over_ipv4(UDP, tos=3), "udp", "mod_nw_tos:184,2"),
    Row("ecn", UDP_4, "udp", "mod_nw_ecn:1,2"),
    Row("a_ttl", ICMP_4, "icmp", "mod_nw_ttl:9,2"),
    Row("a_ttl_lowered", TCP_4, "tcp", "dec_ttl,2"),
    Row("a_ttl_lowered_twice", UDP_4, "udp", "dec_ttl,2,dec_ttl,3"),
    Row("a_ttl_of_1_ends_the_list", LAST_HOP, "tcp", "2,dec_ttl,3"),
    Row("a_ttl_of_1_ends_the_inner_list", LAST_HOP, "tcp", "resubmit(,21),3", ("table=21,tcp,actions=dec_ttl,2",)),
    Row("a_source_port_of_tcp", TCP_4, "tcp", "mod_tp_src:80,2"),
    Row("a_destination_port_of_tcp", TCP_4, "tcp", "mod_tp_dst:80,2"),
    Row("a_destination_port_of_udp", UDP_4, "udp", "mod_tp_dst:80,2"),
    Row("a_port_of_udp_without_a_checksum", UNSUMMED, "udp", "mod_tp_src:80,2"),
    Row("part_of_a_port", UDP_4, "udp", "load:1->NXM_OF_UDP_DST[15],2"),
    Row("a_checksum_of_tcp_that_becomes_0", TCP_4, "tcp", f"mod_tp_src:{ZERO_TCP},2"),
    Row("a_checksum_of_udp_that_becomes_0", UDP_4, "udp", f"mod_tp_src:{ZERO_UDP},2"),
    Row("a_port_of_icmp", ICMP_4, "icmp", "mod_tp_src:5,2", differs=FAULTY + "the type is written"),
    Row("a_type_of_service_read", over_ipv4(UDP, tos=3), "udp",
        "move:NXM_OF_IP_TOS[]->NXM_NX_REG0[0..7],output:NXM_NX_REG0[0..15]", differs="the two bits of ECN read as 0"),
    Row("a_route_with_translated_addresses", TCP_4, "tcp",
        "mod_nw_src:203.0.113.5,mod_tp_src:61000,dec_ttl,mod_dl_src:02:00:00:00:00:98,mod_dl_dst:02:00:00:00:00:99,2"),
)

IPV6_ROWS = (
    Row("a_source_of_tcp_over_ipv6", TCP_6, "tcp6", f"set_field:{SERVER_6}->ipv6_src,2"),
    Row("a_destination_of_udp_over_ipv6", UDP_6, "udp6", f"set_field:{SERVER_6}->ipv6_dst,2"),
    Row("a_source_of_icmpv6", ICMP_6, "icmp6", f"set_field:{SERVER_6}->ipv6_src,2"),
    Row("a_prefix_of_a_destination", TCP_6, "tcp6", "set_field:2001:db8:ffff::/48->ipv6_dst,2"),
    Row("a_hop_limit_lowered", UDP_6, "udp6", "dec_ttl,2"),
    Row("a_hop_limit", TCP_6, "tcp6", "mod_nw_ttl:9,2"),
    Row("a_hop_limit_of_1", over_ipv6(ICMPV6, hops=1), "icmp6", "2,dec_ttl,3"),
    Row("a_class_beside_a_flow_label", over_ipv6(TCP, traffic=3, flow=0xABCDE), "tcp6", "mod_nw_tos:184,2"),
    Row("ecn_over_ipv6", ICMP_6, "icmp6", "mod_nw_ecn:2,2"),
    Row("ports_of_tcp_over_ipv6", TCP_6, "tcp6", "mod_tp_src:80,2,mod_tp_dst:443,3"),
    Row("a_port_of_udp_over_ipv6", UDP_6, "udp6", "set_field:80->udp_dst,2"),
    Row("a_checksum_of_udp_over_ipv6_that_becomes_0", UDP_6, "udp6", f"set_field:{ZERO_UDP_6}->udp_src,2"),
    Row("an_address_beside_a_checksum_of_udp_of_0", over_ipv6(UDP, payload=udp(len(DATA)) + DATA), "udp6",
        f"set_field:{SERVER_6}->ipv6_dst,2", differs="a checksum of 0 stays 0 over IPv6 too"),
    Row("addresses_and_ports_after_options", over_ipv6(TCP, (HOP_BY_HOP, options), (DESTINATION_OPTIONS, options)), "tcp6",
        f"set_field:{SERVER_6}->ipv6_dst,set_field:80->tcp_dst,2"),
    Row("a_port_after_authentication", over_ipv6(UDP, (AUTHENTICATION, authentication)), "udp6", "set_field:80->udp_src,2"),
    Row("a_destination_after_a_routing_header", TO_HOME, "udp6",
        f"set_field:{SERVER_6}->ipv6_dst,2"),
    Row("a_destination_at_the_end_of_a_route", over_ipv6(UDP, (ROUTING, routing_at_its_end)), "udp6",
        f"set_field:{SERVER_6}->ipv6_dst,2", differs="the checksum of the transport is updated without segments left"),
    Row("a_source_after_a_routing_header", TO_HOME, "udp6",
        f"set_field:{SERVER_6}->ipv6_src,2", differs=FAULTY + "the checksum of the transport isn't updated"),
)

ARP_ROWS = (
    Row("all_addresses_of_arp", REQUEST, "arp",
        "set_field:10.0.0.9->arp_spa,set_field:10.0.0.8->arp_tpa,"
        "set_field:02:00:00:00:00:98->arp_sha,set_field:02:00:00:00:00:99->arp_tha,2"),
    Row("an_answer", REQUEST, "arp",
        "move:NXM_OF_ETH_SRC[]->NXM_OF_ETH_DST[],mod_dl_src:02:00:00:00:00:99,move:NXM_OF_ARP_TPA[]->NXM_NX_REG0[],"
        "move:NXM_NX_ARP_SHA[]->NXM_NX_ARP_THA[],move:NXM_OF_ARP_SPA[]->NXM_OF_ARP_TPA[],"
        "load:0x020000000099->NXM_NX_ARP_SHA[],move:NXM_NX_REG0[]->NXM_OF_ARP_SPA[],in_port"),
)

TAGGED = over_ipv4(TCP, tags=tag(0x6007))
PLAIN_TAGGED = ethernet(EXPERIMENT, bytes(42), tag(0x6007))

TWO_TAGS = tag(0x6064, SERVICE_TAG) + tag(0x2007)
TAGGED_TWICE = over_ipv4(TCP, tags=TWO_TAGS)

TAG_ROWS = (
    Row("a_tag_for_a_frame_without", PLAIN, "", "mod_vlan_vid:5,2"),
    Row("a_priority_for_a_frame_without_a_tag", TCP_4, "tcp", "mod_vlan_pcp:3,2"),
    Row("a_vlan_keeps_its_priority", PLAIN_TAGGED, "", "mod_vlan_vid:5,2"),
    Row("a_priority_keeps_its_vlan", TAGGED, "tcp", "mod_vlan_pcp:1,2"),
    Row("a_tag_pushed", TCP_4, "vlan_tci=0,tcp", "push_vlan:0x8100,set_field:0x1005->vlan_vid,2"),
    Row("a_tag_popped", TAGGED, "tcp", "strip_vlan,2"),
    Row("a_service_tag_popped", over_ipv6(UDP, tags=tag(0x6007, SERVICE_TAG)), "udp6", "strip_vlan,2"),
    Row("a_pop_without_a_tag", UDP_4, "udp", "strip_vlan,2"),
    Row("a_tag_exchanged", TAGGED, "dl_vlan=7,tcp", "pop_vlan,push_vlan:0x8100,set_field:0x1009->vlan_vid,2"),
    Row("drop_eligibility_of_a_vlan_that_changes", ethernet(EXPERIMENT, bytes(42), tag(0x3064)), "", "mod_vlan_vid:5,2"),
    Row("an_address_after_a_tag", over_ipv6(TCP, tags=tag(0x6007)), "tcp6", f"set_field:{SERVER_6}->ipv6_dst,2"),
    Row("a_tag_and_an_address", UDP_4, "udp", "mod_vlan_vid:5,mod_nw_dst:10.0.0.9,2,strip_vlan,3"),
    Row("a_tag_cleared_by_a_load", PLAIN_TAGGED, "", "load:0->NXM_OF_VLAN_TCI[],2"),
    Row("a_vlan_as_a_port", PLAIN_TAGGED[:14] + word(0x6003) + PLAIN_TAGGED[16:], "dl_vlan=3",
        "move:NXM_OF_VLAN_TCI[0..11]->NXM_NX_REG0[0..11],strip_vlan,output:NXM_NX_REG0[0..15]"),
    Row("a_service_tag_rewritten", ethernet(EXPERIMENT, bytes(42), tag(0x6007, SERVICE_TAG)), "", "mod_vlan_vid:5,2"),
    Row("a_tag_on_a_tag", PLAIN_TAGGED, "dl_vlan=7", "push_vlan:0x8100,2"),
    Row("a_service_tag_on_a_tag", TAGGED, "dl_vlan=7,tcp", "push_vlan:0x88a8,set_field:0x1064->vlan_vid,2"),
    Row("a_service_tag_with_the_priority_of_the_tag_inside", TAGGED, "dl_vlan=7,tcp",
        "move:NXM_OF_VLAN_TCI[13..15]->NXM_NX_REG0[0..2],push_vlan:0x88a8,mod_vlan_vid:100,move:NXM_NX_REG0[0..2]->NXM_OF_VLAN_TCI[13..15],2"),
    Row("the_outer_of_two_tags_popped", TAGGED_TWICE, "dl_vlan=100,tcp", "strip_vlan,2"),
    Row("two_tags_popped", TAGGED_TWICE, "tcp", "strip_vlan,2,strip_vlan,3"),
    Row("the_outer_of_two_tags_rewritten", TAGGED_TWICE, "tcp", "mod_vlan_vid:5,mod_vlan_pcp:1,2"),
    Row("the_inner_of_two_tags_rewritten", TAGGED_TWICE, "dl_vlan=100,tcp",
        "pop_vlan,load:5->NXM_OF_VLAN_TCI[0..11],push_vlan:0x88a8,set_field:0x1064->vlan_vid,2"),
    Row("two_tags_pushed", TCP_4, "vlan_tci=0,tcp",
        "push_vlan:0x8100,set_field:0x1007->vlan_vid,push_vlan:0x88a8,set_field:0x1064->vlan_vid,2"),
    Row("an_address_after_two_tags", TAGGED_TWICE, "tcp", "mod_nw_dst:10.0.0.9,2"),
    Row("a_tag_on_two_tags", TAGGED_TWICE, "tcp", "push_vlan:0x8100,2", differs="a third tag is pushed, and the innermost is lost"),
    Row("the_outer_of_two_tags_cleared_by_a_load", TAGGED_TWICE, "tcp", "load:0->NXM_OF_VLAN_TCI[],2", differs="both tags go"),
)

FRAGMENT_ROWS = (
    Row("a_source_of_a_first_fragment", FIRST_4, "udp", "mod_nw_src:10.0.0.9,2"),
    Row("a_port_of_a_first_fragment", FIRST_4, "udp", "mod_tp_dst:80,2", differs="ports of first fragments are written"),
    Row("a_port_of_a_first_fragment_read", over_ipv4(UDP, word(3) + MESSAGES_4[UDP][2:], flags=1), "udp",
        "move:NXM_OF_UDP_SRC[]->NXM_NX_REG0[0..15],output:NXM_NX_REG0[0..15]", differs="the real port is read"),
    Row("an_address_of_a_first_fragment_with_16_bytes", over_ipv4(TCP, MESSAGES_4[TCP][:16], flags=1), "ip",
        "mod_nw_dst:10.0.0.9,2"),
    Row("a_later_fragment", LATER_4, "ip", "mod_nw_tos:184,dec_ttl,2"),
    Row("a_source_of_a_later_fragment", LATER_4, "udp", "mod_nw_src:10.0.0.9,2",
        differs=FAULTY + "two bytes of the payload are taken for a checksum"),
    Row("a_hop_limit_of_a_fragment", over_ipv6(UDP, (FRAGMENT, lambda it: fragment(it, more=1))), "ipv6", "dec_ttl,2"),
    Row("a_destination_behind_a_fragment_header", WHOLE_6, "udp6", f"set_field:{SERVER_6}->ipv6_dst,2",
        differs=FAULTY + "the checksum of the transport isn't updated"),
    Row("a_port_behind_a_fragment_header", WHOLE_6, "udp6", "set_field:80->udp_dst,2"),
)

TABLE_ROWS = (
    Row("a_write_between_outputs", TCP_4, "tcp", "2,mod_nw_dst:10.0.0.9,3,mod_nw_dst:10.0.0.8,2"),
    Row("a_write_and_back", TCP_4, "tcp", "mod_nw_src:10.0.0.9,mod_nw_src:192.0.2.17,2"),
    Row("a_write_after_the_output", TCP_4, "tcp", "2,mod_nw_dst:10.0.0.9"),
    Row("writes_of_inner_tables_stay", TCP_4, "tcp", "resubmit(,31),resubmit(,32),2",
        ("table=31,tcp,actions=mod_nw_dst:10.0.0.9,load:5->NXM_NX_REG0[]",
         "table=32,reg0=5,tcp,nw_dst=10.0.0.9,actions=mod_tp_dst:80,3")),
    Row("a_table_reached_by_goto", UDP_6, "udp6", "set_field:80->udp_dst,goto_table:33",
        ("table=33,udp6,tp_dst=80,actions=set_field:81->udp_src,2",)),
    Row("a_register_as_a_port", ICMP_4, "icmp", "load:3->NXM_NX_REG1[4..19],mod_nw_ttl:9,output:NXM_NX_REG1[4..19]"),
    Row("a_register_with_the_number_of_flood", ICMP_4, "icmp", "load:0xfffb->NXM_NX_REG0[],output:NXM_NX_REG0[0..15]",
        differs="reserved numbers of ports do what they stand for"),
    Row("to_all", TCP_6, "tcp6", "dec_ttl,all,in_port"),
    Row("metadata_tells_tables_apart", UDP_4, "udp", "set_field:7/0xf->metadata,resubmit(,34)",
        ("table=34,metadata=7,udp,actions=mod_nw_tos:8,2", "table=34,priority=1,actions=3")),
)

ROWS = (*ETHERNET_ROWS, *IPV4_ROWS, *IPV6_ROWS, *ARP_ROWS, *TAG_ROWS, *FRAGMENT_ROWS, *TABLE_ROWS)
