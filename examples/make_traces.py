#!/usr/bin/env python3
"""Makes the traces of the examples.

    python3 make_traces.py [FOLDER]

writes FOLDER/EXAMPLE/NAME.pcap for each example, and takes the folder of this script where none is given. The same
bytes come at each run: nothing is random, and no clock is read. The traces in the repository were made so.

A trace is a classic capture file (pcap-savefile(5)) of Ethernet: little-endian and in microseconds, but for one that is
big-endian and in nanoseconds. Its frames are real: padded to the 60 bytes that Ethernet asks for (IEEE 802.3, 3.2.7),
with right lengths and checksums. The stations have addresses that are set aside for documentation (RFC 5737 and 3849)
and MAC addresses that anyone may give (IEEE 802, 8.4).
"""
import ipaddress
import os
import struct
import sys

ETHERTYPE_IPV4 = 0x0800
ETHERTYPE_ARP = 0x0806
ETHERTYPE_IPV6 = 0x86DD
CUSTOMER_TAG = 0x8100
SERVICE_TAG = 0x88A8
ETHERTYPES = {4: ETHERTYPE_IPV4, 6: ETHERTYPE_IPV6}
PROTOCOL_ICMP = 1
PROTOCOL_TCP = 6
PROTOCOL_UDP = 17
PROTOCOL_ICMPV6 = 58

ECHO_REPLY = 0
ECHO_REQUEST = 8
NEIGHBOR_SOLICITATION = 135

BROADCAST = "ff:ff:ff:ff:ff:ff"
NO_MAC = "00:00:00:00:00:00"
BRIDGE_GROUP = "01:80:c2:00:00:00"

# Frames have at least 60 bytes, without the check sequence.
SHORTEST_FRAME = 60

# ---- numbers in bytes


def mac(text):
    return bytes(int(octet, 16) for octet in text.split(":"))


def address(text):
    return ipaddress.ip_address(text).packed


def checksum(data):
    """The checksum of the internet (RFC 1071)."""
    if len(data) % 2:
        data += b"\0"
    total = sum(struct.unpack(f"!{len(data) // 2}H", data))
    while total >> 16:
        total = (total & 0xFFFF) + (total >> 16)
    return ~total & 0xFFFF


# ---- frames


def ethernet(target, source, ethertype, payload):
    """A frame of Ethernet (IEEE 802.3, 3.1.1), padded."""
    frame = mac(target) + mac(source) + struct.pack("!H", ethertype) + payload
    return frame.ljust(SHORTEST_FRAME, b"\0")


def tagged(frame, vlan, priority=0, tag_type=CUSTOMER_TAG):
    """A frame with a tag (IEEE 802.1Q, 9.3), outside of those that it has."""
    return frame[:12] + struct.pack("!HH", tag_type, priority << 13 | vlan) + frame[12:]


def arp(operation, sender_mac, sender, target_mac, target):
    """A message of ARP for IPv4 over Ethernet (RFC 826)."""
    header = struct.pack("!HHBBH", 1, ETHERTYPE_IPV4, 6, 4, operation)
    return header + mac(sender_mac) + address(sender) + mac(target_mac) + address(target)


def ipv4(source, target, protocol, payload, identification, ttl=64, fragment=0x4000):
    """A packet of IPv4 without options (RFC 791), which isn't to be fragmented unless it says that it is a fragment."""
    start = struct.pack("!BBHHHBB", 0x45, 0, 20 + len(payload), identification, fragment, ttl, protocol)
    ends = address(source) + address(target)
    return start + struct.pack("!H", checksum(start + b"\0\0" + ends)) + ends + payload


def ipv6(source, target, following, payload, hops=64):
    """A packet of IPv6 without extension headers (RFC 8200)."""
    start = struct.pack("!IHBB", 0x60000000, len(payload), following, hops)
    return start + address(source) + address(target) + payload


def packet(source, target, protocol, payload, identification, **rest):
    """A packet of the version that its addresses have."""
    if ipaddress.ip_address(source).version == 6:
        return ipv6(source, target, protocol, payload)
    return ipv4(source, target, protocol, payload, identification, **rest)


def pseudo_header(source, target, protocol, length):
    """What stands for the addresses in checksums of the transport (RFC 9293, 3.1; RFC 8200, 8.1)."""
    ends = address(source) + address(target)
    return ends + (struct.pack("!BBH", 0, protocol, length) if len(ends) == 8 else struct.pack("!II", length, protocol))


def icmp_echo(kind, identifier, sequence):
    """An echo request or reply of ICMP (RFC 792) with the 56 bytes of data that ping sends."""
    rest = struct.pack("!HH", identifier, sequence) + bytes(range(56))
    return struct.pack("!BBH", kind, 0, checksum(bytes([kind, 0, 0, 0]) + rest)) + rest


def tcp_syn(source, target, source_port, target_port, sequence, time):
    """The segment of TCP that opens a connection (RFC 9293), with the options that Linux sends."""
    maximum_segment_size = struct.pack("!BBH", 2, 4, 1460)
    sack_permitted = b"\x04\x02"
    timestamps = struct.pack("!BBII", 8, 10, time, 0)
    window_scale = b"\x01\x03\x03\x07"
    options = maximum_segment_size + sack_permitted + timestamps + window_scale
    length = 20 + len(options)
    start = struct.pack("!HHIIBBH", source_port, target_port, sequence, 0, length // 4 << 4, 0x02, 64240)
    ends = pseudo_header(source, target, PROTOCOL_TCP, length)
    return start + struct.pack("!HH", checksum(ends + start + b"\0\0\0\0" + options), 0) + options


def udp(source, target, source_port, target_port, data):
    """A datagram of UDP (RFC 768)."""
    start = struct.pack("!HHH", source_port, target_port, 8 + len(data))
    ends = pseudo_header(source, target, PROTOCOL_UDP, 8 + len(data))
    return start + struct.pack("!H", checksum(ends + start + b"\0\0" + data) or 0xFFFF) + data


def dns_query(identifier, name):
    """A question for the address of a name (RFC 1035, 4.1)."""
    labels = b"".join(struct.pack("!B", len(label)) + label.encode() for label in name.split("."))
    return struct.pack("!HHHHHH", identifier, 0x0100, 1, 0, 0, 0) + labels + struct.pack("!BHH", 0, 1, 1)


def neighbor_solicitation(source_mac, source, target):
    """A frame that asks for the MAC address of an IPv6 address (RFC 4861, 4.3), sent to its group (RFC 2464, 7)."""
    group = ipaddress.ip_address(address("ff02::1:ff00:0")[:13] + address(target)[13:]).compressed
    start = struct.pack("!BBH", NEIGHBOR_SOLICITATION, 0, 0)
    rest = bytes(4) + address(target) + b"\x01\x01" + mac(source_mac)
    ends = pseudo_header(source, group, PROTOCOL_ICMPV6, len(start + rest))
    message = start[:2] + struct.pack("!H", checksum(ends + start + rest)) + rest
    group_mac = "33:33:" + ":".join(f"{octet:02x}" for octet in address(group)[12:])
    return ethernet(group_mac, source_mac, ETHERTYPE_IPV6, ipv6(source, group, PROTOCOL_ICMPV6, message, hops=255))


def spanning_tree(source, bridge_priority):
    """A frame of the spanning tree protocol (IEEE 802.1D, 9.3.1), by which bridges tell each other that they are there."""
    bridge = struct.pack("!H", bridge_priority) + mac(source)
    # Protocol, version, type and flags; the root, its cost, the bridge and its port; ages and times in 256ths of a second.
    message = struct.pack("!HBBB", 0, 0, 0, 0) + bridge + struct.pack("!I", 0) + bridge
    message += struct.pack("!HHHHH", 0x8001, 0, 20 * 256, 2 * 256, 15 * 256)
    link = b"\x42\x42\x03" + message
    return ethernet(BRIDGE_GROUP, source, len(link), link)


# ---- traces


def packed_trace(order, magic, second, frames):
    file = struct.pack(order + "IHHIIII", magic, 2, 4, 0, 0, 262144, 1)
    for time, frame in frames:
        file += struct.pack(order + "IIII", time // second, time % second, len(frame), len(frame)) + frame
    return file


def trace(frames):
    """A capture file of frames, each with its time in microseconds."""
    return packed_trace("<", 0xA1B2C3D4, 1000000, frames)


def big_endian_trace(frames):
    """A capture file of frames, each with its time in nanoseconds."""
    return packed_trace(">", 0xA1B23C4D, 1000000000, frames)


# ---- the stations

GATEWAY = ("02:00:00:00:00:01", "192.0.2.1")
FILE_SERVER = ("02:00:00:00:00:02", "192.0.2.2")
PRINTER = ("02:00:00:00:00:03", "192.0.2.3")
DESK = ("02:00:00:00:00:0a", "192.0.2.10")
OTHER_DESK = ("02:00:00:00:00:0b", "192.0.2.11")
STRANGER = ("02:00:00:00:00:7f", "192.0.2.127")
DESK_SWITCH = "02:00:00:00:00:f0"
WEB_SITE = "198.51.100.7"

# 2024-01-15 09:00:00 UTC, in microseconds
MORNING = 1705309200 * 1000000


def ping(source, target, identification, sequence, kind=ECHO_REQUEST):
    packet = ipv4(source[1], target[1], PROTOCOL_ICMP, icmp_echo(kind, 7, sequence), identification)
    return ethernet(target[0], source[0], ETHERTYPE_IPV4, packet)


def connect(source, via, target, ports, identification, sequence, time):
    """A segment that opens a connection to an address, sent to the station that it goes by."""
    segment = tcp_syn(source[1], target, ports[0], ports[1], sequence, time)
    return routed(source[1], via[0], source[0], target, PROTOCOL_TCP, segment, identification)


def routed(source, via_mac, source_mac, target, protocol, payload, identification, **rest):
    """A packet between two addresses, sent from the one station to the other that it goes by."""
    ethertype = ETHERTYPES[ipaddress.ip_address(source).version]
    return ethernet(via_mac, source_mac, ethertype, packet(source, target, protocol, payload, identification, **rest))


# ---- first-switch


def office():
    """What comes from the desks. The last two frames were taken up in the other order than they came."""
    ask = arp(1, *DESK, NO_MAC, GATEWAY[1])
    answer = arp(2, *DESK, *FILE_SERVER)
    return trace(
        (MORNING + after, frame)
        for after, frame in [
            (0, ethernet(BROADCAST, DESK[0], ETHERTYPE_ARP, ask)),
            (350, ping(DESK, GATEWAY, 0x1001, 1)),
            (20000, ethernet(FILE_SERVER[0], DESK[0], ETHERTYPE_ARP, answer)),
            (100000, connect(DESK, FILE_SERVER, FILE_SERVER[1], (40000, 445), 0x1002, 0x11223344, 5000)),
            (250000, connect(OTHER_DESK, PRINTER, PRINTER[1], (40001, 9100), 0x2001, 0x55667788, 9000)),
            (300000, ping(DESK, OTHER_DESK, 0x1003, 1)),
            (1000000, spanning_tree(DESK_SWITCH, 0x8000)),
            (1200001, ping(OTHER_DESK, STRANGER, 0x2002, 1)),
            (2000300, ping(OTHER_DESK, GATEWAY, 0x2003, 2)),
            (2000100, connect(DESK, GATEWAY, WEB_SITE, (40002, 443), 0x1004, 0x99AABBCC, 6900)),
        ]
    )


# ---- rule-change


def pings():
    """What comes from a desk, which pings the file server each second."""
    return trace(
        (MORNING + number * 1000000, ping(DESK, FILE_SERVER, 0x1000 + number, number)) for number in [1, 2]
    )


def old_place():
    """What comes from where the file server was: a reply, and after the move an announcement (RFC 5227, 3)."""
    announcement = arp(1, *FILE_SERVER, NO_MAC, FILE_SERVER[1])
    return trace(
        [
            (MORNING + 1000310, ping(FILE_SERVER, DESK, 0x3001, 1, ECHO_REPLY)),
            (MORNING + 2150000, ethernet(BROADCAST, FILE_SERVER[0], ETHERTYPE_ARP, announcement)),
        ]
    )


# ---- two-captures


def replies():
    """What comes from the file server: its replies to the pings of the desk, within a microsecond."""
    return big_endian_trace(
        ((MORNING + number * 1000000) * 1000 + after, ping(FILE_SERVER, DESK, 0x3000 + number, number, ECHO_REPLY))
        for number, after in [(1, 412), (2, 398)]
    )


# ---- access-list

SITE = ("02:00:00:00:00:50", "192.0.2.80")
SITE_ADDRESS_6 = "2001:db8:1::80"
DESK_ADDRESS_6 = "2001:db8:1::a"
ROUTER, ROUTER_ADDRESS_6 = "02:00:00:00:00:01", "2001:db8:1::1"
RESOLVER = "198.51.100.53"


def knock(source, target, port, number):
    """A segment from outside that opens a connection to the site, by the router."""
    segment = tcp_syn(source, target, 50000 + number, port, 0x10000000 + number, number)
    return routed(source, SITE[0], ROUTER, target, PROTOCOL_TCP, segment, 0x5000 + number)


def outside():
    """What comes from the router: who wants to the web site, and who would like more."""
    knocks = [
        (100000, "198.51.100.7", SITE[1], 443),
        (200000, "198.51.100.7", SITE[1], 22),
        (300000, "192.0.2.10", SITE[1], 443),
        (400000, "203.0.113.5", SITE[1], 443),
        (500000, "203.0.113.7", SITE[1], 443),
        (600000, "2001:db8:7::7", SITE_ADDRESS_6, 443),
        (700000, "2001:db8:bad:1::1", SITE_ADDRESS_6, 443),
        (800000, "2001:db8:7::7", SITE_ADDRESS_6, 22),
        (5100000, "198.51.100.7", SITE[1], 443),
        (5200000, "203.0.113.7", SITE[1], 443),
        (5300000, "2001:db8:7::7", SITE_ADDRESS_6, 443),
    ]
    asked = [
        (0, ethernet(BROADCAST, ROUTER, ETHERTYPE_ARP, arp(1, ROUTER, GATEWAY[1], NO_MAC, SITE[1]))),
        (1000, neighbor_solicitation(ROUTER, ROUTER_ADDRESS_6, SITE_ADDRESS_6)),
    ]
    frames = [(after, knock(*who, number)) for number, (after, *who) in enumerate(knocks)]
    return trace((MORNING + after, frame) for after, frame in [*asked, *frames])


def inside():
    """What comes from the office: its questions, and one packet with an address of somebody else."""
    query = dns_query(0x2A2A, "www.example.com")
    question = udp(DESK[1], RESOLVER, 40053, 53, query)
    forged = udp("203.0.113.99", RESOLVER, 40053, 53, query)
    segment = tcp_syn(DESK_ADDRESS_6, "2001:db8:7::7", 40006, 443, 0x66666666, 6)
    return trace(
        (MORNING + after, frame)
        for after, frame in [
            (50000, routed(DESK[1], ROUTER, DESK[0], RESOLVER, PROTOCOL_UDP, question, 0x6001)),
            (60000, routed("203.0.113.99", ROUTER, DESK[0], RESOLVER, PROTOCOL_UDP, forged, 0x6002)),
            (70000, neighbor_solicitation(DESK[0], DESK_ADDRESS_6, ROUTER_ADDRESS_6)),
            (80000, routed(DESK_ADDRESS_6, ROUTER, DESK[0], "2001:db8:7::7", PROTOCOL_TCP, segment, 0)),
        ]
    )


# ---- flood-bridge

LLDP_GROUP = "01:80:c2:00:00:0e"
ETHERTYPE_LLDP = 0x88CC


def hello(source):
    """A frame of the link layer discovery protocol (IEEE 802.1AB, 8.2): chassis, port and time to live."""
    chassis = struct.pack("!HB", 1 << 9 | 7, 4) + mac(source)
    port = struct.pack("!HB", 2 << 9 | 7, 3) + mac(source)
    return ethernet(LLDP_GROUP, source, ETHERTYPE_LLDP, chassis + port + struct.pack("!HHH", 3 << 9 | 2, 120, 0))


def room_a():
    """What comes from the first room: a desk asks for the printer, and prints; it tries an address that nobody has."""
    ask = arp(1, *DESK, NO_MAC, PRINTER[1])
    return trace(
        (MORNING + after, frame)
        for after, frame in [
            (0, ethernet(BROADCAST, DESK[0], ETHERTYPE_ARP, ask)),
            (100000, connect(DESK, PRINTER, PRINTER[1], (40000, 9100), 0x1002, 0x11223344, 5000)),
            (200000, ping(DESK, STRANGER, 0x1003, 1)),
            (300000, hello(DESK_SWITCH)),
            (400000, neighbor_solicitation(DESK[0], DESK_ADDRESS_6, ROUTER_ADDRESS_6)),
            (10100000, connect(DESK, PRINTER, PRINTER[1], (40001, 9100), 0x1004, 0x11223355, 5100)),
        ]
    )


def access_point():
    """What comes from the access point: two stations behind it talk to each other, and one to the printer."""
    old_printer = ("02:00:00:00:00:33", PRINTER[1])
    return trace(
        (MORNING + after, frame)
        for after, frame in [
            (150000, ping(OTHER_DESK, STRANGER, 0x2001, 1)),
            (160000, ping(STRANGER, OTHER_DESK, 0x2002, 1, ECHO_REPLY)),
            (170000, connect(OTHER_DESK, old_printer, PRINTER[1], (40002, 9100), 0x2003, 0x22334455, 5200)),
            (10200000, connect(OTHER_DESK, PRINTER, PRINTER[1], (40003, 9100), 0x2004, 0x22334466, 5300)),
            (10300000, connect(OTHER_DESK, old_printer, PRINTER[1], (40004, 9100), 0x2005, 0x22334477, 5400)),
        ]
    )


# ---- router

# The router has an address of its own on each side.
LAN_SIDE, SERVER_SIDE = ("02:00:00:00:01:01", "192.0.2.1"), ("02:00:00:00:02:01", "198.51.100.1")
WEB_SERVER, MAIL_SERVER = ("02:00:00:00:02:07", "198.51.100.7"), ("02:00:00:00:02:08", "198.51.100.8")
WEB_SERVER_ADDRESS_6 = "2001:db8:2::7"

# In the second half of IPv4's header: that more fragments follow.
MORE_FRAGMENTS = 0x2000


def from_the_lan():
    """What comes from the desks: to servers, to an address outside, and a packet at the end of its time."""
    ask = arp(1, *DESK, NO_MAC, LAN_SIDE[1])
    probe = udp(DESK[1], WEB_SERVER[1], 40033, 33434, b"traceroute")
    segment = tcp_syn(DESK_ADDRESS_6, WEB_SERVER_ADDRESS_6, 40005, 443, 0x55555555, 5)
    return trace(
        (MORNING + after, frame)
        for after, frame in [
            (0, ethernet(BROADCAST, DESK[0], ETHERTYPE_ARP, ask)),
            (100000, connect(DESK, LAN_SIDE, WEB_SERVER[1], (40000, 443), 0x1001, 0x11111111, 1)),
            (200000, routed(DESK[1], LAN_SIDE[0], DESK[0], WEB_SERVER[1], PROTOCOL_UDP, probe, 0x1002, ttl=1)),
            (300000, connect(DESK, LAN_SIDE, "203.0.113.80", (40001, 443), 0x1003, 0x22222222, 3)),
            (400000, routed(DESK_ADDRESS_6, LAN_SIDE[0], DESK[0], WEB_SERVER_ADDRESS_6, PROTOCOL_TCP, segment, 0)),
            (500000, ping(DESK, OTHER_DESK, 0x1004, 1)),
            (5100000, connect(DESK, LAN_SIDE, WEB_SERVER[1], (40002, 443), 0x1005, 0x33333333, 51)),
        ]
    )


def fragments(source, via, target, protocol, payload, identification, most=80):
    """The packets that a message is sent in, with so many bytes of it in each."""
    for begin in range(0, len(payload), most):
        more = MORE_FRAGMENTS if begin + most < len(payload) else 0
        part = payload[begin : begin + most]
        yield routed(source[1], via[0], source[0], target, protocol, part, identification, fragment=more | begin // 8)


def from_the_servers():
    """What comes from the servers: one asks who the router is, and sends a datagram in two fragments."""
    ask = arp(1, *MAIL_SERVER, NO_MAC, SERVER_SIDE[1])
    datagram = udp(MAIL_SERVER[1], DESK[1], 40008, 40009, bytes(range(100)))
    first, last = fragments(MAIL_SERVER, SERVER_SIDE, DESK[1], PROTOCOL_UDP, datagram, 0x8001)
    reply = icmp_echo(ECHO_REPLY, 7, 1)
    answer = routed(WEB_SERVER[1], SERVER_SIDE[0], WEB_SERVER[0], DESK[1], PROTOCOL_ICMP, reply, 0x7001)
    return trace(
        [
            (MORNING + 50000, ethernet(BROADCAST, MAIL_SERVER[0], ETHERTYPE_ARP, ask)),
            (MORNING + 150000, answer),
            (MORNING + 600000, first),
            (MORNING + 600010, last),
        ]
    )


# ---- vlan-access

PHONE = ("02:00:00:00:00:14", "192.0.2.130")
CALL_SERVER = ("02:00:00:00:00:c0", "192.0.2.129")
DATA_VLAN, VOICE_VLAN, OTHER_VLAN = 10, 20, 99
VOICE_PRIORITY = 5


def voice(source, target, identification):
    """A frame of a call, with 20 ms of sound (RFC 3550 and 3551)."""
    sound = struct.pack("!BBHII", 0x80, 0, identification, 160 * identification, 1) + b"\xff" * 160
    datagram = udp(source[1], target[1], 16384, 16384, sound)
    frame = routed(source[1], target[0], source[0], target[1], PROTOCOL_UDP, datagram, identification)
    return tagged(frame, VOICE_VLAN, VOICE_PRIORITY)


def from_a_desk():
    """What comes from a desk, which knows of no VLAN, and once sends a tag of its own."""
    ask = arp(1, *DESK, NO_MAC, GATEWAY[1])
    return trace(
        (MORNING + after, frame)
        for after, frame in [
            (0, ethernet(BROADCAST, DESK[0], ETHERTYPE_ARP, ask)),
            (100000, connect(DESK, GATEWAY, WEB_SITE, (40000, 443), 0x1001, 0x11111111, 1)),
            (200000, ping(DESK, OTHER_DESK, 0x1002, 1)),
            (300000, tagged(ping(DESK, CALL_SERVER, 0x1003, 1), VOICE_VLAN)),
            (5100000, ping(DESK, OTHER_DESK, 0x1004, 2)),
        ]
    )


def from_a_phone():
    """What comes from a phone, and without a tag from the computer that is plugged into it."""
    return trace(
        [
            (MORNING + 20000, voice(PHONE, CALL_SERVER, 1)),
            (MORNING + 120000, connect(STRANGER, GATEWAY, WEB_SITE, (40001, 443), 0x7001, 0x22222222, 2)),
        ]
    )


def from_the_trunk():
    """What comes from the next switch, all of it tagged."""
    answer = ethernet(DESK[0], GATEWAY[0], ETHERTYPE_ARP, arp(2, *GATEWAY, *DESK))
    return trace(
        [
            (MORNING + 10000, tagged(answer, DATA_VLAN)),
            (MORNING + 30000, voice(CALL_SERVER, PHONE, 2)),
            (MORNING + 40000, tagged(ping(GATEWAY, DESK, 0x3001, 1), OTHER_VLAN)),
        ]
    )


# ---- provider-bridge

FIRST_SERVICE, SECOND_SERVICE, OTHER_SERVICE = 100, 200, 300


def from_a_customer():
    """What comes from a customer's site: with tags of its own, without, and with two."""
    question = arp(1, *DESK, NO_MAC, OTHER_DESK[1])
    return trace(
        (MORNING + after, frame)
        for after, frame in [
            (0, tagged(ping(DESK, OTHER_DESK, 0x1001, 1), DATA_VLAN)),
            (100000, voice(PHONE, CALL_SERVER, 1)),
            (200000, ethernet(BROADCAST, DESK[0], ETHERTYPE_ARP, question)),
            (300000, tagged(tagged(ping(DESK, OTHER_DESK, 0x1002, 2), DATA_VLAN), OTHER_VLAN)),
        ]
    )


def from_another_customer():
    """What comes from another customer, whose VLANs and addresses are the same by chance."""
    return trace([(MORNING + 50000, tagged(ping(DESK, OTHER_DESK, 0x2001, 1), DATA_VLAN))])


def from_the_provider():
    """What comes from the provider's network, all of it with a service tag."""
    answer = ping(OTHER_DESK, DESK, 0x3001, 1, ECHO_REPLY)
    return trace(
        [
            (MORNING + 10000, tagged(tagged(answer, DATA_VLAN), FIRST_SERVICE, tag_type=SERVICE_TAG)),
            (MORNING + 60000, tagged(tagged(answer, DATA_VLAN), SECOND_SERVICE, tag_type=SERVICE_TAG)),
            (MORNING + 110000, tagged(voice(CALL_SERVER, PHONE, 2), FIRST_SERVICE, VOICE_PRIORITY, SERVICE_TAG)),
            (MORNING + 400000, tagged(answer, OTHER_SERVICE, tag_type=SERVICE_TAG)),
        ]
    )


# ---- cache-sweeps

OTHER_SITE, MAIL_SITE = "203.0.113.80", "198.51.100.9"


def open_again(source, target, ports, times):
    """A segment that opens a connection, and the same one each time that no answer came, by the gateway."""
    for again, after in enumerate(times):
        yield after, connect(source, GATEWAY, target, ports, 0x4000 + ports[0] + again, ports[0], after // 1000)


def busy_desks():
    """What comes from two desks: to the file server, to web sites, and to mail servers."""
    ask = arp(1, *DESK, NO_MAC, GATEWAY[1])
    to_files = [
        (after, connect(desk, FILE_SERVER, FILE_SERVER[1], (port, 445), 0x2000 + number, port, after // 1000))
        for number, (after, desk, port) in enumerate(
            [(100000, DESK, 40000), (8000000, OTHER_DESK, 40001), (9000000, OTHER_DESK, 40001), (12000000, OTHER_DESK, 40001)]
        )
    ]
    frames = [
        (0, ethernet(BROADCAST, DESK[0], ETHERTYPE_ARP, ask)),
        *to_files,
        *open_again(DESK, WEB_SITE, (40002, 443), [200000]),
        *open_again(DESK, OTHER_SITE, (40003, 443), [300000]),
        (10000000, routed(DESK[1], GATEWAY[0], DESK[0], WEB_SITE, PROTOCOL_ICMP, icmp_echo(ECHO_REQUEST, 7, 1), 0x3000)),
        *open_again(OTHER_DESK, OTHER_SITE, (40004, 443), [11000000]),
        *open_again(DESK, WEB_SITE, (40005, 443), [12500000]),
        *open_again(DESK, WEB_SITE, (40006, 25), [13000000, 16000000, 18000000]),
        *open_again(DESK, OTHER_SITE, (40007, 25), [14000000]),
        *open_again(OTHER_DESK, MAIL_SITE, (40008, 993), [17000000]),
    ]
    return trace((MORNING + after, frame) for after, frame in sorted(frames))


# ---- flow-limit


def scan():
    """What comes from two desks: one works with the file server, and one tries which ports it has open."""

    def to_server(desk, ports, number):
        return connect(desk, FILE_SERVER, FILE_SERVER[1], ports, 0x1000 + number, ports[0], number)

    tried = [21, 22, 23, 25, 80]
    frames = [
        (0, to_server(DESK, (40000, 445), 1)),
        *((100000 * turn, to_server(OTHER_DESK, (50000, port), 0x100 + port)) for turn, port in enumerate(tried, 1)),
        (700000, ping(DESK, FILE_SERVER, 0x2001, 1)),
        (800000, to_server(DESK, (40001, 445), 2)),
        (1700000, ping(DESK, FILE_SERVER, 0x2002, 2)),
        (11000000, to_server(DESK, (40002, 445), 3)),
        (12100000, ping(DESK, FILE_SERVER, 0x2003, 3)),
        (12200000, to_server(OTHER_DESK, (50000, 110), 0x200)),
    ]
    return trace((MORNING + after, frame) for after, frame in frames)


# ---- stale-settle, replaced-entry and four-workers


def some_pings(desk, count, gap=1000000):
    """What comes from a desk, which pings the file server so often: each second, if no other gap is given in microseconds."""
    return trace(
        (MORNING + number * gap, ping(desk, FILE_SERVER, 0x1000 + number, number)) for number in range(1, count + 1)
    )


# ---- swapped-rules


def pings_in_turn():
    """What comes from a desk, which pings the file server and the printer in turn, but the file server twice in the middle."""
    targets = [FILE_SERVER, PRINTER, FILE_SERVER, FILE_SERVER, PRINTER]
    return trace(
        (MORNING + number * 1000000, ping(DESK, target, 0x1000 + number, number)) for number, target in enumerate(targets, 1)
    )


TRACES = {
    "access-list/outside.pcap": outside,
    "access-list/inside.pcap": inside,
    "cache-sweeps/desks.pcap": busy_desks,
    "first-switch/desks.pcap": office,
    "flood-bridge/access-point.pcap": access_point,
    "flood-bridge/room-a.pcap": room_a,
    "flow-limit/desks.pcap": scan,
    "four-workers/desk.pcap": lambda: some_pings(DESK, 40, 200000),
    "four-workers/other-desk.pcap": lambda: some_pings(OTHER_DESK, 40, 200000),
    "provider-bridge/first-customer.pcap": from_a_customer,
    "provider-bridge/provider.pcap": from_the_provider,
    "provider-bridge/second-customer.pcap": from_another_customer,
    "replaced-entry/desk.pcap": lambda: some_pings(DESK, 5),
    "router/lan.pcap": from_the_lan,
    "router/servers.pcap": from_the_servers,
    "rule-change/desk.pcap": pings,
    "rule-change/rack-a.pcap": old_place,
    "stale-settle/desk.pcap": lambda: some_pings(DESK, 1),
    "stale-settle/other-desk.pcap": lambda: some_pings(OTHER_DESK, 2),
    "swapped-rules/desk.pcap": pings_in_turn,
    "two-captures/desk.pcap": pings,
    "two-captures/server.pcap": replies,
    "vlan-access/desks.pcap": from_a_desk,
    "vlan-access/phone.pcap": from_a_phone,
    "vlan-access/trunk.pcap": from_the_trunk,
}


def main(words):
    folder = words[0] if words else os.path.dirname(os.path.abspath(__file__))
    for name, made in TRACES.items():
        path = os.path.join(folder, name)
        os.makedirs(os.path.dirname(path), exist_ok=True)
        with open(path, "wb") as file:
            file.write(made())


if __name__ == "__main__":
    main(sys.argv[1:])
