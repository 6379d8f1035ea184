"""The headers of a frame, and its key: the numbers of its headers that flow text matches.

After IEEE 802.1Q, RFC 826 (ARP), 791 (IPv4), 8200 (IPv6), 9293 (TCP), 768 (UDP), 792 (ICMP) and 4443 (ICMPv6), in the
profile of docs/FORMATS.md: two tags, no ports of fragments, and nothing of a header that is malformed.
"""
from collections import namedtuple

from .flow_fields import (
    CUSTOMER_TAG, ETHERTYPE_ARP, ETHERTYPE_IPV4, ETHERTYPE_IPV6, PROTOCOL_ICMP, PROTOCOL_ICMPV6, PROTOCOL_TCP, PROTOCOL_UDP,
    SERVICE_TAG, TAG, TAG_FIELDS,
)

ETHERNET_HEADER = 14
# A tag stands in the place of the type, and has a type and a content of two bytes each; no third one is read.
TYPE_AT, TAG_SIZE, MOST_TAGS = 12, 4, 2
LEAST_TYPE = 0x0600
NO_TYPE = 0x05FF
SNAP = bytes.fromhex("aaaa03000000")

HOP_BY_HOP, ROUTING, FRAGMENT, AUTHENTICATION, DESTINATION_OPTIONS = 0, 43, 44, 51, 60
EXTENSIONS = (HOP_BY_HOP, ROUTING, FRAGMENT, AUTHENTICATION, DESTINATION_OPTIONS)
MOST_EXTENSIONS = 8

# The two bits of ip_frag.
IS_FRAGMENT, IS_LATER = 1, 2

# The bytes that a transport header needs, by the type of the packet and the protocol.
PORT_HEADERS = {PROTOCOL_TCP: 20, PROTOCOL_UDP: 8}
TRANSPORT_HEADERS = {
    **{(ETHERTYPE_IPV4, protocol): length for protocol, length in PORT_HEADERS.items()},
    **{(ETHERTYPE_IPV6, protocol): length for protocol, length in PORT_HEADERS.items()},
    (ETHERTYPE_IPV4, PROTOCOL_ICMP): 8,
    (ETHERTYPE_IPV6, PROTOCOL_ICMPV6): 4,
}

# The tags, the outer one first, as pairs of type and content; the type, and where what is behind it begins; the network
# header or None.
Headers = namedtuple("Headers", "tags dl_type begin network")
# A network header: its fields, the bytes behind it, how far on in the packet these begin, and whether a routing header
# was passed.
Network = namedtuple("Network", "fields rest rest_at routed")
# What IPv6 carries: its protocol, the bits of ip_frag, how far on in the packet it begins, and as above.
Upper = namedtuple("Upper", "protocol ip_frag at routed")


def number(data, begin, end):
    return int.from_bytes(data[begin:end], "big")


def key_of(port, frame):
    """The fields of a frame that came in at a port. Those that it doesn't name are 0."""
    key = {"in_port": port}
    if len(frame) < ETHERNET_HEADER:
        return key
    headers = headers_of(frame)
    key |= {"dl_dst": number(frame, 0, 6), "dl_src": number(frame, 6, 12), "dl_type": headers.dl_type}
    for (tpid_field, tci_field), (tpid, tci) in zip(TAG_FIELDS, headers.tags):
        key |= {tpid_field: tpid, tci_field: tci | TAG}
    return key | (headers.network.fields | shown_transport(headers) if headers.network else {})


def headers_of(frame):
    """The headers of a frame that has a whole Ethernet header."""
    at, tags = TYPE_AT, []
    while len(tags) < MOST_TAGS and has_tag(frame, at):
        tags.append((number(frame, at, at + 2), number(frame, at + 2, at + 4)))
        at += TAG_SIZE
    dl_type, begin = type_at(frame, at)
    read = {ETHERTYPE_ARP: read_arp, ETHERTYPE_IPV4: read_ipv4, ETHERTYPE_IPV6: read_ipv6}.get(dl_type)
    return Headers(tags, dl_type, begin, read(frame[begin:]) if read else None)


def has_tag(frame, at):
    """Whether a whole tag stands at a place, with a type behind it."""
    return number(frame, at, at + 2) in (CUSTOMER_TAG, SERVICE_TAG) and len(frame) >= at + TAG_SIZE + 2


def type_at(frame, at):
    """The type that stands at a place, or in a SNAP header behind it, and where what is behind it begins."""
    dl_type, snap_end = number(frame, at, at + 2), at + 2 + len(SNAP)
    if dl_type >= LEAST_TYPE:
        return dl_type, at + 2
    if frame[at + 2 : snap_end] == SNAP and len(frame) >= snap_end + 2:
        snap_type = number(frame, snap_end, snap_end + 2)
        if snap_type >= LEAST_TYPE:
            return snap_type, snap_end + 2
    return NO_TYPE, at + 2


def read_arp(packet):
    """The message of ARP for IPv4 over Ethernet, or None where it is another."""
    if len(packet) < 28 or packet[:6] != bytes.fromhex("000108000604"):
        return None
    operation = number(packet, 6, 8)
    fields = {
        "nw_proto": operation if operation < 256 else 0,
        "arp_sha": number(packet, 8, 14),
        "nw_src": number(packet, 14, 18),
        "arp_tha": number(packet, 18, 24),
        "nw_dst": number(packet, 24, 28),
    }
    return Network(fields, packet[28:], 28, False)


def read_ipv4(packet):
    """The header of IPv4, or None where it is malformed."""
    if len(packet) < 20 or packet[0] >> 4 != 4:
        return None
    length, total = (packet[0] & 15) * 4, number(packet, 2, 4)
    if not 20 <= length <= min(len(packet), total):
        return None
    more, offset = packet[6] & 0x20, number(packet, 6, 8) & 0x1FFF
    fields = {
        "nw_tos": packet[1],
        "nw_ttl": packet[8],
        "nw_proto": packet[9],
        "nw_src": number(packet, 12, 16),
        "nw_dst": number(packet, 16, 20),
        "ip_frag": fragment_bits(offset, more),
    }
    return Network(fields, packet[length:total], length, False)


def fragment_bits(offset, more):
    return (IS_FRAGMENT if offset or more else 0) | (IS_LATER if offset else 0)


def read_ipv6(packet):
    """The header of IPv6 with its extension headers, or None where one is malformed."""
    if len(packet) < 40 or packet[0] >> 4 != 6:
        return None
    packet = packet[: 40 + number(packet, 4, 6)]
    upper = pass_extensions(packet)
    if upper is None:
        return None
    fields = {
        "nw_tos": number(packet, 0, 2) >> 4 & 0xFF,
        "nw_ttl": packet[7],
        "nw_proto": upper.protocol,
        "ipv6_src": number(packet, 8, 24),
        "ipv6_dst": number(packet, 24, 40),
        "ip_frag": upper.ip_frag,
    }
    return Network(fields, packet[upper.at :], upper.at, upper.routed)


def pass_extensions(packet):
    """What stands after the extension headers, or None where one is malformed."""
    following, at, ip_frag, routed, count = packet[6], 40, 0, False, 0
    while following in EXTENSIONS:
        count += 1
        length = extension_length(following, packet[at:])
        if count > MOST_EXTENSIONS or length is None:
            return None
        if following == FRAGMENT:
            offset = number(packet, at + 2, at + 4) >> 3
            ip_frag |= fragment_bits(offset, packet[at + 3] & 1)
            if offset:
                return Upper(FRAGMENT, ip_frag, at + length, routed)
        routed = routed or following == ROUTING
        following, at = packet[at], at + length
    return Upper(following, ip_frag, at, routed)


def extension_length(kind, rest):
    """The length of an extension header, or None where it isn't there whole."""
    if len(rest) < 2:
        return None
    unit, least = (4, 8) if kind == AUTHENTICATION else (8, 8)
    length = 8 if kind == FRAGMENT else rest[1] * unit + least
    return length if length <= len(rest) else None


def transport_protocol(headers):
    """The protocol of the transport header, or None where there is none: in later fragments, or where it is cut."""
    network = headers.network
    if network is None or network.fields.get("ip_frag", 0) & IS_LATER:
        return None
    protocol = network.fields["nw_proto"]
    needed = TRANSPORT_HEADERS.get((headers.dl_type, protocol))
    return protocol if needed is not None and needed <= len(network.rest) else None


def shown_transport(headers):
    """Ports, or type and code, of a packet that is no fragment."""
    protocol, rest = transport_protocol(headers), headers.network.rest
    if protocol is None or headers.network.fields["ip_frag"]:
        return {}
    if protocol in PORT_HEADERS:
        return {"tp_src": number(rest, 0, 2), "tp_dst": number(rest, 2, 4)}
    return {"tp_src": rest[0], "tp_dst": rest[1]}
