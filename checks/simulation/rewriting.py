"""What datapath actions make of the bytes of a frame, its checksums included, and what of it is sent.

After IEEE 802.1Q for tags, RFC 826 (ARP), 791 (IPv4), 8200 (IPv6), 9293 (TCP), 768 (UDP) and 4443 (ICMPv6) for where
fields and checksums stand and what these cover, and RFC 1624 for how a checksum follows.
"""
from collections import namedtuple

from .flow_fields import ETHERTYPE_ARP, ETHERTYPE_IPV4, ETHERTYPE_IPV6, PROTOCOL_ICMPV6, PROTOCOL_TCP, PROTOCOL_UDP, TAG
from .frame_key import ETHERNET_HEADER, PORT_HEADERS, headers_of, number, transport_protocol

# The bytes of a frame in which a field stands, and how many of their bits are below its own.
Span = namedtuple("Span", "begin size shift", defaults=[0])

# The outer tag stands after the addresses.
TAG_BEGIN, TAG_END = 12, 16
ALL_ONES = 0xFFFF

ETHERNET_SPANS = {"dl_dst": Span(0, 6), "dl_src": Span(6, 6)}
# From the beginning of the header on. In IPv6 four bits of the flow label share the second byte of the traffic class.
NETWORK_SPANS = {
    ETHERTYPE_ARP: {"arp_sha": Span(8, 6), "nw_src": Span(14, 4), "arp_tha": Span(18, 6), "nw_dst": Span(24, 4)},
    ETHERTYPE_IPV4: {"nw_tos": Span(1, 1), "nw_ttl": Span(8, 1), "nw_src": Span(12, 4), "nw_dst": Span(16, 4)},
    ETHERTYPE_IPV6: {"nw_tos": Span(0, 2, 4), "nw_ttl": Span(7, 1), "ipv6_src": Span(8, 16), "ipv6_dst": Span(24, 16)},
}
PORT_SPANS = {"tp_src": Span(0, 2), "tp_dst": Span(2, 2)}

# Where checksums stand in their headers. That of ICMPv6 covers the addresses, as those of TCP and UDP do.
IPV4_CHECKSUM = 10
TRANSPORT_CHECKSUMS = {PROTOCOL_TCP: 16, PROTOCOL_UDP: 6, PROTOCOL_ICMPV6: 2}
ADDRESSES = ("nw_src", "nw_dst", "ipv6_src", "ipv6_dst")


def sent(actions, frame):
    """Ports and bytes, in the order of the outputs: each sends the frame as the actions before it have made it."""
    for action in actions:
        if action.kind == "Output":
            yield *action.arguments, frame
        elif len(frame) >= ETHERNET_HEADER:
            frame = CHANGES[action.kind](frame, *action.arguments)


def push_tag(frame, tpid, tci):
    """With a tag outside of those that there are; the bit that says in a key that there is one is sent as 0."""
    return frame[:TAG_BEGIN] + tpid.to_bytes(2, "big") + (tci & ~TAG).to_bytes(2, "big") + frame[TAG_BEGIN:]


def pop_tag(frame):
    return frame[:TAG_BEGIN] + frame[TAG_END:] if headers_of(frame).tags else frame


def set_field(frame, name, value, mask):
    """With bits of a field replaced, and the checksums that cover it. A field whose header isn't there stays away."""
    headers = headers_of(frame)
    span = span_of(headers, name)
    if span is None:
        return frame
    before = number(frame, span.begin, span.begin + span.size)
    after = before & ~(mask << span.shift) | (value & mask) << span.shift
    written = with_number(frame, span.begin, span.size, after)
    changes = changes_between(frame, written, span)
    for at, zero in checksums_over(headers, name, frame) if changes else []:
        written = with_number(written, at, 2, updated(number(frame, at, at + 2), changes) or zero)
    return written


CHANGES = {"PushVlan": push_tag, "PopVlan": pop_tag, "Set": set_field}


def with_number(frame, begin, size, value):
    return frame[:begin] + value.to_bytes(size, "big") + frame[begin + size :]


# ---- places


def span_of(headers, name):
    """Where a field stands in a frame with these headers, or None."""
    if name in ETHERNET_SPANS:
        return ETHERNET_SPANS[name]
    if name in PORT_SPANS:
        has_ports = transport_protocol(headers) in PORT_HEADERS
        return moved(PORT_SPANS[name], transport_begin(headers)) if has_ports else None
    span = NETWORK_SPANS[headers.dl_type].get(name) if headers.network else None
    return moved(span, headers.begin) if span else None


def moved(span, begin):
    return span._replace(begin=begin + span.begin)


def transport_begin(headers):
    return headers.begin + headers.network.rest_at


# ---- checksums


def checksums_over(headers, name, frame):
    """Where the checksums stand that cover a field, and what is sent for 0 in each."""
    if headers.dl_type == ETHERTYPE_IPV4 and name in NETWORK_SPANS[ETHERTYPE_IPV4]:
        yield headers.begin + IPV4_CHECKSUM, 0
    protocol = transport_protocol(headers)
    if protocol not in TRANSPORT_CHECKSUMS or not is_in_transport_sum(headers, name):
        return
    at = transport_begin(headers) + TRANSPORT_CHECKSUMS[protocol]
    if protocol != PROTOCOL_UDP:
        yield at, 0
    elif headers.dl_type == ETHERTYPE_IPV6 or number(frame, at, at + 2):
        yield at, ALL_ONES


def is_in_transport_sum(headers, name):
    """Ports and addresses are. After a routing header the sum has another destination than the header."""
    return name in PORT_SPANS or name in ADDRESSES and not (name == "ipv6_dst" and headers.network.routed)


def changes_between(before, after, span):
    """What each word of a span that has changed adds to a sum. Headers begin at even places of a frame, so its words
    are those that checksums sum up."""
    places = range(span.begin & ~1, span.begin + span.size, 2)
    words = [(number(before, at, at + 2), number(after, at, at + 2)) for at in places]
    return [ALL_ONES - old + new for old, new in words if old != new]


def updated(checksum, changes):
    """A checksum after words that it covers have changed (RFC 1624, equation 3)."""
    total = ALL_ONES - checksum + sum(changes)
    while total > ALL_ONES:
        total = (total & ALL_ONES) + (total >> 16)
    return ALL_ONES - total
