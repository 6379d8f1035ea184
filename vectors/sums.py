"""The checksums of a frame, computed anew over the whole of what they cover (RFC 1071), to tell which are wrong.

It reads headers by itself, for frames whose lengths are right: no fragments, and no routing headers.
"""
import struct

from headers import (
    AUTHENTICATION, CUSTOMER_TAG, DESTINATION_OPTIONS, HOP_BY_HOP, ICMP, ICMPV6, IPV4, IPV6, SERVICE_TAG, TCP, UDP,
    checksum,
)

OPTIONS = (HOP_BY_HOP, DESTINATION_OPTIONS)
# Where the checksum stands in the message of each protocol.
PLACES = {TCP: 16, UDP: 6, ICMP: 2, ICMPV6: 2}


def wrong_sums(frame):
    """The names of the checksums of a frame that are wrong."""
    at = 16 if struct.unpack_from("!H", frame, 12)[0] in (CUSTOMER_TAG, SERVICE_TAG) else 12
    kind, packet = struct.unpack_from("!H", frame, at)[0], frame[at + 2 :]
    if kind == IPV4:
        return wrong_in_ipv4(packet)
    return wrong_in_ipv6(packet) if kind == IPV6 else []


def wrong_in_ipv4(packet):
    length = (packet[0] & 15) * 4
    protocol, message = packet[9], packet[length : struct.unpack_from("!H", packet, 2)[0]]
    addresses = b"" if protocol == ICMP else packet[12:20] + struct.pack("!HH", protocol, len(message))
    return ["IPv4"] * (checksum(packet[:length]) != 0) + wrong_in_message(protocol, addresses, message)


def wrong_in_ipv6(packet):
    protocol, message = packet[6], packet[40 : 40 + struct.unpack_from("!H", packet, 4)[0]]
    while protocol in (*OPTIONS, AUTHENTICATION):
        length = message[1] * 8 + 8 if protocol in OPTIONS else message[1] * 4 + 8
        protocol, message = message[0], message[length:]
    return wrong_in_message(protocol, packet[8:40] + struct.pack("!II", len(message), protocol), message)


def wrong_in_message(protocol, pseudo_header, message):
    if protocol not in PLACES:
        return []
    is_absent = protocol == UDP and message[6:8] == bytes(2) and len(pseudo_header) == 12
    summed = pseudo_header + message
    return [] if is_absent or checksum(summed + bytes(len(summed) % 2)) == 0 else [f"protocol {protocol}"]
