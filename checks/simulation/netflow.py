"""The flows of a run, and their export as datagrams of NetFlow version 5 (Cisco, "NetFlow Export Datagram Formats")."""
import struct
from collections import namedtuple

from .captures import SECOND
from .flow_fields import ETHERTYPE_IPV4, PROTOCOL_ICMP, PROTOCOL_TCP
from .frame_key import ETHERNET_HEADER, headers_of, key_of, number, transport_protocol
from .rewriting import sent

MILLISECOND = 1_000_000
MOST_OCTETS = 2**32 - 1
MOST_RECORDS = 30
VERSION = 5
CONTROL_BITS_AT = 13

HEADER = struct.Struct(">HHIIII4x")
RECORD = struct.Struct(">II4xHHIIIIHHxBBB8x")

CLASS = ("in_port", "nw_src", "nw_dst", "nw_proto", "nw_tos", "tp_src", "tp_dst")

FlowRecord = namedtuple("FlowRecord", "src dst input output packets octets first last sport dport flags proto tos")


def uptime(begin, time):
    return (time - begin) // MILLISECOND % 2**32


def ipv4_of(frame):
    """The headers of a frame of IPv4, or None of another."""
    headers = headers_of(frame) if len(frame) >= ETHERNET_HEADER else None
    return headers if headers and headers.network and headers.dl_type == ETHERTYPE_IPV4 else None


def record_of(key, headers, frame, actions, up):
    """The flow of one packet alone."""
    icmp = key["nw_proto"] == PROTOCOL_ICMP
    source, destination = key.get("tp_src", 0), key.get("tp_dst", 0)
    tcp = transport_protocol(headers) == PROTOCOL_TCP
    first = next(iter(sent(actions, frame)), (0, b""))
    return FlowRecord(
        src=key["nw_src"], dst=key["nw_dst"], input=key["in_port"], output=first[0], packets=1,
        octets=number(frame, headers.begin + 2, headers.begin + 4), first=up, last=up,
        sport=0 if icmp else source, dport=source * 256 + destination if icmp else destination,
        flags=headers.network.rest[CONTROL_BITS_AT] if tcp else 0, proto=key["nw_proto"], tos=key["nw_tos"],
    )


def joined(flow, packet):
    return flow._replace(
        packets=flow.packets + packet.packets, octets=flow.octets + packet.octets, last=packet.last,
        flags=flow.flags | packet.flags,
    )


def flows_of(decided):
    """The flows of decided frames, which stand in the order of time, port and place."""
    flows, newest = [], {}
    for frame, actions in decided:
        headers = ipv4_of(frame.bytes)
        if headers is None:
            continue
        key = key_of(frame.port, frame.bytes)
        packet = record_of(key, headers, frame.bytes, actions, uptime(decided[0][0].time, frame.time))
        name = tuple(key.get(field, 0) for field in CLASS)
        at = newest.get(name)
        if at is not None and flows[at].octets + packet.octets <= MOST_OCTETS:
            flows[at] = joined(flows[at], packet)
        else:
            newest[name] = len(flows)
            flows.append(packet)
    return flows


def datagrams(flows, begin, end):
    """The datagrams of flows, of a run whose first and last frames came in at these times."""
    for before in range(0, len(flows), MOST_RECORDS):
        these = flows[before : before + MOST_RECORDS]
        head = HEADER.pack(VERSION, len(these), uptime(begin, end), end // SECOND, end % SECOND, before % 2**32)
        yield head + b"".join(RECORD.pack(*flow) for flow in these)


def netflow_bytes(boards):
    """The export of a finished run."""
    decided = sorted((pair for board in boards for pair in board.decided), key=lambda pair: pair[0][:3])
    if not decided:
        return b""
    return b"".join(datagrams(flows_of(decided), decided[0][0].time, decided[-1][0].time))
