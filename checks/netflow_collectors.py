#!/usr/bin/env python3
"""Sends the datagrams of exported flows to collectors, and compares what these say with what was exported.

    checks/netflow_collectors.py OUT.netflow

`nfcapd` and `nfdump` (Debian's nfdump) collect the datagrams over the loopback and print the flows; `tshark` decodes each
datagram (its dissector cflow). What isn't installed is skipped, in a word.
"""
import os
import shutil
import signal
import socket
import struct
import subprocess
import sys
import tempfile
import time
from pathlib import Path

sys.dont_write_bytecode = True
from simulation.netflow import HEADER, RECORD, FlowRecord

LOOPBACK = "127.0.0.1"
LINKTYPE_IPV4 = 228


def datagrams_of(data):
    """The datagrams of a file, one after the other."""
    while data:
        size = HEADER.size + RECORD.size * HEADER.unpack_from(data)[1]
        yield data[:size]
        data = data[size:]


def records_of(datagram):
    return [FlowRecord(*fields) for fields in RECORD.iter_unpack(datagram[HEADER.size :])]


def free_port():
    with socket.socket(socket.AF_INET, socket.SOCK_DGRAM) as free:
        free.bind((LOOPBACK, 0))
        return free.getsockname()[1]


def address(number):
    return socket.inet_ntoa(struct.pack(">I", number))


# ---- nfcapd and nfdump


# What nfdump is to print of a flow, and its letters of the control bits, the greatest bit first.
PRINTED = "fmt:%ts|%te|%sa|%da|%pr|%sp|%dp|%flg|%tos|%pkt|%byt|%in|%out"
CONTROL_BITS = "CEUAPRSF"
ICMP = 1


def collected(datagrams, folder):
    """What nfdump prints of datagrams that nfcapd has collected."""
    port = free_port()
    collector = subprocess.Popen(
        ["nfcapd", "-b", LOOPBACK, "-p", str(port), "-w", folder, "-t", "3600"], stdout=subprocess.DEVNULL,
        stderr=subprocess.DEVNULL,
    )
    time.sleep(1)
    with socket.socket(socket.AF_INET, socket.SOCK_DGRAM) as sender:
        for datagram in datagrams:
            sender.sendto(datagram, (LOOPBACK, port))
            time.sleep(0.01)
    time.sleep(1)
    collector.send_signal(signal.SIGTERM)
    collector.wait(timeout=30)
    printed = subprocess.run(
        ["nfdump", "-R", folder, "-q", "-N", "-o", PRINTED], check=True, capture_output=True, text=True,
        env={**os.environ, "TZ": "UTC"},
    ).stdout
    return sorted([field.strip() for field in line.split("|")] for line in printed.splitlines())


def shown_time(milliseconds):
    return f"{time.strftime('%Y-%m-%d %H:%M:%S', time.gmtime(milliseconds // 1000))}.{milliseconds % 1000:03}"


def printed_flow(begin, flow):
    """What nfdump prints of a flow, where the uptime was 0 at a time in milliseconds."""
    bits = "".join(letter if flow.flags >> 7 - at & 1 else "." for at, letter in enumerate(CONTROL_BITS))
    target = f"{flow.dport >> 8}.{flow.dport & 0xFF}" if flow.proto == ICMP else str(flow.dport)
    numbers = map(str, (flow.tos, flow.packets, flow.octets, flow.input, flow.output))
    times = shown_time(begin + flow.first), shown_time(begin + flow.last)
    return [*times, address(flow.src), address(flow.dst), str(flow.proto), str(flow.sport), target, bits, *numbers]


def begin_of(datagram):
    """When the uptime was 0, in milliseconds."""
    _, _, up, whole, nanoseconds, _ = HEADER.unpack_from(datagram)
    return whole * 1000 + nanoseconds // 1_000_000 - up


def check_nfdump(datagrams):
    expected = sorted(printed_flow(begin_of(it), flow) for it in datagrams for flow in records_of(it))
    with tempfile.TemporaryDirectory() as folder:
        found = collected(datagrams, folder)
    if found != expected:
        differs = next((pair for pair in zip(found, expected) if pair[0] != pair[1]), (len(found), len(expected)))
        sys.exit(f"nfdump prints {differs[0]} in place of {differs[1]}")


# ---- tshark

EXPORT_PORT = 2055
# The fields of the dissector, and those of a record that they show.
DECODED = {
    "cflow.srcaddr": lambda flow: address(flow.src),
    "cflow.dstaddr": lambda flow: address(flow.dst),
    "cflow.inputint": lambda flow: str(flow.input),
    "cflow.outputint": lambda flow: str(flow.output),
    "cflow.packets": lambda flow: str(flow.packets),
    "cflow.octets": lambda flow: str(flow.octets),
    "cflow.srcport": lambda flow: str(flow.sport),
    "cflow.dstport": lambda flow: str(flow.dport),
    "cflow.protocol": lambda flow: str(flow.proto),
}


def packet_of(payload):
    """An IPv4 packet of UDP with a payload, without checksums."""
    udp = struct.pack(">HHHH", EXPORT_PORT, EXPORT_PORT, 8 + len(payload), 0) + payload
    loopback = socket.inet_aton(LOOPBACK)
    return struct.pack(">BBHHHBBH", 0x45, 0, 20 + len(udp), 0, 0, 64, 17, 0) + loopback + loopback + udp


def capture_of(datagrams):
    head = struct.pack("<IHHIIII", 0xA1B2C3D4, 2, 4, 0, 0, 262144, LINKTYPE_IPV4)
    packets = [packet_of(it) for it in datagrams]
    return head + b"".join(struct.pack("<IIII", 0, 0, len(it), len(it)) + it for it in packets)


def check_tshark(datagrams):
    with tempfile.TemporaryDirectory() as folder:
        trace = Path(folder, "export.pcap")
        trace.write_bytes(capture_of(datagrams))
        fields = [word for name in [*DECODED, "_ws.malformed"] for word in ("-e", name)]
        decoded = subprocess.run(
            ["tshark", "-r", str(trace), "-d", f"udp.port=={EXPORT_PORT},cflow", "-T", "fields", "-E", "separator=|", *fields],
            check=True, capture_output=True, text=True,
        ).stdout.splitlines()
    expected = ["|".join([",".join(map(show, records_of(it))) for show in DECODED.values()] + [""]) for it in datagrams]
    if decoded != expected:
        differs = next((pair for pair in zip(decoded, expected) if pair[0] != pair[1]), (len(decoded), len(expected)))
        sys.exit(f"tshark decodes {differs[0]} in place of {differs[1]}")


def main(name):
    datagrams = list(datagrams_of(Path(name).read_bytes()))
    for programs, compare in ((("nfcapd", "nfdump"), check_nfdump), (("tshark",), check_tshark)):
        absent = [program for program in programs if shutil.which(program) is None]
        if absent:
            print(f"skipped: {absent[0]} isn't installed")
        else:
            compare(datagrams)
            print(f"{programs[-1]} agrees on {sum(len(records_of(it)) for it in datagrams)} flows")


if __name__ == "__main__":
    main(sys.argv[1])
