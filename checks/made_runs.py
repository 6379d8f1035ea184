#!/usr/bin/env python3
"""Made-up runs, some of them out of form: words, edits, traces, steps and mirrors.

Their traces are of all four formats, mixed in a run: both orders of bytes, microseconds and nanoseconds. Their frames
are of all protocols, some of them cut anywhere. Their rules are in several tables, match bits of frames that are in the
traces by fields of all kinds, have actions of all kinds, and are modified and deleted in all ways.

Every second run is for the caches. It has hardly a fault; its frames come again and again, some of them with a bit
changed, and its rules change at the time of a frame or beside it, so that entries are hit, replaced, removed, idle and
overlapped. In most of these runs few entries may be, or steps are given, which are as made_steps.py says, or both.

    python3 made_runs.py ROUNDS

prints how often each result stands in the journals of the simulation, and how many given steps were unmet.
"""
import os
import random
import re
import struct
import sys
from collections import Counter, namedtuple

sys.dont_write_bytecode = True
TOP = os.path.join(os.path.dirname(os.path.abspath(__file__)), "..")
sys.path.insert(0, os.path.join(TOP, "vectors"))
from made_actions import KINDS, REGISTERS, SMALL, TABLES, ActionMaker, Picker
from made_steps import StepMaker
from simulation.command_words import read_words
from simulation.flow_fields import KEY_FIELD, NAMED_FIELDS, full, packed
from simulation.flow_text import Match, print_match
from simulation.frame_key import key_of
from simulation.schedule import Schedule
from simulation.switch import read_input
from whole_run import simulated

PORTS = [1, 2, 3, 9, 40, 65279]
ADDRESSES = ["0:0:0:0:0:0", "00:00:00:00:00:02", "02:00:00:00:00:0a", "2:0:0:0:0:A", "ff:ff:ff:ff:ff:ff"]
BAD_ADDRESSES = ["", "02:00:00:00:00", "02:00:00:00:00:0a:0b", "002:0:0:0:0:0", "02-00-00-00-00-0a", "g:0:0:0:0:0"]
PRIORITIES = ["0", "5", "0x5", "0x0005", "32768", "65535", "0xFFFF"]
BAD_NUMBERS = ["", "00", "05", "65536", "0x", "0X5", "-1", "+1", "1e1", "5 ", "99999999999999999999"]
ODD_LINES = ["", " ", "\t \r", "add", "add ", "actions", "actions=", "in_port=1", "# none"]
ODD_LINES += ["delete actions=1", "ip,tcp,actions=1"]
ODD_ACTIONS = [["drop", "1"], ["drop "], ["0"], ["65280"], [""], ["1", ""], ["output:"], ["1"] * 64, ["1"] * 65]
ODD_ACTIONS += [["normal"], ["all"] * 64, ["flood"] * 33, ["resubmit(,0)"], ["resubmit(,1)"] * 64, ["dec_ttl"] * 64]
WORDS = ["modify", "modify_strict", "delete", "delete_strict"]
# The fields that may be matched, and matched in part, and those of the headers, which need a type and a protocol to be matched.
MATCHED = {field.key for field in NAMED_FIELDS}
MASKED = {field.key for field in NAMED_FIELDS if field.masked}
ETHERNET = ("dl_src", "dl_dst", "vlan_tci")
NETWORK = ("nw_src", "nw_dst", "ipv6_src", "ipv6_dst", "nw_tos", "nw_ttl", "ip_frag", "arp_sha", "arp_tha")
TRANSPORT = ("tp_src", "tp_dst")
ODD_WORDS = ["", "-", "--", "1", "=", "0=", "01=", "65280=", "1=", "1=a.pcap", "1=none", "none"]
ODD_WORDS += ["-1=", "--workers", "--workers=0", "--workers=1", "--workers=17", "--steps=a.pcap", "--generate=7"]
ODD_WORDS += ["--flow-limit=0", "--flow-limit=1", "--flow-limit=1", "--flow-limit=2", "--flow-limit=65537", "--limit=1"]
ODD_WORDS += ["--netflow", "--netflow=x", "--mirrors="]
ODD_MIRROR_ITEMS = ["select_src_port", "select_dst_port=", "select_all=", "select_all=1", "select_src_port=01"]
ODD_MIRROR_ITEMS += ["select_src_port=5", "select_dst_port=70000", "select_vlan=1", "Select_all", "=1", "\x80"]
TRACES = ["a.pcap", "b.pcap", "c.pcap"]
FRAME_LENGTHS = [0, 6, 13, 14, 60, 61, 200]
# In nanoseconds, and sync times at them and round them, in order. A trace in microseconds has no finer ones.
SECOND = 1000000000
FRAME_TIMES = [0, SECOND, SECOND + 1, 2999998000, 2999998499, 2999998500, 2999999000, 3 * SECOND - 1, 3 * SECOND]
FRAME_TIMES += [4294967295 * SECOND, 4294967296 * SECOND - 1]
SYNC_TIMES = ["0", "0.0", "1", "1.000000", "1.000000001", "2.9", "2.999998", "2.9999985", "2.999999", "2.999999001"]
SYNC_TIMES += ["3", "3.00", "3.000000001", "4294967295", "4294967295.0000005", "4294967295.999999999"]
BAD_TIMES = ["", "00", "01", "1.", ".5", "1.0000000001", "4294967296", "-1", "+1", "1e1", "0x1", "1,5", "1.5.5", "1 2"]
ORDERS = ["<", ">"]
# By the nanoseconds of the unit.
MAGICS = {1000: 0xA1B2C3D4, 1: 0xA1B23C4D}
# pcapng (both orders are the same), other formats of libpcap, and near ones.
BAD_MAGICS = [0x0A0D0D0A, 0xA1B2CD34, 0xA1B2C3D5, 0xA1B2C34D, 0xC3D4A1B2, 0]
BAD_VERSIONS = [(2, 3), (2, 5), (1, 4), (3, 4), (4, 2), (0x200, 0x400), (0, 0), (65535, 65535)]
LINK_TYPES = [1, 1, 1, 0x10000001, 0xFFFF0001]
BAD_LINK_TYPES = [0, 2, 101, 113, 0x10000, 0x01000000, 0xFFFF0000, 65535]
SNAP_LENGTH = 262144
BAD_LENGTHS = [SNAP_LENGTH + 1, 1 << 24, 1 << 31, (1 << 32) - 1]
# In the runs for the caches: how much later than the one before a frame may be. An entry is idle after ten seconds.
GAPS = [0, 1000, SECOND, SECOND, 10 * SECOND - 1000, 10 * SECOND, 10 * SECOND + 1000]
# The least numbers of entries that a flow limit may be.
FLOW_LIMITS = range(1, 9)
# How many rules there are that make entries narrow, and how many times as often as others these are changed.
VEILS, VEIL_DELETES = [0, 1, 2, 2], 6
# The bytes of addresses, of the header of IPv4 and of ports.
CHANGED_BYTES = [0, 5, 11, 15, 16, 22, 23, 29, 30, 32, 33, 35, 37]
ODD_SYNCS = ["sync", " sync ", "sync1", "Sync 1", "syncs 1", "sync=1", "sync,1", "sync 1\v", "add sync 1", "sync\0 1"]
ODD_BOUNDS = ["begin", "commit", "begin 1", " commit commit", "commit\v", " begin\t", "Begin", "commits", "commit,", "begin#", ""]


# What a trace is made of; fraction is in the unit of the trace.
Header = namedtuple("Header", "magic version snap_length link_type")
Record = namedtuple("Record", "seconds fraction captured wire bytes")


def trace_of(order, header, records):
    made = [struct.pack(order + "IHHIIII", header.magic, *header.version, 0, 0, header.snap_length, header.link_type)]
    for record in records:
        made += [struct.pack(order + "IIII", *record[:4]), record.bytes]
    return b"".join(made)


class Maker(Picker):
    """Makes the words and the files of a run."""

    def __init__(self, number):
        super().__init__(random.Random(number))
        self.ports = self.pick.sample(PORTS, self.pick.randrange(1, len(PORTS) + 1))
        self.frames = [self.one(*self.one(*KINDS)) for _ in range(6)]
        # Rules mostly send to ports of the run.
        self.actions = ActionMaker(self.pick, [*self.ports[1:], *self.ports[1:], *PORTS], self.frames)

    def item(self):
        name, good, bad = self.one(
            ("priority", PRIORITIES, BAD_NUMBERS),
            ("in_port", [f"{self.ports[0]}", f"0x{self.ports[0]:X}", f"{self.one(*PORTS)}"], BAD_NUMBERS + ["0", "65280"]),
            ("dl_dst", ADDRESSES, BAD_ADDRESSES),
        )
        return f"{name}={self.one(*(bad if self.rarely() else good))}"

    def bits(self, name, key):
        """All bits of a field, or where it has masks perhaps some: a prefix, or any."""
        width = KEY_FIELD[name].width
        is_whole = name not in MASKED or (name in TRANSPORT and key.get("nw_proto") in (1, 58)) or self.chance(0.6)
        prefix = full(width) & ~full(self.pick.randrange(width))
        return full(width) if is_whole else self.one(prefix, prefix, self.pick.getrandbits(width) or 1)

    def match(self):
        """Some bits of a frame, with the type and the protocol where they are needed, and perhaps of a register."""
        key = {"vlan_tci": 0} | key_of(self.one(*self.ports), self.one(*self.frames))
        key[self.one(*REGISTERS)] = self.one(*SMALL)
        names = [name for name in REGISTERS if name in key and self.chance(0.2)]
        names += self.pick.sample([*ETHERNET, *NETWORK, *TRANSPORT], self.pick.randrange(4))
        names += ["dl_type"] * any(name in NETWORK + TRANSPORT for name in names)
        names += ["nw_proto"] * any(name in TRANSPORT for name in names)
        mask = {name: self.bits(name, key) for name in names if name in key}
        return print_match(Match(packed(key) & packed(mask), packed(mask)))

    def items(self):
        """Items with their commas: none, or a few of three names, or a priority and bits of a frame."""
        if self.chance(0.3):
            return ""
        if self.chance(0.6):
            return "".join(it + "," for it in [f"priority={self.one(*PRIORITIES)}", self.match()] if it)
        return "".join(it + "," for it in {it.partition("=")[0]: it for it in self.some_items()}.values())

    def some_items(self):
        return [self.item() for _ in range(self.pick.randrange(3))]

    def line(self, items):
        if self.rarely():
            return self.one(*ODD_LINES)
        number = self.one(0, 0, 0, *TABLES)
        actions = ["drop"] if self.chance(0.1) else self.actions.list(number)
        if self.rarely():
            actions = self.one(*ODD_ACTIONS)
        word = self.one(*WORDS) if self.chance(0.2) else self.one("", "add")
        table = f"table={number}," if number or self.chance(0.2) else ""
        rest = "" if word.startswith("delete") else "actions=" + ",".join(actions)
        line = f"{word} {table}{items}{rest}".lstrip()
        if self.rarely() and line:
            at = self.pick.randrange(len(line))
            line = line[:at] + self.one("", ",", " ", "=", "x", line[at] * 2) + line[at + 1 :]
        return line

    def rules(self):
        """Lines that edit rules. Some have the items of one before, whose rule they replace, modify or delete."""
        items = []
        for _ in range(self.pick.randrange(25)):
            items.append(self.one(*items) if items and self.chance(0.3) else self.items())
        return [self.line(it) for it in items]

    def white(self, least):
        return "".join(self.one(" ", " ", "\t", "\r") for _ in range(self.one(least, least, least, 1, 2)))

    def syncs(self):
        """Sync lines, seldom as many as there may be, or one more. Their times seldom fall."""
        count = self.one(62, 63, 64) if self.rarely() else self.one(0, 0, 1, 1, 2, 3, 4)
        times = sorted(self.pick.randrange(len(SYNC_TIMES)) for _ in range(count))
        if self.rarely():
            times.reverse()
        lines = []
        for time in times:
            text = self.one(*BAD_TIMES) if self.rarely() else SYNC_TIMES[time]
            line = self.white(0) + "sync" + self.white(1) + text + self.white(0)
            lines.append(self.one(*ODD_SYNCS) if self.rarely() else line)
        return lines

    def bundled(self, lines):
        """The lines in groups, some of which stand between begin and commit. Seldom one of these two is odd or missing."""
        groups = []
        while lines:
            count = self.one(0, 1, 2, 2, 3, 5) if self.chance(0.2) else None
            taken = lines[: 1 if count is None else count]
            lines = lines[len(taken) :]
            around = ["begin", "commit"] if count is not None else []
            if around and self.rarely():
                around[self.one(0, 1)] = self.one(*ODD_BOUNDS)
            groups.append([*around[:1], *taken, *around[1:]])
        return groups

    def edits(self):
        groups = self.bundled(self.rules())
        syncs = self.syncs()
        places = sorted(self.pick.randrange(len(groups) + 1) for _ in syncs)
        for place, sync in reversed(list(zip(places, syncs))):
            groups.insert(place, [sync])
        lines = [line for group in groups for line in group]
        return ("\n".join(lines) + self.one("", "\n")).encode()

    def frame(self):
        if self.chance(0.8):
            frame = self.one(*self.frames)
            return frame[: self.pick.randrange(len(frame) + 1)] if self.chance(0.1) else frame
        octets = self.one(*ADDRESSES).split(":")
        body = bytes(int(it, 16) for it in octets) + bytes(self.pick.randrange(256) for _ in range(8))
        return body.ljust(200, b"\x5a")[: self.one(*FRAME_LENGTHS)]

    def record(self, unit):
        frame = self.frame()
        seconds, rest = divmod(self.one(*FRAME_TIMES), SECOND)
        return Record(seconds, rest // unit, len(frame), self.one(len(frame), 1514), frame)

    def trace(self):
        """A trace of one of the four formats, now and then with a fault or two."""
        order, unit = self.one(*ORDERS), self.one(1000, 1000, 1)
        header = Header(MAGICS[unit], (2, 4), self.one(65535, SNAP_LENGTH), self.one(*LINK_TYPES))
        records = [self.record(unit) for _ in range(self.pick.randrange(12))]
        for _ in range(self.one(*[0] * 14, 1, 2)):
            what = self.one("header", "record", "record", "file")
            if what == "header":
                header = self.bad_header(header)
            elif what == "file":
                return self.damaged(trace_of(order, header, records))
            elif records:
                self.spoil(records, unit)
        return trace_of(order, header, records)

    def bad_header(self, header):
        changed = self.one(
            {"magic": self.one(*BAD_MAGICS)},
            {"version": self.one(*BAD_VERSIONS)},
            {"link_type": self.one(*BAD_LINK_TYPES)},
        )
        return header._replace(**changed)

    def spoil(self, records, unit):
        """Spoils a record: bytes are missing, it is too long or very long, or its fraction is a second or more."""
        at = self.pick.randrange(len(records))
        length = self.one(SNAP_LENGTH, *BAD_LENGTHS)
        fraction = self.one(SECOND // unit, SECOND // unit + 1, (1 << 32) - 1)
        changed = self.one(
            {"captured": len(records[at].bytes) + self.one(1, 16, 1 << 16)},
            {"captured": length},
            {"captured": length, "bytes": bytes(min(length, SNAP_LENGTH + 1))},
            {"fraction": fraction},
            {"fraction": fraction, "captured": length},
        )
        records[at] = records[at]._replace(**changed)

    def damaged(self, made):
        """Cut anywhere, also in the header; or with another byte, or one more."""
        at = self.pick.randrange(self.one(24, len(made)))
        return self.one(made[:at], made[:at] + bytes([self.pick.randrange(256)]) + made[at + 1 :], made + b"\0")

    def words(self):
        words = ["edits", "out", *(f"{it}={self.one('', *TRACES)}" for it in self.ports)]
        if self.chance(0.1):
            at = self.pick.randrange(len(words))
            words[at] = self.one(*ODD_WORDS)
        return words

    def steps(self, words, given):
        """A steps file, or none, and the words with its name."""
        if self.chance(0.7):
            return words, {}
        words = [f"--steps={self.one('steps', 'steps', 'steps', 'none')}", *words]
        return words, {"steps": StepMaker(self.pick, self.ports).text().encode()}


    def mirror_item(self):
        port = self.one(*self.ports)
        if self.chance(0.03):
            return self.one(*ODD_MIRROR_ITEMS)
        return self.one(f"select_src_port={port}", f"select_dst_port={port}", f"select_dst_port={port}", "select_all")

    def mirror_line(self):
        """A mirror, of which mostly no item stands twice; or no mirror."""
        items = [self.mirror_item() for _ in range(self.pick.randrange(1, 4))]
        if self.chance(0.95):
            items = dict.fromkeys(items)
        return self.one("", " # none", ",") if self.rarely() else self.one(",", " ", "\t,").join(items)

    def outlets(self, words):
        """The words with the flag for flows, or with mirrors, or both, and the mirrors file."""
        if self.chance(0.4):
            words = ["--netflow", *words]
        if self.chance(0.6):
            return words, {}
        words = [f"--mirrors={self.one('mirrors', 'mirrors', 'mirrors', 'none')}", *words]
        lines = [self.mirror_line() for _ in range(self.one(1, 2, 3, 3, 4, 17))]
        return words, {"mirrors": "\n".join(lines).encode()}


class CacheMaker(Maker):
    """Makes runs whose frames come again, before and after the rules have changed."""

    def __init__(self, number):
        super().__init__(number)
        bases = self.pick.sample(self.frames, 2)
        self.frames = [*bases, *(self.changed(self.one(*bases)) for _ in range(self.pick.randrange(3, 9)))]
        self.actions = ActionMaker(self.pick, [*self.ports[1:], *self.ports[1:], *PORTS], self.frames)
        self.ticks = [SECOND]
        for _ in range(12):
            self.ticks.append(self.ticks[-1] + self.one(*GAPS))
        # The words and items of the adds so far, most of which later edits reach.
        self.added = []
        # Whether steps are given. Edits of one block are then published between any steps.
        self.has_steps = self.chance(0.6)
        self.is_narrow = self.has_steps and self.chance(0.15)

    def changed(self, frame):
        """A frame with a bit changed where keys have bits."""
        at = self.one(*(it for it in CHANGED_BYTES if it < len(frame)), 0)
        return frame[:at] + bytes([frame[at] ^ 1 << self.pick.randrange(8)]) + frame[at + 1 :] if frame else frame

    def list(self, table):
        return [self.actions.output()] if self.chance(0.4) else self.actions.list(table)

    def items_of_table(self):
        """Where a new rule is to be, and what it matches."""
        table, match = self.one(0, 0, 0, 0, *TABLES), self.match() if self.chance(0.9) else ""
        priority = self.one(0, 5, 5, 10, 32768, 65535)
        return table, ",".join(it for it in [f"table={table}", f"priority={priority}", match] if it)

    def add(self):
        table, items = self.items_of_table()
        self.added.append((table, items))
        return f"{items},actions={','.join(self.list(table))}"

    def veil(self):
        """A rule above the others that tells a frame from another, so that entries are narrow while it is there."""
        key, other = (key_of(self.ports[0], frame) for frame in (self.frames[0], self.one(*self.frames)))
        names = [name for name in key if name in MATCHED and key[name] != other.get(name)] or ["dl_dst"]
        mask = {name: full(KEY_FIELD[name].width) for name in ["dl_type", "nw_proto", *names] if name in key}
        items = f"table=0,priority=65535,{print_match(Match(packed(key) & packed(mask), packed(mask)))}"
        self.added += [(0, items)] * VEIL_DELETES
        return f"{items},actions={self.actions.output()}"

    def change(self):
        """An edit that reaches a rule that was added, where it is still there."""
        if self.chance(0.2):
            return self.add()
        table, items = self.one(*self.added)
        word = self.one("add", *WORDS, *["delete_strict"] * 4)
        return f"{word} {items}" + ("" if word.startswith("delete") else f",actions={','.join(self.list(table))}")

    def good_flows(self, most):
        return [self.add() for _ in range(self.pick.randrange(1, most + 1))]

    def narrow_edits(self):
        """Of three edits the second makes entries narrow, and the third makes them wide."""
        lines = [f"priority=0,actions={self.actions.output()}", self.veil()]
        return [*lines, f"delete_strict {self.added[0][1]}"]

    def edits(self):
        lines = self.narrow_edits() if self.is_narrow else []
        lines += self.good_flows(6) + [self.veil() for _ in range(self.one(*VEILS))]
        for tick in sorted(self.one(*self.ticks) + self.one(0, 0, -1000, 1000) for _ in range(self.one(1, 2, 3, 4))):
            if not self.has_steps or self.chance(0.4):
                lines.append(f"sync {tick // SECOND}.{tick % SECOND:09}")
            lines += [self.change() for _ in range(self.one(0, 1, 1, 2, 3))]
        return "\n".join(lines).encode()

    def trace(self):
        """Frames of which some come first when others have come several times."""
        records = []
        for time in sorted(self.one(*self.ticks) for _ in range(self.pick.randrange(40))):
            frame = self.one(*self.frames[: 1 + len(records) // 4])
            records.append(Record(time // SECOND, time % SECOND // 1000, len(frame), len(frame), frame))
        return trace_of("<", Header(MAGICS[1000], (2, 4), SNAP_LENGTH, 1), records)

    def words(self):
        return ["edits", "out", *(f"{it}={self.one('', *TRACES, *TRACES)}" for it in self.ports)]

    def steps(self, words, given):
        """Perhaps few entries may be; and perhaps a steps file, whose steps are chosen as the run goes on."""
        if self.chance(0.4):
            words = [f"--flow-limit={self.one(*FLOW_LIMITS)}", *words]
        if not self.has_steps:
            return words, {}
        command = read_words(words)
        known = read_input(command, given.__getitem__)
        maker = StepMaker(self.pick, self.ports, Schedule(known.script, known.frames, command.flow_limit))
        return [*words, "--steps", "steps"], {"steps": maker.text(self.is_narrow).encode()}


def made_run(number):
    """The words and the files of a run, which is the same for the same number."""
    maker = (CacheMaker if number % 2 else Maker)(number)
    words, given = maker.words(), {"edits": maker.edits(), **{name: maker.trace() for name in TRACES}}
    words, steps = maker.steps(words, given)
    words, mirrors = maker.outlets(words)
    return words, given | steps | mirrors


def results_of(journal):
    """What stands in a journal, word by word, numbers aside."""
    words = journal.split()
    return [it for it in words if it.isalpha() and it not in ("port", "look", "settle", "put")]


def main(words):
    counts = Counter()
    for number in range(int(words[0])):
        result = simulated(*made_run(number))
        counts[f"status {result.status}"] += 1
        counts.update(results_of(result.files.get("out.journal", b"").decode()))
        counts.update({f"given {what}": int(count) for what, count in re.findall(r"(steps|unmet)=(\d+)", result.text)})
    for what, count in sorted(counts.items()):
        print(f"{what}: {count}")


if __name__ == "__main__":
    main(sys.argv[1:])
