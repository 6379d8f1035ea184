"""A running Open vSwitch on its dummy datapath, which takes frames and tells what it sends.

Everything is in a folder of its own: the database, the sockets, and a capture file for what leaves by each port. When it
ends, its two daemons are ended by their numbers, and the folder is removed.
"""
import itertools
import os
import re
import shutil
import signal
import struct
import subprocess
import tempfile
import time
from collections import Counter

SCHEMA = "/usr/share/openvswitch/vswitch.ovsschema"
PROGRAMS = ["ovs-vswitchd", "ovsdb-server", "ovsdb-tool", "ovs-vsctl", "ovs-ofctl", "ovs-appctl"]
PACKAGE = "openvswitch-switch"
DAEMONS = ["ovs-vswitchd", "ovsdb-server"]
# OpenFlow 1.0 has no masks of set_field, no tags to push and no goto_table.
OLD, NEWER, NEW = "OpenFlow10", "OpenFlow13", "OpenFlow15"
NEEDS_NEWER = re.compile("set_field|push_vlan|goto_table")
TABLE, COOKIE = re.compile(r"\btable=(\w+)"), re.compile(r"\bcookie=\w+,?\s*")
# In seconds.
PATIENCE, NAP = 5.0, 0.05
# The longest packets that a port lets out.
MTU = 65000
# How many tags are read of a frame (vlan-limit): as many as there can be.
TAGS = 2
CAPTURE_HEADER, RECORD_HEADER = 24, 16


def is_installed():
    return os.path.exists(SCHEMA) and all(shutil.which(program) for program in PROGRAMS)


def version():
    return subprocess.run(["ovs-vswitchd", "--version"], check=True, capture_output=True, text=True).stdout.splitlines()[0]


def openflow_of(flow):
    """The version of OpenFlow by which a line of flow text is told."""
    return NEW if NEEDS_NEWER.search(flow) else OLD


def is_modifying(flow):
    return flow.split(maxsplit=1)[0] in ("modify", "modify_strict")


def with_table(flow):
    """The same flow, with the table that a strict word without one means here: by some versions that is any."""
    word, _, rest = flow.strip().partition(" ")
    is_open = word in ("modify_strict", "delete_strict") and not TABLE.search(flow)
    return f"{word} table=0,{rest}" if is_open else flow


def end_daemon(pid_file):
    """Asks a daemon to end, which removes its file then, and ends it where it doesn't in time."""
    with open(pid_file) as file:
        process = int(file.read())
    try:
        os.kill(process, signal.SIGTERM)
        for _ in range(int(PATIENCE / NAP)):
            if not os.path.exists(pid_file):
                return
            time.sleep(NAP)
        os.kill(process, signal.SIGKILL)
    except ProcessLookupError:
        pass


class Switch:
    """A bridge with these ports, as a context."""

    def __init__(self, ports):
        # How many frames came in, and how far the capture file of each port was read.
        self.ports, self.taken, self.read = ports, 0, Counter()

    def __enter__(self):
        self.folder = tempfile.TemporaryDirectory(prefix="open-vswitch-")
        self.environment = os.environ | {f"OVS_{name}DIR": self.folder.name for name in ["RUN", "DB", "LOG", "SYSCONF"]}
        try:
            self.start()
        except BaseException:
            self.stop()
            raise
        return self

    def __exit__(self, *_):
        self.stop()

    def start(self):
        room = self.folder.name
        self.run("ovsdb-tool", "create", "conf.db", SCHEMA)
        self.run("ovsdb-server", "conf.db", f"--remote=punix:{room}/db.sock", "--pidfile", "--detach", "--no-chdir")
        self.configure("--no-wait", "init")
        self.configure("--no-wait", "set", "Open_vSwitch", ".", f"other_config:vlan-limit={TAGS}")
        self.run("ovs-vswitchd", f"unix:{room}/db.sock", "--enable-dummy=override", "--disable-system", "--pidfile",
                 "--detach", "--no-chdir")
        self.configure("add-br", "br0", "--", "set", "bridge", "br0", "datapath_type=dummy", "fail_mode=secure",
                       f"protocols={OLD},{NEWER},{NEW}", *(word for port in self.ports for word in self.port_words(port)))

    def stop(self):
        for daemon in DAEMONS:
            if os.path.exists(self.path(f"{daemon}.pid")):
                end_daemon(self.path(f"{daemon}.pid"))
        self.folder.cleanup()

    def path(self, name):
        return os.path.join(self.folder.name, name)

    def run(self, *words, **rest):
        ran = subprocess.run(words, env=self.environment, cwd=self.folder.name, capture_output=True, text=True, **rest)
        if ran.returncode:
            raise RuntimeError(f"{' '.join(words)}: {ran.stderr}")
        return ran.stdout

    def configure(self, *words):
        self.run("ovs-vsctl", f"--db=unix:{self.path('db.sock')}", *words)

    def port_words(self, port):
        name = f"p{port}"
        return ["--", "add-port", "br0", name, "--", "set", "interface", name, "type=dummy", f"ofport_request={port}",
                f"options:tx_pcap={self.path(name)}.pcap", f"mtu_request={MTU}"]

    def add_flows(self, flows):
        """Hands lines of flow text over in their order, and waits until no cache is older than they are."""
        for (version, is_modify), lines in itertools.groupby(flows, lambda it: (openflow_of(it), is_modifying(it))):
            if is_modify:
                for line in lines:
                    self.modify(version, line)
            else:
                self.hand_over(version, map(with_table, lines))
        self.run("ovs-appctl", "revalidator/wait")

    def hand_over(self, version, lines):
        self.run("ovs-ofctl", "-O", version, "add-flows", "br0", "-", input="\n".join(lines))

    def modify(self, version, line):
        """A `modify` of all tables where it names none, which adds nothing; by some versions it is of one, or adds."""
        line = with_table(line)
        if TABLE.search(line):
            tables = [line]
        else:
            word, rest = line.split(maxsplit=1)
            tables = [f"{word} table={table},{rest}" for table in self.tables()]
        for line in tables:
            count = len(self.flows())
            self.hand_over(version, [line])
            if len(self.flows()) > count:
                added = line.partition("actions=")[0].split(maxsplit=1)[1].rstrip(", ")
                self.hand_over(version, [f"delete_strict {COOKIE.sub('', added)}"])

    def flows(self):
        """The lines of a dump."""
        dump = self.run("ovs-ofctl", "-O", NEW, "--no-names", "dump-flows", "br0")
        return [line for line in dump.splitlines() if line.startswith(" ")]

    def tables(self):
        """The numbers of the tables that have flows."""
        return sorted({int(TABLE.search(line)[1]) for line in self.flows()})

    def replace_flows(self, flows):
        """Takes all flows away, and hands these over."""
        self.run("ovs-ofctl", "del-flows", "br0")
        self.add_flows(flows)

    def traced(self, flow):
        """What is told of a flow by `ofproto/trace`, with the names of ports."""
        return self.run("ovs-appctl", "ofproto/trace", "--names", "br0", flow)

    def sent(self, port, frame):
        """What is sent of a frame that comes in at a port: pairs of a port and bytes, port by port."""
        self.run("ovs-appctl", "netdev-dummy/receive", f"p{port}", frame.hex())
        self.taken += 1
        end = time.monotonic() + PATIENCE
        while self.count() < self.taken:
            if time.monotonic() > end:
                raise RuntimeError(f"a frame was not counted: {frame.hex()}")
        return [(port, data) for port in self.ports for data in self.new_frames(port)]

    def count(self):
        """How many frames were looked up."""
        found = re.search(r"hit:(\d+) missed:(\d+)", self.run("ovs-appctl", "dpctl/show"))
        return int(found[1]) + int(found[2])

    def new_frames(self, port):
        """The frames in the capture file of a port that weren't read before."""
        with open(self.path(f"p{port}.pcap"), "rb") as file:
            file.seek(self.read[port] or CAPTURE_HEADER)
            while record := file.read(RECORD_HEADER):
                yield file.read(struct.unpack_from("<I", record, 8)[0])
            self.read[port] = file.tell()
