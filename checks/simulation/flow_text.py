"""Flow text: files of edits read to the first fault, and matches and actions printed in their one form.

After ovs-ofctl(8), section "Flow Syntax", ovs-fields(7) and ovs-actions(7), in the profile of docs/FORMATS.md.
"""
import re
from collections import namedtuple

from .flow_fields import (
    BadValue, CUSTOMER_TAG, ETHERTYPE_ARP, ETHERTYPE_IPV4, ETHERTYPE_IPV6, KEY_FIELD, KEY_FIELDS, NAMED_FIELD,
    PROTOCOL_ICMP, PROTOCOL_ICMPV6, PROTOCOL_TCP, PROTOCOL_UDP, SERVICE_TAG, TAG, full, is_stated, packed,
    print_value, read_decimal, read_number, read_value, unpacked,
)

LIMITS = {
    "edits-bytes": 33554432, "line": 4096, "edits": 32768, "syncs": 63, "actions": 64, "changes": 1048576,
    "steps-bytes": 4194304, "steps": 131072, "mirrors-bytes": 65536, "mirrors": 16,
}

SYNTAX, UNKNOWN_NAME, UNSUPPORTED, BAD_VALUE = "syntax", "unknown name", "unsupported", "bad value"
REPEATED, SYNC_ORDER = "repeated", "sync order"

WHITE = " \t\r"
SEPARATORS = "," + WHITE
NOT_ASCII = re.compile("[^\\x00-\\x7f]")

LAST_PORT = 65279
LAST_TABLE = 254
LAST_VLAN = 4095
LAST_SECOND = 4294967295
NO_TAG = 0xFFFF
DEFAULT_PRIORITY = 32768
SECOND = 1000000000

WORDS = ("add", "modify", "modify_strict", "delete", "delete_strict")
DELETES = ("delete", "delete_strict")

# What each stands for: a type, and a protocol where there is one.
SHORTHANDS = {
    "ip": (ETHERTYPE_IPV4, None), "icmp": (ETHERTYPE_IPV4, PROTOCOL_ICMP),
    "tcp": (ETHERTYPE_IPV4, PROTOCOL_TCP), "udp": (ETHERTYPE_IPV4, PROTOCOL_UDP),
    "ipv6": (ETHERTYPE_IPV6, None), "icmp6": (ETHERTYPE_IPV6, PROTOCOL_ICMPV6),
    "tcp6": (ETHERTYPE_IPV6, PROTOCOL_TCP), "udp6": (ETHERTYPE_IPV6, PROTOCOL_UDP),
    "arp": (ETHERTYPE_ARP, None),
}
SHORTHAND = {meant: word for word, meant in SHORTHANDS.items()}

# Numbers of a line that its match isn't made of, with their greatest value.
NUMBERS = {"table": LAST_TABLE, "priority": 65535, "cookie": full(64)}
# What dumps print beside.
IGNORED = ("duration", "n_packets", "n_bytes", "idle_age", "hard_age")

UNSUPPORTED_PREFIXES = ("tun_", "tunnel", "mpls", "sctp", "nd_", "ct_", "xreg", "xxreg", "nsh_")
UNSUPPORTED_FIELDS = """
    recirc_id dp_hash pkt_mark conj_id actset_output skb_priority packet_type in_port_oxm tcp_flags ipv6_label rarp
    idle_timeout hard_timeout importance out_port out_group check_overlap send_flow_rem reset_counts no_packet_counts
    no_byte_counts
""".split()
UNSUPPORTED_ACTIONS = """
    normal learn ct ct_clear nat group meter controller local enqueue conjunction clone sample note push pop
    write_actions clear_actions write_metadata bundle bundle_load multipath exit fin_timeout set_queue pop_queue
    set_tunnel set_vlan_vid set_vlan_pcp push_mpls pop_mpls
""".split()

# The time in nanoseconds, and the number of bundles before it.
Sync = namedtuple("Sync", "time after")
# The priority is 32768 where none stands; table and cookie are then None.
Edit = namedtuple("Edit", "word table priority cookie matching actions")
# A kind, by its name in docs/FORMATS.md, and its arguments.
Action = namedtuple("Action", "kind arguments")
# Bits of a named field, both ends among them.
Slice = namedtuple("Slice", "field low high")

# Bits that an item states: its name, what it needs, the key field, and there the value and the mask.
Stated = namedtuple("Stated", "name needs field value mask")
# A part of a line and the column where it begins.
Part = namedtuple("Part", "text column")
# An item of an action list, and whether its brackets close.
Item = namedtuple("Item", "text column closes")


class Script(namedtuple("Script", "bundles syncs")):
    """The edits of each bundle, and the sync points."""

    @property
    def edits(self):
        return [edit for bundle in self.bundles for edit in bundle]


class TextFault(Exception):
    """The first fault of a text: its reason, its column, and in a file of edits its line, all numbered from 1."""

    def __init__(self, reason, column, line=None):
        super().__init__(reason, column, line)
        self.reason, self.column, self.line = reason, column, line


class OverLimit(Exception):
    """The quantity that is above its limit."""

    def __init__(self, quantity):
        super().__init__(quantity)
        self.quantity, self.most = quantity, LIMITS[quantity]


def refuse_over(count, quantity):
    if count > LIMITS[quantity]:
        raise OverLimit(quantity)


def require(holds, reason, part):
    if not holds:
        raise TextFault(reason, part.column)


def value_of(part, read, *arguments):
    """What a reader gives of a part, or the fault at its first byte."""
    try:
        return read(*arguments)
    except BadValue:
        raise TextFault(BAD_VALUE, part.column) from None


def number_of(part, most, least=0):
    return value_of(part, read_number, part.text, most, least)


# ---- files of edits


def read_script(data):
    """The bundles and sync points of a file. Raises its first fault, or what is above its limit."""
    refuse_over(len(data), "edits-bytes")
    reader = ScriptReader()
    read_lines(data, reader.read_line)
    if reader.open is not None:
        raise TextFault(SYNTAX, reader.begun.column, reader.begun.line)
    return Script(reader.bundles, reader.syncs)


def read_lines(data, read, *arguments):
    """Hands the lines of a file to a reader, and tells the number of the first that has a fault. The length of each is tested
    before it is read."""
    for number, line in enumerate(data.split(b"\n"), 1):
        refuse_over(len(line), "line")
        try:
            read(line.decode("latin-1"), *arguments)
        except TextFault as fault:
            raise TextFault(fault.reason, fault.column, number) from None


# Where a bundle was begun.
Begun = namedtuple("Begun", "line column")


class ScriptReader:
    """What the lines of a file have said so far."""

    def __init__(self):
        self.bundles, self.syncs, self.edit_count = [], [], 0
        # The edits of the bundle that the lines are in, or None, and where it was begun.
        self.open, self.begun = None, None
        self.lines = 0

    def read_line(self, line):
        self.lines += 1
        text = line.partition("#")[0]
        words = parts_of(text, WHITE)
        if not words:
            return
        if words[0].text == "sync":
            self.read_sync(text, words)
        elif words[0].text == "begin":
            self.check_word_alone(text, words, self.open is None)
            self.open, self.begun = [], Begun(self.lines, words[0].column)
        elif words[0].text == "commit":
            self.check_word_alone(text, words, self.open is not None)
            self.bundles += [self.open] if self.open else []
            self.open = None
        else:
            self.read_edit(text, words)

    def read_sync(self, text, words):
        refuse_over(len(self.syncs) + 1, "syncs")
        require_ascii(text, 0)
        require(self.open is None, SYNTAX, words[0])
        time = read_sync_time(words)
        if self.syncs and time < self.syncs[-1].time:
            raise TextFault(SYNC_ORDER, 1)
        self.syncs.append(Sync(time, len(self.bundles)))

    def check_word_alone(self, text, words, may_stand):
        require_ascii(text, 0)
        require(may_stand, SYNTAX, words[0])
        for word in words[1:]:
            require(False, SYNTAX, word)

    def read_edit(self, text, words):
        refuse_over(self.edit_count + 1, "edits")
        edit = read_edit(text, words[0])
        self.edit_count += 1
        if self.open is None:
            self.bundles.append([edit])
        else:
            self.open.append(edit)


def parts_of(text, separators, at=0):
    found = re.finditer(f"[^{re.escape(separators)}]+", text[at:])
    return [Part(it[0], at + it.start() + 1) for it in found]


def require_ascii(text, at):
    if found := NOT_ASCII.search(text, at):
        raise TextFault(SYNTAX, found.start() + 1)


def read_sync_time(words):
    """Whole seconds, and perhaps a dot and up to nine digits."""
    require(len(words) == 2, SYNTAX, words[0])
    seconds, dot, fraction = words[1].text.partition(".")
    whole = value_of(words[1], read_decimal, seconds, LAST_SECOND)
    require(re.fullmatch("[0-9]{1,9}", fraction) if dot else True, BAD_VALUE, words[1])
    return whole * SECOND + int(fraction.ljust(9, "0"))


def read_edit(text, first):
    """The edit of a line without its comment. Its first word may say what is done; else it is an add."""
    word, at = (first.text, first.column - 1 + len(first.text)) if first.text in WORDS else ("add", 0)
    flow, actions_at = read_flow(text, at, word)
    actions = None if actions_at is None else read_actions(text, actions_at)
    return Edit(word, flow.table, flow.priority, flow.cookie, flow.matching, actions)


# ---- matches

# The key and the mask, each packed as one number. Bits of the key outside the mask are 0.
Match = namedtuple("Match", "key mask")
# What a line says before its actions.
Flow = namedtuple("Flow", "table priority cookie matching")


def read_flow(line, at, word):
    """What a line says from a place on, and where its actions begin, or None where none do."""
    text = line.partition("#")[0]
    require_ascii(text, at)
    reader = FlowReader(word)
    for item in parts_of(text, SEPARATORS, at):
        name, equals, value = item.text.partition("=")
        if name in ("actions", "action"):
            require(equals and word not in DELETES, SYNTAX, item)
            return reader.flow(), item.column + len(name)
        reader.read(item, name, equals, Part(value, item.column + len(name) + 1) if value else None)
    require(word in DELETES, SYNTAX, Part("", len(text) + 1))
    return reader.flow(), None


class FlowReader:
    """What the items of a line have said so far."""

    def __init__(self, word):
        self.word, self.numbers, self.stated = word, {}, []

    def flow(self):
        numbers = self.numbers
        priority = numbers.get("priority", DEFAULT_PRIORITY)
        return Flow(numbers.get("table"), priority, numbers.get("cookie"), normalised(self.stated))

    def read(self, item, name, equals, value):
        """Reads an item that isn't the actions. Its name is tested first, then repetition, then its value."""
        if name in NUMBERS:
            self.read_number(item, name, value)
        elif name in IGNORED:
            require(value, SYNTAX, item)
        elif name in SHORTHANDS:
            require(not equals, SYNTAX, item)
            self.state(item, shorthand_bits(name))
        else:
            require(not is_unsupported_field(name), UNSUPPORTED, item)
            require(name in NAMED_FIELD or name == "dl_vlan", UNKNOWN_NAME, item)
            require(value, SYNTAX, item)
            self.state(item, value_of(value, stated_bits, name, value.text))

    def read_number(self, item, name, value):
        if name == "cookie":
            require(self.word not in DELETES and not (value and "/" in value.text), UNSUPPORTED, item)
        require(name not in self.numbers, REPEATED, item)
        require(value, SYNTAX, item)
        self.numbers[name] = number_of(value, NUMBERS[name])

    def state(self, item, bits):
        """Adds the bits of an item to those stated before, of which it may repeat none."""
        for new in bits:
            require(not any(is_repeated(new, old) for old in self.stated), REPEATED, item)
        self.stated += bits


def is_unsupported_field(name):
    return name.startswith(UNSUPPORTED_PREFIXES) or name in UNSUPPORTED_FIELDS


def shorthand_bits(name):
    dl_type, nw_proto = SHORTHANDS[name]
    bits = [Stated(name, (), "dl_type", dl_type, full(16))]
    return bits if nw_proto is None else [*bits, Stated(name, (), "nw_proto", nw_proto, full(8))]


def stated_bits(name, text):
    """The bits that an item of this name states. Raises BadValue."""
    if name == "dl_vlan":
        return [vlan_bits(text)]
    field = NAMED_FIELD[name]
    value, mask = read_value(field, text)
    if field.name == "nw_tos":
        # The two low bits are those of nw_ecn.
        if value & 3:
            raise BadValue
        mask &= ~3
    value, mask = value << field.low, mask << field.low
    if field.name == "vlan_pcp":
        value, mask = value | TAG, mask | TAG
    return [Stated(field.name, field.needs, field.key, value, mask)]


def vlan_bits(text):
    """dl_vlan: a tag with this number, or no tag."""
    number = read_number(text, NO_TAG)
    if number == NO_TAG:
        return Stated("dl_vlan", (), "vlan_tci", 0, full(16))
    read_number(text, LAST_VLAN)
    return Stated("dl_vlan", (), "vlan_tci", number | TAG, LAST_VLAN | TAG)


def is_repeated(new, old):
    both = new.mask & old.mask if new.field == old.field else 0
    names = {new.name, old.name}
    if both == TAG and names in ({"vlan_pcp", "dl_vlan"}, {"vlan_pcp", "vlan_vid"}):
        return (new.value ^ old.value) & TAG != 0
    return both != 0


def normalised(stated):
    """The match of what is stated, without the fields whose prerequisite isn't stated."""
    dl_type = next((it.value for it in stated if it.field == "dl_type"), None)
    nw_proto = next((it.value for it in stated if it.field == "nw_proto" and is_stated(it.needs, dl_type, None)), None)
    key, mask = dict.fromkeys(KEY_FIELD, 0), dict.fromkeys(KEY_FIELD, 0)
    for it in stated:
        if is_stated(it.needs, dl_type, nw_proto):
            key[it.field] |= it.value
            mask[it.field] |= it.mask
    return Match(packed(key), packed(mask))


# ---- lists of actions


def read_actions(line, at):
    """The actions from a place on. `drop` alone is the empty list."""
    text = line.partition("#")[0]
    require_ascii(text, at)
    items, actions = items_of(text, at), []
    for place, item in enumerate(items):
        refuse_over(place + 1, "actions")
        action = read_action(item)
        is_last = place + 1 == len(items)
        require(action.kind != "Drop" or len(items) == 1, SYNTAX, item)
        require(action.kind != "Goto" or is_last, SYNTAX, item)
        actions.append(action)
    return [action for action in actions if action.kind != "Drop"]


def items_of(text, at):
    """The items of a list, which separators outside of brackets part."""
    items, begin, is_open = [], None, False
    for place, is_open in enumerate(open_after(text, at), at):
        if text[place] in SEPARATORS and not is_open:
            if begin is not None:
                items.append(Item(text[begin:place], begin + 1, True))
            begin = None
        elif begin is None:
            begin = place
    return items if begin is None else [*items, Item(text[begin:], begin + 1, not is_open)]


def open_after(text, at):
    """For each place from one on, whether a bracket is open behind it. One closes the last that is open, if of its kind."""
    closing = []
    for char in text[at:]:
        if char in "([":
            closing.append(")" if char == "(" else "]")
        elif closing and char == closing[-1]:
            closing.pop()
        yield bool(closing)


def read_action(item):
    """Reads an item: its name first, then its brackets, its form, the names of its fields, and its values."""
    if item.text[0] in "0123456789":
        require(item.closes, SYNTAX, item)
        return Action("Output", (number_of(item, LAST_PORT, 1),))
    name = re.match("[^:(]*", item.text)[0]
    require(not is_unsupported_action(name), UNSUPPORTED, item)
    require(name in READERS, UNKNOWN_NAME, item)
    require(item.closes, SYNTAX, item)
    read, *arguments = READERS[name]
    return read(item, Part(item.text[len(name):], item.column + len(name)), *arguments)


def is_unsupported_action(name):
    return name.lower() in UNSUPPORTED_ACTIONS and name in (name.lower(), name.upper())


def read_word(item, rest, kind):
    require(not rest.text, SYNTAX, item)
    return Action(kind, ())


def argument(item, rest):
    """What stands behind the colon of an item."""
    require(rest.text[:1] == ":" and len(rest.text) > 1, SYNTAX, item)
    return Part(rest.text[1:], rest.column + 1)


def two_arguments(item, rest):
    """What stands between the colon and the arrow, and behind the arrow."""
    whole = argument(item, rest)
    source, arrow, target = whole.text.partition("->")
    require(source and arrow and target, SYNTAX, item)
    return Part(source, whole.column), Part(target, whole.column + len(source) + len(arrow))


def field_at(item, part, written=False):
    """The named field that a slice, or a bare name, begins with."""
    name = part.text.partition("[")[0]
    return field_named(item, part, name, written)


def field_named(item, part, name, written):
    require(not is_unsupported_field(name) and not is_unsupported_action(name), UNSUPPORTED, item)
    require(name in NAMED_FIELD, UNKNOWN_NAME, part)
    field = NAMED_FIELD[name]
    require(field.written or not written, UNSUPPORTED, item)
    return field


def slice_at(part, field):
    return value_of(part, read_slice, part.text, field)


def read_slice(text, field):
    """NAME, NAME[], NAME[n] or NAME[a..b]. Raises BadValue."""
    bounds = re.fullmatch(r"[^\[]*(?:\[(?:([^.\[\]]+)(?:\.\.([^.\[\]]+))?)?\])?", text)
    if not bounds:
        raise BadValue
    if bounds[1] is None:
        return Slice(field, 0, field.width - 1)
    low = read_number(bounds[1], field.width - 1)
    return Slice(field, low, low if bounds[2] is None else read_number(bounds[2], field.width - 1, low))


def width_of(slice_):
    return slice_.high - slice_.low + 1


def read_output(item, rest):
    target = argument(item, rest)
    if target.text[0] in "0123456789":
        return Action("Output", (number_of(target, LAST_PORT, 1),))
    if target.text in PORT_WORDS:
        return Action(PORT_WORDS[target.text], ())
    return Action("OutputField", (slice_at(target, field_at(item, target)),))


def read_resubmit(item, rest):
    """resubmit(,TABLE): a port before the comma, or a third argument, isn't supported."""
    if rest.text[:1] == ":":
        require(len(rest.text) > 1, SYNTAX, item)
        raise TextFault(UNSUPPORTED, item.column)
    # The bracket closes at the end of the item, and not before.
    require(rest.text and all(list(open_after(rest.text, 0))[:-1]), SYNTAX, item)
    port, *tables = rest.text[1:-1].split(",")
    require(not port and len(tables) < 2, UNSUPPORTED, item)
    require(tables and tables[0], SYNTAX, item)
    return Action("Resubmit", (number_of(Part(tables[0], rest.column + 2), LAST_TABLE),))


def read_number_action(item, rest, kind, most):
    return Action(kind, (number_of(argument(item, rest), most),))


def read_push_vlan(item, rest):
    value = argument(item, rest)
    tpid = number_of(value, full(16))
    require(tpid in (CUSTOMER_TAG, SERVICE_TAG), BAD_VALUE, value)
    return Action("PushVlan", (tpid,))


def set_action(field, value, mask):
    return Action("Set", (field, value & mask, mask))


def read_load(item, rest):
    value, target = two_arguments(item, rest)
    field = field_at(item, target, written=True)
    number = number_of(value, full(128))
    bits = slice_at(target, field)
    require(number <= full(width_of(bits)), BAD_VALUE, value)
    return set_action(field, number << bits.low, full(width_of(bits)) << bits.low)


def read_set_field(item, rest):
    value, target = two_arguments(item, rest)
    field = field_named(item, target, target.text, written=True)
    return set_action(field, *value_of(value, read_written, field, value.text))


def read_written(field, text):
    """The value and the mask of a set_field. A VLAN has to come with the bit that says that there is a tag."""
    if field.name == "vlan_vid" and not read_value(field, text.partition("/")[0])[0] & TAG:
        raise BadValue
    return read_value(field, text)


def read_mod(item, rest, name):
    value = argument(item, rest)
    require("/" not in value.text, BAD_VALUE, value)
    return set_action(NAMED_FIELD[name], *value_of(value, read_value, NAMED_FIELD[name], value.text))


def read_move(item, rest):
    source, target = two_arguments(item, rest)
    source_field, target_field = field_at(item, source), field_at(item, target, written=True)
    source_bits, target_bits = slice_at(source, source_field), slice_at(target, target_field)
    require(width_of(source_bits) == width_of(target_bits), BAD_VALUE, target)
    return Action("Move", (source_bits, target_bits))


PORT_WORDS = {"in_port": "InPort", "all": "All", "flood": "Flood", "IN_PORT": "InPort", "ALL": "All", "FLOOD": "Flood"}
WRITTEN_WHOLE = ["dl_src", "dl_dst", "nw_src", "nw_dst", "nw_tos", "nw_ecn", "nw_ttl", "tp_src", "tp_dst"]

# By the name of an action: what reads it, and what that is told.
READERS = {
    **{word: (read_word, kind) for word, kind in PORT_WORDS.items()},
    "drop": (read_word, "Drop"),
    "dec_ttl": (read_word, "DecTtl"),
    "strip_vlan": (read_word, "PopVlan"),
    "pop_vlan": (read_word, "PopVlan"),
    "output": (read_output,),
    "resubmit": (read_resubmit,),
    "goto_table": (read_number_action, "Goto", LAST_TABLE),
    "mod_vlan_vid": (read_number_action, "SetVid", LAST_VLAN),
    "mod_vlan_pcp": (read_number_action, "SetPcp", 7),
    "push_vlan": (read_push_vlan,),
    "load": (read_load,),
    "set_field": (read_set_field,),
    "move": (read_move,),
    **{f"mod_{name}": (read_mod, name) for name in WRITTEN_WHOLE},
}


# ---- printing


def print_match(match):
    """The one printed form of a match: its items in the order of the key."""
    key, mask = unpacked(match.key), unpacked(match.mask)
    dl_type = key["dl_type"] if mask["dl_type"] == full(16) else None
    nw_proto = key["nw_proto"] if mask["nw_proto"] == full(8) else None
    word = SHORTHAND.get((dl_type, nw_proto)) or SHORTHAND.get((dl_type, None))
    items = []
    for field in KEY_FIELDS:
        if field.name == "dl_type" and word:
            items.append(word)
        elif field.name == "nw_proto" and word and SHORTHANDS[word][1] is not None:
            continue
        elif field.name == "nw_tos":
            items += print_tos(key["nw_tos"], mask["nw_tos"])
        elif mask[field.name]:
            name = name_with(field.name, dl_type, nw_proto)
            items.append(f"{name}={print_value(field.form, field.width, key[field.name], mask[field.name])}")
    return ",".join(items)


ARP_NAMES = {"nw_src": "arp_spa", "nw_dst": "arp_tpa", "nw_proto": "arp_op"}
ICMP_NAMES = {"tp_src": "icmp_type", "tp_dst": "icmp_code"}
ICMP_KINDS = [(ETHERTYPE_IPV4, PROTOCOL_ICMP), (ETHERTYPE_IPV6, PROTOCOL_ICMPV6)]


def name_with(name, dl_type, nw_proto):
    """What a key field is called in packets of this kind."""
    if dl_type == ETHERTYPE_ARP:
        return ARP_NAMES.get(name, name)
    return ICMP_NAMES.get(name, name) if (dl_type, nw_proto) in ICMP_KINDS else name


def print_tos(value, mask):
    """nw_tos for the six high bits, nw_ecn for the two low ones."""
    parts = [("nw_tos", value & ~3, mask & ~3, full(8) & ~3), ("nw_ecn", value & 3, mask & 3, 3)]
    for name, part, part_mask, whole in parts:
        if part_mask:
            yield f"{name}={part}" if part_mask == whole else f"{name}={part:#x}/{part_mask:#x}"


def print_slice(slice_):
    return f"{slice_.field.name}[{slice_.low}..{slice_.high}]"


def print_set(field, value, mask):
    return f"set_field:{print_value(field.form, field.width, value & mask, mask)}->{field.name}"


ACTION_PRINTERS = {
    "Output": "output:{}".format,
    "OutputField": lambda bits: f"output:{print_slice(bits)}",
    "InPort": lambda: "in_port",
    "All": lambda: "all",
    "Flood": lambda: "flood",
    "Resubmit": "resubmit(,{})".format,
    "Goto": "goto_table:{}".format,
    "Set": print_set,
    "Move": lambda source, target: f"move:{print_slice(source)}->{print_slice(target)}",
    "DecTtl": lambda: "dec_ttl",
    "PushVlan": "push_vlan:{:#06x}".format,
    "PopVlan": lambda: "pop_vlan",
    "SetVid": "mod_vlan_vid:{}".format,
    "SetPcp": "mod_vlan_pcp:{}".format,
}


def print_actions(actions):
    """The one printed form of a list of actions."""
    return ",".join(ACTION_PRINTERS[action.kind](*action.arguments) for action in actions) or "drop"
