"""The texts of what caches hold: the match of an entry, and datapath actions."""
from .flow_fields import CUSTOMER_TAG, KEY_FIELD, KEY_FIELDS, print_value, unpacked
from .translation import PRIORITY_SHIFT, VLAN_BITS


def print_entry_match(key, mask):
    """Each field of which some bits count, by its own name."""
    values, masks = unpacked(key & mask), unpacked(mask)
    return ",".join(print_bits(it.name, values[it.name], masks[it.name]) for it in KEY_FIELDS if masks[it.name])


def print_bits(name, value, mask):
    field = KEY_FIELD[name]
    return f"{name}={print_value(field.form, field.width, value, mask)}"


def print_datapath_actions(actions):
    return ",".join(PRINT[action.kind](*action.arguments) for action in actions) or "drop"


def print_push(tpid, tci):
    kind = "" if tpid == CUSTOMER_TAG else f"tpid={tpid:#06x},"
    return f"push_vlan({kind}vid={tci & VLAN_BITS},pcp={tci >> PRIORITY_SHIFT})"


PRINT = {
    "Output": str,
    "PopVlan": lambda: "pop_vlan",
    "PushVlan": print_push,
    "Set": lambda name, value, mask: f"set({print_bits(name, value & mask, mask)})",
}
