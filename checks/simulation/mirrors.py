"""Mirrors: a mirrors file, read to the first fault, and what a mirror copies (ovs-vswitchd.conf.db(5), table Mirror).

A mirror is the set of its items: a name and a port, or None.
"""
from .flow_text import (
    BAD_VALUE, REPEATED, SEPARATORS, SYNTAX, UNKNOWN_NAME, WHITE, Part, parts_of, read_lines, refuse_over, require,
    require_ascii,
)
from .rewriting import sent

FROM_PORT, TO_PORT, ALL = "select_src_port", "select_dst_port", "select_all"


def read_mirrors(data, ports):
    """The mirrors of a file, for a switch of these ports. Raises its first fault, or what is above its limit."""
    refuse_over(len(data), "mirrors-bytes")
    mirrors = []
    read_lines(data, read_line, ports, mirrors)
    return mirrors


def read_line(line, ports, mirrors):
    """Adds the mirror of a line, if it isn't blank."""
    text = line.partition("#")[0]
    if text.strip(WHITE):
        refuse_over(len(mirrors) + 1, "mirrors")
        mirrors.append(read_mirror(text, ports))


def read_mirror(text, ports):
    require_ascii(text, 0)
    items = set()
    for part in parts_of(text, SEPARATORS):
        item = read_item(part, ports)
        require(item not in items, REPEATED, part)
        items.add(item)
    return items


def read_item(part, ports):
    name, equals, value = part.text.partition("=")
    require(name in (FROM_PORT, TO_PORT, ALL), UNKNOWN_NAME, part)
    require(not equals if name == ALL else value, SYNTAX, part)
    if name == ALL:
        return ALL, None
    require(value in map(str, ports), BAD_VALUE, Part(value, part.column + len(name) + 1))
    return name, int(value)


def copy_of(mirror, frame, actions):
    """The copy that a mirror has of a frame, or None."""
    if (ALL, None) in mirror or (FROM_PORT, frame.port) in mirror:
        return frame
    for port, data in sent(actions, frame.bytes):
        if (TO_PORT, port) in mirror:
            return frame._replace(bytes=data)
    return None


def copied_frames(mirror, decided):
    """The copies that a mirror has of decided frames."""
    copies = (copy_of(mirror, frame, actions) for frame, actions in decided)
    return [copy for copy in copies if copy is not None]
