"""The bytes of a site's journal, by docs/FORMATS.md: what the checks compare file 3 of a folder with.

Nothing here was taken from the program: numbers have their highest byte first, a slug and a title a byte
for their length, and other texts four.
"""
import struct

MAGIC = b"WPTJRNL1"
HEADER = 16
OPEN, CLOSED = b"\x01", b"\x00"
FRAME = 5
NO_MOMENT = b"\xff" * 8
POSITIONS = ["first-child", "last-child", "first-sibling", "left", "right", "last-sibling"]
PERMISSIONS = ["add", "change", "publish", "bulk_delete", "lock", "unlock"]
ON_A_PAGE = {
    "delete": 3, "detach": 6, "open": 8, "shut": 10, "publish": 12, "unpublish": 13, "unschedule": 14,
    "lock": 15, "unlock": 16, "purge": 17, "submit": 21, "approve": 22, "reject": 23, "cancel": 24,
}


class Bad(Exception):
    """A journal is not of its form, at an offset."""


def byte(number):
    """A number in one byte."""
    return struct.pack(">B", number)


def short(number):
    """A number in two bytes."""
    return struct.pack(">H", number)


def whole(number):
    """A number in four bytes, as an id."""
    return struct.pack(">I", number)


def large(number):
    """A number in eight bytes, as a moment."""
    return struct.pack(">Q", number)


def name(text):
    """A slug or a title."""
    data = text.encode()
    return byte(len(data)) + data


def text_of(text):
    """Any other text."""
    data = text.encode()
    return whole(len(data)) + data


def ids(numbers):
    """A list of groups or of tasks."""
    return byte(len(numbers)) + b"".join(map(whole, numbers))


def moment(seconds):
    """A moment that may be absent."""
    return NO_MOMENT if seconds is None else large(seconds)


def block(value):
    """A block of a content: its kind, and what it has."""
    (kind, had), = value.items()
    if kind == "list":
        return byte(3) + short(len(had)) + b"".join(map(text_of, had))
    if kind == "page":
        return byte(4) + whole(had)
    return byte({"heading": 1, "paragraph": 2}[kind]) + text_of(had)


def content(value):
    """A content: its title, and its blocks."""
    blocks = value["blocks"]
    return name(value["title"]) + short(len(blocks)) + b"".join(map(block, blocks))


def command(route, of):
    """A command: its tag, and its fields in their order."""
    if route in ON_A_PAGE:
        return byte(ON_A_PAGE[route]) + whole(of["page"])
    if route == "pages":
        return byte(1) + whole(of["parent"]) + name(of["slug"]) + content(of["content"])
    if route == "move":
        place = POSITIONS.index(of["position"]) + 1
        return byte(2) + whole(of["page"]) + whole(of["target"]) + byte(place)
    if route == "slug":
        return byte(4) + whole(of["page"]) + name(of["slug"])
    if route == "alias":
        return byte(5) + whole(of["source"]) + whole(of["parent"]) + name(of["slug"])
    if route == "copy":
        return byte(7) + whole(of["page"]) + whole(of["parent"]) + name(of["slug"]) + byte(of["deep"])
    if route == "save":
        return byte(9) + whole(of["page"]) + content(of["content"])
    if route == "file":
        return byte(11) + whole(of["page"]) + moment(of["go_live_at"]) + moment(of["expire_at"])
    if route == "tasks":
        return byte(18) + ids(sorted(of["groups"]))
    if route == "workflows":
        return byte(19) + ids(of["tasks"])
    if route == "assign":
        return byte(20) + whole(of["page"]) + whole(of["workflow"])
    if route == "users":
        return byte(25) + byte(of["superuser"]) + bytes.fromhex(of["digest"])
    if route == "groups":
        return byte(26)
    if route == "members":
        return byte(27) + whole(of["user"]) + whole(of["group"]) + byte(of["on"])
    if route == "grants":
        allowed = byte(PERMISSIONS.index(of["permission"]) + 1)
        return byte(28) + whole(of["group"]) + whole(of["page"]) + allowed + byte(of["on"])
    assert route == "tick", route
    return byte(29)


def entry(number, now, caller, route, fields):
    """An entry: its number, the moment of its request, its caller and its command."""
    return large(number) + large(now) + whole(caller) + command(route, fields)


def header(k=1):
    """The header of journal k."""
    return MAGIC + large(k)


def journal(entries, k=1):
    """The bytes of a journal with these entries, each after an open gate."""
    records = b"".join(OPEN + whole(len(one)) + one for one in entries)
    return header(k) + records + CLOSED


def entries_in(data, k=1):
    """The entries of a journal up to its first gate that is not open. Only the numbers are read of them."""
    if data[:HEADER] != header(k) or len(data) == HEADER:
        raise Bad(0)
    found, gate = [], HEADER
    while data[gate:gate + 1] == OPEN:
        length = int.from_bytes(data[gate + 1:gate + FRAME], "big")
        one = data[gate + FRAME:gate + FRAME + length]
        if len(data) <= gate + FRAME + length or one[:8] != large(len(found) + 1):
            raise Bad(gate)
        found.append(one)
        gate += FRAME + length
    return found
