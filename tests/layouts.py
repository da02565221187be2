"""Rosters, messages, checkpoints and frames, built from the layouts of documents 01 and 02 (requests A7, A8, A11, A13).

The node's own address is END; every message goes to it. An extended tunnel ID is the sender's address. A checkpoint's
records can have others.
"""
import struct

X, Y, END = "10.0.0.1", "10.0.0.3", "10.0.0.2"
PATH, PATH_TEAR, NOTIFY = 1, 5, 21
# ADMIN_STATUS: R and C; for a close D as well.
OPEN, CLOSE = 0x80000008, 0x80000009


def address(dotted):
    return bytes(int(part) for part in dotted.split("."))


# Rosters.


def roster(*customers):
    """form 1, END, epoch 7; then (address, guarantee, limit) for each customer"""
    records = [address(a) + struct.pack(">H", g << 9 | l << 2) for a, g, l in customers]
    return roster_head(1, customers) + b"".join(records)


def roster_2(*customers):
    """the same in form 2, whose total is 200: eight bits of guarantee and eight of limit"""
    records = [address(a) + bytes([g, l]) for a, g, l in customers]
    return roster_head(2, customers) + b"".join(records)


def roster_head(form, customers):
    return bytes([form << 4 | len(customers)]) + address(END) + (7).to_bytes(3, "big")


# 01's two customers: X has guarantee 1 and limit 2, Y has 62 and 64; in form 2 Y has 198 and 200.
TWO = roster((X, 1, 2), (Y, 62, 64))
TWO_2 = roster_2((X, 1, 2), (Y, 198, 200))


# Messages.


def obj(number, ctype, body):
    return struct.pack(">HBB", 4 + len(body), number, ctype) + body


def message(kind, *objects):
    """version 1, flags 0, no checksum, TTL 255"""
    body = b"".join(objects)
    return struct.pack(">BBHBBH", 0x10, kind, 0, 255, 0, 8 + len(body)) + body


def session(sender, call, tunnel):
    return obj(1, 7, address(END) + struct.pack(">HH", call, tunnel) + address(sender))


def template(sender, lsp):
    return obj(11, 7, address(sender) + struct.pack(">HH", 0, lsp))


def notify(status, sender, call, name, epoch, identifier, *more):
    """priorities 7 and 7"""
    padding = bytes(-len(name) % 4)
    return message(
        NOTIFY,
        session(sender, call, 0),
        obj(6, 1, bytes(8)),
        template(sender, 0),
        obj(23, 1, struct.pack(">II", epoch, identifier)),
        obj(196, 1, struct.pack(">I", status)),
        obj(207, 7, bytes([7, 7, 0, len(name)]) + name + padding),
        *more,
    )


# A customer's setups come before its closes, unless an identifier says otherwise: what lies behind is late (A8).


def setup(sender, call, name, *more, epoch=3, identifier=1):
    return notify(OPEN, sender, call, name, epoch, identifier, *more)


def close(sender, call, name, epoch=3, identifier=2):
    return notify(CLOSE, sender, call, name, epoch, identifier)


def path(sender, call, tunnel, lsp=1):
    return message(PATH, session(sender, call, tunnel), template(sender, lsp))


def path_tear(sender, call, tunnel, lsp=1):
    return message(PATH_TEAR, session(sender, call, tunnel), template(sender, lsp))


# Checkpoints.


def checkpoint(calls, connections, form=1):
    head = struct.pack(">HH", form << 12 | len(calls), len(connections))
    return head + b"".join(calls) + b"".join(connections)


def call_record(slot, call, sender, name, endpoint=END, refreshed=0):
    """no made mark; request epoch and request identifier 0"""
    ids = struct.pack(">BH", slot, call) + address(endpoint) + address(sender)
    return ids + bytes([len(name)]) + name.ljust(32, b"\0") + struct.pack(">I", refreshed) + bytes(3 + 4)


def connection_record(call, sender, tunnel, lsp, endpoint=END, extended=None):
    front = address(endpoint) + struct.pack(">HH", call, tunnel)
    return front + address(extended or sender) + address(sender) + struct.pack(">H", lsp)


# Frames.


def frames(*items):
    """the tap's: a 16-bit length before each item"""
    return b"".join(struct.pack(">H", len(item)) + item for item in items)


def long_frames(*items):
    """those of the program restore: a 32-bit length before each item"""
    return b"".join(struct.pack(">I", len(item)) + item for item in items)
