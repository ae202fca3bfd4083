"""Messages as bytes, and exchanges over loopback, by the pages of formats and commands alone."""

import socket
import struct

NO = bytes.fromhex("000000020703")
# The longest frame. A request that is longer is too long.
LONGEST = 600004


def framed(body):
    """A message, from its body."""
    return struct.pack(">I", len(body)) + body


def message(family, kind, *numbers):
    """A message whose fields are all u64."""
    return framed(bytes([family, kind]) + b"".join(struct.pack(">Q", it) for it in numbers))


def told(client, request, mark, lock, payload):
    """A transaction with one write lock, as a record and an append have it."""
    return struct.pack(">QQQ", client, request, mark) + bytes([0, 1, len(lock)]) + lock + framed(payload)


def record(number, session, transaction):
    """The body of a record."""
    return b"\x01" + struct.pack(">QQ", number, session) + transaction


def with_records(family, kind, session, records):
    """A message with a batch of records, which are given by their bodies."""
    batch = bytes([len(records)]) + b"".join(map(framed, records))
    return framed(bytes([family, kind]) + struct.pack(">Q", session) + batch)


def exchange(port, request, is_whole=True):
    """Sends a request on a connection of its own, and gives the reply. A broken one has no end."""
    with socket.create_connection(("127.0.0.1", port)) as stream:
        stream.sendall(request)
        if is_whole:
            stream.shutdown(socket.SHUT_WR)
        reply = b""
        while piece := stream.recv(1 << 16):
            reply += piece
    return reply
