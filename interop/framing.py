"""Packets in a file, framed by RFC 4571: each behind its length of 16 bits. The other tools use this; it is no command."""

import struct


def read(path):
    """The packets of a file."""
    with open(path, "rb") as f:
        data = f.read()
    packets = []
    at = 0
    while at < len(data):
        if len(data) < at + 2:
            raise SystemExit(f"{path}: ends within a length")
        (length,) = struct.unpack_from(">H", data, at)
        at += 2
        if len(data) < at + length:
            raise SystemExit(f"{path}: ends within a packet")
        packets.append(data[at : at + length])
        at += length
    return packets


def write(path, packets):
    """Packets as a file."""
    with open(path, "wb") as f:
        for packet in packets:
            f.write(struct.pack(">H", len(packet)) + packet)


def altered(data):
    """Bytes of which the one in the middle is another."""
    middle = len(data) // 2
    return data[:middle] + bytes([data[middle] ^ 0x55]) + data[middle + 1 :]
