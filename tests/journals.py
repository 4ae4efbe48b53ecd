"""Journals that a test begins with, as docs/FORMATS.md has them."""

LAYOUT = 3
GROUP, BID = b"red", 10


def of_stands(node: int, nodes: int, capacity: int, stands: int) -> bytes:
    """The journal of a node that stood for so many terms of `red`, from 1 on, and heard nothing."""
    header = b"CRJRNL02" + bytes([node, nodes]) + capacity.to_bytes(4, "big") + bytes(2)
    snapshot = bytes(42)
    area = bytes([1, LAYOUT]) + (1).to_bytes(8, "big") + len(snapshot).to_bytes(4, "big") + snapshot
    for term in range(1, stands + 1):
        record = bytes([1, len(GROUP)]) + GROUP + term.to_bytes(4, "big") + BID.to_bytes(4, "big")
        area += b"\1" + (1).to_bytes(2, "big") + len(record).to_bytes(4, "big") + record
    return (header + area).ljust(46 + 2 * capacity, b"\0")
