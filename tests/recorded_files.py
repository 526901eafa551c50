"""recorded_files: makes recordings of dm-log-writes as the kernel and QEMU write them, and replays
them, for tests/recordings.py and tests/aftermath.py. It shares nothing with the tools that read
them.
"""

from __future__ import annotations

import lzma
import struct
from typing import Iterator, NamedTuple

MAGIC = 0x6A736677736872
FLUSH, FUA, DISCARD, MARK = 1, 2, 4, 8


class Entry(NamedTuple):
    """An entry: its first sector and how many, its flags, its data, and a mark's text."""

    first: int = 0
    size: int = 0
    flags: int = 0
    data: bytes = b""
    mark: bytes = b""


def write(first: int, data: bytes, flags: int = 0) -> Entry:
    """A write of whole sectors of 512 bytes."""
    return Entry(first, len(data) // 512, flags, data)


def fill(value: int, sectors: int = 1) -> bytes:
    """Sectors of one byte."""
    return bytes([value]) * (512 * sectors)


def entry_bytes(entry: Entry, sector: int) -> bytes:
    """An entry as a recorder writes it, by sectors of this size."""
    scale = sector // 512
    numbers = (entry.first // scale, entry.size // scale, entry.flags, len(entry.mark))
    return (struct.pack("<QQQQ", *numbers) + entry.mark).ljust(sector, b"\0") + entry.data


def recording(
    entries: list[Entry], sector: int = 512, magic: int = MAGIC, version: int = 1
) -> bytes:
    """A recording of these entries."""
    head = struct.pack("<QQQI", magic, version, len(entries), sector).ljust(sector, b"\0")
    return head + b"".join(entry_bytes(entry, sector) for entry in entries)


def entries_of(path: str) -> Iterator[Entry]:
    """The entries of a packed recording of QEMU, which has no discard and no mark."""
    with lzma.open(path) as file:
        count = struct.unpack("<QQQI", file.read(512)[:28])[2]
        for _ in range(count):
            first, size, flags, _ = struct.unpack("<QQQQ", file.read(512)[:32])
            yield Entry(first, size, flags, file.read(512 * size))


def disk_after(entries: list[Entry], sectors: int) -> bytearray:
    """A disk of zeroes after these entries, one after another."""
    disk = bytearray(512 * sectors)
    for first, size, flags, data, _ in entries:
        disk[512 * first : 512 * (first + size)] = bytes(512 * size) if flags & DISCARD else data
    return disk
