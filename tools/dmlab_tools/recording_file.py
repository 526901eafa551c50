"""recording_file: reads what dm-log-writes records of a device: the kernel's target, or QEMU's
driver blklogwrites, which writes the same format.

All numbers are little-endian. The first sector has the magic, the version, how many entries there
are, and the bytes of a sector. Each entry begins with a sector of its own: the first sector of its
data on the device, how many these are, flags, and the bytes of a mark's text, which stands in this
sector too. Behind it stands the data; a discard has none. Sectors are counted in the size that the
first sector tells, by both recorders: so says dm-log-writes.c of Linux 6.1, and so do recordings of
QEMU 7.2 with sectors of 512 and of 4,096 bytes. A file may be packed by xz or gzip.
"""

from __future__ import annotations

import gzip
import lzma
import mmap
import struct
from typing import BinaryIO, Iterator, NamedTuple, Union, cast

from dmlab_tools.fio_logs import Fault, Place

MAGIC, VERSION = 0x6A736677736872, 1
FLUSH, FUA, DISCARD, MARK, METADATA = 1, 2, 4, 8, 16
HEAD, ENTRY = struct.Struct("<QQQI"), struct.Struct("<QQQQ")
SECTOR = 512
WHOLE = "copy the whole recording once its recorder has ended"

Bytes = Union[bytes, mmap.mmap]


class Entry(NamedTuple):
    """An entry: its number from 1 on, its sectors of 512 bytes, its flags, where its data stands
    in the recording, and a mark's text.
    """

    number: int
    first: int
    size: int
    flags: int
    at: int
    mark: str


class Recording(NamedTuple):
    """A recording: its path, its bytes and its entries."""

    path: str
    data: Bytes
    entries: list[Entry]

    def bytes_of(self, number: int, first: int, count: int) -> bytes:
        """So many sectors of an entry's data, from the first one on, which is counted from 0."""
        at = self.entries[number - 1].at + first * SECTOR
        return self.data[at : at + count * SECTOR]


def entry_place(path: str, number: int) -> Place:
    """The place of an entry, for what is refused."""
    return Place(f"{path}, entry {number}", 0)


def read_all(file: BinaryIO) -> Bytes:
    """What a file has: unpacked if it is packed, else as a map of the file."""
    head = file.read(6)
    file.seek(0)
    if head == b"\xfd7zXZ\x00":
        return lzma.open(file).read()
    if head[:2] == b"\x1f\x8b":
        return gzip.open(file).read()
    return mmap.mmap(file.fileno(), 0, access=mmap.ACCESS_READ) if head else b""


def read_bytes(path: str) -> Bytes:
    """The bytes of a recording."""
    try:
        with open(path, "rb") as file:
            return read_all(cast(BinaryIO, file))
    except (lzma.LZMAError, EOFError, gzip.BadGzipFile) as error:
        raise Fault(Place(path, 0), f"it can't be unpacked: {error}: {WHOLE}") from error
    except OSError as error:
        raise Fault(Place(path, 0), error.strerror or str(error)) from error
    except ValueError as error:
        raise Fault(Place(path, 0), f"it can't be read as a file: {error}") from error


def read_head(path: str, data: Bytes) -> tuple[int, int]:
    """How many entries a recording has, and the bytes of its sectors."""
    place = Place(path, 0)
    if len(data) < SECTOR:
        why = f"cut off: a recording begins with a sector of {SECTOR} bytes, and this file has"
        raise Fault(place, f"{why} {len(data)}: {WHOLE}")
    magic, version, count, size = HEAD.unpack_from(data)
    if magic != MAGIC:
        raise Fault(
            place,
            f"no recording of dm-log-writes: it begins with {magic:#x}, and not with the magic "
            f"{MAGIC:#x}: take the log's file or device, and not the disk's",
        )
    if version != VERSION:
        raise Fault(place, f"a recording of version {version}, and only {VERSION} is known")
    if size < SECTOR or size & (size - 1) or size > 65536:
        raise Fault(place, f"its sectors have {size} bytes, and not a power of two from {SECTOR}")
    if count == 0:
        raise Fault(
            place, "no entry: end the recorder first, which writes their number at its end"
        )
    return count, size


def read_entry(path: str, data: Bytes, number: int, at: int, size: int) -> Entry:
    """The entry that begins at a byte, where sectors have this size."""
    place, cut = entry_place(path, number), f"the file ends at byte {len(data)}: {WHOLE}"
    if at + size > len(data):
        raise Fault(place, f"cut off: it begins at byte {at}, and {cut}")
    sector, count, flags, text = ENTRY.unpack_from(data, at)
    if flags >= 32:
        raise Fault(place, f"its flags are {flags}, and those that are known make at most 31")
    mark = ""
    if flags & MARK:
        begin = at + ENTRY.size
        mark = data[begin : begin + min(text, size - ENTRY.size)].decode("utf-8", "replace")
    scale = size // SECTOR
    entry = Entry(number, sector * scale, count * scale, flags, at + size, mark)
    if end_of(entry) > len(data):
        raise Fault(place, f"cut off: its data ends at byte {end_of(entry)}, and {cut}")
    return entry


def end_of(entry: Entry) -> int:
    """Where an entry ends in its recording."""
    return entry.at + (0 if entry.flags & DISCARD else entry.size * SECTOR)


def entries_of(path: str, data: Bytes) -> Iterator[Entry]:
    """The entries of a recording."""
    count, size = read_head(path, data)
    at = size
    for number in range(1, count + 1):
        entry = read_entry(path, data, number, at, size)
        yield entry
        at = end_of(entry)


def read_recording(path: str) -> Recording:
    """A recording, whose entries are all there."""
    data = read_bytes(path)
    return Recording(path, data, list(entries_of(path, data)))
