"""recorded_image: an image of a device, of which only what was written is held, for
tools/aftermath.
"""

from __future__ import annotations

import hashlib
import os
from typing import Iterator

from dmlab_tools.fio_logs import Fault, Place

SECTOR = 512
CHUNK = 128 * SECTOR
ZEROES = bytes(CHUNK)


class Image:
    """An image of so many bytes, which are zero at first."""

    def __init__(self, size: int) -> None:
        self.size = size
        self.chunks: dict[int, bytearray] = {}

    def chunk(self, number: int) -> bytearray:
        """A part of the image that may be written to."""
        if number not in self.chunks:
            self.chunks[number] = bytearray(CHUNK)
        return self.chunks[number]

    def write(self, at: int, data: bytes) -> None:
        """Puts some bytes at a place."""
        done = 0
        while done < len(data):
            number, skipped = divmod(at + done, CHUNK)
            size = min(CHUNK - skipped, len(data) - done)
            self.chunk(number)[skipped : skipped + size] = data[done : done + size]
            done += size

    def filled(self) -> Iterator[tuple[int, bytes]]:
        """The parts that aren't all zero, each with the byte at which it begins."""
        for number in sorted(self.chunks):
            part = self.chunks[number]
            if part != ZEROES:
                yield number * CHUNK, bytes(part)

    def digest(self) -> str:
        """What the image is known by."""
        found = hashlib.blake2b(b"%d" % self.size, digest_size=16)
        for at, part in self.filled():
            found.update(b"%d:" % at + part)
        return found.hexdigest()

    def save(self, path: str) -> None:
        """Writes the image, with holes where it is zero."""
        try:
            with open(path, "wb") as file:
                for at, part in self.filled():
                    file.seek(at)
                    file.write(part[: self.size - at])
                file.truncate(self.size)
        except OSError as error:
            if os.path.exists(path):
                os.remove(path)
            hint = f"the image has {self.size} bytes, and TMPDIR=FOLDER or --keep tells where"
            raise Fault(Place(path, 0), f"{error.strerror}: {hint}") from error


def read_image(path: str, size: int) -> Image:
    """The image that a file has, up to this size."""
    image = Image(size)
    try:
        with open(path, "rb") as file:
            for at in range(0, size, CHUNK):
                if part := file.read(min(CHUNK, size - at)):
                    image.write(at, part)
    except OSError as error:
        raise Fault(Place(path, 0), error.strerror) from error
    return image


def difference(one: Image, other: Image) -> int | None:
    """The first sector in which two images differ, or None."""
    for number in sorted({*one.chunks, *other.chunks}):
        ones, others = (bytes(it.chunks.get(number, ZEROES)) for it in (one, other))
        if ones != others:
            return number * CHUNK // SECTOR + next(
                at // SECTOR
                for at in range(0, CHUNK, SECTOR)
                if ones[at : at + SECTOR] != others[at : at + SECTOR]
            )
    return None
