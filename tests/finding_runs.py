"""finding_runs: follows a run by the rows of its trace, for tests/findings.py.

It keeps disks of its own: the bytes of each sector, and which operation wrote it. Bios are
followed down, with the bytes that lines change, and up again with the answers. The trace's columns
`writers` and ` lost` are not used.
"""

from __future__ import annotations

import itertools

from finding_bios import ZEROES, Bio, Operation, Sector, Stored, changed_at, made_bios
from finding_tables import Bundle, Culprit, Piece, Table
from small_bundles import Column

CHANGES = ("write", "trim")


class Run:
    """A run, as far as its rows were followed."""

    def __init__(self, bundle: Bundle, rows: list[Column]) -> None:
        self.bundle = bundle
        self.live: dict[str, Table] = {}
        self.loaded: dict[str, Table] = {}
        self.disks: dict[tuple[str, int], tuple[bytes, Stored | None]] = {}
        self.bios: dict[int, Bio] = {}
        self.answers: list[Operation] = []
        # how many bytes of answers were changed into what they were
        self.unchanged = 0
        ways = {
            "control": self.control,
            "line": self.take,
            "map": self.map,
            "serve": self.serve,
            "finish": self.finish,
        }
        for row in rows:
            ways.get(row.event.split()[0], self.ignore)(row)

    def ignore(self, _: Column) -> None:
        """An event that changes nothing here."""

    def control(self, row: Column) -> None:
        """A step of the script."""
        words = self.bundle.script[int(row.line) - 1].split()
        if row.happened in ("create", "load") and words[2] != "--notable":
            slots = self.live if row.happened == "create" else self.loaded
            slots[row.device] = Table(self.bundle.tables[words[2]], int(row.clock))
        elif row.happened == "swap" and row.device in self.loaded:
            self.live[row.device] = self.loaded.pop(row.device)
        elif row.happened == "message":
            self.live[row.device].hear(int(words[2]), words[3:])
        elif row.happened in ("clear", "remove"):
            raise ValueError(f"no step of these bundles: {row.happened}")

    # ---- operations
    def changes(self, device: str, sector: int) -> list[Operation]:
        """The writes and trims of a sector that were answered ok, in the order of the answers."""
        return [
            it
            for it in self.answers
            if it.is_ok and it.kind in CHANGES and it.device == device and sector in it.sectors
        ]

    def claim(self, device: str, sector: int) -> Operation | None:
        """The write or trim that a read of this sector has to find, as it is issued now."""
        found = self.changes(device, sector)
        found = [it for it in found if sector - it.first not in it.zeroes]
        return max(found, key=lambda own: own.issued) if found else None

    def lost_at(self, device: str, sector: int) -> Operation | None:
        """The operation by which a sector stands lost now."""
        found = self.changes(device, sector)
        return found[-1] if found and sector - found[-1].first in found[-1].dropped else None

    def take(self, row: Column) -> None:
        """A log takes a line: if it is an operation, it is issued."""
        if row.bio == "-":
            return
        origin = (int(row.log), int(row.line))
        first, count = map(int, row.sectors.split("+"))
        kind = self.bundle.action(*origin)
        moment = int(row.clock)
        it = Operation(origin, kind, row.device, first, count, int(row.place), moment)
        if kind == "read":
            claims = {sector: self.claim(it.device, sector) for sector in it.sectors}
            it.claims = {sector: claim for sector, claim in claims.items() if claim}
        if kind in ("sync", "datasync"):
            own = [them.sectors for them in self.answers if them.device == it.device]
            for sector in sorted(set(itertools.chain(*own))):
                lost = self.lost_at(it.device, sector)
                it.stood.update({sector: lost} if lost else {})
        self.bios[int(row.bio)] = Bio(it, it.device, first, count, data=[it.fill] * count)

    def answer(self, bio: Bio, row: Column) -> None:
        """A bio is answered: it is an operation's, or the piece of another."""
        it = bio.operation
        if bio.parent:
            # what the line that made it changes of the answer
            for sector, old in enumerate(bio.answer):
                data = changed_at(old.data, bio.marks, sector)
                replaced = any(place // 512 == sector for place, _ in bio.marks)
                changed = bio.line if replaced else old.changed
                self.unchanged += replaced and data == old.data
                bio.parent.answer[bio.at + sector] = old._replace(data=data, changed=changed)
            return
        it.answered, it.took = int(row.place), int(row.clock) - it.moment
        it.is_ok, it.answer = row.happened != "EIO", bio.answer
        self.answers.append(it)

    # ---- bios
    def bio(self, row: Column) -> Bio:
        """The bio of a row, which has to be where the row tells."""
        bio = self.bios[int(row.bio)]
        if bio.operation.kind not in ("sync", "datasync"):
            told, wanted = (row.device, row.sectors), (bio.device, f"{bio.first}+{bio.count}")
            if told != wanted:
                raise ValueError(f"place {row.place}: {told}, and not {wanted}")
        return bio

    def map(self, row: Column) -> None:
        """A mapped device cuts a bio, and makes bios of its pieces."""
        bio, kind = self.bio(row), row.kind
        table, made = self.live[row.device], list(made_bios(row.happened))
        if kind == "flush":
            for number, _ in made:
                self.bios[number] = Bio(bio.operation, "", 0, 0, parent=bio)
            return
        pieces = list(table.pieces(kind, bio.first, bio.count, int(row.clock)))
        passed = [it for it in pieces if it.done == "passes"]
        if len(passed) != len(made) or any(it.done == "fails" for it in pieces) != (
            "failed" in row.happened
        ):
            raise ValueError(f"place {row.place}: {row.happened} of {pieces}")
        bio.answer = [Sector(ZEROES, is_zero=True)] * bio.count
        for piece in pieces:
            self.note(bio, piece)
        for piece, (number, marks) in zip(passed, made):
            self.bios[number] = self.child(bio, piece, marks)

    def note(self, bio: Bio, piece: Piece) -> None:
        """Notes the sectors of an operation that a line drops or answers with zeroes."""
        own = range(bio.base + piece.at, bio.base + piece.at + piece.count)
        if piece.done == "drops":
            by = Culprit(bio.device, piece.line.number, piece.line.target)
            bio.operation.dropped.update({sector: by for sector in own})
        elif piece.done == "zeroes":
            bio.operation.zeroes.update(own)

    def child(self, bio: Bio, piece: Piece, marks: list[tuple[int, int]]) -> Bio:
        """The bio that is made of a piece."""
        data = bio.data[piece.at : piece.at + piece.count]
        if bio.operation.kind == "write":
            data = [changed_at(it, marks, sector) for sector, it in enumerate(data)]
        return Bio(
            bio.operation,
            piece.line.device,
            piece.first,
            piece.count,
            bio.base + piece.at,
            bio,
            piece.at,
            Culprit(bio.device, piece.line.number, piece.line.target),
            marks,
            data,
        )

    def serve(self, row: Column) -> None:
        """A disk reads or writes."""
        bio = self.bio(row)
        for at in range(bio.count):
            place, own = (bio.device, bio.first + at), bio.base + at
            if row.kind == "read":
                data, writer = self.disks.get(place, (ZEROES, None))
                bio.answer.append(Sector(data, writer))
                continue
            spoiler = bio.spoiler(own) if row.kind == "write" else None
            if spoiler:
                bio.operation.spoiled[own] = spoiler
            self.disks[place] = bio.data[at], Stored(bio.operation, own, spoiler)
        self.answer(bio, row)

    def finish(self, row: Column) -> None:
        """A bio whose pieces are answered is answered."""
        bio = self.bio(row)
        if row.kind != "read":
            bio.answer = []
        self.answer(bio, row)
