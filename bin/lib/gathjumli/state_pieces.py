"""Bytes that many states of one run have in common, as pages and cylinders, each kept once by its hash."""
from __future__ import annotations

from collections.abc import Iterable
import contextlib
import hashlib
import os
import tempfile
import zlib

DIGEST_BYTES = 16
# a piece that is shorter is kept as it is
FEW_BYTES = 128
QUICKLY = 1
# a piece of this size goes to a file if it cannot be packed to less than this share
BLOCK, WORTH = 4096, 0.75
# if its first bytes have so many different values, it is not tried to pack it
FIRST_BYTES, MANY_VALUES = 512, 200


class Blocks:
    """Blocks of bytes in a file that no folder has, which goes with the program."""

    def __init__(self) -> None:
        self.file = tempfile.TemporaryFile(buffering=0)
        self.count = 0
        self.free: list[int] = []

    def write(self, block: bytes) -> int:
        """The number of the block that these bytes have then."""
        number = self.free[-1] if self.free else self.count
        if os.pwrite(self.file.fileno(), block, BLOCK * number) < BLOCK:
            raise OSError("the file is full")
        if self.free:
            self.free.pop()
        else:
            self.count += 1
        return number

    def read(self, number: int) -> bytes:
        return os.pread(self.file.fileno(), BLOCK, BLOCK * number)

    def used(self) -> int:
        """How many bytes the blocks take."""
        return BLOCK * (self.count - len(self.free))


class Pieces:
    """Pieces of bytes by their numbers, from 1 on: packed in memory, and pages that cannot be packed in a file."""

    def __init__(self) -> None:
        self.numbers: dict[bytes, int] = {}
        # the bytes of each piece, or its block
        self.kept: dict[int, tuple[bytes, bytes | int]] = {}
        self.blocks = Blocks()
        self.next = 1
        # how many bytes they take in memory
        self.size = 0

    def keep(self, piece: bytes) -> int:
        """The number of a piece, which is kept if it is new."""
        digest = hashlib.blake2b(piece, digest_size=DIGEST_BYTES).digest()
        number = self.numbers.get(digest)
        if number is None:
            number = self.numbers[digest] = self.next
            packed = self.packed(piece)
            self.kept[number] = (digest, packed)
            self.next += 1
            self.size += len(packed) if isinstance(packed, bytes) else 0
        return number

    def packed(self, piece: bytes) -> bytes | int:
        """What is kept of a piece: its bytes, those packed, or the number of a block. A file that is full has no more of them."""
        if len(piece) < FEW_BYTES:
            return piece
        is_page = len(piece) == BLOCK
        is_noise = is_page and len(set(piece[:FIRST_BYTES])) > MANY_VALUES
        packed = piece if is_noise else zlib.compress(piece, QUICKLY)
        if is_page and len(packed) > WORTH * BLOCK:
            with contextlib.suppress(OSError):
                return self.blocks.write(piece)
        return packed if len(packed) < len(piece) else piece

    def piece(self, number: int, size: int) -> bytes:
        """The piece of a number, of which the size is known."""
        packed = self.kept[number][1]
        if isinstance(packed, int):
            return self.blocks.read(packed)
        return packed if len(packed) == size else zlib.decompress(packed)

    def forget_others(self, used: Iterable[int]) -> None:
        """Forgets all pieces but these."""
        wanted = set(used)
        for number in [number for number in self.kept if number not in wanted]:
            digest, packed = self.kept.pop(number)
            del self.numbers[digest]
            if isinstance(packed, int):
                self.blocks.free.append(packed)
            else:
                self.size -= len(packed)
