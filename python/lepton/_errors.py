"""What a call raises."""
from __future__ import annotations

from typing import Optional

# The refusals by number: the name, and the word before the place, the code or the segment, if there is one. docs/JPEG.md says
# what 1 to 24 mean, docs/FORMAT.md the others.
REFUSALS = {
    1: ("NotJpeg", ""), 2: ("HeaderCut", ""), 3: ("MarkerBad", "at"), 4: ("NotBaseline", "code"), 5: ("LengthBad", "at"),
    6: ("FrameTwice", ""), 7: ("PrecisionBad", ""), 8: ("SizeZero", ""), 9: ("ComponentsBad", ""), 10: ("TableBad", "at"),
    11: ("NoFrame", ""), 12: ("MultiScan", ""), 13: ("ScanParams", ""), 14: ("NoTable", ""), 15: ("TooManyBlocks", ""),
    16: ("ScanCut", "at"), 17: ("CodeBad", "at"), 18: ("SymbolBad", "at"), 19: ("RunPast", "at"), 20: ("LooseZeros", "at"),
    21: ("DcRange", "at"), 22: ("MarkerInScan", "at"), 23: ("RestartBad", "at"), 24: ("MixedPad", "at"),
    30: ("BoxMagic", ""), 31: ("BoxVersion", ""), 32: ("BoxCut", ""), 33: ("BoxHeader", ""), 34: ("BoxSegments", ""),
    35: ("BoxPad", ""), 36: ("HandoverBad", "segment"), 37: ("BoxLong", ""), 38: ("HeaderLong", "at"), 39: ("BoxChunk", ""),
    40: ("BlockCount", "segment"), 41: ("DcRange", "segment"), 42: ("DiffRange", "segment"), 43: ("NoCode", "segment"),
    44: ("Seam", "segment"), 45: ("StreamBad", "segment"), 46: ("PadSpelling", ""), 47: ("ChunkShort", ""),
    48: ("PlaceBad", "segment"), 50: ("TooLong", ""), 51: ("NoChunk", ""), 52: ("ManyScans", ""), 53: ("BoxPlaces", ""),
    54: ("RangeBad", ""),
}  # fmt: skip


class Error(Exception):
    """What a call of this package raises, but for ValueError and TypeError of wrong arguments."""


class _Refusal(Error):
    def __init__(self, number: int, name: str, place: Optional[int] = None, inner: int = 0, before: bytes = b"") -> None:
        super().__init__(number, name, place, inner, before)
        #: the refusal's number, 1 to 54
        self.number = number
        #: its name, as "TableBad"
        self.name = name
        #: the place in the bytes (a byte's offset), the marker's code or the segment, as the name says; None if it has none
        self.place = place
        #: of number 33 the number of the header's refusal, to which `place` belongs; else 0
        self.inner = inner
        #: what `decode` or `read_range` had decoded before the fault: never a whole answer
        self.before = before

    def __str__(self) -> str:
        """The program's line, without its name."""
        said = f"refused {self.number} {self.name}"
        number = self.number
        if self.inner:
            number = self.inner
            said += f" {number} {REFUSALS[number][0]}"
        if self.place is not None:
            said += f" {REFUSALS[number][1]} {self.place}"
        return said


class Refused(_Refusal):
    """The bytes aren't accepted. Of `encode` and `chunk`: store the file as it is. Of `migrate`, `index` and `read_range`: the
    container is of another version (31), or the range isn't one of the file (54)."""


class Damaged(_Refusal):
    """The container is damaged or foreign: raise an alarm."""


class TooLong(Error):
    """The answer has more bytes than `most`."""


class NoMemory(Error, MemoryError):
    """Out of memory; nothing was done."""


class OldProcessor(Error):
    """The processor isn't an x86-64-v2; nothing was done."""


def refusal(number: int, inner: int, detail: int, is_damaged: bool, before: bytes) -> _Refusal:
    """The exception of an ending's numbers."""
    name = REFUSALS.get(number, ("", ""))[0]
    has_place = bool(REFUSALS.get(inner or number, ("", ""))[1])
    kind = Damaged if is_damaged else Refused
    return kind(number, name, detail if has_place else None, inner, before)
