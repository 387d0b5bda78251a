"""lepton: JPEG files in fewer bytes, without loss, by calls of liblepton (docs/EMBEDDING.md).

    container = lepton.encode(photograph)
    assert lepton.decode(container) == photograph

Every call takes an object with bytes (bytes, bytearray, memoryview, mmap) and works in this process, on the calling thread,
without the interpreter's lock. The first call loads the library, and raises ImportError if it isn't there.
"""
from ._calls import MOST_OF_A_FILE, MOST_SEGMENTS, chunk, decode, encode, index, length, migrate, read_range
from ._errors import Damaged, Error, NoMemory, OldProcessor, Refused, TooLong

__all__ = [
    "MOST_OF_A_FILE", "MOST_SEGMENTS", "Damaged", "Error", "NoMemory", "OldProcessor", "Refused", "TooLong",
    "chunk", "decode", "encode", "index", "length", "migrate", "read_range",
]
