"""The seven calls."""
from __future__ import annotations

import ctypes
import operator
from typing import Sequence, Union

from ._errors import NoMemory, OldProcessor, TooLong, refusal
from ._library import Ending, library

Bytes = Union[bytes, bytearray, memoryview]

#: The most bytes of a file that is encoded, and the most segments of a container.
MOST_OF_A_FILE = 67_108_864
MOST_SEGMENTS = 64

_DONE, _REFUSED, _BAD_CALL, _NO_ROOM, _NO_MEMORY, _OLD_PROCESSOR = 0, 1, 2, 4, 5, 6
# Refusals of these numbers are the caller's, also of the calls that read a container.
_WRONG_VERSION, _RANGE_BAD = 31, 54


def _bytes(data: Bytes) -> bytes:
    return data if type(data) is bytes else memoryview(data).tobytes()


def _number(value: int, first: int, last: int, what: str) -> int:
    """A number that the C function takes as it is: ctypes cuts off what doesn't fit."""
    value = operator.index(value)
    if not first <= value <= last:
        raise ValueError(f"{what} must be {first} to {last}, and not {value}")
    return value


def _raise(name: str, ending: Ending, given: bytes) -> None:
    """Raises what an ending other than 0 and 4 means."""
    if ending.status == _REFUSED:
        is_reader = name in ("lepton_migrate", "lepton_index", "lepton_range")
        is_damaged = name in ("lepton_decode", "lepton_length") or (
            is_reader and ending.number not in (_WRONG_VERSION, _RANGE_BAD)
        )
        raise refusal(ending.number, ending.inner, ending.detail, is_damaged, given)
    if ending.status == _NO_MEMORY:
        raise NoMemory(name)
    if ending.status == _OLD_PROCESSOR:
        raise OldProcessor("the processor isn't an x86-64-v2")
    raise ValueError(f"{name}: status {ending.status}")


def _call(name: str, first: Sequence[int], data: bytes, room: int, most: int) -> bytes:
    """What a call writes. It gets `room` bytes, and more, up to `most`, if that is too little."""
    while True:
        try:
            out = ctypes.create_string_buffer(max(room, 1))
        except MemoryError as why:
            raise NoMemory(f"{name}: {room} bytes") from why
        ending = Ending()
        getattr(library(), name)(*first, data, len(data), out, room, ctypes.byref(ending))
        if ending.status != _NO_ROOM:
            break
        # The room that is needed, if the call knows it.
        wanted = ending.wanted or min(4 * room + 1, most)
        if wanted > most or wanted <= room:
            raise TooLong(f"{name}: more than {most} bytes")
        room = wanted
    given = ctypes.string_at(out, ending.length)
    if ending.status != _DONE:
        _raise(name, ending, given)
    return given


def encode(file: Bytes, segments: int = 1) -> bytes:
    """The container of a JPEG file, of at most `segments` segments (1 to 64). It may be longer than a small file.

    Raises Refused if the file isn't accepted: store it as it is.
    """
    data = _bytes(file)
    _number(segments, 1, MOST_SEGMENTS, "segments")
    return _call("lepton_encode", [segments], data, len(data) + 4096, 8 * len(data) + (1 << 20))


def decode(container: Bytes, most: int = MOST_OF_A_FILE) -> bytes:
    """The file of a container, or the chunk that it has.

    Raises Damaged if it is no container or a damaged one, and TooLong if the file has more than `most` bytes: no file that is
    encoded has more than 64 MiB, but a crafted container of 148 bytes decodes to 134 MB. With the file's length as `most` a
    container of another file costs the least.
    """
    data = _bytes(container)
    most = _number(most, 0, (1 << 63) - 1, "most")
    return _call("lepton_decode", [], data, min(most, 2 * len(data) + 65536), most)


def migrate(container: Bytes) -> bytes:
    """The same container, of version 1 or 2, in version 2. Raises Refused with 31 of another version."""
    data = _bytes(container)
    return _call("lepton_migrate", [], data, len(data) + 64, 2 * len(data) + 4096)


def chunk(file: Bytes, index: int, size: int = 4_194_304, segments: int = 1) -> bytes:
    """The container of the file's bytes from `index` times `size` on, `size` of them or up to its end.

    Raises Refused if the file isn't accepted, with 51 if it ends before that place, and with 52 if it has several scans.
    """
    data = _bytes(file)
    numbers = [
        _number(index, 0, (1 << 64) - 1, "index"),
        _number(size, 1, (1 << 64) - 1, "size"),
        _number(segments, 1, MOST_SEGMENTS, "segments"),
    ]
    room = min(numbers[1], len(data)) + 131_072
    return _call("lepton_chunk", numbers, data, room, 8 * len(data) + (1 << 20))


def index(container: Bytes) -> bytes:
    """The same container, of version 1, 2 or 5, in version 5, which `read_range` reads; the container is decoded for that.

    Raises Refused with 31 of another version, and Damaged.
    """
    data = _bytes(container)
    return _call("lepton_index", [], data, len(data) + 1024, 2 * len(data) + 4096)


def read_range(container: Bytes, start: int, stop: int, most: int = MOST_OF_A_FILE) -> bytes:
    """The file's bytes from place `start` to before place `stop`, of a container of version 5.

    Raises Refused with 54 if the file has no such range and with 31 of another version, TooLong if the range has more than `most`
    bytes, and Damaged.
    """
    data = _bytes(container)
    start = _number(start, 0, (1 << 64) - 1, "start")
    stop = _number(stop, 0, (1 << 64) - 1, "stop")
    room = min(max(stop - start, 0), _number(most, 0, (1 << 63) - 1, "most"))
    return _call("lepton_range", [start, stop], data, room, room)


def length(container: Bytes) -> int:
    """How many bytes `decode` gives of this container. It takes as long as `decode`, but no room. Raises Damaged."""
    data = _bytes(container)
    ending = Ending()
    library().lepton_length(data, len(data), ctypes.byref(ending))
    if ending.status != _DONE:
        _raise("lepton_length", ending, b"")
    return int(ending.wanted)
