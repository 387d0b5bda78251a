"""The shared library, and its structure and functions as include/lepton.h has them."""
from __future__ import annotations

import ctypes
import functools
import os
from pathlib import Path

NAME = "liblepton.so.1"


class Ending(ctypes.Structure):
    """struct lepton_ending."""

    _fields_ = [
        ("status", ctypes.c_uint8),
        ("number", ctypes.c_uint8),
        ("inner", ctypes.c_uint8),
        ("detail", ctypes.c_uint64),
        ("length", ctypes.c_uint64),
        ("wanted", ctypes.c_uint64),
    ]


_READ = [ctypes.c_char_p, ctypes.c_size_t]
_WRITTEN = [ctypes.c_char_p, ctypes.c_size_t, ctypes.POINTER(Ending)]
_BYTE, _NUMBER = ctypes.c_uint8, ctypes.c_uint64
PARAMETERS = {
    "lepton_encode": [_BYTE, *_READ, *_WRITTEN],
    "lepton_decode": [*_READ, *_WRITTEN],
    "lepton_migrate": [*_READ, *_WRITTEN],
    "lepton_chunk": [_NUMBER, _NUMBER, _BYTE, *_READ, *_WRITTEN],
    "lepton_index": [*_READ, *_WRITTEN],
    "lepton_range": [_NUMBER, _NUMBER, *_READ, *_WRITTEN],
    "lepton_length": [*_READ, ctypes.POINTER(Ending)],
}


@functools.lru_cache(maxsize=None)
def library() -> ctypes.CDLL:
    """The library, loaded by the first call: the file that LEPTON_LIBRARY names, or the one beside this package, or else the one
    that the loader finds."""
    named = os.environ.get("LEPTON_LIBRARY")
    beside = Path(__file__).with_name(NAME)
    path = named or (str(beside) if beside.exists() else NAME)
    try:
        found = ctypes.CDLL(path)
        for name, parameters in PARAMETERS.items():
            function = getattr(found, name)
            function.argtypes = parameters
            function.restype = ctypes.c_uint8
    except (OSError, AttributeError) as why:
        raise ImportError(f"lepton: {path} can't be loaded: {why}. LEPTON_LIBRARY names its file.") from why
    return found
