"""The package on small files that are made here: one block, and 4,096 blocks that become smaller."""
import concurrent.futures
import mmap
import os
import pickle
import subprocess
import sys
import threading
import time

import pytest

import lepton

ZEROS = "00" * 16
TABLES = bytes.fromhex("01011100" + "ffc4001400" + "01" + ZEROS + "ffc4001410" + "01" + ZEROS)
SCAN = bytes.fromhex("ffda0008010100003f00")


def photograph(rows: int, columns: int, scan: bytes) -> bytes:
    """A grey picture; each of its blocks is two bits."""
    size = rows.to_bytes(2, "big") + columns.to_bytes(2, "big")
    return bytes.fromhex("ffd8ffc0000b08") + size + TABLES + SCAN + scan + bytes.fromhex("ffd9")


LEAST = photograph(8, 8, b"\x3f")
FLAT = photograph(512, 512, bytes(1024))
LARGE = photograph(4096, 4096, bytes(65536))
PROGRESSIVE = b"\xff\xd8\xff\xc2" + FLAT[4:]


def test_there_and_back() -> None:
    for file in (LEAST, FLAT, LARGE, FLAT + b"a trailer"):
        for segments in (1, 8, 64):
            container = lepton.encode(file, segments=segments)
            assert lepton.decode(container) == file
            assert lepton.length(container) == len(file)
            assert lepton.migrate(container) == container
            placed = lepton.index(container)
            assert lepton.decode(placed) == file
            assert lepton.index(placed) == placed
            for start, stop in ((0, len(file)), (0, 0), (len(file), len(file)), (1, 2), (len(file) // 2, len(file) - 1)):
                assert lepton.read_range(placed, start, stop) == file[start:stop]
    assert len(lepton.encode(FLAT)) < len(FLAT)
    assert len(lepton.encode(LEAST)) > len(LEAST)


def test_chunks_are_the_file() -> None:
    size = 300
    chunks = [lepton.chunk(FLAT, index, size) for index in range(-(-len(FLAT) // size))]
    assert b"".join(map(lepton.decode, chunks)) == FLAT
    with pytest.raises(lepton.Refused) as refused:
        lepton.chunk(FLAT, len(chunks), size)
    assert (refused.value.number, refused.value.name) == (51, "NoChunk")
    assert lepton.decode(lepton.chunk(FLAT, 0)) == FLAT


def test_objects_with_bytes(tmp_path) -> None:
    container = lepton.encode(FLAT)
    assert lepton.encode(bytearray(FLAT)) == lepton.encode(memoryview(FLAT)) == container
    assert lepton.encode(memoryview(b"a" + FLAT)[1:]) == container
    path = tmp_path / "a.jpg"
    path.write_bytes(FLAT)
    with open(path, "rb") as file, mmap.mmap(file.fileno(), 0, access=mmap.ACCESS_READ) as mapped:
        assert lepton.encode(mapped) == container
    for wrong in (5, "text", None):
        with pytest.raises(TypeError):
            lepton.encode(wrong)


@pytest.mark.parametrize(
    "bytes_, number, name, place, line",
    [
        (b"", 1, "NotJpeg", None, "refused 1 NotJpeg"),
        (b"text", 1, "NotJpeg", None, "refused 1 NotJpeg"),
        (PROGRESSIVE, 4, "NotBaseline", 194, "refused 4 NotBaseline code 194"),
        (FLAT[:3], 2, "HeaderCut", None, "refused 2 HeaderCut"),
        (FLAT[:700], 16, "ScanCut", 700, "refused 16 ScanCut at 700"),
    ],
)
def test_refused(bytes_, number, name, place, line) -> None:
    for call in (lepton.encode, lambda it: lepton.chunk(it, 0)):
        with pytest.raises(lepton.Refused) as raised:
            call(bytes_)
        refused = raised.value
        assert (refused.number, refused.name, refused.place, str(refused)) == (number, name, place, line)
        again = pickle.loads(pickle.dumps(refused))
        assert (type(again), str(again), again.place) == (lepton.Refused, line, place)


def test_damaged() -> None:
    container = lepton.encode(FLAT)
    placed = lepton.index(container)
    readers = (lepton.decode, lepton.length, lepton.migrate, lepton.index, lambda it: lepton.read_range(it, 0, 9))
    for call in readers:
        for bytes_, line in ((b"", "refused 30 BoxMagic"), (b"text", "refused 30 BoxMagic"), (placed[:-1], "refused 32 BoxCut")):
            if call is lepton.migrate and bytes_ == placed[:-1]:
                bytes_ = container[:-1]
            with pytest.raises(lepton.Damaged) as raised:
                call(bytes_)
            assert str(raised.value) == line
    # 19 and 22 bytes of fields come before the header.
    with pytest.raises(lepton.Damaged) as raised:
        lepton.decode(container[:41] + b"\0" + container[42:])
    assert (raised.value.inner, str(raised.value)) == (1, "refused 33 BoxHeader 1 NotJpeg")
    assert str(pickle.loads(pickle.dumps(raised.value))) == str(raised.value)


def test_the_bytes_before_a_fault() -> None:
    # Streams of other files of this size: their headers are alike.
    two = lepton.encode(LARGE, segments=2)
    damaged = two[:-1] + bytes([two[-1] ^ 0xFF])
    with pytest.raises(lepton.Damaged) as raised:
        lepton.decode(damaged)
    before = raised.value.before
    assert 0 < len(before) < len(LARGE) and LARGE.startswith(before)
    assert raised.value.name in str(raised.value) and raised.value.place == 1


def test_wrong_calls() -> None:
    container = lepton.encode(FLAT)
    placed = lepton.index(container)
    for segments in (0, 65, 257, -1, 1 << 64):
        with pytest.raises(ValueError):
            lepton.encode(FLAT, segments=segments)
        with pytest.raises(ValueError):
            lepton.chunk(FLAT, 0, segments=segments)
    for call in (
        lambda: lepton.chunk(FLAT, -1),
        lambda: lepton.chunk(FLAT, 1 << 64),
        lambda: lepton.chunk(FLAT, 0, 0),
        lambda: lepton.read_range(placed, -1, 1),
        lambda: lepton.read_range(placed, 0, 1 << 64),
        lambda: lepton.decode(container, most=-1),
    ):
        with pytest.raises(ValueError):
            call()
    with pytest.raises(TypeError):
        lepton.encode(FLAT, segments=1.5)
    for start, stop in ((0, len(FLAT) + 1), (2, 1), (0, (1 << 64) - 1)):
        with pytest.raises(lepton.Refused) as refused:
            lepton.read_range(placed, start, stop)
        assert (refused.value.number, str(refused.value)) == (54, "refused 54 RangeBad")
    for call in (lambda: lepton.read_range(container, 0, 1), lambda: lepton.migrate(placed)):
        with pytest.raises(lepton.Refused) as refused:
            call()
        assert refused.value.number == 31


def test_most() -> None:
    container = lepton.encode(LARGE)
    assert lepton.decode(container, most=len(LARGE)) == LARGE
    for most in (len(LARGE) - 1, 1, 0):
        with pytest.raises(lepton.TooLong):
            lepton.decode(container, most=most)
    with pytest.raises(lepton.TooLong):
        lepton.read_range(lepton.index(container), 0, 100, most=99)


def test_threads_run_side_by_side() -> None:
    """A call gives the interpreter's lock back: this thread counts while another one decodes."""
    largest = photograph(8192, 8192, bytes(262144))
    container = lepton.encode(largest)
    done = threading.Event()
    back = []

    def decode() -> None:
        back.append(lepton.decode(container))
        done.set()

    threading.Thread(target=decode).start()
    count, start = 0, time.monotonic()
    while not done.is_set() and time.monotonic() - start < 60:
        time.sleep(0.001)
        count += 1
    assert back == [largest] and count > 5


def test_many_threads() -> None:
    files = [LEAST, FLAT, LARGE] * 20
    with concurrent.futures.ThreadPoolExecutor(8) as pool:
        containers = list(pool.map(lepton.encode, files))
        assert list(pool.map(lepton.decode, containers)) == files


def test_a_library_that_is_not_there() -> None:
    command = [sys.executable, "-c", "import lepton; lepton.encode(b'')"]
    for path in ("/nowhere/liblepton.so.1", "libc.so.6"):
        ran = subprocess.run(command, env={**os.environ, "LEPTON_LIBRARY": path}, stderr=subprocess.PIPE, check=False)
        assert ran.returncode == 1 and b"ImportError: lepton: " in ran.stderr and path.encode() in ran.stderr
