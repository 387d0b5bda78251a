#!/usr/bin/env python3
"""Containers from Python: the program as a process for each file.

usage: examples/recode.py FILE [PROGRAM]     (a trial: encodes the file, decodes it, compares, and prints both lengths)
"""
import os
import signal
import subprocess
import sys
import threading

# The longest that a call may take, in seconds, and the most bytes that a decode may write: those of the largest file that is
# encoded. A container that isn't your own may decode to more than a million times its length.
LONGEST = 60
MOST = 67_108_864


class Damaged(Exception):
    """The bytes are no container of a file, or a damaged one: raise an alarm."""


class Failed(Exception):
    """The program could not do its work, as when it is out of memory or takes too long: try again."""


class WroteMore(Exception):
    """The program wrote more than it may."""


def feed(stdin, data):
    try:
        with stdin:
            stdin.write(data)
    except BrokenPipeError:
        pass


def end(process):
    """Kills the program, and what it started, as a script does that is given in its place."""
    try:
        os.killpg(process.pid, signal.SIGKILL)
    except ProcessLookupError:
        pass


def run(program, command, data, most):
    """Returns the status, the bytes and the line of a command over some bytes. It may write `most` bytes."""
    pipe = subprocess.PIPE
    try:
        process = subprocess.Popen([program, command], stdin=pipe, stdout=pipe, stderr=pipe, start_new_session=True)
    except OSError as why:
        raise Failed(str(why)) from why
    with process:
        clock = threading.Timer(LONGEST, end, (process,))
        clock.start()
        threading.Thread(target=feed, args=(process.stdin, data)).start()
        made = process.stdout.read(most + 1)
        if len(made) > most:
            end(process)
        line = process.stderr.read().decode(errors="replace").strip()
        status = process.wait()
        clock.cancel()
    if len(made) > most:
        raise WroteMore(f"it wrote more than {most} bytes")
    if status < 0:
        raise Failed("it took too long, or was killed")
    # The line too: a program that can't be loaded, as where glibc is too old, has status 1 as well.
    if status == 1 and not line.startswith("lepton: refused "):
        raise Failed(line or "status 1")
    return status, made, line


def encode(data: bytes, program: str = "lepton") -> bytes | None:
    """Returns the container of a JPEG file, or None if lepton refuses the file or no container is smaller: store it as it is."""
    try:
        # A container may be longer than its file.
        status, made, line = run(program, "encode", data, 2 * MOST)
        if status == 1:
            return None
        if status != 0:
            raise Failed(line or f"status {status}")
        if decode(made, program) != data:
            raise Failed("the file did not come back")
    except (WroteMore, Damaged) as why:
        raise Failed(f"the file did not come back: {why}") from why
    return made if len(made) < len(data) else None


def decode(container: bytes, program: str = "lepton") -> bytes:
    """Returns the file of a container."""
    try:
        status, file, line = run(program, "decode", container, MOST)
    except WroteMore as why:
        raise Damaged(str(why)) from why
    if status == 1:
        raise Damaged(line)
    if status != 0:
        raise Failed(line or f"status {status}")
    return file


if __name__ == "__main__":
    if len(sys.argv) < 2 or sys.argv[1].startswith("--"):
        print(__doc__)
        sys.exit(0 if "--help" in sys.argv else 2)
    with open(sys.argv[1], "rb") as it:
        file = it.read()
    try:
        made = encode(file, *sys.argv[2:])
    except (Failed, OSError) as why:
        sys.exit(f"{sys.argv[1]}: {why}")
    print("stored as it is" if made is None else f"{len(file)} {len(made)}")
