"""What the scripts of bench/ and tests/ share: the built programs, and small files worked by hand (docs/FORMAT.md)."""
import os
import shutil
import subprocess
import sys

ROOT = os.path.dirname(os.path.dirname(os.path.realpath(__file__)))
TIME = shutil.which("time")
CRATES = os.path.join(ROOT, "crates")
# The file of the least container, one block of zeros.
LEAST_FILE = os.path.join(CRATES, "lepton", "stdin")

# The marker segments of a grey file; its height and width follow START.
START = bytes.fromhex("ffd8ffc0000b08")
ZEROS = "00" * 16
LEVEL = bytes.fromhex("01011100" + "ffc4001400" + "01" + ZEROS + "ffc4001410" + "01" + ZEROS)
STEPS = bytes.fromhex("01011100" + "ffc4001500" + "02" + ZEROS + "01" + "ffc4001410" + "01" + ZEROS)
RESTARTS = bytes.fromhex("ffdd00040001")
SCAN = bytes.fromhex("ffda0008010100003f00")
END = bytes.fromhex("ffd9")

# One block of zeros; three, one below another, with a restart after each; the same, padded with ones, zeros and ones;
# seventeen, each with a DC of one more; and 24,576 of zeros, which are worth three workers.
LEAST = START + bytes.fromhex("00080008") + LEVEL + SCAN + bytes.fromhex("3f") + END
THREE_HEADER = START + bytes.fromhex("00180008") + LEVEL + RESTARTS + SCAN
THREE = THREE_HEADER + bytes.fromhex("3fffd03fffd13f") + END
PADS = THREE_HEADER + bytes.fromhex("3fffd000ffd13f") + END
SEVENTEEN = START + bytes.fromhex("00880008") + STEPS + SCAN + bytes.fromhex("db6db6db6db6df") + END
LARGE = START + bytes.fromhex("06000400") + LEVEL + SCAN + bytes(24_576 // 4) + END


def built(crate="lepton", words=("encode",)):
    """Builds the program of a crate, runs it once with these arguments on the least file, and returns its path."""
    folder = os.path.join(CRATES, crate)
    with open(LEAST_FILE, "rb") as least:
        subprocess.run(["rt", "run", "--", *words], cwd=folder, stdin=least, stdout=subprocess.DEVNULL, check=True)
    return os.path.join(folder, "out", crate)


def chosen(program, crate="lepton", words=("encode",)):
    """The program that was given, or else the built one. If there is none, this script ends with a line that says so."""
    if program is None:
        try:
            return built(crate, words)
        except (OSError, subprocess.CalledProcessError) as why:
            sys.exit(f"{crate} can't be built: {why}")
    found = shutil.which(program)
    if found is None:
        sys.exit(f"there is no program at {program}")
    return os.path.abspath(found)


def peak_of(command, source):
    """Peak memory in bytes, as GNU time reports it: a process begins with its parent's peak, and time's is small."""
    with open(source, "rb") as stdin:
        ran = subprocess.run([TIME, "-f", "%M", *command], stdin=stdin, stdout=subprocess.DEVNULL, stderr=subprocess.PIPE)
    return int(ran.stderr.split()[-1]) * 1024
