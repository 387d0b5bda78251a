"""Makes the wheel of the package, as pip asks for it (PEP 517): the files of lepton/, and the shared library if `c/build` put it there."""
import base64
import hashlib
import platform
import zipfile
from pathlib import Path

HERE = Path(__file__).resolve().parent
NAME, VERSION = "lepton", "1.0"
LIBRARY = "liblepton.so.1"


def entry(path, data):
    """A line of RECORD."""
    digest = base64.urlsafe_b64encode(hashlib.sha256(data).digest()).rstrip(b"=").decode()
    return f"{path},sha256={digest},{len(data)}\n"


def build_wheel(wheel_directory, config_settings=None, metadata_directory=None):
    library = HERE / "lepton" / LIBRARY
    tag = f"py3-none-linux_{platform.machine()}" if library.exists() else "py3-none-any"
    files = {f"lepton/{path.name}": path.read_bytes() for path in sorted((HERE / "lepton").glob("*.py"))}
    files["lepton/py.typed"] = b""
    if library.exists():
        files[f"lepton/{LIBRARY}"] = library.read_bytes()
    about = f"{NAME}-{VERSION}.dist-info"
    files[f"{about}/METADATA"] = (
        f"Metadata-Version: 2.1\nName: {NAME}\nVersion: {VERSION}\nRequires-Python: >=3.8\n"
        "Summary: Lossless recoder for baseline JPEG files, by calls of liblepton\n"
    ).encode()
    files[f"{about}/WHEEL"] = f"Wheel-Version: 1.0\nGenerator: wheel_of\nRoot-Is-Purelib: false\nTag: {tag}\n".encode()
    record = "".join(entry(path, data) for path, data in files.items()) + f"{about}/RECORD,,\n"
    files[f"{about}/RECORD"] = record.encode()
    name = f"{NAME}-{VERSION}-{tag}.whl"
    with zipfile.ZipFile(Path(wheel_directory) / name, "w", zipfile.ZIP_DEFLATED) as wheel:
        for path, data in files.items():
            wheel.writestr(zipfile.ZipInfo(path), data)
    return name
