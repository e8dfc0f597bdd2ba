"""Makes the wheel that `pip install` installs: the package's files and a copy of the shared library (puchkewa/place.py says where it is
found). Nothing is compiled, and nothing is needed but Python. The functions are those that pip calls (PEP 517)."""
import base64
import hashlib
import runpy
import sys
import zipfile
from pathlib import Path

HERE = Path(__file__).resolve().parent
VERSION = runpy.run_path(str(HERE / "puchkewa" / "version.py"))["__version__"]
PLACE = runpy.run_path(str(HERE / "puchkewa" / "place.py"))
INFO = f"puchkewa-{VERSION}.dist-info"
TAG = "py3-none-linux_x86_64"

METADATA = f"""Metadata-Version: 2.1
Name: puchkewa
Version: {VERSION}
Summary: Cleans listings of pseudocode with a library whose guarantee is machine-checked
License: Apache-2.0
Requires-Python: >=3.8
"""
WHEEL = f"""Wheel-Version: 1.0
Generator: make_wheel
Root-Is-Purelib: false
Tag: {TAG}
"""


def library() -> Path:
    file = PLACE["find"](VERSION)
    if file is None or not file.is_file():
        sys.exit(
            f"puchkewa: {PLACE['name_of'](VERSION)} was not found: `bin/archive && bin/shared` in Puchkewa's repository makes it, "
            "`bin/install PREFIX` installs it; PUCHKEWA_LIBRARY may name the file"
        )
    return file


def build_wheel(wheel_directory, config_settings=None, metadata_directory=None):
    sources = [f for f in sorted((HERE / "puchkewa").iterdir()) if f.suffix == ".py" or f.name == "py.typed"]
    files = {f"puchkewa/{f.name}": f.read_bytes() for f in sources}
    files[f"puchkewa/{PLACE['name_of'](VERSION)}"] = library().read_bytes()
    files[f"{INFO}/METADATA"] = METADATA.encode()
    files[f"{INFO}/WHEEL"] = WHEEL.encode()
    record = []
    for name, content in files.items():
        digest = base64.urlsafe_b64encode(hashlib.sha256(content).digest()).rstrip(b"=").decode()
        record.append(f"{name},sha256={digest},{len(content)}")
    record.append(f"{INFO}/RECORD,,")
    files[f"{INFO}/RECORD"] = ("\n".join(record) + "\n").encode()
    wheel = f"puchkewa-{VERSION}-{TAG}.whl"
    with zipfile.ZipFile(Path(wheel_directory) / wheel, "w", zipfile.ZIP_DEFLATED) as archive:
        for name, content in files.items():
            # one time for all, so that the same files make the same wheel
            archive.writestr(zipfile.ZipInfo(name, (1980, 1, 1, 0, 0, 0)), content, zipfile.ZIP_DEFLATED)
    return wheel


def build_sdist(sdist_directory, config_settings=None):
    sys.exit("puchkewa: a source package would lack the library; install from the folder")
