"""Builds the wheel, so that `pip install .` needs no other package: a zip of the folder ssh_audit with its library (PEP 517,
PEP 427). `bindings/build.sh` puts the library there, and calls `build_wheel`."""

import base64
import hashlib
import os
import pathlib
import platform
import zipfile

NAME, VERSION = "ssh_trust_audit", "1.0.0"
TAG = f"py3-none-linux_{platform.machine()}"
METADATA = f"Metadata-Version: 2.1\nName: {NAME.replace('_', '-')}\nVersion: {VERSION}\nRequires-Python: >=3.8\n"
WHEEL = f"Wheel-Version: 1.0\nGenerator: backend.py\nRoot-Is-Purelib: false\nTag: {TAG}\n"
# Each file has this time, so that the same files give the same wheel.
TIME = (1980, 1, 1, 0, 0, 0)


def contents():
    """The files of the wheel, but for the list of them."""
    folder = pathlib.Path(__file__).resolve().parent / "ssh_audit"
    kept = [path for path in sorted(folder.iterdir()) if path.suffix in (".py", ".so") or path.name in ("py.typed", "BUILT.txt")]
    files = {f"ssh_audit/{path.name}": path.read_bytes() for path in kept}
    if "ssh_audit/libssh_audit.so" not in files:
        raise SystemExit("libssh_audit.so is missing: run bindings/build.sh")
    info = f"{NAME}-{VERSION}.dist-info"
    return {**files, f"{info}/METADATA": METADATA.encode(), f"{info}/WHEEL": WHEEL.encode()}


def listed(files):
    """A line for each file, with its digest."""
    for name, held in files.items():
        digest = base64.urlsafe_b64encode(hashlib.sha256(held).digest()).rstrip(b"=").decode()
        yield f"{name},sha256={digest},{len(held)}"


def build_wheel(wheel_directory, config_settings=None, metadata_directory=None):
    files, made = contents(), f"{NAME}-{VERSION}-{TAG}.whl"
    record = f"{NAME}-{VERSION}.dist-info/RECORD"
    files[record] = "\n".join([*listed(files), f"{record},,", ""]).encode()
    with zipfile.ZipFile(os.path.join(wheel_directory, made), "w", zipfile.ZIP_DEFLATED) as out:
        for name, held in files.items():
            out.writestr(zipfile.ZipInfo(name, TIME), held, zipfile.ZIP_DEFLATED)
    return made
