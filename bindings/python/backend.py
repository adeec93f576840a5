"""Builds the wheel with the standard library alone, so that `pip install ./bindings/python` works
offline: the package, and the shared library in it.

The library is the one in GOQLANIS_LIB if that is set, otherwise the one that `bindings/c/build`
makes. The tag names its processor, and the oldest glibc that has all that it needs.
"""
import ast
import base64
import hashlib
import os
import re
import subprocess
import tempfile
import zipfile
from pathlib import Path

HERE = Path(__file__).resolve().parent
NAME = "goqlanis"
VERSION = re.search('__version__ = "(.*)"', (HERE / NAME / "__init__.py").read_text())[1]
INFO = f"{NAME}-{VERSION}.dist-info"
SAID = ast.get_docstring(ast.parse((HERE / NAME / "__init__.py").read_text()))
METADATA = f"""Metadata-Version: 2.1
Name: {NAME}
Version: {VERSION}
Summary: QR and Micro QR symbols by a library that is proved correct
Requires-Python: >=3.8
License: MIT OR Apache-2.0
Description-Content-Type: text/plain

{SAID}
"""
# The processors of ELF files (e_machine), and the oldest glibc 2.n that pip knows as manylinux_2_n.
MACHINES, OLDEST = {62: "x86_64", 183: "aarch64"}, 5
WHEEL = """Wheel-Version: 1.0
Generator: goqlanis
Root-Is-Purelib: false
Tag: {tag}
"""


def library():
    """Returns the bytes of the shared library."""
    given = os.environ.get("GOQLANIS_LIB")
    if given:
        return Path(given).read_bytes()
    with tempfile.TemporaryDirectory() as folder:
        subprocess.run([HERE.parent / "c" / "build", folder], check=True)
        return (Path(folder) / "libgoqlanis.so.1").read_bytes()


def least_glibc(data):
    """Returns the n of the oldest glibc 2.n that has all symbols that an ELF file needs from it; 0
    for a static one."""
    return max((int(it) for it in re.findall(rb"\0GLIBC_2\.(\d+)", data)), default=0)


def tag_of(data):
    """Returns the tag of a wheel with this ELF file in it."""
    machine = MACHINES[int.from_bytes(data[18:20], "little")]
    return f"py3-none-manylinux_2_{max(least_glibc(data), OLDEST)}_{machine}"


def build_wheel(wheel_directory, config_settings=None, metadata_directory=None):
    paths = [it for it in sorted((HERE / NAME).iterdir()) if it.suffix in (".py", ".txt", ".typed")]
    files = {f"{NAME}/{path.name}": path.read_bytes() for path in paths}
    files[f"{NAME}/libgoqlanis.so.1"] = library()
    tag = tag_of(files[f"{NAME}/libgoqlanis.so.1"])
    files[f"{INFO}/METADATA"] = METADATA.encode()
    files[f"{INFO}/WHEEL"] = WHEEL.format(tag=tag).encode()
    record = [f"{name},sha256={digest(data)},{len(data)}\n" for name, data in files.items()]
    files[f"{INFO}/RECORD"] = "".join([*record, f"{INFO}/RECORD,,\n"]).encode()
    made = f"{NAME}-{VERSION}-{tag}.whl"
    with zipfile.ZipFile(Path(wheel_directory) / made, "w", zipfile.ZIP_DEFLATED) as wheel:
        for name, data in files.items():
            wheel.writestr(name, data)
    return made


def digest(data):
    return base64.urlsafe_b64encode(hashlib.sha256(data).digest()).rstrip(b"=").decode()
