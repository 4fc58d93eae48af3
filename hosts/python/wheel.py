#!/usr/bin/env python3
"""Packs the package into a wheel for pip: wheel.py PACKAGE FOLDER.

PACKAGE is the folder that `make` fills. The wheel comes into FOLDER, and its name is written to standard output."""

import base64
import hashlib
import pathlib
import re
import sys
import sysconfig
import zipfile

VERSION = re.compile(r'^version = "(.+)"$', re.M)
BINDINGS = pathlib.Path(__file__).resolve().parent.parent.parent / "bindings/python/pyproject.toml"
METADATA = """Metadata-Version: 2.1
Name: cebdyraq
Version: {version}
Summary: Threads of a CPython program, inspected while other threads run
Requires-Python: ==3.11.*
"""
WHEEL = """Wheel-Version: 1.0
Generator: hosts/python/wheel.py
Root-Is-Purelib: false
Tag: {tag}
"""


def row(name, data):
    """What RECORD says of a file."""
    digest = base64.urlsafe_b64encode(hashlib.sha256(data).digest()).rstrip(b"=").decode()
    return f"{name},sha256={digest},{len(data)}\n"


def files_of(package, version, tag):
    """The wheel's files, by their names."""
    files = {f"{package.name}/{path.name}": path.read_bytes() for path in sorted(package.iterdir()) if path.suffix in (".py", ".so", ".typed")}
    info = f"cebdyraq-{version}.dist-info"
    files[f"{info}/METADATA"] = METADATA.format(version=version).encode()
    files[f"{info}/WHEEL"] = WHEEL.format(tag=tag).encode()
    record = "".join(row(name, data) for name, data in files.items())
    return {**files, f"{info}/RECORD": f"{record}{info}/RECORD,,\n".encode()}


def main():
    package, folder = map(pathlib.Path, sys.argv[1:])
    version = VERSION.search(BINDINGS.read_text())[1]
    tag = "cp311-cp311-" + re.sub("[-.]", "_", sysconfig.get_platform())
    made = folder / f"cebdyraq-{version}-{tag}.whl"
    with zipfile.ZipFile(made, "w", zipfile.ZIP_DEFLATED) as wheel:
        for name, data in files_of(package, version, tag).items():
            wheel.writestr(name, data)
    print(made)


if __name__ == "__main__":
    main()
