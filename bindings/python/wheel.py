#!/usr/bin/env python3
"""wheel.py SHARED_LIBRARY FOLDER LICENCE..: writes the wheel of the package with its library into a folder. No build backend is needed."""
import base64
import hashlib
import os
import sys
import zipfile

NAME, VERSION, TAG = "figpliers", "0.1.0", "py3-none-linux_x86_64"
METADATA = f"""Metadata-Version: 2.1
Name: {NAME}
Version: {VERSION}
Summary: A verified HTML parser: normal text, trees and cleaned text of pages
License: MIT
Requires-Python: >=3.8
"""
WHEEL = f"Wheel-Version: 1.0\nGenerator: wheel.py\nRoot-Is-Purelib: false\nTag: {TAG}\n"


def read(path):
    with open(path, "rb") as file:
        return file.read()


def main(library, folder, licences):
    package = os.path.join(os.path.dirname(os.path.abspath(__file__)), NAME)
    info = f"{NAME}-{VERSION}.dist-info"
    files = {f"{NAME}/{it}": read(os.path.join(package, it)) for it in ("__init__.py", "library.py", "tree.py", "py.typed")}
    files[f"{NAME}/lib{NAME}.so"] = read(library)
    files[f"{info}/METADATA"] = METADATA.encode()
    files[f"{info}/WHEEL"] = WHEEL.encode()
    for licence in licences:
        files[f"{info}/{os.path.basename(licence)}"] = read(licence)
    record = ""
    for name, data in files.items():
        digest = base64.urlsafe_b64encode(hashlib.sha256(data).digest()).rstrip(b"=").decode()
        record += f"{name},sha256={digest},{len(data)}\n"
    files[f"{info}/RECORD"] = f"{record}{info}/RECORD,,\n".encode()
    path = os.path.join(folder, f"{NAME}-{VERSION}-{TAG}.whl")
    with zipfile.ZipFile(path, "w", zipfile.ZIP_DEFLATED) as wheel:
        for name, data in files.items():
            # the same bytes at each build
            wheel.writestr(zipfile.ZipInfo(name, (2026, 1, 1, 0, 0, 0)), data, zipfile.ZIP_DEFLATED)


main(sys.argv[1], sys.argv[2], sys.argv[3:])
