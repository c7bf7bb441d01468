"""The steps of build.sh between the proved build and WebAssembly.

    module.py capture KIT CRATE FOLDER   builds the library once more, and keeps the module that clang gets as FOLDER/module.ll
    module.py retarget IN.ll OUT.ll      makes it one for WebAssembly with addresses of 64 bits, to be compiled to little code, its
                                         functions in the order of their names: so the instances of a generic function stand side by
                                         side, where gzip sees that they are alike
    module.py strip IN.wasm OUT.wasm     drops the table, through which nothing is called, and the custom sections
"""

import os
import re
import subprocess
import sys
from pathlib import Path

LAYOUT = "e-m:e-p:64:64-p10:8:8-p20:8:8-i64:64-i128:128-n32:64-S128-ni:1:10:20"
WRAPPER = """#!/bin/sh
# keeps what clang is to compile
for word in "$@"; do
    case $word in *.bc | *.ll) cp "$word" '{folder}/kept' ;; esac
done
exec '{clang}' "$@"
"""


def capture(kit, crate, folder):
    kit, crate, folder = Path(kit), Path(crate).resolve(), Path(folder)
    tools = folder / "toolchain"
    (tools / "bin").mkdir(parents=True)
    (tools / "lib").symlink_to(kit / "toolchain/lib")
    clang = kit / "toolchain/bin/clang"
    for tool in (kit / "toolchain/bin").iterdir():
        if tool.name != "clang":
            (tools / "bin" / tool.name).symlink_to(tool)
    wrapper = tools / "bin/clang"
    wrapper.write_text(WRAPPER.format(folder=folder, clang=clang))
    wrapper.chmod(0o755)
    sys.path.insert(0, str(kit / "bin"))
    sys.dont_write_bytecode = True
    import rtlib

    os.chdir(crate)
    words = rtlib.Crate(str(crate), rtlib.root_above(str(crate)), {}).words([])
    build = [rtlib.RATTLE, "build", *words, "--toolchain", str(tools), "--backend", "llvm", *rtlib.KEPT]
    subprocess.run([*build, "-o", str(folder / "library.a")], check=True)
    as_text = [clang, "-x", "ir", "-S", "-emit-llvm", "-Xclang", "-disable-llvm-passes"]
    subprocess.run([*as_text, folder / "kept", "-o", folder / "module.ll"], check=True)


def in_order(text):
    """The functions of a module behind all else, in the order of their names without the hashes of their type arguments."""
    parts = re.split(r"(?ms)^(define .*?^}\n)", text)
    named = [(re.search(r'@("[^"]*"|[\w.$]+)', it).group(1), it) for it in parts[1::2]]
    named.sort(key=lambda it: (re.sub(r"<#[0-9a-f]+>", "", it[0]), it[0]))
    return "".join(parts[::2]) + "\n" + "\n".join(it[1] for it in named)


def retarget(source, made):
    lines = []
    for line in Path(source).read_text().splitlines(keepends=True):
        if line.startswith("target datalayout"):
            line = f'target datalayout = "{LAYOUT}"\n'
        elif line.startswith("target triple"):
            line = 'target triple = "wasm64-unknown-unknown"\n'
        elif line.startswith("attributes #"):
            line = re.sub(r"\{.*\}", "{ nounwind optsize }", line)
        lines.append(line)
    Path(made).write_text(in_order("".join(lines)))


def number(data, at):
    value = shift = 0
    while True:
        byte = data[at]
        value, shift, at = value | (byte & 127) << shift, shift + 7, at + 1
        if byte < 128:
            return value, at


def strip(source, made):
    data = Path(source).read_bytes()
    at, kept = 8, data[:8]
    while at < len(data):
        section = data[at]
        length, body = number(data, at + 1)
        assert section != 9, "the table has elements"
        if section not in (0, 4):
            kept += data[at : body + length]
        at = body + length
    Path(made).write_bytes(kept)


STEPS = {"capture": capture, "retarget": retarget, "strip": strip}

if __name__ == "__main__":
    if len(sys.argv) < 2 or sys.argv[1] not in STEPS:
        sys.exit(__doc__)
    STEPS[sys.argv[1]](*sys.argv[2:])
