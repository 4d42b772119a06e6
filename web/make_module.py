#!/usr/bin/env python3
"""Makes the WebAssembly module of the proved crate gco_pictures.

    python3 make_module.py OUT.wasm [--crate FOLDER] [--kept FOLDER]

The toolchain compiles a crate that takes memory for x86-64 and for no 64-bit WebAssembly yet. So its own clang is
called by a script that keeps the LLVM module (1), which to_wasm64.py makes one for wasm64 (2). The same clang compiles
that with the flags that the toolchain has for wasm64, heap.c gives the memory, and the toolchain links both (3).
Binaryen then lowers the module to a memory of 32 bits, which every browser has (4). docs/PROVED.md says what of this
is trusted. --kept takes the LLVM module of (1) from an earlier run's folder, if it is there, and leaves it there.
"""
import argparse
import os
import sys
import tempfile
from pathlib import Path

HERE = Path(__file__).resolve().parent
TOP = HERE.parent
sys.path.insert(0, str(TOP / "tools/release"))

from build_for import build, kit_folder, run
from to_wasm64 import to_wasm64
from wasm_module import with_narrow_table

EXPORTS = ["gco_restore_pgm", "gco_stereo_pgm", "gco_segment_pgm"]
WASM64 = """--target=wasm64-unknown-unknown -mcpu=lime1 -ffunction-sections -fdata-sections --no-default-config
    -no-canonical-prefixes -fintegrated-cc1 -fno-crash-diagnostics -Werror -mllvm -expand-div-rem-bits=64
    -mllvm -expand-fp-convert-bits=64 -mllvm -trap-unreachable -mllvm -no-x86-call-frame-opt
    -mllvm -disable-machine-licm -mllvm -disable-postra-machine-licm -mllvm -sink-common-insts=false""".split()
KEEPING = """#!/bin/sh
for word in "$@"; do case "$word" in *.bc) cp "$word" "{kept}/module.bc" ;; esac; done
exec "{clang}" "$@"
"""


def keeping_toolchain(kit, room, kept):
    """The toolchain, with a clang that keeps the LLVM module which it is handed."""
    tools = room / "toolchain"
    (tools / "bin").mkdir(parents=True)
    for tool in (kit / "toolchain/bin").iterdir():
        (tools / "bin" / tool.name).symlink_to(tool)
    for other in (kit / "toolchain").iterdir():
        if other.name != "bin":
            (tools / other.name).symlink_to(other)
    clang = tools / "bin/clang"
    clang.unlink()
    clang.write_text(KEEPING.format(kept=kept, clang=kit / "toolchain/bin/clang"))
    clang.chmod(0o755)
    return tools


def proved_module(kit, folder, room, kept):
    """The LLVM module that the toolchain makes of the crate. It makes none unless the crate is proved."""
    kept.mkdir(parents=True, exist_ok=True)
    if not (kept / "module.bc").exists():
        tools = keeping_toolchain(kit, room, kept)
        build(folder, "x86_64-unknown-linux-gnu", room / f"lib{folder.name}.a", tools)
    return kept / "module.bc"


def compiled(kit, bitcode, room):
    """The module of 64-bit memory."""
    clang = kit / "toolchain/bin/clang"
    run(clang, "--target=x86_64-unknown-linux-gnu", "--no-default-config", "-x", "ir", bitcode, "-S", "-emit-llvm",
        "-Xclang", "-disable-llvm-passes", "-o", room / "x86.ll")
    (room / "wasm.ll").write_text(to_wasm64((room / "x86.ll").read_text(), EXPORTS))
    run(clang, *WASM64, "-O3", "-c", "-x", "ir", room / "wasm.ll", "-o", room / "gco.o")
    run(clang, *WASM64, "-O2", "-fwrapv", "-ffreestanding", "-nostdinc", "-c", "-x", "c", HERE / "heap.c",
        "-o", room / "heap.o")
    run(kit / "toolchain/bin/llvm-ar", "rcsD", room / "lib.a", room / "gco.o", room / "heap.o")
    run(kit / "bin/rattle-link", "--target", "wasm64-unknown-unknown", "--toolchain", kit / "toolchain",
        "-o", room / "gco64.wasm", room / "lib.a")
    return (room / "gco64.wasm").read_bytes()


def lowered(module, room, out):
    (room / "table32.wasm").write_bytes(with_narrow_table(module))
    run("wasm-opt", "--enable-memory64", "--enable-bulk-memory", "--enable-sign-ext", "--enable-mutable-globals",
        "--enable-nontrapping-float-to-int", "--enable-multivalue", "--memory64-lowering", room / "table32.wasm",
        "-o", out)


def main():
    parser = argparse.ArgumentParser(description=__doc__.split("\n")[0])
    parser.add_argument("out", type=Path)
    parser.add_argument("--crate", type=Path, default=TOP / "crates/gco_pictures")
    parser.add_argument("--kept", type=Path)
    parser.add_argument("--wide", type=Path, help="where the module of 64-bit memory goes, too")
    options = parser.parse_args()
    with tempfile.TemporaryDirectory() as folder:
        room, kit = Path(folder), kit_folder()
        kept = options.kept.resolve() if options.kept else room / "kept"
        module = compiled(kit, proved_module(kit, options.crate.resolve(), room, kept), room)
        if options.wide:
            options.wide.write_bytes(module)
        lowered(module, room, options.out)
    print(f"{options.out}: {os.path.getsize(options.out):,} bytes")


if __name__ == "__main__":
    main()
