#!/usr/bin/env python3
"""Packs what node and other pages import: python3 make_package.py MODULE.wasm VERSION FOLDER"""
import gzip
import io
import json
import sys
import tarfile
from pathlib import Path

HERE = Path(__file__).resolve().parent
FACTS = {
    "name": "gco-proved",
    "description": "Labels of least energy by minimum cuts, proved: noise, depth and cut-outs of pictures",
    "license": "MIT OR Apache-2.0",
    "type": "module",
    "main": "gco.mjs",
    "types": "gco.d.ts",
    "exports": {".": {"types": "./gco.d.ts", "default": "./gco.mjs"}, "./gco.wasm": "./gco.wasm"},
    "engines": {"node": ">=16"},
    "keywords": ["graph cut", "minimum cut", "alpha expansion", "segmentation", "stereo", "denoising"],
}


def files(module, version):
    """The name and the bytes of each file of the package."""
    facts = {**FACTS, "version": version}
    yield "package.json", (json.dumps(facts, indent=2) + "\n").encode()
    yield "gco.wasm", Path(module).read_bytes()
    yield "README.md", (HERE / "package.md").read_bytes()
    for name in ("gco.mjs", "gco.d.ts", "library.mjs", "pgm.mjs"):
        yield name, (HERE / name).read_bytes()
    for name in ("LICENSE-MIT", "LICENSE-APACHE"):
        yield name, (HERE.parent / name).read_bytes()


def main(module, version, folder):
    packed = io.BytesIO()
    with tarfile.open(fileobj=packed, mode="w") as archive:
        for name, data in sorted(files(module, version)):
            entry = tarfile.TarInfo(f"package/{name}")
            entry.size = len(data)
            archive.addfile(entry, io.BytesIO(data))
    out = Path(folder) / f"gco-proved-{version}.tgz"
    out.write_bytes(gzip.compress(packed.getvalue(), 9, mtime=0))
    print(f"{out}: {out.stat().st_size:,} bytes")


if __name__ == "__main__":
    main(*sys.argv[1:])
