#!/usr/bin/env python3
"""Joins the parts of the page to one file, with the module and the examples in it.

    python3 make_page.py MODULE.wasm OUT.html
"""
import base64
import gzip
import json
import re
import sys
from pathlib import Path

HERE = Path(__file__).resolve().parent
EXAMPLES = ("figure", "left", "right")


def text(name):
    return (HERE / name).read_text()


def as_script(name):
    """A module of JavaScript without its imports and exports, for a script that holds all parts."""
    script = re.sub(r"^import .*\n", "", text(name), flags=re.M)
    script = re.sub(r"^export \{.*\};\n", "", script, flags=re.M)
    return re.sub(r"^export ", "", script, flags=re.M)


def encoded(data):
    return base64.b64encode(data).decode()


def worker():
    return "\n".join(['"use strict";', as_script("pgm.mjs"), as_script("library.mjs"), text("worker.js")])


def script(module):
    examples = {name: encoded((HERE / "examples" / f"{name}.jpg").read_bytes()) for name in EXAMPLES}
    return "\n".join([
        '"use strict";',
        f"const WORKER = {json.dumps(worker())};",
        f'const MODULE = "{encoded(gzip.compress(module, 9, mtime=0))}";',
        f"const EXAMPLES = {json.dumps(examples)};",
        as_script("pgm.mjs"),
        *map(text, ("pictures.js", "view.js", "strokes.js", "files.js", "page.js")),
    ])


def main(module, out):
    joined = script(Path(module).read_bytes()).replace("</script", "<\\/script")
    page = text("page.html").replace("/*STYLE*/", text("style.css")).replace("/*SCRIPT*/", joined)
    Path(out).write_text(page)
    print(f"{out}: {len(page.encode()):,} bytes")


if __name__ == "__main__":
    main(*sys.argv[1:])
