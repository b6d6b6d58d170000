#!/usr/bin/python3
# SPDX-License-Identifier: MIT OR Apache-2.0
"""Makes langtag.html: one file with bcp47.wasm and a registry inside, which loads nothing. It needs what `make lib-wasm` makes.

Usage: make.py REGISTRY > langtag.html. Its style begins with that of a report of the Python package.
"""
import base64
import gzip
import re
import sys
from pathlib import Path

HERE = Path(__file__).resolve().parent
ROOT = HERE.parents[1]


def packed(path: Path) -> str:
    """A file as a text: gzip, then base64."""
    return base64.b64encode(gzip.compress(path.read_bytes(), 9, mtime=0)).decode()


built = ROOT / "build/wasm"
# what the module of the Python package gives a name, which need not be built
style = re.search(r'^STYLE = """(.*?)"""', (ROOT / "bindings/python/bcp47/pages.py").read_text(encoding="utf-8"), re.M | re.S)
parts = {"STYLE": style[1],
         "LOADER": (built / "load.mjs").read_text(encoding="utf-8").partition("\n/** What the package for Node.js has")[0],
         "WORKER": (HERE / "worker.js").read_text(), "PAGE": (HERE / "page.js").read_text(), "VERSION": (ROOT / "VERSION").read_text().strip(),
         "WASM": packed(built / "bcp47.wasm"), "REGISTRY": packed(Path(sys.argv[1]))}
sys.stdout.write(re.sub("@([A-Z]+)@", lambda it: parts[it[1]], (HERE / "page.html").read_text()))
