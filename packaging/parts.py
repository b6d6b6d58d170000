#!/usr/bin/env python3
"""Prints the list of what a release has and what is in it, in the form of CycloneDX 1.5.

Usage: packaging/parts.py FOLDER

The files of the folder are listed with their SHA-256, and with what is inside of each, as INSIDE says: a file that it does not
name ends this. The crates of the Rattle kit are those that crates.txt names below the program and below the library for C, and the
kit's standard libraries; they are ports of the Rust crates of these names, whose versions the kit does not tell, so their version is
the kit's. Times are those of SOURCE_DATE_EPOCH, and the serial number is made of the files: the same files give the same list.
"""

import hashlib
import json
import os
import re
import subprocess
import sys
import uuid
from datetime import datetime, timezone
from pathlib import Path

ROOT = Path(__file__).resolve().parent.parent
OURS = "MIT OR Apache-2.0"
# The files, and what is inside of them.
INSIDE = [
    (r"langtag-.*-linux\.tar\.gz", ["program", "registry", "glibc"]),
    (r"langtag-.*-windows\.zip", ["program", "registry", "mingw-w64"]),
    (r"langtag-.*-objects\.tar\.gz", ["program"]),
    (r"langtag_.*", ["program", "registry"]),
    (r"bcp47[-_]registry-.*(jar|tgz|crate|whl)", ["registry"]),
    (r"libbcp47-.*-windows\.zip", ["library", "mingw-w64"]),
    (r"libbcp47.*|bcp47-wasm-.*|.*\.whl|\w+(-15)?-bcp47_.*\.deb|bcp47-[\d.]+\.(jar|tgz)|bcp47-sys-.*\.crate", ["library"]),
    (r"bcp47-go-.*|langtag\.html", ["library", "registry"]),
    (r"bcp47-[\d.]+(-sources\.jar|-javadoc\.jar|\.tar\.gz|\.crate)|.*\.pom|INSTALL\.md", []),
]
# What is linked beside the crates that crates.txt names.
STANDARD = {"program": {"core", "std", "std_alloc", "std_heap", "std_io", "liblibc_c", "libos_c"}, "library": {"core", "std", "std_alloc", "std_heap", "liblibc_c"}}
# What others wrote, by its package of Debian: it is linked as it is there.
OTHERS = {"glibc": ("libc6-dev", "LGPL-2.1-or-later"), "mingw-w64": ("mingw-w64-x86-64-dev", "ZPL-2.1")}
# Of the kit's crates those that have a licence of their own; for its standard libraries the kit names none.
LICENCES = {
    "arrayvec": OURS,
    "clap": OURS,
    "hex": OURS,
    "itoa": OURS,
    "memchr": "MIT OR Unlicense",
    "simdutf8": OURS,
    "sha2": OURS,
    "thiserror": OURS,
}


def uses():
    """What each crate of the repository uses."""
    lines = (ROOT / "crates.txt").read_text(encoding="utf-8").splitlines()
    pairs = (line.split(":") for line in lines if ":" in line and not line.startswith("#"))
    return {head.split()[0]: libraries.split() for head, libraries in pairs}


def kit_below(crate, found):
    """The libraries of the kit that a crate uses, by others of the repository too."""
    return {library for use in found[crate] for library in (kit_below(use, found) if use in found else {use})}


def licence(expression):
    return [{"expression": expression}]


def inside_of(name):
    """What is inside of the file of a name."""
    for pattern, inside in INSIDE:
        if re.fullmatch(pattern, name):
            return inside
    sys.exit(f"INSIDE of packaging/parts.py doesn't say what {name} has inside")


def kit_component(name, kit):
    component = {"type": "library", "bom-ref": f"kit:{name}", "name": name, "version": kit, "group": "rattle-kit",
                 "purl": f"pkg:generic/rattle-kit/{name}@{kit}"}
    if name in LICENCES:
        component["licenses"] = licence(LICENCES[name])
    return component


def other_component(name):
    package, expression = OTHERS[name]
    asked = subprocess.run(["dpkg-query", "-W", "-f", "${Version}", package], stdout=subprocess.PIPE, text=True, check=False)
    version = asked.stdout or sys.exit(f"the package {package} is not installed, so the version of {name} can't be told")
    return {"type": "library", "bom-ref": name, "name": name, "version": version, "licenses": licence(expression),
            "purl": f"pkg:deb/debian/{package}@{version}"}


def needed(name, kits):
    """What a file depends on: crates of the kit, the registry, and what others wrote."""
    inside = inside_of(name)
    return sorted({f"kit:{crate}" for part in inside for crate in kits.get(part, [])} | {"registry", *OTHERS} & set(inside))


def file_component(path, kits):
    digest = hashlib.sha256(path.read_bytes()).hexdigest()
    found = {LICENCES.get(it.removeprefix("kit:"), OTHERS.get(it, ("", OURS))[1]) for it in needed(path.name, kits)} - {OURS}
    all_of = [f"({it})" if " OR " in it else it for it in (OURS, *sorted(found))] if found else [OURS]
    return {
        "type": "file",
        "bom-ref": f"file:{path.name}",
        "name": path.name,
        "hashes": [{"alg": "SHA-256", "content": digest}],
        "licenses": licence(" AND ".join(all_of)),
    }


def main(folder):
    version = (ROOT / "VERSION").read_text(encoding="utf-8").strip()
    words = (ROOT / "crates" / "lt_words" / "src" / "program.rt").read_text(encoding="utf-8")
    kit = re.search(r'VERSION: &str = "\S+ \((\S+) logic', words).group(1)
    found = uses()
    kits = {"program": kit_below("langtag", found) | STANDARD["program"], "library": kit_below("bcp47_c", found) | STANDARD["library"]}
    day = re.match(r"File-Date: (\S+)", (ROOT / "examples/iana-2025-05-15.txt").read_text(encoding="utf-8"))[1]
    registry = {"type": "data", "bom-ref": "registry", "name": "IANA Language Subtag Registry", "version": day}
    files = [file_component(path, kits) for path in sorted(folder.iterdir())]
    serial = uuid.uuid5(uuid.NAMESPACE_URL, "".join(file["hashes"][0]["content"] for file in files))
    time = datetime.fromtimestamp(int(os.environ["SOURCE_DATE_EPOCH"]), timezone.utc)
    dependencies = [{"ref": "langtag", "dependsOn": [file["bom-ref"] for file in files]}]
    dependencies += [{"ref": file["bom-ref"], "dependsOn": needed(file["name"], kits)} for file in files]
    print(json.dumps({
        "bomFormat": "CycloneDX",
        "specVersion": "1.5",
        "serialNumber": f"urn:uuid:{serial}",
        "version": 1,
        "metadata": {
            "timestamp": time.strftime("%Y-%m-%dT%H:%M:%SZ"),
            "component": {
                "type": "application", "bom-ref": "langtag", "name": "langtag", "version": version, "licenses": licence(OURS),
            },
        },
        "components": files + [kit_component(name, kit) for name in sorted(kits["program"] | kits["library"])] + [registry]
        + [other_component(name) for name in OTHERS if any(name in dependency["dependsOn"] for dependency in dependencies)],
        "dependencies": dependencies,
    }, indent=2))


if __name__ == "__main__":
    if len(sys.argv) != 2:
        sys.exit(__doc__)
    main(Path(sys.argv[1]))
