#!/usr/bin/env python3
"""Checks what the crates lend to those above them.

Usage: bench/layers.py [--list]

A crate's specs and contracts are for every crate above. Of its lemmas those are lent whose modules are declared
`pub mod` in crates/NAME/proofs/Lib.antt; a `mod` is the crate's own, and can change without the others. The check of a
crate refuses to import a module that is not lent. This reads the same of the text, without a toolchain, and sees
besides that a crate which parts what it lends from its own, by the comment OWN below, lends no module to nobody.

Prints a line for each fault, or with --list each crate with what it lends and to whom; and last the numbers. Ends
with 1 if there is a fault.
"""

import re
import sys
from pathlib import Path

ROOT = Path(__file__).resolve().parent.parent
MODULE = re.compile(r"^(pub )?mod (\S+)", re.M)
OWN = "-- What this crate alone uses."
IMPORT = re.compile(r"\b(\w+)(?:\.|::)proofs(?:\.|::)(\w+)")


def declared(crate):
    """Each module of the crate's lemmas, and whether it is lent."""
    lib = crate / "proofs" / "Lib.antt"
    if not lib.exists():
        return {}
    return {name: bool(lent) for lent, name in MODULE.findall(lib.read_text(encoding="utf-8"))}


def parts_its_own(crate):
    """Whether the crate parts what it lends from its own."""
    lib = crate / "proofs" / "Lib.antt"
    return lib.exists() and OWN in lib.read_text(encoding="utf-8").splitlines()


def imports(crate):
    """The modules of lemmas that the crate's files name, each with its crate and a file that names it."""
    for path in sorted(crate.rglob("*")):
        if path.suffix in (".rt", ".antt") and "out" not in path.relative_to(crate).parts:
            for owner, name in IMPORT.findall(path.read_text(encoding="utf-8")):
                yield owner, name, path.relative_to(ROOT)


def main():
    crates = {it.name: it for it in sorted(ROOT.glob("crates/*")) if (it / "src").is_dir()}
    modules = {name: declared(crate) for name, crate in crates.items()}
    users = {}
    faults = []
    for name, crate in crates.items():
        for owner, module, path in imports(crate):
            if owner == name or owner not in modules:
                continue
            users.setdefault((owner, module), set()).add(name)
            if not modules[owner].get(module):
                faults.append("%s: %s lends no %s" % (path, owner, module))
    for name, own in modules.items():
        lent = [module for module, is_lent in own.items() if is_lent]
        if parts_its_own(crates[name]):
            faults += ["crates/%s/proofs/Lib.antt: %s is lent to nobody" % (name, module)
                       for module in lent if (name, module) not in users]
        if "--list" in sys.argv[1:] and lent:
            print("%s: %s" % (name, "; ".join("%s to %s" % (module, ", ".join(sorted(users.get((name, module), []))))
                                              for module in lent)))
    for fault in faults:
        print(fault)
    print("%d modules of lemmas, %d lent, %d faults" % (
        sum(map(len, modules.values())), sum(sum(own.values()) for own in modules.values()), len(faults)))
    sys.exit(1 if faults else 0)


if __name__ == "__main__":
    main()
