#!/usr/bin/env python3
"""Makes a module that tools/module.sh kept one for another system: takes off what names the processor and the stack of Linux.

Usage: tools/retarget.py MODULE.ll [wasm] > OTHER.ll

For WebAssembly a call that writes its struct to memory returns nothing, as C there has it, and not the place. Ends with status 1 where
the module has what no other system can have.
"""

import re
import sys

# The attribute probe-stack names the way in which Linux touches a large frame; Windows would link it as the name of a function.
NAMES = re.compile(r' "(?:target-cpu|target-features|tune-cpu|probe-stack|stack-probe-size|frame-pointer)"="[^"]*"')
EXPORT = re.compile(r"(?ms)^define (?!internal|private)[^@\n]*@\w+\(.*?^}$")
IN_MEMORY = re.compile(r"define noundef ptr (@\w+\(ptr noundef %a0\b)")


def without_result(function):
    """A function that returns its first argument, as one that returns nothing."""
    text, count = re.subn(r"(?m)^  ret ptr %a0$", "  ret void", function)
    if not count or re.search(r"(?m)^  ret (?!void)", text):
        sys.exit("retarget.py: it returns another place: " + function.partition("\n")[0])
    return IN_MEMORY.sub(r"define void \1", text)


def main(path, system=""):
    with open(path, encoding="utf-8") as file:
        text = file.read()
    text = re.sub(r"(?m)^attributes .*$", lambda it: NAMES.sub("", it[0]), text)
    # a vector instruction of one processor, which --cpu x86-64 rules out, and numbers that systems pass in different ways
    if re.search(r"@llvm\.(?:x86|aarch64)\.", text) or any(re.search(r"\bi128\b", it[0].partition("\n")[0]) for it in EXPORT.finditer(text)):
        sys.exit("retarget.py: the module names a processor's instruction, or a call of 128 bits: build it by tools/module.sh")
    if system == "wasm":
        text = EXPORT.sub(lambda it: without_result(it[0]) if IN_MEMORY.match(it[0]) else it[0], text)
    sys.stdout.write(text)


if __name__ == "__main__":
    main(*sys.argv[1:])
