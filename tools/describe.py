#!/usr/bin/env python3
"""Writes what stands in several places of the repository from the one place of each.

Usage: tools/describe.py [--check]

VERSION has the version, packaging/PUBLISHER the addresses, bindings/c/bcp47.h the calls and the constants of the library, and
bindings/c/names.c the names of its faults and what they mean. From these are written the lines below in files of the packages,
the crate bcp47-sys, and the faults of C, Python, Rust, Node.js, Java and Go. With --check nothing is written: each file that differs is
named, and the status is then 1.
"""

import re
import sys
from pathlib import Path

ROOT = Path(__file__).resolve().parent.parent
BY = "Written by tools/describe.py of bindings/c/"
LICENCE = "// SPDX-License-Identifier: MIT OR Apache-2.0"

GO_MODULE = r"~\b((?:[\w-]+\.)+\w+(?:/[\w-]+)*/bcp47)\b"
# The lines of a file that have a fact, where the pattern has a group; {} stands for a version. After ~ it may stand anywhere.
LINES = [
    ("crates/lt_words/src/program.rt", "version", r'const VERSION: &str = "({}) \(.*\)";'),
    ("docs/langtag.1", "version", r'\.TH LANGTAG 1 [0-9-]+ "langtag ({})" "User Commands"'),
    ("bindings/c/bcp47.pc.in", "version", r"Version: ({})"),
    ("bindings/c/bcp47.h", "version", r'#define BCP47_VERSION "({})"'),
    ("bindings/c/bcp47.h", "fault_constants", r"/\* The faults.*\*/\nenum \{\n([^}]*)\n\};"),
    ("bindings/python/wheel_of_package.py", "version", r'NAME, VERSION = "bcp47", "({})"'),
    ("bindings/python/wheel_of_package.py", "repository", r"Project-URL: Repository, (.*)"),
    ("bindings/python/pyproject.toml", "version", r'version = "({})"'),
    ("bindings/rust/Cargo.toml", "version", r'version = "({})"'),
    ("bindings/rust/Cargo.toml", "repository", r'repository = "(.*)"'),
    ("bindings/rust/bcp47/Cargo.toml", "version", r'bcp47-sys = \{{ .*version = "({})" \}}'),
    ("bindings/node/package.json", "version", r'  "version": "({})",'),
    ("bindings/node/package.json", "repository", r'  "repository": "(.*)",'),
    ("bindings/node/package.json", "maintainer", r'  "author": "(.*)",'),
    ("bindings/node/registry/package.json", "repository", r'  "repository": "(.*)",'),
    ("bindings/node/registry/package.json", "maintainer", r'  "author": "(.*)",'),
    ("bindings/java/pom.xml", "version", r"  <version>({})</version>"),
    ("bindings/java/pom.xml", "maven_group", r"  <groupId>(.*)</groupId>"),
    ("bindings/java/pom.xml", "repository", r"  <url>(.*)</url>"),
    ("bindings/java/pom.xml", "repository", r"    <url>(.*)</url>"),
    ("bindings/java/pom.xml", "maintainer", r"      <name>(?!MIT)(.*)</name>"),
    ("bindings/java/pom.xml", "email", r"      <email>(.*)</email>"),
    ("bindings/go/go.mod", "go_module", r"module (.*)"),
    ("bindings/go/example_test.go", "go_module", r'\t"(.*bcp47)"'),
    ("bindings/go/cmd/canon/main.go", "go_module", r'\t"(.*bcp47)"'),
    ("bindings/go/cmd/serve/main.go", "go_module", r'\t"(.*bcp47)"'),
    ("bench/peers/best/main.go", "go_module", r'\t"(.*bcp47)"'),
    ("bindings/go/registry/registry.go", "go_module", r'import "(.*)"'),
    ("bench/bindings/go/main.go", "go_module", r'\t"(.*bcp47)"'),
    ("docs/GO.md", "go_module", GO_MODULE),
    ("docs/GO.md", "version", r"~bcp47-go-({})"),
    ("README.md", "version", r"~langtag[-_]({})"),
    ("README.md", "repository", r"~\((https://\S+)/releases\)"),
    ("CONTRIBUTING.md", "repository", r"~<(https://\S+)/issues>"),
    ("docs/FAQ.md", "repository", r"~<(https://\S+)/issues>"),
    ("docs/INSTALL.md", "repository", r"~\((https://\S+)/releases\)"),
    ("docs/PYTHON.md", "version", r"~bcp47-({})-cp39"),
    ("docs/RUST.md", "version", r"~bcp47(?:-sys)?-({})"),
    ("docs/JAVA.md", "version", r"~(?:bcp47-|<version>)({})"),
    ("docs/JAVA.md", "maven_group", r" *<groupId>(.*)</groupId>"),
    ("docs/INSTALL.md", "go_module", GO_MODULE),
    ("docs/INSTALL.md", "version", r"~(?:langtag|bcp47)(?:-sys|-go)?[-_]({})"),
    ("packaging/debian/control", "maintainer", r"Maintainer: (.*) <.*>"),
    ("packaging/debian/control", "email", r"Maintainer: .* <(.*)>"),
    ("SECURITY.md", "email", r"~<(\S+@\S+)>"),
]


def facts():
    """The version and what the publisher says."""
    lines = (ROOT / "packaging/PUBLISHER").read_text(encoding="utf-8").splitlines()
    found = dict(line.split(" = ", 1) for line in lines if " = " in line and not line.startswith("#"))
    constants = ",\n".join(f"    BCP47_FAULT_{upper(name)} = {number}" for number, (name, _) in enumerate(faults(), 1))
    return found | {"version": (ROOT / "VERSION").read_text(encoding="utf-8").strip(), "fault_constants": constants}


class Header:
    """The declarations of bcp47.h, which stand there in a few forms."""

    KINDS = {"char": "c_char", "void": "c_void", "size_t": "usize", "int": "c_int", "uint8_t": "u8", "uint32_t": "u32"}

    def __init__(self):
        text = (ROOT / "bindings/c/bcp47.h").read_text(encoding="utf-8")
        self.plain = re.sub(r"/\*.*?\*/", "", text, flags=re.S)
        self.constants = re.findall(r"\b(BCP47_(?!FAULT_)[A-Z0-9_]+) = (\d+)", self.plain)
        self.rooms = re.findall(r"^#define (BCP47_[A-Z]+) (\d+)$", self.plain, re.M)
        self.structs = re.findall(r"^typedef struct \{(.*?)\} (\w+);", self.plain, re.M | re.S)
        self.opaque = re.findall(r"^typedef struct (\w+) \1;", self.plain, re.M)
        self.calls = re.findall(r"^((?:const )?\w+ \**)(bcp47_\w+)\((.*?)\);", self.plain, re.M | re.S)

    def kind(self, words):
        """A type of C in Rust."""
        constant, name, stars = re.fullmatch(r"(const )?(\w+) ?((?:\*(?:const )?)*)", words.strip()).groups()
        of = self.KINDS.get(name, name)
        for star in re.findall(r"\*(const )?", stars):
            of = ("*const " if constant else "*mut ") + of
            constant = star
        return of

    def parameter(self, words):
        kind, name = re.fullmatch(r"(.*?)(\w+)", " ".join(words.split())).groups()
        return f"{'r#' if name in ('type', 'match') else ''}{name}: {self.kind(kind)}"

    def fields(self, body):
        for kind, name, count in re.findall(r"(\w+) (\w+)(?:\[(\d+)\])?;", body):
            of = self.KINDS.get(kind, kind)
            yield f"    pub {name}: {f'[{of}; {count}]' if count else of},"

    def rust(self):
        lines = [LICENCE, "//! The calls of `bcp47.h`, which says what each does. The crate `bcp47` is the safe way to them.",
                 f"// {BY}bcp47.h.", "#![no_std]", "#![allow(non_camel_case_types)]", "", "use core::ffi::{c_char, c_int, c_void};"]
        for name in self.opaque:
            lines += ["", "#[repr(C)]", f"pub struct {name} {{", "    _opaque: [u8; 0],", "}"]
        for body, name in self.structs:
            lines += ["", "#[repr(C)]", "#[derive(Clone, Copy, Debug, Default, PartialEq, Eq)]", f"pub struct {name} {{", *self.fields(body), "}"]
        lines += ["", *(f"pub const {name}: c_int = {value};" for name, value in self.constants)]
        lines += [f"pub const {name}: usize = {value};" for name, value in self.rooms] + ["", 'extern "C" {']
        for kind, name, parameters in self.calls:
            answer = "" if kind == "void " else f" -> {self.kind(kind)}"
            given = [] if parameters == "void" else [self.parameter(one) for one in parameters.split(",")]
            line = f"    pub fn {name}({', '.join(given)}){answer};"
            lines += [line] if len(line) <= 120 else [f"    pub fn {name}(", *(f"        {one}," for one in given), f"    ){answer};"]
        return "\n".join([*lines, "}", ""])


def faults():
    """The name of each fault, and what it means, by number."""
    text = (ROOT / "bindings/c/names.c").read_text(encoding="utf-8")
    table = re.search(r"faults\[\] = \{(.*?)\n\};", text, re.S)[1]
    return re.findall(r'\{"(\w+)",\s*"(.*)"\}', table)[1:]


def upper(name):
    """A name as constants are written: BAD_BYTE for BadByte."""
    return re.sub(r"(?<=[a-z0-9])(?=[A-Z])", "_", name).upper()


def statuses(*more):
    """The name, the meaning and the number of each status that tells by itself why something is refused, and of more."""
    text = (ROOT / "bindings/c/names.c").read_text(encoding="utf-8")
    table = re.findall(r'\{"(\w+)",\s*"(.*)"\}', re.search(r"statuses\[\] = \{(.*?)\n\};", text, re.S)[1])
    return [(name, meaning, number) for number, (name, meaning) in enumerate(table)
            if name in ("ReplacementRepeats", "TooManySteps", "NoEntries", *more)]


def rust_enum(meaning, name, rows):
    """An enum; a row has a name, a number and what it means, if that is said."""
    lines = [f"        /// {said}\n        {one} = {number}," if said else f"        {one} = {number}," for one, number, said in rows]
    silent = "" if rows[0][2] else "\n    #[allow(missing_docs)]"
    return f"\nnumbered! {{\n    /// {meaning}{silent}\n    {name} {{\n" + "\n".join(lines) + "\n    }\n}\n"


def kinds():
    """The name and the number of each kind of part, and of each kind of step."""
    def named(front):
        pairs = [(name[len(front):], number) for name, number in Header().constants if name.startswith(front)]
        return [("".join(word.capitalize() for word in name.split("_")), number, "") for name, number in pairs]
    steps = named("BCP47_")
    begin = next(at for at, row in enumerate(steps) if row[:2] == ("Extlang", "1"))
    end = next(at for at, row in enumerate(steps) if row[0] == "PartLanguage")
    return named("BCP47_PART_"), steps[begin:end]


def rust_numbers():
    parts, steps = kinds()
    told = [(name, number, meaning) for number, (name, meaning) in enumerate(faults(), 1)]
    return (f"//! What the library numbers. {BY}bcp47.h and names.c.\n"
            + rust_enum("What is wrong with a text, a record or a registry; it is shown as the program shows it.", "Fault", told)
            + rust_enum("The kind of a part of a tag (RFC 5646, 2.1; RFC 6067, 2.1; RFC 6497, 2.2).", "PartKind", parts)
            + rust_enum("The kind of a step of an explanation.", "StepKind", steps))


def go_faults():
    rows = [f"\t// {meaning}\n\tErr{name}{' Fault = iota + 1' if number == 1 else ''}" for number, (name, meaning) in enumerate(faults(), 1)]
    return f"""{LICENCE}

// {BY}names.c.

package bcp47

// A Fault is what is wrong with a text, a record or a registry: errors.Is(err, bcp47.ErrBadByte) asks for it.
type Fault int

// The faults, by the names that the program prints.
const (
""" + "\n".join(rows) + "\n)\n"


def java_faults():
    def row(name, meaning, number):
        return f"    /** {meaning.replace('&', '&amp;')} */\n    {upper(name)}({number})"
    rows = [row(name, meaning, number) for number, (name, meaning) in enumerate(faults(), 1)]
    rows += [row(name, meaning, -number) for name, meaning, number in statuses()]
    return f"""{LICENCE}
package bcp47;

// {BY}names.c.

/** What is wrong with a text, a record or a registry, by the names that the program prints. */
public enum Fault {{
""" + ",\n".join(rows) + """;

    private static final Fault[] ALL = values();

    private final int number;
    private final String text;
    private final String help;

    /** The number of a fault, or that of a status, below 0. */
    Fault(int number) {
        this.number = number;
        text = Native.name(isStatus() ? Native.STATUS : Native.FAULT, Math.abs(number));
        help = Native.name(isStatus() ? Native.STATUS_HELP : Native.FAULT_HELP, Math.abs(number));
    }

    /** The fault of an outcome, or else its status; null where that is no refusal. */
    static Fault of(int status, int fault) {
        if (fault > 0) {
            return ALL[fault - 1];
        }
        for (Fault one : ALL) {
            if (one.number == -status) {
                return one;
            }
        }
        return null;
    }

    boolean isStatus() {
        return number < 0;
    }

    /** @return what it means, and what to do, in a sentence */
    public String help() {
        return help;
    }

    /** @return the name that the program prints, for example <code>BadByte</code> */
    @Override
    public String toString() {
        return text;
    }
}
"""


def python_numbers():
    rows = [f'    {name} = "{name}", "{meaning}"\n' for name, meaning in faults() + [row[:2] for row in statuses("NoSuchStep", "WrongEnd")]]
    parts, steps = (", ".join(f'"{row[0]}"' for row in those) for those in kinds())
    return f'''# SPDX-License-Identifier: MIT OR Apache-2.0
"""What the library numbers. {BY}bcp47.h and names.c."""
import enum


class Fault(str, enum.Enum):
    """What is wrong with a text, a registry or steps: a `str`, which is the name that the program prints, with a `help`."""

    help: str

    def __new__(cls, name: str, help: str) -> "Fault":
        fault = str.__new__(cls, name)
        fault._value_, fault.help = name, help
        return fault

    def __str__(self) -> str:
        return str(self.value)

    def __format__(self, form: str) -> str:
        return format(str(self), form)

{"".join(rows)}

# The kinds of part, and of step, each after its number; none has the first.
PARTS = ("", {parts})
STEPS = ("", {steps})
'''


def node_faults():
    lines = "".join(f"\n  | '{name}'" for name in [row[0] for row in faults() + statuses()])
    return f"// {BY}names.c.\n\n/** What is wrong, by the names that the program prints. */\nexport type Fault ={lines};\n"


def written():
    """Each file that is written whole, and its text."""
    return {
        "bindings/rust/bcp47-sys/src/lib.rs": Header().rust(),
        "bindings/rust/bcp47/src/numbers.rs": rust_numbers(),
        "bindings/go/faults.go": go_faults(),
        "bindings/java/src/main/java/bcp47/Fault.java": java_faults(),
        "bindings/node/faults.d.ts": node_faults(),
        "bindings/python/bcp47/numbers.py": python_numbers(),
    }


def put(match, text):
    """What a pattern matched, with a text in the place of its group."""
    begin, end = (at - match.start() for at in match.span(1))
    return match[0][:begin] + text + match[0][end:]


def main():
    check = sys.argv[1:] == ["--check"]
    of = facts()
    wanted = written()
    for path, fact, pattern in LINES:
        text = wanted.get(path) or (ROOT / path).read_text(encoding="utf-8")
        if fact == "version":
            pattern = pattern.format(r"\d+\.\d+\.\d+")
        pattern = pattern[1:] if pattern[0] == "~" else f"^{pattern}$"
        wanted[path], found = re.subn(pattern, lambda match: put(match, of[fact]), text, flags=re.M)
        if not found:
            sys.exit(f"{path}: no line has its {fact}")
    differ = [path for path, text in wanted.items() if not (ROOT / path).exists() or (ROOT / path).read_text(encoding="utf-8") != text]
    for path in differ:
        print(f"{path} is not what tools/describe.py writes" if check else path)
        if not check:
            (ROOT / path).write_text(wanted[path], encoding="utf-8")
    return 1 if check and differ else 0


if __name__ == "__main__":
    sys.exit(main())
