# SPDX-License-Identifier: MIT OR Apache-2.0
"""What the package does at a command line."""
import argparse
import os
import sys
from typing import BinaryIO, NoReturn, Optional, TextIO

from . import RefusedRegistry, Registry, __version__
from .lines import answer_lines, rewrite_table, show_tag
from .report import BadTable, NoColumn, page_of

_STATUSES = """status:
  0  all was done
  1  a tag was refused
  2  the registry was refused
  3  the command line is wrong
  4  a file, the input or the output failed"""


class _Parser(argparse.ArgumentParser):
    """A parser whose statuses are those of the program."""

    def error(self, message: str) -> NoReturn:
        self.end(3, message)

    def end(self, status: int, message: object) -> NoReturn:
        """Ends with a status and a message."""
        self.print_usage(sys.stderr)
        self.exit(status, f"{self.prog}: error: {message}\n")


def _delimiter(word: str) -> str:
    """The byte between fields that a word names, as for `langtag csv`."""
    if word == "tab":
        return "\t"
    if len(word) != 1 or not word.isascii() or word in '"\r\n':
        raise argparse.ArgumentTypeError("it is one byte of ASCII but no quote, carriage return or line feed, or the word tab")
    return word


def _number(word: str) -> int:
    """A number of rows."""
    if not (word.isascii() and word.isdigit() and len(word) <= 4 and int(word)):
        raise argparse.ArgumentTypeError("it is a number from 1 to 9999")
    return int(word)


def _opened(name: str) -> BinaryIO:
    """The file of a name, or the standard input for a hyphen."""
    return open(0, "rb", closefd=False) if name == "-" else open(name, "rb")


def _output(name: Optional[str] = None) -> TextIO:
    """The file of a name, or the standard output, which gets each line at once."""
    return open(name or 1, "w", encoding="utf-8", buffering=1, closefd=bool(name))


def _report(words: argparse.Namespace, registry: Registry) -> bool:
    with _opened(words.file) as file:
        name = "the standard input" if words.file == "-" else os.path.basename(words.file)
        page = page_of(registry, file, name, words.column, words.delimiter, words.most)
    with _output(words.output) as output:
        output.write(page)
    return True


def _canon(words: argparse.Namespace, registry: Registry) -> bool:
    with _opened("-") as file, _output() as output:
        return answer_lines(registry, file, output)


def _csv(words: argparse.Namespace, registry: Registry) -> bool:
    with _opened("-") as file, _output() as output:
        return rewrite_table(registry, file, output, words.column, words.delimiter, words.keep)


def _show(words: argparse.Namespace, registry: Registry) -> bool:
    with _output() as output:
        return all([show_tag(registry, tag, output) for tag in words.tag])


def _parser() -> _Parser:
    """The words of the command line."""
    parser = _Parser(prog="python3 -m bcp47", description="Checks language tags (BCP 47) and makes them canonical.",
                     epilog=_STATUSES, formatter_class=argparse.RawDescriptionHelpFormatter)
    parser.add_argument("--version", action="version", version=f"bcp47 {__version__}")
    commands = parser.add_subparsers(required=True, metavar="COMMAND")
    for name, run, text in (
            ("canon", _canon, "print the canonical form of each line of the standard input"),
            ("csv", _csv, "make the tags in one column of CSV canonical"),
            ("show", _show, "print what the registry says of tags"),
            ("report", _report, "write a web page about the tags in one column of CSV")):
        command = commands.add_parser(name, help=text, description=text.capitalize() + ".", epilog=_STATUSES,
                                      formatter_class=argparse.RawDescriptionHelpFormatter)
        command.set_defaults(run=run, command=command)
        command.add_argument("registry", metavar="REGISTRY", help="a file in the format of the IANA Language Subtag Registry")
        if name in ("csv", "report"):
            command.add_argument("column", metavar="COLUMN", help="the name of the column in the heading, or else its number from 1")
            command.add_argument("--delimiter", metavar="C", type=_delimiter, default=",", help="the byte between fields, or tab; else ,")
    commands.choices["csv"].add_argument("--keep", action="store_true", help="leave the rows, and add the fields langtag and langtag_fault")
    commands.choices["show"].add_argument("tag", metavar="TAG", nargs="+", help="a language tag")
    report = commands.choices["report"]
    report.add_argument("file", metavar="FILE", nargs="?", default="-", help="the CSV, in UTF-8 and with a heading; else the standard input")
    report.add_argument("-o", "--output", metavar="PAGE", help="the file of the page; else the standard output")
    report.add_argument("--most", metavar="N", type=_number, default=50, help="the most rows of a table that are kept; else 50")
    return parser


def main() -> None:
    """Does what the words of the command line ask for."""
    words = _parser().parse_args()
    try:
        with Registry.from_file(words.registry) as registry:
            is_good = words.run(words, registry)
    except RefusedRegistry as refused:
        words.command.end(2, f"{words.registry}: {refused}: {refused.help}")
    except NoColumn as error:
        words.command.end(3, error)
    except BrokenPipeError:
        # whoever reads has what it wanted: nothing more is written, also at the end of the interpreter
        os.dup2(os.open(os.devnull, os.O_WRONLY), 1)
        sys.exit(4)
    except (BadTable, OSError) as error:
        words.command.end(4, error)
    sys.exit(not is_good)


if __name__ == "__main__":
    main()
