"""What the subcommands share: words, errors in one line, and XML with the places of its elements."""
import argparse
import contextlib
import importlib
import os
import pkgutil
import re
import shlex
import signal
import sys
import tempfile
from xml.parsers import expat

TOP = os.path.dirname(os.path.dirname(os.path.dirname(os.path.realpath(__file__))))
STRUCTURE = "SystemStructure.ssd"
DESCRIPTION = "modelDescription.xml"
# the modules that are no subcommands
SHARED = ("common", "systems")
# the longest file that the program reads, in bytes, and the greatest depth of an element in it
LONGEST_FILE = 1 << 24
DEEPEST = 64


class Told(Exception):
    """What doesn't work, in one line. The status is 2."""


@contextlib.contextmanager
def room_in(folder, prefix):
    """A folder for what is half made, which is taken away again. A signal that comes while it is made waits until that is
    certain."""
    held = signal.pthread_sigmask(signal.SIG_BLOCK, (signal.SIGHUP, signal.SIGINT, signal.SIGTERM))
    try:
        room = tempfile.TemporaryDirectory(prefix=prefix, dir=folder)
    finally:
        signal.pthread_sigmask(signal.SIG_SETMASK, held)
    with room as path:
        yield path


class Parser(argparse.ArgumentParser):
    """Words that are wrong are told in one line too."""

    def error(self, message):
        raise Told(f"{message}; {self.prog} --help tells the words")


def main(words):
    try:
        args = make_parser(words[:1]).parse_args(words)
        status = args.run(args)
        sys.stdout.flush()
        return status or 0
    except Told as told:
        print(f"ssp: {one_line(told)}", file=sys.stderr)
        return 2
    except BrokenPipeError:
        os.dup2(os.open(os.devnull, os.O_WRONLY), sys.stdout.fileno())
        return 2
    except OSError as error:
        print(f"ssp: {one_line(reason(error))}", file=sys.stderr)
        return 2
    except MemoryError:
        print("ssp: out of memory", file=sys.stderr)
        return 2
    except KeyboardInterrupt:
        return 130


def make_parser(wanted):
    """The parser of the subcommand that is wanted; of all, where there is none of this name."""
    parser = Parser(prog="ssp", description="Small tools around the program ssprun. Nothing here is proved.")
    subparsers = parser.add_subparsers(title="subcommands", metavar="SUBCOMMAND", required=True)
    folder = os.path.dirname(os.path.realpath(__file__))
    names = sorted(module.name for module in pkgutil.iter_modules([folder]) if module.name not in SHARED)
    for name in [name for name in names if name in wanted] or names:
        module = importlib.import_module(f"ssp_commands.{name}")
        module.add_parser(subparsers).set_defaults(run=module.run)
    return parser


def reason(error):
    """An OSError as `FILE: why`."""
    return f"{error.filename}: {error.strerror}" if error.filename else str(error.strerror or error)


def one_line(text):
    """No control character, line feeds among them, stands in what is told: each is written by its number."""
    return "".join(letter if letter.isprintable() else escaped(letter) for letter in str(text))


def escaped(letter):
    return "".join(f"\\x{byte:02x}" for byte in letter.encode("utf-8", "surrogateescape"))


def unescaped(text):
    """A FILE or COMPONENT of the program's lines as it is: there `%` and two digits stand for a byte."""
    data = re.sub(rb"%([0-9A-F]{2})", lambda found: bytes([int(found[1], 16)]), text.encode("utf-8", "surrogateescape"))
    return data.decode("utf-8", "surrogateescape")


def in_shell(word):
    """A word as it is typed in a shell."""
    return shlex.quote(word)


# ---- XML


class Element:
    """An element with its local name, its attributes without prefix, and where its start tag begins.

    `around` is the element that it stands in (None for the root), and `number` its place among all elements there, from 1.
    `line` and `column` count from 1, the column in characters; `byte` counts from 0. `end` is the byte where the end tag begins,
    if there is one.
    """

    __slots__ = ("name", "attributes", "around", "number", "line", "column", "byte", "end", "children")

    def __init__(self, name, attributes, around, number, line, column, byte):
        self.name, self.attributes, self.around, self.number = name, attributes, around, number
        self.line, self.column, self.byte = line, column, byte
        self.end = byte
        self.children = []

    @property
    def path(self):
        """The place as the program tells it: `/NAME[i]` for each level."""
        return f"{self.around.path if self.around else ''}/{self.name}[{self.number}]"

    def get(self, name, default=None):
        return self.attributes.get(name, default)

    def named(self, *names):
        """The children of one of these names."""
        return [child for child in self.children if child.name in names]

    def first(self, *names):
        """The first child of one of these names, or None."""
        return next(iter(self.named(*names)), None)

    def walk(self):
        """The element and all below it, in the order of the start tags."""
        waiting = [self]
        while waiting:
            element = waiting.pop()
            yield element
            waiting.extend(reversed(element.children))


def read_file(path, longest=LONGEST_FILE):
    """The bytes of a file that isn't longer than what the program reads."""
    with open(path, "rb") as file:
        data = file.read(longest + 1)
    if len(data) > longest:
        raise Told(f"{path}: longer than {longest} bytes")
    return data


def read_xml(path):
    """The root of a document in a file."""
    return parse_xml(read_file(path), path)


def parse_xml(data, path):
    """The root of a document that is these bytes; `path` is what an error names."""
    parser = expat.ParserCreate()
    roots, open_ones = [], []

    def start(name, attributes):
        around = open_ones[-1] if open_ones else None
        beside = around.children if around else roots
        plain = {key: value for key, value in attributes.items() if ":" not in key and key != "xmlns"}
        at = (parser.CurrentLineNumber, parser.CurrentColumnNumber + 1, parser.CurrentByteIndex)
        if len(open_ones) == DEEPEST:
            raise Told(f"{path}:{at[0]}:{at[1]}: this element has more than {DEEPEST - 1} around it, which rule 4 refuses")
        beside.append(Element(sys.intern(local(name)), plain, around, len(beside) + 1, *at))
        open_ones.append(beside[-1])

    def end(_name):
        open_ones.pop().end = parser.CurrentByteIndex

    def doctype(*_about):
        raise Told(f"{path}:{parser.CurrentLineNumber}: a document type declaration isn't read")

    parser.StartElementHandler, parser.EndElementHandler, parser.StartDoctypeDeclHandler = start, end, doctype
    try:
        parser.Parse(data, True)
    except expat.ExpatError as error:
        raise Told(f"{path}:{error.lineno}:{error.offset + 1}: no XML: {expat.ErrorString(error.code)}") from None
    except (LookupError, ValueError) as error:
        raise Told(f"{path}:1: no XML that is read: {error}") from None
    return roots[0]


def local(name):
    """A name without its prefix."""
    return name.rpartition(":")[2]
