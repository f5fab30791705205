"""`ssp follow FILE`: how far the run is whose trace is being written."""
import os
import re
import sys
import time

from .common import Told, one_line

ABOUT = """Shows the last point of a trace that is being written, beside the stop, once a second, until the trace has its end line.
The program itself writes its trace alone: give it a file (./ssprun run .. > FILE &) and follow that. A trace that isn't written
any more and has no end line is followed until this is stopped (Ctrl-C)."""
HEADER = re.compile(rb"trace 1 ([1-9]\d{0,18}) (\d{1,19}) (\d{1,19})\n")
LAST = re.compile(rb"(?:^|\n)at (\d{1,19}) \d{1,5}(?=\n)")
END = re.compile(rb"\nend (stop|asked|limit|fixed|range|fault) (\d{1,19})\n\Z")
PIECE = 1 << 16


def add_parser(subparsers):
    parser = subparsers.add_parser("follow", help="shows how far the run of a trace is", description=ABOUT)
    parser.add_argument("file", metavar="FILE", help="the file to which a trace is written")
    parser.add_argument("--once", action="store_true", help="show it once, and end")
    return parser


class Trace:
    """A file that is written, and what was last seen of it."""

    def __init__(self, path):
        self.path, self.header, self.point, self.end = path, None, None, None
        self.size, self.since = -1, time.monotonic()

    def look(self):
        with open(self.path, "rb") as file:
            if self.header is None:
                self.read_header(file)
            size = os.fstat(file.fileno()).st_size
            if size != self.size:
                self.size, self.since = size, time.monotonic()
                self.read_tail(file)

    def read_header(self, file):
        line = file.readline(100)
        self.header = HEADER.fullmatch(line)
        if self.header is None and (line.endswith(b"\n") or not b"trace 1 ".startswith(line[:8]) or len(line) == 100):
            raise Told(f"{self.path}: no trace of this format: it begins with another line than `trace 1 R START STOP`")

    def read_tail(self, file):
        # An instant has up to 65,536 lines, so the last `at` may stand further off.
        reach = PIECE
        while True:
            file.seek(max(0, self.size - reach))
            tail = file.read(reach)
            found = LAST.findall(tail)
            if found or reach >= self.size or reach >= PIECE << 8:
                break
            reach <<= 2
        self.point = int(found[-1]) if found else self.point
        self.end = END.search(tail)

    def told(self):
        if self.header is None:
            return "nothing is written yet"
        resolution, start, stop = map(int, self.header.groups())
        if self.end:
            word, point = self.end[1].decode(), int(self.end[2])
            return f"end {word} at {told_point(point, resolution)}, of {told_point(stop, resolution)}"
        if self.point is None:
            return f"no point yet, of {told_point(stop, resolution)}"
        whole = stop - start
        part = 100 * (self.point - start) // whole if whole else 100
        quiet = int(time.monotonic() - self.since)
        tail = f"; nothing was written for {quiet} s" if quiet >= 5 else ""
        return f"at {told_point(self.point, resolution)}, of {told_point(stop, resolution)}: {part} %{tail}"


def told_point(point, resolution):
    return f"{point} ({point / resolution:.6g} s)"


def run(args):
    trace = Trace(args.file)
    is_terminal = sys.stdout.isatty()
    width = 0
    while True:
        trace.look()
        line = one_line(trace.told())
        is_last = args.once or trace.end
        width = max(width, len(line))
        print(f"\r{line.ljust(width)}" if is_terminal else line, end="\n" if is_last or not is_terminal else "", flush=True)
        if is_last:
            return 0
        time.sleep(1)
