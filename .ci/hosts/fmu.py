"""FMUs for the checks of hosts: a counter and a gain, which answer the frames of calls on standard input.

A host is started with the FMU's directory and how many counts a second has, and adds its process id to the file that
HOST_IDS names. The scripts beside this one are hosts that go wrong at some call."""
import os
import re
import struct
import sys

FRAME = struct.Struct(">BBxxIQQ")
REPLY = struct.Struct(">BBBxIQQ")
INSTANTIATE, ENTER_INITIALIZATION, DO_STEP, GET, SET = 1, 2, 6, 8, 9
SAVE, RESTORE, FREE_INSTANCE = 14, 15, 18


def reply(kind, status=0, flags=0, qualifier=0, first=0, last=0):
    return REPLY.pack(kind, status, flags, qualifier, first, last)


class Instance:
    """A counter, whose output grows by `inc` at each step, or a gain, whose output is `k` times its input."""

    def __init__(self, directory):
        with open(f"{directory}/modelDescription.xml", encoding="utf-8") as file:
            text = file.read()
        self.is_gain = re.search('modelIdentifier="gain"', text) is not None
        start = re.search('valueReference="1"[^>]*start="([0-9]+)"', text)
        self.values = {1: int(start[1]) if start else 0, 2: 0}
        self.count = 0
        self.saved = None

    def output(self):
        number = self.values[1] * self.values[2] if self.is_gain else self.count
        return number % 2**64

    def answer(self, kind, reference, first, last):
        if kind == SET:
            self.values[reference] = first
        elif kind == DO_STEP:
            self.count += self.values[1]
            return reply(kind, first=first + last)
        elif kind == GET:
            return reply(kind, first=self.output())
        elif kind == SAVE:
            self.saved = (dict(self.values), self.count)
        elif kind == RESTORE:
            self.values, self.count = dict(self.saved[0]), self.saved[1]
        return reply(kind)


def calls():
    """The calls that come, each as its kind, reference and two numbers."""
    while len(head := sys.stdin.buffer.read(FRAME.size)) == FRAME.size:
        kind, _, reference, first, last = FRAME.unpack(head)
        if kind == INSTANTIATE:
            sys.stdin.buffer.read(first + last)
        yield kind, reference, first, last


def send(frame):
    """Writes a frame. Where nobody reads it any more the host ends without a word."""
    try:
        sys.stdout.buffer.write(frame)
        sys.stdout.buffer.flush()
    except BrokenPipeError:
        os._exit(0)


def start():
    """Notes the process, and gives the instance."""
    directory, resolution = sys.argv[1:]
    if not 1 <= int(resolution) <= 2**62:
        sys.exit("no resolution")
    with open(os.environ["HOST_IDS"], "a", encoding="utf-8") as ids:
        print(os.getpid(), file=ids)
    return Instance(directory)
