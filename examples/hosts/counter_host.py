#!/usr/bin/env python3
"""A host in Python: the counter of examples/counter, as an FMU in a process of its own.

    counter_host.py DIR R

It reads the calls of ssprun on standard input and answers each on standard output with a reply of 24 bytes, or a batch
of calls with a batch of replies.
docs/HOST_PROTOCOL.md describes them. To write a host of your own, copy this file and put your model in the place of
the class Counter; what stands above it reads and writes frames and can stay as it is.

Standard output belongs to the replies: print messages to standard error alone.

It ends with status 0 after FreeInstance and at the end of its input, 1 where its input is no frame or nobody takes its
replies, 2 where its words aren't DIR and R, and 3 where it can't read the description in DIR.
"""

import os
import struct
import sys
import xml.etree.ElementTree as ElementTree
from enum import IntEnum
from typing import NamedTuple


class Kind(IntEnum):
    """The number of a call. A reply repeats it."""

    INSTANTIATE = 1
    ENTER_INITIALIZATION = 2
    EXIT_INITIALIZATION = 3
    ENTER_EVENT = 4
    ENTER_STEP = 5
    DO_STEP = 6
    UPDATE = 7
    GET = 8
    SET = 9
    GET_CLOCK = 10
    SET_CLOCK = 11
    GET_INTERVAL = 12
    GET_SHIFT = 13
    SAVE = 14
    RESTORE = 15
    FREE = 16
    TERMINATE = 17
    FREE_INSTANCE = 18
    SERIALIZE = 20
    DESERIALIZE = 21


class Status(IntEnum):
    OK = 0
    WARNING = 1
    DISCARD = 2
    ERROR = 3
    FATAL = 4


# The types of variables: the number of each, how many bits it has, and whether its values have a sign.
TYPES = {
    1: ("Int8", 8, True),
    2: ("UInt8", 8, False),
    3: ("Int16", 16, True),
    4: ("UInt16", 16, False),
    5: ("Int32", 32, True),
    6: ("UInt32", 32, False),
    7: ("Int64", 64, True),
    8: ("UInt64", 64, False),
    9: ("Boolean", 1, False),
    10: ("Enumeration", 64, True),
}

# Flags in the reply to DoStep.
EVENT_NEEDED = 1
TERMINATE_SIMULATION = 2
EARLY_RETURN = 4

# The bit of Instantiate that asks for batches, and the flag in its reply that says that they are taken.
BATCHES_ASKED_FOR = 4
BATCHES_TAKEN = 1

# The first byte of a batch, and the most calls in it.
BATCH = 19
MOST_CALLS = 64

# Kind, type or status, flags, 0, reference or qualifier, and two numbers of 8 bytes: 24 bytes, big-endian.
FRAME = struct.Struct(">BBBBIQQ")

# Which fields of a call its kind uses. All others are 0.
USED_FIELDS = {
    Kind.INSTANTIATE: {"reference", "first", "second"},
    Kind.ENTER_INITIALIZATION: {"first", "second"},
    Kind.DO_STEP: {"first", "second"},
    Kind.GET: {"type", "reference"},
    Kind.SET: {"type", "reference", "first"},
    Kind.GET_CLOCK: {"reference"},
    Kind.SET_CLOCK: {"reference"},
    Kind.GET_INTERVAL: {"reference"},
    Kind.GET_SHIFT: {"reference"},
    Kind.DESERIALIZE: {"reference", "first", "second"},
}

LONGEST_TEXT = 2**24


class NoFrame(Exception):
    """The input is no frame of a call."""


class Call(NamedTuple):
    kind: Kind
    type: int
    reference: int
    first: int
    second: int
    name: str = ""
    token: str = ""
    state: bytes = b""


def value_of(type_number, word):
    """The value of a type whose word, 64 bits in two's complement, this is. Bits past the type's are dropped."""
    _, bits, signed = TYPES[type_number]
    value = word % 2**bits
    if signed and value >= 2 ** (bits - 1):
        value -= 2**bits
    return value


def word_of(value):
    """The word of a value: 64 bits in two's complement."""
    return value % 2**64


def read_bytes(stream, length):
    """So many bytes; none where the input ends before the first of them."""
    data = stream.read(length)
    if data and len(data) < length:
        raise NoFrame("the input ends inside a frame")
    return data


def read_behind(stream, length):
    """So many bytes that follow the beginning of a frame."""
    data = read_bytes(stream, length)
    if len(data) < length:
        raise NoFrame("the input ends inside a frame")
    return data


def read_text(stream, length):
    data = read_behind(stream, length)
    try:
        return data.decode("utf-8")
    except UnicodeDecodeError as error:
        raise NoFrame("a text isn't UTF-8") from error


def take_call(data):
    """The call of 24 bytes, without its texts."""
    number, type_number, flags, zero, reference, first, second = FRAME.unpack(data)
    if number not in list(Kind):
        raise NoFrame(f"no kind has the number {number}")
    call = Call(Kind(number), type_number, reference, first, second)

    used = USED_FIELDS.get(call.kind, set())
    for field in ("type", "reference", "first", "second"):
        if field not in used and getattr(call, field) != 0:
            raise NoFrame(f"{call.kind.name} has a {field}")
    if flags != 0 or zero != 0:
        raise NoFrame("bytes 2 and 3 of a call are 0")
    if "type" in used and type_number not in TYPES:
        raise NoFrame(f"no type has the number {type_number}")
    if call.kind == Kind.SET and word_of(value_of(type_number, first)) != first:
        raise NoFrame("the word of a Set isn't one of its type")

    if call.kind == Kind.INSTANTIATE and (reference > 7 or not 1 <= first <= LONGEST_TEXT or second > LONGEST_TEXT):
        raise NoFrame("Instantiate has unknown flags or a length past its limit")
    return call


def read_batch(stream, head):
    """The calls of a batch with this head: all of which read variables, or all of which set them."""
    count = int.from_bytes(head[4:8], "big")
    if not 1 <= count <= MOST_CALLS or head != FRAME.pack(BATCH, 0, 0, 0, count, 0, 0):
        raise NoFrame("a head with the kind 19 has a count from 1 to 64, and else zeros")
    data = read_bytes(stream, count * FRAME.size)
    if not data:
        raise NoFrame("the input ends inside a frame")
    calls = [take_call(data[i : i + FRAME.size]) for i in range(0, len(data), FRAME.size)]
    if calls[0].kind not in (Kind.GET, Kind.SET) or any(call.kind != calls[0].kind for call in calls):
        raise NoFrame("the calls of a batch are all Get, or all Set")
    return calls


def read_frame(stream):
    """The next call, or a list of the calls of the next batch, or None at the end of the input."""
    data = read_bytes(stream, FRAME.size)
    if not data:
        return None
    if data[0] == BATCH:
        return read_batch(stream, data)
    call = take_call(data)
    if call.kind == Kind.DESERIALIZE:
        return call._replace(state=read_behind(stream, call.reference))
    if call.kind != Kind.INSTANTIATE:
        return call
    return call._replace(name=read_text(stream, call.first), token=read_text(stream, call.second))


def reply(kind, status=Status.OK, flags=0, qualifier=0, first=0, second=0):
    """The frame of a reply. From the status Discard on everything after the status has to be 0."""
    return FRAME.pack(kind, status, flags, 0, qualifier, first, second)


def start_values(directory):
    """The start value of each whole number or Boolean that DIR/modelDescription.xml describes, by its reference."""
    names = {name for name, _, _ in TYPES.values()}
    values = {}
    root = ElementTree.parse(os.path.join(directory, "modelDescription.xml")).getroot()
    for element in root.iter():
        type_name = element.tag.rsplit("}", 1)[-1]
        start = element.get("start")
        if type_name in names and start is not None:
            number = {"true": 1, "false": 0}.get(start)
            values[int(element.get("valueReference"))] = int(start) if number is None else number
    return values


class Counter:
    """The model: each step adds `inc` to a count, and `y` shows it."""

    # Value references, as in the description.
    INC = 1  # a parameter: what a step adds
    Y = 2  # an output: the count
    LONG = 3  # a parameter: a step of at least this size asks for the end of the run, where it is above 0

    def __init__(self, starts):
        self.parameters = {self.INC: starts.get(self.INC, 0), self.LONG: starts.get(self.LONG, 0)}
        self.count = 0
        self.saved = None

    # A state: the words of the count and of both parameters, as bytes.
    STATE = struct.Struct(">QQQ")

    def state(self):
        return self.STATE.pack(*map(word_of, (self.count, self.parameters[self.INC], self.parameters[self.LONG])))

    def set_state(self, state):
        count, inc, long = self.STATE.unpack(state)
        self.count = count
        self.parameters = {self.INC: value_of(7, inc), self.LONG: value_of(7, long)}

    def answer(self, call):
        """Does what a call asks for, and gives the frame of the reply, with the bytes that follow it."""
        refused = reply(call.kind, Status.ERROR)

        if call.kind == Kind.DO_STEP:
            # All counts are those of the resolution R. This model knows no time but the size of its step.
            point, size = call.first, call.second
            if point + size >= 2**64:
                return refused
            self.count += self.parameters[self.INC]
            long = self.parameters[self.LONG]
            flags = TERMINATE_SIMULATION if 0 < long <= size else 0
            return reply(call.kind, flags=flags, first=point + size)

        if call.kind == Kind.GET:
            if call.reference == self.Y:
                value = self.count
            elif call.reference in self.parameters:
                value = self.parameters[call.reference]
            else:
                return refused
            # A value that the type can't hold wraps around in it.
            return reply(call.kind, first=word_of(value_of(call.type, word_of(value))))

        if call.kind == Kind.SET:
            if call.reference not in self.parameters:
                return refused
            self.parameters[call.reference] = value_of(call.type, call.first)
            return reply(call.kind)

        # One state can be saved: the model's own, or one whose bytes another instance gave.
        if call.kind == Kind.SAVE:
            if self.saved is not None:
                return refused
            self.saved = self.state()
            return reply(call.kind)
        if call.kind == Kind.DESERIALIZE:
            if self.saved is not None or len(call.state) != self.STATE.size:
                return refused
            self.saved = call.state
            return reply(call.kind)
        if call.kind in (Kind.RESTORE, Kind.FREE, Kind.SERIALIZE) and self.saved is None:
            return refused
        if call.kind == Kind.RESTORE:
            self.set_state(self.saved)
            return reply(call.kind)
        if call.kind == Kind.FREE:
            self.saved = None
            return reply(call.kind)
        if call.kind == Kind.SERIALIZE:
            return reply(call.kind, qualifier=len(self.saved)) + self.saved

        # It has no clocks.
        if call.kind in (Kind.GET_CLOCK, Kind.SET_CLOCK, Kind.GET_INTERVAL, Kind.GET_SHIFT):
            return refused

        if call.kind == Kind.INSTANTIATE:
            return reply(call.kind, flags=BATCHES_TAKEN if call.reference & BATCHES_ASKED_FOR else 0)

        # The others only lead from one state to the next, and ssprun sends each where it may stand. An Update that is
        # answered without flags asks for no other instant.
        return reply(call.kind)


def answer_batch(model, calls):
    """The batch of the replies to these calls, up to the first that isn't good."""
    replies = []
    for call in calls:
        replies.append(model.answer(call))
        if replies[-1][1] > Status.WARNING:
            break
    return FRAME.pack(BATCH, 0, 0, 0, len(replies), 0, 0) + b"".join(replies)


def serve(model, calls, replies):
    """Answers each call with one reply, and each batch of calls with a batch, until the instance is freed or the input ends."""
    while True:
        frame = read_frame(calls)
        if frame is None:
            return
        replies.write(answer_batch(model, frame) if isinstance(frame, list) else model.answer(frame))
        replies.flush()  # ssprun sends the next frame only after this reply
        if not isinstance(frame, list) and frame.kind == Kind.FREE_INSTANCE:
            return


def main(words):
    if len(words) != 2:
        print("usage: counter_host.py DIR R", file=sys.stderr)
        return 2
    directory, _resolution = words
    try:
        model = Counter(start_values(directory))
    except (OSError, ValueError, TypeError, ElementTree.ParseError) as error:
        print(f"counter_host.py: {directory}/modelDescription.xml: {error}", file=sys.stderr)
        return 3
    # Without a buffer of its own each reply leaves at once, and none waits for the end of the program.
    replies = open(sys.stdout.fileno(), "wb", buffering=0, closefd=False)
    try:
        serve(model, sys.stdin.buffer, replies)
    except (NoFrame, BrokenPipeError) as error:
        print(f"counter_host.py: {error}", file=sys.stderr)
        return 1
    return 0


if __name__ == "__main__":
    sys.exit(main(sys.argv[1:]))
