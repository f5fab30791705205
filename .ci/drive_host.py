#!/usr/bin/env python3
"""Plays the master for one host, without ssprun.

    drive_host.py HOST DIR R STEP STOP      the calls of `ssprun one DIR`, and the trace on standard output
    drive_host.py --page PAGE HOST DIR R    the dump of a page: its calls are sent, and each reply has to be the page's
    drive_host.py --sampler HOST DIR R      the calls of a run with a Clock, for the sampler
    drive_host.py --alarm HOST DIR R        steps that end early, and are undone, for the alarm
    drive_host.py --pulse HOST DIR R        three ticks of a changing Clock, for the pulse
    drive_host.py --waker HOST DIR R        the steps to a next event time, for the waker
    drive_host.py --batches HOST DIR R      batches of Gets and of Sets, for the counter
    drive_host.py --states HOST DIR R       a state as bytes, taken in by another instance, for the counter
    drive_host.py --odd HOST DIR R          what is no frame, ends inside one, or is no call for a counter

Status and error line are those of ssprun where the link fails (5), a call is refused (6) or a reply is of another kind
(7). The FMU has no inputs in the first form, and may have event mode.
"""

import re
import struct
import subprocess
import sys
import xml.etree.ElementTree as ElementTree

KINDS = (
    "Instantiate EnterInitialization ExitInitialization EnterEvent EnterStep DoStep Update Get Set GetClock SetClock "
    "GetInterval GetShift Save Restore Free Terminate FreeInstance Batch Serialize Deserialize"
).split()
TYPES = "Int8 UInt8 Int16 UInt16 Int32 UInt32 Int64 UInt64 Boolean Enumeration".split()
STATUSES = "OK Warning Discard Error Fatal".split()
FRAME = struct.Struct(">BBBBIQQ")
SECONDS_TO_WAIT = 20

# The first byte of a batch.
BATCH = 19


class Stopped(Exception):
    """The run is over: a status and a line."""

    def __init__(self, status, line):
        super().__init__(line)
        self.status = status


class Host:
    def __init__(self, program, directory, resolution):
        words = [program, directory, str(resolution)]
        try:
            self.child = subprocess.Popen(words, stdin=subprocess.PIPE, stdout=subprocess.PIPE)
        except OSError as error:
            raise Stopped(5, "link fmu start") from error

    def send(self, data):
        try:
            self.child.stdin.write(data)
            self.child.stdin.flush()
        except BrokenPipeError:
            pass  # there will be no reply either

    def receive(self, length=FRAME.size):
        return self.child.stdout.read(length)

    def exchange(self, kind, type=0, reference=0, first=0, second=0, texts=b""):
        """The 24 bytes that answer a call; fewer where the link broke."""
        number = KINDS.index(kind) + 1
        self.send(FRAME.pack(number, type, 0, 0, reference, first, second) + texts)
        return self.receive()

    def ask(self, kind, **fields):
        """Flags, qualifier and the two numbers of a good reply."""
        data = self.exchange(kind, **fields)
        if len(data) < FRAME.size:
            raise Stopped(5, f"link fmu {kind}")
        number, status, flags, zero, qualifier, first, second = FRAME.unpack(data)
        if number != KINDS.index(kind) + 1 or status > 4 or zero != 0:
            raise Stopped(7, f"misreply fmu {kind} {data.hex()}")
        if status >= 2:
            raise Stopped(6, f"fmu fmu {kind} {STATUSES[status]}")
        return flags, qualifier, first, second

    def instantiate(self, name, token, event_mode=False, early_return=False, batches=False):
        """Whether the host takes batches."""
        name, token = name.encode(), token.encode()
        bits = (1 if event_mode else 0) | (2 if early_return else 0) | (4 if batches else 0)
        flags, _, _, _ = self.ask("Instantiate", reference=bits, first=len(name), second=len(token), texts=name + token)
        return flags == 1

    def ask_together(self, kind, *calls):
        """The statuses and first numbers of the replies to a batch of calls, each a type, a reference and a first number."""
        number = KINDS.index(kind) + 1
        frames = [FRAME.pack(number, type, 0, 0, reference, first, 0) for type, reference, first in calls]
        self.send(FRAME.pack(BATCH, 0, 0, 0, len(frames), 0, 0) + b"".join(frames))
        head = self.receive()
        count = int.from_bytes(head[4:8], "big")
        if head != FRAME.pack(BATCH, 0, 0, 0, count, 0, 0):
            raise Stopped(5, f"link fmu {kind}")
        replies = [FRAME.unpack(self.receive()) for _ in range(count)]
        if any(reply[0] != number for reply in replies):
            raise Stopped(5, f"link fmu {kind}")
        return [(reply[1], reply[5]) for reply in replies]

    def end(self):
        """Closes the host's input, and gives what is left of its output, and the status that it ends with."""
        try:
            self.child.stdin.close()
        except BrokenPipeError:
            pass
        rest = self.child.stdout.read()
        self.child.stdout.close()
        try:
            return rest, self.child.wait(SECONDS_TO_WAIT)
        except subprocess.TimeoutExpired:
            self.child.kill()
            return rest, self.child.wait()


def number_of(type_number, word):
    """The value whose word this is."""
    signed = TYPES[type_number - 1] in ("Int8", "Int16", "Int32", "Int64", "Enumeration")
    return word - 2**64 if signed and word >= 2**63 else word


class Description:
    def __init__(self, directory):
        root = ElementTree.parse(directory + "/modelDescription.xml").getroot()
        simulation = root.find("CoSimulation")
        self.token = root.get("instantiationToken")
        self.event_mode = simulation.get("hasEventMode") in ("true", "1")
        self.outputs = [
            (variable.tag, variable.get("name"), int(variable.get("valueReference")))
            for variable in root.find("ModelVariables")
            if variable.get("causality") == "output" and variable.tag in TYPES
        ]


def drive(program, directory, resolution, step, stop):
    """The calls of a run of one FMU without inputs."""
    described = Description(directory)
    host = Host(program, directory, resolution)
    point = 0
    began = False
    try:
        host.instantiate("fmu", described.token, described.event_mode)
        print(f"trace 1 {resolution} 0 {stop}")
        for number, (type_name, name, _) in enumerate(described.outputs):
            print(f"port {number} {type_name} fmu {name}")
        began = True
        host.ask("EnterInitialization", first=0, second=stop)
        host.ask("ExitInitialization")
        while True:
            instant, again = 0, True
            while again:
                values = []
                for type_name, _, reference in described.outputs:
                    type_number = TYPES.index(type_name) + 1
                    word = host.ask("Get", type=type_number, reference=reference)[2]
                    values.append(number_of(type_number, word))
                flags = host.ask("Update")[0] if described.event_mode else 0
                print(f"at {point} {instant}")
                for number, value in enumerate(values):
                    print(f"{number} {value}")
                again = bool(flags & 1)
                instant += 1
            if point == stop:
                print(f"end stop {stop}")
                break
            if described.event_mode:
                host.ask("EnterStep")
            size = min(step, stop - point)
            flags, _, end, _ = host.ask("DoStep", first=point, second=size)
            point = end
            if flags & 2:
                print(f"end asked {point}")
                break
            if described.event_mode:
                host.ask("EnterEvent")
        host.ask("Terminate")
        host.ask("FreeInstance")
    except Stopped:
        if began:
            print(f"end fault {point}")
        raise
    finally:
        host.end()


# ---- the dump of a page

DUMP_ROW = re.compile(r"^\| (call|reply) \| `([0-9a-f ]+)` \|")


def play_page(page, program, directory, resolution):
    host = Host(program, directory, resolution)
    rows = 0
    with open(page, encoding="utf-8") as lines:
        for number, line in enumerate(lines, 1):
            row = DUMP_ROW.match(line)
            if not row:
                continue
            rows += 1
            data = bytes.fromhex(row.group(2))
            if row.group(1) == "call":
                host.send(data)
            else:
                got = host.receive()
                if got != data:
                    raise Stopped(1, f"{page}:{number}: the page has {data.hex()}, the host answers {got.hex()}")
    rest, status = host.end()
    if rows == 0 or rest or status != 0:
        raise Stopped(1, f"{page}: {rows} frames, {len(rest)} bytes after them, status {status}")


# ---- checks

def expect(what, found, wanted):
    if found != wanted:
        raise Stopped(1, f"{what}: {found}, wanted {wanted}")


def drive_sampler(program, directory, resolution):
    """The sampler: its Clock is under 1, its interval and shift in seconds are the values under 4 and 6 over that under 5;
    y under 3 shows u under 2 where the Clock ticks."""
    int32 = TYPES.index("Int32") + 1
    host = Host(program, directory, resolution)
    host.instantiate("s", "{s}", event_mode=True)
    for reference, value in ((4, 1), (5, 100), (6, 0)):
        host.ask("Set", type=TYPES.index("UInt64") + 1, reference=reference, first=value)
    host.ask("EnterInitialization", first=0, second=20)
    interval = host.ask("GetInterval", reference=1)
    shift = host.ask("GetShift", reference=1)
    print(f"interval {interval[1]} {interval[2]}/{interval[3]}")
    print(f"shift {shift[2]}/{shift[3]}")
    host.ask("ExitInitialization")
    for point, fed in ((0, 7), (10, -8)):
        host.ask("SetClock", reference=1)
        host.ask("Set", type=int32, reference=2, first=fed % 2**64)
        shown = number_of(int32, host.ask("Get", type=int32, reference=3)[2])
        ticks = host.ask("GetClock", reference=1)[2]
        flags = host.ask("Update")[0]
        print(f"at {point}: clock {ticks}, y {shown}, flags {flags}")
        host.ask("EnterStep")
        end = host.ask("DoStep", first=point, second=10)[2]
        print(f"step to {end}")
        host.ask("EnterEvent")
    host.ask("Terminate")
    host.ask("FreeInstance")
    expect("after FreeInstance", host.end(), (b"", 0))


def drive_alarm(program, directory, resolution):
    """The alarm at 7: a step to 10 is undone, and so is one to 4; then one to 3 is kept, and one that rings."""
    int32 = TYPES.index("Int32") + 1
    host = Host(program, directory, resolution)
    host.instantiate("a", "{alarm}", event_mode=True, early_return=True)
    host.ask("Set", type=int32, reference=1, first=7)
    host.ask("EnterInitialization", first=0, second=20)
    host.ask("ExitInitialization")

    def instant(point):
        print(f"at {point}: y {number_of(int32, host.ask('Get', type=int32, reference=2)[2])}")
        host.ask("Update")

    def step(point, size, undo):
        flags, _, end, _ = host.ask("DoStep", first=point, second=size)
        host.ask("Restore" if undo else "Free")
        print(f"step to {end}, flags {flags}{', undone' if undo else ''}")

    instant(0)
    host.ask("EnterStep")
    host.ask("Save")
    step(0, 10, True)
    step(0, 4, True)
    step(0, 3, False)
    host.ask("EnterEvent")
    instant(3)
    host.ask("EnterStep")
    host.ask("Save")
    step(3, 7, False)
    host.ask("EnterEvent")
    instant(7)
    host.ask("Terminate")
    host.ask("FreeInstance")
    expect("after FreeInstance", host.end(), (b"", 0))


def drive_pulse(program, directory, resolution):
    """The pulse: its Clock is under 1, the first interval and the shift under 2 and 3, in thousandths of a second."""
    host = Host(program, directory, resolution)
    host.instantiate("p", "{pulse}", event_mode=True)
    for reference, value in ((2, 3), (3, 2)):
        host.ask("Set", type=TYPES.index("Int32") + 1, reference=reference, first=value)
    host.ask("EnterInitialization", first=0, second=resolution)
    counter, parts = host.ask("GetShift", reference=1)[2:]
    print(f"shift {counter}/{parts}")
    host.ask("ExitInitialization")
    host.ask("Update")
    point = 0
    for _ in range(3):
        host.ask("EnterStep")
        point = host.ask("DoStep", first=point, second=resolution * counter // parts)[2]
        host.ask("EnterEvent")
        host.ask("SetClock", reference=1)
        _, qualifier, counter, parts = host.ask("GetInterval", reference=1)
        print(f"at {point}: interval {qualifier} {counter}/{parts}")
        host.ask("Update")
    host.ask("Terminate")
    host.ask("FreeInstance")
    expect("after FreeInstance", host.end(), (b"", 0))


def drive_waker(program, directory, resolution):
    """The waker at 7 thousandths of a second: a step of one count, one to the time that it names, and one more."""
    int32 = TYPES.index("Int32") + 1
    host = Host(program, directory, resolution)
    host.instantiate("w", "{waker}", event_mode=True)
    host.ask("Set", type=int32, reference=1, first=7)
    host.ask("EnterInitialization", first=0, second=resolution)
    host.ask("ExitInitialization")

    def instant(point):
        shown = number_of(int32, host.ask("Get", type=int32, reference=2)[2])
        flags, _, event, _ = host.ask("Update")
        print(f"at {point}: y {shown}, flags {flags}, event {event}")
        return event

    def step(point, end):
        host.ask("EnterStep")
        host.ask("DoStep", first=point, second=end - point)
        host.ask("EnterEvent")

    instant(0)
    step(0, 1)
    event = instant(1)
    step(1, event)
    instant(event)
    step(event, event + 1)
    instant(event + 1)
    host.ask("Terminate")
    host.ask("FreeInstance")
    expect("after FreeInstance", host.end(), (b"", 0))


# What is no frame of a call: its bytes, each after a good Instantiate.
NO_FRAMES = (
    ("the kind 0", FRAME.pack(0, 0, 0, 0, 0, 0, 0)),
    ("the kind 19", FRAME.pack(19, 0, 0, 0, 0, 0, 0)),
    ("a type of DoStep", FRAME.pack(6, 1, 0, 0, 0, 0, 1)),
    ("flags of a call", FRAME.pack(6, 0, 1, 0, 0, 0, 1)),
    ("byte 3", FRAME.pack(6, 0, 0, 1, 0, 0, 1)),
    ("a reference of Serialize", FRAME.pack(20, 0, 0, 0, 1, 0, 0)),
    ("a type of Deserialize", FRAME.pack(21, 5, 0, 0, 0, 0, 1)),
    ("the kind 22", FRAME.pack(22, 0, 0, 0, 0, 0, 0)),
    ("a reference of DoStep", FRAME.pack(6, 0, 0, 0, 1, 0, 1)),
    ("a number of ExitInitialization", FRAME.pack(3, 0, 0, 0, 0, 1, 0)),
    ("a second number of Set", FRAME.pack(9, 5, 0, 0, 1, 1, 1)),
    ("Get of no type", FRAME.pack(8, 0, 0, 0, 2, 0, 0)),
    ("Get of a Clock", FRAME.pack(8, 11, 0, 0, 2, 0, 0)),
    ("the Int8 128", FRAME.pack(9, 1, 0, 0, 1, 128, 0)),
    ("an Int32 that isn't extended by its sign", FRAME.pack(9, 5, 0, 0, 1, 0xFFFFFFFD, 0)),
    ("the Boolean 2", FRAME.pack(9, 9, 0, 0, 1, 2, 0)),
    ("Instantiate without a name", FRAME.pack(1, 0, 0, 0, 0, 0, 1) + b"t"),
    ("Instantiate with unknown flags", FRAME.pack(1, 0, 0, 0, 8, 1, 0) + b"n"),
    ("a batch without a call", FRAME.pack(BATCH, 0, 0, 0, 0, 0, 0)),
    ("a batch of 65 calls", FRAME.pack(BATCH, 0, 0, 0, 65, 0, 0)),
    ("a batch with a type", FRAME.pack(BATCH, 5, 0, 0, 1, 0, 0) + FRAME.pack(8, 5, 0, 0, 2, 0, 0)),
    ("a batch of a DoStep", FRAME.pack(BATCH, 0, 0, 0, 1, 0, 0) + FRAME.pack(6, 0, 0, 0, 0, 0, 10)),
    ("a batch of a Get and a Set", FRAME.pack(BATCH, 0, 0, 0, 2, 0, 0) + FRAME.pack(8, 5, 0, 0, 2, 0, 0) + FRAME.pack(9, 5, 0, 0, 1, 0, 0)),
    ("a part of a batch", FRAME.pack(BATCH, 0, 0, 0, 2, 0, 0) + FRAME.pack(8, 5, 0, 0, 2, 0, 0)),
    ("a name that is too long", FRAME.pack(1, 0, 0, 0, 0, 2**24 + 1, 0)),
    ("one byte", b"\x06"),
    ("23 bytes", FRAME.pack(6, 0, 0, 0, 0, 0, 1)[:23]),
    ("a token that is cut", FRAME.pack(1, 0, 0, 0, 0, 1, 3) + b"n{t"),
)


def drive_odd(program, directory, resolution):
    """A host of the counter: odd inputs, saved states, and calls that it doesn't know."""
    int32 = TYPES.index("Int32") + 1
    host = Host(program, directory, resolution)
    expect("no input", host.end(), (b"", 0))
    for what, data in NO_FRAMES:
        host = Host(program, directory, resolution)
        host.instantiate("fmu", "{c}")
        host.send(data)
        expect(what, host.end(), (b"", 1))

    host = Host(program, directory, resolution)
    host.instantiate("a b/\u00e9\U0001f600", "{c}", early_return=True)
    host.ask("Set", type=int32, reference=1, first=2**64 - 5)
    host.ask("EnterInitialization", first=10, second=258)
    host.ask("ExitInitialization")
    count = lambda: number_of(int32, host.ask("Get", type=int32, reference=2)[2])
    expect("before a step", count(), 0)
    host.ask("Save")
    expect("a step", host.ask("DoStep", first=10, second=7), (0, 0, 17, 0))
    expect("after a step", count(), -5)
    for _ in range(2):
        host.ask("Restore")
        expect("after a Restore", count(), 0)
        host.ask("DoStep", first=10, second=10)
    expect("after both", count(), -5)
    host.ask("Free")
    host.ask("Terminate")
    host.ask("FreeInstance")
    expect("after FreeInstance", host.end(), (b"", 0))

    refused = (
        ("GetClock", {"reference": 1}),
        ("SetClock", {"reference": 1}),
        ("GetInterval", {"reference": 1}),
        ("GetShift", {"reference": 1}),
        ("Get", {"type": int32, "reference": 77}),
        ("Set", {"type": int32, "reference": 77, "first": 1}),
        ("Restore", {}),
        ("Free", {}),
    )
    for kind, fields in refused:
        host = Host(program, directory, resolution)
        host.instantiate("fmu", "{c}")
        host.ask("EnterInitialization", first=0, second=20)
        host.ask("ExitInitialization")
        number = KINDS.index(kind) + 1
        expect(kind, host.exchange(kind, **fields).hex(), FRAME.pack(number, 3, 0, 0, 0, 0, 0).hex())
        expect("FreeInstance after Error", host.exchange("FreeInstance"), FRAME.pack(18, 0, 0, 0, 0, 0, 0))
        expect("after it", host.end(), (b"", 0))


def drive_states(program, directory, resolution):
    """A state that is saved after a step goes on in another instance; other bytes are refused, and cut ones end the host."""
    int32 = TYPES.index("Int32") + 1
    token = Description(directory).token

    def start():
        host = Host(program, directory, resolution)
        host.instantiate("fmu", token)
        return host

    def count(host):
        return number_of(int32, host.ask("Get", type=int32, reference=2)[2])

    first = start()
    first.ask("EnterInitialization", first=0, second=30)
    first.ask("ExitInitialization")
    first.ask("DoStep", first=0, second=10)
    first.ask("Save")
    length = first.ask("Serialize")[1]
    state = first.receive(length)
    expect("the bytes of the state", len(state), length)
    first.ask("DoStep", first=10, second=10)
    told = count(first)
    expect("again", (first.ask("Serialize")[1], first.receive(length)), (length, state))
    first.ask("Free")
    first.ask("Terminate")
    first.ask("FreeInstance")
    expect("after FreeInstance", first.end(), (b"", 0))

    host = start()
    host.ask("Deserialize", reference=length, first=10, second=30, texts=state)
    host.ask("Restore")
    host.ask("Free")
    before = count(host)
    host.ask("DoStep", first=10, second=10)
    expect("the count", (before * 2, count(host)), (told, told))
    host.ask("Terminate")
    host.ask("FreeInstance")
    expect("after a resumed run", host.end(), (b"", 0))

    for bad in (b"", state[:-1], state + b"\0", b"\0" * 5000):
        host = start()
        data = host.exchange("Deserialize", reference=len(bad), first=10, second=30, texts=bad)
        expect(f"{len(bad)} bytes", data.hex(), FRAME.pack(21, 3, 0, 0, 0, 0, 0).hex())
        host.ask("FreeInstance")
        expect("after it", host.end(), (b"", 0))
    for came in (0, 1, length - 1):
        host = start()
        host.send(FRAME.pack(21, 0, 0, 0, length, 10, 30) + state[:came])
        expect(f"{came} bytes of a state", host.end(), (b"", 1))
    host = start()
    host.send(FRAME.pack(21, 0, 0, 0, 2**32 - 1, 10, 30) + state)
    expect("a length near 2^32", host.end(), (b"", 1))


def drive_batches(program, directory, resolution):
    """Parameters are set in one batch and read in others, up to the first reply that isn't good."""
    host = Host(program, directory, resolution)
    if host.instantiate("fmu", Description(directory).token):
        raise Stopped(7, "batches that nobody asked for")
    host.ask("FreeInstance")
    host.end()
    host = Host(program, directory, resolution)
    if not host.instantiate("fmu", Description(directory).token, batches=True):
        raise Stopped(7, "no batches")
    inc, y, unknown = 1, 2, 99
    told = [host.ask_together("Set", (5, inc, 3))]
    host.ask("EnterInitialization", first=0, second=20)
    host.ask("ExitInitialization")
    host.ask("DoStep", first=0, second=10)
    told.append(host.ask_together("Get", *[(5, y, 0)] * 64))
    expect("replies", told, [[(0, 0)], [(0, 3)] * 64])
    try:
        expect("up to an unknown variable", host.ask_together("Get", (5, y, 0), (5, unknown, 0), (5, y, 0)), [(0, 3), (3, 0)])
        host.ask("FreeInstance")
        expect("after FreeInstance", host.end(), (b"", 0))
    except Stopped as end:
        # A host that tests what is permitted, as fmu_host, ends there, and answers none of the batch.
        if end.status != 5:
            raise
        expect("a call that isn't permitted", host.end(), (b"", 6))


def main(words):
    try:
        if len(words) == 5 and words[0] == "--page":
            play_page(words[1], words[2], words[3], words[4])
        elif len(words) == 4 and words[0] == "--sampler":
            drive_sampler(*words[1:])
        elif len(words) == 4 and words[0] == "--alarm":
            drive_alarm(*words[1:])
        elif len(words) == 4 and words[0] == "--pulse":
            drive_pulse(*words[1:3], int(words[3]))
        elif len(words) == 4 and words[0] == "--waker":
            drive_waker(*words[1:3], int(words[3]))
        elif len(words) == 4 and words[0] == "--batches":
            drive_batches(*words[1:])
        elif len(words) == 4 and words[0] == "--states":
            drive_states(*words[1:])
        elif len(words) == 4 and words[0] == "--odd":
            drive_odd(*words[1:])
        elif len(words) == 5:
            drive(words[0], words[1], int(words[2]), int(words[3]), int(words[4]))
        else:
            print(__doc__, file=sys.stderr)
            return 2
    except Stopped as end:
        sys.stdout.flush()
        print(end, file=sys.stderr)
        return end.status
    return 0


if __name__ == "__main__":
    sys.exit(main(sys.argv[1:]))
