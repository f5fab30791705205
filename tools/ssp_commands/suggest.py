"""`ssp suggest DIR`: from a system or an FMU to the command that runs it."""
import os
import re
from fractions import Fraction
from functools import reduce
from math import gcd

from .common import Told, in_shell, one_line
from .systems import BUILT_IN, OneFmu, read_system

ABOUT = """Reads DefaultExperiment, fixedInternalStepSize and the intervals of Clocks, and prints the command that runs the system
or the FMU in DIR, with a sentence for each choice: the resolution R is the least at which step, start, stop, intervals and shifts
are whole numbers of counts. What nothing describes stands in the command by its letter, and is to be given."""
MOST = 1 << 62
NUMBER = re.compile(r"[+-]?(\d+(\.\d*)?|\.\d+)([eE](?P<exponent>[+-]?\d+))?", re.ASCII)
# an unsigned number of 64 bits has up to 20 digits
WHOLE = re.compile(r"\+?0*(\d{1,20})", re.ASCII)


def add_parser(subparsers):
    parser = subparsers.add_parser("suggest", help="suggests the command that runs a system or an FMU", description=ABOUT)
    parser.add_argument("folder", metavar="DIR", help="the folder of a system or of an FMU")
    return parser


def run(args):
    sentences, command = suggestion(read_system(args.folder))
    for sentence in sentences:
        print(one_line(sentence))
    print()
    print(one_line(command))


class Said:
    """A time in seconds that a file describes, and who says it."""

    def __init__(self, value, whose):
        self.value, self.whose = value, whose

    def __str__(self):
        return f"{seconds(self.value)} ({self.whose})"


def seconds(value):
    """A fraction of seconds as a decimal where it is one, else as a fraction."""
    if max(value.numerator.bit_length(), value.denominator.bit_length()) > 4096:
        return "a time with more than a thousand digits"
    down, twos, fives = value.denominator, 0, 0
    while down % 2 == 0:
        down, twos = down // 2, twos + 1
    while down % 5 == 0:
        down, fives = down // 5, fives + 1
    places = max(twos, fives)
    if down != 1 or places > 18:
        return f"{value.numerator}/{value.denominator} s"
    digits = str(abs(value.numerator) * 10**places // value.denominator).rjust(places + 1, "0")
    sign = "-" if value < 0 else ""
    return f"{sign}{digits[: len(digits) - places]}{'.' if places else ''}{digits[len(digits) - places :]} s"


def number(element, name, path):
    """An attribute that is a time, as the fraction that its digits are; None where it isn't given."""
    text = element.get(name) if element is not None else None
    if text is None:
        return None
    found = NUMBER.fullmatch(text.strip())
    if not found or len(text) > 400 or abs(int(found["exponent"] or 0)) > 400:
        raise Told(f"{path}:{element.line}:{element.column}: {name} is no number: {text}")
    return Fraction(text.strip())


def whole(text):
    """A whole number of an attribute; None where it isn't given, or is none that FMI has there."""
    found = WHOLE.fullmatch(text.strip()) if text is not None else None
    return int(found[1]) if found else None


class Experiment:
    """What the files say of start, stop, step, internal steps and Clocks."""

    def __init__(self, system):
        self.starts, self.stops, self.steps, self.internal, self.clocks = [], [], [], [], []
        self.asked, self.fixed, seen = [], [], []
        if not isinstance(system, OneFmu):
            default = system.root.first("DefaultExperiment")
            self.take(self.starts, default, "startTime", system.path, "the system")
            self.take(self.stops, default, "stopTime", system.path, "the system")
        of_system = bool(self.starts), bool(self.stops)
        for component in system.components:
            description = component.description
            if description not in seen:
                seen.append(description)
                self.read(description, component.name, of_system)

    def take(self, to, element, name, path, whose):
        value = number(element, name, path)
        if value is not None:
            to.append(Said(value, whose))

    def read(self, description, name, of_system):
        default = description.root.first("DefaultExperiment")
        has_start, has_stop = of_system
        if not has_start:
            self.take(self.starts, default, "startTime", description.path, name)
        if not has_stop:
            self.take(self.stops, default, "stopTime", description.path, name)
        self.take(self.steps, default, "stepSize", description.path, name)
        self.take(self.internal, description.co_simulation, "fixedInternalStepSize", description.path, name)
        if not description.flag("canHandleVariableCommunicationStepSize"):
            self.fixed.append(name)
        for clock in description.clocks():
            self.read_clock(description, clock, f"{name}.{clock.name}")

    def read_clock(self, description, clock, name):
        element, path = clock.element, description.path
        kind, has_fraction = element.get("intervalVariability"), element.get("supportsFraction") in ("true", "1")
        if kind == "changing" or (kind == "fixed" and has_fraction):
            self.asked.append(name)
        if kind not in ("constant", "fixed") or (kind == "fixed" and has_fraction):
            return
        counter, resolution, shift = (whole(element.get(name)) for name in ("intervalCounter", "resolution", "shiftCounter"))
        if has_fraction and counter is not None and resolution:
            interval, shift = Fraction(counter, resolution), Fraction(shift or 0, resolution)
        else:
            interval, shift = number(element, "intervalDecimal", path), number(element, "shiftDecimal", path) or Fraction(0)
        if interval is not None and interval > 0:
            self.clocks.append((Said(interval, name), Said(shift, name)))


def lcm(numbers):
    """The least common multiple of numbers above 0."""
    return reduce(lambda a, b: a * b // gcd(a, b), numbers, 1)


def common_denominator(values):
    return lcm(value.denominator for value in values)


def whole_gcd(values):
    """The greatest time of which all these are whole multiples."""
    bottom = common_denominator(values)
    return Fraction(reduce(gcd, (int(value * bottom) for value in values)), bottom)


def whole_lcm(values):
    """The least time that is a whole multiple of all these."""
    bottom = common_denominator(values)
    return Fraction(lcm(int(value * bottom) for value in values), bottom)


def choose_step(of):
    """The step and why, or None."""
    internal = [said.value for said in of.internal if said.value > 0]
    steps = [said for said in of.steps if said.value > 0]
    least = min(steps, key=lambda said: said.value, default=None)
    several = "" if len({said.value for said in steps}) < 2 else ", the least that is described"
    if not internal and not least:
        return None, "Nothing describes a step: give H, the counts from one exchange of values to the next."
    if not internal:
        return least.value, f"Step: {least}{several}."
    common = whole_lcm(internal)
    names = ", ".join(f"{said.whose} {seconds(said.value)}" for said in of.internal)
    if least and (least.value / common).denominator == 1:
        return least.value, f"Step: {least}{several}, a whole multiple of the internal steps ({names})."
    if least and least.value > common:
        whole = common * -(-least.value // common)
        return whole, f"Step: {seconds(whole)}, the least from {least} on that is a whole multiple of the internal steps ({names})."
    return common, f"Step: {seconds(common)}, the least whole multiple of the internal steps ({names})."


def choose_end(found, what, letter, pick, without):
    if not found:
        return None, without
    chosen = pick(found, key=lambda said: said.value)
    if chosen.value < 0:
        return None, f"{what}: {chosen} is before 0, where counts begin: give {letter}."
    several = "" if len({said.value for said in found}) < 2 else f", of several the {'greatest' if pick is max else 'least'}"
    return chosen.value, f"{what}: {chosen}{several}."


def suggestion(system):
    """The sentences, and the command."""
    of = Experiment(system)
    step, of_step = choose_step(of)
    start, of_start = choose_end(of.starts, "Start", "S", min, "Nothing describes a start: it is 0.")
    without = "Nothing describes a stop: give T, in counts."
    stop, of_stop = choose_end(of.stops, "Stop", "T", max, without)
    start = start or Fraction(0)
    if stop is not None and stop < start:
        stop, of_stop = None, f"Stop: {seconds(stop)} is before the start: give T, in counts."
    times = [value for value in (step, start, stop) if value is not None]
    times += [said.value for pair in of.clocks for said in pair]
    described = [value for value in times if value]
    resolution = common_denominator(described) if described else None
    sentences = [of_step, of_start, of_stop]
    if of.clocks:
        listed = ", ".join(f"{interval.whose} {seconds(interval.value)}" for interval, _ in of.clocks)
        sentences.append(f"Clocks: {listed}.")
    if of.asked:
        asked = f"Asked in the run: the intervals of {', '.join(of.asked)}"
        sentences.append(f"{asked}; R has to be a multiple of their denominators too.")
    if resolution is None:
        sentences.append("Resolution: nothing describes a time: give R, the counts a second; with 1000 a count is a millisecond.")
    elif max([resolution, *(value * resolution for value in described)]) > MOST:
        fine = "Resolution: all these are whole counts first where there are more than 2^62 of them"
        sentences.append(f"{fine}: give R, H and T that are near enough.")
        resolution = step = stop = None
        start = Fraction(0)
    else:
        what = "all these times are whole numbers" if len(described) > 1 else "this time is a whole number"
        sentences.append(f"Resolution: {resolution} counts a second, the least at which {what} of counts.")
    sentences += told_counts(resolution, step, stop, start)
    sentences += warnings(of, step, start, stop)
    host, of_host = choose_host(system)
    sentences.append(of_host)
    return [*sentences, *cautions(system)], command_of(system, resolution, step, start, stop, host)


def cautions(system):
    """What the program refuses of the FMUs, or passes over, as far as it decides whether the command makes sense."""
    others, lacking, reals = {}, [], []
    for component in system.components:
        description = component.description
        version = description.root.get("fmiVersion", "")
        if version and version != "3.0" and not version.startswith("3.0."):
            others.setdefault(version, []).append(component.name)
        elif description.co_simulation is None:
            lacking.append(component.name)
        elif any(one.is_real() for one in description.variables):
            reals.append(component.name)
    for version, names in others.items():
        yield f"Refused by rule 11: {listed(names)} of FMI {version} (docs/HOSTS.md, My FMU is FMI 2.0)."
    if lacking:
        yield f"Refused by rule 12: no Co-Simulation in {listed(lacking)}."
    if reals:
        folder = in_shell(system.folder)
        yield f"Passed over: the Float variables of {listed(reals)}; `tools/ssp reals {folder} OUT` makes them integers that hold their bits."


def listed(names):
    """The first of some names."""
    return ", ".join(names[:4]) + (f" and {len(names) - 4} more" if len(names) > 4 else "")


def warnings(of, step, start, stop):
    """Where an FMU takes no step of another size, and the last step or a tick asks for one."""
    if not of.fixed or step is None:
        return
    names = ", ".join(of.fixed)
    if stop is not None and ((stop - start) / step).denominator != 1:
        whole = start + step * ((stop - start) // step)
        yield f"The last step is shorter, which {names} can't make (status 9): stop at {seconds(whole)}."
    off = [said.whose for interval, shift in of.clocks for said in (interval, shift) if (said.value / step).denominator != 1]
    if off:
        ticks = [said.value for pair in of.clocks for said in pair if said.value]
        fit = whole_gcd([step, *ticks])
        several = ", ".join(dict.fromkeys(off))
        why = f"Ticks of {several} lie between two points, and {names} can't make a shorter step (status 9)"
        yield f"{why}: with a step of {seconds(fit)} they are all on the grid."


def choose_host(system):
    """The host, or None for the machines that are part of the program, and why."""
    others = []
    for component in system.components:
        description = component.description
        identifier = description.co_simulation.get("modelIdentifier", "") if description.co_simulation is not None else ""
        if os.path.isdir(os.path.join(component.folder, "binaries")) or identifier not in BUILT_IN:
            others.append(component.name)
    if not others:
        return None, "Host: none, since each FMU has the model identifier of a machine that is part of the program."
    lacking = [
        component.name
        for component in system.components
        if not os.path.isdir(os.path.join(component.folder, "binaries", "x86_64-linux"))
    ]
    why = "Host: fmi3_host, which loads the libraries of the FMUs; docs/HOSTS.md says how to build it."
    if lacking:
        why += f" There is no binaries/x86_64-linux of {', '.join(lacking)}."
    return "./fmi3_host", why


def in_counts(value, resolution, letter):
    return letter if value is None or resolution is None else str(int(value * resolution))


def told_counts(resolution, step, stop, start):
    """The times in counts and in seconds, as far as they are known."""
    known = [(letter, value) for letter, value in (("H", step), ("T", stop), ("S", start or None)) if value is not None]
    if resolution is not None and known:
        listed = ", ".join(f"{letter} {in_counts(value, resolution, letter)} ({seconds(value)})" for letter, value in known)
        yield f"In counts: {listed}."


def command_of(system, resolution, step, start, stop, host):
    words = ["./ssprun", "one" if isinstance(system, OneFmu) else "run", in_shell(system.folder)]
    words += ["--resolution", "R" if resolution is None else str(resolution)]
    words += ["--step", in_counts(step, resolution, "H"), "--stop", in_counts(stop, resolution, "T")]
    words += ["--start", in_counts(start, resolution, "S")] if start else []
    words += ["--host", host] if host else []
    return " ".join(words)
