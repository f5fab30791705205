"""Real variables as integers that hold their bits.

The program knows no reals. Two words of 64 bits are handed on exactly, though: so where a Float64 is an Int64 at both ends of
a connection, and the host hands the bits on to the FMU, nothing is rounded. `ssp reals` writes a system in which that is so.
The documents are edited by the places of their elements: what isn't changed stays as it is, byte for byte.
"""
import math
import os
import re
import shutil
import struct
from fractions import Fraction

from . import common
from .common import Told, room_in
from .systems import NESTED

# beside a description: the value references of the variables that were real, for the host
REFERENCES = "reals.txt"
# at the top of the copy: the inputs and outputs that were real
PORTS = "real_ports.txt"

CAUSALITIES = ("input", "output", "parameter")
VALUES = ("Real", "Integer", "Boolean", "String", "Enumeration", "Binary")
TRANSFORMATIONS = (
    "LinearTransformation",
    "BooleanMappingTransformation",
    "IntegerMappingTransformation",
    "EnumerationMappingTransformation",
)
# what an Int64 of a model description doesn't have, and what says nothing of bits
DROPPED = (
    "declaredType quantity unit displayUnit relativeQuantity unbounded min max nominal derivative reinit".split()
)
# XML Schema: double and float
REAL_TEXT = re.compile(r"[+-]?(?:[0-9]+(?:\.[0-9]*)?|\.[0-9]+)(?:[Ee][+-]?[0-9]+)?|-?INF|NaN")
WHOLE_TEXT = re.compile(r"[+-]?0*[0-9]{1,20}")
LONGEST_TEXT = 1000
# the program reads 64 levels of elements, so fewer systems
MOST_LEVELS = 64
WHITE_SPACE = " \t\r\n"


def add_parser(subparsers):
    parser = subparsers.add_parser(
        "reals",
        help="copy a system so that its reals are integers that hold their bits",
        description="Copies an unpacked system, or one FMU, so that each scalar Float64 among its inputs, outputs and "
        "parameters is an Int64 with the 64 bits of IEEE 754, and each Float32 an Int32. A host that reads reals.txt, as "
        "hosts/fmi3_host.c, hands the bits on to the FMU. What can't be kept exactly is told, and nothing is written.",
    )
    parser.add_argument("system", metavar="SYSTEM", help="the folder of a system, or of one FMU")
    parser.add_argument("out", metavar="OUT", help="the folder to write, which isn't there yet")
    return parser


def run(args):
    plan = Plan(args.system)
    copy(plan, args.out)
    print(f"{len(plan.reals())} variables, {plan.values} values and {len(plan.ports())} ports are bits now")


# ---- reals and their bits


class Real:
    """A type of reals, and the type of the integers that hold its bits. Formats are those of `struct`."""

    def __init__(self, name, real_format, integer, integer_format):
        self.name, self.real_format = name, real_format
        self.integer, self.integer_format = integer, integer_format

    def word(self, text):
        """The integer with the bits of the real that a text writes, or None."""
        text = text.strip(WHITE_SPACE)
        if len(text) > LONGEST_TEXT or not REAL_TEXT.fullmatch(text):
            return None
        if text[-1] in "FN":
            return self.bits(float(text.replace("INF", "inf")))
        value = self.nearest(text)
        return None if value is None else self.bits(value)

    def nearest(self, text):
        """The real of the type nearest to a decimal, or None where that is past the greatest."""
        wanted = float(text)
        try:
            near = self.rounded(wanted)
        except OverflowError:
            return None
        if near in (float("inf"), float("-inf")):
            return None
        if self.name == "Float64" or near == wanted == 0:
            return near
        # rounded twice, by way of a Float64: one of the neighbours may be nearer to the decimal itself
        exact = Fraction(text)
        around = [near] + [value for value in map(self.beside, (near, near), (1, -1)) if value is not None]
        found = min(around, key=lambda value: (abs(Fraction(value) - exact), self.bits(value) & 1))
        return -0.0 if found == 0 and text.startswith("-") else found

    def rounded(self, value):
        return struct.unpack(self.real_format, struct.pack(self.real_format, value))[0]

    def beside(self, value, by):
        """The next real of the type, or the one before; None past the greatest."""
        if value == 0:
            return by * self.from_bits(1)
        found = self.from_bits(self.bits(value) + (by if value > 0 else -by))
        return None if found in (float("inf"), float("-inf")) else found

    def bits(self, value):
        return struct.unpack(self.integer_format, struct.pack(self.real_format, value))[0]

    def from_bits(self, bits):
        return struct.unpack(self.real_format, struct.pack(self.integer_format, bits))[0]

    def whole(self, number):
        """The integer with the bits of a whole number, or None where the type doesn't have it exactly."""
        try:
            value = self.rounded(float(number))
        except OverflowError:
            return None
        return self.bits(value) if value == number else None


REALS = {
    "Float64": Real("Float64", ">d", "Int64", ">q"),
    "Float32": Real("Float32", ">f", "Int32", ">i"),
}


# ---- documents, and what is changed in them


class Document:
    """A file of the system: its root, and the changes to its bytes."""

    TAG = re.compile(rb"""<([^\s/>]+)((?:\s+[^\s=]+\s*=\s*(?:"[^"]*"|'[^']*'))*)\s*(/?)>""")
    ATTRIBUTE = re.compile(rb"""\s+([^\s=]+)\s*=\s*(?:"([^"]*)"|'([^']*)')""")

    def __init__(self, top, file):
        self.file, self.path = file, os.path.join(top, *file.split("/"))
        self.data = common.read_file(self.path)
        self.root = common.parse_xml(self.data, self.path)
        self.changes = {}

    def at(self, element):
        return f"{self.path}:{element.line}:{element.column}"

    def tag(self, element):
        found = self.TAG.match(self.data, element.byte)
        if not found:
            raise Told(f"{self.at(element)}: the document isn't UTF-8")
        return found

    def change(self, start, end, text):
        self.changes[start] = (end, text.encode())

    def rename(self, element, name):
        tag = self.tag(element)
        whole = tag.group(1)
        local = len(whole) - len(whole.rpartition(b":")[2])
        self.change(tag.start(1) + local, tag.end(1), name)
        if not tag.group(3):
            begin = element.end + 2 + local
            self.change(begin, element.end + 2 + len(whole), name)

    def attributes(self, element):
        tag = self.tag(element)
        for found in self.ATTRIBUTE.finditer(self.data, tag.start(2), tag.end(2)):
            yield found.group(1).decode("utf-8", "replace"), found

    def put(self, element, name, text):
        """Another value of an attribute, in the quotes that it has."""
        for key, found in self.attributes(element):
            if key == name:
                group = 2 if found.group(2) is not None else 3
                self.change(found.start(group), found.end(group), text)

    def drop(self, element, *names):
        for key, found in self.attributes(element):
            if key in names:
                self.change(found.start(), found.end(), "")

    def bytes(self):
        pieces, place = [], 0
        for start in sorted(self.changes):
            end, text = self.changes[start]
            pieces += [self.data[place:start], text]
            place = end
        return b"".join([*pieces, self.data[place:]])


def flag(element, name):
    return element.get(name) in ("true", "1")


# ---- units


def units_in(root):
    """The base units of the units that a document defines, by their names (FMI 3.0: UnitDefinitions; SSP 1.0: Units)."""
    found = {}
    for units in root.named("UnitDefinitions", "Units"):
        for unit in units.named("Unit"):
            base = unit.first("BaseUnit")
            if base is not None and unit.get("name"):
                try:
                    found.setdefault(unit.get("name"), base_of(base))
                except ValueError:
                    pass
    return found


def base_of(base):
    exponents = {key: int(value) for key, value in base.attributes.items() if key not in ("factor", "offset")}
    factor, offset = float(base.get("factor", "1")), float(base.get("offset", "0"))
    return {key: value for key, value in exponents.items() if value}, factor, offset


class Unit:
    """A unit by its name, with what the document of the name defines it to be."""

    def __init__(self, name, definitions):
        self.name, self.base = name, definitions.get(name)

    def differs(self, other):
        """Whether a value would have to be converted from the one to the other. Of one name factors may be rounded."""
        if self.base is None or other.base is None:
            return self.name != other.name
        near = 1e-9 if self.name != other.name else 1e-3
        (exponents, *numbers), (others, *other_numbers) = self.base, other.base
        same = all(math.isclose(*pair, rel_tol=near) for pair in zip(numbers, other_numbers))
        return exponents != others or not same

    def beside(self, other):
        """The name, with what it stands for where the other has the same name."""
        if self.name != other.name:
            return self.name
        exponents, factor, offset = self.base
        numbers = {"factor": factor, "offset": offset, **exponents}
        return f"{self.name} ({' '.join(f'{key}={value}' for key, value in numbers.items())})"


def unit_of(element, definitions):
    name = element.get("unit") if element is not None else None
    return Unit(name, definitions) if name else None


def differ(first, second):
    return first is not None and second is not None and first.differs(second)


# ---- FMUs


class Variable:
    """A variable of an FMU, with the type of reals that it is converted from, if it is."""

    def __init__(self, element):
        self.element = element
        self.name, self.type = element.get("name"), element.name
        self.causality = element.get("causality", "local")
        self.is_array = element.first("Dimension") is not None
        self.names = [self.name] + [alias.get("name") for alias in element.named("Alias")]
        self.real = None
        self.unit = None

    def is_served(self):
        """Neither an array nor of a type that has no words."""
        return not self.is_array and self.type not in ("String", "Binary")

    def described(self):
        if self.is_array:
            return f"an array of {self.type}"
        if self.real is not None or self.type not in REALS:
            return f"{self.causality} of type {self.type}"
        return f"{self.causality} of type {self.type} that isn't converted"


class Fmu:
    """The description of an FMU, in a folder of the system."""

    def __init__(self, top, folder):
        self.folder = folder
        self.document = Document(top, joined(folder, common.DESCRIPTION))
        root = self.document.root
        elements = [element for part in root.named("ModelVariables") for element in part.children]
        self.variables = [Variable(element) for element in elements]
        foreign = self.foreign_clocks()
        units = units_in(root)
        declared = {
            simple.get("name"): simple
            for types in root.named("TypeDefinitions")
            for simple in types.named(*(f"{name}Type" for name in REALS))
        }
        self.by_name = {}
        self.reals = []
        for variable in self.variables:
            element = variable.element
            for name in variable.names:
                if name:
                    self.by_name.setdefault(name, variable)
            if variable.type not in REALS or variable.is_array or variable.causality not in CAUSALITIES:
                continue
            if foreign.intersection(element.get("clocks", "").split()):
                continue
            variable.real = REALS[variable.type]
            variable.unit = unit_of(element, units) or unit_of(declared.get(element.get("declaredType")), units)
            self.reals.append(variable)
            self.convert(variable)
        there = os.path.join(top, *folder.split("/"), REFERENCES)
        if os.path.lexists(there):
            raise Told(f"{there} is there already: the FMU is converted")

    def foreign_clocks(self):
        """The references of Clocks that the profile passes over: those that are local, or ticked by such a one."""
        clocks = [variable for variable in self.variables if variable.type == "Clock"]
        found = set()
        while True:
            more = {
                clock.element.get("valueReference")
                for clock in clocks
                if clock.causality == "local" or clock.is_array or found.intersection(clock.element.get("clocks", "").split())
            }
            if more == found:
                return found
            found = more

    def convert(self, variable):
        element, document = variable.element, self.document
        if not variable.name:
            raise Told(f"{document.at(element)}: a {variable.type} without a name")
        at = f"{document.at(element)}: {variable.name}"
        if not re.fullmatch("[0-9]{1,10}", element.get("valueReference", "")):
            raise Told(f"{at}: valueReference is no number")
        document.rename(element, variable.real.integer)
        document.drop(element, *DROPPED)
        if element.get("variability") == "continuous":
            document.put(element, "variability", "discrete")
        if element.get("start") is not None:
            word = variable.real.word(element.get("start"))
            if word is None:
                raise Told(f"{at}: start={element.get('start')!r} is no {variable.type}")
            document.put(element, "start", str(word))
        for alias in element.named("Alias"):
            document.drop(alias, "displayUnit")

    def references(self):
        found = sorted(int(variable.element.get("valueReference")) for variable in self.reals)
        return "".join(f"{reference}\n" for reference in found)


# ---- systems


def joined(folder, file):
    return f"{folder}/{file}" if folder else file


def path_of(document, element):
    """The path that `source` names, by rule 33."""
    segments = element.get("source").split("/")
    if segments[-1] == "":
        segments.pop()
    segments = [segment for segment in segments if segment != "."]
    if not segments or "" in segments or ".." in segments or re.search(r"[:%\\?#]", element.get("source")):
        raise Told(f"{document.at(element)}: source={element.get('source')!r} is no path below the system")
    return "/".join(segments)


class Connector:
    def __init__(self, element, part):
        self.element, self.part = element, part
        self.name = element.get("name")
        self.type = element.first(*VALUES)
        self.variable = part.fmu.by_name.get(self.name) if part.fmu else None

    def point(self):
        """What a connection to it joins: the variable of this component, or the connector itself."""
        return self if self.variable is None else (self.part, self.variable)

    def told(self):
        return ".".join([*self.part.names, self.name or ""])


class Part:
    """A System or a component."""

    def __init__(self, element, names):
        self.element, self.names = element, names
        self.name = ".".join(names)
        self.fmu = None
        self.parts = []
        self.connectors = {}

    def add_connectors(self):
        for element in elements_in(self.element, "Connectors", "Connector"):
            self.connectors.setdefault(element.get("name"), Connector(element, self))

    def all(self):
        """The part and all within it, in the order of the document."""
        waiting = [self]
        while waiting:
            part = waiting.pop()
            yield part
            waiting.extend(reversed(part.parts))

    def units_of_connectors(self):
        """The names of the units that connectors give to variables."""
        typed = [connector for connector in self.connectors.values() if connector.type is not None]
        return {connector.variable: connector.type.get("unit") for connector in typed if connector.type.get("unit")}

    def by_names_below(self):
        """The components within, by their names from here on; None is the part itself."""
        found = {}
        for part in self.all():
            if part.fmu is not None:
                below = ".".join(part.names[len(self.names) :]) if part is not self else None
                found.setdefault(below, []).append(part)
        return found


def meant_by(components, name):
    """The variables that a name of a binding can mean: each dot may end the name of a component."""
    dots = [place for place, letter in enumerate(name) if letter == "."]
    ways = [(None, name), *((name[:dot], name[dot + 1 :]) for dot in dots)]
    return [
        (part, part.fmu.by_name[rest]) for below, rest in ways for part in components.get(below, []) if rest in part.fmu.by_name
    ]


def elements_in(element, lists, *names):
    return [child for found in element.named(lists) for child in found.named(*names)]


class Net:
    """What connections join: the ends that are variables, and the connectors."""

    def __init__(self):
        self.ends, self.connectors, self.connections = [], [], []

    def take(self, other):
        self.ends += other.ends
        self.connectors += other.connectors
        self.connections += other.connections


def need_folder(path):
    if os.path.isfile(path):
        raise Told(f"{path} is a file and has to be a folder: tools/ssp unpack makes one of an archive")


def unconverted(connections):
    """The connectors that are joined by connections over which units would be converted, in groups."""
    groups = {}
    for element, *ends in connections:
        if not flag(element, "suppressUnitConversion"):
            first, second = (groups.setdefault(connector.point(), {}) for connector in ends)
            more = [*ends, *(second if second is not first else [])]
            first.update(dict.fromkeys(more))
            groups.update((connector.point(), first) for connector in more)
    return {id(group): group for group in groups.values()}.values()


class Plan:
    """What is to be changed in a system; nothing is written."""

    def __init__(self, top):
        self.top = top
        self.documents, self.fmus = {}, {}
        self.values = 0
        need_folder(top)
        if os.path.lexists(os.path.join(top, PORTS)):
            raise Told(f"{os.path.join(top, PORTS)} is there already: the system is converted")
        if os.path.exists(os.path.join(top, common.STRUCTURE)):
            self.read_system()
        elif os.path.exists(os.path.join(top, common.DESCRIPTION)):
            part = Part(None, ["fmu"])
            part.fmu = self.fmu("")
            self.components = [part]
        else:
            raise Told(f"{top}: there is neither {common.STRUCTURE} nor {common.DESCRIPTION}")

    def document(self, file):
        if file not in self.documents:
            self.documents[file] = Document(self.top, file)
        return self.documents[file]

    def fmu(self, folder):
        if folder not in self.fmus:
            need_folder(os.path.join(self.top, *folder.split("/")))
            self.fmus[folder] = Fmu(self.top, folder)
        return self.fmus[folder]

    def read_system(self):
        self.structure = self.document(common.STRUCTURE)
        self.units = units_in(self.structure.root)
        self.systems = [self.read_part(element, []) for element in self.structure.root.named("System")]
        parts = [part for system in self.systems for part in system.all()]
        self.components = [part for part in parts if part.fmu is not None]
        for part in parts:
            part.add_connectors()
        self.join(parts)
        self.bind(parts)

    def read_part(self, element, around):
        """A System or a component with what is in it. The outermost System has no name of its own."""
        names = around if element in self.structure.root.children else [*around, element.get("name", "")]
        if len(names) > MOST_LEVELS:
            raise Told(f"{self.structure.at(element)}: more than {MOST_LEVELS} systems in one another")
        part = Part(element, names)
        if element.name == "Component":
            if element.get("source") is None:
                raise Told(f"{self.structure.at(element)}: {part.name} has no source")
            if element.get("type") in NESTED:
                raise Told(f"{self.structure.at(element)}: {part.name} is a system in another document, which isn't converted")
            part.fmu = self.fmu(path_of(self.structure, element))
        else:
            inner = elements_in(element, "Elements", "Component", "System")
            part.parts = [self.read_part(child, names) for child in inner]
        return part

    # ---- connections

    def join(self, parts):
        nets = {}
        for part in parts:
            for connector in part.connectors.values():
                net = nets.setdefault(connector.point(), Net())
                net.connectors.append(connector)
                if connector.variable is not None and not net.ends:
                    net.ends.append(connector.point())
        for part in parts:
            inner = {}
            for child in part.parts:
                inner.setdefault(child.names[-1], child)
            for element in elements_in(part.element, "Connections", "Connection"):
                ends = [self.end_of(part, inner, element, side) for side in ("start", "end")]
                if None not in ends:
                    self.connect(element, ends, nets)
        for net in {id(net): net for net in nets.values()}.values():
            if net.ends and net.ends[0][1].real is not None:
                self.convert_net(net)

    def end_of(self, system, inner, connection, side):
        """The connector at an end of a connection; None where there is none, as rule 37 tells."""
        name = connection.get(f"{side}Element")
        part = system if name is None else inner.get(name)
        return part.connectors.get(connection.get(f"{side}Connector")) if part is not None else None

    def connect(self, element, ends, nets):
        start, end = ends
        at = f"{self.structure.at(element)}: the connection from {start.told()} to {end.told()}"
        for connector in ends:
            variable = connector.variable
            if variable is not None and not variable.is_served():
                raise Told(f"{at}: {connector.told()} is {variable.described()}, which isn't converted")
        first, second = nets[start.point()], nets[end.point()]
        kinds = [net.ends[0][1].real if net.ends else None for net in (first, second)]
        if first.ends and second.ends and kinds[0] is not kinds[1]:
            told = [f"{part.name}.{variable.name} is {variable.described()}" for part, variable in (first.ends[0], second.ends[0])]
            raise Told(f"{at} joins ends of two types: {' and '.join(told)}")
        if first is not second:
            first.take(second)
            for net_end in [*second.ends, *(connector.point() for connector in second.connectors)]:
                nets[net_end] = first
        first.connections.append((element, start, end))

    def convert_net(self, net):
        """The types of connectors at a variable that is converted, and on paths from and to it."""
        part, variable = net.ends[0]
        for connector in net.connectors:
            if connector.type is None:
                continue
            at = f"{self.structure.at(connector.element)}: the connector {connector.told()}"
            if connector.type.name != "Real":
                raise Told(f"{at} is of type {connector.type.name}, and {part.name}.{variable.name} is a {variable.type}")
            own, unit = connector.variable.unit if connector.variable is not None else None, unit_of(connector.type, self.units)
            if differ(unit, own):
                raise Told(f"{at} has the unit {unit.beside(own)}, and its variable {own.beside(unit)}")
            self.structure.rename(connector.type, "Integer")
            self.structure.drop(connector.type, "unit")
        for element, start, end in net.connections:
            at = f"{self.structure.at(element)}: the connection from {start.told()} to {end.told()}"
            if element.first(*TRANSFORMATIONS) is not None:
                raise Told(f"{at} has a transformation, and bits can't be transformed")
            first, second = self.unit_at(start), self.unit_at(end)
            if differ(first, second) and not flag(element, "suppressUnitConversion"):
                units = f"{first.beside(second)} to {second.beside(first)}"
                raise Told(f"{at} leads from the unit {units}, and bits can't be converted")
        # through connectors that have no unit
        for group in unconverted(net.connections):
            told = [(connector.told(), self.unit_at(connector)) for connector in group if self.unit_at(connector) is not None]
            for name, unit in told[1:]:
                before, wanted = told[0]
                if differ(wanted, unit):
                    units = f"{before} has the unit {wanted.beside(unit)} and {name} has the unit {unit.beside(wanted)}"
                    raise Told(f"{at} joins ends of two units: {units}")

    def unit_at(self, connector):
        own = connector.variable.unit if connector.variable is not None else None
        return unit_of(connector.type, self.units) or own

    # ---- parameters

    def bind(self, parts):
        uses = {}
        for part in parts:
            components = part.by_names_below()
            for binding in elements_in(part.element, "ParameterBindings", "ParameterBinding"):
                self.read_binding(part, binding, components, uses)
        for value, (document, reals) in uses.items():
            self.convert_value(document, value, reals)

    def origin(self, part, element, inline):
        """The document of values or of a mapping, and the element around them; None for the whole document."""
        if element.get("source") is None:
            return self.structure, inline
        path = path_of(self.structure, element)
        if element.get("sourceBase") == "component":
            if part.fmu is None:
                raise Told(f"{self.structure.at(element)}: sourceBase=\"component\" stands at a System")
            path = joined(part.fmu.folder, path)
        return self.document(path), None

    def tops(self, document, around, name):
        if around is None:
            return [document.root] if document.root.name == name else []
        return around.named(name)

    def read_binding(self, part, binding, components, uses):
        document, around = self.origin(part, binding, binding.first("ParameterValues"))
        if document is self.structure and around is None:
            return  # neither a source nor values: rule 35
        units, parameters = {}, []
        for top in self.tops(document, around, "ParameterSet"):
            units.update(units_in(top))
            parameters += elements_in(top, "Parameters", "Parameter")
        mapping, entries = binding.first("ParameterMapping"), None
        mapped = None
        if mapping is not None:
            entries = {}
            mapped, around = self.origin(part, mapping, mapping)
            for top in self.tops(mapped, around, "ParameterMapping"):
                for entry in top.named("MappingEntry"):
                    entries.setdefault(entry.get("source"), []).append(entry)
        prefix = binding.get("prefix", "")
        for parameter in parameters:
            name = prefix + parameter.get("name", "")
            ways = [(name, None)] if entries is None else [(entry.get("target"), entry) for entry in entries.get(name, [])]
            for target, entry in ways:
                for reached in meant_by(components, target or ""):
                    self.reach(document, parameter, reached, (mapped, entry), units, uses)

    def reach(self, document, parameter, reached, way, units, uses):
        """A value of a Parameter reaches a variable, perhaps by an entry of a mapping."""
        part, variable = reached
        mapped, entry = way
        value = parameter.first(*VALUES)
        at = f"{document.at(parameter)}: {parameter.get('name')} reaches {part.name}.{variable.name}"
        if not variable.is_served():
            raise Told(f"{at}, {variable.described()}, which isn't converted")
        if value is None:
            if variable.real is not None:
                raise Told(f"{at}, a {variable.type}, and has no value")
            return
        if variable.real is None:
            if value.name == "Real":
                raise Told(f"{at}, {variable.described()}, and is a Real")
        else:
            if value.name not in ("Real", "Integer"):
                raise Told(f"{at}, a {variable.type}, and is of type {value.name}")
            if entry is not None and entry.first(*TRANSFORMATIONS) is not None:
                where = mapped.at(entry.first(*TRANSFORMATIONS))
                raise Told(f"{where}: a transformation on the way to {part.name}.{variable.name}, a {variable.type}")
            unit = unit_of(value, units) if value.name == "Real" else None
            if differ(unit, variable.unit) and not (entry is not None and flag(entry, "suppressUnitConversion")):
                raise Told(f"{at}, whose unit is {variable.unit.beside(unit)}, and has the unit {unit.beside(variable.unit)}")
        before = uses.setdefault(value, (document, {}))[1]
        for real, other in before.items():
            if real is not variable.real:
                raise Told(f"{at}, {variable.described()}, and also {other[0].name}.{other[1].name}, {other[1].described()}")
        before[variable.real] = reached

    def convert_value(self, document, value, reals):
        (real, (part, variable)), = reals.items()
        if real is None:
            return
        text = value.get("value", "")
        if value.name == "Real":
            word = real.word(text)
        else:
            word = real.whole(int(text)) if WHOLE_TEXT.fullmatch(text) else None
        if word is None:
            raise Told(f"{document.at(value)}: value={text!r} is no {real.name}, and reaches {part.name}.{variable.name}")
        if value.name == "Real":
            document.rename(value, "Integer")
            document.drop(value, "unit")
        document.put(value, "value", str(word))
        self.values += 1

    # ---- what is written

    def reals(self):
        return [variable for fmu in self.fmus.values() for variable in fmu.reals]

    def ports(self):
        """A line for each input and output that is converted: its type, component, name and unit, as a trace writes names."""
        lines = []
        for part in self.components:
            units = part.units_of_connectors()
            for variable in part.fmu.reals:
                if variable.causality != "parameter":
                    unit = variable.unit.name if variable.unit is not None else units.get(variable)
                    lines.append(" ".join(map(escaped, [variable.type, part.name, variable.name, *([unit] if unit else [])])))
        return lines

    def files(self):
        """The files that are new or changed, and their bytes."""
        for document in [*self.documents.values(), *(fmu.document for fmu in self.fmus.values())]:
            if document.changes:
                yield document.file, document.bytes()
        for fmu in self.fmus.values():
            if fmu.reals:
                yield joined(fmu.folder, REFERENCES), fmu.references().encode()
        yield PORTS, "".join(f"{line}\n" for line in self.ports()).encode()


def escaped(name):
    return re.sub(r"[\x00-\x20\x7f%]", lambda found: f"%{ord(found.group()):02X}", name)


def copy(plan, out):
    out = os.path.abspath(out)
    if os.path.lexists(out):
        raise Told(f"{out} is there already")
    if os.path.commonpath([os.path.realpath(plan.top), os.path.realpath(out)]) == os.path.realpath(plan.top):
        raise Told(f"{out} lies within {plan.top}")
    if not os.path.isdir(os.path.dirname(out)):
        raise Told(f"{os.path.dirname(out)}: there is no such folder")
    with room_in(os.path.dirname(out), ".reals") as room:
        made = os.path.join(room, "made")
        try:
            shutil.copytree(plan.top, made)
        except shutil.Error as error:
            raise Told(f"{error.args[0][0][0]}: {error.args[0][0][2]}") from None
        for file, data in plan.files():
            path = os.path.join(made, *file.split("/"))
            for place in (os.path.dirname(path), path):
                if os.path.exists(place):
                    os.chmod(place, os.stat(place).st_mode | 0o200)
            with open(path, "wb") as stream:
                stream.write(data)
        os.rename(made, out)
