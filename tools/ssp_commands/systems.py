"""Systems with their FMUs, as the program reads them (docs/PROFILE.md): for tools, and without its rules.

A file that isn't there, or isn't taken by the program, is told; what the program would refuse may give any answer here.
"""
import os

from .common import DESCRIPTION, STRUCTURE, Told, parse_xml, read_file, read_xml

INTEGERS = ("Int8", "UInt8", "Int16", "UInt16", "Int32", "UInt32", "Int64", "UInt64")
TYPES = (*INTEGERS, "Boolean", "Enumeration", "Clock", "Float32", "Float64", "String", "Binary")
# types that this profile never sets, reads or traces
FOREIGN_TYPES = ("Float32", "Float64", "String", "Binary")
CAUSALITIES = ("parameter", "calculatedParameter", "structuralParameter", "input", "output", "local", "independent")
# components that are systems of their own: a folder with a structure, and a structure
NESTED = PACKAGE, DEFINITION = ("application/x-ssp-package", "application/x-ssp-definition")
# the most documents of a system, and the deepest level below the outermost one
MOST_DOCUMENTS, DEEPEST_LEVEL = 256, 8
# the machines that are part of the program, by their model identifiers
BUILT_IN = ("counter", "gain", "sampler", "alarm", "timer", "relay", "settle", "pulse", "waker")


class Variable:
    """A variable of a description: its names are its own and those of its aliases."""

    def __init__(self, element):
        self.element, self.type = element, element.name
        self.name = element.get("name", "")
        self.names = [self.name, *(alias.get("name", "") for alias in element.named("Alias"))]
        self.reference = element.get("valueReference", "")
        self.causality = element.get("causality", "local")
        self.clocks = element.get("clocks", "").split()
        self.is_foreign = (
            self.type in FOREIGN_TYPES
            or (self.type == "Clock" and self.causality == "local")
            or element.first("Dimension") is not None
            or self.causality not in CAUSALITIES
        )

    def is_real(self):
        """Whether it is one that `ssp reals` makes an integer: a Float scalar that is set or read."""
        is_used = self.causality in ("input", "output", "parameter")
        return self.type in ("Float32", "Float64") and is_used and self.element.first("Dimension") is None


class Description:
    """What a modelDescription.xml says."""

    def __init__(self, path):
        self.path, self.root = path, read_xml(path)
        if self.root.name != "fmiModelDescription":
            raise Told(f"{path}: the root is {self.root.name}, and no fmiModelDescription")
        self.co_simulation = self.root.first("CoSimulation")
        lists = self.root.named("ModelVariables")
        self.variables = [Variable(child) for part in lists for child in part.children if child.name in TYPES]
        foreign = {one.reference for one in self.variables if one.type == "Clock" and one.is_foreign}
        for one in self.variables:
            one.is_foreign = one.is_foreign or not foreign.isdisjoint(one.clocks)

    def flag(self, name):
        """A flag of the CoSimulation."""
        return self.co_simulation is not None and self.co_simulation.get(name) in ("true", "1")

    def variable(self, name):
        """The variable of this name, or None."""
        return next((one for one in self.variables if name in one.names), None)

    def ports(self):
        """The inputs and outputs that aren't ignored, in their order."""
        return [one for one in self.variables if one.causality in ("input", "output") and not one.is_foreign]

    def clocks(self):
        """The Clocks that aren't local."""
        return [one for one in self.variables if one.type == "Clock" and not one.is_foreign]


class Component:
    """An FMU of a system: its full name, its element (None for one FMU alone), the folder of its FMU, and its description."""

    def __init__(self, name, element, folder, description):
        self.name, self.element, self.folder, self.description = name, element, folder, description


class Document:
    """A structure description: its root, its outermost System, the folder that its sources lead from, and how deep it stands."""

    def __init__(self, path, level):
        self.path, self.folder, self.level = path, os.path.dirname(path), level
        self.root = read_xml(path)
        self.system = self.root.first("System")
        if self.root.name != "SystemStructureDescription" or self.system is None:
            raise Told(f"{path}: no SystemStructureDescription with a System")


class Part:
    """A System or a component of a system, with those around it, from the outermost System on, and the document that has it.

    The System of a document that stands in the place of a component has its name, and the component's part as its `frame`.
    """

    def __init__(self, element, around, document, frame=None):
        self.element, self.around, self.document, self.frame = element, around, document, frame
        self.name = frame.name if frame else element.get("name", "")

    def name_below(self, outer):
        """The names from below this System down to here, joined with dots."""
        names = [part.name for part in [*self.around, self]]
        return ".".join(names[len(outer.around) + 1 :])

    def nested_path(self):
        """Where the document of a component that is a system of its own lies; None of any other part."""
        kind = self.element.get("type")
        if self.element.name != "Component" or kind not in NESTED:
            return None
        path = joined(self.document.folder, self.element.get("source", ""))
        return os.path.join(path, STRUCTURE) if kind == PACKAGE else path


class System:
    """A system in a folder: its structure, its parts in the order of its documents, and its components."""

    def __init__(self, folder):
        self.folder, self.path = folder, os.path.join(folder, STRUCTURE)
        outermost = Document(self.path, 0)
        self.root, self.documents = outermost.root, 1
        self.parts, self.components, descriptions = [], [], {}
        self.add(Part(outermost.system, [], outermost))
        for part in self.parts:
            if part.element.name == "Component":
                at = joined(part.document.folder, part.element.get("source", ""))
                if at not in descriptions:
                    descriptions[at] = Description(os.path.join(at, DESCRIPTION))
                name = part.name_below(self.parts[0])
                self.components.append(Component(name, part.element, at, descriptions[at]))
                part.component = self.components[-1]

    def add(self, part):
        waiting = [part]
        while waiting:
            part = self.opened(waiting.pop())
            self.parts.append(part)
            if part.element.name == "System":
                inside = [child for elements in part.element.named("Elements") for child in elements.named("System", "Component")]
                waiting.extend(Part(child, [*part.around, part], part.document) for child in reversed(inside))

    def opened(self, part):
        """The outermost System of the document that stands in the place of this part; any other part itself."""
        path = part.nested_path()
        if path is None:
            return part
        if self.documents == MOST_DOCUMENTS or part.document.level == DEEPEST_LEVEL:
            at = f"{part.document.path}:{part.element.line}:{part.element.column}"
            most = f"{MOST_DOCUMENTS} documents, or {DEEPEST_LEVEL} levels of them"
            raise Told(f"{at}: a system has at most {most} (rule 59)")
        self.documents += 1
        inner = Document(path, part.document.level + 1)
        return Part(inner.system, part.around, inner, part)

    def ports(self):
        """The components and variables of the ports, in the order of their numbers."""
        return [(component, port) for component in self.components for port in component.description.ports()]


class OneFmu:
    """One FMU alone, as `one` runs it: a system of the component `fmu`."""

    def __init__(self, folder):
        self.folder, self.root = folder, None
        self.components = [Component("fmu", None, folder, Description(os.path.join(folder, DESCRIPTION)))]

    ports = System.ports


def read_system(folder):
    """The system in a folder, or the FMU where there is no structure."""
    if os.path.exists(os.path.join(folder, STRUCTURE)):
        return System(folder)
    if os.path.exists(os.path.join(folder, DESCRIPTION)):
        return OneFmu(folder)
    raise Told(f"{folder}: neither {STRUCTURE} nor {DESCRIPTION} is there")


def joined(folder, source):
    """The path of a source below a folder, as the program makes it: without segments `.` and without one last empty one."""
    parts = [part for part in source.split("/") if part != "."]
    if parts and parts[-1] == "":
        parts.pop()
    if not parts or ".." in parts or "" in parts:
        raise Told(f"the source `{source}` doesn't lead below the folder {folder} (rule 33)")
    return os.path.join(folder, *parts)


# ---- bindings


class Binding:
    """A ParameterBinding with the Parameters of its set, and the entries of its mapping (None where there is none)."""

    def __init__(self, part, own, element):
        """Of the part that it gives values to; `own` is the folder of this part, where it has one."""
        self.part, self.element, self.prefix, self.own = part, element, element.get("prefix", ""), own
        self.document = (part.frame if own and part.frame else part).document
        self.path, found = self.read(element, "ParameterValues", "ParameterSet")
        lists = found.named("Parameters") if found else []
        self.parameters = [child for inside in lists for child in inside.named("Parameter")]
        mapping = element.first("ParameterMapping")
        self.mapping_path, self.entries = None, None
        if mapping is not None:
            self.mapping_path, found = self.read(mapping, None, "ParameterMapping")
            self.entries = found.named("MappingEntry") if found else []

    def read(self, element, within, root):
        """The file and the root of what an element names by its source, or has within."""
        source = element.get("source")
        if source is not None:
            is_own = element.get("sourceBase") == "component" and self.own
            path = joined(self.own if is_own else self.document.folder, source)
            return path, parse_xml(read_file(path), path)
        inside = element.first(within) if within else element
        return self.document.path, inside.first(root) if inside else None

    def given(self):
        """Each name that is given a value, with the Parameter and the entry that give it."""
        for parameter in self.parameters:
            name = self.prefix + parameter.get("name", "")
            if self.entries is None:
                yield name, parameter, None
            for entry in self.entries or []:
                if entry.get("source") == name:
                    yield entry.get("target", ""), parameter, entry


def bindings(system):
    """The bindings of a system in the order of its documents; those of a component after those of its own document's System."""
    for part in system.parts:
        of_component = part.frame.element if part.frame else part.element if part.element.name == "Component" else None
        if part.element.name == "System":
            yield from (Binding(part, None, element) for element in binding_elements(part.element))
        if of_component is not None:
            own = part.document.folder if part.frame else part.component.folder
            yield from (Binding(part, own, element) for element in binding_elements(of_component))


def binding_elements(element):
    return [binding for inside in element.named("ParameterBindings") for binding in inside.named("ParameterBinding")]


def parameters_seen(system, part):
    """What names lead to from a System or a component: the component and the variable of each parameter, also of ignored ones."""
    found = {}
    for other in system.parts:
        if other.element.name == "Component" and (other is part or part in other.around):
            front = "" if other is part else f"{other.name_below(part)}."
            for variable in other.component.description.variables:
                if variable.causality == "parameter":
                    for name in variable.names:
                        found.setdefault(front + name, (other.component, variable))
    return found
