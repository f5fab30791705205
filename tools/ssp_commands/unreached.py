"""`ssp unreached SYSTEM`: the unresolved values of parameters, and variables that connections and bindings can't use."""
import difflib

from .common import one_line
from .systems import System, bindings, parameters_seen

ABOUT = """Names each unresolved value of a parameter, with the nearest name that is there, and each variable that is
connected or bound and is of a type that the program neither sets nor reads, such as Float64. `check` counts the former (unreached
U) and refuses a connection of the latter. A line begins with the file, the line and the column. The status is 1 where something
is named, else 0."""


def add_parser(subparsers):
    parser = subparsers.add_parser("unreached", help="names what parameter bindings and connections don't reach", description=ABOUT)
    parser.add_argument("folder", metavar="SYSTEM", help="the folder in which SystemStructure.ssd lies")
    return parser


def run(args):
    system = System(args.folder)
    found = [*unreached_values(system), *foreign_ends(system)]
    for line in found:
        print(one_line(line))
    return 1 if found else 0


def unreached_values(system):
    for binding in bindings(system):
        seen = parameters_seen(system, binding.part)
        names = [name for name, (_, variable) in seen.items() if not variable.is_foreign]
        for name, parameter, entry in binding.given():
            component, variable = seen.get(name, (None, None))
            if variable is not None and not variable.is_foreign:
                continue
            place = place_of(binding, parameter, entry)
            if variable is not None:
                yield f"{place}: {name} is a {kind_of(variable)} of {component.name}, which isn't bound{way_on(variable)}"
            else:
                yield f"{place}: {name} reaches no parameter{nearest(name, names)}"


def place_of(binding, parameter, entry):
    path, element = (binding.path, parameter) if entry is None else (binding.mapping_path, entry)
    return f"{path}:{element.line}:{element.column}"


def nearest(name, names):
    """The name that is most like this one; of several the first in the order of the documents."""
    found = difflib.get_close_matches(name, names, n=1, cutoff=0.0)
    return f"; the nearest is {found[0]}" if found else "; there is none to be reached from here"


def kind_of(variable):
    return f"{variable.type} {variable.causality}" if variable.element.first("Dimension") is None else f"{variable.type} array"


def way_on(variable):
    return "; `tools/ssp reals` makes it an integer that holds its bits" if variable.is_real() else ""


def foreign_ends(system):
    """The connectors of components that are ends of connections and stand for a variable that is never set and read."""
    for part in system.parts:
        if part.element.name != "System":
            continue
        inside = {other.name: other for other in system.parts if other.around[-1:] == [part]}
        for connections in part.element.named("Connections"):
            for connection in connections.named("Connection"):
                for end in ("start", "end"):
                    other = inside.get(connection.get(f"{end}Element"))
                    if other is None or other.element.name != "Component":
                        continue
                    name = connection.get(f"{end}Connector", "")
                    variable = other.component.description.variable(name)
                    if variable is not None and variable.is_foreign:
                        place = f"{part.document.path}:{connection.line}:{connection.column}"
                        yield f"{place}: {other.component.name}.{name} is a {kind_of(variable)}, which isn't connected{way_on(variable)}"
