"""`ssp unreached`."""
import os
import re

from documents import COUNTER, component, description, elements, structure
from helper import TOP, Case, ssp

REAL = description(
    '<Float64 name="k" valueReference="1" causality="parameter"/><Float64 name="x" valueReference="2" causality="output"/>'
    '<Float64 name="u" valueReference="3" causality="input"/><Int32 name="n" valueReference="4" causality="parameter"/>'
)


def values(*names):
    inside = "".join(f'<Parameter name="{name}"><Integer value="1"/></Parameter>' for name in names)
    return f'<ParameterSet version="1.0" name="p"><Parameters>{inside}</Parameters></ParameterSet>'


def bound(more):
    return f"<ParameterBindings><ParameterBinding {more}</ParameterBinding></ParameterBindings>"


class Unreached(Case):
    def names(self, *lines):
        status, out, err = ssp("unreached", "d", cwd=self.room)
        self.assertEqual((1 if lines else 0, ""), (status, err))
        self.assertEqual(list(lines), [re.sub(r"^\S+ ", "", line) for line in out.splitlines()])

    def test_examples(self):
        folder = os.path.join(TOP, "examples")
        status, out, _ = ssp("unreached", "parameters", cwd=folder)
        self.assertEqual(
            (1, "parameters/plant.ssm:3:3: drive.h.k reaches no parameter; the nearest is drive.g.k\n"
                "parameters/counter/pace.ssv:4:5: dec reaches no parameter; the nearest is inc\n"),
            (status, out),
        )
        self.assertEqual((0, "", ""), ssp("unreached", "nested", cwd=folder))

    def test_names_and_aliases(self):
        inside = bound(f'prefix="a."><ParameterValues>{values("inc", "pace", "ink", "")}</ParameterValues>') + elements(component("a"))
        self.write("d/SystemStructure.ssd", structure(inside))
        self.write("d/m/modelDescription.xml", COUNTER)
        self.names("a.ink reaches no parameter; the nearest is a.inc", "a. reaches no parameter; the nearest is a.inc")

    def test_variables_that_are_never_set(self):
        connectors = '<Connectors><Connector name="x" kind="output"/><Connector name="u" kind="input"/></Connectors>'
        parts = elements(
            component("a", inside=connectors), component("b", inside=connectors + bound(f"><ParameterValues>{values('k')}</ParameterValues>"))
        )
        joined = '<Connections><Connection startElement="a" startConnector="x" endElement="b" endConnector="u"/></Connections>'
        self.write("d/SystemStructure.ssd", structure(parts + joined))
        self.write("d/m/modelDescription.xml", REAL)
        reals = "; `tools/ssp reals` makes it an integer that holds its bits"
        self.names(
            f"k is a Float64 parameter of b, which isn't bound{reals}",
            f"a.x is a Float64 output, which isn't connected{reals}",
            f"b.u is a Float64 input, which isn't connected{reals}",
        )

    def test_strings_and_arrays(self):
        text = '<String name="k" valueReference="1" causality="parameter"/>'
        text += '<Float64 name="v" valueReference="2" causality="parameter"><Dimension start="2"/></Float64>'
        self.write("d/SystemStructure.ssd", structure(elements(component("a", inside=bound(f"><ParameterValues>{values('k', 'v')}</ParameterValues>")))))
        self.write("d/m/modelDescription.xml", description(text))
        self.names("k is a String parameter of a, which isn't bound", "v is a Float64 array of a, which isn't bound")

    def test_documents_in_one_another(self):
        self.assertEqual((0, "", ""), ssp("unreached", "packages", cwd=f"{TOP}/examples"))
        own = bound('source="own.ssv" sourceBase="component">')
        self.write("d/SystemStructure.ssd", structure(elements(component("a", "p", own, kind="package"))))
        self.write("d/p/own.ssv", values("b.c.n", "a.b.c.n", "c.n"))
        inner = bound(f"><ParameterValues>{values('b.c.n', 'n')}</ParameterValues>")
        self.write("d/p/SystemStructure.ssd", structure(inner + elements(component("b", "q/b.ssd", bound('source="b.ssv">'), kind="definition"))))
        self.write("d/p/b.ssv", values("c.n", "b.c.n"))
        self.write("d/p/q/b.ssd", structure(elements(component("c"))))
        self.write("d/p/q/m/modelDescription.xml", REAL)
        status, out, _ = ssp("unreached", "d", cwd=self.room)
        lines = [re.sub(r":\d+:\d+: (\S+) reaches.*", r" \1", line) for line in out.splitlines()]
        self.assertEqual(
            (1, ["d/p/SystemStructure.ssd n", "d/p/own.ssv a.b.c.n", "d/p/own.ssv c.n", "d/p/b.ssv b.c.n"]), (status, lines)
        )

    def test_a_document_in_itself(self):
        self.write("d/SystemStructure.ssd", structure(elements(component("a", "SystemStructure.ssd", kind="definition"))))
        self.tells("d/SystemStructure.ssd:1:79: a system has at most 256 documents, or 8 levels of them (rule 59)", "unreached", "d")

    def test_nothing_is_near(self):
        self.write("d/SystemStructure.ssd", structure(bound('source="v.ssv">')))
        self.write("d/v.ssv", values("k"))
        self.names("k reaches no parameter; there is none to be reached from here")

    def test_what_is_wrong(self):
        self.tells("d/SystemStructure.ssd: No such file or directory", "unreached", "d")
        self.write("d/SystemStructure.ssd", structure(elements(component("a"))))
        self.tells("d/m/modelDescription.xml: No such file or directory", "unreached", "d")
        self.write("d/m/modelDescription.xml", "<a></b>")
        self.tells("d/m/modelDescription.xml:1:6: no XML: mismatched tag", "unreached", "d")
        self.write("d/m/modelDescription.xml", REAL)
        self.write("d/SystemStructure.ssd", structure(bound('source="v.ssv">') + elements(component("a"))))
        self.tells("d/v.ssv: No such file or directory", "unreached", "d")
        self.write("d/v.ssv", b"\xff\xfe<")
        self.assertEqual(2, ssp("unreached", "d", cwd=self.room)[0])
