"""ssp reals: what is converted, what stays as it is byte for byte, and each refusal."""
import contextlib
import io
import os
import shutil
import struct
import sys

from helper import Case, TOP

sys.path.insert(0, f"{TOP}/tools")

from ssp_commands import common, reals  # noqa: E402


def description(variables, more=""):
    return (
        '<fmiModelDescription fmiVersion="3.0" modelName="m" instantiationToken="t">'
        f'<CoSimulation modelIdentifier="m"/>{more}<ModelVariables>{variables}</ModelVariables></fmiModelDescription>'
    )


def variable(type_name, name, reference, causality, more="", inside=""):
    return f'<{type_name} name="{name}" valueReference="{reference}" causality="{causality}"{more}>{inside}</{type_name}>'


def structure(within, units=""):
    return f'<SystemStructureDescription version="1.0" name="s"><System name="s">{within}</System>{units}</SystemStructureDescription>'


def component(name, source, connectors="", bindings=""):
    return (
        f'<Component name="{name}" source="{source}"><Connectors>{connectors}</Connectors>'
        f"<ParameterBindings>{bindings}</ParameterBindings></Component>"
    )


def connector(name, kind, type_name="Real", more=""):
    return f'<Connector name="{name}" kind="{kind}"><{type_name}{more}/></Connector>'


def connection(start, end, more="", inside=""):
    texts = []
    for side, told in (("start", start), ("end", end)):
        element, _, name = told.rpartition(".")
        texts.append((f'{side}Element="{element}" ' if element else "") + f'{side}Connector="{name}"')
    return f'<Connection {" ".join(texts)}{more}>{inside}</Connection>'


def values(*pairs):
    """A set of values: each is the name of a Parameter and what stands in it."""
    inside = "".join(f'<Parameter name="{name}">{value}</Parameter>' for name, value in pairs)
    return f'<ParameterSet version="1.0" name="p"><Parameters>{inside}</Parameters></ParameterSet>'


def inline(*pairs, mapping="", prefix=""):
    return f'<ParameterBinding prefix="{prefix}"><ParameterValues>{values(*pairs)}</ParameterValues>{mapping}</ParameterBinding>'


def entries(*rows):
    inside = "".join(
        f'<MappingEntry source="{source}" target="{target}"{more}>{within}</MappingEntry>' for source, target, more, within in rows
    )
    return f'<ParameterMapping version="1.0">{inside}</ParameterMapping>'


def mapping(*rows):
    return f"<ParameterMapping>{entries(*rows)}</ParameterMapping>"


ARRAY = '<Dimension start="3"/>'
UNITS = (
    '<UnitDefinitions><Unit name="m/s"><BaseUnit m="1" s="-1"/></Unit><Unit name="m.s-1"><BaseUnit m="1" s="-1" kg="0"/></Unit>'
    '<Unit name="km/h"><BaseUnit m="1" s="-1" factor="0.2777777777777778"/></Unit></UnitDefinitions>'
)
# One FMU with a variable of each sort, which all systems here have as `a` and `b`.
VARIABLES = "".join(
    [
        variable("Float64", "time", 0, "independent"),
        variable("Float64", "u", 1, "input", ' unit="m/s"', '<Alias name="u2"/>'),
        variable("Float64", "y", 2, "output", ' unit="m/s"'),
        variable("Float32", "u4", 3, "input"),
        variable("Float32", "y4", 4, "output"),
        variable("Int32", "n", 5, "input"),
        variable("Int32", "m", 6, "output"),
        variable("Float64", "k", 7, "parameter", ' unit="m/s" start="1"', '<Alias name="gain"/>'),
        variable("Float32", "k4", 8, "parameter", ' start="1"'),
        variable("Int64", "count", 9, "parameter", ' start="1"'),
        variable("Float64", "table", 10, "parameter", "", ARRAY),
        variable("Float64", "row", 11, "output", "", ARRAY),
        variable("Float64", "column", 12, "input", "", ARRAY),
        variable("String", "label", 13, "parameter"),
        variable("String", "said", 14, "output"),
        variable("String", "heard", 15, "input"),
        variable("Binary", "sent", 16, "output"),
        variable("Binary", "got", 17, "input"),
        variable("Binary", "blob", 18, "parameter"),
        variable("Float64", "derived", 19, "calculatedParameter"),
        variable("Float64", "state", 20, "local"),
        variable("Float64", "z", 21, "input", ' unit="km/h"'),
        variable("Float64", "same", 22, "input", ' unit="m.s-1"'),
    ]
)
FMU = description(VARIABLES, UNITS)


def joint(start, end, first="Real", second="Real", more="", inside="", first_more="", second_more=""):
    """A system in which an output of `a` leads to an input of `b`."""
    return structure(
        "<Elements>"
        + component("a", "m", connector(start, "output", first, first_more))
        + component("b", "m", connector(end, "input", second, second_more))
        + f"</Elements><Connections>{connection(f'a.{start}', f'b.{end}', more, inside)}</Connections>"
    )


def bound(*pairs, **more):
    """A system with one component, at which a binding stands."""
    return structure("<Elements>" + component("a", "m", "", inline(*pairs, **more)) + "</Elements>")


def through(type_name, output="y", end="u", outside="", inside=""):
    """A path that leads through a System, whose connector has this type; and what its two connections have inside."""
    inner = (
        f'<System name="inner"><Connectors>{connector("x", "input", type_name)}</Connectors><Elements>'
        + component("b", "m", connector(end, "input"))
        + f"</Elements><Connections>{connection('x', f'b.{end}', inside=inside)}</Connections></System>"
    )
    return structure(
        "<Elements>"
        + component("a", "m", connector(output, "output"))
        + f"{inner}</Elements><Connections>{connection(f'a.{output}', 'inner.x', inside=outside)}</Connections>"
    )


LINEAR = '<LinearTransformation factor="2"/>'
TRANSFORMATIONS = (
    LINEAR,
    '<BooleanMappingTransformation><MapEntry source="true" target="false"/></BooleanMappingTransformation>',
    '<IntegerMappingTransformation><MapEntry source="1" target="2"/></IntegerMappingTransformation>',
    '<EnumerationMappingTransformation><MapEntry source="a" target="b"/></EnumerationMappingTransformation>',
)
NO_REALS = ("1,5", "0x10", "1_0", "inf", "+INF", "nan", "-NaN", "", " ", "1e", "e1", ".", "1 2", "\u0661", "1e400", "--1")

# What a system is refused for: its structure, and what the line says.
ROWS = [
    # ends of two types
    (joint("m", "u", "Integer"), "the connection from a.m to b.u joins ends of two types: a.m is output of type Int32"),
    (joint("y", "n", second="Integer"), "and b.n is input of type Int32"),
    (joint("y", "u4"), "a.y is output of type Float64 and b.u4 is input of type Float32"),
    (joint("y4", "u"), "a.y4 is output of type Float32 and b.u is input of type Float64"),
    (through("Real", "y4"), "a.y4 is output of type Float32 and inner.b.u is input of type Float64"),
    (through("Real", "m"), "a.m is output of type Int32 and inner.b.u is input of type Float64"),
    (joint("y", "u", "Integer"), "the connector a.y is of type Integer, and a.y is a Float64"),
    (joint("y", "u", second="Boolean"), "the connector b.u is of type Boolean"),
    (through("Integer"), "the connector inner.x is of type Integer, and a.y is a Float64"),
    # values that reach what they are not
    (bound(("count", '<Real value="1"/>')), "count reaches a.count, parameter of type Int64, and is a Real"),
    (bound(("derived", '<Real value="1"/>')), "a.derived, calculatedParameter of type Float64 that isn't converted, and is a Real"),
    (bound(("state", '<Real value="1"/>')), "a.state, local of type Float64 that isn't converted, and is a Real"),
    (bound(("k", '<Boolean value="true"/>')), "k reaches a.k, a Float64, and is of type Boolean"),
    (bound(("gain", '<Enumeration value="one"/>')), "gain reaches a.k, a Float64, and is of type Enumeration"),
    (bound(("k", '<String value="1"/>')), "is of type String"),
    (bound(("k", '<Binary value="00"/>')), "is of type Binary"),
    (bound(("k", "")), "k reaches a.k, a Float64, and has no value"),
    (bound(("k", '<Integer value="9007199254740993"/>')), "value='9007199254740993' is no Float64, and reaches a.k"),
    (bound(("k4", '<Integer value="16777217"/>')), "value='16777217' is no Float32"),
    (bound(("k", '<Integer value="1.0"/>')), "value='1.0' is no Float64"),
    (bound(("k", '<Integer value="100000000000000000000000"/>')), "is no Float64"),
    (bound(("k", "<Integer/>")), "value='' is no Float64"),
    (
        bound(("p", '<Real value="1"/>'), mapping=mapping(("p", "k", "", ""), ("p", "k4", "", ""))),
        "p reaches a.k4, parameter of type Float32, and also a.k, parameter of type Float64",
    ),
    (
        bound(("p", '<Integer value="1"/>'), mapping=mapping(("p", "k", "", ""), ("p", "count", "", ""))),
        "p reaches a.count, parameter of type Int64, and also a.k, parameter of type Float64",
    ),
    # transformations
    *((joint("y", "u", inside=text), "the connection from a.y to b.u has a transformation") for text in TRANSFORMATIONS),
    (through("Real", outside=LINEAR), "the connection from a.y to inner.x has a transformation"),
    (through("Real", inside=LINEAR), "has a transformation, and bits can't be transformed"),
    *(
        (bound(("p", value), mapping=mapping(("p", "k", "", text))), "a transformation on the way to a.k, a Float64")
        for value in ('<Real value="1"/>', '<Integer value="1"/>')
        for text in TRANSFORMATIONS
    ),
    # texts that are no real
    *((bound(("k", f'<Real value="{text}"/>')), f"value={text!r} is no Float64, and reaches a.k") for text in NO_REALS),
    (bound(("k4", '<Real value="1e39"/>')), "value='1e39' is no Float32"),
    (bound(("k", "<Real/>")), "value='' is no Float64"),
    # arrays, Strings and Binaries
    (joint("row", "u"), "a.row is an array of Float64, which isn't converted"),
    (joint("y", "column"), "b.column is an array of Float64, which isn't converted"),
    (joint("row", "column"), "a.row is an array of Float64"),
    (joint("said", "heard", "String", "String"), "a.said is output of type String"),
    (joint("sent", "got", "Binary", "Binary"), "a.sent is output of type Binary"),
    (bound(("table", '<Real value="1"/>')), "table reaches a.table, an array of Float64, which isn't converted"),
    (bound(("label", '<String value="x"/>')), "label reaches a.label, parameter of type String, which isn't converted"),
    (bound(("blob", '<Binary value="00"/>')), "blob reaches a.blob, parameter of type Binary, which isn't converted"),
    # units that a master would convert
    (joint("y", "z"), "leads from the unit m/s to km/h, and bits can't be converted"),
    (through("Real", "y", "z"), "joins ends of two units: a.y has the unit m/s and inner.b.z has the unit km/h"),
    (joint("y", "u", second_more=' unit="km/h"'), "the connector b.u has the unit km/h, and its variable m/s"),
    (bound(("k", '<Real value="1" unit="km/h"/>')), "k reaches a.k, whose unit is m/s, and has the unit km/h"),
    # what can't be read
    (structure('<Elements><Component name="a"/></Elements>'), "a has no source"),
    (structure("<Elements>" + component("a", "../m") + "</Elements>"), "source='../m' is no path below the system"),
    (structure("<Elements>" + component("a", "file:m") + "</Elements>"), "is no path below the system"),
    (structure("<Elements>" + component("a", "none") + "</Elements>"), "none/modelDescription.xml: No such file or directory"),
    (structure('<ParameterBindings><ParameterBinding source="none.ssv"/></ParameterBindings>'), "none.ssv: No such file"),
    (
        structure('<ParameterBindings><ParameterBinding source="p.ssv" sourceBase="component"/></ParameterBindings>'),
        'sourceBase="component" stands at a System',
    ),
    ("<a>", "no XML"),
    ("<!DOCTYPE a><a/>", "a document type declaration isn't read"),
]


class Reals(Case):
    def call(self, *words):
        """The status of `ssp reals`, and what it writes on standard output and standard error."""
        out, err = io.StringIO(), io.StringIO()
        with contextlib.redirect_stdout(out), contextlib.redirect_stderr(err):
            status = common.main(["reals", *(f"{self.room}/{word}" for word in words)])
        return status, out.getvalue(), err.getvalue()

    def refused(self, line):
        """The system `d` is refused with a line that has this in it, and nothing is written."""
        before = self.files()
        status, out, err = self.call("d", "o")
        self.assertEqual((2, ""), (status, out), err)
        self.assertIn(line, err)
        self.assertEqual(1, err.count("\n"))
        self.assertEqual(before, self.files())
        self.assertEqual(["d"], os.listdir(self.room))

    def converted(self, line=None):
        status, out, err = self.call("d", "o")
        self.assertEqual((0, ""), (status, err))
        if line is not None:
            self.assertEqual(f"{line} are bits now\n", out)

    def read(self, path):
        with open(f"{self.room}/{path}", encoding="utf-8") as file:
            return file.read()

    def test_refusals(self):
        self.write("d/m/modelDescription.xml", FMU)
        for text, line in ROWS:
            with self.subTest(line):
                self.write("d/SystemStructure.ssd", text)
                self.refused(line)

    def test_a_system_of_several_documents(self):
        inner = '<Component name="a" type="application/x-ssp-package" source="p"/>'
        self.write("d/SystemStructure.ssd", structure(f"<Elements>{inner}</Elements>"))
        self.refused("SystemStructure.ssd:1:79: a is a system in another document, which isn't converted")

    def test_start_values_that_are_no_reals(self):
        for text in NO_REALS:
            with self.subTest(text):
                self.write("d/modelDescription.xml", description(variable("Float64", "y", 1, "output", f' start="{text}"')))
                self.refused(f"modelDescription.xml:1:127: y: start={text!r} is no Float64")

    def test_a_place_is_told_by_line_and_column(self):
        self.write("d/m/modelDescription.xml", FMU)
        text = joint("m", "u", "Integer").replace("<Connection ", "\n  <Connection ")
        self.write("d/SystemStructure.ssd", text)
        self.refused(f"ssp: {self.room}/d/SystemStructure.ssd:2:3: the connection from a.m to b.u joins ends of two types")

    def test_what_is_converted_already(self):
        self.write("d/m/modelDescription.xml", description(variable("Int64", "y", 1, "output")))
        self.write("d/SystemStructure.ssd", structure("<Elements>" + component("a", "m") + "</Elements>"))
        self.write("d/m/reals.txt", "1\n")
        self.refused("m/reals.txt is there already: the FMU is converted")
        os.remove(f"{self.room}/d/m/reals.txt")
        self.write("d/real_ports.txt", "")
        self.refused("real_ports.txt is there already: the system is converted")

    def test_a_converted_system_is_refused(self):
        self.write("d/m/modelDescription.xml", FMU)
        self.write("d/SystemStructure.ssd", joint("y", "u"))
        self.converted()
        status, _, err = self.call("o", "p")
        self.assertEqual(2, status)
        self.assertIn("is converted", err)
        self.assertEqual(["d", "o"], sorted(os.listdir(self.room)))

    def test_a_file_that_two_bindings_read_in_two_ways(self):
        self.write("d/m/modelDescription.xml", FMU)
        self.write("d/p.ssv", values(("k", '<Real value="1"/>')))
        self.write("d/n/modelDescription.xml", description(variable("Float32", "k", 7, "parameter")))
        binding = '<ParameterBinding source="p.ssv"/>'
        inside = component("a", "m", "", binding) + component("b", "n", "", binding)
        self.write("d/SystemStructure.ssd", structure(f"<Elements>{inside}</Elements>"))
        self.refused("k reaches b.k, parameter of type Float32, and also a.k, parameter of type Float64")

    def test_folders_that_are_none(self):
        self.write("d/other.xml", "<a/>")
        self.refused("there is neither SystemStructure.ssd nor modelDescription.xml")
        self.write("d/SystemStructure.ssd", structure("<Elements>" + component("a", "other.xml") + "</Elements>"))
        self.refused("d/other.xml is a file and has to be a folder: tools/ssp unpack makes one of an archive")
        status, _, err = self.call("d/other.xml", "o")
        self.assertEqual((2, ["d"]), (status, os.listdir(self.room)))
        self.assertIn("d/other.xml is a file and has to be a folder", err)
        os.remove(f"{self.room}/d/SystemStructure.ssd")
        self.write("d/modelDescription.xml", FMU)
        for out, line in (("d", "d is there already"), ("d/inside", "lies within"), ("none/o", "none: there is no such folder")):
            before = self.files()
            status, _, err = self.call("d", out)
            self.assertEqual(2, status)
            self.assertIn(line, err)
            self.assertEqual(before, self.files())

    def test_systems_that_are_too_deep(self):
        self.write("d/SystemStructure.ssd", structure("<Elements><System name='s'>" * 3000 + "</System></Elements>" * 3000))
        self.refused("this element has more than 63 around it, which rule 4 refuses")

    def test_no_word_of_a_document_in_another_encoding(self):
        self.write("d/modelDescription.xml", ("\ufeff" + FMU).encode("utf-16-le"))
        self.refused("the document isn't UTF-8")

    def test_units_that_are_one_or_are_not_to_be_converted(self):
        for text in (
            joint("y", "same"),
            joint("y", "z", more=' suppressUnitConversion="true"'),
            bound(("p", '<Real value="1" unit="km/h"/>'), mapping=mapping(("p", "k", ' suppressUnitConversion="true"', ""))),
        ):
            self.write("d/m/modelDescription.xml", FMU)
            self.write("d/SystemStructure.ssd", text)
            self.converted()
            shutil.rmtree(f"{self.room}/o")

    def test_units_of_one_name(self):
        """They are what the documents define; a factor may be rounded there."""
        self.write("d/m/modelDescription.xml", FMU)
        two = "<Elements>" + component("a", "m", connector("y", "output")) + component("b", "n", connector("u", "input")) + "</Elements>"
        self.write("d/SystemStructure.ssd", structure(f"{two}<Connections>{connection('a.y', 'b.u')}</Connections>"))
        for factor, line in (("1.0001", None), ("1.5", "m/s (factor=1.0 offset=0.0 m=1 s=-1) to m/s (factor=1.5 offset=0.0 m=1 s=-1)")):
            units = f'<UnitDefinitions><Unit name="m/s"><BaseUnit factor="{factor}" m="1" s="-1"/></Unit></UnitDefinitions>'
            self.write("d/n/modelDescription.xml", description(variable("Float64", "u", 1, "input", ' unit="m/s"'), units))
            if line is None:
                self.converted()
                shutil.rmtree(f"{self.room}/o")
            else:
                self.refused(f"the connection from a.y to b.u leads from the unit {line}, and bits can't be converted")

    def test_units_beside_a_connection_over_which_nothing_is_converted(self):
        """From `a` one connection leads to `b`, and another to `c` through a System whose connector has no unit."""
        self.write("d/m/modelDescription.xml", FMU)
        for end, unit in (("z", "km/h"), ("u", None)):
            inner = (
                f'<System name="s"><Connectors>{connector("x", "input")}</Connectors><Elements>{component("c", "m", connector(end, "input"))}'
                f"</Elements><Connections>{connection('x', f'c.{end}')}</Connections></System>"
            )
            parts = component("a", "m", connector("y", "output")) + component("b", "m", connector("z", "input")) + inner
            ways = connection("a.y", "s.x") + connection("a.y", "b.z", ' suppressUnitConversion="true"')
            self.write("d/SystemStructure.ssd", structure(f"<Elements>{parts}</Elements><Connections>{ways}</Connections>"))
            if unit is None:
                self.converted()
            else:
                self.refused(f"joins ends of two units: a.y has the unit m/s and s.c.{end} has the unit {unit}")

    def test_bits(self):
        bits = lambda value: struct.unpack(">q", struct.pack(">d", value))[0]  # noqa: E731
        rows = [
            ("0", 0), ("-0", -(2**63)), ("-0.0e5", -(2**63)), ("1", 0x3FF0000000000000), ("0.1", 0x3FB999999999999A),
            (" \t1. ", 0x3FF0000000000000), (".5", 0x3FE0000000000000), ("+1e3", bits(1000.0)), ("-2.5E-3", bits(-0.0025)),
            ("INF", 0x7FF0000000000000), ("-INF", -(2**52)), ("NaN", 0x7FF8000000000000), ("4.9e-324", 1), ("1e-400", 0),
            ("1.7976931348623157e308", 0x7FEFFFFFFFFFFFFF), ("9007199254740993", bits(9007199254740992.0)),
        ]
        for text, word in rows:
            self.assertEqual(word, reals.REALS["Float64"].word(text), text)
        rows = [
            ("0", 0), ("-0", -(2**31)), ("0.1", 0x3DCCCCCD), ("INF", 0x7F800000), ("-INF", -(2**23)), ("NaN", 0x7FC00000),
            ("1e-45", 1), ("1e-60", 0), ("-1e-60", -(2**31)), ("3.4028234663852886e38", 0x7F7FFFFF),
            # not by way of a Float64, which would round to the middle first
            ("1.000000059604644775390625", 0x3F800000),
            ("1.0000000596046447753906250000000000001", 0x3F800001),
            ("-1.0000000596046447753906250000000000001", 0x3F800001 - 2**31),
            ("1.0000001788139343261718749999999999999", 0x3F800001),
        ]
        for text, word in rows:
            self.assertEqual(word, reals.REALS["Float32"].word(text), text)

    def test_one_fmu(self):
        self.write("d/modelDescription.xml", FMU)
        self.write("d/resources/note.txt", "kept")
        self.converted("8 variables, 0 values and 6 ports")
        self.assertEqual("1\n2\n3\n4\n7\n8\n21\n22\n", self.read("o/reals.txt"))
        ports = ["Float64 fmu u m/s", "Float64 fmu y m/s", "Float32 fmu u4", "Float32 fmu y4", "Float64 fmu z km/h", "Float64 fmu same m.s-1"]
        self.assertEqual(ports, self.read("o/real_ports.txt").splitlines())
        self.assertEqual("kept", self.read("o/resources/note.txt"))
        text = self.read("o/modelDescription.xml")
        self.assertEqual(9, text.count("<Int64 ") + text.count("<Int32 ") - 2)
        self.assertEqual(6, text.count("<Float64 "))

    def test_bytes_that_stay(self):
        before = (
            b'\xef\xbb\xbf<?xml version="1.0"?>\r\n<!-- <Float64 name="x"/> -->\r\n'
            b"<f:fmiModelDescription fmiVersion='3.0' modelName='m' instantiationToken='\xc3\xa9'><CoSimulation modelIdentifier='m'/>\r\n"
            b"<ModelVariables>\r\n\t<f:Float64\r\n\t\tname = 'a &gt; \"b\"'  valueReference='007' causality='output'\tvariability='continuous'\r\n"
            b'   start = "&#48;.5"  min="0" description="> kept /> "   unit="%" intermediateUpdate="true" x:unit="1">'
            b"<![CDATA[<Float64>]]><Alias name='c' displayUnit='d' /><Annotations/></f:Float64 >\r\n"
            b"<Float64 name='l' valueReference='2' min='1'/></ModelVariables></f:fmiModelDescription>\r\n<!-- end -->"
        )
        after = before.replace(b"<f:Float64\r", b"<f:Int64\r").replace(b"</f:Float64 >", b"</f:Int64 >")
        after = after.replace(b"\tvariability='continuous'", b"\tvariability='discrete'").replace(b'"&#48;.5"  min="0"', b'"4602678819172646912"')
        after = after.replace(b'   unit="%"', b"").replace(b" displayUnit='d'", b"")
        self.write("d/modelDescription.xml", before)
        self.converted("1 variables, 0 values and 1 ports")
        with open(f"{self.room}/o/modelDescription.xml", "rb") as file:
            self.assertEqual(after, file.read())
        self.assertEqual("7\n", self.read("o/reals.txt"))
        self.assertEqual('Float64 fmu a%20>%20"b" %25\n', self.read("o/real_ports.txt"))

    def test_a_system(self):
        self.write("d/m/modelDescription.xml", FMU)
        self.write("d/spare/modelDescription.xml", FMU)
        self.write("d/p.ssv", values(("s.b.k", '<Real unit="m/s" value="0.5"></Real>'), ("s.nothing", '<Real value="x"/>')))
        self.write("d/m/q.ssv", values(("q", "<Integer value='+3'/>"), ("count", '<Integer value="4"/>')))
        self.write("d/m/q.ssm", entries(("q", "k4", "", ""), ("count", "count", "", LINEAR)))
        inner = (
            '<System name="s"><Connectors>' + connector("x", "input", more=' unit="m/s"') + connector("open", "output") + "</Connectors><Elements>"
            + component("b", "./m/", connector("u2", "input") + connector("n", "input", "Integer"), "")
            + f"</Elements><Connections>{connection('x', 'b.u2')}</Connections></System>"
        )
        bindings = '<ParameterBinding source="q.ssv" sourceBase="component"><ParameterMapping source="q.ssm" sourceBase="component"/></ParameterBinding>'
        before = structure(
            '<ParameterBindings><ParameterBinding source="./p.ssv"/></ParameterBindings><Elements>'
            + component("a", "m", connector("y", "output") + connector("m", "output", "Integer"), bindings)
            + inner
            + f"</Elements><Connections>{connection('a.y', 's.x')}{connection('a.m', 's.n')}</Connections>"
        )
        self.write("d/SystemStructure.ssd", before)
        self.converted("8 variables, 2 values and 12 ports")
        after = before.replace('<Connector name="y" kind="output"><Real/>', '<Connector name="y" kind="output"><Integer/>')
        after = after.replace('<Real unit="m/s"/>', "<Integer/>").replace('"u2" kind="input"><Real/>', '"u2" kind="input"><Integer/>')
        self.assertEqual(after, self.read("o/SystemStructure.ssd"))
        self.assertIn("<Real/>", after)  # a connector of a System that no path passes
        self.assertEqual(
            values(("s.b.k", '<Integer value="4602678819172646912"></Integer>'), ("s.nothing", '<Real value="x"/>')), self.read("o/p.ssv")
        )
        self.assertEqual(
            values(("q", "<Integer value='1077936128'/>"), ("count", '<Integer value="4"/>')), self.read("o/m/q.ssv")
        )
        self.assertEqual(FMU, self.read("o/spare/modelDescription.xml"))
        self.assertEqual(12, len(self.read("o/real_ports.txt").splitlines()))
        self.assertIn("Float64 s.b u m/s\n", self.read("o/real_ports.txt"))
        self.assertEqual(before, self.read("d/SystemStructure.ssd"))

    def test_what_local_clocks_tick_stays(self):
        clocks = variable("Clock", "c", 1, "local") + variable("Clock", "e", 2, "output", ' clocks="1"')
        reals_of = variable("Float64", "y", 3, "output", ' clocks="2"') + variable("Float64", "z", 4, "output", ' clocks="5"')
        self.write("d/modelDescription.xml", description(clocks + reals_of + variable("Clock", "f", 5, "output")))
        self.converted("1 variables, 0 values and 1 ports")
        self.assertEqual("4\n", self.read("o/reals.txt"))

    def test_a_unit_comes_from_the_declared_type(self):
        types = '<TypeDefinitions><Float64Type name="T" unit="m"/></TypeDefinitions>'
        self.write("d/modelDescription.xml", description(variable("Float64", "y", 1, "output", ' declaredType="T"'), types))
        self.converted()
        self.assertEqual("Float64 fmu y m\n", self.read("o/real_ports.txt"))

    def test_a_unit_comes_from_the_connector(self):
        """Where the variable has none: the connector of the copy can't have one."""
        self.write("d/m/modelDescription.xml", FMU)
        connectors = connector("u4", "input", more=' unit="K 0"') + connector("y", "output", more=' unit="m/s"') + connector("z", "input")
        self.write("d/SystemStructure.ssd", structure("<Elements>" + component("a", "m", connectors) + "</Elements>"))
        self.converted()
        ports = ["Float64 a u m/s", "Float64 a y m/s", "Float32 a u4 K%200", "Float32 a y4", "Float64 a z km/h", "Float64 a same m.s-1"]
        self.assertEqual(ports, self.read("o/real_ports.txt").splitlines())

    def test_prefixes(self):
        """They stand before each name, also before it is looked for in a mapping."""
        self.write("d/m/modelDescription.xml", FMU)
        one, two = '<Real value="1"/>', '<Real value="2"/>'
        mapped = mapping(("p.q", "k4", "", ""), ("q", "k", "", ""))
        bindings = inline(("k", one), ("a.k", two), prefix="a.") + inline(("q", two), mapping=mapped, prefix="p.")
        before = structure(f"<ParameterBindings>{bindings}</ParameterBindings><Elements>" + component("a", "m") + "</Elements>")
        before = before.replace('target="k', 'target="a.k')
        self.write("d/SystemStructure.ssd", before)
        self.converted("8 variables, 2 values and 6 ports")
        after = before.replace(one, '<Integer value="4607182418800017408"/>')
        head, _, last = after.rpartition(two)
        self.assertEqual(f'{head}<Integer value="1073741824"/>{last}', self.read("o/SystemStructure.ssd"))

    def test_names_that_reach_inputs(self):
        """As before they reach no parameter, and `check` counts them."""
        self.write("d/m/modelDescription.xml", FMU)
        self.write("d/SystemStructure.ssd", bound(("u", '<Real value="1"/>')))
        self.converted("8 variables, 1 values and 6 ports")
