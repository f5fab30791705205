"""`ssp suggest`."""
from documents import COUNTER, component, description, elements, structure
from helper import Case, ssp

VARIABLE = 'canHandleVariableCommunicationStepSize="true"'


def experiment(**attributes):
    return f"<DefaultExperiment {' '.join(f'{name}={chr(34)}{value}{chr(34)}' for name, value in attributes.items())}/>"


class Suggest(Case):
    def suggests(self, command, *sentences):
        status, out, err = ssp("suggest", "d", cwd=self.room)
        self.assertEqual((0, ""), (status, err))
        self.assertEqual(command, out.splitlines()[-1])
        for sentence in sentences:
            self.assertIn(sentence, out.splitlines())

    def test_nothing_is_described(self):
        self.write("d/modelDescription.xml", COUNTER)
        self.suggests(
            "./ssprun one d --resolution R --step H --stop T",
            "Nothing describes a step: give H, the counts from one exchange of values to the next.",
            "Nothing describes a stop: give T, in counts.",
            "Resolution: nothing describes a time: give R, the counts a second; with 1000 a count is a millisecond.",
        )

    def test_the_least_resolution(self):
        rows = (
            ("0.01", "1", "0.3", "100 --step 1 --stop 30"),
            ("1e-3", "0", "1", "1000 --step 1 --stop 1000"),
            ("0.02", "0.01", "1.01", "100 --step 2 --stop 101 --start 1"),
            ("2", "0", "10.0", "1 --step 2 --stop 10"),
            ("0.25", "0", "1", "4 --step 1 --stop 4"),
            ("1.5E-5", "0", "3", "200000 --step 3 --stop 600000"),
        )
        for step, start, stop, wanted in rows:
            start = "0" if start == "1" else start
            times = experiment(startTime=start, stopTime=stop, stepSize=step)
            self.write("d/modelDescription.xml", description("", VARIABLE, times, identifier="counter"))
            self.suggests(f"./ssprun one d --resolution {wanted}")

    def test_clocks(self):
        clock = (
            '<Clock name="c" valueReference="1" causality="input" intervalVariability="constant" supportsFraction="true"'
            ' intervalCounter="1" resolution="3" shiftCounter="0"/>'
            '<Clock name="k" valueReference="2" causality="input" intervalVariability="constant" intervalDecimal="0.01" shiftDecimal="0.005"/>'
        )
        text = description(clock, f'hasEventMode="true" {VARIABLE}', experiment(stepSize="0.5", stopTime="2"))
        self.write("d/modelDescription.xml", text)
        self.suggests(
            "./ssprun one d --resolution 600 --step 300 --stop 1200 --host ./fmi3_host",
            "Clocks: fmu.c 1/3 s, fmu.k 0.01 s.",
            "Resolution: 600 counts a second, the least at which all these times are whole numbers of counts.",
            "In counts: H 300 (0.5 s), T 1200 (2 s).",
        )

    def test_a_clock_that_is_asked(self):
        clock = '<Clock name="c" valueReference="1" causality="input" intervalVariability="changing" intervalDecimal="0.003"/>'
        text = description(clock, f'hasEventMode="true" {VARIABLE}', experiment(stepSize="0.5", stopTime="2"))
        self.write("d/modelDescription.xml", text)
        self.suggests(
            "./ssprun one d --resolution 2 --step 1 --stop 4 --host ./fmi3_host",
            "Asked in the run: the intervals of fmu.c; R has to be a multiple of their denominators too.",
        )

    def test_a_step_that_an_fmu_cannot_make(self):
        clock = '<Clock name="c" valueReference="1" causality="input" intervalVariability="constant" intervalDecimal="0.03"/>'
        text = description(clock, 'hasEventMode="true"', experiment(stepSize="0.02", stopTime="0.05"))
        self.write("d/modelDescription.xml", text)
        self.suggests(
            "./ssprun one d --resolution 100 --step 2 --stop 5 --host ./fmi3_host",
            "The last step is shorter, which fmu can't make (status 9): stop at 0.04 s.",
            "Ticks of fmu.c lie between two points, and fmu can't make a shorter step (status 9): with a step of 0.01 s they are all on "
            "the grid.",
        )

    def test_a_system_of_several(self):
        inside = elements(component("a", "a"), component("b", "b"))
        self.write("d/SystemStructure.ssd", structure(inside, experiment(startTime="0", stopTime="1")))
        step = experiment(stepSize="0.01", stopTime="7")
        self.write("d/a/modelDescription.xml", description("", f'{VARIABLE} fixedInternalStepSize="0.002"', step, "counter"))
        self.write("d/b/modelDescription.xml", description("", f'{VARIABLE} fixedInternalStepSize="0.003"', "", "gain"))
        self.suggests(
            "./ssprun run d --resolution 250 --step 3 --stop 250",
            "Step: 0.012 s, the least from 0.01 s (a) on that is a whole multiple of the internal steps (a 0.002 s, b 0.003 s).",
            "Stop: 1 s (the system).",
            "Host: none, since each FMU has the model identifier of a machine that is part of the program.",
        )

    def test_too_fine(self):
        times = experiment(stepSize="0.000000000000000000001", stopTime="1")
        self.write("d/modelDescription.xml", description("", VARIABLE, times, identifier="counter"))
        self.suggests("./ssprun one d --resolution R --step H --stop T")

    def test_fmus_that_are_refused_and_reals(self):
        names = ("a", "b", "c", "d", "e")
        self.write("d/SystemStructure.ssd", structure(elements(*(component(name, name) for name in (*names, "x", "y", "z")))))
        real = description('<Float64 name="x" valueReference="1" causality="output"/>')
        for name in names:
            self.write(f"d/{name}/modelDescription.xml", real)
        self.write("d/x/modelDescription.xml", '<fmiModelDescription fmiVersion="2.0"><CoSimulation modelIdentifier="m"/></fmiModelDescription>')
        self.write("d/y/modelDescription.xml", '<fmiModelDescription fmiVersion="3.0"><ModelExchange modelIdentifier="m"/></fmiModelDescription>')
        self.write("d/z/modelDescription.xml", description('<Float64 name="time" valueReference="0" causality="independent"/>'))
        self.suggests(
            "./ssprun run d --resolution R --step H --stop T --host ./fmi3_host",
            "Refused by rule 11: x of FMI 2.0 (docs/HOSTS.md, My FMU is FMI 2.0).",
            "Refused by rule 12: no Co-Simulation in y.",
            "Passed over: the Float variables of a, b, c, d and 1 more; `tools/ssp reals d OUT` makes them integers that hold their bits.",
        )

    def test_numbers_that_no_clock_has(self):
        of = 'name="c" valueReference="1" causality="input" intervalVariability="constant" supportsFraction="true"'
        for counter in ("9" * 5000, "-1", "one", ""):
            clock = f'<Clock {of} intervalCounter="{counter}" resolution="10"/>'
            self.write("d/modelDescription.xml", description(clock, VARIABLE, experiment(stepSize="0.5", stopTime="2"), "counter"))
            self.suggests("./ssprun one d --resolution 2 --step 1 --stop 4")

    def test_what_is_wrong(self):
        self.tells("d: neither SystemStructure.ssd nor modelDescription.xml is there", "suggest", "d")
        self.write("d/modelDescription.xml", "nothing")
        self.tells("d/modelDescription.xml:1:1: no XML: syntax error", "suggest", "d")
        self.write("d/modelDescription.xml", "<!DOCTYPE a []><a/>")
        self.tells("d/modelDescription.xml:1: a document type declaration isn't read", "suggest", "d")
        self.write("d/modelDescription.xml", description("", "", experiment(stepSize="often")))
        status, out, err = ssp("suggest", "d", cwd=self.room)
        self.assertEqual((2, ""), (status, out))
        self.assertTrue(err.endswith(": stepSize is no number: often\n"), err)
        for encoding, why in (("klingon", "unknown encoding: klingon"), ("utf-7", "multi-byte encodings are not supported")):
            self.write("d/modelDescription.xml", f'<?xml version="1.0" encoding="{encoding}"?><a/>')
            self.tells(f"d/modelDescription.xml:1: no XML that is read: {why}", "suggest", "d")
        self.write("d/modelDescription.xml", "<a>" * 65)
        self.tells("d/modelDescription.xml:1:193: this element has more than 63 around it, which rule 4 refuses", "suggest", "d")
        self.write("d/SystemStructure.ssd", "<System/>")
        self.tells("d/SystemStructure.ssd: no SystemStructureDescription with a System", "suggest", "d")
