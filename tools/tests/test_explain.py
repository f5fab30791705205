"""`ssp explain`."""
import os
import re

from documents import COUNTER, component, elements, structure
from helper import TOP, Case, ssp


class Explain(Case):
    def explains(self, line, *wanted):
        status, out, err = ssp("explain", line, cwd=self.room)
        self.assertEqual((0, ""), (status, err))
        self.assertEqual((out, ""), ssp("explain", cwd=self.room, text=f"{line}\n")[1:])
        for text in wanted:
            self.assertIn(text, re.sub(r"\n +", " ", out))

    def test_an_element(self):
        self.write("d/m/modelDescription.xml", '<a>\n  <é b="1"/>\n  <c/><é\n    d=">"/></a>')
        self.explains(
            "refused 16 d/m/modelDescription.xml /a[1]/é[3]",
            "d/m/modelDescription.xml:3:7: rule 16: A name stands twice",
            '<é d=">"/>',
            "A variable or an alias before this one has the same `name`.",
            "What to do: Give one of the two another name",
        )

    def test_a_byte(self):
        self.write("d e/SystemStructure.ssd", "<a>\né<!DOCTYPE b></a>")
        self.explains("refused 3 d%20e/SystemStructure.ssd byte 6", "d e/SystemStructure.ssd:2:2: rule 3:", "What to do: ")

    def test_a_ring(self):
        os.symlink(f"{TOP}/examples", f"{self.room}/examples")
        with open(f"{TOP}/examples/loop/line.txt", encoding="utf-8") as file:
            self.explains(file.read().strip(), "g1.u, g2.y, g2.u, g1.y", "What to do: List in `dependencies`")

    def test_files_that_are_gone(self):
        place = "/SystemStructureDescription[1]/System[1]"
        self.explains(f"refused 35 d/SystemStructure.ssd {place}", "d/SystemStructure.ssd: rule 35: ", "What to do: ")
        self.explains(f"refused 46 d/SystemStructure.ssd {place} ports 0 1", "and the last the first: 0, 1")
        for content in ("no document", "<a/>", "<SystemStructureDescription><a/></SystemStructureDescription>"):
            self.write("d/SystemStructure.ssd", content)
            self.explains(f"refused 35 d/SystemStructure.ssd {place}", "d/SystemStructure.ssd: rule 35: ")
            self.explains(f"refused 35 d/SystemStructure.ssd {place}[2]", "d/SystemStructure.ssd: rule 35: ")

    def test_each_rule_is_told_with_what_to_do(self):
        with open(f"{TOP}/docs/RULES.md", encoding="utf-8") as file:
            rules = re.findall(r"^### (\d+) ", file.read(), re.M)
        lines = "".join(f"refused {rule} d/x byte 1\n" for rule in rules)
        status, out, _ = ssp("explain", cwd=self.room, text=lines)
        self.assertEqual((0, len(rules)), (status, out.count("    What to do: ")))
        self.assertGreater(len(rules), 40)

    def test_files(self):
        self.write("plant/SystemStructure.ssd", structure(elements(component("c"))))
        self.write("plant/c.fmu", "PK")
        self.explains("missing plant/m/modelDescription.xml", "In plant there are: SystemStructure.ssd, c.fmu")
        self.explains("read plant/c.fmu/modelDescription.xml", "mv plant/c.fmu plant/c.fmu.zip && tools/ssp unpack plant/c.fmu.zip plant/c.fmu")
        self.write("one/modelDescription.xml", COUNTER)
        self.explains("missing one/SystemStructure.ssd", "one is the folder of one FMU: `one` runs it")
        self.explains("big plant/c.fmu", "16 MiB")

    def test_other_lines(self):
        rows = (
            ("words", "./ssprun help"),
            ("unknown a.b", "a.b: No machine"),
            ("link a start", "--host"),
            ("link a%20b DoStep", "a b: The host of this component ended"),
            ("fmu a DoStep Discard", "answered DoStep with Discard"),
            (f"misreply a Get {'0' * 48}", "A reply in bytes"),
            ("limit 20", "--max-iterations"),
            ("fixed a 20 25", "The step from 20 to 25"),
            ("range a.b u%20v -4", "a.b: The value -4 is lost on its way to u v"),
            ("write", "disk"),
            ("memory", "memory"),
            ("no 5 3", "Line 5 of the trace breaks rule 3"),
        )
        for line, wanted in rows:
            self.explains(line, wanted)

    def test_what_is_no_line(self):
        self.tells("this is no line of the program: nothing such", "explain", "nothing", "such")
        self.tells("this is no line of the program: refused 3 d", "explain", text="words\nrefused 3 d\n")
        self.tells("there is no line to explain", "explain")
        many = "9" * 5000
        for line in (f"refused 3 d byte {many}", f"refused 46 d /a[1] ports {many}", f"refused {many} d byte 1"):
            self.tells(f"this is no line of the program: {line}", "explain", line)
        self.tells("docs/RULES.md has no rule 99", "explain", "refused 99 d byte 3")
