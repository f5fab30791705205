"""`ssp unpack`."""
import io
import os
import shutil
import stat
import zipfile

from documents import COUNTER, component, description, elements, structure
from helper import Case, ssp

SYSTEM = structure(elements(component("c", "resources/counter.fmu")), '<DefaultExperiment stopTime="0.02"/>')


def packed(*entries, method=zipfile.ZIP_DEFLATED):
    """An archive of these names and contents; a name may be a ZipInfo."""
    file = io.BytesIO()
    with zipfile.ZipFile(file, "w", method) as archive:
        for name, content in entries:
            archive.writestr(name, content)
    return file.getvalue()


FMU = packed(("modelDescription.xml", COUNTER), ("documentation/index.html", "<p>"))
SSP = packed(("SystemStructure.ssd", SYSTEM), ("resources/counter.fmu", FMU), ("resources/", ""))


class Unpack(Case):
    def test_a_system(self):
        self.write("plant.ssp", SSP)
        out = "plant: 3 files, in folders of 1 FMU\n./ssprun run plant --resolution 50 --step H --stop 1\n"
        self.gives(out, "unpack", "plant.ssp")
        wanted = ["SystemStructure.ssd", "resources/counter.fmu/documentation/index.html", "resources/counter.fmu/modelDescription.xml"]
        self.assertEqual(["plant.ssp", *(f"plant/{path}" for path in wanted)], sorted(self.files()))
        with open(f"{self.room}/plant/SystemStructure.ssd", encoding="utf-8") as file:
            self.assertEqual(SYSTEM, file.read())

    def test_a_package_in_a_package(self):
        inner = structure(elements('<Component name="p" type="application/x-ssp-package" source="resources/plant.ssp"/>'))
        self.write("line.ssp", packed(("SystemStructure.ssd", inner), ("resources/plant.ssp", SSP)))
        status, out, err = ssp("unpack", "line.ssp", cwd=self.room)
        self.assertEqual((0, ""), (status, err))
        self.assertEqual("line: 4 files, in folders of 1 FMU and 1 package", out.splitlines()[0])
        plant = ["SystemStructure.ssd", "resources/counter.fmu/documentation/index.html", "resources/counter.fmu/modelDescription.xml"]
        wanted = ["SystemStructure.ssd", *(f"resources/plant.ssp/{path}" for path in plant)]
        self.assertEqual(["line.ssp", *(f"line/{path}" for path in wanted)], sorted(self.files()))

    def test_an_fmu_with_reals(self):
        text = description('<Float64 name="x" valueReference="1" causality="output"/>')
        self.write("m.fmu", packed(("modelDescription.xml", text)))
        passed = "Passed over: the Float variables of fmu; `tools/ssp reals m OUT` makes them integers that hold their bits.\n"
        self.gives(f"m: 1 file\n{passed}./ssprun one m --resolution R --step H --stop T --host ./fmi3_host\n", "unpack", "m.fmu")

    def test_an_fmu_into_a_folder_that_is_empty(self):
        self.write("counter.fmu", FMU)
        os.makedirs(f"{self.room}/a folder")
        out = "a folder: 2 files\n./ssprun one 'a folder' --resolution R --step H --stop T\n"
        self.gives(out, "unpack", "counter.fmu", "a folder")

    def test_a_link_to_a_folder_and_the_folder_itself(self):
        self.write("counter.fmu", FMU)
        os.makedirs(f"{self.room}/far/own")
        os.symlink("far/own", f"{self.room}/near")
        self.gives("near: 2 files\n./ssprun one near --resolution R --step H --stop T\n", "unpack", "counter.fmu", "near")
        self.assertTrue(os.path.islink(f"{self.room}/near"))
        os.makedirs(f"{self.room}/empty")
        out = (0, ".: 2 files\n./ssprun one . --resolution R --step H --stop T\n", "")
        self.assertEqual(out, ssp("unpack", "../counter.fmu", ".", cwd=f"{self.room}/empty"))
        self.assertEqual(["documentation", "modelDescription.xml"], sorted(os.listdir(f"{self.room}/empty")))
        os.makedirs(f"{self.room}/none")
        self.write("bad.fmu", FMU[:40])
        self.assertEqual(2, ssp("unpack", "../bad.fmu", ".", cwd=f"{self.room}/none")[0])
        self.assertEqual([], os.listdir(f"{self.room}/none"))

    def test_a_helper_stays_a_program(self):
        info = zipfile.ZipInfo("resources/helper")
        info.external_attr = (stat.S_IFREG | 0o755) << 16
        self.write("m.fmu", packed(("modelDescription.xml", COUNTER), (info, "#!/bin/sh\n")))
        self.assertEqual(0, ssp("unpack", "m.fmu", cwd=self.room)[0])
        self.assertTrue(os.access(f"{self.room}/m/resources/helper", os.X_OK))
        self.assertFalse(os.access(f"{self.room}/m/modelDescription.xml", os.X_OK))

    def test_bytes_that_are_changed_give_a_folder_or_one_line(self):
        for place in range(0, len(SSP), 5):
            self.write("bad.ssp", SSP[:place] + bytes([SSP[place] ^ 255]) + SSP[place + 1 :])
            status, out, err = ssp("unpack", "bad.ssp", cwd=self.room)
            there = sorted(os.listdir(self.room))
            self.assertIn((status, out.count("\n"), err.count("\n"), there), ((0, 2, 0, ["bad", "bad.ssp"]), (2, 0, 1, ["bad.ssp"])))
            shutil.rmtree(f"{self.room}/bad", ignore_errors=True)

    def test_an_archive_in_an_fmu_stays_as_it_is(self):
        self.write("m.fmu", packed(("modelDescription.xml", COUNTER), ("resources/inner.fmu", FMU)))
        self.assertEqual(0, ssp("unpack", "m.fmu", cwd=self.room)[0])
        self.assertEqual(["m.fmu", "m/modelDescription.xml", "m/resources/inner.fmu"], self.files())

    def test_no_command_is_known(self):
        self.write("plant.ssp", packed(("SystemStructure.ssd", structure(elements(component("c", "../c"))))))
        out = "plant: 1 file\nNo command is suggested: the source `../c` doesn't lead below the folder plant (rule 33)\n"
        self.gives(out, "unpack", "plant.ssp")

    def refuses(self, line, content, *words):
        """Nothing is left of an archive that isn't taken."""
        self.write("bad.ssp", content)
        self.tells(line, "unpack", "bad.ssp", *words)
        self.assertEqual(["bad.ssp"], sorted(os.listdir(self.room)))

    def test_what_is_no_archive(self):
        self.refuses("bad.ssp: no archive that can be read: File is not a zip file", "nothing")
        self.refuses("bad.ssp: no archive that can be read: File is not a zip file", "")
        self.refuses("bad.ssp: no archive that can be read: File is not a zip file", SSP[: len(SSP) // 2])
        self.refuses("bad.ssp: no archive that can be read: File is not a zip file", "<a/>", "folder")
        self.tells("missing.ssp: No such file or directory", "unpack", "missing.ssp")

    def test_another_archive(self):
        line = "bad.ssp: neither SystemStructure.ssd nor modelDescription.xml is at its top"
        self.refuses(line, packed(("a", "")))
        self.refuses(
            f"{line}, but plant/SystemStructure.ssd is in it: pack what is in that folder", packed(("plant/SystemStructure.ssd", SYSTEM))
        )

    def test_paths_that_lead_out(self):
        for name in ("../out", "a/../../out", "/out", "a/..", "..\\out", "C:/out", "a//b", "./a"):
            line = f"bad.ssp: the path `{name}` in it isn't taken: it may lead out of the folder"
            self.refuses(line, packed(("SystemStructure.ssd", SYSTEM), (name, "x")))
        inner = packed(("modelDescription.xml", COUNTER), ("../../../out", "x"))
        line = "bad.ssp: resources/counter.fmu: the path `../../../out` in it isn't taken: it may lead out of the folder"
        self.refuses(line, packed(("SystemStructure.ssd", SYSTEM), ("resources/counter.fmu", inner)))

    def test_links_and_names_that_clash(self):
        info = zipfile.ZipInfo("link")
        info.external_attr = (stat.S_IFLNK | 0o777) << 16
        self.refuses("bad.ssp: `link` in it is a link, which isn't taken", packed(("SystemStructure.ssd", SYSTEM), (info, "/etc")))
        both = packed(("SystemStructure.ssd", SYSTEM), ("a", "x"), ("a/b", "x"))
        self.refuses("bad.ssp: `a` in it is a file and a folder", both)

    def test_names_that_are_too_long(self):
        self.refuses(f"bad.ssp: `{'a' * 300}` in it: File name too long", packed(("SystemStructure.ssd", SYSTEM), ("a" * 300, "x")))
        deep = "a/" * 2000
        self.refuses(f"bad.ssp: `{deep[:100]}..` in it lies in more than 255 folders", packed(("SystemStructure.ssd", SYSTEM), (f"{deep}b", "")))

    def test_an_fmu_in_it_that_is_none(self):
        line = "bad.ssp: resources/counter.fmu: no archive that can be read: File is not a zip file"
        self.refuses(line, packed(("SystemStructure.ssd", SYSTEM), ("resources/counter.fmu", "x")))
        line = "bad.ssp: resources/counter.fmu: modelDescription.xml isn't at its top"
        self.refuses(line, packed(("SystemStructure.ssd", SYSTEM), ("resources/counter.fmu", packed(("a", "x")))))

    def test_contents_that_are_broken(self):
        whole = packed(("SystemStructure.ssd", SYSTEM), ("a", "some text"), method=zipfile.ZIP_STORED)
        line = "bad.ssp: `a` in it can't be read: Bad CRC-32 for file 'a'"
        self.refuses(line, whole.replace(b"some text", b"some wrong"[:9]))

    def test_a_folder_that_is_there(self):
        self.write("plant.ssp", SSP)
        self.write("plant/own", "mine")
        self.tells("plant: there is something in this folder: give another DIR", "unpack", "plant.ssp")
        self.write("file", "mine")
        self.tells("file is there already, and is no folder: give another DIR", "unpack", "plant.ssp", "file")
        status, out, err = ssp("unpack", "plant.ssp", "no/such", cwd=self.room)
        self.assertEqual((2, "", 1), (status, out, err.count("\n")))
        self.assertEqual(["file", "plant", "plant.ssp"], sorted(os.listdir(self.room)))
