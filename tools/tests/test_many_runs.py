"""`tools/many_runs`, over stand-ins for the programs."""
import os
import shutil
import subprocess

from helper import TOP, Case

PROGRAM = """#!/bin/sh
# run DIR --resolution R: a trace with the number that DIR/v.ssv is
number=$(cat "$2/v.ssv")
[ "$number" != none ] || { echo "refused 2 $2/v.ssv byte 0" >&2 && exit 4; }
echo "$4 $number"
[ "$number" != 6 ] || { echo "fmu a DoStep Error" >&2 && exit 6; }
"""
VIEWER = """#!/bin/sh
# csv --last FILE: a table of the words of FILE
[ "$1 $2" = "csv --last" ] || exit 2
printf 'time,instant,resolution,v\\n0,0,,\\n0.2,1,'
tr ' ' , <"$3"
"""
HEAD = "run,time,instant,resolution,v\n"


class ManyRuns(Case):
    def setUp(self):
        super().setUp()
        os.makedirs(f"{self.room}/tools")
        shutil.copy(f"{TOP}/tools/many_runs", f"{self.room}/tools")
        for name, text in (("ssprun", PROGRAM), ("trace_view", VIEWER)):
            self.write(name, text)
            os.chmod(f"{self.room}/{name}", 0o755)
        self.write("system/SystemStructure.ssd", "<a/>")
        self.write("system/v.ssv", "own")

    def run_all(self, *words):
        ran = subprocess.run(["tools/many_runs", *words], cwd=self.room, capture_output=True, text=True, timeout=60, check=False)
        return ran.returncode, ran.stdout, ran.stderr

    def test_a_table(self):
        for name in ("b", "a c"):
            self.write(f"values/{name}.ssv", f"{len(name)}")
        self.write("values/notes.txt", "no values")
        table = f"{HEAD}a c,0,0,,\na c,0.2,1,10,3\nb,0,0,,\nb,0.2,1,10,1\n"
        self.assertEqual((0, table, ""), self.run_all("system", "v.ssv", "values", "--resolution", "10"))
        with open(f"{self.room}/system/v.ssv", encoding="utf-8") as file:
            self.assertEqual("own", file.read())

    def test_runs_that_do_not_end_well(self):
        for name, content in (("a", "none"), ("b", "4"), ("c", "6")):
            self.write(f"values/{name}.ssv", content)
        status, table, lines = self.run_all("system", "v.ssv", "values", "--resolution", "10")
        self.assertEqual((1, f"{HEAD}b,0,0,,\nb,0.2,1,10,4\nc,0,0,,\nc,0.2,1,10,6\n"), (status, table))
        self.assertRegex("".join(sorted(lines.splitlines(True))), r"\Aa: refused 2 \S+/v.ssv byte 0\nc: fmu a DoStep Error\n\Z")

    def test_nothing_is_left(self):
        self.write("values/a.ssv", "1")
        os.makedirs(f"{self.room}/rooms")
        ran = subprocess.run(
            ["tools/many_runs", "system", "v.ssv", "values", "--resolution", "10"],
            cwd=self.room, env={**os.environ, "TMPDIR": f"{self.room}/rooms"}, stdout=subprocess.DEVNULL, timeout=60, check=True,
        )
        self.assertEqual((0, []), (ran.returncode, os.listdir(f"{self.room}/rooms")))

    def test_words(self):
        status, table, line = self.run_all("system", "v.ssv", "values")
        self.assertEqual((2, "", True), (status, table, line.startswith("usage: many_runs")))
        status, table, line = self.run_all("system", "v.ssv", "nowhere", "--resolution", "10")
        self.assertEqual((2, "", "many_runs: there is no .ssv file in nowhere\n"), (status, table, line))
