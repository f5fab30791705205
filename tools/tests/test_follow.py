"""`ssp follow`."""
import subprocess
import sys

from helper import SSP, Case

HEAD = "trace 1 1000 0 40\nport 0 Int32 c y\n"


class Follow(Case):
    def shows(self, line, content):
        self.write("trace", content)
        self.gives(f"{line}\n", "follow", "--once", "trace")

    def test_how_far_it_is(self):
        self.shows("nothing is written yet", "")
        self.shows("nothing is written yet", "trace 1 10")
        self.shows("no point yet, of 40 (0.04 s)", HEAD)
        self.shows("at 0 (0 s), of 40 (0.04 s): 0 %", f"{HEAD}at 0 0\n0 0\n")
        self.shows("at 10 (0.01 s), of 40 (0.04 s): 25 %", f"{HEAD}at 0 0\n0 0\nat 10 0\n0 2\nat 20")
        self.shows("at 10 (0.01 s), of 40 (0.04 s): 25 %", f"{HEAD}at 0 0\n0 0\nat 10 0\n" + "0 123456\n" * 100000)
        self.shows("at 30 (0.03 s), of 40 (0.04 s): 75 %", f"{HEAD}at 30 0\n" + "0 1\n" * 9 + "end sto")
        self.shows("end stop at 40 (0.04 s), of 40 (0.04 s)", f"{HEAD}at 40 0\n0 8\nend stop 40\n")
        self.shows("end fault at 10 (0.01 s), of 40 (0.04 s)", f"{HEAD}end fault 10\n")
        self.shows("at 0 (0 s), of 0 (0 s): 100 %", "trace 1 1 0 0\nat 0 0\n")

    def test_until_its_end(self):
        self.write("trace", HEAD)
        ran = subprocess.Popen([sys.executable, SSP, "follow", f"{self.room}/trace"], stdout=subprocess.PIPE, text=True)
        self.assertEqual("no point yet, of 40 (0.04 s)\n", ran.stdout.readline())
        self.write("trace", f"{HEAD}at 40 0\n0 8\nend stop 40\n")
        self.assertEqual("end stop at 40 (0.04 s), of 40 (0.04 s)", ran.communicate(timeout=30)[0].splitlines()[-1])
        self.assertEqual(0, ran.returncode)

    def test_what_is_no_trace(self):
        line = "trace: no trace of this format: it begins with another line than `trace 1 R START STOP`"
        for content in ("port 0\n", "trace 2 1000 0 40\n", "trace 1 0 0 40\n", "nothing", b"\xff" * 200, "trace 1 " + "1" * 200):
            self.write("trace", content)
            self.tells(line, "follow", "trace")
        self.tells("none: No such file or directory", "follow", "none")
        self.tells(".: Is a directory", "follow", ".")
