"""The words of tools/ssp."""
import os
import signal
import subprocess
import sys
import time
import zipfile

from helper import SSP, Case, ssp


class Words(Case):
    def test_no_subcommand(self):
        self.tells("the following arguments are required: SUBCOMMAND; ssp --help tells the words")

    def test_another_subcommand(self):
        status, out, err = ssp("nothing", cwd=self.room)
        self.assertEqual((2, "", 1), (status, out, err.count("\n")))
        self.assertIn("invalid choice: 'nothing'", err)

    def test_help(self):
        status, out, err = ssp("--help", cwd=self.room)
        self.assertEqual((0, ""), (status, err))
        for name in ("explain", "follow", "reals", "suggest", "unpack", "unreached"):
            self.assertRegex(out, rf"\n    {name}\s")
            status, of_one, err = ssp(name, "--help", cwd=self.room)
            self.assertEqual((0, ""), (status, err))
            self.assertIn(f"usage: ssp {name}", of_one)

    def test_a_word_too_many(self):
        for name in ("follow", "suggest", "unreached"):
            status, out, err = ssp(name, "a", "b", cwd=self.room)
            self.assertEqual((2, "", 1), (status, out, err.count("\n")))

    def test_as_a_program(self):
        ran = subprocess.run([sys.executable, SSP, "suggest", "d"], cwd=self.room, capture_output=True, text=True, check=False)
        line = "ssp: d: neither SystemStructure.ssd nor modelDescription.xml is there\n"
        self.assertEqual((2, "", line), (ran.returncode, ran.stdout, ran.stderr))

    def test_an_encoding_that_lacks_letters(self):
        self.write("schön/modelDescription.xml", "<a>")
        env = {**os.environ, "LC_ALL": "C", "PYTHONUTF8": "0", "PYTHONCOERCECLOCALE": "0"}
        ran = subprocess.run([sys.executable, SSP, "suggest", "schön"], cwd=self.room, env=env, capture_output=True, check=False)
        self.assertEqual((2, b"", 1), (ran.returncode, ran.stdout, ran.stderr.count(b"\n")))
        self.assertIn(b"no element found", ran.stderr)

    def test_a_signal_leaves_nothing(self):
        archive = f"{self.room}/a.ssp"
        with zipfile.ZipFile(archive, "w", zipfile.ZIP_DEFLATED) as file:
            file.writestr("SystemStructure.ssd", "<a/>")
            for number in range(200):
                file.writestr(f"{number}", b"\0" * (1 << 20))
        before = time.monotonic()
        with subprocess.Popen([sys.executable, SSP, "unpack", archive], cwd=self.room, stderr=subprocess.PIPE) as ran:
            while len(os.listdir(self.room)) < 2 and time.monotonic() < before + 30:
                time.sleep(0.01)
            ran.terminate()
        self.assertEqual((128 + signal.SIGTERM, ["a.ssp"]), (ran.returncode, os.listdir(self.room)))
