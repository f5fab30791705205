"""What the tests of tools/ssp share."""
import contextlib
import io
import os
import sys
import tempfile
import unittest

TOP = os.path.dirname(os.path.dirname(os.path.dirname(os.path.realpath(__file__))))
SSP = f"{TOP}/tools/ssp"
sys.dont_write_bytecode = True
sys.path.insert(0, f"{TOP}/tools")

from ssp_commands.common import main  # noqa: E402


def ssp(*words, cwd=None, text=""):
    """The status of `tools/ssp` at these words, and what it writes on standard output and standard error."""
    out, err, before = io.StringIO(), io.StringIO(), (os.getcwd(), sys.stdin)
    os.chdir(cwd or before[0])
    sys.stdin = io.StringIO(text)
    try:
        with contextlib.redirect_stdout(out), contextlib.redirect_stderr(err):
            status = main(list(words))
    except SystemExit as ended:
        status = ended.code
    finally:
        os.chdir(before[0])
        sys.stdin = before[1]
    return status, out.getvalue(), err.getvalue()


class Case(unittest.TestCase):
    """A test with a folder of its own, `self.room`, in which `tools/ssp` is run."""

    def setUp(self):
        folder = tempfile.TemporaryDirectory()
        self.addCleanup(folder.cleanup)
        self.room = folder.name

    def write(self, path, content):
        """A file below the folder."""
        whole = f"{self.room}/{path}"
        os.makedirs(os.path.dirname(whole), exist_ok=True)
        with open(whole, "wb") as file:
            file.write(content if isinstance(content, bytes) else content.encode())

    def files(self):
        """The paths of all files below the folder."""
        found = [f"{folder}/{name}" for folder, _, names in os.walk(self.room) for name in names]
        return sorted(os.path.relpath(path, self.room) for path in found)

    def gives(self, out, *words, text=""):
        self.assertEqual((0, out, ""), ssp(*words, cwd=self.room, text=text))

    def tells(self, line, *words, text=""):
        """What doesn't work is told in one line, with the status 2, and nothing else is written."""
        self.assertEqual((2, "", f"ssp: {line}\n"), ssp(*words, cwd=self.room, text=text))
