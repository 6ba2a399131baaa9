"""The wheel has the library in it and runs from where it is unpacked; a library that is not there is said to be missing."""

import os
import subprocess
import sys
import tempfile
import unittest
import zipfile
from pathlib import Path

import committed
from jdr import _library, calls

PACKAGE = committed.REPOSITORY / "bindings/python"
READS = "import jdr, sys; print(jdr.__file__, len(jdr.Plan.read(open(sys.argv[1], 'rb').read()).objects))"


def run(*command, **variables):
    kept = {name: value for name, value in os.environ.items() if name not in ("JDR_LIBRARY", "PYTHONPATH")}
    kept["PYTHONDONTWRITEBYTECODE"] = "1"
    return subprocess.run([sys.executable, *command], env={**kept, **variables}, cwd="/", text=True, capture_output=True)


class Wheel(unittest.TestCase):
    """Installed by unpacking."""

    def test_a_wheel_needs_nothing_else(self):
        with tempfile.TemporaryDirectory() as folder:
            built = run(str(PACKAGE / "backend.py"), folder, JDR_LIBRARY=calls._loaded._name)
            self.assertEqual(built.returncode, 0, built.stderr)
            with zipfile.ZipFile(Path(folder) / built.stdout.strip()) as wheel:
                self.assertIsNone(wheel.testzip())
                wheel.extractall(folder)
            read = run("-c", READS, str(committed.REPOSITORY / "examples/plans/hall.jdr"), PYTHONPATH=folder)
            self.assertEqual(read.stdout.split(), [str(Path(folder) / "jdr/__init__.py"), "8"], read.stderr)

    def test_the_library_of_the_system_is_found(self):
        folder = Path(calls._loaded._name).parent
        if not (folder / _library.INSTALLED).exists():
            self.skipTest("the library that is tested is not an installed one")
        read = run("-c", READS, str(committed.REPOSITORY / "examples/plans/hall.jdr"), PYTHONPATH=str(PACKAGE), LD_LIBRARY_PATH=str(folder))
        self.assertEqual(read.stdout.split(), [str(PACKAGE / "jdr/__init__.py"), "8"], read.stderr)

    def test_a_missing_library_is_said(self):
        failed = run("-c", "import jdr", PYTHONPATH=str(PACKAGE), JDR_LIBRARY="/nowhere/libjdr_c.so")
        self.assertIn("ImportError: no JDR library", failed.stderr)
        self.assertIn("/nowhere/libjdr_c.so", failed.stderr)


if __name__ == "__main__":
    unittest.main()
