"""The package is installed without network, and the library is looked for where it may be."""
import os
import subprocess
import sys
import tempfile
import unittest
import zipfile

from . import LACKS, ROOT, Stored, compiled


def run(*command, **options):
    return subprocess.run(command, stdout=subprocess.PIPE, stderr=subprocess.STDOUT, text=True, **options)


class Wheel(unittest.TestCase):
    def test_wheel(self):
        with tempfile.TemporaryDirectory() as folder:
            done = run(sys.executable, "-c", "import sys, backend; print(backend.build_wheel(sys.argv[1]))", folder, cwd=os.path.join(ROOT, "python"))
            self.assertEqual(done.returncode, 0, done.stdout)
            (name,) = os.listdir(folder)
            self.assertRegex(name, r"^dtool-[0-9.]+-py3-none-linux_(x86_64|aarch64)\.whl$")
            with zipfile.ZipFile(os.path.join(folder, name)) as wheel:
                names = wheel.namelist()
                self.assertTrue({"dtool/__init__.py", "dtool/libdtool.so", "dtool/py.typed"} <= set(names))
                record = next(it for it in names if it.endswith("/RECORD"))
                self.assertEqual(len(wheel.read(record).splitlines()), len(names))

    def test_install(self):
        """pip install, in a new environment, without an index."""
        with tempfile.TemporaryDirectory() as folder:
            environment = os.path.join(folder, "env")
            if run(sys.executable, "-m", "venv", environment).returncode:
                LACKS.add("venv and pip")
                self.skipTest("no venv")
            done = run(f"{environment}/bin/pip", "install", "--no-index", "--disable-pip-version-check", os.path.join(ROOT, "python"))
            self.assertEqual(done.returncode, 0, done.stdout)
            bare = {name: value for name, value in os.environ.items() if name != "DTOOL_LIBRARY"}
            blob = Stored(compiled("/dts-v1/; / { a@1 { reg = <1 1>; }; };"))
            look = "import dtool, sys; print(dtool.Blob.read(sys.argv[1])['/a@1'].path)"
            done = run(f"{environment}/bin/python", "-c", look, blob.name, cwd=folder, env=bare)
            self.assertEqual(done.stdout, "/a@1\n")
            done = run(f"{environment}/bin/dtool-lint", blob.name, cwd=folder, env=bare)
            self.assertEqual(done.returncode, 1, done.stdout)
            self.assertIn("/a@1: reg: 8 bytes", done.stdout)

    def test_library(self):
        """The library is never one of the working folder."""
        with tempfile.TemporaryDirectory() as folder:
            with open(os.path.join(folder, "libdtool.so"), "wb") as file:
                file.write(b"no library")
            relative = "no absolute path"
            for named, wanted in (("libdtool.so", relative), ("./libdtool.so", relative), (folder, "ELF"), ("/nope/libdtool.so", "No such file")):
                path = os.path.join(ROOT, "python")
                done = run(sys.executable, "-c", "import dtool", cwd=folder, env={**os.environ, "DTOOL_LIBRARY": named, "PYTHONPATH": path})
                self.assertEqual(done.returncode, 1)
                self.assertIn("ImportError", done.stdout)
                self.assertTrue(wanted in done.stdout or "too short" in done.stdout, done.stdout)


if __name__ == "__main__":
    unittest.main()
