"""Tests of the Python package: `python -m tests` in python/, with DTOOL, the program, and DTOOL_LIBRARY, the library, or its folder."""
import os
import subprocess
import sys
import tempfile

HERE = os.path.dirname(os.path.abspath(__file__))
ROOT = os.path.dirname(os.path.dirname(HERE))
DTOOL = os.environ["DTOOL"]

#: What this machine lacks.
LACKS = set()


def read(*names):
    with open(os.path.join(ROOT, *names), encoding="utf-8") as file:
        return file.read()


BOARD = read("python", "tests", "board.dts")


def compiled(text):
    """The blob of a source."""
    with tempfile.NamedTemporaryFile("w", suffix=".dts") as source:
        source.write(text)
        source.flush()
        return subprocess.run([DTOOL, "compile", source.name], stdout=subprocess.PIPE, check=True).stdout


def asked(*words):
    """What `python -m dtool WORD..` prints, its status, and what it writes to standard error. A word may be a Stored file."""
    command = [sys.executable, "-m", "dtool", *(word.name if isinstance(word, Stored) else word for word in words)]
    done = subprocess.run(command, cwd=os.path.join(ROOT, "python"), stdout=subprocess.PIPE, stderr=subprocess.PIPE)
    return done.stdout.decode(), done.returncode, done.stderr.decode()


class Stored:
    """A file with some bytes."""

    def __init__(self, data):
        self._file = tempfile.NamedTemporaryFile(suffix=".dtb")
        self._file.write(data)
        self._file.flush()
        self.name = self._file.name
