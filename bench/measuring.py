"""The time and the memory that a command takes.

GNU's `time` (`apt-get install time`) reports memory: what `os.wait4` reports of a child is at least what this process had when
it started the child, which is more than a small compiler takes; `time` is small itself."""
import subprocess
import tempfile
import threading
import time


def timed(command, out, told, seconds):
    """The status of a command that writes to these files, and its wall time; a status below 0 where it was stopped after so
    many seconds. It is waited for by the system: `subprocess` looks only every 50 ms where it has a limit."""
    start = time.perf_counter()
    process = subprocess.Popen(command, stdout=out, stderr=told)
    stop = threading.Timer(seconds, process.kill)
    stop.start()
    process.wait()
    took = time.perf_counter() - start
    stop.cancel()
    return process.returncode, took


def peak(command):
    """The most memory that a command takes, in MiB; what it writes is dropped."""
    with tempfile.NamedTemporaryFile("r") as told:
        subprocess.run(["/usr/bin/time", "-f", "%M", "-o", told.name, *command], stdout=subprocess.DEVNULL, stderr=subprocess.DEVNULL)
        return int(told.read().split()[-1]) / 1024
