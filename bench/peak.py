"""What the measures share: a run's time and its peak memory.

The peak is what `/usr/bin/time` reports. That of a child of this process would be no less than what this process holds
itself, since the system counts it from before the program takes the child's place."""
import os
import subprocess
import tempfile
import time


def run(words, path=os.devnull):
    """How a run with this file as its input ends: its status, its output, its seconds and its peak memory in bytes."""
    with tempfile.NamedTemporaryFile("r") as peak, open(path, "rb") as given:
        start = time.perf_counter()
        ended = subprocess.run(["/usr/bin/time", "-q", "-o", peak.name, "-f", "%M", *words], stdin=given,
                               stdout=subprocess.PIPE, check=False)
        seconds = time.perf_counter() - start
        return ended.returncode, ended.stdout, seconds, int(peak.read()) * 1024
