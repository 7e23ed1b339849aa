"""For the tests: the report of a session, by the program if it is built. MONITOR may name another program that judges a
bundle on its standard input."""
import json
import os
import subprocess
import unittest

FOLDER = os.path.dirname(os.path.abspath(__file__))
PROGRAM = os.environ.get("MONITOR", os.path.join(FOLDER, "..", "..", "crates", "monitor", "out", "monitor"))
needs_program = unittest.skipUnless(os.access(PROGRAM, os.X_OK), f"no program {PROGRAM}")


def report_of(document, streams):
    """The report, as text; the document is a value or a JSON text, the streams are texts."""
    if not isinstance(document, str):
        document = json.dumps(document)
    bundle = "\n---\n".join([document, *streams])
    done = subprocess.run([PROGRAM], input=bundle, capture_output=True, encoding="utf-8", timeout=60)
    if done.returncode not in (0, 1):
        raise AssertionError(f"status {done.returncode}: {done.stderr}")
    return done.stdout
