#!/usr/bin/env python3
"""refuse_calls.py [TESTS..]: refuses each allocation of tests in turn, of `test_read`, `test_walk` and
`test_threads`.

TESTS are programs of tests; without them those that `rt test` left in the `out` folders of the crates. Each test whose
name ends in `_again` makes each of its calls once more if memory is refused, looks that nothing has changed by then,
and expects what the call gives with memory. For each of them and each N, counted upward until a run meets no refusal,
the test runs with its Nth allocation refused, and has to pass. What comes before the calls, as the document and the
streams, is made once more as a whole. The first allocations are the C library's own, and so are those with which it
starts threads. The status is 1 if a test fails, doesn't end within a minute, or makes no call again. It needs gcc."""
import os
import subprocess
import sys
import tempfile

from refusals import asked_for, make_shim, surroundings

CRATES = os.path.join(os.path.dirname(os.path.dirname(os.path.abspath(__file__))), "crates")
NAMES = ["test_read", "test_walk", "test_threads"]
RUN_SECONDS = 60
# More allocations than any of the tests makes.
MOST_RUNS = 20_000
AGAIN = b"a call was made again\n"


def names_of(tests):
    """The tests that hold with a refusal."""
    listed = subprocess.run([tests, "--list"], capture_output=True, text=True, check=True).stdout
    names = [line.partition(": ")[0] for line in listed.splitlines() if line.endswith(": test")]
    return [name for name in names if name.endswith("_again")]


def run(tests, name, folder, number):
    """What a run of a test gives with this allocation refused, and how many it asked for."""
    ended = subprocess.run([tests, name], capture_output=True, env=surroundings(folder, number), timeout=RUN_SECONDS)
    return ended, asked_for(folder)


def refuse_each(tests, name, folder):
    """Whether the test passes whichever of its allocations is refused, and makes a call again in some of the runs."""
    again, refused, number, asked = 0, 0, 0, 1
    while number <= asked:
        ended, asked = run(tests, name, folder, number)
        if ended.returncode != 0 or number > MOST_RUNS:
            print(f"{name}: allocation {number}: {ended}")
            return False
        again += AGAIN in ended.stdout
        refused += 0 < number <= asked
        number += 1
    print(f"{name}: {refused} refusals, of which {again} met a call that was made again", flush=True)
    return again > 0


def refuse_all(tests, folder):
    """Whether each test of the program that makes its calls again passes, and whether there is one."""
    if not os.path.exists(tests):
        sys.exit("refuse_calls.py: first run `rt test` in the crates, or `bench/unproved.py TESTS CRATE` for each")
    names = names_of(tests)
    return bool(names) and all([refuse_each(tests, name, folder) for name in names])


def main():
    programs = sys.argv[1:] or [os.path.join(CRATES, name, "out", f"{name}_tests") for name in NAMES]
    with tempfile.TemporaryDirectory() as folder:
        make_shim(folder)
        if not all([refuse_all(os.path.abspath(tests), folder) for tests in programs]):
            raise SystemExit(1)


main()
