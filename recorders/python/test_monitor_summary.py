"""Tests of monitor_summary: python3 -m unittest discover -s recorders/python"""
import itertools
import os
import random
import subprocess
import sys
import tempfile
import unittest

import monitor_summary as summary
from judging import FOLDER

SCRIPT = os.path.join(FOLDER, "monitor_summary.py")
VERDICTS = ["pass", "pass", "pass", "fail: both possibly yes", "refused stream 1 line 3 unended", "unnamed both",
            "unread x/session.json"]
ORDERS = b"orders: 3\n"
EMPTY = (b"runs: 0, pass: 0, fail: 0, not judged: 0\n", 0)


def tested(runs):
    """What `monitor test` writes of these runs, each a name and what came of it, and the status."""
    lines = [f"{name}: {text}\n" for name, text in runs]
    bad = [f"  {name}: {text}\n" for name, text in runs if text != "pass"]
    failed = sum(text.startswith("fail") for _, text in runs)
    last = f"runs: {len(runs)}, pass: {len(runs) - len(bad)}, fail: {failed}, not judged: {len(bad) - failed}\n"
    return "".join([*lines, last, *bad[:5]]).encode(), 5 if failed else 1 if bad else 0


def joined(*parts):
    """What the script writes of these parts, each with its status, which it isn't told; and its status."""
    done = subprocess.run([sys.executable, SCRIPT], input=b"".join(part for part, _ in parts), capture_output=True,
                          timeout=60, check=False)
    return done.stdout, done.returncode


def numbers(part):
    return [line for line in part[0].splitlines() if line.startswith(b"runs: ")], part[1]


def drawn(count, seed):
    """So many runs; some have names that look like what stands in other lines."""
    drawing = random.Random(seed)
    names = ["runs/{}", "runs: {}, pass", "  {}", "{}: fail: both possibly yes", "runs/ü {}"]
    return [(drawing.choice(names).format(number), drawing.choice(VERDICTS)) for number in range(count)]


class Joining(unittest.TestCase):
    def test_however_runs_are_cut_into_parts_they_make_what_one_call_writes(self):
        for seed in range(3):
            runs, drawing = drawn(20, seed), random.Random(seed)
            ends = [0, *sorted(drawing.randrange(21) for _ in range(4)), 20]
            parts = [tested(runs[begin:end]) for begin, end in itertools.pairwise(ends)]
            self.assertEqual(joined(*parts), tested(runs))

    def test_parts_are_joined_in_any_grouping(self):
        for seed in range(2):
            one, two, three = (tested(drawn(count, seed + count)) for count in (3, 8, 5))
            self.assertEqual(joined(joined(one, two), three), joined(one, joined(two, three)))

    def test_numbers_and_status_are_those_of_any_order(self):
        parts = [tested([("a", "pass")]), tested([("b", "fail: both possibly yes")]), tested([("c", "unnamed x")])]
        found = [numbers(joined(*order)) for order in itertools.permutations(parts)]
        self.assertEqual(found, [([b"runs: 3, pass: 1, fail: 1, not judged: 1"], 5)] * 6)

    def test_an_empty_part_changes_nothing(self):
        self.assertEqual(joined(), EMPTY)
        for runs in ([], drawn(9, 1)):
            for order in ((EMPTY, tested(runs)), (tested(runs), EMPTY)):
                self.assertEqual(joined(*order), tested(runs))

    def test_each_status(self):
        for texts, status in ((["pass"], 0), (["pass", "unnamed x"], 1), (["unnamed x", "fail: x possibly no"], 5)):
            self.assertEqual(joined(*(tested([("run", text)]) for text in texts))[1], status)

    def test_how_many_orders_a_part_has_is_left_out(self):
        runs = drawn(12, 4)
        (one, _), (two, _) = tested(runs[:7]), tested(runs[7:])
        for parts in ([one + ORDERS, two + ORDERS], [one, two + ORDERS], [one + ORDERS, two]):
            self.assertEqual(joined(*((part, 0) for part in parts)), tested(runs))
        for wrong in (ORDERS + one, one + ORDERS + ORDERS, one[:one.index(b"\n") + 1] + ORDERS):
            self.assertEqual(joined((wrong, 0)), (b"", 2))

    def test_a_part_that_is_cut_short_is_refused(self):
        whole, lines = tested(drawn(9, 3))[0], tested(drawn(9, 3))[0].splitlines(keepends=True)
        for count in range(1, len(lines)):
            for after in ([], lines):
                with self.assertRaises(ValueError):
                    summary.joined([*lines[:count], *after])
        with self.assertRaises(ValueError):
            summary.joined([b"a run that passes: pass\n", *lines])
        self.assertEqual(joined((whole[:-1], 0)), (b"", 2))

    def test_files_are_read_in_their_order(self):
        with tempfile.TemporaryDirectory() as folder:
            runs, paths = drawn(6, 2), [os.path.join(folder, name) for name in "ab"]
            for path, part in zip(paths, (runs[:2], runs[2:])):
                with open(path, "wb") as file:
                    file.write(tested(part)[0])
            done = subprocess.run([sys.executable, SCRIPT, *paths], capture_output=True, timeout=60, check=False)
            self.assertEqual((done.stdout, done.returncode), tested(runs))
            done = subprocess.run([sys.executable, SCRIPT, *paths, os.path.join(folder, "none")], capture_output=True,
                                  timeout=60, check=False)
            self.assertEqual((done.stdout, done.returncode), (b"", 2))


if __name__ == "__main__":
    unittest.main()
