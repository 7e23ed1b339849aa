"""Tests of monitor_orders: python3 -m unittest discover -s recorders/python"""
import json
import os
import subprocess
import sys
import tempfile
import unittest

from judging import FOLDER

SCRIPT = os.path.join(FOLDER, "monitor_orders.py")
DOCUMENT = {"processes": [{"name": "a", "vars": {"x": 0, "z": 0}}, {"name": "b", "vars": {"y": 0}},
                          {"name": "c", "vars": {}}],
            "predicates": [{"name": "both", "text": "a.x == 1 and b.y == 1"}]}
SET_X, SET_Y = {"set": {"x": 1}}, {"set": {"y": 1}}
# The two set their variables at once; b sets it after a has.
AT_ONCE = {"a": [SET_X], "b": [SET_Y], "c": []}
ONE_AFTER = {"a": [SET_X, {"send": "m"}], "b": [{"recv": "m"}, SET_Y], "c": []}


class Orders(unittest.TestCase):
    def setUp(self):
        self.folder = tempfile.TemporaryDirectory()
        self.addCleanup(self.folder.cleanup)

    def put(self, name, events, document=None, end=True):
        """Writes a run: of each process these events."""
        run = os.path.join(self.folder.name, name)
        os.mkdir(run)
        with open(os.path.join(run, "session.json"), "w", encoding="utf-8") as file:
            json.dump(document or DOCUMENT, file)
        for process, lines in events.items():
            with open(os.path.join(run, f"{process}.stream"), "w", encoding="utf-8") as file:
                for line in [{"process": process}, *lines, *[{"end": True}] * end]:
                    print(json.dumps(line), file=file)

    def said(self, *names):
        """What is written of these runs, and the status."""
        done = subprocess.run([sys.executable, SCRIPT, *names], cwd=self.folder.name, capture_output=True, text=True,
                              timeout=60, check=False)
        return done.stdout.splitlines(), done.returncode

    def test_runs_of_one_order_are_counted_together_the_most_frequent_first(self):
        for name, events in (("1", AT_ONCE), ("2", ONE_AFTER), ("3", ONE_AFTER)):
            self.put(name, events)
        self.assertEqual(self.said("1", "2", "3"), (["2 2", "1 1", "2 different orders in 3 runs"], 0))

    def test_ids_and_events_that_no_predicate_sees_dont_count(self):
        self.put("1", ONE_AFTER)
        self.put("2", {"a": [{}, {"set": {"z": 5}}, {**SET_X, "send": "n"}], "b": [{"recv": "n", **SET_Y}], "c": [{}]})
        self.assertEqual(self.said("1", "2"), (["2 1", "1 different order in 2 runs"], 0))

    def test_an_order_goes_through_processes_that_no_predicate_names(self):
        self.put("1", ONE_AFTER)
        self.put("2", {"a": [SET_X, {"send": "m"}], "b": [{"recv": "n"}, SET_Y], "c": [{"recv": "m"}, {"send": "n"}]})
        self.put("3", {"a": [SET_X, {"send": "m"}], "b": [{"recv": "n"}, SET_Y], "c": [{"send": "n"}, {"recv": "m"}]})
        self.assertEqual(self.said("1", "2", "3"), (["2 1", "1 3", "2 different orders in 3 runs"], 0))

    def test_values_and_documents_count(self):
        self.put("1", AT_ONCE)
        self.put("2", {**AT_ONCE, "a": [{"set": {"x": 2}}]})
        self.put("3", AT_ONCE, {**DOCUMENT, "width": 5})
        self.assertEqual(self.said("1", "2", "3")[0][-1], "3 different orders in 3 runs")

    def test_a_run_that_cannot_be_read_or_is_refused_is_named_and_stops_nothing(self):
        self.put("1", AT_ONCE)
        self.put("2", AT_ONCE, end=False)
        self.put("3", {**AT_ONCE, "a": [{"send": "i" * 65}]})
        self.put("4", {**AT_ONCE, "a": [{}] * 10_001})
        lines, status = self.said("none", "2", "1", "3", "4")
        self.assertEqual([line.split(":")[0] for line in lines],
                         ["1 1", "- none", "- 2", "- 3", "- 4", "1 different order in 1 run"])
        self.assertIn("over 10,000 events", lines[4])
        self.assertEqual(status, 1)

    def test_without_a_run_it_says_how_it_is_used(self):
        self.assertEqual(self.said(), ([], 2))
        self.assertEqual(self.said("--help")[1], 0)


if __name__ == "__main__":
    unittest.main()
