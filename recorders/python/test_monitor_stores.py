"""Tests of monitor_stores: python3 -m unittest discover -s recorders/python"""
import os
import tempfile
import unittest

from judging import needs_program, report_of
from monitor_recorder import IdTwice, NotRecorded, Recorder
from monitor_stores import Change, StoreClient, learned_by, message_of, record_store

DOCUMENT = {"version": 2, "processes": [{"name": "a", "vars": {"sees": 0}}, {"name": "b", "vars": {"sees": 0}},
                                        {"name": "store", "vars": {"value": 0}}],
            "predicates": [{"name": "stale", "text": "a.sees == 1 and store.value == 2"},
                           {"name": "early", "text": "b.sees == 2 and store.value < 2"}]}


class Case(unittest.TestCase):
    def setUp(self):
        folder = tempfile.TemporaryDirectory()
        self.addCleanup(folder.cleanup)
        self.folder = folder.name

    def recorder(self, name):
        recorder = Recorder.to_file(name, os.path.join(self.folder, name + ".stream"))
        self.addCleanup(recorder.abandon)
        return recorder

    def text(self, name):
        with open(os.path.join(self.folder, name + ".stream"), encoding="utf-8") as file:
            return file.read()


class Clients(Case):
    def test_a_new_revision_is_a_receipt_and_an_old_one_none(self):
        with self.recorder("a") as recorder:
            client = StoreClient(recorder, "store", since=3)
            client.learned(2)
            client.learned(3, x=1)
            client.learned(5, x=2)
            client.learned(5)
            client.learned(4, x=3)
            self.assertEqual(client.write(y=1), "a-1")
        self.assertEqual(self.text("a"), '{"process":"a"}\n{"set":{"x":1}}\n{"recv":"store@5","set":{"x":2}}\n'
                                         '{"set":{"x":3}}\n{"send":"a-1","set":{"y":1}}\n{"end":true}\n')

    def test_a_refused_call_leaves_the_revision(self):
        with self.recorder("a") as recorder:
            client = StoreClient(recorder, "store")
            with self.assertRaises(NotRecorded):
                client.learned(1, x="1")
            client.learned(1, x=1)
            recorder.receive("store@2")
            with self.assertRaises(IdTwice):
                client.learned(2)


class Stores(Case):
    def test_a_change_receives_its_mark_and_sends_its_message(self):
        with self.recorder("store") as recorder:
            record_store(recorder, "store", [Change(4, "a-1", {"value": 1}), Change(7), Change(8, None, {"value": 2})])
        self.assertEqual(self.text("store"), '{"process":"store"}\n{"recv":"a-1"}\n'
                                             '{"send":"store@4","set":{"value":1}}\n{"send":"store@7"}\n'
                                             '{"send":"store@8","set":{"value":2}}\n{"end":true}\n')

    def test_changes_out_of_order(self):
        recorder = self.recorder("store")
        with self.assertRaisesRegex(NotRecorded, "revision 3 of store comes after revision 3"):
            record_store(recorder, "store", [Change(3), Change(3)])

    def test_what_is_told_between_changes_is_an_event_of_its_own(self):
        with self.recorder("store") as recorder:
            record_store(recorder, "store", [Change(4, "a-1", {"value": 1}), Change(9)], {3, 4, 11, 6})
        self.assertEqual(self.text("store"), '{"process":"store"}\n{"send":"store@3"}\n{"recv":"a-1"}\n'
                                             '{"send":"store@4","set":{"value":1}}\n{"send":"store@6"}\n'
                                             '{"send":"store@9"}\n{"send":"store@11"}\n{"end":true}\n')

    def test_what_clients_have_learned(self):
        for name, revisions in ("a", [2, 5]), ("b", [5, 7]):
            with self.recorder(name) as recorder:
                client = StoreClient(recorder, "store")
                for revision in revisions:
                    client.learned(revision)
                client.write()
                recorder.receive("stores@9")
        paths = [os.path.join(self.folder, name + ".stream") for name in "ab"]
        self.assertEqual(learned_by("store", paths), {2, 5, 7})
        self.assertEqual(learned_by("other", paths), set())

    @needs_program
    def test_who_is_told_of_a_place_after_a_change_comes_after_it(self):
        with self.recorder("a") as a, self.recorder("b") as b, self.recorder("store") as store:
            mark = StoreClient(b, "store").write()
            StoreClient(a, "store").learned(5, sees=1)
            StoreClient(b, "store").learned(4, sees=2)
            record_store(store, "store", [Change(4, mark, {"value": 2})], {4, 5})
        document = {**DOCUMENT, "predicates": [{"name": "early", "text": "a.sees == 1 and store.value < 2"},
                                               {"name": "before", "text": "a.sees == 1 and b.sees == 0"}]}
        report = report_of(document, [self.text(name) for name in ("a", "b", "store")])
        self.assertIn("early possibly no\n", report, "it comes after the change")
        self.assertIn("before possibly yes 1,1,3\n", report, "and needn't come after who has written it")

    @needs_program
    def test_reads_order_what_comes_after_them_alone(self):
        with self.recorder("a") as a, self.recorder("b") as b, self.recorder("store") as store:
            clients = StoreClient(a, "store"), StoreClient(b, "store")
            marks = [clients[1].write(), clients[1].write()]
            clients[0].learned(1, sees=1)
            clients[1].learned(2, sees=2)
            record_store(store, "store", [Change(1, marks[0], {"value": 1}), Change(2, marks[1], {"value": 2})])
        report = report_of(DOCUMENT, [self.text(name) for name in ("a", "b", "store")])
        self.assertIn("stale possibly yes 1,2,4\n", report, "who has read may see an old value")
        self.assertIn("early possibly no\n", report, "who has learned of a change comes after it")

    def test_the_id_of_a_message(self):
        self.assertEqual(message_of("etcd", 12), "etcd@12")


if __name__ == "__main__":
    unittest.main()
