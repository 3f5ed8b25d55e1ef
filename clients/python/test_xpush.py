#!/usr/bin/env python3
"""The client's tests: XPUSH names the program, else it is the launcher at the top of the repository."""
import doctest
import os
import pathlib
import signal
import sys
import tempfile
import unittest
from xml.etree import ElementTree

import xpush
from xpush import ChangeError, DocumentError, EngineError, FilterError, Reply, Xpush

ORDER = b"(order\nAid 17\nAtotal 1250.00\n(item\nAsku A-1\n-Pen\n)item\n)order\n"
EMPTY = b"(order\nAid 18\nAtotal 12\n)order\n"
# gathers documents and answers them at the next change, as a program does that hands them to threads
GATHERING = """#!%s
import sys
kept = []
for line in sys.stdin:
    if line.startswith(")"):
        kept.append("0: %%d" %% len(sys.argv))
    elif line == "~\\n":
        print("\\n".join(kept + ["! drop unknown"]), flush=True)
        kept = []
"""


class Changes(unittest.TestCase):
    def test_subscriptions_come_change_and_go(self):
        with Xpush() as engine:
            self.assertEqual([engine.add(text) for text in ("/order[@total>1000]", "//item[@sku='A-1']", "/order[not(item)]")], [1, 2, 3])
            self.assertEqual(engine.match(ORDER), Reply(3, (1, 2)))
            self.assertEqual(engine.drop(2), 4)
            self.assertEqual(engine.match(EMPTY), Reply(4, (3,)))
            self.assertEqual(engine.replace(1, "/order[@total>=20]"), 5)
            self.assertEqual(engine.match(ORDER), Reply(5, (1,)))

    def test_a_text_that_is_no_filter_names_its_byte(self):
        with Xpush() as engine:
            for text, kind, byte in (("/order[", "not-a-filter", 7), ("/" * 5000, "too-long", None), ("/a[b>1234567890123456789]", "number-long", 5)):
                with self.assertRaises(FilterError) as caught:
                    engine.add(text)
                self.assertEqual((caught.exception.kind, caught.exception.byte), (kind, byte))
            self.assertEqual(engine.add("/a"), 1)

    def test_an_unknown_id_is_refused(self):
        with Xpush() as engine:
            for change, call in (("drop", lambda: engine.drop(7)), ("replace", lambda: engine.replace(7, "/a"))):
                with self.assertRaises(ChangeError) as caught:
                    call()
                self.assertEqual((caught.exception.change, caught.exception.kind), (change, "unknown"))

    def test_a_filter_without_room_tells_how_much_is_taken(self):
        with Xpush() as engine:
            for _ in range(244):
                engine.add("/a" * 2048)
            with self.assertRaises(ChangeError) as caught:
                engine.add("/a" * 2048)
            self.assertEqual((caught.exception.kind, caught.exception.size), ("too-large", 244 * 2048))

    def test_a_line_of_a_feed_is_a_change(self):
        with Xpush() as engine:
            self.assertEqual([engine.change(line) for line in (b"+/a", b"^1 /b", b"~1")], [1, 2, 3])
            for line in (b"(a", b"+/a\n+/b", b""):
                with self.assertRaises(ValueError):
                    engine.change(line)
            with self.assertRaises(ValueError):
                engine.add("/a\n+/b")


class Documents(unittest.TestCase):
    def test_a_faulty_document_leaves_ids_and_versions(self):
        with Xpush() as engine:
            engine.add("/order")
            engine.add("//item")
            engine.drop(1)
            for _ in range(2):
                with self.assertRaises(DocumentError) as caught:
                    engine.match(b"(order\nAid 1\nAid 2\n)order\n")
                self.assertEqual((caught.exception.kind, caught.exception.line), ("not-here", 3))
                self.assertEqual(engine.match(ORDER), Reply(3, (2,)))
            self.assertEqual(engine.add("/order"), 4)

    def test_what_is_not_one_document_changes_nothing(self):
        faults = {
            b"": ("truncated", 0), b"(a\n": ("truncated", 1), b"(a\n)a\n(b\n)b\n": ("not-here", 3), b"+//a\n(a\n)a\n": ("not-here", 1),
            b"(a\n)a\n~1\n": ("not-here", 3), b"(a\n\xff\n)a\n)a\n": ("not-utf8", 2), b"(a\n~1\n)a\n": ("not-here", 2),
        }
        with Xpush() as engine:
            engine.add("/*")
            for text, fault in faults.items():
                with self.assertRaises(DocumentError) as caught:
                    engine.match(text)
                self.assertEqual((caught.exception.kind, caught.exception.line), fault, text)
                self.assertEqual(engine.match(b"?x\n- \\n\n(a\n)a\nC\n\n"), Reply(1, (1,)))

    def test_many_are_in_flight_and_their_replies_in_order(self):
        with Xpush() as engine:
            for number in range(2000):
                engine.add("//a" if number % 2 else "//b")
            documents = [b"(a\n)a\n" if number % 3 else b"(b\n)b" for number in range(300)]
            replies = list(engine.matches(iter(documents)))
            odd, even = tuple(range(1, 2001, 2)), tuple(range(2, 2001, 2))
            self.assertEqual(replies, [Reply(2000, even if number % 3 else odd) for number in range(300)])

    def test_a_change_between_documents_in_flight(self):
        with Xpush() as engine:
            engine.add("/order")
            replies = engine.matches([ORDER, ORDER, EMPTY, ORDER], in_flight=2)
            self.assertEqual(next(replies), Reply(1, (1,)))
            self.assertEqual(engine.add("//item"), 2)
            self.assertEqual(list(replies), [Reply(1, (1,)), Reply(2, (1,)), Reply(2, (1, 2))])

    def test_faults_stand_in_their_places(self):
        documents = [ORDER, b"(a\n)b\n", EMPTY, b"(a\n", b"(a\nB\n-x\n*\n)a\n", ORDER]
        with Xpush() as engine:
            engine.add("/order")
            got = list(engine.matches(documents, faults="give"))
            told = [(one.kind, one.line) if isinstance(one, DocumentError) else one for one in got]
            fine = Reply(1, (1,))
            self.assertEqual(told, [fine, ("not-here", 2), fine, ("truncated", 1), ("not-here", 4), fine])
            replies = engine.matches(documents)
            self.assertEqual(next(replies), fine)
            self.assertRaises(DocumentError, next, replies)
            self.assertEqual(engine.match(EMPTY), fine)

    def test_a_program_that_ends_is_an_error_for_all_that_waits(self):
        with Xpush() as engine:
            engine.add("/order")
            os.kill(engine._process.pid, signal.SIGKILL)
            for _ in range(2):
                with self.assertRaises(EngineError) as caught:
                    engine.match(ORDER)
                self.assertEqual(caught.exception.status, -signal.SIGKILL)
        with self.assertRaises(EngineError) as caught:
            with Xpush(words=("serial", "more")) as engine:
                engine.add("/a")
        self.assertEqual((caught.exception.status, caught.exception.kind), (2, "usage"))

    def test_a_program_that_gathers_is_asked_for_its_answers(self):
        with tempfile.TemporaryDirectory() as folder:
            program = pathlib.Path(folder) / "gathering"
            program.write_text(GATHERING % sys.executable)
            program.chmod(0o755)
            with Xpush(program, words=("feed", "--workers", "2")) as engine:
                self.assertEqual(engine.match(EMPTY), Reply(0, (4,)))
                self.assertEqual(list(engine.matches([EMPTY] * 50, in_flight=8)), [Reply(0, (4,))] * 50)


class Trees(unittest.TestCase):
    def test_a_tree_is_written_as_pyx(self):
        parser = ElementTree.XMLParser(target=ElementTree.TreeBuilder(insert_comments=True, insert_pis=True))
        tree = ElementTree.fromstring('<a x="1&#9;2&#13;">\\ &amp;\n<b/>t<!-- c -->u<?p q?><c>v</c>w</a>', parser)
        wanted = "(a\nAx 1\\t2\\r\n-\\\\ &\\n\n(b\n)b\n-t\n?\n-u\n?\n(c\n-v\n)c\n-w\n)a\n"
        self.assertEqual(xpush.pyx_of(ElementTree.ElementTree(tree)).decode(), wanted)

    def test_names_are_written_with_the_prefixes_that_are_given(self):
        tree = ElementTree.fromstring('<a xmlns="urn:a" xmlns:b="urn:b" b:c="1"/>')
        with Xpush(prefixes={"urn:a": "", "urn:b": "q"}) as engine:
            engine.add("/a[@q:c=1]")
            self.assertEqual(engine.match(tree), Reply(1, (1,)))
        with self.assertRaises(ValueError):
            xpush.pyx_of(tree, {"urn:a": ""})

    def test_a_deep_tree_is_refused_by_the_program(self):
        root = inner = ElementTree.Element("a")
        for _ in range(3000):
            inner = ElementTree.SubElement(inner, "a")
        with Xpush() as engine, self.assertRaises(DocumentError) as caught:
            engine.match(root)
        self.assertEqual((caught.exception.kind, caught.exception.line), ("too-deep", 513))

    def test_a_stream_is_cut_into_documents(self):
        lines = b"+/a\n\n(a\n(b\n)b\n)a\n?x\n(c\n)c\n(d\n".splitlines(keepends=True)
        self.assertEqual(list(xpush.documents_of(lines)), [b"(a\n(b\n)b\n)a\n", b"(c\n)c\n", b"(d\n"])


def load_tests(_loader, tests, _pattern):
    tests.addTests(doctest.DocTestSuite(xpush))
    return tests


if __name__ == "__main__":
    unittest.main()
