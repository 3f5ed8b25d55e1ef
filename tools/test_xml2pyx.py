#!/usr/bin/env python3
"""The tests of tools/xml2pyx: what it writes of some inputs, and which faults it names."""
import os
import pathlib
import subprocess
import sys
import tempfile
import unittest

TOOL = str(pathlib.Path(__file__).resolve().parent / "xml2pyx")
STREAM = b"""+/a
<a/>
<b x="1>2">t
</b>  <c/>
~2
<?xml version="1.0" encoding="ISO-8859-1"?>
<d>\xe9</d>
<!-- behind -->
<?xml version="1.0"?><e/>
^1 /b"""
LINES = ["+/a", "(a", ")a", "(b", "Ax 1>2", "-t\\n", ")b", "(c", ")c", "~2", "(d", "-\u00e9", ")d", "C behind ", "(e", ")e", "^1 /b"]


def run(text, *files):
    """What is written of an input, in lines, the status, and what is told of faults."""
    done = subprocess.run([TOOL, *files], input=text, capture_output=True, timeout=60)
    return done.stdout.decode().splitlines(), done.returncode, done.stderr.decode()


class Written(unittest.TestCase):
    def test_all_text_is_text(self):
        xml = b"""<!DOCTYPE a [<!ENTITY e "en<i/>t"><!ATTLIST a d CDATA "by default">]>
<a x="1&#9;2"><![CDATA[<x> &]]>&lt;\\\n&#13;&e;<?pi some data?>u<!-- c\n -->v</a>"""
        wanted = ["(a", "Ax 1\\t2", "Ad by default", "-<x> &<\\\\\\n\\ren", "(i", ")i", "-t", "?pi some data", "-u", "C c\\n ", "-v", ")a"]
        self.assertEqual(run(xml), (wanted, 0, ""))

    def test_names_and_namespaces_are_attributes_as_they_stand(self):
        self.assertEqual(run(b"<p:a xmlns:p='u' p:b=''/>")[0], ["(p:a", "Axmlns:p u", "Ap:b ", ")p:a"])

    def test_documents_one_after_another_among_changes(self):
        self.assertEqual(run(STREAM), (LINES, 0, ""))

    def test_pieces_may_end_anywhere(self):
        reader, writer = os.pipe()
        process = subprocess.Popen([TOOL], stdin=reader, stdout=subprocess.PIPE)
        os.close(reader)
        with os.fdopen(writer, "wb", buffering=0) as sink:
            for at in range(len(STREAM)):
                sink.write(STREAM[at : at + 1])
        self.assertEqual(process.communicate(timeout=60)[0].decode().splitlines(), LINES)

    def test_a_document_is_written_once_its_root_has_ended(self):
        with subprocess.Popen([TOOL], stdin=subprocess.PIPE, stdout=subprocess.PIPE) as process:
            for text in (b"<a b='>>>", b">'>", b"<c></c", b"></a>"):
                process.stdin.write(text)
                process.stdin.flush()
            self.assertEqual([process.stdout.readline() for _ in range(5)], [b"(a\n", b"Ab >>>>\n", b"(c\n", b")c\n", b")a\n"])
            process.stdin.close()

    def test_encodings(self):
        for name in ("utf-8", "utf-16", "iso-8859-5", "windows-1251", "koi8-r"):
            xml = "<?xml version='1.0' encoding='%s'?>\n<a>\u0436\n</a>" % name
            self.assertEqual(run(xml.encode(name)), (["(a", "-\u0436\\n", ")a"], 0, ""), name)
        for name in ("utf-16-le", "utf-16-be", "utf-8-sig"):
            self.assertEqual(run("<a>\u0436\U0001f600</a>\n<b/>\n".encode(name)), (["(a", "-\u0436\U0001f600", ")a", "(b", ")b"], 0, ""), name)

    def test_a_long_text_has_lines_that_xpush_takes(self):
        lines = run(b"<a>" + b"x\\" * 2_000_000 + b"</a>")[0]
        self.assertLess(max(map(len, lines)), 1_048_576)
        self.assertEqual("".join(line[1:] for line in lines[1:-1]), "x\\\\" * 2_000_000)

    def test_files_are_read_in_order(self):
        with tempfile.TemporaryDirectory() as folder:
            names = [os.path.join(folder, name) for name in ("one", "two")]
            for name, text in zip(names, ("<a/>", "+/b\n<b/>")):
                pathlib.Path(name).write_text(text)
            self.assertEqual(run(b"<c/>", *names, "-"), (["(a", ")a", "+/b", "(b", ")b", "(c", ")c"], 0, ""))


class Faults(unittest.TestCase):
    def refused(self, xml, place, why, lines=()):
        written, status, told = run(xml)
        self.assertEqual((written, status), (list(lines), 1), xml)
        self.assertTrue(told.startswith("xml2pyx: -:%s: " % place) and why in told, told)

    def test_a_faulty_document_is_not_written(self):
        self.refused(b"<a>\n <b></a>", "2:7", "mismatched tag")
        self.refused(b"<a>\n<b/>", "2:5", "no element found")
        self.refused(b"<a>\n", "2:1", "no element found")
        self.refused(b"<a b='1' b='2'/>", "1:10", "duplicate attribute")
        self.refused(b"hello", "1:1", "syntax error")

    def test_places_are_counted_through_the_stream(self):
        self.refused(b"+/a\n<a/>\n <b>\n<c></b>", "4:6", "mismatched tag", ["+/a", "(a", ")a"])
        self.refused(b"<a/> <b", "1:6", "unclosed token", ["(a", ")a"])
        self.refused(b"<a/>\n\n <a></b>", "3:7", "mismatched tag", ["(a", ")a"])

    def test_between_documents_only_changes_and_white_space(self):
        for text in (b"more", b"<!-- a -- b -->", b"&amp;", b"+/b", b"(a"):
            self.refused(b"<a/>" + text, "1:%d" % (14 if b"--" in text else 5), "", ["(a", ")a"])

    def test_what_stands_elsewhere_is_not_guessed(self):
        self.refused(b"<a>&b;</a>", "1:4", "undefined entity")
        for xml in (b"<!DOCTYPE a SYSTEM 'd'><a><c/>\n<b c='1&x;'/></a>", b"<!DOCTYPE a SYSTEM 'd'><a>\n&x;</a>"):
            self.refused(xml, "2:1", "'x' is not declared in this file")
        self.refused(b"<!DOCTYPE a SYSTEM 'd' [<!ENTITY y '&x;'>]><a>\n<b c='&y;'/></a>", "2:1", "'x' is not declared in this file")
        self.refused(b"<!DOCTYPE a [<!ENTITY x SYSTEM 'f'>]>\n<a>&x;</a>", "2:4", "'x' stands outside this file")

    def test_entities_that_grow_without_end(self):
        grown = "".join("<!ENTITY e%d '%s'>" % (n + 1, "&e%d;" % n * 10) for n in range(9))
        written, status, _ = run(("<!DOCTYPE a [<!ENTITY e0 'ha'>%s]><a>&e9;</a>" % grown).encode())
        self.assertEqual((written, status), ([], 1))

    def test_encodings_that_expat_does_not_read(self):
        for name in ("shift_jis", "nothing"):
            self.refused(b"<?xml version='1.0' encoding='%s'?><a/>" % name.encode(), "1:31", "encoding")
        self.refused(b"<a>\xff</a>", "1:4", "not well-formed")
        self.refused("<a>".encode("utf-16") + b"\x00\xd8", "1:4", "not well-formed")

    def test_a_file_that_cannot_be_read(self):
        written, status, told = run(b"", "no-such-file")
        self.assertEqual((written, status, told), ([], 2, "xml2pyx: no-such-file: No such file or directory\n"))


if __name__ == "__main__":
    unittest.main()
