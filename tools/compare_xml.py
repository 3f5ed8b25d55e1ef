#!/usr/bin/env python3
"""Compares xml2pyx and xpush with libxml2's XPath on real XML files.

    tools/compare_xml.py [--files N] [--filters N] [--seed N] [--binary FILE]

The files are drawn from those that the installed Debian packages brought, and some documents that
stand here have what is rare there: CDATA, entities, default attributes, encodings. Each is written
as PYX by tools/xml2pyx, and random filters of its own names and texts are asked of it: what 'xpush
match' answers has to be libxml2's 'boolean(FILTER)' (python3-lxml) of the same file. All of them in
one stream, with changes between them, have to give the lines that each gave alone. A file that
libxml2 refuses has to be refused by xml2pyx too, with nothing written; one in an encoding that expat
does not read is left out, and counted.

Names are compared as they stand, so libxml2 is asked for name(), and where a file declares
namespaces '@*' is left out. Where a text reads as a number by libxml2 alone, as '1e5', or has more
digits than a double, nothing of that file is compared with a number.

The last line is 'N passed, M failed'.
"""
import argparse
import math
import os
import pathlib
import random
import re
import subprocess
import sys

from compare_xpath import DEBIAN_PYTHON, Words, random_path, xpush_says

try:
    from lxml import etree
except ImportError:
    # Debian's package serves Debian's own Python
    if os.path.exists(DEBIAN_PYTHON) and not os.path.samefile(sys.executable, DEBIAN_PYTHON):
        os.execv(DEBIAN_PYTHON, [DEBIAN_PYTHON] + sys.argv)
    sys.exit("compare_xml: python3-lxml is not installed")

TOP = pathlib.Path(__file__).resolve().parent.parent
LISTS = pathlib.Path("/var/lib/dpkg/info")
PLACES = ("/usr/share/", "/usr/lib/python3/")
SUFFIXES = (".xml", ".svg", ".xsl", ".xslt", ".rng", ".rdf", ".xhtml", ".docbook", ".page", ".conf")
FEWEST, LONGEST, SHORT = 20, 200_000, 40
NUMBER = re.compile(r"[ \t\r\n]*-?(\d+(\.\d*)?|\.\d+)[ \t\r\n]*")
DIGITS = 15
NAME = re.compile("\x01(.*?)\x01")

DTD = """<!DOCTYPE shop [
  <!ENTITY pen "Pen &amp; ink">
  <!ENTITY two "<item sku='B-2'>two</item>">
  <!ATTLIST item unit CDATA "piece" tax NMTOKEN " low ">
]>
"""
SHOP = """<shop><item sku="A-1">&pen;</item>&two;<item unit="box"><![CDATA[a < b]]> &#65;<![CDATA[]]></item>
<?sort by="sku"?><note>one<!-- and -->two<?x?></note><item>caf\u00e9 \u00fc</item><p:q xmlns:p="urn:p" p:r="1"> 12 </p:q></shop>
"""
PLAIN = "<shop><item sku='\u0436'>caf\u0435 7</item>\n<item a='x&#9;y&#10;z'>\\n \\ &lt;&gt;</item><empty/></shop>"
CRAFTED = {
    "a document with entities and defaults": (DTD + SHOP).encode(),
    "the same in Latin-1": ('<?xml version="1.0" encoding="ISO-8859-1"?>\n' + DTD + SHOP).encode("latin-1"),
    "the same in UTF-16": ('<?xml version="1.0" encoding="UTF-16"?>\n' + DTD + SHOP).encode("utf-16"),
    "the same with a mark": b"\xef\xbb\xbf" + (DTD + SHOP).encode(),
    "Cyrillic": PLAIN.encode(),
    "Cyrillic in KOI8-R": ('<?xml version="1.0" encoding="KOI8-R"?>\n' + PLAIN).encode("koi8-r"),
    "Cyrillic in windows-1251": ('<?xml version="1.0" encoding="windows-1251"?>\n' + PLAIN).encode("cp1251"),
    "lines that end in CR and LF": (DTD + SHOP).replace("\n", "\r\n").encode(),
    "an unknown entity": b"<a>&b;</a>",
    "an unknown entity beside a DTD elsewhere": b"<!DOCTYPE a SYSTEM 'a.dtd'><a><b c='1&d;2'/></a>",
    "an end tag too few": b"<a><b/>",
    "an end tag of another name": b"<a><b></a></b>",
}


def files_of_packages(rng, most):
    """Paths of XML files that packages brought."""
    paths = set()
    for listed in LISTS.glob("*.list"):
        paths.update(line for line in listed.read_text().splitlines() if line.startswith(PLACES) and line.endswith(SUFFIXES))
    paths = sorted(paths)
    rng.shuffle(paths)
    return [path for path in paths if is_xml(path)][:most]


def is_xml(path):
    try:
        if not 0 < os.path.getsize(path) <= LONGEST:
            return False
        with open(path, "rb") as source:
            return source.read(100).lstrip(b"\xef\xbb\xbf \t\r\n").startswith((b"<?xml", b"<!DOCTYPE", b"<"))
    except OSError:
        return False


def reads_alike(text):
    """Whether libxml2 takes the text for a number where xpush does, for the same one."""
    if NUMBER.fullmatch(text):
        return sum(letter.isdigit() for letter in text) <= DIGITS
    return text.strip()[:1] not in tuple("-.0123456789") or math.isnan(etree.XPath("number($text)")(ANY, text=text))


ANY = etree.fromstring("<a/>")


def words_of(pyx, tree):
    """The names, texts and numbers of a document, for filters. A name is marked, to be spelt in two ways."""
    names, attributes, texts = {"*"}, set(), {""}
    for line in pyx.decode().splitlines():
        text = line[1:]
        if line.startswith("("):
            names.add("\x01%s\x01" % text)
        elif line.startswith("A"):
            name, _, text = text.partition(" ")
            attributes.add(name)
        if line.startswith(("A", "-")) and len(text) <= SHORT and "\\" not in text and not ('"' in text and "'" in text):
            texts.add(text)
    declares = any(name.startswith("xmlns") for name in attributes)
    marked = ["\x01%s\x01" % name for name in sorted(attributes) if not name.startswith("xmlns")]
    strings = [str(text) for text in tree.xpath("//@* | //text()")] + ["".join(node.itertext(etree.Element)) for node in tree.iter(etree.Element)]
    alike = all(reads_alike(text) for text in strings)
    numbers = sorted({text for text in texts if NUMBER.fullmatch(text)} | {"0", "1", "2.5"}) if alike else []
    return Words(sorted(names), marked + ([] if declares else ["*"]) or ["\x01none\x01"], sorted(texts), numbers)


def for_xpush(marked):
    return NAME.sub(r"\1", marked)


def for_libxml2(marked):
    return re.sub("(@?)" + NAME.pattern, r"\1*[name()='\2']", marked)


class Nothing(etree.Resolver):
    """What stands outside a file is empty, as it is not read by xml2pyx."""

    def resolve(self, _url, _public, context):
        return self.resolve_string("", context)


def parsed(text):
    """The tree by libxml2, with the default attributes that the file declares itself."""
    parser = etree.XMLParser(attribute_defaults=True, no_network=True)
    parser.resolvers.add(Nothing())
    return etree.fromstring(text, parser).getroottree()


class Counts:
    def __init__(self):
        self.documents = []  # XML and its PYX lines, of what was not refused
        self.passed = self.failed = self.said_yes = self.refused = self.left_out = 0

    def count(self, is_right, told):
        self.passed, self.failed = self.passed + is_right, self.failed + (not is_right)
        if not is_right:
            print(told)


def pyx_of(text):
    return subprocess.run([str(TOP / "tools" / "xml2pyx")], input=text, capture_output=True, timeout=60)


def compare_stream(counts):
    """All documents one after another, with changes between them, give the lines that each gave alone."""
    done = pyx_of(b"".join(b"+/a[b]\n" + text + b"\n" for text, _ in counts.documents))
    wanted = b"".join(b"+/a[b]\n" + pyx for _, pyx in counts.documents)
    counts.count(done.stdout == wanted, "the stream of all documents gives other lines: %s" % done.stderr.decode())


def compare(counts, options, rng, name, text, filters):
    """Asks some filters of one file, or sees that both refuse it."""
    done = pyx_of(text)
    try:
        tree = parsed(text)
    except etree.XMLSyntaxError as error:
        counts.refused += 1
        counts.count(done.returncode == 1 and not done.stdout, "%s: libxml2 says %s, xml2pyx ends with %d" % (name, error, done.returncode))
        return
    if done.returncode != 0:
        is_left_out = b"encoding" in done.stderr
        counts.left_out += is_left_out
        counts.count(is_left_out, "%s: %s" % (name, done.stderr.decode()))
        return
    if not text.startswith((b"\xff\xfe", b"\xfe\xff")):  # UTF-16 is not for streams of other encodings
        counts.documents.append((text, done.stdout))
    words = words_of(done.stdout, tree)
    for _ in range(filters):
        marked = random_path(rng, 2, rng.choice(["/", "//", "//", "//", "//"]), words)
        wanted = bool(tree.xpath("boolean(%s)" % for_libxml2(marked)))
        found = xpush_says(options.binary, for_xpush(marked), done.stdout)
        counts.said_yes += wanted
        counts.count(found is wanted, "%s: libxml2 says %s, xpush says %s: %s" % (name, wanted, found, for_xpush(marked)))


def main():
    parser = argparse.ArgumentParser(description=__doc__, formatter_class=argparse.RawDescriptionHelpFormatter)
    parser.add_argument("--files", type=int, default=80)
    parser.add_argument("--filters", type=int, default=6, help="filters asked of each file")
    parser.add_argument("--seed", type=int, default=20030609)
    parser.add_argument("--binary", default=str(TOP / "crates" / "xpush" / "out" / "xpush"))
    options = parser.parse_args()
    rng, counts = random.Random(options.seed), Counts()
    for name, text in CRAFTED.items():
        compare(counts, options, rng, name, text, 6 * options.filters)
    paths = files_of_packages(rng, options.files)
    counts.count(len(paths) >= FEWEST, "only %d XML files of packages are there" % len(paths))
    for path in paths:
        compare(counts, options, rng, path, pathlib.Path(path).read_bytes(), options.filters)
    compare_stream(counts)
    print("compare_xml: %d files of packages; %d refused by both, %d in encodings that expat does not read; %d filters matched"
          % (len(paths), counts.refused, counts.left_out, counts.said_yes))
    print("%d passed, %d failed" % (counts.passed, counts.failed))
    return 1 if counts.failed or not counts.said_yes else 0


if __name__ == "__main__":
    sys.exit(main())
