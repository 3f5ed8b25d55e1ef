"""What the tools in this folder share: the names of the streams, and the words of their commands."""
import argparse
import os
import pathlib
import sys

DEBIAN_PYTHON = "/usr/bin/python3"
sys.path.insert(0, str(pathlib.Path(__file__).resolve().parent.parent.parent / "clients" / "python"))

try:
    import redis
except ImportError:
    # Debian's package serves Debian's own Python
    if os.path.exists(DEBIAN_PYTHON) and not os.path.samefile(sys.executable, DEBIAN_PYTHON):
        os.execv(DEBIAN_PYTHON, [DEBIAN_PYTHON] + sys.argv)
    sys.exit("this needs the package python3-redis")

GROUP = "workers"


class Streams:
    """The streams of one workload, and the connection to the server that holds them.

    changes    entries with a field 'line': '+FILTER', '~ID' or '^ID FILTER', as in a feed
    documents  entries with a field 'document': PYX lines
    replies    entries with 'document' (its entry), 'worker', and either 'version' and 'ids', or 'fault' and 'line'
    answers    a hash: for each entry of changes the line that xpush answers it by
    """

    def __init__(self, url, name):
        self.server = redis.Redis.from_url(url)
        # the brackets keep the streams of one workload together where a cluster holds them
        self.changes, self.documents, self.replies, self.answers = (
            "{%s}:%s" % (name, part) for part in ("changes", "documents", "replies", "answers"))

    def create_group(self):
        """The workers' group reads the documents from the first on."""
        try:
            self.server.xgroup_create(self.documents, GROUP, id="0", mkstream=True)
        except redis.exceptions.ResponseError as error:
            if "BUSYGROUP" not in str(error):
                raise

    def last_of(self, stream):
        """The newest entry of a stream; before all where there is none."""
        newest = self.server.xrevrange(stream, count=1)
        return newest[0][0].decode() if newest else "0-0"

    def replies_behind(self, entry, milliseconds):
        """The replies behind one of them, as they are there; waits for the first so long at most."""
        read = self.server.xread({self.replies: entry}, count=1000, block=milliseconds)
        return [(one.decode(), fields) for _, entries in read for one, fields in entries]


def text_of(fields):
    """A reply as a line: the document, and what xpush writes of it."""
    field = {name.decode(): value.decode() for name, value in fields.items()}
    if "fault" in field:
        return "%s ! line %s %s" % (field["document"], field["line"], field["fault"])
    return "%s %s:%s" % (field["document"], field["version"], field["ids"] and " " + field["ids"])


def words(doc):
    parser = argparse.ArgumentParser(description=doc, formatter_class=argparse.RawDescriptionHelpFormatter)
    parser.add_argument("--url", default="redis://127.0.0.1:6379", help="the server: redis://HOST:PORT or unix://PATH")
    parser.add_argument("--name", default="xpush", help="the workload: the first part of the streams' names")
    return parser
