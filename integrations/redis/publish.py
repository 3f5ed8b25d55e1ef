#!/usr/bin/env python3
"""Sends documents to the workers, and prints the entry of each.

    integrations/redis/publish.py [--url URL] [--name NAME] [--wait SECONDS] [FILE ..]

Each FILE, or standard input, has documents as PYX lines, as tools/xml2pyx writes them; what stands
between them is left out. With --wait the replies are waited for, and each line is an entry and what
xpush writes of that document: 'ENTRY VERSION: ID ID ..'. Status 1: some were not answered in time.
"""
import sys
import time

from streams import Streams, redis, text_of, words
from xpush import documents_of


def send(streams, files):
    """The entries of the documents, which are sent one after the other."""
    for name in files:
        with open(0 if name == "-" else name, "rb", closefd=name != "-") as source:
            for document in documents_of(source):
                yield streams.server.xadd(streams.documents, {"document": document}).decode()


def replies_to(streams, entries, behind, seconds):
    """What was answered of these entries behind a reply, in so many seconds."""
    wanted, found, end = set(entries), {}, time.monotonic() + seconds
    while len(found) < len(wanted) and time.monotonic() < end:
        for behind, fields in streams.replies_behind(behind, 100):
            entry = fields[b"document"].decode()
            if entry in wanted:
                found.setdefault(entry, text_of(fields))
    return found


def main():
    parser = words(__doc__)
    parser.add_argument("--wait", type=float, metavar="SECONDS")
    parser.add_argument("files", nargs="*", default=["-"], metavar="FILE")
    options = parser.parse_args()
    streams = Streams(options.url, options.name)
    try:
        if options.wait is None:
            for entry in send(streams, options.files):
                print(entry, flush=True)
            return 0
        behind = streams.last_of(streams.replies)
        entries = list(send(streams, options.files))
        found = replies_to(streams, entries, behind, options.wait)
    except (redis.exceptions.RedisError, OSError) as error:
        print("publish: %s" % error, file=sys.stderr)
        return 2
    print("".join(found.get(entry, entry + " not answered") + "\n" for entry in entries), end="")
    return 0 if len(found) == len(entries) else 1


if __name__ == "__main__":
    sys.exit(main())
