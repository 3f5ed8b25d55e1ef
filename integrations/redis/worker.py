#!/usr/bin/env python3
"""Answers documents of a Redis stream by one xpush.

    integrations/redis/worker.py [--url URL] [--name NAME] [--program FILE] [--words WORD ..]
                                 [--batch N] [--claim-after SECONDS] [--delete]

Start as many as there are processors, on any machines. Each reads all changes in their order, and
takes documents from the group. Before it matches documents, it makes every change that stands in
the stream. A reply and the mark that its document is done are written together. Documents that
another worker took and did not answer for so long are claimed. SIGTERM ends a worker behind its
batch.
"""
import os
import signal
import socket
import sys
import time

from streams import GROUP, Streams, redis, words
from xpush import ChangeError, DocumentError, EngineError, FilterError, Xpush

CHANGES_AT_ONCE = 1000
WAIT = 100  # milliseconds for documents, before changes are looked for again


def answered(engine, line):
    """Makes a change: the line that xpush answers it by. Each worker finds the same."""
    try:
        number = engine.change(line)
    except FilterError as error:
        return " ".join(["! filter", error.kind] + ([] if error.byte is None else [str(error.byte)]))
    except ChangeError as error:
        return " ".join(["!", error.change, error.kind] + ([] if error.size is None else [str(error.size)]))
    except DocumentError as error:
        return "! line 1 %s" % error.kind
    except ValueError:
        return "! line 1 not-here"
    return "+%d" % number if line.startswith(b"+") else "%s %d" % (line.decode().split(" ")[0], number)


class Worker:
    """One member of the group, with the xpush that answers for it."""

    def __init__(self, streams, engine, options):
        self.streams, self.server, self.engine = streams, streams.server, engine
        self.name = "%s-%d" % (socket.gethostname(), os.getpid())
        self.batch, self.delete = options.batch, options.delete
        self.claim_after = options.claim_after
        self.seen = "0-0"  # the last change that was made
        self.cursor, self.next_claim = "0-0", 0.0
        self.is_stopped = False

    def stop(self, *_):
        self.is_stopped = True

    def run(self):
        self.streams.create_group()
        self.server.xgroup_createconsumer(self.streams.documents, GROUP, self.name)
        while not self.is_stopped:
            entries = self.left_behind() or self.fresh()
            # whatever was changed before these documents came is in the stream by now
            self.catch_up()
            self.answer(entries)
        if not self.server.xpending_range(self.streams.documents, GROUP, "-", "+", 1, consumername=self.name):
            self.server.xgroup_delconsumer(self.streams.documents, GROUP, self.name)

    def left_behind(self):
        """Documents that others took and did not answer in time."""
        if time.monotonic() < self.next_claim:
            return []
        reply = self.server.xautoclaim(
            self.streams.documents, GROUP, self.name, int(self.claim_after * 1000), self.cursor, count=self.batch)
        self.cursor = reply[0].decode()
        if self.cursor == "0-0":
            self.next_claim = time.monotonic() + self.claim_after / 4
        return [(entry, fields) for entry, fields in reply[1] if entry is not None]

    def fresh(self):
        read = self.server.xreadgroup(GROUP, self.name, {self.streams.documents: ">"}, count=self.batch, block=WAIT)
        return [entry for _, entries in read for entry in entries]

    def catch_up(self):
        """Makes the changes that stand in their stream now, and tells what xpush answered."""
        last = self.streams.last_of(self.streams.changes)
        while self.seen != last:
            entries = self.server.xrange(self.streams.changes, "(" + self.seen, last, count=CHANGES_AT_ONCE)
            if not entries:
                break
            with self.server.pipeline(transaction=False) as pipe:
                for entry, fields in entries:
                    pipe.hsetnx(self.streams.answers, entry, answered(self.engine, fields.get(b"line", b"")))
                    self.seen = entry.decode()
                pipe.execute()

    def answer(self, entries):
        documents = [fields.get(b"document", b"") for _, fields in entries]
        with self.server.pipeline(transaction=True) as pipe:
            for (entry, _), reply in zip(entries, self.engine.matches(documents, faults="give")):
                told = {"document": entry, "worker": self.name}
                if isinstance(reply, DocumentError):
                    told.update(fault=reply.kind, line=reply.line)
                else:
                    told.update(version=reply.version, ids=" ".join(map(str, reply.ids)))
                pipe.xadd(self.streams.replies, told)
                pipe.xack(self.streams.documents, GROUP, entry)
                if self.delete:
                    pipe.xdel(self.streams.documents, entry)
            pipe.execute()


def main():
    parser = words(__doc__)
    parser.add_argument("--program", help="the xpush to run; else as the client finds it")
    parser.add_argument("--words", nargs="+", default=["serial"], help="its command, and the options of that")
    parser.add_argument("--batch", type=int, default=64, help="documents that are taken at once")
    parser.add_argument("--claim-after", type=float, default=30.0, metavar="SECONDS")
    parser.add_argument("--delete", action="store_true", help="take answered documents out of their stream")
    options = parser.parse_args()
    try:
        with Xpush(options.program, options.words) as engine:
            worker = Worker(Streams(options.url, options.name), engine, options)
            signal.signal(signal.SIGTERM, worker.stop)
            signal.signal(signal.SIGINT, worker.stop)
            worker.run()
    except (redis.exceptions.RedisError, EngineError, OSError) as error:
        print("worker: %s" % error, file=sys.stderr)
        return 1
    return 0


if __name__ == "__main__":
    sys.exit(main())
