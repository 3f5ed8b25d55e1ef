#!/usr/bin/env python3
"""Tries the workers on a Redis server of its own: one of three is killed in the midst.

    integrations/redis/try_cluster.py [--documents N] [--changes N] [--seed N] [--seconds N] [--binary FILE]

The server runs on a free port of the loopback, in a folder that is removed. Changes and documents are
sent among each other; some changes are refused, and some documents faulty. One worker is killed while
it holds documents. Then each document has to have an answer, at a version that has every change sent
before it, and each answer has to be what 'xpush serial' answers where that version stands; so has each
answer to a change. The other tools are tried as well. The last line is 'N passed, M failed'.
"""
import argparse
import collections
import os
import pathlib
import random
import select
import signal
import socket
import subprocess
import sys
import tempfile
import time

HERE = pathlib.Path(__file__).resolve().parent
TOP = HERE.parent.parent
sys.path.insert(0, str(TOP / "tools"))
from compare_machine import random_filter  # noqa: E402
from compare_xpath import DEBIAN_PYTHON, random_element, to_pyx  # noqa: E402

try:
    import redis
except ImportError:
    # Debian's package serves Debian's own Python
    if os.path.exists(DEBIAN_PYTHON) and not os.path.samefile(sys.executable, DEBIAN_PYTHON):
        os.execv(DEBIAN_PYTHON, [DEBIAN_PYTHON] + sys.argv)
    sys.exit("try_cluster: python3-redis is not installed")
from streams import GROUP, Streams  # noqa: E402

WORKERS, NAME = 3, "trial"
# the last but one is answered as a fault too: no document changes subscriptions
FAULTY = {
    b"(a\n)b\n": ("not-here", "2"),
    b"(a\n(b\n)b\n": ("truncated", "3"),
    b"(a\n)a\n+//*\n": ("not-here", "3"),
    b"": ("truncated", "0"),
}
GREETING = "(greeting\nAto all\n)greeting\n"


class Trial:
    """The server, the workers, and how many things were as they have to be."""

    def __init__(self, options, folder):
        self.options, self.folder = options, folder
        self.end = time.monotonic() + options.seconds
        self.processes = []
        self.passed = self.failed = 0

    def see(self, is_right, told):
        self.passed, self.failed = self.passed + bool(is_right), self.failed + (not is_right)
        if not is_right:
            print(told)

    def is_time(self):
        return time.monotonic() < self.end

    def start(self, words, **more):
        process = subprocess.Popen([str(word) for word in words], **more)
        self.processes.append(process)
        return process

    def start_server(self):
        """A server on a port that is free, and its URL."""
        while self.is_time():
            with socket.socket() as free:
                free.bind(("127.0.0.1", 0))
                port = free.getsockname()[1]
            server = self.start(
                ["redis-server", "--bind", "127.0.0.1", "--port", port, "--save", "", "--appendonly", "no", "--dir", self.folder],
                stdout=subprocess.DEVNULL)
            client = redis.Redis(port=port)
            while server.poll() is None and self.is_time():
                try:
                    client.ping()
                    return "redis://127.0.0.1:%d" % port
                except redis.exceptions.ConnectionError:
                    time.sleep(0.05)
        sys.exit("try_cluster: no server")

    def tool(self, name, *rest):
        return [sys.executable, HERE / name, "--url", self.url, "--name", NAME, *rest]

    def start_worker(self):
        more = ["--program", self.options.binary, "--batch", "16", "--claim-after", "1", "--delete"]
        return self.start(self.tool("worker.py", *more))

    def run_tool(self, name, *rest, text=""):
        done = subprocess.run([str(word) for word in self.tool(name, *rest)], input=text, capture_output=True, text=True, timeout=60)
        return done.stdout, done.returncode

    def stop_all(self):
        for process in self.processes:
            if process.poll() is None:
                process.kill()
            process.wait()


def random_change(rng, made):
    """A change of the list 'made' that grows: some name ids that are not live, and some are no filters."""
    kind = rng.random()
    if kind < 0.6 or not made:
        return b"+" + random_filter(rng).encode()
    if kind < 0.65:
        return b"+/order["
    if kind < 0.8:
        return b"~%d" % rng.randint(1, len(made))
    return b"^%d %s" % (rng.randint(1, len(made)), random_filter(rng).encode())


def random_document(rng):
    if rng.random() < 0.005:
        return rng.choice(list(FAULTY))
    lines = []
    to_pyx(random_element(rng, 4), lines)
    return "".join(line + "\n" for line in lines).encode()


def killed_if_it_holds(server, documents, worker):
    """Kills a worker that is stopped if it holds documents, else lets it go on: how many it held."""
    consumer = "%s-%d" % (socket.gethostname(), worker.pid)
    held = len(server.xpending_range(documents, GROUP, "-", "+", 100, consumername=consumer))
    os.kill(worker.pid, signal.SIGKILL if held else signal.SIGCONT)
    return held


def wait_for_each(trial, streams):
    """Waits until each worker has answered something."""
    seen, behind = set(), "0-0"
    while len(seen) < WORKERS and trial.is_time():
        for behind, fields in streams.replies_behind(behind, 200):
            seen.add(fields[b"worker"])


def publish(trial, streams, workers):
    """Sends all, and kills the last worker: what was sent, by its entry, and how many documents it held."""
    rng, server = random.Random(trial.options.seed), streams.server
    changes, documents, held = [], {}, 0
    each = trial.options.documents // trial.options.changes
    while len(documents) < trial.options.documents:
        is_midst = not held and len(documents) > trial.options.documents // 3
        if is_midst:
            wait_for_each(trial, streams)
            # a worker that waits for documents and is stopped is given some nevertheless
            os.kill(workers[-1].pid, signal.SIGSTOP)
        sent = [random_document(rng) for _ in range(each)]
        with server.pipeline(transaction=True) as pipe:
            for document in sent:
                pipe.xadd(streams.documents, {"document": document})
            entries = pipe.execute()
        documents.update((entry.decode(), (document, len(changes))) for entry, document in zip(entries, sent))
        line = random_change(rng, changes)
        changes.append((server.xadd(streams.changes, {"line": line}), line))
        if is_midst:
            held = killed_if_it_holds(server, streams.documents, workers[-1])
    return changes, documents, held


def wait_for_replies(trial, streams, documents):
    """All replies, once each document has one, or the time is over."""
    replies, answered, behind = [], set(), "0-0"
    while len(answered) < len(documents) and trial.is_time():
        for behind, fields in streams.replies_behind(behind, 200):
            reply = {name.decode(): value.decode() for name, value in fields.items()}
            replies.append(reply)
            answered.add(reply["document"])
    trial.see(answered == set(documents), "%d of %d documents were answered" % (len(answered), len(documents)))
    return replies


def by_serial(trial, changes, documents, replies):
    """The lines of one run of serial in which each answered document stands at the version that its reply names."""
    at_version = collections.defaultdict(list)
    for reply in replies:
        if "version" in reply:
            at_version[int(reply["version"])].append(reply)

    def serial(feed):
        done = subprocess.run([trial.options.binary, "serial"], input=feed, capture_output=True, timeout=120)
        return done.stdout.decode().splitlines()

    alone = serial(b"".join(line + b"\n" for _, line in changes))
    feed, wanted, version, versions = [], [], 0, [0]

    def place(number):
        for reply in at_version.pop(number, []):
            feed.append(documents[reply["document"]][0])
            wanted.append("%s:%s" % (reply["version"], "".join(" " + one for one in reply["ids"].split())))

    place(0)
    for (_, line), answer in zip(changes, alone):
        feed.append(line + b"\n")
        wanted.append(answer)
        if not answer.startswith("!"):
            version += 1
            place(version)
        versions.append(version)
    trial.see(not at_version, "versions that never were: %s" % sorted(at_version))
    found = serial(b"".join(feed))
    differ = sum(one != other for one, other in zip(found, wanted)) + abs(len(found) - len(wanted))
    trial.see(differ == 0, "%d of %d lines are not those of serial" % (differ, len(wanted)))
    return alone, versions


def check(trial, streams, changes, documents, replies):
    alone, versions = by_serial(trial, changes, documents, replies)
    answers = streams.server.hgetall(streams.answers)
    trial.see([answers.get(entry, b"").decode() for entry, _ in changes] == alone, "answers to changes are not those of serial")
    trial.see(any(one.startswith("!") for one in alone), "no change was refused")
    early = [one for one in replies if "version" in one and int(one["version"]) < versions[documents[one["document"]][1]]]
    trial.see(not early, "%d documents were matched without a change sent before them" % len(early))
    faults = [(FAULTY.get(documents[one["document"]][0]), (one["fault"], one["line"])) for one in replies if "fault" in one]
    trial.see(faults and all(wanted == found for wanted, found in faults), "faults are told otherwise: %s" % faults[:3])
    trial.see(len({one["worker"] for one in replies}) == WORKERS, "not every worker answered")


def try_tools(trial, streams):
    """The small tools, beside the workers that are left."""
    answer, status = trial.run_tool("subscribe.py", "add", "/greeting[@to='all']")
    trial.see(status == 0 and answer.startswith("+"), "subscribe add: %s" % answer)
    number = answer[1:].strip()
    trial.see(trial.run_tool("subscribe.py", "add", "/order[") == ("! filter not-a-filter 7\n", 1), "subscribe refuses otherwise")
    follower = trial.start(trial.tool("subscribe.py", "follow", number), stdout=subprocess.PIPE, text=True)
    lines, status = trial.run_tool("publish.py", "--wait", "30", text="(other\n)other\n" + GREETING + "(a\n)b\n")
    other, greeted, faulty = (lines.splitlines() + [""] * 3)[:3]
    trial.see(status == 0 and greeted.split(" ")[-1] == number and number not in other.split(" ")[2:], "publish --wait: %s" % lines)
    trial.see(faulty.endswith("! line 2 not-here"), "publish --wait at a fault: %s" % faulty)
    while not select.select([follower.stdout], [], [], 1)[0] and trial.is_time():
        # it had not begun to follow when the last one was answered
        streams.server.xadd(streams.documents, {"document": GREETING})
    follower.send_signal(signal.SIGINT)
    followed, _ = follower.communicate(timeout=30)
    trial.see(followed.split("\n")[0].split(" ")[-1] == number and follower.returncode == 0, "subscribe follow: %s" % followed)
    replaced, status = trial.run_tool("subscribe.py", "replace", number, "/farewell")
    trial.see(status == 0 and replaced.startswith("^%s " % number), "subscribe replace: %s" % replaced)
    dropped, status = trial.run_tool("subscribe.py", "drop", number)
    trial.see(status == 0 and dropped.startswith("~%s " % number), "subscribe drop: %s" % dropped)


def run(trial):
    trial.url = trial.start_server()
    streams = Streams(trial.url, NAME)
    workers = [trial.start_worker() for _ in range(WORKERS)]
    while len(streams.server.keys("*:documents")) == 0 or len(streams.server.xinfo_consumers(streams.documents, GROUP)) < WORKERS:
        if not trial.is_time():
            sys.exit("try_cluster: the workers do not start")
        time.sleep(0.05)
    changes, documents, held = publish(trial, streams, workers)
    trial.see(held, "no worker was killed while it held documents")
    replies = wait_for_replies(trial, streams, documents)
    check(trial, streams, changes, documents, replies)
    try_tools(trial, streams)
    for worker in workers:
        worker.terminate()
    trial.see([worker.wait(timeout=30) for worker in workers] == [0] * (WORKERS - 1) + [-signal.SIGKILL], "the workers ended otherwise")
    trial.see(streams.server.xlen(streams.documents) == 0, "answered documents are still in their stream")
    print("try_cluster: %d documents and %d changes, %d documents held by the killed worker, %d replies"
          % (len(documents), len(changes), held, len(replies)))


def main():
    parser = argparse.ArgumentParser(description=__doc__, formatter_class=argparse.RawDescriptionHelpFormatter)
    parser.add_argument("--documents", type=int, default=3000)
    parser.add_argument("--changes", type=int, default=300)
    parser.add_argument("--seed", type=int, default=20030609)
    parser.add_argument("--seconds", type=float, default=90, help="the longest that it waits for anything")
    parser.add_argument("--binary", default=str(TOP / "crates" / "xpush" / "out" / "xpush"))
    # whoever ends this script ends the server and the workers too
    signal.signal(signal.SIGTERM, lambda *_: sys.exit(1))
    with tempfile.TemporaryDirectory() as folder:
        trial = Trial(parser.parse_args(), folder)
        try:
            run(trial)
        finally:
            trial.stop_all()
    print("%d passed, %d failed" % (trial.passed, trial.failed))
    return 1 if trial.failed else 0


if __name__ == "__main__":
    sys.exit(main())
