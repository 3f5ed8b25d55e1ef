#!/usr/bin/env python3
"""Changes the subscriptions of all workers, or follows the replies.

    integrations/redis/subscribe.py [--url URL] [--name NAME] [--wait SECONDS] add FILTER
    integrations/redis/subscribe.py [..] drop ID
    integrations/redis/subscribe.py [..] replace ID FILTER
    integrations/redis/subscribe.py [..] follow [ID]

A change is put into the stream, and once a worker has made it, the line that xpush answered is
printed: '+ID', '~ID VERSION', '^ID VERSION', or a refusal. Status 1: it was refused, or no worker
answered in time. 'follow' prints the replies from now on, with an ID those that have it, until it is
interrupted.
"""
import sys
import time

from streams import Streams, redis, text_of, words

FORMS = {"add": ("+%s", 1), "drop": ("~%s", 1), "replace": ("^%s %s", 2)}


def change(streams, line, seconds):
    """The answer to a change; none where no worker gave one in time."""
    entry, end = streams.server.xadd(streams.changes, {"line": line}), time.monotonic() + seconds
    while time.monotonic() < end:
        answer = streams.server.hget(streams.answers, entry)
        if answer is not None:
            return answer.decode()
        time.sleep(0.02)
    return None


def follow(streams, wanted):
    behind = streams.last_of(streams.replies)
    while True:
        for behind, fields in streams.replies_behind(behind, 1000):
            if wanted is None or wanted in fields.get(b"ids", b"").decode().split():
                print(text_of(fields), flush=True)


def main():
    parser = words(__doc__)
    parser.add_argument("--wait", type=float, default=10.0, metavar="SECONDS")
    parser.add_argument("what", choices=[*FORMS, "follow"])
    parser.add_argument("rest", nargs="*", metavar="ID or FILTER")
    options = parser.parse_args()
    streams = Streams(options.url, options.name)
    try:
        if options.what == "follow":
            follow(streams, options.rest[0] if options.rest else None)
        form, count = FORMS[options.what]
        if len(options.rest) != count:
            parser.error("%s takes %d words" % (options.what, count))
        answer = change(streams, form % tuple(options.rest), options.wait)
    except KeyboardInterrupt:
        return 0
    except redis.exceptions.RedisError as error:
        print("subscribe: %s" % error, file=sys.stderr)
        return 2
    print(answer or "no worker answered")
    return 1 if answer is None or answer.startswith("!") else 0


if __name__ == "__main__":
    sys.exit(main())
