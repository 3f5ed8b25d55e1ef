#!/usr/bin/env bash
# Tries what stands around the built program: XML in, the client, the workers over Redis, what is
# installed, and the picture.
#
#     tools/try_around.sh             tries all of it, each part within a bounded time
#     tools/try_around.sh --missing   prints the packages that it lacks; status 0 where there is none
#
# It installs nothing. Where a package is missing it says which, and fails.
cd "$(dirname "$0")/.." || exit 1

has_module() {
    python3 -c "import $1" 2>/dev/null || /usr/bin/python3 -c "import $1" 2>/dev/null
}

missing() {
    command -v redis-server >/dev/null || echo redis-server
    has_module redis || echo python3-redis
    has_module lxml.etree || echo python3-lxml
    command -v dot >/dev/null || echo graphviz
    command -v make >/dev/null || echo make
}

lacking=$(missing | paste -sd ' ')
if [ "${1-}" = --missing ]; then
    echo "$lacking"
    [ -z "$lacking" ]
    exit
fi
if [ -n "$lacking" ]; then
    echo "try_around: these packages are missing: $lacking" >&2
    exit 1
fi
./xpush show /a >/dev/null || exit 1
export XPUSH=$PWD/crates/xpush/out/xpush

status=0
try() {
    echo "$2"
    timeout --kill-after=10 "$@" || {
        echo "try_around: $2 failed"
        status=1
    }
}
try 120 tools/test_xml2pyx.py
try 240 tools/compare_xml.py
try 120 clients/python/test_xpush.py
try 240 integrations/redis/try_cluster.py
try 60 tools/check_draw.py
try 120 tools/check_install.py
[ $status -eq 0 ] && echo "try_around: all passed"
exit $status
