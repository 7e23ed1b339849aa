#!/usr/bin/env bash
# test.sh [PROGRAM]: runs the tests of the recorder, of what records HTTP, of the importers and of what mends streams,
# types the commands of the page, and has the shared cases played. Their recordings are judged by the program, if it is
# built: crates/monitor/out/monitor, if no other one is given. The status is 1 if anything is wrong. More tests of what
# records HTTP need packages: uvicorn_tests.py and requests_tests.py.
set -u
here=$(realpath "$(dirname "$0")")
MONITOR=$(realpath -m "${1:-${MONITOR:-$here/../../crates/monitor/out/monitor}}")
export MONITOR
timeout 300 python3 -m unittest discover -s "$here" || exit 1
python3 "$here/../cases/page.py" "$here/README.md" || exit 1
python3 "$here/../cases/play.py" python3 "$here/player.py"
