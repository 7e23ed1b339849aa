#!/usr/bin/env bash
# test.sh [PROGRAM]: runs the tests of the recorder and of what records HTTP, types the commands of the page, and has
# the shared cases played. Their recordings are judged by the program, if it is built: crates/monitor/out/monitor, if no
# other one is given. The status is 1 if anything is wrong.
set -u
here=$(realpath "$(dirname "$0")")
MONITOR=$(realpath -m "${1:-${MONITOR:-$here/../../crates/monitor/out/monitor}}")
export MONITOR
cd "$here" || exit 1

timeout 300 node --test monitor_recorder.test.cjs monitor_http.test.cjs || exit 1
python3 ../cases/page.py README.md || exit 1
python3 ../cases/play.py node player.cjs
