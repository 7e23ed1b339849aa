#!/usr/bin/env bash
# test.sh [PROGRAM]: compiles the recorder with its tests and its player, runs the tests, the commands of its page, and
# has the shared cases played. Their recordings are judged by the program, if it is built: crates/monitor/out/monitor,
# if no other one is given. Without it the tests that compare what it says fail. The status is 1 if anything is wrong.
set -u
here=$(realpath "$(dirname "$0")")
MONITOR=$(realpath -m "${1:-${MONITOR:-$here/../../crates/monitor/out/monitor}}")
folder=$(mktemp -d)
FOLDER=$folder/tests
export MONITOR FOLDER
trap 'rm -rf "$folder"' EXIT
cd "$here" || exit 1

# Nodes that wait without spinning leave the machine to others. What a test lets crash isn't logged.
export ERL_AFLAGS="+S 2:2 +sbwt none +sbwtdcpu none +sbwtdio none" ERL_CRASH_DUMP_SECONDS=0
erlc -Wall -Werror -o "$folder" monitor_recorder.erl test_monitor_recorder.erl lease.erl player.erl || exit 1
timeout 300 erl -noshell -kernel logger_level critical -pa "$folder" -run test_monitor_recorder main || exit 1
python3 ../cases/page.py README.md || exit 1
# A node is ended by SIGXFSZ unless it is ignored.
python3 ../cases/play.py bash -c "trap '' XFSZ; exec \"\$@\"" player erl -noshell -pa "$folder" -run player main
