#!/usr/bin/env bash
# test.sh [PROGRAM]: compiles the recorder with its tests and its player, runs the tests and the commands of its page,
# and has the shared cases played. Their recordings are judged by the program, if it is built:
# crates/monitor/out/monitor, if no other one is given. The status is 1 if anything is wrong.
set -u
here=$(realpath "$(dirname "$0")")
MONITOR=$(realpath -m "${1:-${MONITOR:-$here/../../crates/monitor/out/monitor}}")
export MONITOR
folder=$(mktemp -d)
trap 'rm -rf "$folder"' EXIT
cd "$here" || exit 1

mcs -warnaserror -out:"$folder/test.exe" MonitorRecorder.cs RecorderTest.cs \
  && timeout 300 mono "$folder/test.exe" "$folder" || exit 1
python3 ../cases/page.py README.md || exit 1
mcs -warnaserror -out:"$folder/player.exe" MonitorRecorder.cs Player.cs || exit 1
python3 ../cases/play.py --ends-at-limit mono "$folder/player.exe"
