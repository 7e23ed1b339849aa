#!/usr/bin/env bash
# test.sh [PROGRAM]: compiles the recorder, what records HTTP with the JDK alone, the tests and the player, runs the
# tests, and has the shared cases played. Their recordings are judged by the program, if it is built:
# crates/monitor/out/monitor, if no other one is given. test-servlet.sh tests the filter for servlets. The status is 1
# if anything is wrong.
set -u
here=$(realpath "$(dirname "$0")")
MONITOR=$(realpath -m "${1:-${MONITOR:-$here/../../crates/monitor/out/monitor}}")
export MONITOR
folder=$(mktemp -d)
trap 'rm -rf "$folder"' EXIT
cd "$here" || exit 1

# Programs that end soon need no better compiler and no other collector.
export JAVA_TOOL_OPTIONS="-XX:TieredStopAtLevel=1 -XX:+UseSerialGC"
http=monitor/http
javac -Xlint:all -Werror -d "$folder" monitor/*.java RecorderTest.java Player.java HttpTest.java \
  "$http"/{Faults,ServerSide,RecordingClient,RecordingExchangeFilter}.java \
  && timeout 300 java -cp "$folder" RecorderTest "$folder" \
  && timeout 300 java -cp "$folder" HttpTest "$folder/http" || exit 1
python3 ../cases/page.py README.md || exit 1
python3 ../cases/play.py java -cp "$folder" Player
