#!/usr/bin/env bash
# test.sh [PROGRAM]: compiles the helper for JUnit, which needs no JUnit, with its tests, and runs them. PROGRAM is the
# one that judges, and crates/monitor/out/monitor if it isn't given. The status is 1 if anything is wrong.
set -u
here=$(realpath "$(dirname "$0")")
program=$(realpath -m "${1:-$here/../../crates/monitor/out/monitor}")
if [ ! -x "$program" ]; then
  echo "junit: no program $program"
  exit 1
fi
folder=$(mktemp -d)
trap 'rm -rf "$folder"' EXIT
javac -Xlint:all -Werror -d "$folder/classes" "$here/MonitoredRun.java" "$here/TestMonitoredRun.java" \
  && java -cp "$folder/classes" TestMonitoredRun "$folder" "$program"
