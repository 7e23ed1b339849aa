#!/usr/bin/env bash
# test.sh [PROGRAM]: runs the tests of the helper for Go's testing. PROGRAM is the one that judges, and
# crates/monitor/out/monitor if it isn't given. The status is 1 if anything is wrong.
set -u
here=$(realpath "$(dirname "$0")")
MONITOR=$(realpath -m "${1:-$here/../../../crates/monitor/out/monitor}")
export MONITOR
if [ ! -x "$MONITOR" ]; then
  echo "recordtest: no program $MONITOR"
  exit 1
fi
cd "$here" || exit 1

unformatted=$(gofmt -l .)
[ -z "$unformatted" ] || { echo "recordtest: gofmt would change $unformatted"; exit 1; }
go vet . ./testdata/turns && go test -count=1 .
