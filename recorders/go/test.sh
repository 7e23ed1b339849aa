#!/usr/bin/env bash
# test.sh [--race] [PROGRAM]: runs the recorder's tests, compiles its player, and has the shared cases played. Their
# recordings are judged by the program, if it is built: crates/monitor/out/monitor, if no other one is given. With
# --race all of it is run under Go's race detector. The status is 1 if anything is wrong.
set -u
flags=()
[ "${1:-}" = --race ] && flags=(-race) && shift
here=$(realpath "$(dirname "$0")")
MONITOR=$(realpath -m "${1:-${MONITOR:-$here/../../crates/monitor/out/monitor}}")
export MONITOR
folder=$(mktemp -d)
trap 'rm -rf "$folder"' EXIT
cd "$here" || exit 1

unformatted=$(gofmt -l .)
[ -z "$unformatted" ] || { echo "go: gofmt would change $unformatted"; exit 1; }
go vet ./... && go test "${flags[@]}" -count=1 . ./httprec && go build "${flags[@]}" -o "$folder/player" ./player || exit 1
python3 ../cases/page.py README.md || exit 1
python3 ../cases/play.py "$folder/player"
