#!/usr/bin/env bash
# test.sh [PROGRAM]: compiles the recorder with its tests and its player, runs the tests, and has the shared cases
# played. Their recordings are judged by the program, if it is built: crates/monitor/out/monitor, if no other one is
# given. It takes the compiler alone; `cargo test` runs the same tests. The status is 1 if anything is wrong.
set -u
here=$(realpath "$(dirname "$0")")
MONITOR=$(realpath -m "${1:-${MONITOR:-$here/../../crates/monitor/out/monitor}}")
export MONITOR
folder=$(mktemp -d)
trap 'rm -rf "$folder"' EXIT
cd "$folder" || exit 1

compiled=(--edition 2021 -D warnings -L .)
with=(--extern monitor_recorder=libmonitor_recorder.rlib)
rustc "${compiled[@]}" --crate-type rlib --crate-name monitor_recorder "$here/src/lib.rs" \
  && rustc "${compiled[@]}" "${with[@]}" --test -o tests "$here/tests/recorder.rs" && timeout 300 ./tests --quiet \
  && rustdoc --edition 2021 -L . "${with[@]}" --test --crate-name monitor_recorder "$here/src/lib.rs" \
  && rustc "${compiled[@]}" "${with[@]}" -o player "$here/examples/player.rs" || exit 1
python3 "$here/../cases/page.py" "$here/README.md" || exit 1
python3 "$here/../cases/play.py" ./player
