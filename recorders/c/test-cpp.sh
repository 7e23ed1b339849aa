#!/usr/bin/env bash
# test-cpp.sh [--sanitizers] [PROGRAM]: compiles the recorder for C++ with its tests and its player, runs the tests, and
# has the shared cases played. Their recordings are judged by the program, if it is built: crates/monitor/out/monitor,
# if no other one is given. With --sanitizers all of it is done again under those of the compiler. The status is 1 if
# anything is wrong.
set -u
sanitized=
[ "${1:-}" = --sanitizers ] && sanitized=yes && shift
here=$(realpath "$(dirname "$0")")
MONITOR=$(realpath -m "${1:-${MONITOR:-$here/../../crates/monitor/out/monitor}}")
export MONITOR TSAN_OPTIONS=halt_on_error=1
folder=$(mktemp -d)
trap 'rm -rf "$folder"' EXIT
cd "$folder" || exit 1

# compile FLAGS PROGRAM SOURCE: compiles a program with the recorder
compile() {
  # shellcheck disable=SC2086 # there may be several flags
  g++ -std=c++17 -Wall -Wextra -Wpedantic -Wshadow -Werror -pthread $1 -I "$here" -o "$2" "$here/$3" recorder.o
}

# run FLAGS: compiles the tests and the player with these flags, and runs them
run() {
  # shellcheck disable=SC2086 # there may be several flags
  gcc -std=c11 -pthread $1 -c -o recorder.o "$here/monitor_recorder.c" \
    && compile "$1" tests test_monitor_recorder.cpp && timeout 300 ./tests "$folder" && compile "$1" player player.cpp \
    && python3 "$here/../cases/play.py" ./player && return
  echo "c++: the tests fail with $1"
  exit 1
}

if [ -n "$sanitized" ]; then
  run "-g -fsanitize=address,undefined -fno-sanitize-recover=all"
  run "-g -fsanitize=thread"
fi
run -O2
