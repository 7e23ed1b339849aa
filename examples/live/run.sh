#!/usr/bin/env bash
# run.sh [PROGRAM]: starts the server on a free port and both processes, and prints the report. The status is that of
# the server. PROGRAM is crates/monitor/out/monitor if it isn't given.
set -u
here=$(realpath "$(dirname "$0")")
program=$(realpath -m "${1:-$here/../../crates/monitor/out/monitor}")
cd "$here" || exit 1
if [ ! -x "$program" ]; then
  echo "live: no program $program: build it by (cd crates/monitor && rt run < stdin)"
  exit 1
fi
ports=$(python3 ../../cases/listening.py) || exit 1
read -r port lock <<< "$ports"
started=()

# starts PORT COMMAND..: starts a command, and waits until it listens on the port
starts() {
  "${@:2}" &
  started+=("$!")
  python3 ../../cases/listening.py "$!" "$1" && return
  echo "live: nothing is judged, for another program may have taken port $1" >&2
  kill "${started[@]}" 2> /dev/null
  wait
  exit 3
}

starts "$port" "$program" serve session.json --port "$port"
starts "$lock" python3 left.py "$port" "$lock"
python3 right.py "$port" "$lock" &
started+=("$!")
wait "${started[0]}"
status=$?
if [ "$status" -gt 1 ]; then
  kill "${started[@]}" 2> /dev/null
fi
wait
exit "$status"
