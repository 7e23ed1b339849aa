#!/usr/bin/env bash
# test.sh [--sanitizers] [PROGRAM]: builds the recorder for MPI, and records programs of six ranks under Open MPI:
# whether each receipt is recorded as that of the message that came, which order each collective imposes, and what is
# refused. The recordings are judged by the program, if it is built: crates/monitor/out/monitor, if no other one is
# given. With --sanitizers it is done again with the recorder linked under those of the compiler. The status is 1 if
# anything is wrong.
set -u
sanitized=
[ "${1:-}" = --sanitizers ] && sanitized=yes && shift
here=$(realpath "$(dirname "$0")")
MONITOR=$(realpath -m "${1:-${MONITOR:-$here/../../crates/monitor/out/monitor}}")
export MONITOR ASAN_OPTIONS=detect_leaks=0
folder=$(mktemp -d)
trap 'rm -rf "$folder"' EXIT
cd "$folder" || exit 1
# shellcheck source=environment.sh
. "$here/environment.sh"
flags="-std=c11 -Wall -Wextra -Wpedantic -Wshadow -Werror -pthread -I $here -I $here/../c"
recorder=libmonitor_mpi.so

fail() {
  echo "mpi: $*"
  exit 1
}

# run RANKS SCENARIO [WORD]: runs the test program, recorded to the folder `recorded`; what is said is in `said`
run() {
  rm -rf recorded
  timeout 120 mpirun -q -n "$1" -x MONITOR_TO="$folder/recorded" ${recorder:+-x LD_PRELOAD="$folder/$recorder"} \
    ./program "${@:2}" > said 2>&1
}

# judged FOLDER: the streams are a session, if there is a program that says so
judged() {
  [ -x "$MONITOR" ] || return 0
  python3 "$here/../python/monitor_infer.py" "$1"/*.stream > session.json || return 1
  "$MONITOR" judge session.json "$1"/*.stream > report || { cat report; return 1; }
}

# records SEED..: what six ranks send and call is recorded as it was
records() {
  for seed in "$@"; do
    run 6 messages "$seed" || { cat said; fail "messages can't be run"; }
    python3 "$here/test_monitor_mpi.py" messages recorded && judged recorded || fail "messages of seed $seed"
  done
  run 6 collectives || { cat said; fail "collectives can't be run"; }
  python3 "$here/test_monitor_mpi.py" collectives recorded && judged recorded || fail collectives
  [ ! -s said ] || { cat said; fail "something is said"; }
}

# says SCENARIO TEXT [FILES]: two ranks of the scenario record to these files, all in all, and the text is said
says() {
  run 2 "$1"
  grep -q -e "$2" said || { cat said; fail "$1: nobody says '$2'"; }
  local files
  files=$(cd recorded 2> /dev/null && echo *)
  [ "$files" = "${3-rank0.stream.given-up rank1.stream.given-up}" ] || fail "$1: there are $files"
}

# notes: each event has its note, with the call in which it was recorded
notes() {
  MONITOR_NOTES=1 run 6 messages 1 || { cat said; fail "messages can't be run with notes"; }
  for stream in recorded/*.stream; do
    local of_calls call='"text": "\(MPI_[A-Z][a-z_]*\|monitor_mpi_[a-z_]*\)", "place": ""'
    of_calls=$(grep -c "$call" "${stream%.stream}.notes.jsonl")
    [ $((of_calls + 2)) = "$(wc -l < "$stream")" ] || fail "$of_calls events of $stream have notes"
  done
  MONITOR_NOTES=1 says name "rank0: monitor_mpi_set: not a name of a variable" \
    "rank0.notes.jsonl.given-up rank0.stream.given-up rank1.notes.jsonl.given-up rank1.stream.given-up"
}

refuses() {
  says threads "rank0: MPI_[A-Z][a-z]*: two threads are in MPI at once"
  says cancel-send "rank0: MPI_Cancel: a send is cancelled" "rank0.stream.given-up rank1.stream"
  says free "rank0: MPI_Request_free: what a receive of any source or tag gets"
  says group "rank1: MPI_Barrier: the communicator joins two groups, or was made by a call that isn't followed"
  says many "rank1: monitor_mpi_set: a process has at most 10,000 events"
  says overtaking "rank0: MPI_Info_set: messages may overtake each other"
  says name "rank0: monitor_mpi_set: not a name of a variable"
  says window "rank0: MPI_Win_allocate: what passes by windows" "rank0.stream rank1.stream"
  run 17 nothing
  grep -q "rank0: nothing is recorded of 17 ranks" said && [ ! -e recorded ] || fail "17 ranks are recorded"
  mkdir -p stands && touch stands/rank0.stream
  timeout 60 mpirun -q -n 1 -x MONITOR_TO="$folder/stands" -x LD_PRELOAD="$folder/$recorder" ./program nothing 2> said
  grep -q "rank0: nothing is recorded: .*File exists" said && [ ! -s stands/rank0.stream ] \
    || fail "a file is overwritten"
  timeout 60 mpirun -q -n 1 -x LD_PRELOAD="$folder/$recorder" ./program nothing 2> said
  grep -q "rank0: nothing is recorded: MONITOR_TO names no place" said || fail "nobody says that MONITOR_TO isn't set"
}

# A long run has more events than a process of a session may have.
long_runs() {
  MONITOR_LONG=1 run 2 many && [ ! -s said ] || { cat said; fail "a long run isn't recorded"; }
  [ "$(wc -l < recorded/rank1.stream)" -gt 10002 ] || fail "a long run has no more events"
  MONITOR_LONG=2 run 2 nothing
  grep -q "rank0: nothing is recorded: no long recording is made: MONITOR_LONG is 1" said && [ ! -e recorded ] \
    || fail "MONITOR_LONG=2 is taken"
}

# A rank that is killed leaves what it has recorded, and one that ends its recording has an end line.
ends() {
  run 2 killed
  grep -q '"send":"m0.1.0.2.1"' recorded/rank1.stream || fail "a rank that is killed has lost an event"
  rm -rf mended
  python3 "$here/../python/monitor_mend.py" --out mended recorded > /dev/null && judged mended || fail "mended streams"
  run 2 ended
  judged recorded || fail "streams that end before the program"
  grep -q -e late -e '"m0.0.1.1.2"' recorded/*.stream && fail "what comes after the end is recorded"
}

cp "$here"/{Makefile,monitor_mpi.[ch]} .
make -s MPICC=mpicc C="$here/../c" CFLAGS="-O2 -Werror -Wpedantic -Wshadow" || fail "it isn't compiled"
# shellcheck disable=SC2086 # there are several flags
mpicc $flags -o program "$here/test_monitor_mpi.c" || fail "the test isn't compiled"
records 1 2
notes
refuses
long_runs
ends

# Without the recorder the program does the same; and the recorder may be linked, also to what is not position
# independent.
run_linked() {
  # shellcheck disable=SC2086
  mpicc $flags $1 -o program "$here/test_monitor_mpi.c" ${2:+"$here/monitor_mpi.c" "$here/../c/monitor_recorder.c"} \
    || fail "it isn't linked with $1"
}
recorder=
run_linked -O1 && run 6 messages && [ ! -e recorded ] || fail "the program doesn't run without the recorder"
run_linked "-O1 -fno-pie -no-pie" linked
records 3
if [ -n "$sanitized" ]; then
  run_linked "-g -fsanitize=address,undefined -fno-sanitize-recover=all" linked
  records 4 5 6
fi
python3 "$here/../cases/page.py" "$here/README.md" || exit 1
echo "mpi: what six ranks do is recorded"
