#!/usr/bin/env bash
# record.sh [FOLDER [PROGRAM]]: runs ewd840, with one seed after the other, until its recording says that it may have
# declared too early, or 40 times; and ewd998 with the same seeds, and three at least, of which no recording may say so.
# With FOLDER it looks for a run in which moreover nothing was left, and the last recordings are put into
# FOLDER/termination-ewd840 and FOLDER/termination-ewd998. It needs Open MPI, and the program:
# crates/monitor/out/monitor, if no other one is given. The status is 1 if no run of ewd840, or any of ewd998, may have
# declared too early.
set -u
here=$(realpath "$(dirname "$0")")
recorder=$here/../../recorders/mpi
target=${1:+$(realpath -m "$1")}
MONITOR=$(realpath -m "${2:-${MONITOR:-$here/../../crates/monitor/out/monitor}}")
folder=$(mktemp -d)
trap 'rm -rf "$folder"' EXIT
cd "$folder" || exit 1
# shellcheck source=../../recorders/mpi/environment.sh
. "$recorder/environment.sh"

fail() {
  echo "termination: $*"
  exit 1
}

# record NAME SEED: runs the program, which is recorded to NAME-SEED; its report is NAME.report
record() {
  timeout 120 mpirun -q -n 6 -x MONITOR_TO="$folder/$1-$2" -x LD_PRELOAD="$folder/libmonitor_mpi.so" "./$1" "$2" \
    > said 2>&1 || { cat said; fail "$1 fails with seed $2"; }
  "$MONITOR" judge "$here/session.json" "$1-$2"/*.stream --beyond-width > "$1.report" \
    && grep -q '^declared definitely yes' "$1.report" \
    || { cat said "$1.report"; fail "$1 isn't recorded with seed $2"; }
}

# store FROM NAME: puts the recording into the folder of this name
store() {
  mkdir -p "$target/$2" && cp "$1"/*.stream "$target/$2" || fail "$target/$2 can't be written"
}

[ -x "$MONITOR" ] || fail "no program $MONITOR"
cp "$recorder"/{Makefile,monitor_mpi.[ch]} . && make -s C="$recorder/../c" || fail "the recorder isn't compiled"
for source in "$here/ewd840.c" "$here/../termination-ewd998/ewd998.c"; do
  mpicc -std=c11 -D_DEFAULT_SOURCE -O2 -Wall -Wextra -Werror -I "$recorder" -o "$(basename "$source" .c)" "$source" \
    || fail "$source isn't compiled"
done

early=0
most=40
for ((seed = 1; seed <= most; seed++)); do
  record ewd840 "$seed"
  grep -q '^too_early possibly yes' ewd840.report || continue
  early=$((early + 1))
  kept=$seed
  [ -z "$target" ] && break
  grep -q ' 0 units are left' said && break
done
runs=$((seed < most ? seed : most))
[ "$early" -gt 0 ] || fail "ewd840 has declared too early in none of $runs runs"
safe=$((runs > 3 ? runs : 3))
for ((seed = 1; seed <= safe; seed++)); do
  record ewd998 "$seed"
  grep -q '^too_early possibly no' ewd998.report || { cat ewd998.report; fail "ewd998 may have declared too early"; }
done
[ -z "$target" ] || { store "ewd840-$kept" termination-ewd840 && store "ewd998-$kept" termination-ewd998; }
echo "termination: too early in $early of $runs recordings of ewd840, and in none of $safe of ewd998"
