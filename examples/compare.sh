#!/usr/bin/env bash
# compare.sh [PROGRAM]: runs the program on each example, and compares what it writes and its status with what is
# stored. Each example is judged from its files, and again as a bundle, and drawn with its report and without; one with a
# report-beyond-width is judged with --beyond-width too, and drawn by that report. Each finding is what a check writes, and nothing is drawn of
# a bad report or of a session that is refused, but for a causal cycle. The last line says how many were compared; the
# status is 1 if any differs.
# PROGRAM is crates/monitor/out/monitor if it isn't given.
set -u
here=$(realpath "$(dirname "$0")")
program=$(realpath -m "${1:-$here/../crates/monitor/out/monitor}")
cd "$here"
if [ ! -x "$program" ]; then
  echo "examples: no program $program: build it by (cd crates/monitor && rt run < stdin)"
  exit 1
fi
written=$(mktemp)
wrong=$(mktemp)
trap 'rm -f "$written" "$wrong"' EXIT
compared=0
differing=0

# compare EXAMPLE STORED WANTED STATUS: the program wrote $written for the example, and ended with the status
compare() {
  compared=$((compared + 1))
  cmp -s "$written" "$2" && [ "$3" = "$4" ] && return
  differing=$((differing + 1))
  echo "examples: $1 differs: status $4 for $3, and written, against $2:"
  diff "$written" "$2"
}

for session in */session.json; do
  folder=${session%/session.json}
  wanted=0
  grep -q '^refused ' "$folder/report" && wanted=1
  "$program" judge "$session" "$folder"/*.stream > "$written"
  compare "judge $folder" "$folder/report" "$wanted" "$?"
  {
    cat "$session"
    for stream in "$folder"/*.stream; do
      printf '\n---\n'
      cat "$stream"
    done
  } | "$program" > "$written"
  compare "$folder as a bundle" "$folder/report" "$wanted" "$?"
done

for report in */report-beyond-width; do
  folder=${report%/*}
  "$program" judge "$folder/session.json" "$folder"/*.stream --beyond-width > "$written"
  compare "judge $folder --beyond-width" "$report" 0 "$?"
done

for bundle in */bundle; do
  "$program" < "$bundle" > "$written"
  compare "$bundle" "${bundle%/bundle}/report" 0 "$?"
done

for finding in */*.finding; do
  folder=${finding%/*}
  report=${finding%.finding}
  wanted=0
  grep -q -e ' bad$' -e '^report line ' "$finding" && wanted=1
  "$program" check "$folder/session.json" "$report" "$folder"/*.stream > "$written"
  compare "check $report" "$finding" "$wanted" "$?"
done

for session in */session.json; do
  folder=${session%/session.json}
  report=$folder/report
  [ -e "$report-beyond-width" ] && report+=-beyond-width
  picture=$folder/picture.svg
  wanted=0
  if grep '^refused ' "$report" | grep -qv '^refused cycle '; then
    picture=/dev/null
    wanted=1
  fi
  "$program" draw "$session" "$report" "$folder"/*.stream > "$written" 2> /dev/null
  compare "draw $folder" "$picture" "$wanted" "$?"
  beyond=()
  [ "$report" = "$folder/report" ] || beyond=(--beyond-width)
  "$program" draw "$session" "$folder"/*.stream "${beyond[@]}" > "$written" 2> /dev/null
  compare "draw $folder without its report" "$picture" "$wanted" "$?"
done

{
  echo "monitor: no picture, for a check finds:"
  cat mutual-exclusion/forged.finding
} > "$wrong"
"$program" draw mutual-exclusion/session.json mutual-exclusion/forged mutual-exclusion/*.stream > "$written" 2>&1
compare "draw mutual-exclusion/forged" "$wrong" 1 "$?"

echo "examples: $compared compared, $differing differ"
[ "$differing" = 0 ]
