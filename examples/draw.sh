#!/usr/bin/env bash
# draw.sh [PROGRAM]: draws each example again whose session isn't refused, or is for a causal cycle, as picture.svg in
# its folder, by its report-beyond-width if it has one. PROGRAM is crates/monitor/out/monitor if it isn't given. The
# status is 1 if one isn't drawn.
set -u
here=$(realpath "$(dirname "$0")")
program=$(realpath -m "${1:-$here/../crates/monitor/out/monitor}")
cd "$here"
drawn=$(mktemp)
trap 'rm -f "$drawn"' EXIT
status=0
for session in */session.json; do
  folder=${session%/session.json}
  report=$folder/report
  [ -e "$report-beyond-width" ] && report+=-beyond-width
  grep '^refused ' "$report" | grep -qv '^refused cycle ' && continue
  if "$program" draw "$session" "$report" "$folder"/*.stream > "$drawn"; then
    cat "$drawn" > "$folder/picture.svg"
  else
    echo "examples: $folder isn't drawn"
    status=1
  fi
done
exit "$status"
