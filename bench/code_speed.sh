#!/usr/bin/env bash
# Times crates/code_speed side by side with ISA-L's ec_encode_data (the Debian package libisal-dev), nine
# runs of each in turn, and prints ISA-L's time over ours, the median of the nine, for encoding all sectors at
# once, for encoding them one by one, and for solving: 1 is ISA-L's own speed. The words: how many segments a
# run goes through, and the processor that the program is built for: as make builds programs, where it is not given.
set -eu
times=${1:-100000}
top=$(cd "$(dirname "$0")/.." && pwd)
room=$(mktemp -d)
trap 'rm -r "$room"' EXIT

cc -O2 -o "$room/isal_speed" "$top/bench/isal_speed.c" -lisal
make -C "$top" code_speed ${2:+"PROCESSOR=$2"} >&2
cp "$top/out/bin/code_speed" "$room/code_speed"

for run in 1 2 3 4 5 6 7 8 9; do
    "$room/code_speed" "$times" 2>"$room/ours" >/dev/null
    "$room/isal_speed" "$times" 2>"$room/theirs"
    awk -v run="$run" 'NR == FNR { ours[$1] = $2; next }
        { printf "%s %d %.3f\n", $1, run, $2 / ours[$1] }
        $1 == "encoding" { printf "pushing %d %.3f\n", run, $2 / ours["pushing"] }' "$room/ours" "$room/theirs"
done >"$room/runs"
cat "$room/runs" >&2
for part in encoding pushing solving; do
    grep "^$part" "$room/runs" | sort -k3 -n | awk -v part="$part" \
        'NR == 5 { printf "%s: %.2f of the speed of ISA-L\n", part, $3 }'
done
