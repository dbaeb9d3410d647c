#!/usr/bin/env bash
# Times format, append and restore of one volume on a cartridge of 100 segments per track, a file on a disk and one in memory: beside
# the bare writes and syncs of the same places in the same order, beside these and the reads of the image and of the input, an append
# also beside an append in C, which makes these calls and the parity, beside cp of the image, and beside tar into a file with one sync.
# Restore also with three lost sectors in each segment of the volume, and check of the same images. And upgrade of an image of version 1
# with that volume, beside cp of it with one sync.
#
#     bench/volumes.sh [RUNS [BYTES [FOLDER ..]]]
#
# RUNS is how often each is timed, in turn (5); BYTES is the volume's length (60000000); the FOLDERs are where the
# files lie (the top of this repository, and /dev/shm). It prints the medians of the seconds on the wall and of those
# of a processor, the most resident memory that a run took, and how many times the bare calls' seconds on the wall
# the first is, or the bytes a second. The variable TAPE may name another build of the program than ./tape's.
set -euo pipefail
export LC_ALL=C
runs=${1:-5}
bytes=${2:-60000000}
folders=("${@:3}")
top=$(cd "$(dirname "$0")/.." && pwd)
[ ${#folders[@]} -gt 0 ] || folders=("$top" /dev/shm)

# Whole segments of the volume, from segment 3 on; a cartridge of 2,800 has 2,797 of them.
last=$((2 + (bytes + 29695) / 29696))
[ "$last" -lt 2800 ] || { echo 'volumes.sh: the volume is longer than the cartridge' >&2; exit 2; }

missing=''
for tool in gcc strace tar awk sed sort cp cmp cut head nproc stat sync mktemp truncate; do
    command -v "$tool" >/dev/null || missing="$missing $tool"
done
for folder in "${folders[@]}"; do
    [ -w "$folder" ] || missing="$missing $folder"
done
[ -z "$missing" ] || { echo "volumes.sh: not to be had here:$missing" >&2; exit 1; }

rooms=()
trap 'rm -rf "${rooms[@]}"' EXIT
make_room() {
    made=$(mktemp -d "$1/volumes.XXXXXX")
    rooms+=("$made")
}

# What is only made once lies in memory, where there is such a folder.
if [ -w /dev/shm ]; then make_room /dev/shm; else make_room "${TMPDIR:-/tmp}"; fi
base=$made

if [ -n "${TAPE:-}" ]; then
    program=$TAPE
else
    "$top/tape" </dev/null >/dev/null || [ $? = 2 ]
    program=$top/out/bin/tape
fi
gcc -O3 -march=native -o "$base/volumes" "$top/bench/volumes.c"

# Runs the program under strace, and leaves its reads, writes and syncs in the file $base/calls.NAME.
traced() {
    strace -f -s 0 -e trace=read,write,pread64,pwrite64,ftruncate,fsync,fdatasync -o "$base/calls.$1" \
        "$program" "${@:2}"
}

# The calls of the image and of the input among them, for the helper.
listed() {
    sed -nE -e 's/^[0-9]+ +//' \
        -e 's/^pread64\([0-9]+, "[^"]*"(\.\.\.)?, ([0-9]+), ([0-9]+)\).*/read \3 \2/p' \
        -e 's/^read\(0, "[^"]*"(\.\.\.)?, ([0-9]+)\).*/take \2/p' \
        -e 's/^pwrite64\([0-9]+, "[^"]*"(\.\.\.)?, ([0-9]+), ([0-9]+)\).*/write \3 \2/p' \
        -e 's/^ftruncate\([0-9]+, ([0-9]+)\).*/length \1/p' \
        -e 's/^fsync\(.*/sync/p' -e 's/^fdatasync\(.*/datasync/p' "$base/calls.$1" > "$base/list.$1_all"
}

# The writes and syncs among these.
listed_writes() {
    grep -v -e '^read' -e '^take' "$base/list.$1_all" > "$base/list.$1"
}

counted() {
    sed -E 's/^[0-9]+ +//' "$base/calls.$1" | awk -F'(' -v name="$1" '
        /^[a-z]/ { count[$1]++ }
        END {
            line = name ":"
            split("read pread64 write pwrite64 ftruncate fsync fdatasync", calls, " ")
            for (i = 1; i <= 7; i++) if (count[calls[i]]) line = line " " calls[i] " " count[calls[i]]
            print line
        }'
}

echo 'making the images' >&2
head -c "$bytes" /dev/urandom > "$base/input"
"$program" "$base/blank.img" new 100 >/dev/null
cp "$base/blank.img" "$base/formatted.img"
traced format "$base/formatted.img" format L >/dev/null
cp --sparse=never "$base/formatted.img" "$base/whole.img"
traced append "$base/whole.img" append v < "$base/input" >/dev/null
traced restore "$base/whole.img" restore 1 | cmp - "$base/input"
cp --sparse=never "$base/whole.img" "$base/worn.img"
for ((segment = 3; segment <= last; segment++)); do
    for sector in 3 14 25; do
        "$program" "$base/worn.img" lose $segment $sector
    done
done >/dev/null
"$program" "$base/worn.img" restore 1 | cmp - "$base/input"
printf 'QIC80IMG\1\0\144\0' > "$base/old.img"
truncate -s 92019264 "$base/old.img"
"$program" "$base/old.img" format L >/dev/null
"$program" "$base/old.img" append v < "$base/input" >/dev/null
listed format
listed_writes format
listed append
listed_writes append
listed restore

echo 'The calls of each command:'
for name in format append restore; do counted $name; done
for name in format append restore; do rm "$base/calls.$name"; done

# A file as it was made, on the disk before the clock starts. A formatted image has no holes, where cp would make some.
fresh() {
    if [ "$1" = blank.img ]; then cp "$base/$1" "$room/image"; else cp --sparse=never "$base/$1" "$room/image"; fi
    sync "$room/image"
}

# Runs a command, and puts down its seconds and its memory under a name.
timed() {
    "$base/volumes" run "${@:2}" 3>> "$room/figures.$1" >/dev/null
}

bare() {
    "$base/volumes" replay "$base/list.$1" "$room/image" 3>> "$room/figures.bare_$1"
}

# A command over an image, its bare calls, all its calls, and an append in C, the first of them another one from run to run: what one
# leaves to the system the next may wait for.
in_turn() {
    for ((turn = run; turn < run + 4; turn++)); do
        fresh "$2"
        case $((turn % 4)) in
            0) timed "$1" "$program" "$room/image" "${@:3}" < "$room/input" ;;
            1) bare "$1" ;;
            2) bare "$1_all" < "$room/input" ;;
            3) [ "$1" != append ] || "$base/volumes" append "$base/list.append_all" "$room/image" \
                < "$room/input" 3>> "$room/figures.in_c" ;;
        esac
    done
}

round() {
    in_turn format blank.img format L
    in_turn append formatted.img append v
    fresh whole.img; timed restore "$program" "$room/image" restore 1
    bare restore_all
    timed check "$program" "$room/image" check
    fresh worn.img; timed restore_worn "$program" "$room/image" restore 1
    timed check_worn "$program" "$room/image" check || [ $? = 21 ]
    timed cp cp --sparse=never "$room/image" "$room/copy"; rm "$room/copy"
    fresh old.img
    timed bare_upgrade sh -c 'cp --sparse=never "$1/image" "$1/copy" && sync "$1/copy"' sh "$room"; rm "$room/copy"
    timed upgrade "$program" "$room/image" upgrade
    timed tar sh -c 'tar -cf "$1/tar" -C "$1" input && sync "$1/tar"' sh "$room"; rm "$room/tar"
    timed usage "$program" 2>/dev/null || [ $? = 2 ]
}

# The median of the seconds on the wall (1) or of a processor (2).
median() {
    sort -n -k "$2" "$room/figures.$1" | awk -v part="$2" '{ at[NR] = $part } END { printf "%.6f", at[int((NR + 1) / 2)] }'
}

memory() {
    awk '$3 > most { most = $3 } END { print most }' "$room/figures.$1"
}

# How many times the seconds of the second the first took: by the medians, and the median of that round by round, which wavers less.
ratios() {
    paste "$room/figures.$1" "$room/figures.$2" | awk '{ print $1 / $4 }' | sort -n | awk -v ours="$(median "$1" 1)" -v bare="$(median "$2" 1)" '
        { at[NR] = $1 }
        END { printf "bare %9.3f s, ratio %.3f, by rounds %.3f\n", bare, ours / bare, at[int((NR + 1) / 2)] }'
}

of_bare() {
    printf '%-32s %9.3f s %9.3f s %6d kB   ' "$1" "$(median "$1" 1)" "$(median "$1" 2)" "$(memory "$1")"
    ratios "$1" "bare_$1"
}

# A command's seconds as times of those of all its calls.
of_all() {
    printf '%-67s' '  beside its reads, too'
    ratios "$1" "bare_$1_all"
}

of_bytes() {
    awk -v ours="$(median "$1" 1)" -v used="$(median "$1" 2)" -v bytes="$2" -v memory="$(memory "$1")" -v name="$3" \
        'BEGIN {
            printf "%-32s %9.3f s %9.3f s %6d kB   %.1f million bytes a second\n", name, ours, used, memory, bytes / ours / 1e6
        }'
}

echo
echo "$(sed -n 's/^model name[^:]*: //p' /proc/cpuinfo | head -n 1), $(nproc) processors, load $(cut -d ' ' -f 1-3 /proc/loadavg); a volume of $bytes bytes; medians of $runs"
for folder in "${folders[@]}"; do
    make_room "$folder"
    room=$made
    cp "$base/input" "$room/input"
    for ((run = 1; run <= runs; run++)); do
        echo "$folder, run $run of $runs" >&2
        round
    done
    echo
    ahead=$(cat "/sys/class/bdi/$(stat -c '%Hd:%Ld' "$folder")/read_ahead_kb" 2>/dev/null || true)
    echo "$folder${ahead:+, where the system reads ahead by $ahead kB}:"
    of_bare format
    of_all format
    of_bare append
    of_all append
    printf '%-67s' '  beside an append in C'
    ratios append in_c
    of_bare upgrade
    of_bytes restore "$bytes" restore
    of_bytes bare_restore_all "$bytes" '  its reads alone'
    of_bytes restore_worn "$bytes" 'restore, three lost a segment'
    of_bytes check "$bytes" check
    of_bytes check_worn "$bytes" 'check, three lost a segment'
    of_bytes cp "$(stat -c %s "$base/worn.img")" 'cp of the image'
    of_bytes tar "$bytes" 'tar and one sync'
    echo "the usage line: $(memory usage) kB"
    rm -rf "$room"
done
