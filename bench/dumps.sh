#!/usr/bin/env bash
# Times tape_import and tape_export of a cartridge of 100 segments per track, 91,750,400 bytes of sectors, with a map and
# without, in a file on a disk and in one in memory: beside cp of the dump with one sync at its end. So it times tape_salvage
# of a volume of 60,000,000 bytes in such a dump, also with three lost sectors in each segment of it.
#
#     bench/dumps.sh [RUNS [FOLDER ..]]
#
# RUNS is how often each is timed, in turn (5); the FOLDERs are where the files lie (the top of this repository, and
# /dev/shm). It prints the medians of the seconds on the wall and of those of a processor, the most resident memory that a
# run took, and how many times the seconds on the wall of cp the first is; of a salvage also the part of the bytes a second
# of cp. The variable BIN may name another folder of the programs than out/bin, which make fills.
set -euo pipefail
runs=${1:-5}
folders=("${@:2}")
top=$(cd "$(dirname "$0")/.." && pwd)
[ ${#folders[@]} -gt 0 ] || folders=("$top" /dev/shm)

# The bytes of the dump, and every how many of its sectors the map has a lost one.
bytes=91750400
each=512

# The volume's bytes, and its last segment; the first is 3.
volume=60000000
last=$((2 + (volume + 29695) / 29696))

missing=''
for tool in gcc awk sed sort cp cmp cut head nproc realpath sync mktemp tr; do
    command -v "$tool" >/dev/null || missing="$missing $tool"
done
for folder in "${folders[@]}"; do
    [ -w "$folder" ] || missing="$missing $folder"
done
[ -z "$missing" ] || { echo "dumps.sh: not to be had here:$missing" >&2; exit 1; }

rooms=()
trap 'rm -rf "${rooms[@]}"' EXIT
make_room() {
    made=$(mktemp -d "$1/dumps.XXXXXX")
    rooms+=("$made")
}

# What is only made once lies in memory, where there is such a folder.
if [ -w /dev/shm ]; then make_room /dev/shm; else make_room "${TMPDIR:-/tmp}"; fi
base=$made

programs='tape tape_import tape_export tape_salvage'
# shellcheck disable=SC2086
[ -n "${BIN:-}" ] || make -C "$top" $programs >&2
for name in $programs; do
    ln -s "$(realpath "${BIN:-$top/out/bin}/$name")" "$base/$name"
done
gcc -O2 -o "$base/volumes" "$top/bench/volumes.c"

# Zeros where the map has a lost sector, as an export has them.
echo 'making the dump' >&2
head -c $bytes /dev/urandom > "$base/dump"
awk -v bytes=$bytes -v each=$each 'BEGIN {
    print "0x0 +"
    for (at = 0; at < bytes; at += 1024 * each) print at, 1024 * (each - 1), "+\n" at + 1024 * (each - 1), 1024, "-"
}' > "$base/map"
"$base/tape_import" --map "$base/map" "$base/image" < "$base/dump"
"$base/tape_export" --map "$base/again" "$base/image" > "$base/dump"
"$base/tape_import" --map "$base/again" "$base/image.again" < "$base/dump"
"$base/tape_export" "$base/image.again" | cmp - "$base/dump"
rm "$base"/image*

# The same length with a volume in it, whole and with three lost sectors in each of its segments.
echo 'making the volume' >&2
head -c $volume /dev/urandom > "$base/volume"
"$base/tape" "$base/image" new 100 >&2
"$base/tape" "$base/image" format salvage >&2
"$base/tape" "$base/image" append volume < "$base/volume" >&2
"$base/tape_export" "$base/image" > "$base/whole"
for ((segment = 3; segment <= last; segment++)); do
    printf "lose $segment %d\\n" 0 1 2
done | "$base/tape" "$base/image" script > "$base/said"
"$base/tape_export" --map "$base/damaged.map" "$base/image" > "$base/damaged"
rm "$base/image"

# Runs a command, and puts down its seconds and its memory under a name.
timed() {
    "$base/volumes" run "${@:2}" 3>> "$room/figures.$1" >/dev/null
}

import() {
    rm -f "$room/image"
    # shellcheck disable=SC2016
    timed "$1" sh -c 'exec "$0" "$@" < dump' "$base/tape_import" "${@:2}" image
}

# The same sync behind it as behind cp.
export_to() {
    rm -f "$room/out" "$room/out.map"
    # shellcheck disable=SC2016
    timed "$1" sh -c '"$0" "$@" > out && sync out' "$base/tape_export" "${@:2}" image
    cmp "$room/out" "$room/dump"
}

# It ends with 1 where bytes were computed that nothing checks.
salvage() {
    rm -f "$room/out" "$room/out.sure"
    # shellcheck disable=SC2016
    timed "$1" sh -c '"$0" "$@" > out 2> said || [ $? = 1 ] && sync out' "$base/tape_salvage" "${@:2}" volume 1
    cmp "$room/out" "$base/volume"
}

round() {
    rm -f "$room/copy"
    # shellcheck disable=SC2016
    timed cp sh -c 'cp dump copy && sync copy'
    import import --segments 100
    import import_map --map map
    export_to export
    export_to export_map --map out.map
    cmp "$room/out.map" "$base/again"
    salvage salvage whole
    salvage salvage_lost --map damaged.map --sure out.sure damaged
}

# The median of the seconds on the wall (1) or of a processor (2).
median() {
    sort -n -k "$2" "$room/figures.$1" |
        awk -v part="$2" '{ at[NR] = $part } END { printf "%.6f", at[int((NR + 1) / 2)] }'
}

memory() {
    awk '$3 > most { most = $3 } END { print most }' "$room/figures.$1"
}

of_cp() {
    awk -v ours="$(median "$1" 1)" -v used="$(median "$1" 2)" -v cp="$(median cp 1)" -v memory="$(memory "$1")" \
        -v name="$2" 'BEGIN {
            printf "%-28s %9.3f s %9.3f s %6d kB   %.2f times cp\n", name, ours, used, memory, ours / cp
        }'
}

of_rate() {
    of_cp "$1" "$2" | tr -d '\n'
    awk -v ours="$(median "$1" 1)" -v cp="$(median cp 1)" -v bytes=$bytes -v volume=$volume \
        'BEGIN { printf ", %.2f of its rate\n", volume / ours / (bytes / cp) }'
}

echo "$(sed -n 's/^model name[^:]*: //p' /proc/cpuinfo | head -n 1), $(nproc) processors, load $(cut -d ' ' -f 1-3 /proc/loadavg); a dump of $bytes bytes; medians of $runs"
for folder in "${folders[@]}"; do
    make_room "$folder"
    room=$made
    cp "$base/dump" "$room/dump"
    cp "$base/again" "$room/map"
    cp "$base/whole" "$base/damaged" "$base/damaged.map" "$room"
    sync "$room/dump" "$room/map" "$room/whole" "$room/damaged" "$room/damaged.map"
    for ((run = 1; run <= runs; run++)); do
        echo "$folder, run $run of $runs" >&2
        (cd "$room" && round)
    done
    echo
    echo "$folder:"
    of_cp cp 'cp and one sync'
    of_cp import 'import'
    of_cp import_map 'import, with a map'
    of_cp export 'export and one sync'
    of_cp export_map 'export, with a map'
    of_rate salvage 'salvage of a volume'
    of_rate salvage_lost 'salvage, three lost of each'
    rm -rf "$room"
done
