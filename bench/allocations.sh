#!/usr/bin/env bash
# Runs each command with each of its allocations refused in turn. A run so has to answer want of memory, with exit status 19 and
# nothing on standard output, and to leave the image as it was. It prints how many were refused, command by command, and the
# status of the run without a refusal; the exit status is 1 where a run did something else.
#
#     bench/allocations.sh
#
# The variable TAPE may name another build of the program than ./tape's.
set -euo pipefail
top=$(cd "$(dirname "$0")/.." && pwd)

for tool in gcc cmp mktemp; do
    command -v "$tool" > /dev/null || { echo "allocations.sh: not to be had here: $tool" >&2; exit 1; }
done

room=$(mktemp -d)
trap 'rm -rf "$room"' EXIT
if [ -n "${TAPE:-}" ]; then
    program=$(realpath "$TAPE")
else
    "$top/tape" < /dev/null > /dev/null || [ $? = 2 ]
    program=$top/out/bin/tape
fi
gcc -O2 -shared -fPIC -o "$room/allocations.so" "$top/bench/allocations.c"
cd "$room"

# tried INPUT WORD ..: the command over a copy of before.img, with the library in front.
tried() {
    local input=$1
    shift
    cp before.img cart.img
    LD_PRELOAD=$room/allocations.so "$program" cart.img "$@" < "$input" > printed 2> errors
}

failed=0
# wrong NUMBER WORD ..: a run with this allocation refused did what it must not.
wrong() {
    failed=1
    echo "allocation $1 refused to ${*:2}: status $status, $(wc -c < printed) bytes printed; $(head -c 80 errors)"
}

# refusing INPUT WORD ..: each allocation of the command refused in turn.
refusing() {
    local count number
    status=0
    COUNTED=$room/count tried "$@" || status=$?
    local answer=$status
    count=$(cat count)
    for ((number = 1; number <= count; number++)); do
        status=0
        REFUSED=$number tried "$@" || status=$?
        if [ "$status" != 19 ] || [ -s printed ] || ! cmp -s before.img cart.img; then
            wrong "$number" "${@:2}"
        fi
    done
    echo "${*:2}: $count refused, status $answer without"
}

"$program" before.img new 3 > /dev/null
"$program" before.img format L > /dev/null
echo hello | "$program" before.img append one > /dev/null
seq 20000 > numbers
printf 'append two 10\n0123456789list\nlose 5 5\nrestore 1\nend\n' > lines
printf '6\n11\n' > trains

for command in info list 'restore 1' scrub 'format M' 'make 7 2' 'lose 5 5' 'defect 5 5' 'protect on' upgrade 'new 3' nothing; do
    read -ra words <<< "$command"
    refusing /dev/null "${words[@]}"
done
refusing numbers append two
refusing lines script
refusing trains pulses
# An empty image takes memory for the name of its folder, too.
: > before.img
refusing /dev/null new 3
exit $failed
