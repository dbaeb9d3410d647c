# The calls of a run of tape as strace shows them, and calls that are made to fail or that kill the run.

# syncs WORD ..: runs tape with these words, and prints the syncs that it made.
syncs() {
    local status=0
    strace --quiet=all -y -o ../calls -e trace=fsync,fdatasync tape "$@" || status=$?
    show_syncs
    return $status
}

# show_syncs: the syncs of the run that was traced last, in order: the call, the file, the answer.
show_syncs() {
    sed -n 's|^\(f[a-z]*\)([0-9]*<.*/\([^/>]*\)>) *= \([^ ]*\).*|\1 \2 \3|p' ../calls
}

# faulty FAULTS WORD ..: the same run with faults of the calls for cart.img and its folder, each as strace's option inject has
# it. The calls are not printed.
faulty() {
    local fault faults=()
    for fault in $1; do
        faults+=(-e inject="$fault")
    done
    strace --quiet=all -o ../calls -P cart.img -P . -P "$PWD" -P "$PWD/cart.img" "${faults[@]}" tape "${@:2}"
}

# killed CALL WORD ..: the same run, which is killed at a call.
killed() {
    { faulty "$1:signal=KILL" "${@:2}"; } 2> ../killed
}
