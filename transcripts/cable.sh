# A recording of the cable, as `pulse_trace` reads it: each call prints lines of it, and goes on in time.
clock=0

# train PULSES: a train, its pulses 100 microseconds apart, and a gap of 5,000.
train() {
    for ((pulse = 0; pulse < $1; pulse++)); do
        echo $((clock + 100 * pulse))
    done
    clock=$((clock + 100 * $1 + 5000))
}

# level BIT: a sample of the track-0 line.
level() {
    echo "$clock $1"
    clock=$((clock + 1000))
}

# report PULSES BITS WORD: a command that asks for a report, its acknowledgement, and the word bit by bit, the least first,
# with the final bit.
report() {
    train "$1"
    level 1
    for ((bit = 0; bit < $2; bit++)); do
        train 2
        level $(($3 >> bit & 1))
    done
    train 2
    level 1
}
