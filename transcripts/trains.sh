# Trains of step pulses to the drive with the cartridge in cart.img.

# send PULSES ..: sends these trains, and prints the levels that they leave in one row.
send() {
    printf '%s\n' "$@" | tape cart.img pulses | paste -sd ' ' -
}

# times COUNT PULSES: so many trains alike, as words for the others.
times() {
    printf "$2 %.0s" $(seq "$1")
}

# report BITS PULSES ..: sends these trains, the last of which asks for a report, and then a train of two pulses for each of
# its bits and one more. Prints the word of the bits, the first of which is the least, if a 1 stands before and behind them.
report() {
    local bits=$1 levels bit word=0
    shift
    levels=($(send "$@" $(times $((bits + 1)) 2)))
    levels=("${levels[@]: -bits - 2}")
    for ((bit = bits; bit > 0; bit--)); do
        word=$((2 * word + levels[bit]))
    done
    [ "${levels[0]}${levels[bits + 1]}" = 11 ] && printf '0x%0*X\n' $((bits / 4)) $word
}
