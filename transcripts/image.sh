# The image file of a cartridge of three segments per track, in cart.img, as the pages look at it and change it by hand.
# It has 2,688 sectors; sector SECTOR of segment SEGMENT has the number 32 * SEGMENT + SECTOR. Each has four parts: three
# bytes of state, which are its gate, whether it was formed, and whether it is a defect, and its 1,024 bytes.
#
# A new image is of version 2. Its head of 64 bytes has the mark of this layout in byte 14 and the base from byte 16 on; from
# the base on come the sectors, each with its four parts side by side. In version 1 there is no such mark. There the head is
# followed by three planes of 2,688 bytes, one for each byte of state, and from byte 64 + 3 * 2,688 = 8,128 on by the bytes
# of the sectors.

# old_image: makes cart.img an image of version 1, of a new cartridge.
old_image() {
    rm -f cart.img
    printf 'QIC80IMG\1\0\3\0' > cart.img
    truncate -s 2760640 cart.img
}

# version: the version of the layout.
version() {
    if [ "$(od -An -tx1 -j 14 -N 1 cart.img)" = ' 5a' ]; then echo 2; else echo 1; fi
}

# place PART SEGMENT SECTOR: where a part of a sector stands, one of gate, formed, defect and bytes.
place() {
    local part number=$((32 * $2 + $3))
    case $1 in
    gate) part=0 ;;
    formed) part=1 ;;
    defect) part=2 ;;
    bytes) part=3 ;;
    esac
    if [ "$(version)" = 2 ]; then
        echo $(($(od -An -tu8 --endian=little -j 16 -N 8 cart.img) + 1027 * number + part))
    elif [ $part = 3 ]; then
        echo $((8128 + 1024 * number))
    else
        echo $((64 + 2688 * part + number))
    fi
}

# look_at PLACE COUNT: shows so many bytes of the file from a place on in hexadecimal.
look_at() {
    od -An -v -tx1 -w16 -j "$1" -N "$2" cart.img
}

# alter PLACE TEXT: writes the bytes of TEXT, as printf takes it, into the file from a place on.
alter() {
    printf "$2" | dd of=cart.img bs=1 seek="$1" conv=notrunc status=none
}

# look SEGMENT SECTOR BYTE COUNT: shows so many bytes of a sector from one on.
look() {
    look_at $(($(place bytes "$1" "$2") + $3)) "$4"
}

# put SEGMENT SECTOR BYTE TEXT: writes the bytes of TEXT into a sector from that byte on.
put() {
    alter $(($(place bytes "$1" "$2") + $3)) "$4"
}

# flip SEGMENT SECTOR BYTE: flips the lowest bit of that byte of a sector.
flip() {
    local at=$(($(place bytes "$1" "$2") + $3))
    alter "$at" "\\x$(printf %02x $((0x$(look_at "$at" 1 | tr -d ' ') ^ 1)))"
}

# fill SEGMENT DIGITS: writes this byte all over the data sectors of a segment.
fill() {
    local sector bytes
    bytes=$(printf "\\\\x$2%.0s" $(seq 1024))
    for sector in $(seq 0 28); do
        put "$1" "$sector" 0 "$bytes"
    done
}

# take IMAGE SEGMENT SECTOR ..: takes the bytes of these sectors from another image of the same layout.
take() {
    local image=$1 segment=$2 sector at
    shift 2
    for sector; do
        at=$(place bytes "$segment" "$sector")
        dd if="$image" of=cart.img bs=1024 count=1 skip="$at" seek="$at" iflag=skip_bytes oflag=seek_bytes conv=notrunc \
            status=none
    done
}

# states PART SEGMENT COUNT: shows that byte of state of so many sectors, from the first of a segment on, 16 a line.
states() {
    local width=1027
    [ "$(version)" = 2 ] || width=1
    od -An -v -tx1 -w$width -j "$(place "$1" "$2" 0)" -N $((width * $3)) cart.img | cut -c 1-3 | tr -d '\n' | fold -w 48
    echo
}

# sectors SEGMENT SECTOR COUNT: the bytes of so many sectors from one on, a sector a line.
sectors() {
    if [ "$(version)" = 2 ]; then
        od -An -v -tx1 -w1027 -j "$(place gate "$1" "$2")" -N $((1027 * $3)) cart.img | cut -c 10-
    else
        od -An -v -tx1 -w1024 -j "$(place bytes "$1" "$2")" -N $((1024 * $3)) cart.img
    fi
}

# parts: all parts of all sectors; those of two images are the same where their cartridges are, but for the marks.
parts() {
    states gate 0 2688
    states formed 0 2688
    states defect 0 2688
    sectors 0 0 2688
}

# each COMMAND SEGMENT SECTOR ..: gives the command for each of these sectors, and prints how many times it was carried out.
each() {
    local command=$1 segment=$2 done=0
    shift 2
    for sector; do
        tape cart.img "$command" "$segment" "$sector" > /dev/null && done=$((done + 1))
    done
    echo "$done of $# done"
}
