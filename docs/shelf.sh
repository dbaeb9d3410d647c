#!/usr/bin/env bash
# Looks after many cartridges. SHELF.md beside it shows how, and says what the words of a report mean.
#
#     shelf.sh check FOLDER       a report on the images FOLDER/*.img, a line for each: the exit status of its check, a word for
#                                 what was found, and its path. Nothing is written in an image.
#     shelf.sh mend IMAGE         mends an image that is called weak or wrong; as it was it is kept in IMAGE.before
#     shelf.sh move IMAGE NEW     copies the volumes onto a new cartridge of the same label and length, in a new file NEW
#
# The status is 0 where all are sound in the end, 1 where one isn't, and 2 where a word is wrong or something is missing. Where a
# program ends the work the status is that one's. check takes GNU parallel; JOBS says how many images it looks at at a time.
set -euo pipefail

stop() {
    echo "shelf.sh: $1" >&2
    exit 2
}

# found IMAGE: the line of an image. Of several things that were found the word is for the worst.
found() {
    local said lines status=0 word
    said=$(tape "$1" check 2>&1) || status=$?
    lines=$'\n'$said$'\n'
    if [ $status = 0 ]; then
        word=sound
    elif [[ $lines == *$'\n'@(wrong|unsettled|mismatch|lost)' 2'[[:space:]]* ]]; then
        word=table
    elif [ $status != 21 ]; then
        word=refused
    elif [[ $lines == *$'\n'@(mismatch|lost)' '* ]]; then
        word=lost
    elif [[ $lines == *$'\nwrong '* ]]; then
        word=wrong
    else
        word=weak
    fi
    echo "$status $word $1"
}

# end IMAGE: shows its line, and ends.
end() {
    local line
    line=$(found "$1")
    echo "$line"
    [[ $line == '0 '* ]] || exit 1
    exit 0
}

command -v tape > /dev/null || stop 'there is no tape on the path'
case $#-${1-} in
2-check)
    [[ $(parallel --version 2> /dev/null) == 'GNU parallel'* ]] || stop 'there is no GNU parallel on the path'
    shopt -s nullglob
    images=("$2"/*.img)
    [ ${#images[@]} != 0 ] || stop "there is no image $2/*.img"
    printf '%s\0' "${images[@]}" | parallel --null --keep-order --quote --jobs "${JOBS:-100%}" "$(realpath "$0")" found |
        awk -v images=${#images[@]} '{ print; if ($1 != 0) bad = 1 } END { exit NR == images ? bad : 2 }'
    ;;
2-found)
    [ -f "$2" ] || stop "there is no image $2"
    found "$2"
    ;;
2-mend)
    [ -f "$2" ] || stop "there is no image $2"
    read -r _ word _ < <(found "$2")
    case $word in
    weak) how=(scrub) ;;
    wrong) how=(scrub deep) ;;
    *) stop "$2 is $word: SHELF.md says what to do" ;;
    esac
    [ ! -e "$2.before" ] || stop "$2.before is there already"
    cp --preserve --sparse=always "$2" "$2.before"
    sync "$2.before"
    tape "$2" "${how[@]}"
    end "$2"
    ;;
3-move)
    [ -f "$2" ] || stop "there is no image $2"
    [ ! -e "$3" ] || stop "$3 is there already"
    command -v tape_dup > /dev/null || stop 'there is no tape_dup on the path'
    read -r _ word _ < <(found "$2")
    [[ $word != @(table|refused) ]] || stop "$2 is $word: SHELF.md says what to do"
    told=$(tape "$2" info)
    label=$(sed -n 's/^label //p' <<< "$told")
    segments=$(sed -n 's/^segments //p' <<< "$told")
    tape "$3" new $((segments / 28))
    tape "$3" format "${label:-moved}" "$(date +%Y-%m-%dT%H:%M:%S)"
    tape_dup "$2" "$3"
    end "$3"
    ;;
*)
    stop 'usage: check FOLDER, mend IMAGE, or move IMAGE NEW'
    ;;
esac
