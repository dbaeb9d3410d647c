#!/usr/bin/env bash
# Runs the program with its arguments. If it isn't built, or the checkout has moved to another commit since it was, make builds it first.
# After a change of your own, run make.
set -euo pipefail
top=$(cd "$(dirname "$0")" && pwd)
program=$top/out/bin/tape

# The commit, read without a process: that of the branch, or the one that is checked out. A copy without git has none.
commit=
if [ -f "$top/.git/HEAD" ]; then
    read -r commit < "$top/.git/HEAD"
    branch=$top/.git/${commit#ref: }
    [ ! -f "$branch" ] || read -r commit < "$branch"
fi

built=
[ ! -f "$top/out/commit" ] || read -r built < "$top/out/commit"

if [ ! -x "$program" ] || [ "$commit" != "$built" ]; then
    if [ $# = 1 ] && [[ $1 = -h || $1 = --help || $1 = help ]]; then
        printf '%s\n' 'usage: tape IMAGE COMMAND' "The commands: man $top/man/tape.1" "Any command builds the program first."
        exit
    fi
    command -v make > /dev/null || { echo "tape: there is no make on the path: $top/README.md names what it takes" >&2; exit 1; }
    [ -x "$program" ] || echo 'tape: make builds the program first, which takes long; it may be broken off and started again' >&2
    (cd "$top" && make tape) >&2 || { echo 'tape: the program could not be built' >&2; exit 1; }
    echo "$commit" > "$top/out/commit"
fi
exec "$program" "$@"
