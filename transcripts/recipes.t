Recipes
=======

  $ command -v tape_import > /dev/null && command -v tape_salvage > /dev/null || exit 80
  $ command -v ddrescue > /dev/null && command -v ddrescuelog > /dev/null || exit 80
  $ . "$TESTDIR/image.sh"

What docs/RECIPES.md shows. Each recipe runs with `set -euo pipefail`.

  $ recipe() { cat > recipe.sh; bash -euo pipefail recipe.sh; }
  $ empty() { tape $1.img new 3 && tape $1.img format $1; }

A folder in and out with tar
----------------------------

  $ mkdir notes back part
  $ echo 'a page of text' > notes/page
  $ seq 10000 > notes/numbers
  $ empty cart
  blank 3
  formatted 84 0
  $ recipe << 'END'
  > tar -c -C notes page numbers | tape cart.img append notes
  > tape cart.img restore 1 | tar -x -C back
  > END
  appended 1 61440 3 5
  $ diff -r notes back

A left side that fails leaves a volume of the bytes that came.

  $ recipe << 'END'
  > tar -c -C notes page missing 2> why | tape cart.img append notes
  > echo not reached
  > END
  appended 2 10240 6 6
  [2]
  $ sed -n 1p why
  tar: missing: Cannot stat: No such file or directory
  $ tape cart.img list
  1 3 5 61440 1970-01-01T00:00:00 notes
  2 6 6 10240 1970-01-01T00:00:00 notes
  volumes 2
  $ tape cart.img restore 2 | tar -t
  page
  $ head -c 5000 notes/numbers | (cat; exit 1) | tape cart.img append cut; echo "${PIPESTATUS[@]}"
  appended 3 5000 7 7
  0 1 0

With a file between nothing is appended, and with a promised length nothing is listed.

  $ recipe << 'END'
  > tar -c -f notes.tar -C notes page missing 2> why
  > tape cart.img append notes < notes.tar
  > END
  [2]
  $ recipe << 'END'
  > { echo "append numbers $(stat -c %s notes/numbers)"; cat notes/numbers; } | tape cart.img script
  > END
  appended 4 48894 8 9
  end
  $ { echo 'append numbers 48894'; head -c 1000 notes/numbers; } | tape cart.img script; echo "${PIPESTATUS[@]}"
  tape: input fault in line 1 at byte 0
  tape: cart.img: the line is not valid; those before it were carried out
  0 3
  $ tape cart.img list | tail -n 1
  volumes 4

A restore that fails gives the bytes before the segment that it names, and `tar` the files that are whole there.

  $ tape cart.img restore 4 | cmp - notes/numbers
  $ for sector in 0 1 2 3; do tape cart.img lose 4 $sector; done > lost
  $ tape cart.img restore 1 2> why | tar -x -C part 2>> why; echo "${PIPESTATUS[@]}"
  11 2
  $ grep tape why
  tape: segment 4 lost 4 sectors
  tape: cart.img: the output is incomplete: it ends before segment 4; tape_salvage gives what is left
  $ cmp part/page notes/page
  $ cmp part/numbers <(head -c 28160 notes/numbers)

A salvage gives what lies behind, too. Segment 3 carries 29,696 bytes of the volume, and the first 4,096 of segment 4 are lost: those
of `numbers` from 28,160 on, since 1,536 bytes stand before it in the archive.

  $ recipe << 'END'
  > tape_export --map cart.map cart.img > cart.dump
  > tape_salvage --map cart.map --sure notes.sure cart.dump volume 1 > notes.tar || echo "status $?"
  > tar -x -i -C part -f notes.tar
  > END
  tape_salvage: 57344 bytes read, 0 unchecked, 4096 filled
  status 1
  $ tail -n +5 notes.sure
  0x00000000  0x00007400  +
  0x00007400  0x00001000  -
  0x00008400  0x00006C00  +
  $ cmp part/page notes/page
  $ cmp -n 28160 part/numbers notes/numbers
  $ cmp -i 32256 part/numbers notes/numbers

  $ recipe << 'END'
  > tape cart.img restore 1 > notes.tar
  > echo not reached
  > END
  tape: segment 4 lost 4 sectors
  tape: cart.img: the output is incomplete: it ends before segment 4; tape_salvage gives what is left
  [11]
  $ wc -c < notes.tar
  29696

A cartridge that is full
------------------------

  $ empty full
  blank 3
  formatted 84 0
  $ empty next
  blank 3
  formatted 84 0
  $ head -c 2370000 /dev/zero | tape full.img append zeros
  appended 1 2370000 3 82
  $ tar -c -f notes.tar -C notes page numbers
  $ tape full.img append notes < notes.tar; echo status $?
  tape: full, need 29697 have 29696
  tape: full.img: there is room for a volume of 29696 bytes
  status 9
  $ recipe << 'END'
  > bytes=$(stat -c %s notes.tar)
  > room=$(tape full.img room)
  > room=${room#room }
  > if [ "$bytes" -le "$room" ]; then
  >     tape full.img append notes < notes.tar
  > else
  >     head -c "$room" notes.tar | tape full.img append notes-1
  >     tail -c "+$((room + 1))" notes.tar | tape next.img append notes-2
  > fi
  > rm back/page back/numbers
  > { tape full.img restore 2 && tape next.img restore 1; } | tar -x -C back
  > END
  appended 2 29696 83 83
  appended 1 31744 3 4
  $ diff -r notes back
  $ tape full.img room
  room 0

Two dumps of one tape
---------------------

The first lacks 16 sectors of segment 3, the second 30 of segment 4, and both lack the sectors 14 and 15 of segment 3. So
`ddrescue` reads them here, in a mode of its own that fails where a map says.

  $ empty tape
  blank 3
  formatted 84 0
  $ tape tape.img append numbers < notes/numbers
  appended 1 48894 3 4
  $ tape_export tape.img > tape.dump
  $ lacking() { ddrescuelog --block-size=1024 --size=2752512 --create-mapfile=-+ lacking.map; }
  $ seq 96 111 | lacking
  $ ddrescue --quiet --test-mode=lacking.map tape.dump first.dump first.map
  $ rm lacking.map
  $ seq 110 111 | cat - <(seq 130 159) | lacking
  $ ddrescue --quiet --test-mode=lacking.map tape.dump second.dump second.map

Neither gives the volume.

  $ for dump in first second; do
  >     tape_import --map $dump.map $dump.img < $dump.dump
  >     tape $dump.img restore 1 > part/numbers
  > done
  imported 84 16
  tape: segment 3 lost 16 sectors
  tape: first.img: the output is incomplete: it ends before segment 3; tape_salvage gives what is left
  imported 84 32
  tape: segment 4 lost 30 sectors
  tape: second.img: the output is incomplete: it ends before segment 4; tape_salvage gives what is left
  [11]

Both together do.

  $ recipe << 'END'
  > ddrescue --quiet --domain-mapfile=first.map first.dump both.dump both.map
  > ddrescue --quiet --domain-mapfile=second.map second.dump both.dump both.map
  > ddrescuelog --list-blocks='?*/-' --block-size=1024 both.map
  > tape_import --map both.map both.img < both.dump
  > tape both.img check || echo status $?
  > tape both.img restore 1 | cmp - notes/numbers
  > tape both.img scrub
  > tape_export both.img | cmp - tape.dump
  > END
  110
  111
  imported 84 2
  weak 3 2
  check 5 1 0
  tape: 1 segments can be mended, 0 not
  tape: both.img: damaged; see EXIT STATUS 21 in man tape
  status 21
  scrub 5 2 0

A dump without a map
--------------------

Two sectors of the volume were not read, and nothing says so.

  $ cp tape.dump old.dump
  $ unread() { dd if=/dev/zero of=old.dump bs=1024 seek=$1 count=$2 conv=notrunc status=none; }
  $ unread 97 2
  $ tape_import found.img < old.dump
  imported 84 0
  $ tape found.img check > said; echo status $?
  tape: 0 segments can be mended, 1 not
  tape: found.img: damaged; see EXIT STATUS 21 in man tape
  status 21
  $ cat said
  mismatch 3
  check 5 0 1
  $ recipe << 'END'
  > for segment in $(awk '$1 == "wrong" || $1 == "mismatch" { print $2 }' said); do
  >     for block in $(seq $((32 * segment)) $((32 * segment + 31))); do
  >         if cmp -s -n 1024 -i $((1024 * block)):0 old.dump /dev/zero; then echo "$block"; fi
  >     done
  > done > blocks
  > ddrescuelog --block-size=1024 --size="$(stat -c %s old.dump)" --create-mapfile=-+ guess.map < blocks
  > tape_import --map guess.map again.img < old.dump
  > END
  imported 84 2
  $ tape again.img check; echo status $?
  weak 3 2
  check 5 1 0
  tape: 1 segments can be mended, 0 not
  tape: again.img: damaged; see EXIT STATUS 21 in man tape
  status 21
  $ tape again.img scrub
  scrub 5 2 0
  $ tape again.img restore 1 | cmp - notes/numbers

A segment of which no sector was read is hidden.

  $ unread 96 32
  $ tape_import hidden.img < old.dump
  imported 84 0
  $ tape hidden.img check
  check 5 0 0
  $ tape hidden.img restore 1 > volume
  $ head -c 29696 volume | tr -d '\0' | wc -c
  0

A volume of other software
--------------------------

One with a directory of its own comes back as all that its segments carry. Here the entry of an archive is changed by hand: the byte
of its flags says that it is another program's, and its directory has 512 bytes.

  $ empty cart
  blank 3
  formatted 84 0
  $ tar -c -C notes page | tape cart.img append archive
  appended 1 10240 3 3
  $ put 2 0 56 '\3'
  $ put 2 0 92 '\0\2'
  $ tape cart.img list
  1 3 3 29696 1970-01-01T00:00:00 archive
  volumes 1
  $ tape cart.img restore 1 | tar -t
  page
  $ tape cart.img restore 1 | tail -c +10241 | tr -d '\0' | wc -c
  0
