What to do with dumps
=====================

  $ command -v ddrescue > /dev/null && command -v ddrescuelog > /dev/null || exit 80
  $ export PYTHONDONTWRITEBYTECODE=1

The recipes of DUMPS.md. The tape has an archive of 90 files.

  $ mkdir files
  $ for i in $(seq -w 10 99); do yes "this is file $i" | head -c $((i * 137 % 9000 + 1)) > "files/f$i"; done
  $ tar --format=ustar --sort=name --owner=0 --group=0 --mtime=@0 -c -C files $(ls files) > all.tar
  $ tape cart.img new 3
  blank 3
  $ tape cart.img format evening
  formatted 84 0
  $ tape cart.img append files < all.tar
  appended 1 440320 3 17
  $ lose() { for sector in $2; do tape cart.img lose $1 $sector; done > lost; }

How many segments a track
-------------------------

  $ tape_export cart.img > whole.dump
  $ tape_salvage whole.dump info | grep segments-per-track
  segments-per-track 3
  $ head -c 400000 whole.dump > short.dump
  $ tape_import --segments 3 short.img < short.dump
  imported 84 2298
  $ tape short.img list
  1 3 17 440320 1970-01-01T00:00:00 files
  volumes 1

A dump that is itself the volume
--------------------------------

  $ tar -t -f all.tar | wc -l
  90
  $ tape_salvage --form data all.tar list
  tape_salvage: no header
  [6]

Which files are damaged
-----------------------

Five sectors of segment 5 are lost, and five of segment 9: sectors with files' headers among them.

  $ lose 5 '0 1 2 3 4'
  $ lose 9 '10 11 12 13 28'
  $ tape_export --map lost.map cart.img > lost.dump
  $ tape_salvage --map lost.map --sure left.sure lost.dump volume 1 > left.tar
  tape_salvage: 430080 bytes read, 0 unchecked, 10240 filled
  [1]
  $ ddrescuelog --list-blocks=-/ --block-size=512 left.sure > blocks
  $ tar -t -R -i -f left.tar 2> why | sed 's/^block \([0-9]*\): /\1 /' > members
  $ awk 'NR == FNR { bad[$1]; next }
  >      name { for (b = start; b < $1; b++) if (b in bad) { print name; break } }
  >      { start = $1; sub(/^[0-9]+ /, ""); name = $0 }' blocks members | uniq > damaged

These are just the files that come out with other bytes. Those that do not come out at all have lost their names.

  $ mkdir out
  $ tar -x -i -C out -f left.tar 2> why
  [2]
  $ for f in $(ls out); do cmp -s "files/$f" "out/$f" || echo "$f"; done > differ
  $ grep -v '[*]' damaged | diff - differ
  $ ls out | wc -l
  88
  $ cat damaged
  ** Block of NULs **
  f49
  f51

A lost volume table
-------------------

  $ lose 2 '0 1 2 3'
  $ tape_export --map table.map cart.img > table.dump
  $ tape_salvage --map table.map table.dump list 2> why | tail -n 1
  volumes 0
  $ tape_salvage --map table.map table.dump info 2> why | grep data
  first-data 2
  last-data 83
  $ tape_salvage --map table.map table.dump segments 2 83 2> why | tar -t -i 2> why | head -n 2
  f10
  f11

Two damaged copies of the header
--------------------------------

  $ lose 0 '0 1 2 3'
  $ lose 1 '4 5 6 7'
  $ tape_export --map tape.map cart.img > tape.dump
  $ tape_salvage --map tape.map tape.dump info | grep header
  header none
  $ : > none
  $ for s in 0 1; do
  >   tape_salvage --map tape.map --bad none --sure copy$s.sure tape.dump segments $s $s > copy$s.head || test $? = 1
  >   ddrescue --domain-mapfile=copy$s.sure copy$s.head both.head both.head.map > said
  > done
  tape_salvage: 25600 bytes read, 0 unchecked, 4096 filled
  tape_salvage: 25600 bytes read, 0 unchecked, 4096 filled
  $ tape_salvage --map tape.map --header both.head tape.dump info 2> why | grep -E 'header|label|per-track'
  header given
  label evening
  segments-per-track 3

Two dumps of the data of one tape
---------------------------------

Both begin with the volume table, and each lacks other segments.

  $ for segment in $(seq 2 83); do
  >   dd if=whole.dump bs=1024 skip=$((32 * segment)) count=29 status=none
  > done > data
  $ data() { dd if=data bs=29696 skip=$(($1 - 2)) count=$(($2 - $1 + 1)) status=none; }
  $ { data 2 4; data 8 83; } > 1.dump; echo '5 7' > 1.missing
  $ { data 2 9; data 12 83; } > 2.dump; echo '10 11' > 2.missing
  $ : > bad
  $ for n in 1 2; do
  >   tape_salvage --form data --bad bad --missing $n.missing --sure $n.sure $n.dump segments 2 83 > $n.full || test $? = 1
  >   ddrescue --domain-mapfile=$n.sure $n.full both.full both.map > said
  > done
  tape_salvage: 2345984 bytes read, 0 unchecked, 89088 filled
  tape_salvage: 2375680 bytes read, 0 unchecked, 59392 filled
  $ cmp both.full data
  $ tape_salvage --form data --first 2 --bad bad --map both.map both.full list
  1 3 17 440320 1970-01-01T00:00:00 files
  volumes 1
  $ tape_salvage --form data --first 2 --bad bad --map both.map both.full volume 1 | cmp - all.tar
