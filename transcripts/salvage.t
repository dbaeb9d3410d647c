Dumps of real tapes
===================

  $ command -v tape_salvage > /dev/null || exit 80
  $ command -v ddrescue > /dev/null && command -v ddrescuelog > /dev/null || exit 80
  $ export PYTHONDONTWRITEBYTECODE=1

`tape_salvage` reads dumps as they are: it tells which volumes a dump holds, and gives each of them as far as anything of it is
left. Here the dump is that of a cartridge with a volume of one segment, which has lost three sectors of 32.

  $ tape i.img new 3
  blank 3
  $ tape i.img format evening
  formatted 84 0
  $ echo 'a page of text' | tape i.img append page
  appended 1 15 3 3
  $ for sector in 0 1 2; do tape i.img lose 3 $sector; done
  lost 3 0
  lost 3 1
  lost 3 2
  $ tape_export --map i.map i.img > i.dump
  $ tape_salvage --map i.map i.dump info
  form sectors
  bytes 2752512
  segments 84
  header 0
  label evening
  formatted 1970-01-01T00:00:00
  format-code 2
  tracks 28
  segments-per-track 3
  first-data 2
  last-data 83
  bad-sectors 0
  volumes 1
  $ tape_salvage --map i.map i.dump list
  1 3 3 15 1970-01-01T00:00:00 page
  volumes 1
  $ tape_salvage --map i.map i.dump check
  weak 3 3
  check 84 1 0
  tape_salvage: 1 segments can be mended, 0 not
  [1]
  $ tape_salvage --map i.map --sure i.sure i.dump volume 1
  a page of text
  tape_salvage: 0 bytes read, 15 unchecked, 0 filled
  [1]
  $ cat i.sure
  # Mapfile. Created by tape_salvage
  # current_pos  current_status  current_pass
  0x00000000     +               1
  #      pos        size  status
  0x00000000  0x0000000F  /

The bytes were computed from the parity, and nothing was left to check them by. The sectors that are not asked for are not told
of: segment 3 carries 29,696 bytes, of which the first three sectors were lost.

  $ tape_salvage --map i.map --sure whole.sure --whole i.dump volume 1 > whole
  tape_salvage: 26624 bytes read, 3072 unchecked, 0 filled
  [1]
  $ head -n 1 whole | tr -d '\0'
  a page of text
  $ tail -n 2 whole.sure
  0x00000000  0x00000C00  /
  0x00000C00  0x00006800  +
  $ tape_salvage --map i.map i.dump segments 3 3 2> why | cmp - whole
  $ cat why
  tape_salvage: 26624 bytes read, 3072 unchecked, 0 filled
  $ tape_salvage --map i.map i.dump segments 0 1 > headers
  $ wc -c < headers
  59392
  $ od -An -N 4 -tx1 headers
   55 aa 55 aa
  $ tape_salvage --map i.map i.dump segments 4 83 | tr -d '\0' | wc -c
  0

Where a fourth one is lost nothing can be computed: zero bytes stand in the place of the volume.

  $ tape i.img lose 3 4
  lost 3 4
  $ tape_export --map ii.map i.img > ii.dump
  $ tape_salvage --map ii.map ii.dump list
  1 3 3 15 1970-01-01T00:00:00 page
  volumes 1
  $ tape_salvage --map ii.map ii.dump check
  lost 3 4
  check 84 0 1
  tape_salvage: 0 segments can be mended, 1 not
  [1]
  $ tape_salvage --map ii.map --sure ii.sure ii.dump volume 1 > page
  tape_salvage: 0 bytes read, 0 unchecked, 15 filled
  [1]
  $ od -An -v -tx1 page
   00 00 00 00 00 00 00 00 00 00 00 00 00 00 00
  $ tail -n 1 ii.sure
  0x00000000  0x0000000F  -

Behind the lost sectors the bytes that were read are given at their places.

  $ tape_salvage --map ii.map --sure rest.sure --whole ii.dump volume 1 > rest
  tape_salvage: 25600 bytes read, 0 unchecked, 4096 filled
  [1]
  $ tail -n +5 rest.sure
  0x00000000  0x00000C00  -
  0x00000C00  0x00000400  +
  0x00001000  0x00000400  -
  0x00001400  0x00006000  +
  $ ddrescuelog --show-status rest.sure | grep -E 'rescued|bad-sector'
         rescued:    25600 B,  in      2 area(s)  ( 86.21%)
      bad-sector:     4096 B,  in      2 area(s)  ( 13.79%)
  $ ddrescuelog --list-blocks=- --block-size=1024 rest.sure
  0
  1
  2
  4

The data alone
--------------

The Linux driver hands out the data of each segment, 29 sectors where none is bad, and never its parity. A dump of this form is
asked for with its form.

  $ for segment in $(seq 0 83); do
  >   dd if=ii.dump bs=1024 skip=$((32 * segment)) count=29 status=none
  > done > iii.dump
  $ tape_salvage --form data iii.dump info
  form data
  bytes 2494464
  segments 84
  header 0
  label evening
  formatted 1970-01-01T00:00:00
  format-code 2
  tracks 28
  segments-per-track 3
  first-data 2
  last-data 83
  bad-sectors 0
  volumes 1
  $ tape_salvage --form data iii.dump list
  1 3 3 15 1970-01-01T00:00:00 page
  volumes 1
  $ tape_salvage --form data iii.dump check
  check 84 0 0
  $ tape_salvage --form data --sure iii.sure iii.dump volume 1 | od -An -v -tx1
   00 00 00 00 00 00 00 00 00 00 00 00 00 00 00
  $ tail -n 1 iii.sure
  0x00000000  0x0000000F  +

No map says here that four sectors were not read, so their zero bytes are told as read. With one they are lost. Taken for a dump
of all sectors it has no header: what stands in the place of the parity is the data of the segment behind.

  $ printf '0 +\n0 89088 +\n89088 3072 -\n92160 1024 +\n93184 1024 -\n94208 2400256 +\n' > iii.map
  $ tape_salvage --form data --map iii.map iii.dump check
  lost 3 4
  check 84 0 1
  tape_salvage: 0 segments can be mended, 1 not
  [1]
  $ tape_salvage --form data --map iii.map iii.dump volume 1 | tr -d '\0' | wc -c
  tape_salvage: 0 bytes read, 0 unchecked, 15 filled
  0
  $ tape_salvage iii.dump info
  form sectors
  bytes 2494464
  segments 77
  header none
  volumes 0
  $ tape_salvage iii.dump list
  tape_salvage: no header
  [6]

From such a dump to a file: a dump begins with the data of segment 2, where what read the tape left the headers out.

  $ mkdir notes
  $ seq 10000 > notes/numbers
  $ tape tar.img new 3
  blank 3
  $ tape tar.img format notes
  formatted 84 0
  $ tar -c -C notes --mtime=@0 --owner=0 --group=0 --sort=name numbers | tape tar.img append notes
  appended 1 51200 3 4
  $ tape_export tar.img > tar.dump
  $ for segment in $(seq 2 83); do
  >   dd if=tar.dump bs=1024 skip=$((32 * segment)) count=29 status=none
  > done > data.dump
  $ tape_salvage --form data data.dump info
  form data
  bytes 2435072
  segments 82
  header none
  volumes 1
  $ tape_salvage --form data data.dump list
  1 3 4 51200 1970-01-01T00:00:00 notes
  volumes 1
  $ tape_salvage --form data --sure notes.sure data.dump volume 1 > notes.tar
  $ ddrescuelog --done-status notes.sure && tar -x -O -f notes.tar | cmp - notes/numbers

What was salvaged is a volume again.

  $ tape back.img new 3
  blank 3
  $ tape back.img format notes
  formatted 84 0
  $ tape_salvage --form data data.dump volume 1 | tape back.img append notes
  appended 1 51200 3 4
  $ tape back.img restore 1 | cmp - notes.tar

What is left of an archive. Its blocks have 512 bytes: one for each file's header, 96 for the 48,894 bytes of the first file, one
for the second, and then zero bytes. Of segment 3 the sectors 2 to 5 were not read, which are the blocks 4 to 11.

  $ mkdir left
  $ echo 'a page of text' > notes/page
  $ tape lost.img new 3
  blank 3
  $ tape lost.img format notes
  formatted 84 0
  $ tar -c -C notes numbers page | tape lost.img append notes
  appended 1 61440 3 5
  $ tape_export lost.img > whole.dump
  $ seq 98 101 | ddrescuelog --block-size=1024 --size=2752512 --create-mapfile=-+ unread.map
  $ ddrescue --quiet --test-mode=unread.map whole.dump lost.dump lost.map
  $ tape_salvage --map lost.map --sure left.sure lost.dump volume 1 > left.tar
  tape_salvage: 57344 bytes read, 0 unchecked, 4096 filled
  [1]
  $ ddrescuelog --list-blocks=- --block-size=512 left.sure | xargs
  4 5 6 7 8 9 10 11
  $ tar -t -R -i -f left.tar | grep -v NULs
  block 0: numbers
  block 97: page
  block 120: ** End of File **
  $ tar -x -i -C left -f left.tar
  $ cmp left/page notes/page
  $ cmp -n 1536 left/numbers notes/numbers
  $ head -c 5632 left/numbers | tail -c 4096 | tr -d '\0' | wc -c
  0
  $ cmp -i 5632 left/numbers notes/numbers

Where the first header is among the lost, `tar` takes the zero bytes in its place for the end of the archive. With `-i` it goes on.

  $ seq 96 99 | ddrescuelog --block-size=1024 --size=2752512 --create-mapfile=-+ front.map
  $ tape_salvage --map front.map whole.dump volume 1 > front.tar
  tape_salvage: 57344 bytes read, 0 unchecked, 4096 filled
  [1]
  $ tar -t -f front.tar
  $ tar -t -i -f front.tar 2> why
  page
  [2]

`tape` gives no byte of such a volume, and all of it where one sector less is lost.

  $ tape_import --map lost.map none.img < lost.dump
  imported 84 4
  $ tape none.img restore 1 | wc -c
  tape: segment 3 lost 4 sectors
  tape: none.img: the output is incomplete: it ends before segment 3; tape_salvage gives what is left
  0
  $ rm unread.map
  $ seq 98 100 | ddrescuelog --block-size=1024 --size=2752512 --create-mapfile=-+ unread.map
  $ ddrescue --quiet --test-mode=unread.map whole.dump three.dump three.map
  $ tape_import --map three.map all.img < three.dump
  imported 84 3
  $ tape all.img list
  1 3 5 61440 1970-01-01T00:00:00 notes
  volumes 1
  $ tape all.img restore 1 | tar -x -C left
  $ diff -r notes left
  $ rm unread.map

Read with ddrescue
------------------

A reading with unread sectors, as `--test-mode` plays it: those of the first map fail. The volume has two segments, which lost
three and four sectors of it.

  $ tape two.img new 3
  blank 3
  $ tape two.img format evening
  formatted 84 0
  $ tape two.img append numbers < notes/numbers
  appended 1 48894 3 4
  $ tape_export two.img > two.dump
  $ printf '%s\n' 99 104 126 130 141 142 159 |
  >   ddrescuelog --block-size=1024 --size=2752512 --create-mapfile=-+ unread.map
  $ ddrescue --quiet --test-mode=unread.map two.dump read.dump read.map
  $ tape_salvage --map read.map read.dump check
  weak 3 3
  lost 4 4
  check 84 1 1
  tape_salvage: 1 segments can be mended, 1 not
  [1]
  $ tape_salvage --map read.map --sure two.sure read.dump volume 1 > numbers
  tape_salvage: 43774 bytes read, 2048 unchecked, 3072 filled
  [1]
  $ tail -n +5 two.sure
  0x00000000  0x00000C00  +
  0x00000C00  0x00000400  /
  0x00001000  0x00001000  +
  0x00002000  0x00000400  /
  0x00002400  0x00005800  +
  0x00007C00  0x00000400  -
  0x00008000  0x00002800  +
  0x0000A800  0x00000800  -
  0x0000B000  0x00000EFE  +

Segment 3 has lost the sectors 3, 8 and 30, the last one of parity, and the two others are computed. Of segment 4 the sectors 2,
13 and 14 are lost, and 31, a parity sector: 29,696 + 2,048 bytes stand before the first of them. What is told as read is so.

  $ cmp numbers notes/numbers
  numbers notes/numbers differ: char 31745, line 6571
  [1]
  $ cmp -n 31744 numbers notes/numbers
  $ cmp -i 32768 -n 10240 numbers notes/numbers
  $ cmp -i 45056 numbers notes/numbers
  $ ddrescuelog --show-status two.sure | grep -E 'rescued|non-scraped|bad-sector'
         rescued:    43774 B,  in      5 area(s)  ( 89.53%)
     non-scraped:     2048 B,  in      2 area(s)  (  4.19%)
      bad-sector:     3072 B,  in      2 area(s)  (  6.28%)
  $ ddrescuelog --list-blocks=- --block-size=1024 two.sure
  31
  42
  43
  $ ddrescuelog --list-blocks=/ --block-size=1024 two.sure
  3
  8

Sectors that contradict
-----------------------

A sector that holds other bytes is found where at most one more is lost: of the first page sector 5 was overwritten.

  $ cp two.dump wrong.dump
  $ printf 'rotten' | dd of=wrong.dump bs=1024 seek=101 conv=notrunc status=none
  $ tape_salvage wrong.dump check
  wrong 3 5
  check 84 1 0
  tape_salvage: 1 segments can be mended, 0 not
  [1]
  $ tape_salvage --sure wrong.sure wrong.dump volume 1 | cmp - notes/numbers
  tape_salvage: 47870 bytes read, 1024 unchecked, 0 filled
  $ tail -n +5 wrong.sure
  0x00000000  0x00001400  +
  0x00001400  0x00000400  /
  0x00001800  0x0000A6FE  +
  $ printf '0 +\n0 99328 +\n99328 1024 -\n100352 2652160 +\n' > one.map
  $ tape_salvage --map one.map wrong.dump check
  wrong 3 5
  check 84 1 0
  tape_salvage: 1 segments can be mended, 0 not
  [1]
  $ tape_salvage --map one.map --sure one.sure wrong.dump volume 1 | cmp - notes/numbers
  tape_salvage: 46846 bytes read, 2048 unchecked, 0 filled
  $ tail -n +5 one.sure
  0x00000000  0x00000400  +
  0x00000400  0x00000400  /
  0x00000800  0x00000C00  +
  0x00001400  0x00000400  /
  0x00001800  0x0000A6FE  +

With two more that are lost, or with two that hold other bytes, all that is known is that the segment doesn't agree: none of its
bytes is sure.

  $ printf '0 +\n0 99328 +\n99328 2048 -\n101376 2651136 +\n' > two.map
  $ tape_salvage --map two.map wrong.dump check
  mismatch 3
  check 84 0 1
  tape_salvage: 0 segments can be mended, 1 not
  [1]
  $ tape_salvage --map two.map --sure contra.sure wrong.dump volume 1 > contra
  tape_salvage: 19198 bytes read, 27648 unchecked, 2048 filled
  [1]
  $ tail -n +5 contra.sure
  0x00000000  0x00000400  /
  0x00000400  0x00000800  -
  0x00000C00  0x00006800  /
  0x00007400  0x00004AFE  +
  $ printf 'rotten' | dd of=wrong.dump bs=1024 seek=102 conv=notrunc status=none
  $ tape_salvage wrong.dump check
  mismatch 3
  check 84 0 1
  tape_salvage: 0 segments can be mended, 1 not
  [1]
  $ tape_salvage wrong.dump volume 1 > contra
  tape_salvage: 19198 bytes read, 29696 unchecked, 0 filled
  [1]
  $ cmp -i 29696 contra notes/numbers

`dd conv=noerror,sync` leaves zero bytes in the place of what it couldn't read, and no map. Two sectors of segment 3 contradict the
others so; with `--zero-lost` they count as lost, and the segment reads.

  $ cp two.dump zeros.dump
  $ for sector in 100 103; do
  >   dd if=/dev/zero of=zeros.dump bs=1024 seek=$sector count=1 conv=notrunc status=none
  > done
  $ tape_salvage zeros.dump check
  mismatch 3
  check 84 0 1
  tape_salvage: 0 segments can be mended, 1 not
  [1]
  $ tape_salvage --zero-lost zeros.dump check
  weak 3 2
  check 84 1 0
  tape_salvage: 1 segments can be mended, 0 not
  [1]
  $ tape_salvage --zero-lost zeros.dump volume 1 | cmp - notes/numbers
  $ for sector in 129 131 133 135; do
  >   dd if=/dev/zero of=zeros.dump bs=1024 seek=$sector count=1 conv=notrunc status=none
  > done
  $ tape_salvage zeros.dump check
  mismatch 3
  mismatch 4
  check 84 0 2
  tape_salvage: 0 segments can be mended, 2 not
  [1]
  $ tape_salvage --zero-lost zeros.dump check
  weak 3 2
  lost 4 14
  check 84 1 1
  tape_salvage: 1 segments can be mended, 1 not
  [1]
  $ tape_salvage --zero-lost --sure zeros.sure zeros.dump volume 1 > zeros
  tape_salvage: 44798 bytes read, 0 unchecked, 4096 filled
  [1]
  $ tail -n +5 zeros.sure
  0x00000000  0x00007800  +
  0x00007800  0x00000400  -
  0x00007C00  0x00000400  +
  0x00008000  0x00000400  -
  0x00008400  0x00000400  +
  0x00008800  0x00000400  -
  0x00008C00  0x00000400  +
  0x00009000  0x00000400  -
  0x00009400  0x00002AFE  +

Where one sector of a segment was read, all others agree with each other as zero bytes, so it is that one that is taken for wrong.
Where none was, nothing tells of it.

  $ cp two.dump alone.dump
  $ for sector in $(seq 96 100) $(seq 102 127); do
  >   dd if=/dev/zero of=alone.dump bs=1024 seek=$sector count=1 conv=notrunc status=none
  > done
  $ tape_salvage --zero-lost alone.dump check
  wrong 3 5
  check 84 1 0
  tape_salvage: 1 segments can be mended, 0 not
  [1]
  $ tape_salvage alone.dump volume 1 > alone.bytes; head -c 29696 alone.bytes | tr -d '\0' | wc -c
  tape_salvage: 47870 bytes read, 1024 unchecked, 0 filled
  0
  $ dd if=/dev/zero of=alone.dump bs=1024 seek=101 count=1 conv=notrunc status=none
  $ tape_salvage --zero-lost alone.dump check
  check 84 0 0
  $ tape_salvage alone.dump volume 1 > alone.bytes; head -c 29696 alone.bytes | tr -d '\0' | wc -c
  0

The volume table may be one of the segments that contradict. A line tells of it, before all others, and changes no status.

  $ cp two.dump table.dump
  $ for sector in 69 70; do
  >   printf 'rotten' | dd of=table.dump bs=1024 seek=$sector conv=notrunc status=none
  > done
  $ tape_salvage table.dump list
  1 3 4 48894 1970-01-01T00:00:00 numbers
  volumes 1
  tape_salvage: the volume table is not sure
  $ tape_salvage table.dump volume 1 | cmp - notes/numbers
  tape_salvage: the volume table is not sure
  $ tape_salvage table.dump volume 2
  tape_salvage: the volume table is not sure
  tape_salvage: no volume 2 of 1
  [10]
  $ tape_salvage table.dump info | tail -n 1
  tape_salvage: the volume table is not sure
  volumes 1
  $ tape_salvage table.dump check
  mismatch 2
  check 84 0 1
  tape_salvage: 0 segments can be mended, 1 not
  [1]
  $ tape_salvage table.dump segments 3 3 | cmp - <(head -c 29696 notes/numbers)

So it is with a table of which three sectors were computed. With two, all of it was checked.

  $ printf '0 +\n0 65536 +\n65536 3072 -\n68608 2683904 +\n' > three.map
  $ tape_salvage --map three.map two.dump list
  1 3 4 48894 1970-01-01T00:00:00 numbers
  volumes 1
  tape_salvage: the volume table is not sure
  $ printf '0 +\n0 65536 +\n65536 2048 -\n67584 2684928 +\n' > less.map
  $ tape_salvage --map less.map two.dump list
  1 3 4 48894 1970-01-01T00:00:00 numbers
  volumes 1

Tapes of other formats
----------------------

`foreign.py` writes dumps from the tables of the formats. This one has the format code 4, its headers in the segments 3 and 5, a
list of bad sectors and a slot that is no volume.

  $ foreign() { python3 "$TESTDIR/foreign.py" "$@"; }
  $ foreign iv.dump << 'END'
  > code 4
  > segments 40
  > headers 3 5
  > data 6 39
  > tracks 40
  > per-track 150
  > label holiday pictures
  > formatted 1994-12-24T18:30:00
  > bad 8 1
  > bad 9
  > volume 7 10 60000 C:\PICTURES
  > date 1994-12-24T18:30:00
  > slot XTBL
  > END
  $ sha256sum < iv.dump
  dda6b11b32cdc7c72e6220544dda2e4386527b6e9bb08148fe9c5ae52e86a91c  -
  $ tape_salvage iv.dump info
  form sectors
  bytes 1310720
  segments 40
  header 3
  label holiday pictures
  formatted 1994-12-24T18:30:00
  format-code 4
  tracks 40
  segments-per-track 150
  first-data 6
  last-data 39
  bad-sectors 33
  volumes 1
  $ tape_salvage iv.dump list
  1 7 10 60000 1994-12-24T18:30:00 C:\PICTURES
  volumes 1
  $ tape_salvage iv.dump check
  check 39 0 0
  $ tape_salvage --sure iv.sure iv.dump volume 1 | sha256sum
  118e2d95ccaf5bb438966786eb931b7dbc509b82a05578d16219c13514e50e2c  -
  $ tail -n +5 iv.sure
  0x00000000  0x0000EA60  +

With `--whole` it is all that the segments 7, 8 and 10 carry: 29 + 28 + 29 sectors.

  $ tape_salvage --whole iv.dump volume 1 | wc -c
  88064
  $ tape_salvage --whole iv.dump volume 1 | tail -c +60001 | tr -d '\0' | wc -c
  0

Code 2 with other places, from a drive that found a bad track first: headers in 5 and 6, the table in 8. Slots of other kinds stand
among those of volumes. A volume with a directory, or one that is compressed, has all that its segments carry for its length; so
has one of more bytes than they carry. A range that ends before it begins, or begins with the table, is told as `?`.

  $ tape_2() {
  >   cat << 'END'
  > segments 20
  > headers 5 6
  > data 8 19
  > label two
  > bad 9 0 31
  > volume 9 10 50000 first
  > slot UTID
  > volume 11 11 10 directory
  > directory 512
  > slot EXVT
  > volume 12 12 10 compressed
  > flags 0x80
  > volume 13 13 29697 long
  > volume 13 13 29696 just
  > volume 15 14 10 backwards
  > volume 8 9 10 table
  > volume 19 19 3 last
  > slot none
  > volume 16 17 10 hidden
  > END
  > }
  $ tape_2 | foreign 2.dump
  $ tape_salvage 2.dump info
  form sectors
  bytes 655360
  segments 20
  header 5
  label two
  formatted 1970-01-01T00:00:00
  format-code 2
  tracks 28
  segments-per-track 3
  first-data 8
  last-data 19
  bad-sectors 2
  volumes 8
  $ tape_salvage 2.dump list
  1 9 10 50000 1970-01-01T00:00:00 first
  2 11 11 29696 1970-01-01T00:00:00 directory
  3 12 12 29696 1970-01-01T00:00:00 compressed
  4 13 13 29696 1970-01-01T00:00:00 long
  5 13 13 29696 1970-01-01T00:00:00 just
  6 ? ? 0 1970-01-01T00:00:00 backwards
  7 ? ? 0 1970-01-01T00:00:00 table
  8 19 19 3 1970-01-01T00:00:00 last
  volumes 8
  $ bytes_of() { python3 -c "import sys; sys.stdout.buffer.write(bytes((k + 17 * $1 - 17) % 251 for k in range($2)))"; }
  $ tape_salvage 2.dump volume 1 | cmp - <(bytes_of 1 50000)
  $ tape_salvage 2.dump volume 3 | wc -c
  29696
  $ tape_salvage 2.dump volume 8 | od -An -tu1
   119 120 121
  $ tape_salvage 2.dump volume 6
  tape_salvage: volume 6 has a bad range
  [10]
  $ tape_salvage --whole 2.dump volume 6
  tape_salvage: volume 6 has a bad range
  [10]
  $ tape_salvage 2.dump volume 9
  tape_salvage: no volume 9 of 8
  [10]

The data alone of this tape are 20 segments of 29 sectors, less two. Without the signature in front they are taken to begin with
segment 2; that they begin with segment 0 is said, and then the header is found.

  $ { tape_2; echo form data; } | foreign 2data.dump
  $ stat -c %s 2data.dump
  591872
  $ tape_salvage --form data 2data.dump info
  form data
  bytes 591872
  segments 20
  header none
  volumes 0
  $ tape_salvage --form data --first 0 2data.dump info | sed -n '2,5p; 12,13p'
  bytes 591872
  segments 20
  header 5
  label two
  bad-sectors 2
  volumes 8
  $ tape_salvage --form data --first 0 2data.dump list | sed -n '1,2p'
  1 9 10 50000 1970-01-01T00:00:00 first
  2 11 11 29696 1970-01-01T00:00:00 directory
  $ tape_salvage --form data --first 0 2data.dump volume 1 | cmp - <(bytes_of 1 50000)

Where sectors in front of the header are bad its place depends on its own map, so it isn't found, and another reading gives it.

  $ { tape_2; echo bad 1 3 4 5; echo form data; } | foreign 2bad.dump
  $ { tape_2; echo bad 1 3 4 5; } | foreign 2all.dump
  $ tape_salvage --form data --first 0 2bad.dump list
  tape_salvage: no header
  [6]
  $ tape_salvage 2all.dump segments 5 5 > 2.header
  $ tape_salvage --form data --first 0 --header 2.header 2bad.dump info | sed -n '2,5p; 12,13p'
  bytes 588800
  segments 20
  header given
  label two
  bad-sectors 5
  volumes 8
  $ tape_salvage --form data --first 0 --header 2.header 2bad.dump volume 1 | cmp - <(bytes_of 1 50000)

Code 3 has a list at byte 2,048, code 5 a map as code 2, and code 6 segments of four bytes; its slots count segments from behind the
table on. The entries of a list come in any order, and one that names nothing ends nothing.

  $ foreign 3.dump << 'END'
  > code 3
  > segments 12
  > label three
  > bad 4 7
  > entry 0x800000
  > entry 0xffffff
  > entry 129
  > volume 3 5 80000 three
  > END
  $ tape_salvage 3.dump info | sed -n '4,5p; 7p; 12p'
  header 0
  label three
  format-code 3
  bad-sectors 2
  $ tape_salvage 3.dump list
  1 3 5 80000 1970-01-01T00:00:00 three
  volumes 1
  $ foreign 5.dump << 'END'
  > code 5
  > segments 12
  > bad 4 7
  > bad 4 0
  > volume 3 5 80000 five
  > form data
  > END
  $ tape_salvage --form data 5.dump info | sed -n '2,5p; 7p; 12p'
  bytes 354304
  segments 12
  header 0
  label foreign tape
  format-code 5
  bad-sectors 2
  $ tape_salvage --form data 5.dump volume 1 | wc -c
  80000
  $ tape_salvage --form data 5.dump check
  check 12 0 0
  $ foreign 6.dump << 'END'
  > code 6
  > segments 12
  > bad 4 7
  > volume 3 2 50000 one
  > volume 5 1 10 two
  > volume 6 0 10 none
  > volume 6 70000 10 far
  > volume 70006 1 10 behind
  > END
  $ tape_salvage 6.dump list
  1 3 4 50000 1970-01-01T00:00:00 one
  2 5 5 10 1970-01-01T00:00:00 two
  3 ? ? 0 1970-01-01T00:00:00 none
  4 ? ? 0 1970-01-01T00:00:00 far
  5 ? ? 0 1970-01-01T00:00:00 behind
  volumes 5
  $ tape_salvage 6.dump volume 2 | od -An -tu1
    17  18  19  20  21  22  23  24  25  26

Segments that lack, and a header from a file
--------------------------------------------

A reading that dropped segments has those behind them too far in front. A list tells which lack; they are lost.

  $ tape_3() {
  >   cat << 'END'
  > segments 12
  > volume 3 6 100000 four
  > END
  > }
  $ tape_3 | foreign whole.dump
  $ { tape_3; echo dropped 1 4; } | foreign lacking.dump
  $ stat -c %s lacking.dump
  327680
  $ tape_salvage lacking.dump check
  check 10 0 0
  $ tape_salvage lacking.dump list
  volumes 0
  $ printf '# the reading stopped twice\n1\n\n004 4\n' > lacking
  $ tape_salvage --missing lacking lacking.dump info | sed -n '3,4p'
  segments 10
  header 0
  $ tape_salvage --missing lacking lacking.dump list
  1 3 6 100000 1970-01-01T00:00:00 four
  volumes 1
  $ tape_salvage --missing lacking --sure four.sure lacking.dump volume 1 > four
  tape_salvage: 70304 bytes read, 0 unchecked, 29696 filled
  [1]
  $ tail -n +5 four.sure
  0x00000000  0x00007400  +
  0x00007400  0x00007400  -
  0x0000E800  0x00009EA0  +
  $ tape_salvage whole.dump volume 1 > all
  $ cmp -n 29696 four all
  $ cmp -i 59392 four all

`tape_import` can't be told of it: what it makes is as whole as before, and wrong. Of the volume in the segments 3 and 4, whose
48,894 bytes are 29,696 and 19,198, it has the last ones in front.

  $ { head -c 98304 two.dump; tail -c +131073 two.dump; } > shifted.dump
  $ tape_import shifted.img < shifted.dump
  tape_import: 2719744 bytes are no cartridge
  [4]
  $ tape_import --segments 3 shifted.img < shifted.dump
  imported 84 32
  $ tape shifted.img check
  check 5 0 0
  $ tape shifted.img restore 1 > shifted
  $ cmp -n 19198 -i 0:29696 shifted notes/numbers
  $ tail -c +19199 shifted | tr -d '\0' | wc -c
  0
  $ echo 3 > dropped
  $ tape_salvage --missing dropped shifted.dump volume 1 | cmp -i 29696 - notes/numbers
  tape_salvage: 19198 bytes read, 0 unchecked, 29696 filled

The same with the data alone; and of a dump that begins in the middle.

  $ { tape_3; echo dropped 1 4; echo form data; } | foreign data.dump
  $ tape_salvage --form data --missing lacking data.dump volume 1 2> why | cmp - four
  $ cat why
  tape_salvage: 70304 bytes read, 0 unchecked, 29696 filled
  $ { tape_3; echo first 4; } | foreign part.dump
  $ tape_salvage part.dump list
  tape_salvage: no header
  [6]
  $ tape_salvage --first 4 part.dump info
  form sectors
  bytes 262144
  segments 8
  header none
  volumes 0
  $ tape_salvage --first 4 part.dump segments 4 6 | cmp - <(tape_salvage whole.dump segments 4 6)
  $ tape_salvage --first 4 part.dump list
  tape_salvage: no header
  [6]

With the header of another reading there is a table, but its segment is lost.

  $ tape_salvage whole.dump segments 0 0 > header
  $ tape_salvage --first 4 --header header part.dump list
  volumes 0
  tape_salvage: the volume table is not sure

A dump that ends early has lost the sectors of which it lacks a byte.

  $ head -c 100000 whole.dump > short.dump
  $ tape_salvage short.dump info | sed -n '2,3p'
  bytes 100000
  segments 4
  $ tape_salvage short.dump check
  lost 3 31
  check 4 0 1
  tape_salvage: 0 segments can be mended, 1 not
  [1]
  $ tape_salvage short.dump volume 1 > front
  tape_salvage: 1024 bytes read, 0 unchecked, 98976 filled
  [1]
  $ cmp -n 1024 front all

Sectors that are bad and in no map are named by a list.

  $ { tape_3; echo worn 3 9 20; echo worn 5; } | foreign worn.dump
  $ tape_salvage worn.dump check
  mismatch 3
  mismatch 5
  check 12 0 2
  tape_salvage: 0 segments can be mended, 2 not
  [1]
  $ printf '3 9\r\n3\t20\r\n5' > worn
  $ tape_salvage --bad worn worn.dump check
  check 11 0 0
  $ tape_salvage --bad worn worn.dump info | sed -n '12p'
  bad-sectors 34
  $ tape_salvage --bad worn worn.dump list
  1 3 6 87040 1970-01-01T00:00:00 four
  volumes 1
  $ tape_salvage --bad worn worn.dump volume 1 | cmp - <(head -c 87040 all)

No header
---------

The table of a dump without one is looked for in segment 2, or in the first of a dump of data.

  $ { tape_3; echo headers none; echo data 2 11; } | foreign none.dump
  $ tape_salvage none.dump info
  form sectors
  bytes 393216
  segments 12
  header none
  volumes 1
  $ tape_salvage none.dump list
  1 3 6 100000 1970-01-01T00:00:00 four
  volumes 1
  $ tape_salvage none.dump volume 1 | cmp - all
  $ { tape_3; echo headers none; echo data 2 11; echo form data; echo first 2; } | foreign nodata.dump
  $ tape_salvage --form data nodata.dump list
  1 3 6 100000 1970-01-01T00:00:00 four
  volumes 1
  $ tape_salvage --form data nodata.dump volume 1 | cmp - all
  $ tape_salvage --form data --first 3 nodata.dump list
  1 ? ? 0 1970-01-01T00:00:00 four
  volumes 1
  $ tail -c +98305 whole.dump > behind.dump
  $ tape_salvage behind.dump info
  form sectors
  bytes 294912
  segments 9
  header none
  volumes 0
  $ tape_salvage behind.dump list
  tape_salvage: no header
  [6]
  $ tape_salvage behind.dump volume 1
  tape_salvage: no header
  [6]
  $ tape_salvage --first 3 behind.dump segments 3 6 > part
  $ cmp -n 100000 part all
  $ : > empty.dump
  $ tape_salvage empty.dump info
  form sectors
  bytes 0
  segments 0
  header none
  volumes 0
  $ tape_salvage empty.dump check
  check 0 0 0
  $ tape_salvage --sure empty.sure empty.dump segments 5 5 > lost
  tape_salvage: 0 bytes read, 0 unchecked, 29696 filled
  [1]
  $ tail -n +5 empty.sure
  0x00000000  0x00007400  -

Refusals
--------

Words are those that `clap` takes, each option once and before the command.

  $ tape_salvage 2> why
  [2]
  $ tape_salvage i.dump 2> why
  [2]
  $ tape_salvage i.dump volume 2> why
  [2]
  $ tape_salvage i.dump volume 4294967296 2> why
  [2]
  $ tape_salvage i.dump volume -1 2> why
  [2]
  $ tape_salvage i.dump segments 0 65536 2> why
  [2]
  $ tape_salvage --first 65536 i.dump info 2> why
  [2]
  $ tape_salvage --form other i.dump info 2> why
  [2]
  $ tape_salvage --map i.map --map i.map i.dump info 2> why
  [2]
  $ tape_salvage --zero-lost --zero-lost i.dump info 2> why
  [2]
  $ tape_salvage i.dump info --map i.map 2> why
  [2]
  $ tape_salvage i.dump info more 2> why
  [2]
  $ tape_salvage i.dump more 2> why
  [2]
  $ tape_salvage --help | sed -n '3p'
  Usage: tape_salvage [OPTIONS] <DUMP> <COMMAND>
  $ tape_salvage i.dump --map=i.map --form sectors list
  1 3 3 15 1970-01-01T00:00:00 page
  volumes 1
  $ cp i.dump list
  $ tape_salvage list list 2> why
  [2]
  $ tape_salvage ./list --map i.map check
  weak 3 3
  check 84 1 0
  tape_salvage: 1 segments can be mended, 0 not
  [1]

The first of the segments isn't above the last, and `--sure` and `--whole` go with some commands alone.

  $ tape_salvage i.dump segments 4 3
  usage: tape_salvage [OPTIONS] DUMP info|list|check|volume N|segments A B; A is at most B, --sure is for volume and segments, --whole for volume
  [2]
  $ tape_salvage --sure none.sure i.dump list
  usage: tape_salvage [OPTIONS] DUMP info|list|check|volume N|segments A B; A is at most B, --sure is for volume and segments, --whole for volume
  [2]
  $ tape_salvage --sure none.sure i.dump check
  usage: tape_salvage [OPTIONS] DUMP info|list|check|volume N|segments A B; A is at most B, --sure is for volume and segments, --whole for volume
  [2]
  $ tape_salvage --whole i.dump info
  usage: tape_salvage [OPTIONS] DUMP info|list|check|volume N|segments A B; A is at most B, --sure is for volume and segments, --whole for volume
  [2]
  $ tape_salvage --whole i.dump segments 3 3
  usage: tape_salvage [OPTIONS] DUMP info|list|check|volume N|segments A B; A is at most B, --sure is for volume and segments, --whole for volume
  [2]
  $ test -e none.sure
  [1]

Files that can't be opened, in their order.

  $ tape_salvage --map none none info
  tape_salvage: cannot open the dump
  tape_salvage: none can't be opened: No such file or directory
  [20]
  $ tape_salvage --map none --header none i.dump info
  tape_salvage: cannot open the map
  tape_salvage: none can't be opened: No such file or directory
  [20]
  $ tape_salvage --header none --missing none i.dump info
  tape_salvage: cannot open the header
  tape_salvage: none can't be opened: No such file or directory
  [20]
  $ tape_salvage --missing none --bad none i.dump info
  tape_salvage: cannot open the missing segments
  tape_salvage: none can't be opened: No such file or directory
  [20]
  $ tape_salvage --bad none --sure . i.dump volume 1
  tape_salvage: cannot open the bad sectors
  tape_salvage: none can't be opened: No such file or directory
  [20]
  $ tape_salvage --sure . i.dump volume 1
  tape_salvage: cannot open the sure map
  tape_salvage: . is not a regular file
  [20]
  $ tape_salvage /dev/zero info
  tape_salvage: cannot open the dump
  tape_salvage: /dev/zero is not a regular file
  [20]
  $ tape_salvage i.dump info < i.dump
  tape_salvage: cannot open the dump
  tape_salvage: i.dump is also standard input or output of this command
  [20]
  $ cp i.dump copy.dump
  $ tape_salvage copy.dump info > copy.dump
  tape_salvage: cannot open the dump
  tape_salvage: copy.dump is also standard input or output of this command
  [20]
  $ cp i.map copy.map
  $ tape_salvage --map copy.map i.dump info 2>> copy.map
  [20]
  $ cmp copy.map i.map

Files that are only read are locked against a run that would write them, and not against another that reads.

  $ flock --shared i.dump tape_salvage i.dump list
  1 3 3 15 1970-01-01T00:00:00 page
  volumes 1
  $ flock --exclusive i.dump tape_salvage i.dump list
  tape_salvage: cannot open the dump
  tape_salvage: i.dump is in use by another process, or named twice in this command
  [20]

The map of the output is none of the others, and one file may be two of those.

  $ tape_salvage --sure i.dump i.dump volume 1
  tape_salvage: cannot open the sure map
  tape_salvage: i.dump is in use by another process, or named twice in this command
  [20]
  $ tape_salvage --sure i.map --map i.map i.dump volume 1
  tape_salvage: cannot open the sure map
  tape_salvage: i.map is in use by another process, or named twice in this command
  [20]
  $ echo 4 > four_bad
  $ tape_salvage --missing four_bad --bad four_bad whole.dump info | sed -n '3p'
  segments 12

It is made as it is opened, missing or empty, and a refusal leaves it empty.

  $ cp i.sure kept.sure
  $ tape_salvage --sure i.sure --map none.map i.dump volume 1
  tape_salvage: cannot open the map
  tape_salvage: none.map can't be opened: No such file or directory
  [20]
  $ tape_salvage --sure i.sure i.dump volume 1
  tape_salvage: the sure map is not empty
  [8]
  $ cmp i.sure kept.sure
  $ tape_salvage --sure new.sure i.dump volume 2
  tape_salvage: no volume 2 of 1
  [10]
  $ stat -c %s new.sure
  0
  $ tape_salvage --sure new.sure i.dump volume 1 > page
  tape_salvage: 0 bytes read, 15 unchecked, 0 filled
  [1]
  $ tail -n +5 new.sure
  0x00000000  0x0000000F  /

Texts at fault: the map, the segments that lack, the bad sectors, in this order.

  $ printf '0x0 +\n0 1024 +\n2048 5 +\n' > gap.map
  $ printf '1\n5 4\n' > down
  $ printf '1 2\n1 32\n' > bad
  $ tape_salvage --map gap.map --missing down --bad bad i.dump info
  tape_salvage: fault in line 3 of the map
  [3]
  $ tape_salvage --missing down --bad bad i.dump info
  tape_salvage: fault in line 2 of the missing segments
  [3]
  $ tape_salvage --bad bad i.dump info
  tape_salvage: fault in line 2 of the bad sectors
  [3]
  $ for line in 65536 '1 2 3' 1x 0000000001 -1 ' #' '#2345678901234567890123456789012'; do
  >   printf '7\n%s\n' "$line" > text
  >   tape_salvage --missing text i.dump info
  > done
  tape_salvage: fault in line 2 of the missing segments
  tape_salvage: fault in line 2 of the missing segments
  tape_salvage: fault in line 2 of the missing segments
  tape_salvage: fault in line 2 of the missing segments
  tape_salvage: fault in line 2 of the missing segments
  tape_salvage: fault in line 2 of the missing segments
  tape_salvage: fault in line 2 of the missing segments
  [3]
  $ for line in 9 '' $'\t 9 \t9' '000000009 10' '#234567890123456789012345678901' $'#234567890123456789012345678901\r'; do
  >   printf '9\n%s\n' "$line" > text
  >   tape_salvage --missing text whole.dump info | sed -n '3p'
  > done
  segments 12
  segments 12
  segments 12
  segments 12
  segments 12
  segments 12

More bytes than the segments have: 65,536 of 32,768 bytes each are most.

  $ truncate -s 2147483648 most.dump
  $ tape_salvage most.dump info
  form sectors
  bytes 2147483648
  segments 65536
  header none
  volumes 0
  $ truncate -s 2147483649 most.dump
  $ tape_salvage most.dump info
  tape_salvage: 2147483649 bytes are too many
  [4]
  $ tape_salvage --first 65535 i.dump info
  tape_salvage: 2752512 bytes are too many
  [4]
  $ echo '1 65535' > all_but_one
  $ tape_salvage --missing all_but_one iii.dump info
  tape_salvage: 2494464 bytes are too many
  [4]
  $ tape_salvage --form data --missing all_but_one iii.dump info
  tape_salvage: 2494464 bytes are too many
  [4]

Headers that are not taken, by their first field at fault.

  $ field() { foreign "$@" < <(echo 'volume 3 3 10 one'; cat) && tape_salvage "$1" info; }
  $ echo 'field 4 1' | field code.dump
  tape_salvage: foreign format-code 1
  [7]
  $ echo 'field 4 7' | field code.dump
  tape_salvage: foreign format-code 7
  [7]
  $ echo 'field 10 9 0 8 0' | field first.dump
  tape_salvage: foreign first-data 9
  [7]
  $ printf 'code 6\nfield 246 0 0 1 0\n' | field last.dump
  tape_salvage: foreign last-data 65536
  [7]
  $ printf 'code 6\nfield 242 0 0 1 0 255 255 0 0\n' | field first.dump
  tape_salvage: foreign first-data 65536
  [7]

Volumes that there aren't.

  $ tape_salvage 2.dump volume 0
  tape_salvage: no volume 0 of 8
  [10]
  $ tape_salvage 2.dump volume 4294967295
  tape_salvage: no volume 4294967295 of 8
  [10]
  $ tape_salvage 2.dump volume 7
  tape_salvage: volume 7 has a bad range
  [10]

Output that fails.

  $ tape_salvage 2.dump volume 1 > /dev/full
  tape_salvage: output failed
  [17]
  $ tape_salvage 2.dump list > /dev/full
  tape_salvage: output failed
  [17]
  $ tape_salvage 2.dump check >&-
  tape_salvage: output failed
  [17]
