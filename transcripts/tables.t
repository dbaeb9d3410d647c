Volume tables of other tools
============================

  $ . "$TESTDIR/image.sh"

`append` makes no such tables, so here they are written by hand. A table has eight slots of 128 bytes in each of the data
sectors of segment 2. The parity need not be right: the data can be read without it, and the next look writes it.

  $ word() { printf '\\x%02x\\x%02x' $(($1 % 256)) $(($1 / 256)); }
  $ slot() {
  >     put 2 $(($1 / 8)) $((128 * ($1 % 8))) "VTBL$(word $2)$(word $3)a%43s\xC0\x65\x52\x30\x01\x01"
  >     put 2 $(($1 / 8)) $((128 * ($1 % 8) + 96)) "\\x0A"
  > }
  $ tape cart.img new 3
  blank 3
  $ tape cart.img format L
  formatted 84 0
  $ cp cart.img empty.img

This is the volume of ten bytes in segment 3, called `a`, of 1994-03-01T12:00:00, whose date word is 0x305265C0.

  $ slot 0 3 3
  $ look 2 0 0 9
   56 54 42 4c 03 00 03 00 61
  $ look 2 0 52 6
   c0 65 52 30 01 01
  $ look 2 0 96 8
   0a 00 00 00 00 00 00 00
  $ tape cart.img list
  1 3 3 10 1994-03-01T12:00:00 a
  volumes 1
  $ tape cart.img info
  label L
  formatted 1970-01-01T00:00:00
  segments 84
  bad sectors 0
  volumes 1
  $ cp cart.img one.img

Volumes are numbered from 1, and some segments may lie between them.

  $ slot 1 5 83
  $ tape cart.img list
  1 3 3 10 1994-03-01T12:00:00 a
  2 5 83 10 1994-03-01T12:00:00 a
  volumes 2

Dates and names
---------------

A month above 12 is no date: the low 25 bits of this date word are one above the greatest that there are. Of a name the
spaces and zero bytes at its end are cut, and a byte that is no printed character of ASCII is shown as `?`. This one is a
tab, a space, a `~`, a byte above ASCII and a zero byte.

  $ cp one.img cart.img
  $ put 2 0 52 '\x00\x6E\xEA\x01'
  $ put 2 0 8 '\t ~\xE4\0'
  $ tape cart.img list
  1 3 3 10 ? ? ~?
  volumes 1

The greatest low part is the last second of a year, and an empty name leaves the line end with a space.

  $ put 2 0 52 '\xFF\x6D\xEA\x01'
  $ put 2 0 8 '     '
  $ tape cart.img list
  1 3 3 10 1970-12-31T23:59:59  (re)
  volumes 1
  $ put 2 0 52 '\xFF\x6D\xEA\xFF'
  $ put 2 0 8 "$(printf '\\0%.0s' $(seq 44))"
  $ tape cart.img list
  1 3 3 10 2097-12-31T23:59:59  (re)
  volumes 1
  $ put 2 0 52 '\xFF\xFF\xFF\xFF'
  $ put 2 0 8 "$(printf 'z%.0s' $(seq 44))"
  $ tape cart.img list
  1 3 3 10 ? zzzzzzzzzzzzzzzzzzzzzzzzzzzzzzzzzzzzzzzzzzzz
  volumes 1

Lengths
-------

A segment without a bad sector carries 29,696 bytes, so two carry 59,392. A size of one byte more does not fit, and then
the volume is all that its segments carry.

  $ cp one.img cart.img
  $ slot 0 3 4
  $ put 2 0 96 '\x00\xE8\x00\x00'
  $ tape cart.img list
  1 3 4 59392 1994-03-01T12:00:00 a
  volumes 1
  $ put 2 0 96 '\xFF\xE7\x00\x00'
  $ tape cart.img list
  1 3 4 59391 1994-03-01T12:00:00 a
  volumes 1
  $ put 2 0 52 '\0\0\0\0'
  $ put 2 0 96 '\x01\xE8\x00\x00'
  $ tape cart.img list
  1 3 4 59392 1970-01-01T00:00:00 a
  volumes 1

With 28 defects segment 4 carries 1,024 bytes, so the two carry 30,720, which is 0x7800. The size has eight bytes. A volume
with a directory is given as all of its segments, too.

  $ tape cart.img new 3
  blank 3
  $ each defect 4 $(seq 0 27)
  28 of 28 done
  $ tape cart.img format L
  formatted 84 28
  $ slot 0 3 4
  $ size() { put 2 0 96 "$1"; tape cart.img list | sed -n 1p; }
  $ size '\xFF\x77\0\0\0\0\0\0'
  1 3 4 30719 1994-03-01T12:00:00 a
  $ size '\x00\x78\0\0\0\0\0\0'
  1 3 4 30720 1994-03-01T12:00:00 a
  $ size '\x01\x78\0\0\0\0\0\0'
  1 3 4 30720 1994-03-01T12:00:00 a
  $ size '\x0A\0\0\0\x01\0\0\0'
  1 3 4 30720 1994-03-01T12:00:00 a
  $ put 2 0 92 '\x01\0\0\0'
  $ size '\x0A\0\0\0\0\0\0\0'
  1 3 4 30720 1994-03-01T12:00:00 a

With 29 defects it carries nothing.

  $ tape cart.img new 3
  blank 3
  $ each defect 4 $(seq 0 28)
  29 of 29 done
  $ tape cart.img format L
  formatted 84 29
  $ slot 0 3 4
  $ size '\x00\x78\0\0\0\0\0\0'
  1 3 4 29696 1994-03-01T12:00:00 a
  $ size '\x00\x74\0\0\0\0\0\0'
  1 3 4 29696 1994-03-01T12:00:00 a

Slots at fault
--------------

A table with a slot at fault is refused whole, by the number of the first one. A volume's start is 3 or more and behind the
end of the one before; its end is not before its start, nor above the last segment, 83.

  $ slots() {
  >     cp empty.img cart.img
  >     while [ $# -gt 0 ]; do slot $1 $2 $3; shift 3; done
  >     cp cart.img before.img
  >     tape cart.img list && return
  >     cmp cart.img before.img
  > }
  $ slots 0 2 3
  tape: foreign range 0
  tape: cart.img: the volume table has an invalid entry; run check, and see EXIT STATUS 7 in man tape
  $ slots 0 5 4 1 6 6
  tape: foreign range 0
  tape: cart.img: the volume table has an invalid entry; run check, and see EXIT STATUS 7 in man tape
  $ slots 0 3 84
  tape: foreign range 0
  tape: cart.img: the volume table has an invalid entry; run check, and see EXIT STATUS 7 in man tape
  $ slots 0 5 6 1 3 4
  tape: foreign range 1
  tape: cart.img: the volume table has an invalid entry; run check, and see EXIT STATUS 7 in man tape
  $ slots 0 3 5 1 5 6
  tape: foreign range 1
  tape: cart.img: the volume table has an invalid entry; run check, and see EXIT STATUS 7 in man tape
  $ slots 0 3 3 1 84 84
  tape: foreign range 1
  tape: cart.img: the volume table has an invalid entry; run check, and see EXIT STATUS 7 in man tape
  $ slots 0 3 3 1 4 83
  1 3 3 10 1994-03-01T12:00:00 a
  2 4 83 10 1994-03-01T12:00:00 a
  volumes 2
  $ tape cart.img info | grep volumes
  volumes 2

A slot behind a free one is none.

  $ slots 1 3 3
  tape: foreign slot 1
  tape: cart.img: the volume table has an invalid entry; run check, and see EXIT STATUS 7 in man tape
  $ slots 0 3 3 2 4 4
  tape: foreign slot 2
  tape: cart.img: the volume table has an invalid entry; run check, and see EXIT STATUS 7 in man tape
  $ slots 6 2 2 7 2 2
  tape: foreign slot 6
  tape: cart.img: the volume table has an invalid entry; run check, and see EXIT STATUS 7 in man tape
  $ slots 0 2 2 2 4 4
  tape: foreign range 0
  tape: cart.img: the volume table has an invalid entry; run check, and see EXIT STATUS 7 in man tape
  $ slots 231 3 3
  tape: foreign slot 231
  tape: cart.img: the volume table has an invalid entry; run check, and see EXIT STATUS 7 in man tape
  $ slots 16 3 3
  tape: foreign slot 16
  tape: cart.img: the volume table has an invalid entry; run check, and see EXIT STATUS 7 in man tape
  $ slots 8 3 3 16 3 3
  tape: foreign slot 8
  tape: cart.img: the volume table has an invalid entry; run check, and see EXIT STATUS 7 in man tape
  $ tape cart.img info
  tape: foreign slot 8
  tape: cart.img: the volume table has an invalid entry; run check, and see EXIT STATUS 7 in man tape
  [7]

A signature is `VTBL` or zero bytes, and nothing else. Behind zero bytes any others may stand.

  $ put 2 0 3 L
  $ tape cart.img list
  tape: foreign slot 0
  tape: cart.img: the volume table has an invalid entry; run check, and see EXIT STATUS 7 in man tape
  [7]
  $ cp empty.img cart.img
  $ put 2 0 4 '\x03'
  $ put 2 0 127 '\xFF'
  $ tape cart.img list
  volumes 0

More volumes than lines on a page: one in each segment from 3 to 83, so the slots of eleven sectors are used.

  $ cp empty.img cart.img
  $ for number in $(seq 0 80); do slot $number $((number + 3)) $((number + 3)); done
  $ tape cart.img list > lines
  $ sed -n '1p; 9p; 81,$p' lines
  1 3 3 10 1994-03-01T12:00:00 a
  9 11 11 10 1994-03-01T12:00:00 a
  81 83 83 10 1994-03-01T12:00:00 a
  volumes 81
  $ cut -d ' ' -f 1 lines | head -n 81 | cmp - <(seq 81)
