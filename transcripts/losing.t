Losing sectors
==============

  $ . "$TESTDIR/image.sh"

`lose` makes a sector unreadable until it is written again. A segment has 29 sectors of data and three of parity, so any
three of its sectors can be found again from the others.

  $ tape cart.img new 3
  blank 3
  $ tape cart.img format L
  formatted 84 0
  $ cp cart.img whole.img
  $ tape cart.img lose 40 0
  lost 40 0

That is one byte of the image: the gate of sector 32 * 40 + 0 = 1,280, which stands at 64 + 1,027 * 1,280 = 1,314,624. `cmp`
counts from 1, and shows its bytes in octal: 0x5A became 0xC1.

  $ cmp -l whole.img cart.img | tr -s ' '
  1314625 132 301

On a sector that can't be read, and on one that was never formatted, the command changes nothing.

  $ tape cart.img lose 40 0
  lost 40 0
  $ cmp -l whole.img cart.img | tr -s ' '
  1314625 132 301
  $ cp cart.img before.img
  $ tape new.img new 3
  blank 3
  $ cp new.img before.img
  $ tape new.img lose 40 0
  lost 40 0
  $ cmp new.img before.img

The volume table
----------------

Segment 2 holds the volume table. With three sectors lost `list` finds them again, and writes them: the image is as if
nothing had been lost.

  $ cp whole.img cart.img
  $ each lose 2 0 5 31
  3 of 3 done
  $ cmp -s whole.img cart.img
  [1]
  $ tape cart.img list
  volumes 0
  $ cmp whole.img cart.img

So it is with each three. The table has a volume here, which is written by hand: ten bytes in segment 3, called `a`.

  $ put 2 0 0 'VTBL\x03\0\x03\0a%43s\xC0\x65\x52\x30\x01\x01'
  $ put 2 0 96 '\x0A'
  $ tape cart.img list
  1 3 3 10 1994-03-01T12:00:00 a
  volumes 1
  $ cp cart.img whole.img
  $ for sector in $(seq 0 31); do
  >     each lose 2 $sector $(((sector + 11) % 32)) $(((sector + 22) % 32)) > done
  >     tape cart.img list
  >     cmp whole.img cart.img
  > done | sort | uniq -c | sed 's/^ *//'
  32 1 3 3 10 1994-03-01T12:00:00 a
  32 volumes 1

On a protected cartridge the table is found again, too, and nothing is written. Its gates tell what was lost: 0, 17 and
30. When the mark is cleared, the next look settles the table.

  $ gates() { states gate 2 32; }
  $ each lose 2 0 17 30
  3 of 3 done
  $ tape cart.img protect on
  protected on
  $ tape cart.img list
  1 3 3 10 1994-03-01T12:00:00 a
  volumes 1
  $ gates
   c1 5a 5a 5a 5a 5a 5a 5a 5a 5a 5a 5a 5a 5a 5a 5a
   5a c1 5a 5a 5a 5a 5a 5a 5a 5a 5a 5a 5a 5a c1 5a
  $ tape cart.img protect off
  protected off
  $ tape cart.img info
  label L
  formatted 1970-01-01T00:00:00
  segments 84
  bad sectors 0
  volumes 1
  $ cmp whole.img cart.img

A fourth lost sector is too many where one of the four holds data. Nothing is written then. Where the data can be read,
the parity may be lost: there are only three sectors of it.

  $ each lose 2 0 5 6 31
  4 of 4 done
  $ cp cart.img before.img
  $ tape cart.img list
  tape: segment 2 lost 4 sectors
  tape: cart.img: the volume table can't be read: keep the image, and see EXIT STATUS 11 in man tape
  [11]
  $ tape cart.img info
  tape: segment 2 lost 4 sectors
  tape: cart.img: the volume table can't be read: keep the image, and see EXIT STATUS 11 in man tape
  [11]
  $ cmp cart.img before.img
  $ each lose 2 $(seq 0 31)
  32 of 32 done
  $ tape cart.img list
  tape: segment 2 lost 32 sectors
  tape: cart.img: the volume table can't be read: keep the image, and see EXIT STATUS 11 in man tape
  [11]
  $ cp whole.img cart.img
  $ each lose 2 29 30 31
  3 of 3 done
  $ tape cart.img list
  1 3 3 10 1994-03-01T12:00:00 a
  volumes 1
  $ cmp whole.img cart.img

Parity that is not of the data
------------------------------

When an append is stopped behind its first write to the table, the data are new and the parity is old. The data count,
and the next look writes the parity, unless the cartridge is protected. Here a byte behind the signature of a free slot
is changed, which means nothing, in the last data sector: the parity of a column of 29 bytes of which the last alone is 1
is C0 C0 01.

  $ cp whole.img cart.img
  $ put 2 28 127 '\x01'
  $ parity() { for sector in 29 30 31; do look 2 $sector $1 1; done; }
  $ parity 127
   00
   00
   00
  $ tape cart.img protect on
  protected on
  $ tape cart.img list
  1 3 3 10 1994-03-01T12:00:00 a
  volumes 1
  $ parity 127
   00
   00
   00
  $ tape cart.img protect off
  protected off
  $ tape cart.img list
  1 3 3 10 1994-03-01T12:00:00 a
  volumes 1
  $ parity 127
   c0
   c0
   01

Where the last two bytes are 1 and 0 it is 67 A6 C0.

  $ put 2 28 127 '\0'
  $ put 2 27 127 '\x01'
  $ tape cart.img list
  1 3 3 10 1994-03-01T12:00:00 a
  volumes 1
  $ parity 127
   67
   a6
   c0

Where a sector of data is lost, too, the code may agree with no block. Then some sectors that can be read are left out of
account as well, a set at a time, as an append that was stopped may have left them. Behind one lost sector of data the last
set has it and 30 and 31, and three sectors can always be found. With byte 500 of sector 1 changed:

  $ changed() { cp whole.img cart.img; put 2 1 500 '\x07'; each lose 2 "$@" > done; tape cart.img list; }
  $ changed
  1 3 3 10 1994-03-01T12:00:00 a
  volumes 1
  $ changed 29 30 31
  1 3 3 10 1994-03-01T12:00:00 a
  volumes 1
  $ changed 1
  1 3 3 10 1994-03-01T12:00:00 a
  volumes 1
  $ changed 5
  1 3 3 10 1994-03-01T12:00:00 a
  volumes 1

But no append did this. Sector 1 was wrong, none of the sets has it, and so sector 5 comes back with a wrong byte, too. Here
nothing of the list stands at byte 500; but where a sector may hold wrong bytes without being lost, the table may be read
wrongly.

  $ look 2 1 500 1
   07
  $ look 2 5 500 1
   3a

With two sectors lost, one of them of data, a set is left only where the other is sector 29 or 30. Else the table is refused.

  $ changed 5 30
  1 3 3 10 1994-03-01T12:00:00 a
  volumes 1
  $ changed 5 31
  tape: the volume table does not agree
  tape: cart.img: the volume table is corrupt: keep the image, and see EXIT STATUS 8 in man tape
  [8]
  $ changed 0 28
  tape: the volume table does not agree
  tape: cart.img: the volume table is corrupt: keep the image, and see EXIT STATUS 8 in man tape
  [8]

So it is with more than three.

  $ changed 5 29 30 31
  tape: segment 2 lost 4 sectors
  tape: cart.img: the volume table can't be read: keep the image, and see EXIT STATUS 11 in man tape
  [11]
  $ changed 0 1 2 3
  tape: segment 2 lost 4 sectors
  tape: cart.img: the volume table can't be read: keep the image, and see EXIT STATUS 11 in man tape
  [11]

A stopped append, and one sector more
-------------------------------------

An append writes the table's sector that has the new entry, and then the three of parity. Here is one before that and one
behind it; the volume has no byte, so they differ in these four sectors alone.

  $ cp whole.img cart.img
  $ tape cart.img append b < /dev/null
  appended 2 0 4 4
  $ cp cart.img both.img
  $ stopped() { cp both.img cart.img; take whole.img 2 "$@"; }
  $ stopped 0 29 30 31
  $ cmp whole.img cart.img

Stopped behind the first of the writes, with the parity still old, it shows the new list. With sector 5 lost behind that
no block agrees, and of the sets that are tried the first that helps is sector 5 with the last sector that has an entry,
sector 0: the list of before. The look settles the table: first sector 0 is written, and then sector 5.

  $ stopped 29 30 31
  $ tape cart.img list
  1 3 3 10 1994-03-01T12:00:00 a
  2 4 4 0 1970-01-01T00:00:00 b
  volumes 2
  $ cmp both.img cart.img
  $ stopped 29 30 31
  $ tape cart.img lose 2 5
  lost 2 5
  $ tape cart.img list
  1 3 3 10 1994-03-01T12:00:00 a
  volumes 1
  $ cmp whole.img cart.img

Stopped behind the second, with sector 29 new, it comes back as the list behind the append, by the sectors 5, 30 and 31.

  $ stopped 30 31
  $ tape cart.img lose 2 5
  lost 2 5
  $ tape cart.img list
  1 3 3 10 1994-03-01T12:00:00 a
  2 4 4 0 1970-01-01T00:00:00 b
  volumes 2
  $ cmp both.img cart.img

If sector 0 itself is lost there, the list is that of before, by the sectors 0 and 29. Where the write of sector 29 or 30 was
stopped, so that this one is lost as well, it is so:

  $ stopped 30 31
  $ tape cart.img lose 2 0
  lost 2 0
  $ tape cart.img list
  1 3 3 10 1994-03-01T12:00:00 a
  volumes 1
  $ stopped 29 30 31
  $ each lose 2 5 29
  2 of 2 done
  $ tape cart.img list | tail -n 1
  volumes 1
  $ stopped 30 31
  $ each lose 2 5 30
  2 of 2 done
  $ tape cart.img list | tail -n 1
  volumes 2

Whichever sector is lost, the table comes back as one of the two, and the look leaves the one image or the other. Behind the
first write that is the new list where the sector is of parity; behind the second it is the old one where the sector is 0;
and from the third on it is the new one.

  $ each_lost() {
  >     for more in $(seq 0 31); do
  >         stopped "$@"
  >         tape cart.img lose 2 $more > done
  >         tape cart.img list | tail -n 1
  >         cmp -s whole.img cart.img || cmp both.img cart.img
  >     done | sort | uniq -c | sed 's/^ *//'
  > }
  $ each_lost 29 30 31
  29 volumes 1
  3 volumes 2
  $ each_lost 30 31
  1 volumes 1
  31 volumes 2
  $ each_lost 31
  32 volumes 2
  $ each_lost
  32 volumes 2

A second one more may be too many.

  $ stopped 29 30 31
  $ each lose 2 1 5
  2 of 2 done
  $ tape cart.img list
  tape: the volume table does not agree
  tape: cart.img: the volume table is corrupt: keep the image, and see EXIT STATUS 8 in man tape
  [8]

The header
----------

Segment 0 holds the header, and segment 1 its copy. The first that can be read is in force: one of which at most three
sectors are lost. To tell them apart, the second one is that of an older formatting here.

  $ tape cart.img new 3
  blank 3
  $ tape cart.img format B
  formatted 84 0
  $ cp cart.img older.img
  $ tape cart.img format A
  formatted 84 0
  $ take older.img 1 $(seq 0 31)
  $ cp cart.img whole.img
  $ label() { tape cart.img info | sed -n 1p; }
  $ lost() { cp whole.img cart.img; each lose 0 $1 > done; each lose 1 $2 > done; label; }
  $ all=$(seq 0 31)
  $ lost '' ''
  label A
  $ lost '0 7 31' ''
  label A
  $ lost '29 30 31' "$all"
  label A
  $ lost '0 7 30 31' ''
  label B
  $ lost '0 1 2 3' '4 5 6'
  label B
  $ lost "$all" '0 31'
  label B
  $ lost '0 1 2 3' '4 5 6 7'
  tape: the cartridge is not formatted
  tape: cart.img: no header can be read: if this cartridge was ever in use, do not format it; run check
  $ lost '28 29 30 31' "$all"
  tape: the cartridge is not formatted
  tape: cart.img: no header can be read: if this cartridge was ever in use, do not format it; run check

A look writes nothing in a header: what is lost stays lost.

  $ lost '0 7 31' ''
  label A
  $ states gate 0 32
   c1 5a 5a 5a 5a 5a 5a c1 5a 5a 5a 5a 5a 5a 5a 5a
   5a 5a 5a 5a 5a 5a 5a 5a 5a 5a 5a 5a 5a 5a 5a c1

A copy whose sectors can be read, but are no code block, can't be read.

  $ cp whole.img cart.img
  $ put 1 28 1023 '\x01'
  $ label
  label A
  $ put 0 28 1023 '\x01'
  $ label
  tape: the cartridge is not formatted
  tape: cart.img: no header can be read: if this cartridge was ever in use, do not format it; run check

With the parity of that byte, C0 C0 01, it is a code block again.

  $ for copy in 0 1; do put $copy 29 1023 '\xC0'; put $copy 30 1023 '\xC0'; done
  $ put 1 31 1023 '\x01'
  $ label
  label B
  $ put 0 31 1023 '\x01'
  $ label
  label A
