What can be mended, and what can't
==================================

  $ . "$TESTDIR/image.sh"

`check` looks at both header copies, the volume table and the segments of all volumes, and writes nothing. It ends with
status 0 where all is sound.

  $ tape cart.img check; echo status $?
  tape: no cartridge
  tape: cart.img does not exist
  status 4
  $ tape cart.img new 3
  blank 3
  $ tape cart.img check; echo status $?
  tape: the cartridge is not formatted
  tape: cart.img: no header can be read: if this cartridge was ever in use, do not format it; run check
  status 6
  $ tape cart.img format evening
  formatted 84 0
  $ tape cart.img check; echo status $?
  check 3 0 0
  status 0
  $ tape cart.img check now; echo status $?
  usage: tape IMAGE COMMAND
  tape: wrong number of arguments; use: tape IMAGE check
  status 2
  $ echo 'a page of text' | tape cart.img append page
  appended 1 15 3 3
  $ cp cart.img whole.img

  $ check() { cp cart.img before.img; tape cart.img check; echo status $?; cmp cart.img before.img; }
  $ check
  check 4 0 0
  status 0

Lost sectors
------------

Up to three lost sectors of a segment are found again by the others, and a `scrub` writes them. With four it does not read.

  $ each lose 3 0 1 2
  3 of 3 done
  $ check
  weak 3 3
  check 4 1 0
  tape: 1 segments can be mended, 0 not
  tape: cart.img: damaged; see EXIT STATUS 21 in man tape
  status 21

On a protected cartridge it says the same, and so it does over an image that may only be read.

  $ tape cart.img protect on
  protected on
  $ check
  weak 3 3
  check 4 1 0
  tape: 1 segments can be mended, 0 not
  tape: cart.img: damaged; see EXIT STATUS 21 in man tape
  status 21
  $ tape cart.img protect off
  protected off
  $ chmod a-w cart.img
  $ tape cart.img check; echo status $?
  weak 3 3
  check 4 1 0
  tape: 1 segments can be mended, 0 not
  tape: cart.img: damaged; see EXIT STATUS 21 in man tape
  status 21
  $ chmod u+w cart.img
  $ cp cart.img weak.img
  $ tape cart.img scrub
  scrub 4 3 0
  $ check
  check 4 0 0
  status 0
  $ cp weak.img cart.img
  $ each lose 3 3
  1 of 1 done
  $ check
  lost 3 4
  check 4 0 1
  tape: 0 segments can be mended, 1 not
  tape: cart.img: damaged; see EXIT STATUS 21 in man tape
  status 21

It goes on behind a segment that doesn't read.

  $ echo more | tape cart.img append more
  appended 2 5 4 4
  $ each lose 4 7
  1 of 1 done
  $ check
  lost 3 4
  weak 4 1
  check 5 1 1
  tape: 1 segments can be mended, 1 not
  tape: cart.img: damaged; see EXIT STATUS 21 in man tape
  status 21

Wrong sectors
-------------

A sector that can be read and holds other bytes than were written is named, where at most one more can't be read.

  $ cp whole.img cart.img
  $ flip 3 5 100
  $ check
  wrong 3 5
  check 4 1 0
  tape: 1 segments can be mended, 0 not
  tape: cart.img: damaged; see EXIT STATUS 21 in man tape
  status 21
  $ each lose 3 9
  1 of 1 done
  $ check
  wrong 3 5
  check 4 1 0
  tape: 1 segments can be mended, 0 not
  tape: cart.img: damaged; see EXIT STATUS 21 in man tape
  status 21
  $ each lose 3 10
  1 of 1 done
  $ check
  mismatch 3
  check 4 0 1
  tape: 0 segments can be mended, 1 not
  tape: cart.img: damaged; see EXIT STATUS 21 in man tape
  status 21

The index is that of the sector in its segment, and a defect is no sector to be read.

  $ tape bad.img new 3
  blank 3
  $ for sector in 0 1 2; do tape bad.img defect 3 $sector; done > defects
  $ tape bad.img format bad
  formatted 84 3
  $ head -c 26624 /dev/zero | tape bad.img append v
  appended 1 26624 3 3
  $ cp bad.img cart.img
  $ flip 3 5 0
  $ check
  wrong 3 5
  check 4 1 0
  tape: 1 segments can be mended, 0 not
  tape: cart.img: damaged; see EXIT STATUS 21 in man tape
  status 21

The header copies
-----------------

  $ cp whole.img cart.img
  $ each lose 0 3 4 5
  3 of 3 done
  $ check
  weak 0 3
  check 4 1 0
  tape: 1 segments can be mended, 0 not
  tape: cart.img: damaged; see EXIT STATUS 21 in man tape
  status 21
  $ cp whole.img cart.img
  $ zeros=$(printf '\\x00%.0s' $(seq 1024))
  $ for sector in $(seq 0 31); do put 0 $sector 0 "$zeros"; done
  $ check
  mismatch 0
  check 4 0 1
  tape: 0 segments can be mended, 1 not
  tape: cart.img: damaged; see EXIT STATUS 21 in man tape
  status 21

Where each copy has a wrong sector, neither can be read. Both are named before that is answered; once one of them counts as
lost the cartridge is there again.

  $ cp whole.img cart.img
  $ flip 0 0 9
  $ flip 1 0 9
  $ check
  wrong 0 0
  wrong 1 0
  tape: the cartridge is not formatted
  tape: cart.img: no header can be read: if this cartridge was ever in use, do not format it; run check
  status 6
  $ each lose 0 0
  1 of 1 done
  $ tape cart.img list
  1 3 3 15 1970-01-01T00:00:00 page
  volumes 1

The volume table
----------------

A lost sector of it is weak, as everywhere.

  $ cp whole.img cart.img
  $ each lose 2 5
  1 of 1 done
  $ check
  weak 2 1
  check 4 1 0
  tape: 1 segments can be mended, 0 not
  tape: cart.img: damaged; see EXIT STATUS 21 in man tape
  status 21

With all its data sectors readable they are the table, right or wrong, and the first mount makes the parity fit them. `check`
tells before that. A sector of data that isn't the last one in use is named: no stopped append leaves it at odds with the rest.

  $ cp whole.img cart.img
  $ flip 2 9 100
  $ check
  wrong 2 9
  check 4 1 0
  tape: 1 segments can be mended, 0 not
  tape: cart.img: damaged; see EXIT STATUS 21 in man tape
  status 21
  $ tape cart.img lose 2 9
  lost 2 9
  $ tape cart.img list
  1 3 3 15 1970-01-01T00:00:00 page
  volumes 1
  $ cmp cart.img whole.img

Sector 0 is the one in use here. It may hold wrong bytes, or an append may have been stopped behind the first of its writes; or
the parity is wrong.

  $ flip 2 0 100
  $ check
  unsettled 2
  check 4 1 0
  tape: 1 segments can be mended, 0 not
  tape: cart.img: damaged; see EXIT STATUS 21 in man tape
  status 21
  $ tape cart.img lose 2 0
  lost 2 0
  $ tape cart.img list
  1 3 3 15 1970-01-01T00:00:00 page
  volumes 1
  $ cmp cart.img whole.img
  $ flip 2 30 100
  $ check
  unsettled 2
  check 4 1 0
  tape: 1 segments can be mended, 0 not
  tape: cart.img: damaged; see EXIT STATUS 21 in man tape
  status 21

With another sector of data lost none is named: what a stopped append left could look so.

  $ cp whole.img cart.img
  $ flip 2 9 100
  $ each lose 2 5
  1 of 1 done
  $ check
  unsettled 2
  check 4 1 0
  tape: 1 segments can be mended, 0 not
  tape: cart.img: damaged; see EXIT STATUS 21 in man tape
  status 21

One of parity may be lost.

  $ cp whole.img cart.img
  $ flip 2 9 100
  $ each lose 2 29
  1 of 1 done
  $ check
  wrong 2 9
  check 4 1 0
  tape: 1 segments can be mended, 0 not
  tape: cart.img: damaged; see EXIT STATUS 21 in man tape
  status 21

Where the table is refused by a mount, the line of its segment comes before the refusal.

  $ cp whole.img cart.img
  $ flip 2 0 0
  $ check
  wrong 2 0
  tape: foreign slot 0
  tape: cart.img: the volume table has an invalid entry; run check, and see EXIT STATUS 7 in man tape
  status 7
  $ cp whole.img cart.img
  $ each lose 2 0 1 2 3
  4 of 4 done
  $ check
  lost 2 4
  tape: segment 2 lost 4 sectors
  tape: cart.img: the volume table can't be read: keep the image, and see EXIT STATUS 11 in man tape
  status 11
  $ cp whole.img cart.img
  $ each lose 2 4 5
  2 of 2 done
  $ flip 2 9 100
  $ check
  mismatch 2
  tape: the volume table does not agree
  tape: cart.img: the volume table is corrupt: keep the image, and see EXIT STATUS 8 in man tape
  status 8

A stopped append
----------------

An append writes the table's sector that has the new entry, and then the three of parity. Behind one, two or three of these
four writes the table is to be settled; behind all of them it is sound.

  $ cp whole.img cart.img
  $ echo more | tape cart.img append more
  appended 2 5 4 4
  $ cp cart.img both.img
  $ for left in '29 30 31' '30 31' 31; do cp both.img cart.img; take whole.img 2 $left; check; done
  unsettled 2
  check 5 1 0
  tape: 1 segments can be mended, 0 not
  tape: cart.img: damaged; see EXIT STATUS 21 in man tape
  status 21
  unsettled 2
  check 5 1 0
  tape: 1 segments can be mended, 0 not
  tape: cart.img: damaged; see EXIT STATUS 21 in man tape
  status 21
  unsettled 2
  check 5 1 0
  tape: 1 segments can be mended, 0 not
  tape: cart.img: damaged; see EXIT STATUS 21 in man tape
  status 21
  $ tape cart.img list
  1 3 3 15 1970-01-01T00:00:00 page
  2 4 4 5 1970-01-01T00:00:00 more
  volumes 2
  $ check
  check 5 0 0
  status 0
  $ cmp cart.img both.img

Behind two of the four writes a code block of its own agrees with all sectors but 16 and 26, both of data. So once sector 16 is
lost, sector 26 looks wrong, and is right. It isn't named, and the list with the new volume comes back.

  $ cp both.img cart.img
  $ take whole.img 2 30 31
  $ each lose 2 16
  1 of 1 done
  $ check
  unsettled 2
  check 5 1 0
  tape: 1 segments can be mended, 0 not
  tape: cart.img: damaged; see EXIT STATUS 21 in man tape
  status 21
  $ tape cart.img list
  1 3 3 15 1970-01-01T00:00:00 page
  2 4 4 5 1970-01-01T00:00:00 more
  volumes 2
  $ cmp cart.img both.img

The ninth entry stands in sector 1. There it is sectors 4 and 5.

  $ cp whole.img cart.img
  $ for n in 2 3 4 5 6 7 8; do echo $n | tape cart.img append v$n; done | tail -n 1
  appended 8 2 10 10
  $ cp cart.img eight.img
  $ echo 9 | tape cart.img append v9
  appended 9 2 11 11
  $ cp cart.img nine.img
  $ take eight.img 2 30 31
  $ each lose 2 4
  1 of 1 done
  $ check
  unsettled 2
  check 12 1 0
  tape: 1 segments can be mended, 0 not
  tape: cart.img: damaged; see EXIT STATUS 21 in man tape
  status 21
  $ tape cart.img list | tail -n 2
  9 11 11 2 1970-01-01T00:00:00 v9
  volumes 9
  $ cmp cart.img nine.img

What the manual page says to do at `unsettled 2`: the list of the image, and then that of a copy which loses the sector of the
last entry. That is the list before, until two sectors of parity are new.

  $ two_lists() { cp cart.img first.img; tape first.img list | tail -n 1; each lose 2 0; tape cart.img list | tail -n 1; }
  $ for left in '29 30 31' '30 31' 31; do cp both.img cart.img; take whole.img 2 $left; two_lists; done
  volumes 2
  1 of 1 done
  volumes 1
  volumes 2
  1 of 1 done
  volumes 1
  volumes 2
  1 of 1 done
  volumes 2

With one sector more lost the copy may be refused. The first list is right.

  $ cp both.img cart.img
  $ take whole.img 2 30 31
  $ each lose 2 16
  1 of 1 done
  $ two_lists
  volumes 2
  1 of 1 done
  tape: the volume table does not agree
  tape: cart.img: the volume table is corrupt: keep the image, and see EXIT STATUS 8 in man tape

Where the last sector in use is wrong, the copy has its entry right.

  $ cp both.img cart.img
  $ put 2 0 136 X
  $ tape cart.img check 2> why | head -n 1
  unsettled 2
  $ cp cart.img first.img
  $ tape first.img list
  1 3 3 15 1970-01-01T00:00:00 page
  2 4 4 5 1970-01-01T00:00:00 Xore
  volumes 2
  $ each lose 2 0
  1 of 1 done
  $ tape cart.img list
  1 3 3 15 1970-01-01T00:00:00 page
  2 4 4 5 1970-01-01T00:00:00 more
  volumes 2

An output that fails
--------------------

A line that can't be written ends it.

  $ cp weak.img cart.img
  $ tape cart.img check > /dev/full; echo status $?
  tape: output failed
  tape: cart.img: the output can't be written
  status 17
