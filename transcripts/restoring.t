Restoring volumes
=================

  $ . "$TESTDIR/image.sh"
  $ tape cart.img new 3
  blank 3
  $ tape cart.img format L
  formatted 84 0
  $ cp cart.img whole.img

`restore` gives the bytes of a volume, and nothing else.

  $ printf 'a page of text' | tape cart.img append page
  appended 1 14 3 3
  $ tape cart.img restore 1; echo
  a page of text

A volume comes back as it was, whatever its length: here around each border of a sector and of a segment.

  $ seq 100000 > numbers
  $ for bytes in 0 1 1023 1024 1025 29695 29696 29697 30720 59391 59392 59393; do
  >     cp whole.img cart.img
  >     head -c $bytes numbers > volume
  >     tape cart.img append v < volume
  >     tape cart.img restore 1 | cmp - volume
  > done
  appended 1 0 3 3
  appended 1 1 3 3
  appended 1 1023 3 3
  appended 1 1024 3 3
  appended 1 1025 3 3
  appended 1 29695 3 3
  appended 1 29696 3 3
  appended 1 29697 3 4
  appended 1 30720 3 4
  appended 1 59391 3 4
  appended 1 59392 3 4
  appended 1 59393 3 5

There are as many as `list` shows.

  $ tape cart.img restore 0
  tape: no volume 0 of 1
  tape: cart.img: 'list' shows the volumes
  [10]
  $ tape cart.img restore 2
  tape: no volume 2 of 1
  tape: cart.img: 'list' shows the volumes
  [10]

Lost sectors
------------

Three sectors of each segment may be lost, of data or of parity.

  $ each lose 3 0 14 28
  3 of 3 done
  $ each lose 4 0 1 31
  3 of 3 done
  $ each lose 5 29 30 31
  3 of 3 done
  $ tape cart.img restore 1 | cmp - volume

With a fourth in segment 4 the bytes of the segments before it are given, and that is told. Nothing of segment 4 is given,
and nothing behind it.

  $ tape cart.img lose 4 2
  lost 4 2
  $ tape cart.img restore 1 > part
  tape: segment 4 lost 4 sectors
  tape: cart.img: the output is incomplete: it ends before segment 4; tape_salvage gives what is left
  [11]
  $ wc -c < part
  29696
  $ head -c 29696 volume | cmp - part

A segment that holds none of a volume's bytes is not read: with four sectors of segment 3 lost, so that it can't be
read, a volume of no byte is restored.

  $ cp whole.img cart.img
  $ tape cart.img append e < /dev/null
  appended 1 0 3 3
  $ each lose 3 0 1 2 3
  4 of 4 done
  $ tape cart.img restore 1

A sector that was changed behind the drive's back is noticed: no code block agrees with the segment's sectors, and none of
its bytes are given.

  $ cp whole.img cart.img
  $ tape cart.img append v < volume
  appended 1 59393 3 5
  $ put 4 7 100 X
  $ tape cart.img restore 1 > part
  tape: segment 4 does not agree
  tape: cart.img: the output is incomplete: it ends before segment 4; try 'scrub deep' on a copy
  [12]
  $ head -c 29696 volume | cmp - part

Protected cartridges
--------------------

The protect mark is no hindrance, and nothing is written on such a cartridge: not even a table that has lost sectors.

  $ cp whole.img cart.img
  $ tape cart.img append v < volume
  appended 1 59393 3 5
  $ each lose 2 0 29
  2 of 2 done
  $ tape cart.img protect on
  protected on
  $ cp cart.img before.img
  $ tape cart.img restore 1 | cmp - volume
  $ cmp before.img cart.img

An output that is full ends it.

  $ tape cart.img restore 1 > /dev/full
  tape: output failed
  tape: cart.img: the output can't be written
  [17]
