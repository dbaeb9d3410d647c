Scrubbing deep
==============

  $ . "$TESTDIR/image.sh"

Here is a volume of 1,024 bytes of 1, which fill sector 0 of segment 3; the other data sectors of the segment hold zero bytes.

  $ tape cart.img new 3
  blank 3
  $ tape cart.img format L
  formatted 84 0
  $ printf '\1%.0s' $(seq 1024) > volume
  $ tape cart.img append v < volume
  appended 1 1024 3 3
  $ cp cart.img whole.img

A sector may be readable and hold other bytes than those that were written. Here sector 0 gets zero bytes by hand. No code
block agrees with the sectors, so neither `restore` nor `scrub` can tell which of them is right.

  $ zeros=$(printf '\\x00%.0s' $(seq 1024))
  $ put 3 0 0 "$zeros"
  $ cp cart.img wrong.img
  $ tape cart.img restore 1
  tape: segment 3 does not agree
  tape: cart.img: the output is incomplete: it ends before segment 3; try 'scrub deep' on a copy
  [12]
  $ tape cart.img scrub
  mismatch 3
  scrub 4 0 1
  $ cmp wrong.img cart.img

`scrub deep` can: two code blocks differ in four sectors or more, so there is one block at most that agrees with all sectors
but one. It names the sector and writes it again, and counts it as one that was written.

  $ tape cart.img scrub deep
  wrong 3 0
  scrub 4 1 0
  $ tape cart.img restore 1 | cmp - volume
  $ cmp whole.img cart.img

The next one finds nothing, and writes nothing.

  $ tape cart.img scrub deep
  scrub 4 0 0
  $ cmp whole.img cart.img

Beside a wrong sector one may be lost.

  $ cp wrong.img cart.img
  $ each lose 3 7
  1 of 1 done
  $ tape cart.img scrub deep
  wrong 3 0
  scrub 4 2 0
  $ cmp whole.img cart.img

What it can't find
------------------

Beside two lost ones it can't be told which sector is wrong, and nothing is written. The status is 0 all the same, as it is
where `scrub` finds a segment that has lost too much: what was found stands in the lines before the last.

  $ cp wrong.img cart.img
  $ each lose 3 7 8
  2 of 2 done
  $ cp cart.img before.img
  $ tape cart.img scrub deep
  mismatch 3
  scrub 4 0 1
  $ cmp before.img cart.img

Nor can it where two sectors are wrong.

  $ cp wrong.img cart.img
  $ flip 3 1 0
  $ tape cart.img scrub deep
  mismatch 3
  scrub 4 0 1

With three lost ones nothing is seen, by no command: there is a code block that agrees with the 29 sectors that can be read,
whatever they hold, and the lost ones are written from it. The volume stays wrong.

  $ cp wrong.img cart.img
  $ each lose 3 7 8 9
  3 of 3 done
  $ tape cart.img scrub deep
  scrub 4 3 0
  $ tape cart.img restore 1 | cmp -l - volume | wc -l
  1024

So it is with one bit. Byte 5 of sector 0 is 0 here in place of 1, and three other sectors are lost. `restore` gives the wrong
byte, which `cmp` counts as the sixth, with status 0.

  $ cp whole.img cart.img
  $ flip 3 0 5
  $ each lose 3 7 8 9
  3 of 3 done
  $ tape cart.img restore 1 > given
  $ cmp -l given volume | tr -s ' ' | sed 's/^ //'
  6 0 1

A `scrub` makes that lasting. It writes the three sectors from the code block that agrees with the others, the wrong one among
them. Two code blocks differ in four sectors or more, so in this column each of the four is wrong now. Nothing is lost any
more, all sectors agree, and no command finds it.

  $ tape cart.img scrub
  scrub 4 3 0
  $ cmp -l whole.img cart.img | wc -l
  4
  $ tape cart.img restore 1 | cmp - given
  $ tape cart.img scrub deep
  scrub 4 0 0

The volume table is not looked at so. Its data sectors are taken as they can be read, and its parity is made to fit them as the
cartridge is mounted. Here the lowest bit of the name `v` is flipped.

  $ cp whole.img cart.img
  $ flip 2 0 8
  $ tape cart.img scrub deep
  scrub 4 0 0
  $ tape cart.img list
  1 3 3 1024 1970-01-01T00:00:00 w
  volumes 1

A wrong sector of its parity is written as the cartridge is mounted.

  $ cp whole.img cart.img
  $ flip 2 31 0
  $ tape cart.img scrub deep
  scrub 4 0 0
  $ cmp whole.img cart.img

Where each header copy has a wrong sector, none can be read, and the cartridge isn't mounted.

  $ flip 0 0 20
  $ flip 1 28 1023
  $ tape cart.img scrub deep
  tape: the cartridge is not formatted
  tape: cart.img: no header can be read: if this cartridge was ever in use, do not format it; run check
  [6]

In each kind of segment
-----------------------

A wrong sector of a header copy is mended, and one of each segment of a volume, be it a sector of data or of parity. The
index of a sector counts the bad ones, too: here sector 2 of segment 3 is bad, so sector 5 is the fifth that is used.

  $ tape cart.img new 3
  blank 3
  $ tape cart.img defect 3 2
  defect 3 2
  $ tape cart.img format L
  formatted 84 1
  $ tape cart.img append v < volume
  appended 1 1024 3 3
  $ seq 100000 | head -c 30000 > longer
  $ tape cart.img append w < longer
  appended 2 30000 4 5
  $ cp cart.img whole.img
  $ flip 0 31 7
  $ flip 3 5 1023
  $ flip 4 28 0
  $ flip 5 0 303
  $ tape cart.img scrub deep
  wrong 0 31
  wrong 3 5
  wrong 4 28
  wrong 5 0
  scrub 6 4 0
  $ cmp whole.img cart.img
  $ flip 1 0 0
  $ flip 4 29 512
  $ flip 5 31 1023
  $ each lose 5 0
  1 of 1 done
  $ tape cart.img scrub deep
  wrong 1 0
  wrong 4 29
  wrong 5 31
  scrub 6 4 0
  $ cmp whole.img cart.img

A header copy is mended only to one that begins with a header's signature. Here copy 1 holds zero bytes, which are a code
block, but for one bit.

  $ for sector in $(seq 0 31); do put 1 $sector 0 "$zeros"; done
  $ flip 1 4 0
  $ cp cart.img before.img
  $ tape cart.img scrub deep
  header 1 unreadable
  scrub 6 0 1
  $ cmp before.img cart.img

Two headers
-----------

The header copies may hold different headers, as no formatting leaves them: here copy 0 that of the label A, and copy 1 that of
the label B. Copy 0 is in force.

  $ tape cart.img new 3
  blank 3
  $ tape cart.img format B
  formatted 84 0
  $ cp cart.img other.img
  $ tape cart.img format A
  formatted 84 0
  $ take other.img 1 $(seq 0 31)
  $ tape cart.img info | sed -n 1p
  label A

With a wrong sector copy 0 doesn't read, and copy 1 is in force. `scrub deep` mends that sector, so behind it copy 0 is in force
again: so `scrub deep` may change what a cartridge is mounted as. It prints which sector it was.

  $ flip 0 9 100
  $ tape cart.img info | sed -n 1p
  label B
  $ tape cart.img scrub deep
  wrong 0 9
  scrub 3 1 0
  $ tape cart.img info | sed -n 1p
  label A

Where it isn't done
-------------------

  $ flip 0 9 100
  $ tape cart.img protect on
  protected on
  $ tape cart.img scrub deep
  tape: the cartridge is protected
  tape: cart.img: write-protected; 'protect off' clears the mark
  [5]
  $ tape none.img scrub deep
  tape: no cartridge
  tape: none.img does not exist
  [4]

Scripts don't have it.

  $ tape cart.img protect off
  protected off
  $ printf 'scrub deep\n' | tape cart.img script
  tape: input fault in line 1 at byte 0
  tape: cart.img: the line is not valid; those before it were carried out
  [3]
