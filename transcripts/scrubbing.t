Scrubbing a cartridge
=====================

  $ . "$TESTDIR/image.sh"
  $ tape cart.img new 3
  blank 3
  $ tape cart.img format L
  formatted 84 0
  $ seq 100000 | head -c 30000 > volume
  $ tape cart.img append v < volume
  appended 1 30000 3 4
  $ tape cart.img append w < volume
  appended 2 30000 5 6
  $ cp cart.img whole.img

`scrub` looks at the segments that hold something: both header copies, the volume table, and those of the volumes. In each
that reads, the sectors that can't be read are written again. It prints how many segments were looked at, how many sectors
were written, and how many segments don't read.

  $ tape cart.img scrub
  scrub 7 0 0
  $ cmp whole.img cart.img

Three lost sectors in each of them can be found. Those of the table are written by each command that mounts, before
anything else, so they aren't counted here.

  $ each lose 0 0 5 31
  3 of 3 done
  $ each lose 1 29 30 31
  3 of 3 done
  $ each lose 2 0 7 30
  3 of 3 done
  $ each lose 3 1 2 3
  3 of 3 done
  $ each lose 6 26 27 28
  3 of 3 done
  $ tape cart.img scrub
  scrub 7 12 0
  $ cmp whole.img cart.img
  $ tape cart.img scrub
  scrub 7 0 0

A segment that has lost more is left as it is, and named, and so is one whose sectors agree with no code block. Segments
without a volume are not looked at.

  $ each lose 4 0 1 2 3
  4 of 4 done
  $ put 5 3 0 X
  $ tape cart.img lose 6 9
  lost 6 9
  $ tape cart.img lose 40 0
  lost 40 0
  $ tape cart.img scrub
  lost 4 4
  mismatch 5
  scrub 7 1 2
  $ tape cart.img restore 1 > part
  tape: segment 4 lost 4 sectors
  tape: cart.img: the output is incomplete: it ends before segment 4; tape_salvage gives what is left
  [11]

So is a header copy, as long as the other one is there.

  $ cp whole.img cart.img
  $ each lose 0 0 1 2 3
  4 of 4 done
  $ tape cart.img scrub
  header 0 unreadable
  scrub 7 0 1
  $ tape cart.img list
  1 3 4 30000 1970-01-01T00:00:00 v
  2 5 6 30000 1970-01-01T00:00:00 w
  volumes 2

A sector that has become a defect since the formatting stays unreadable, whatever is written to it, and is counted each
time. Here it is made one by hand: sector 5 of segment 3 has the number 32 * 3 + 5 = 101, and its defect byte stands at
64 + 1,027 * 101 + 2 = 103,793.

  $ cp whole.img cart.img
  $ alter 103793 '\xBD'
  $ tape cart.img scrub
  scrub 7 1 0
  $ tape cart.img scrub
  scrub 7 1 0
  $ tape cart.img restore 1 | cmp - volume

On a protected cartridge nothing is written.

  $ tape cart.img protect on
  protected on
  $ tape cart.img scrub
  tape: the cartridge is protected
  tape: cart.img: write-protected; 'protect off' clears the mark
  [5]
  $ tape none.img scrub
  tape: no cartridge
  tape: none.img does not exist
  [4]
