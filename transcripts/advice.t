Advice
======

  $ . "$TESTDIR/image.sh"

EXIT STATUS of the manual says what to do at each status. Here that is done, each piece of advice in the state that it is for. What
stands on standard error is shown by other pages.

  $ run() { tape cart.img "$@" 2> why; echo "status $?"; }
  $ tape cart.img new 3
  blank 3
  $ tape cart.img format evening
  formatted 84 0
  $ echo 'a page of text' | tape cart.img append page
  appended 1 15 3 3
  $ echo 'another page' | tape cart.img append second
  appended 2 13 4 4
  $ cp cart.img whole.img

Status 6: both copies of the header have a wrong sector
-------------------------------------------------------

Neither copy reads, and nothing that needs a mount is done. `check` names the sectors. Once one copy has lost its wrong sector, that
copy reads, and `scrub deep` rewrites both.

  $ flip 0 5 0
  $ flip 1 5 0
  $ run list
  status 6
  $ run scrub deep
  status 6
  $ run check
  wrong 0 5
  wrong 1 5
  status 6
  $ run lose 0 5
  lost 0 5
  status 0
  $ run list
  1 3 3 15 1970-01-01T00:00:00 page
  2 4 4 13 1970-01-01T00:00:00 second
  volumes 2
  status 0
  $ run scrub deep
  wrong 1 5
  scrub 5 2 0
  status 0
  $ cmp cart.img whole.img

Status 6: both copies of the header lost four sectors
-----------------------------------------------------

No command brings the list back. The volumes are still there: the dump of the image has them, and `segments` extracts them. A header
that is put together of both copies gives the list (DUMPS).

  $ each lose 0 0 1 2 3
  4 of 4 done
  $ each lose 1 4 5 6 7
  4 of 4 done
  $ run check
  lost 0 4
  lost 1 4
  status 6
  $ tape_export --map cart.map cart.img > cart.dump
  $ tape_salvage --map cart.map cart.dump segments 3 3 2> why | head -n 1
  a page of text

Status 7: a wrong sector in the volume table
--------------------------------------------

The table's entry isn't one. `check` writes nothing and says that something is wrong in segment 2. If the sector of the entry is
lost, the others give its bytes: all volumes are listed again. Entry 1 is in sector 0, as each sector has eight.

  $ cp whole.img cart.img
  $ flip 2 0 0
  $ run list
  status 7
  $ cat why
  tape: foreign slot 0
  tape: cart.img: * (glob)
  $ run check
  unsettled 2
  status 7
  $ cp cart.img keep.img
  $ run lose 2 0
  lost 2 0
  status 0
  $ run list
  1 3 3 15 1970-01-01T00:00:00 page
  2 4 4 13 1970-01-01T00:00:00 second
  volumes 2
  status 0
  $ run check
  check 5 0 0
  status 0

Status 20: an image that was cut off
------------------------------------

A copy that ended early is not an image. An image that was never upgraded has 64 bytes, and 920,192 for each segment of a track; the
number of these is in the bytes 10 and 11. Made that long again, what was cut off is unformatted, and all else is there.

  $ cp whole.img cart.img
  $ truncate -s 150000 cart.img
  $ run list
  status 20
  $ cp cart.img again.img
  $ truncate -s $((64 + 920192 * $(od -An -tu2 -j 10 -N 2 again.img))) again.img
  $ stat -c %s again.img whole.img
  2760640
  2760640
  $ tape again.img list
  1 3 3 15 1970-01-01T00:00:00 page
  2 4 4 13 1970-01-01T00:00:00 second
  volumes 2
  $ tape again.img restore 1
  a page of text

Status 21: the volume table is unsettled
----------------------------------------

Of the four writes of an append into the table the first ones were made: the sector of the entry, then those of the parity. On a copy
the loss of the entry's sector gives the list that the parity has. It is the old one until two parity sectors are new.

  $ cp whole.img cart.img
  $ echo third | tape cart.img append third
  appended 3 6 5 5
  $ cp cart.img new.img
  $ list() { cp cart.img copy.img; tape copy.img lose 2 0; tape copy.img list | tail -n 1; tape cart.img list | tail -n 1; }
  $ take whole.img 2 29 30 31
  $ run check
  unsettled 2
  check 6 1 0
  status 21
  $ list
  lost 2 0
  volumes 2
  volumes 3
  $ cp new.img cart.img
  $ take whole.img 2 30 31
  $ run check
  unsettled 2
  check 6 1 0
  status 21
  $ list
  lost 2 0
  volumes 2
  volumes 3
  $ cp new.img cart.img
  $ take whole.img 2 31
  $ run check
  unsettled 2
  check 6 1 0
  status 21
  $ list
  lost 2 0
  volumes 3
  volumes 3
