The room for a volume more
==========================

On a cartridge of 3 segments per track 81 of the 84 segments are for volumes, and each carries 29,696 bytes.

  $ tape cart.img room; echo status $?
  tape: no cartridge
  tape: cart.img does not exist
  status 4
  $ tape cart.img new 3
  blank 3
  $ tape cart.img room; echo status $?
  tape: the cartridge is not formatted
  tape: cart.img: no header can be read: if this cartridge was ever in use, do not format it; run check
  status 6
  $ tape cart.img format evening
  formatted 84 0
  $ tape cart.img room
  room 2405376
  $ tape cart.img room now; echo status $?
  usage: tape IMAGE COMMAND
  tape: wrong number of arguments; use: tape IMAGE room
  status 2

A volume takes whole segments. What is left is the number that a refused append names, and an append of so many bytes is none
that is refused.

  $ echo 'a page of text' | tape cart.img append page
  appended 1 15 3 3
  $ tape cart.img room
  room 2375680
  $ head -c 2375681 /dev/zero | tape cart.img append all; echo status $?
  tape: full, need 2375681 have 2375680
  tape: cart.img: there is room for a volume of 2375680 bytes
  status 9
  $ tape cart.img room
  room 2375680
  $ cp cart.img page.img
  $ head -c 2375680 /dev/zero | tape cart.img append all
  appended 2 2375680 4 83
  $ tape cart.img room
  room 0
  $ tape cart.img append more < /dev/null; echo status $?
  tape: full, need 0 have 0
  tape: cart.img: there is no room for another volume
  status 9

Bad sectors carry nothing, and neither does a segment with fewer than four that are usable.

  $ tape bad.img new 3
  blank 3
  $ for sector in 0 1 2; do tape bad.img defect 10 $sector; done > defects
  $ for sector in $(seq 0 28); do tape bad.img defect 11 $sector; done >> defects
  $ tape bad.img format bad
  formatted 84 32
  $ tape bad.img room
  room 2372608
  $ head -c 2372609 /dev/zero | tape bad.img append all; echo status $?
  tape: full, need 2372609 have 2372608
  tape: bad.img: there is room for a volume of 2372608 bytes
  status 9

Once 232 volumes stand there is no room, though segments are free.

  $ tape many.img new 9
  blank 9
  $ tape many.img format many
  formatted 252 0
  $ for n in $(seq 231); do printf 'append a 1\nx'; done | tape many.img script | tail -n 2
  appended 231 1 233 233
  end
  $ tape many.img room
  room 534528
  $ printf x | tape many.img append a
  appended 232 1 234 234
  $ tape many.img room
  room 0

Nothing is written
------------------

Where a list settles the volume table, whose parity sector 30 is lost here, `room` leaves it as it is. On a protected cartridge
it says the same.

  $ cp page.img cart.img
  $ tape cart.img lose 2 30
  lost 2 30
  $ cp cart.img before.img
  $ tape cart.img room
  room 2375680
  $ cmp cart.img before.img && echo nothing is written
  nothing is written
  $ tape cart.img list
  1 3 3 15 1970-01-01T00:00:00 page
  volumes 1
  $ cmp -s cart.img before.img || echo it is settled
  it is settled
  $ tape cart.img protect on
  protected on
  $ tape cart.img room
  room 2375680

It does so over an image that may only be read, too.

  $ cp before.img cart.img
  $ chmod a-w cart.img
  $ tape cart.img room
  room 2375680
  $ cmp cart.img before.img
  $ chmod u+w cart.img

What can't be mounted has no room that could be told.

  $ for sector in 0 1 2; do tape cart.img lose 2 $sector; done > lost
  $ tape cart.img room; echo status $?
  tape: segment 2 lost 4 sectors
  tape: cart.img: the volume table can't be read: keep the image, and see EXIT STATUS 11 in man tape
  status 11
