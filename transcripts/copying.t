Copies
======

  $ command -v tape_dup > /dev/null || exit 80

`tape_dup` copies the volumes of a cartridge onto another one. The first has a volume of ten bytes and one of none; the
second has a defect in each sector of segment 3 that takes data, so its first volume begins in segment 4.

  $ tape from.img new 3
  blank 3
  $ tape from.img format L
  formatted 84 0
  $ printf 0123456789 | tape from.img append a
  appended 1 10 3 3
  $ tape from.img append b < /dev/null
  appended 2 0 4 4
  $ tape to.img new 3
  blank 3
  $ for sector in $(seq 0 28); do tape to.img defect 3 $sector; done > defects
  $ tape to.img format M
  formatted 84 29
  $ tape_dup from.img to.img
  copied 1 10
  copied 2 0
  volumes 2
  $ tape to.img list
  1 4 4 10 1970-01-01T00:00:00 a
  2 5 5 0 1970-01-01T00:00:00 b
  volumes 2
  $ tape to.img restore 1; echo
  0123456789

Where nothing is missing, nothing is copied.

  $ cp to.img copied.img
  $ tape_dup from.img to.img
  volumes 2
  $ cmp to.img copied.img

A volume that the first cartridge gets later is copied behind the others, with its date.

  $ echo 'a page of text' | tape from.img append page 1994-03-01T12:00:00
  appended 3 15 5 5
  $ tape_dup from.img to.img
  copied 3 15
  volumes 3
  $ tape to.img list | tail -n 2
  3 6 6 15 1994-03-01T12:00:00 page
  volumes 3
  $ tape to.img restore 3
  a page of text

The label of the second cartridge, and its map, are its own.

  $ tape to.img info | sed -n 1p
  label M

Refusals
--------

Each status but 0 comes with a line on standard error, which names the image that it is about.

  $ tape_dup
  usage: tape_dup FROM TO
  [2]
  $ tape_dup from.img
  usage: tape_dup FROM TO
  [2]
  $ tape_dup from.img to.img more
  usage: tape_dup FROM TO
  [2]
  $ tape_dup none.img to.img
  tape_dup: no cartridge
  tape_dup: none.img does not exist
  [30]
  $ tape_dup from.img empty.img
  tape_dup: no cartridge
  tape_dup: empty.img does not exist
  [31]
  $ tape_dup none.img empty.img
  tape_dup: no cartridge
  tape_dup: none.img does not exist
  [30]

A file is locked once, so it is no copy of itself; a device is no image.

  $ tape_dup from.img from.img
  tape_dup: from.img is in use by another process, or named twice in this command
  [20]
  $ tape_dup from.img /dev/null
  tape_dup: /dev/null is not a regular file
  [20]
  $ tape_dup from.img none/to.img
  tape_dup: no cartridge
  tape_dup: none/to.img does not exist
  [31]

A cartridge that is not formatted is refused, the first one before the second.

  $ tape blank.img new 3
  blank 3
  $ tape_dup blank.img blank.img
  tape_dup: blank.img is in use by another process, or named twice in this command
  [20]
  $ cp blank.img other.img
  $ tape_dup blank.img other.img
  tape_dup: blank.img: no header can be read: if this cartridge was ever in use, do not format it; run check
  [32]
  $ tape_dup from.img blank.img
  tape_dup: blank.img: no header can be read: if this cartridge was ever in use, do not format it; run check
  [33]

A protected cartridge takes no copy, also where it lacks no volume. The one that is copied may be protected, or be a file
that may not be written.

  $ tape to.img protect on
  protected on
  $ tape_dup from.img to.img
  tape_dup: to.img: write-protected; 'protect off' clears the mark
  [33]
  $ tape to.img protect off
  protected off
  $ tape from.img protect on
  protected on
  $ chmod a-w from.img
  $ tape_dup from.img to.img
  volumes 3
  $ chmod u+w from.img
  $ tape from.img protect off
  protected off

Volumes that are there have to have the names, dates and lengths of those that are copied, in their order; what their bytes
are is not asked.

  $ tape short.img new 3
  blank 3
  $ tape short.img format S
  formatted 84 0
  $ cp short.img other.img
  $ cp short.img alike.img
  $ printf 0123456789 | tape other.img append x
  appended 1 10 3 3
  $ cp other.img before.img
  $ tape_dup from.img other.img
  tape_dup: other.img: volume 1 is not a copy: the other image has another one, or none
  [34]
  $ cmp other.img before.img
  $ printf 9876543210 | tape alike.img append a
  appended 1 10 3 3
  $ tape_dup from.img alike.img
  copied 2 0
  copied 3 15
  volumes 3
  $ tape alike.img restore 1; echo
  9876543210

A target with more volumes differs, too.

  $ tape_dup short.img alike.img
  tape_dup: alike.img: volume 1 is not a copy: the other image has another one, or none
  [34]

An output that takes no line ends the copy behind the volume that the line is of.

  $ cp short.img lined.img
  $ tape_dup from.img lined.img > /dev/full
  tape_dup: the output can't be written
  [17]
  $ tape lined.img list
  1 3 3 10 1970-01-01T00:00:00 a
  volumes 1

There is room for so many bytes.

  $ tape full.img new 3
  blank 3
  $ tape full.img format F
  formatted 84 0
  $ head -c 2405376 /dev/zero | tape full.img append zeros
  appended 1 2405376 3 83
  $ cp short.img tight.img
  $ tape_dup full.img tight.img
  copied 1 2405376
  volumes 1
  $ cp short.img worse.img
  $ for sector in $(seq 0 28); do tape to.img lose 3 $sector; done > lost
  $ tape bad.img new 3
  blank 3
  $ tape bad.img defect 3 0
  defect 3 0
  $ tape bad.img format B
  formatted 84 1
  $ tape_dup full.img bad.img
  tape_dup: bad.img: there is room for a volume of 2404352 bytes
  [33]
  $ tape bad.img list
  volumes 0

A segment that is lost
----------------------

A volume of 59,393 bytes stands in the segments 3 to 5. With three sectors lost in segment 4 it is copied whole; with four
it isn't, and the volumes before it stay.

  $ tape lossy.img new 3
  blank 3
  $ tape lossy.img format L
  formatted 84 0
  $ seq 20000 | head -c 59393 > volume
  $ tape lossy.img append a < volume
  appended 1 59393 3 5
  $ for sector in 0 1 31; do tape lossy.img lose 4 $sector; done
  lost 4 0
  lost 4 1
  lost 4 31
  $ cp short.img worse.img
  $ tape_dup lossy.img worse.img
  copied 1 59393
  volumes 1
  $ tape worse.img restore 1 | cmp - volume
  $ tape lossy.img lose 4 2
  lost 4 2
  $ cp short.img worse.img
  $ tape_dup lossy.img worse.img
  tape_dup: lossy.img: segment 4 can't be read: parity recovers at most 3 lost sectors
  [32]
  $ tape worse.img list
  volumes 0

A name is copied as it stands, all its 44 bytes
-----------------------------------------------

A name that was written by hand has bytes that no append takes.

  $ . "$TESTDIR/image.sh"
  $ cp short.img cart.img
  $ echo one | tape cart.img append a
  appended 1 4 3 3
  $ put 2 0 8 'b\xFF\0%41s'
  $ cp cart.img named.img
  $ cp short.img copy.img
  $ tape_dup named.img copy.img
  copied 1 4
  volumes 1
  $ cp copy.img cart.img
  $ look 2 0 8 4
   62 ff 00 20
  $ tape_dup named.img copy.img
  volumes 1

A copy that is stopped
----------------------

A copy is killed, and run again until it is done. What then stands on the second cartridge is what stands there after a copy
that was not stopped: the same volumes, in the same places.

  $ tape many.img new 3
  blank 3
  $ tape many.img format many
  formatted 84 0
  $ for number in $(seq 8); do seq $((number * 9000)) | tape many.img append volume-$number; done > appended
  $ cp short.img whole.img
  $ tape_dup many.img whole.img > said
  $ tail -n 1 said
  volumes 8
  $ cp short.img killed.img
  $ status=1
  $ for wait in 0 0.005 0.01 0.015 0.02 0.03 0.04 0.05 0.07 0.1 0.2 0.4 0.8 9 9; do
  >   { timeout -s KILL "$wait" tape_dup many.img killed.img > again; status=$?; } 2> killed
  >   [ "$(tape killed.img list | sed '$d' | grep -cvxFf <(tape whole.img list))" = 0 ] || echo 'another volume'
  >   [ $status = 0 ] && break
  > done
  $ tail -n 1 again
  volumes 8
  $ tape killed.img list | cmp - <(tape whole.img list)
  $ for number in $(seq 8); do tape killed.img restore $number | cmp - <(tape many.img restore $number); done
