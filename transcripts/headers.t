Headers of other tools
======================

  $ . "$TESTDIR/image.sh"

A header is tested before it is believed. Here the first sector of a header is changed by hand. Its three sectors of parity
are lost, so that whatever the 29 sectors of data hold is the one code block that agrees with them.

  $ tape cart.img new 3
  blank 3
  $ tape cart.img format A 1994-03-01T12:00:00
  formatted 84 0
  $ for copy in 0 1; do each lose $copy 29 30 31; done
  3 of 3 done
  3 of 3 done
  $ put 1 0 30 B
  $ cp cart.img whole.img
  $ tape cart.img info
  label A
  formatted 1994-03-01T12:00:00
  segments 84
  bad sectors 0
  volumes 0

What is told is the first test that fails, with the value that was found. These bytes are changed from the last test to the
first, each beside those before it: the greatest sector and track, the number of tracks, a high byte of the segments per
track, the last data segment, a high byte of the first, the second header segment, a high byte of the first, and the
format code.

  $ while read place byte; do
  >     put 0 0 $place "\\x$byte"
  >     tape cart.img info
  > done << TABLE
  > 29 7F
  > 28 96
  > 26 1B
  > 25 01
  > 12 54
  > 11 01
  > 8 00
  > 7 01
  > 4 04
  > TABLE
  tape: foreign floppy-sector-maximum 127
  tape: cart.img: another layout, or damage: keep the image; tape_export and tape_salvage can read it
  tape: foreign floppy-track-maximum 150
  tape: cart.img: another layout, or damage: keep the image; tape_export and tape_salvage can read it
  tape: foreign tracks 27
  tape: cart.img: another layout, or damage: keep the image; tape_export and tape_salvage can read it
  tape: foreign segments-per-track 259
  tape: cart.img: another layout, or damage: keep the image; tape_export and tape_salvage can read it
  tape: foreign last-data 84
  tape: cart.img: another layout, or damage: keep the image; tape_export and tape_salvage can read it
  tape: foreign first-data 258
  tape: cart.img: another layout, or damage: keep the image; tape_export and tape_salvage can read it
  tape: foreign second-header 0
  tape: cart.img: another layout, or damage: keep the image; tape_export and tape_salvage can read it
  tape: foreign first-header 256
  tape: cart.img: another layout, or damage: keep the image; tape_export and tape_salvage can read it
  tape: foreign format-code 4
  tape: cart.img: another layout, or damage: keep the image; tape_export and tape_salvage can read it
  [7]

A header that is foreign is in force all the same: the copy, which is whole, does not take its place. And where copy 0 is
good, copy 1 isn't looked at.

  $ tape cart.img list
  tape: foreign format-code 4
  tape: cart.img: another layout, or damage: keep the image; tape_export and tape_salvage can read it
  [7]
  $ cp whole.img cart.img
  $ put 1 0 4 '\x04'
  $ tape cart.img info | sed -n 1p
  label A
  $ put 0 0 4 '\x04'
  $ tape cart.img info
  tape: foreign format-code 4
  tape: cart.img: another layout, or damage: keep the image; tape_export and tape_salvage can read it
  [7]

Nothing was written in any of these looks, since a refusal comes before the table is settled.

  $ each lose 2 0
  1 of 1 done
  $ cp cart.img before.img
  $ tape cart.img list
  tape: foreign format-code 4
  tape: cart.img: another layout, or damage: keep the image; tape_export and tape_salvage can read it
  [7]
  $ cmp cart.img before.img

A cartridge may be formatted whatever its header says.

  $ tape cart.img format M
  formatted 84 0
  $ tape cart.img list
  volumes 0

The map
-------

The map has four bytes for each segment, from the beginning of sector 2 on. A mark in one of the segments 0 to 2 is
foreign, since header and table lie there: the first of them that has one is told.

  $ map() { cp whole.img cart.img; put 0 2 11 '\x80'; put 0 2 $1 "$2"; tape cart.img info; }
  $ map 8 '\x01'
  tape: foreign map 2
  tape: cart.img: another layout, or damage: keep the image; tape_export and tape_salvage can read it
  [7]
  $ map 7 '\x80'
  tape: foreign map 1
  tape: cart.img: another layout, or damage: keep the image; tape_export and tape_salvage can read it
  [7]
  $ map 5 '\x10'
  tape: foreign map 1
  tape: cart.img: another layout, or damage: keep the image; tape_export and tape_salvage can read it
  [7]
  $ map 0 '\x01'
  tape: foreign map 0
  tape: cart.img: another layout, or damage: keep the image; tape_export and tape_salvage can read it
  [7]

Marks behind them are bad sectors: here two of segment 3, and the last one of segment 83. A bit behind the last segment's
is none.

  $ cp whole.img cart.img
  $ put 0 2 12 '\x81'
  $ put 0 2 335 '\x80'
  $ put 0 2 336 '\xEE'
  $ tape cart.img info | grep bad
  bad sectors 3

What is not read
----------------

The revision, the write date, two bytes without use, the greatest floppy head, the label's date, and all bytes that no field
has, may be any.

  $ cp whole.img cart.img
  $ for place in 5 18 19 20 21 22 23 27 74 75 76 77 78 255 1023; do put 0 0 $place '\xEE'; done
  $ put 0 2 336 '\xEE'
  $ put 0 2 1023 '\xEE'
  $ for sector in 1 $(seq 3 28); do put 0 $sector 0 "$(printf '\\xEE%.0s' $(seq 1024))"; done
  $ look 0 28 1008 16
   ee ee ee ee ee ee ee ee ee ee ee ee ee ee ee ee
  $ tape cart.img info
  label A
  formatted 1994-03-01T12:00:00
  segments 84
  bad sectors 0
  volumes 0

No header
---------

Data that do not begin with the four bytes of the signature are no header: then the copy counts.

  $ cp whole.img cart.img
  $ look 0 0 0 4
   55 aa 55 aa
  $ put 0 0 3 '\xAB'
  $ tape cart.img info | sed -n 1p
  label B
  $ put 1 0 3 '\xAB'
  $ tape cart.img info
  tape: the cartridge is not formatted
  tape: cart.img: no header can be read: if this cartridge was ever in use, do not format it; run check
  [6]
  $ put 0 0 3 '\xAA'
  $ tape cart.img info | sed -n 1p
  label A

Zero bytes are a code block, as a stopped formatting leaves it, but no header. Nor are others.

  $ cp whole.img cart.img
  $ fill 0 00
  $ tape cart.img info | sed -n 1p
  label B
  $ fill 0 FF
  $ tape cart.img info | sed -n 1p
  label B

With both copies so there is no header, which `format` mends.

  $ fill 1 FF
  $ for command in info list 'restore 1' scrub; do tape cart.img $command; done
  tape: the cartridge is not formatted
  tape: cart.img: no header can be read: if this cartridge was ever in use, do not format it; run check
  tape: the cartridge is not formatted
  tape: cart.img: no header can be read: if this cartridge was ever in use, do not format it; run check
  tape: the cartridge is not formatted
  tape: cart.img: no header can be read: if this cartridge was ever in use, do not format it; run check
  tape: the cartridge is not formatted
  tape: cart.img: no header can be read: if this cartridge was ever in use, do not format it; run check
  [6]
  $ echo lost | tape cart.img append N
  tape: the cartridge is not formatted
  tape: cart.img: no header can be read: if this cartridge was ever in use, do not format it; run check
  [6]
  $ tape cart.img format C
  formatted 84 0
  $ tape cart.img info | sed -n 1p
  label C

And a cartridge that has no reference bursts is not formatted, whatever its headers are.

  $ cp whole.img cart.img
  $ alter 13 '\0'
  $ tape cart.img info
  tape: the cartridge is not formatted
  tape: cart.img: no header can be read: if this cartridge was ever in use, do not format it; run check
  [6]
