Formatting, with defects
========================

  $ . "$TESTDIR/image.sh"

A defect is a sector that can never be read, whatever is written there. Formatting finds it, counts it and marks it in
the bad sector map. The map says how many sectors of a segment are left for use; the segment may even lose them all.

  $ tape cart.img new 3
  blank 3
  $ tape cart.img defect 4 0
  defect 4 0
  $ tape cart.img defect 4 31
  defect 4 31
  $ tape cart.img format L
  formatted 84 2
  $ tape cart.img info | grep bad
  bad sectors 2

A sector that was formatted can't become a defect any more. On one that is a defect already the command changes nothing.

  $ tape cart.img defect 3 0
  tape: the sector is formatted
  tape: cart.img: only a sector that was never formatted can be made a defect
  [14]
  $ tape cart.img defect 4 31
  defect 4 31

With 28 defects a segment has four usable sectors, one of them for data; with 29 it carries nothing.

  $ tape cart.img new 3
  blank 3
  $ each defect 4 $(seq 0 27)
  28 of 28 done
  $ tape cart.img format L
  formatted 84 28
  $ tape cart.img new 3
  blank 3
  $ each defect 4 $(seq 0 28)
  29 of 29 done
  $ tape cart.img format L
  formatted 84 29
  $ tape cart.img new 3
  blank 3
  $ each defect 4 $(seq 0 31)
  32 of 32 done
  $ tape cart.img format L
  formatted 84 32
  $ tape cart.img list
  volumes 0

Defects in front
----------------

The header is in segment 0, its copy in segment 1, and the volume table in segment 2. They have to be whole: the least
of them with a defect is named, and the cartridge is unformatted then.

  $ front() { tape cart.img new 3 > new; for segment; do each defect $segment 7 > done; done; tape cart.img format L; }
  $ front 1
  tape: defect in segment 1
  tape: cart.img: it can't be formatted: segments 0 to 2 must have no bad sector
  [13]
  $ tape cart.img list
  tape: the cartridge is not formatted
  tape: cart.img: no header can be read: if this cartridge was ever in use, do not format it; run check
  [6]
  $ tape cart.img info
  tape: the cartridge is not formatted
  tape: cart.img: no header can be read: if this cartridge was ever in use, do not format it; run check
  [6]
  $ front 0
  tape: defect in segment 0
  tape: cart.img: it can't be formatted: segments 0 to 2 must have no bad sector
  [13]
  $ front 2
  tape: defect in segment 2
  tape: cart.img: it can't be formatted: segments 0 to 2 must have no bad sector
  [13]
  $ front 2 1
  tape: defect in segment 1
  tape: cart.img: it can't be formatted: segments 0 to 2 must have no bad sector
  [13]
  $ front 1 2 0
  tape: defect in segment 0
  tape: cart.img: it can't be formatted: segments 0 to 2 must have no bad sector
  [13]
  $ front 83 2 3
  tape: defect in segment 2
  tape: cart.img: it can't be formatted: segments 0 to 2 must have no bad sector
  [13]
  $ front 3 83
  formatted 84 2

A cartridge that was in use and fails so is unformatted, too. Here the defect is put into the image by hand, since the
command refuses a sector that is formatted: sector 1 of segment 2 has the number 65, and its defect byte stands at
64 + 1,027 * 65 + 2 = 66,821.

  $ tape cart.img list
  volumes 0
  $ alter 66821 '\xBD'
  $ tape cart.img format M
  tape: defect in segment 2
  tape: cart.img: it can't be formatted: segments 0 to 2 must have no bad sector
  [13]
  $ tape cart.img list
  tape: the cartridge is not formatted
  tape: cart.img: no header can be read: if this cartridge was ever in use, do not format it; run check
  [6]

Protected cartridges
--------------------

A new cartridge that is protected is neither formatted nor touched. It has no reference bursts, which the byte 13 of its
image would show, and its sectors were never formatted: one of them is still made a defect.

  $ tape cart.img new 3
  blank 3
  $ tape cart.img protect on
  protected on
  $ cp cart.img before.img
  $ tape cart.img format L
  tape: the cartridge is protected
  tape: cart.img: write-protected; 'protect off' clears the mark
  [5]
  $ cmp cart.img before.img
  $ look_at 12 2
   5a 00
  $ tape cart.img list
  tape: the cartridge is not formatted
  tape: cart.img: no header can be read: if this cartridge was ever in use, do not format it; run check
  [6]
  $ tape cart.img defect 0 0
  defect 0 0

Nor is a formatted one.

  $ tape cart.img new 3
  blank 3
  $ tape cart.img format L
  formatted 84 0
  $ tape cart.img protect on
  protected on
  $ cp cart.img before.img
  $ tape cart.img format M
  tape: the cartridge is protected
  tape: cart.img: write-protected; 'protect off' clears the mark
  [5]
  $ cmp cart.img before.img
  $ look_at 12 2
   5a 5a

Lost sectors
------------

A lost sector is none that can never be read: when it is written it can be read again, in front too. So formatting helps
a cartridge whose header and volume table are gone.

  $ tape cart.img protect off
  protected off
  $ each lose 1 $(seq 0 31)
  32 of 32 done
  $ each lose 2 0 1 2 3
  4 of 4 done
  $ tape cart.img list
  tape: segment 2 lost 4 sectors
  tape: cart.img: the volume table can't be read: keep the image, and see EXIT STATUS 11 in man tape
  [11]
  $ tape cart.img format M
  formatted 84 0
  $ tape cart.img info
  label M
  formatted 1970-01-01T00:00:00
  segments 84
  bad sectors 0
  volumes 0
  $ each lose 0 $(seq 0 31)
  32 of 32 done
  $ tape cart.img info | grep label
  label M

A line that can't be printed
----------------------------

`format` prints its line when all is done. Where standard output takes nothing, the cartridge is formatted all the same.

  $ tape cart.img format N > /dev/full
  tape: output failed
  tape: cart.img: the output can't be written
  [17]
  $ tape cart.img info | grep label
  label N

What a formatted cartridge holds
--------------------------------

  $ tape cart.img new 3
  blank 3
  $ each defect 4 5
  1 of 1 done
  $ each defect 83 0 31
  2 of 2 done
  $ tape cart.img format evening 1994-03-01T12:00:00
  formatted 84 3

The header begins with its signature, the format code 2 and the revision 0; then come the segments 0 and 1 of the header,
2 of the first data and 83 of the last; the format date and the write date, which are 0x305265C0; two bytes without use; 3
segments per track, 28 tracks, and the greatest head 0, track 149 and sector 128. Behind these 30 bytes come the label of
44, filled up with spaces, and its date.

  $ look 0 0 0 30
   55 aa 55 aa 02 00 00 00 01 00 02 00 53 00 c0 65
   52 30 c0 65 52 30 00 00 03 00 1c 00 95 80
  $ look 0 0 30 52
   65 76 65 6e 69 6e 67 20 20 20 20 20 20 20 20 20
   20 20 20 20 20 20 20 20 20 20 20 20 20 20 20 20
   20 20 20 20 20 20 20 20 20 20 20 20 c0 65 52 30
   00 00 00 00

The map begins with byte 2,048, in sector 2, and has four bytes for each segment. Bit 5 of those of segment 4 is that of
its sector 5; bits 0 and 31 of those of segment 83, the last, are those of its two defects.

  $ look 0 2 0 32
   00 00 00 00 00 00 00 00 00 00 00 00 00 00 00 00
   20 00 00 00 00 00 00 00 00 00 00 00 00 00 00 00
  $ look 0 2 328 16
   00 00 00 00 01 00 00 80 00 00 00 00 00 00 00 00

All other bytes of the 29 data sectors are zero. These are the bytes of sectors 0 and 2 that are not, and of the 26 others
none is: 20 of the first 30 bytes, 44 and 4 behind them, and 3 of the map.

  $ others() { sectors "$@" | tr ' ' '\n' | grep . | grep -v 00 | wc -l; }
  $ others 0 0 1
  68
  $ others 0 2 1
  3
  $ others 0 1 1
  0
  $ others 0 3 26
  0

The copy in segment 1 is the same, its three sectors of parity too, and all sectors from segment 2 on are zero bytes.

  $ sectors 0 0 32 > first
  $ sectors 1 0 32 > second
  $ cmp first second
  $ others 2 0 2624
  0

Each of the 2,688 sectors but the three defects was formatted, and its gate is open. Nothing is written to a defect.

  $ all() { states $1 0 2688 | tr ' ' '\n' | grep . | sort | uniq -c | sed 's/^ *//'; }
  $ all gate
  3 00
  2685 5a
  $ all formed
  3 00
  2685 f0
  $ all defect
  2685 00
  3 bd

The parity is right, since the header is found again without any three sectors of a copy. Where four are lost, it isn't.

  $ each lose 0 $(seq 0 31)
  32 of 32 done
  $ each lose 1 0 2 17
  3 of 3 done
  $ tape cart.img info
  label evening
  formatted 1994-03-01T12:00:00
  segments 84
  bad sectors 3
  volumes 0
  $ each lose 1 30
  1 of 1 done
  $ tape cart.img info
  tape: the cartridge is not formatted
  tape: cart.img: no header can be read: if this cartridge was ever in use, do not format it; run check
  [6]
