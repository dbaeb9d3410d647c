The examples of the manual
==========================

Every command of the examples in the manual pages `tape.1`, `pulse_trace.1`, `tape_export.1`, `tape_import.1`,
`tape_salvage.1` and `tape_dup.1`, in their order, with exactly what is shown there, so that the examples stay true. Who
changes a line here changes it there, too.

  $ for name in tape_export tape_import tape_salvage tape_dup ddrescuelog; do command -v $name > /dev/null || exit 80; done

tape
----

A new cartridge, formatted, and a volume on it. The numbers from 1 to 10,000 have 9 digits, then 2 * 90, 3 * 900,
4 * 9,000 and 5, and 10,000 newlines: 48,894 bytes, of which 29,696 stand in segment 3 and the others in segment 4.

  $ tape evening.img new 3
  blank 3
  $ tape evening.img format evening 1994-03-01T12:00:00
  formatted 84 0
  $ seq 10000 > numbers
  $ tape evening.img append numbers 1994-03-01T20:15:00 < numbers
  appended 1 48894 3 4
  $ tape evening.img list
  1 3 4 48894 1994-03-01T20:15:00 numbers
  volumes 1

Three sectors of a segment may be lost.

  $ for segment in 3 4; do
  >   for sector in 0 7 31; do
  >     tape evening.img lose $segment $sector
  >   done
  > done
  lost 3 0
  lost 3 7
  lost 3 31
  lost 4 0
  lost 4 7
  lost 4 31
  $ tape evening.img restore 1 | cmp - numbers

With a fourth one only the bytes of the segments before it are given.

  $ tape evening.img lose 4 8
  lost 4 8
  $ tape evening.img restore 1 > part; echo $?
  tape: segment 4 lost 4 sectors
  tape: evening.img: the output is incomplete: it ends before segment 4; tape_salvage gives what is left
  11
  $ head -c 29696 numbers | cmp - part

Looked at are the two copies of the header, the volume table, and the two segments of the volume.

  $ tape evening.img scrub
  lost 4 4
  scrub 5 3 1

The drive's status is 0x75, its least bit first, between two ones.

  $ (echo 6; yes 2 | head -n 9) | tape evening.img pulses | xargs
  1 1 0 1 0 1 1 1 0 1

A script, which leaves the cartridge with a second volume.

  $ tape evening.img script << END
  > append a 3
  > abclist
  > restore 2
  > END
  appended 2 3 5 5
  1 3 4 48894 1994-03-01T20:15:00 numbers
  2 5 5 3 1970-01-01T00:00:00 a
  volumes 2
  part 3
  abcrestored 2 3
  end

A small evening: five segments and nine, beside the three in front.

  $ tape made.img new 3
  blank 3
  $ tape made.img format made
  formatted 84 0
  $ tape made.img make 1 2
  scrub 17 0 0
  volume 1 139000 17375985
  volume 2 240000 29998218

A look that writes nothing, and one that writes nothing but the mark.

  $ tape evening.img check; echo $?
  lost 4 4
  check 6 0 1
  tape: 0 segments can be mended, 1 not
  tape: evening.img: damaged; see EXIT STATUS 21 in man tape
  21
  $ tape evening.img protect on
  protected on
  $ tape evening.img info
  label evening
  formatted 1994-03-01T12:00:00
  segments 84
  bad sectors 0
  volumes 2

pulse_trace
-----------

Two trains; a seek, and a drive that does not answer; a report without the trains that ask for its bits.

  $ (seq 0 100 200; seq 5000 100 5100) | pulse_trace
  0 3 Pause
  5000 2 ReportNextBit
  $ (seq 0 12; seq 5000 5004; seq 9000 9005; echo 9100 0) |
  >   pulse_trace --gap 100
  0 13 SeekTrack
  5000 5 value 3
  9000 6 ReportStatus
  9100 not acknowledged
  $ (seq 0 100 500; echo 600 1; time=2000
  >   for level in 1 0 1 0 1 1 1 0 1; do
  >     seq $time 100 $((time + 100)); echo $((time + 200)) $level
  >     time=$((time + 2000))
  >   done) | pulse_trace | grep -v next
  0 6 ReportStatus
  18200 word 0x0075

tape_export
-----------

The cartridge of the example, whose making is not shown there: a volume of 15 bytes in segment 3, of which the first three
sectors are lost.

  $ tape page.img new 3
  blank 3
  $ tape page.img format evening
  formatted 84 0
  $ echo 'a page of text' | tape page.img append page
  appended 1 15 3 3
  $ for sector in 0 1 2; do tape page.img lose 3 $sector; done
  lost 3 0
  lost 3 1
  lost 3 2

The lost sectors have the numbers 96, 97 and 98, and 1,024 * 96 is 0x18000, 1,024 * 3 is 0xC00. What lies behind them are the
2,688 - 99 = 2,589 last sectors, 0x287400 bytes from 0x18C00 on.

  $ tape_export --map page.map page.img > page.dump
  $ grep -v '^#' page.map
  0x00000000     +               1
  0x00000000  0x00018000  +
  0x00018000  0x00000C00  -
  0x00018C00  0x00287400  +

tape_import
-----------

The dump and the map of before stand for those of a medium.

  $ mv page.dump tape.dump
  $ mv page.map tape.map
  $ tape_import --map tape.map tape.img < tape.dump
  imported 84 3
  $ tape tape.img check; echo $?
  weak 3 3
  check 4 1 0
  tape: 1 segments can be mended, 0 not
  tape: tape.img: damaged; see EXIT STATUS 21 in man tape
  21
  $ tape tape.img list
  1 3 3 15 1970-01-01T00:00:00 page
  volumes 1
  $ tape tape.img scrub deep
  scrub 4 3 0
  $ tape tape.img restore 1
  a page of text

tape_salvage
------------

The data of the segments from 2 on, 29 sectors of each. The archive has a block of 512 bytes for its file's header, 96 for the
48,894 bytes of it, and two of zero bytes; the whole is a multiple of 10,240.

  $ tape notes.img new 3
  blank 3
  $ tape notes.img format notes
  formatted 84 0
  $ tar -c numbers | tape notes.img append notes
  appended 1 51200 3 4
  $ tape_export notes.img > notes.dump
  $ for segment in $(seq 2 83); do
  >   dd if=notes.dump bs=1024 skip=$((32 * segment)) count=29 status=none
  > done > tape.dump
  $ stat -c %s tape.dump
  2435072
  $ tape_salvage --form data tape.dump list
  1 3 4 51200 1970-01-01T00:00:00 notes
  volumes 1
  $ tape_salvage --form data --sure notes.sure tape.dump volume 1 > notes.tar
  $ tar -t -f notes.tar
  numbers

A dump of all sectors that lacks the sectors 0, 1, 2 and 4 of segment 3, of a volume of 48,894 bytes.

  $ tape lost.img new 3
  blank 3
  $ tape lost.img format lost
  formatted 84 0
  $ tape lost.img append numbers < numbers
  appended 1 48894 3 4
  $ for sector in 0 1 2 4; do tape lost.img lose 3 $sector; done
  lost 3 0
  lost 3 1
  lost 3 2
  lost 3 4
  $ tape_export --map lost.map lost.img > lost.dump
  $ tape_salvage --map lost.map lost.dump check; echo $?
  lost 3 4
  check 84 0 1
  tape_salvage: 0 segments can be mended, 1 not
  1
  $ tape_salvage --map lost.map --sure part.sure lost.dump volume 1 > part; echo $?
  tape_salvage: 44798 bytes read, 0 unchecked, 4096 filled
  1
  $ ddrescuelog --list-blocks=- --block-size=1024 part.sure
  0
  1
  2
  4

tape_dup
--------

The cartridge of the first example once more, since above a segment of it was lost.

  $ tape evening.img new 3
  blank 3
  $ tape evening.img format evening 1994-03-01T12:00:00
  formatted 84 0
  $ tape evening.img append numbers 1994-03-01T20:15:00 < numbers
  appended 1 48894 3 4
  $ tape second.img new 3
  blank 3
  $ tape second.img format second
  formatted 84 0
  $ tape_dup evening.img second.img
  copied 1 48894
  volumes 1
  $ tape second.img restore 1 | cmp - numbers
