A session
=========

That of the README. A cartridge is made and formatted, and a folder goes onto it as a volume.

  $ mkdir notes back
  $ echo 'a page of text' > notes/page
  $ seq 10000 > notes/numbers
  $ tape cart.img new 3; tape cart.img format evening
  blank 3
  formatted 84 0
  $ tar -c -C notes page numbers | tape cart.img append notes
  appended 1 61440 3 5

Three lost sectors of a segment are found again by its parity, and a scrub writes them again: the two header copies, the table and
the volume's three segments are looked at.

  $ for sector in 0 1 2; do tape cart.img lose 3 $sector; done > lost
  $ tape cart.img restore 1 | tar -x -C back
  $ diff -r notes back
  $ tape cart.img scrub
  scrub 6 3 0

A fourth is one too many, and that is told. What stands in front of it came out.

  $ for sector in 0 1 2 3; do tape cart.img lose 4 $sector; done > lost
  $ tape cart.img restore 1 > out 2> why; echo status $?; head -n 1 why
  status 11
  tape: segment 4 lost 4 sectors
  $ stat -c %s out
  29696

The recording of a seek to track 3 and of a broken-off report, by `pulse_trace`:

  $ { seq 0 12; seq 5000 5004; seq 9000 9005; echo '9100 0'; } | pulse_trace --gap 100
  0 13 SeekTrack
  5000 5 value 3
  9000 6 ReportStatus
  9100 not acknowledged
