Trains of pulses
================

  $ . "$TESTDIR/trains.sh"
  $ set -o pipefail

`pulses` puts the cartridge in and sends the drive trains of step pulses, one for each line of its input. Behind each it
prints the level that the train leaves on the track-0 line. Train 6 asks for the status, and each train of two pulses for
the next bit of it, the least first; the last level 1 ends the report.

  $ tape cart.img new 3
  blank 3
  $ tape cart.img format L
  formatted 84 0
  $ printf '6\n2\n2\n2\n2\n2\n2\n2\n2\n2\n' | tape cart.img pulses
  1
  1
  0
  1
  0
  1
  1
  1
  0
  1

So the status is 0x75: the drive is stopped (0x01) at the beginning of the tape (0x40), with a cartridge (0x04) that is new
to it (0x10) and has its reference bursts (0x20). In one row:

  $ send 6 2 2 2 2 2 2 2 2 2
  1 1 0 1 0 1 1 1 0 1
  $ report 8 6
  0x75

An empty gap, `0`, keeps the level and the report. When the report is over, a train of two pulses leaves 0.

  $ send 0 0 6 0 2 2 0 0 2 2 2 2 2 2 0 2 0 2
  0 0 1 1 1 0 0 0 1 0 1 1 1 0 0 1 1 0

Error words
-----------

Train 7 asks for the error word, of 16 bits, which is cleared when it is told. Its low byte is a code, its high byte the
command. Train 13 seeks a track, and the train behind it says which: 30 pulses are track 28, which there isn't. The word is
0x0D07, and then 0.

  $ send 7 $(times 17 2) 13 30 7 $(times 17 2) 7 $(times 17 2)
  1 0 0 0 0 0 0 0 0 0 0 0 0 0 0 0 0 1 0 0 1 1 1 1 0 0 0 0 0 1 0 1 1 0 0 0 0 1 1 0 0 0 0 0 0 0 0 0 0 0 0 0 0 0 0 1

Another command ends a report. The word is 0x0A08.

  $ send 6 10 7 $(times 17 2)
  1 0 1 0 0 0 1 0 0 0 0 0 1 0 1 0 0 0 0 1

Train 14 seeks the load point, which takes 160 gaps. What comes meanwhile is refused, with 0x0A01 here, and the seek goes
on: the status 0x24 has neither that the drive is stopped nor where.

  $ send 7 $(times 17 2) 14 10 7 $(times 17 2) 6 $(times 9 2)
  1 0 0 0 0 0 0 0 0 0 0 0 0 0 0 0 0 1 0 0 1 1 0 0 0 0 0 0 0 0 1 0 1 0 0 0 0 1 1 0 0 1 0 0 1 0 0 1

One train to a cartridge that was just put in, and the word that it leaves. 255 is the longest train that a line can name;
the nibbles behind 25 are below 16, so 18 pulses are no nibble.

  $ for train in 15 16 48 28 10 1 255; do report 16 $train 7; done
  0x0F0D
  0x100E
  0x3006
  0x1C09
  0x0A0D
  0x011B
  0xFF06
  $ report 16 7 $(times 17 2) 25 18 7
  0x1906

Other reports
-------------

The configuration, the ROM version and the vendor are the same of each drive; the tape status tells the length, and the
format segments are the segments per track.

  $ reports() { for it in '8 8' '8 9' '16 32' '8 33' '16 37'; do report $it; done; }
  $ reports
  0x00
  0x01
  0x0080
  0x32
  0x0003
  $ cp cart.img kept.img
  $ tape cart.img new 100
  blank 100
  $ reports
  0x00
  0x01
  0x0080
  0x12
  0x0064
  $ tape cart.img new 150
  blank 150
  $ reports
  0x00
  0x01
  0x0080
  0x22
  0x0096
  $ cp kept.img cart.img

The way along the tape
----------------------

A seek of track 1 takes ten gaps. Then the tape, which stood at its beginning, still does: there track 1 ends.

  $ report 8 7 $(times 17 2) 13 3 $(times 8 0) 6
  0x24
  $ report 8 7 $(times 17 2) 13 3 $(times 9 0) 6
  0x65

From there two segments back, by 25 and the nibbles 2 and 0, take 80 gaps, and the tape stands amid the track.

  $ report 8 7 $(times 17 2) 13 3 $(times 10 0) 25 4 2 $(times 78 0) 6
  0x24
  $ report 8 7 $(times 17 2) 13 3 $(times 10 0) 25 4 2 $(times 79 0) 6
  0x25

Other cartridges, and none
--------------------------

A protected cartridge has 0x08 in its status, and is not to be formatted: 0x0F05.

  $ tape cart.img protect on
  protected on
  $ report 8 6
  0x7D
  $ report 16 15 7
  0x0F05
  $ tape cart.img protect off
  protected off
  $ report 8 6
  0x75

A new cartridge has no reference bursts. Its error word is told, which makes it no longer new to the drive; then Format
mode is entered by 15, and 16 writes the bursts. They stay: the next run, which puts the cartridge in again, finds them.

  $ tape cart.img new 3
  blank 3
  $ report 8 6
  0x55
  $ send 7 $(times 17 2) 15 16
  1 0 0 0 0 0 0 0 0 0 0 0 0 0 0 0 0 1 0 0
  $ report 8 6
  0x75

An image keeps the two marks in its bytes 12 and 13, each 0x5A; any other byte is no mark.

  $ . "$TESTDIR/image.sh"
  $ look_at 12 2
   00 5a
  $ alter 12 '\x5A\x5A'
  $ report 8 6
  0x7D
  $ alter 12 '\x01\x01'
  $ report 8 6
  0x55

An empty drive takes trains, too.

  $ cp cart.img kept.img
  $ rm cart.img
  $ report 8 6
  0x01
  $ report 16 10 7
  0x0A02
  $ wc -c < cart.img
  0

Where the input ends
--------------------

The input ends where it ends, or with the line `end`. What follows that isn't read: here it is left for `cat`.

  $ cp kept.img cart.img
  $ tape cart.img pulses < /dev/null
  $ printf '0\n' | tape cart.img pulses
  0
  $ printf 'end\n' | tape cart.img pulses
  $ printf '6\n2\n2\nend\n' | tape cart.img pulses
  1
  1
  0
  $ printf '6\nend\n2\nx\nend\n' > input
  $ { tape cart.img pulses; cat; } < input
  1
  2
  x
  end
  $ printf '6\nend\n\0\0\n' > input
  $ { tape cart.img pulses; cat; } < input | tr '\0' -
  1
  --

Lines at fault
--------------

A line is a number from 0 to 255, as it is printed, and a newline. At anything else the run ends, and tells the line and
how many bytes of the input come before it. The levels of the trains before it stand printed.

  $ printf '6\n2\n256\n2\n' | tape cart.img pulses
  1
  1
  tape: input fault in line 3 at byte 4
  tape: cart.img: the line is not valid; those before it were carried out
  [3]
  $ printf '6\n2\n2\n02\n' | tape cart.img pulses
  1
  1
  0
  tape: input fault in line 4 at byte 6
  tape: cart.img: the line is not valid; those before it were carried out
  [3]

These lines have three, four and two bytes. The drive refuses the first two trains, which ends no run.

  $ printf '10\n255\n0\n7\r\n' | tape cart.img pulses
  0
  0
  0
  tape: input fault in line 4 at byte 9
  tape: cart.img: the line is not valid; those before it were carried out
  [3]

No such lines, one after the other:

  $ fault() { printf -- "$1" | tape cart.img pulses; }
  $ for line in '' x 256 1000 999999999 1000000000 00 06 ' 6' '6 ' '6 2' +6 -1 -0 6. '6\r' '6\0'; do
  >     fault "$line\n6\n"
  > done 2>&1 | sort | uniq -c | sed 's/^ *//'
  17 tape: cart.img: the line is not valid; those before it were carried out
  17 tape: input fault in line 1 at byte 0
  [3]
  $ for line in '' x 'end ' ' end' End ends 'end\r'; do
  >     fault "6\n$line\n2\n"
  > done 2>&1 | sort | uniq -c | sed 's/^ *//'
  7 1
  7 tape: cart.img: the line is not valid; those before it were carried out
  7 tape: input fault in line 2 at byte 2
  [3]

The last line has its newline, too, the line `end` as any other.

  $ fault '6'
  tape: input fault in line 1 at byte 0
  tape: cart.img: the line is not valid; those before it were carried out
  [3]
  $ fault '255'
  tape: input fault in line 1 at byte 0
  tape: cart.img: the line is not valid; those before it were carried out
  [3]
  $ fault '6\n2'
  1
  tape: input fault in line 2 at byte 2
  tape: cart.img: the line is not valid; those before it were carried out
  [3]
  $ fault 'end'
  tape: input fault in line 1 at byte 0
  tape: cart.img: the line is not valid; those before it were carried out
  [3]
  $ fault '6\nend'
  1
  tape: input fault in line 2 at byte 2
  tape: cart.img: the line is not valid; those before it were carried out
  [3]

A long line is no line, however long.

  $ head -c 100000 /dev/zero | tr '\0' 6 | tape cart.img pulses
  tape: input fault in line 1 at byte 0
  tape: cart.img: the line is not valid; those before it were carried out
  [3]

As many lines as may be
-----------------------

These are 65,536. The next one is at fault, whatever it is, unless it is `end`.

  $ many() { { yes 0 | head -n 65536; printf "$1"; } | tape cart.img pulses | uniq -c | sed 's/^ *//'; }
  $ many ''
  65536 0
  $ many 'end\n0\n'
  65536 0
  $ many '0\n'
  tape: input fault in line 65537 at byte 131072
  tape: cart.img: the line is not valid; those before it were carried out
  65536 0
  [3]
  $ many 'x\n'
  tape: input fault in line 65537 at byte 131072
  tape: cart.img: the line is not valid; those before it were carried out
  65536 0
  [3]
  $ many 'end'
  tape: input fault in line 65537 at byte 131072
  tape: cart.img: the line is not valid; those before it were carried out
  65536 0
  [3]

So an input that never ends is answered.

  $ set +o pipefail
  $ yes 0 | tape cart.img pulses | uniq -c | sed 's/^ *//'
  tape: input fault in line 65537 at byte 131072
  tape: cart.img: the line is not valid; those before it were carried out
  65536 0
