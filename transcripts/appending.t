Appending volumes
=================

  $ . "$TESTDIR/image.sh"
  $ tape cart.img new 3
  blank 3
  $ tape cart.img format L
  formatted 84 0
  $ cp cart.img whole.img

`append` takes standard input to its end as one volume, and prints its number, its length in bytes, and its first and its
last segment. A name is one word, and a date another; without one it is the first that there is.

  $ printf 0123456789 | tape cart.img append a 1994-03-01T12:00:00
  appended 1 10 3 3
  $ tape cart.img list
  1 3 3 10 1994-03-01T12:00:00 a
  volumes 1
  $ printf more | tape cart.img append 'a second one'
  appended 2 4 4 4
  $ tape cart.img list
  1 3 3 10 1994-03-01T12:00:00 a
  2 4 4 4 1970-01-01T00:00:00 a second one
  volumes 2

The first slot of the volume table, which stands in segment 2, has the signature, both segments, the name, the date, the
flags and the sequence number, both 1, and the length. The bytes stand in segment 3, with zero bytes behind them.

  $ look 2 0 0 16
   56 54 42 4c 03 00 03 00 61 20 20 20 20 20 20 20
  $ look 2 0 52 6
   c0 65 52 30 01 01
  $ look 2 0 96 8
   0a 00 00 00 00 00 00 00
  $ look 3 0 0 16
   30 31 32 33 34 35 36 37 38 39 00 00 00 00 00 00

How many segments
-----------------

A segment carries 29 sectors of 1,024 bytes. A volume takes as many as its bytes fill, and the last one need not be full.
One is taken for no byte.

  $ of() { cp whole.img cart.img; head -c "$1" /dev/zero | tape cart.img append a; }
  $ of 0
  appended 1 0 3 3
  $ of 29696
  appended 1 29696 3 3
  $ of 29697
  appended 1 29697 3 4
  $ of 59392
  appended 1 59392 3 4
  $ of 59393
  appended 1 59393 3 5

The 81 segments behind the table carry 2,405,376 bytes. One more has no room: it is the last that is taken of the input,
and the list is as it was.

  $ of 2405376
  appended 1 2405376 3 83
  $ of 2405377
  tape: full, need 2405377 have 2405376
  tape: cart.img: there is room for a volume of 2405376 bytes
  [9]
  $ tape cart.img list
  volumes 0
  $ head -c 2405382 /dev/zero | (tape cart.img append a; wc -c)
  tape: full, need 2405377 have 2405376
  tape: cart.img: there is room for a volume of 2405376 bytes
  5

Defects are left out. With 28 of them a segment has four sectors that can be used, and so one of data; with 29 it carries
nothing, and the volume goes on in the next one.

  $ with() {
  >     tape cart.img new 3
  >     for sector in $(seq 0 $1); do tape cart.img defect 4 $sector; done | wc -l
  >     tape cart.img format L
  >     head -c 30720 /dev/zero | tape cart.img append a
  > }
  $ with 27
  blank 3
  28
  formatted 84 28
  appended 1 30720 3 4
  $ with 28
  blank 3
  29
  formatted 84 29
  appended 1 30720 3 5

More volumes
------------

Each takes a segment at least, so there is room for 81 of them on this cartridge. The ninth stands in the second sector
of the table.

  $ cp whole.img cart.img
  $ for number in $(seq 8); do tape cart.img append e < /dev/null; done | tail -n 1
  appended 8 0 10 10
  $ look 2 1 0 8
   00 00 00 00 00 00 00 00
  $ tape cart.img append e < /dev/null
  appended 9 0 11 11
  $ look 2 1 0 8
   56 54 42 4c 0b 00 0b 00
  $ for number in $(seq 10 81); do tape cart.img append e < /dev/null; done | tail -n 1
  appended 81 0 83 83
  $ tape cart.img append e < /dev/null
  tape: full, need 0 have 0
  tape: cart.img: there is no room for another volume
  [9]
  $ printf xyz | (tape cart.img append e; wc -c)
  tape: full, need 1 have 0
  tape: cart.img: there is no room for another volume
  2
  $ tape cart.img list | tail -n 2
  81 83 83 0 1970-01-01T00:00:00 e
  volumes 81

What is refused
---------------

A protected cartridge takes no volume, and a byte of the input is not taken either.

  $ cp whole.img cart.img
  $ tape cart.img protect on
  protected on
  $ cp cart.img before.img
  $ printf xyz | (tape cart.img append a; wc -c)
  tape: the cartridge is protected
  tape: cart.img: write-protected; 'protect off' clears the mark
  3
  $ cmp before.img cart.img
  $ tape none.img append a < /dev/null
  tape: no cartridge
  tape: none.img does not exist
  [4]
  $ tape none.img new 3
  blank 3
  $ tape none.img append a < /dev/null
  tape: the cartridge is not formatted
  tape: none.img: no header can be read: if this cartridge was ever in use, do not format it; run check
  [6]
  $ cp whole.img cart.img
  $ each lose 2 0 1 2 3
  4 of 4 done
  $ tape cart.img append a < /dev/null
  tape: segment 2 lost 4 sectors
  tape: cart.img: the volume table can't be read: keep the image, and see EXIT STATUS 11 in man tape
  [11]

An input that fails leaves the list as it was: here standard input is a folder, which can't be read.

  $ cp whole.img cart.img
  $ tape cart.img append a < .
  tape: input failed
  tape: cart.img: the input can't be read
  [16]
  $ tape cart.img list
  volumes 0

With an output that is full the volume stands.

  $ tape cart.img append a < /dev/null > /dev/full
  tape: output failed
  tape: cart.img: the output can't be written
  [17]
  $ tape cart.img list
  1 3 3 0 1970-01-01T00:00:00 a
  volumes 1
