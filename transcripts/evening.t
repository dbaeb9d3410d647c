A made evening
==============

  $ . "$TESTDIR/image.sh"

`make SEED COUNT` is a run that makes its input itself, the same at each call. It appends COUNT volumes of made bytes, loses
the first two usable sectors of each of their segments whose number is a multiple of 100, scrubs the cartridge, and restores
the volumes, each of which prints its number, its bytes and their sum. Here on a cartridge of 205 ft with five bad sectors:

  $ tape long.img new 100
  blank 100
  $ for sector in 3 4 5 6 7; do tape long.img defect 10 $sector; done
  defect 10 3
  defect 10 4
  defect 10 5
  defect 10 6
  defect 10 7
  $ tape long.img format evening 1994-03-01T12:00:00
  formatted 2800 5
  $ tape long.img make 150 3
  scrub 586 10 0
  volume 1 5652000 706499163
  volume 2 5753000 719124829
  volume 3 5854000 731744087

The line of the scrub tells that 586 segments were looked at, the 583 of the volumes, the two of the header and that of the
volume table, and that ten sectors were written again: two of each of the segments 100, 200, 300, 400 and 500. A second one
finds nothing to write.

  $ tape long.img scrub
  scrub 586 0 0
  $ tape long.img list
  1 3 193 5652000 1970-01-01T00:00:00 made-1
  2 194 387 5753000 1970-01-01T00:00:00 made-2
  3 388 585 5854000 1970-01-01T00:00:00 made-3
  volumes 3
  $ rm long.img

What is made
------------

Volume V has 1000 * (1 + (SEED * 37 + V * 101) mod 20000) bytes, so 1,000 is the fewest, and its byte I, counted from 0, is
(I + 31 * V + SEED) mod 251.

  $ tape cart.img new 3
  blank 3
  $ tape cart.img format L
  formatted 84 0
  $ cp cart.img whole.img
  $ tape cart.img make 9727 1
  scrub 4 0 0
  volume 1 1000 124630
  $ tape cart.img restore 1 | od -An -v -tu1 -w1 | tr -d ' ' > made
  $ for place in $(seq 0 999); do echo $(((place + 31 + 9727) % 251)); done | cmp - made
  $ echo $(($(paste -sd + made)))
  124630

The volumes go behind those that are there, and the number is that in the list. The name counts the made ones.

  $ cp whole.img cart.img
  $ tape cart.img make 1 2
  scrub 17 0 0
  volume 1 139000 17375985
  volume 2 240000 29998218
  $ tape cart.img make 1 1
  scrub 22 0 0
  volume 3 139000 17375985
  $ tape cart.img list
  1 3 7 139000 1970-01-01T00:00:00 made-1
  2 8 16 240000 1970-01-01T00:00:00 made-2
  3 17 21 139000 1970-01-01T00:00:00 made-1
  volumes 3

The greatest seed is as good as any.

  $ cp whole.img cart.img
  $ tape cart.img make 999999999 1
  scrub 6 0 0
  volume 1 65000 8124217

Lost sectors
------------

Of 112 segments one is a hundredth, 100, and this volume lies in it, with two bad sectors there. The two that are lost are the
first of the others, and are written again.

  $ tape four.img new 4
  blank 4
  $ tape four.img defect 100 0
  defect 100 0
  $ tape four.img defect 100 5
  defect 100 5
  $ tape four.img format L
  formatted 112 2
  $ tape four.img make 15754 1
  scrub 105 2 0
  volume 1 3000000 375000812

In segments of other volumes none is lost: the next one begins at 105.

  $ tape four.img make 9727 1
  scrub 106 0 0
  volume 2 1000 124630

Other volumes are scrubbed, too. One that has lost too much is named, and the run goes on.

  $ cp whole.img cart.img
  $ printf x | tape cart.img append a
  appended 1 1 3 3
  $ each lose 3 0 1 2 3
  4 of 4 done
  $ tape cart.img lose 0 5
  lost 0 5
  $ tape cart.img make 9727 2
  lost 3 4
  scrub 9 1 1
  volume 2 1000 124630
  volume 3 102000 12742621

What is refused
---------------

A volume for which there is no room ends the run, and nothing is printed. Those that were appended before it stay, and no
sector was lost.

  $ cp whole.img cart.img
  $ tape cart.img make 0 200
  tape: full, need 708000 have 178176
  tape: cart.img: there is room for a volume of 178176 bytes
  [9]
  $ tape cart.img list
  1 3 6 102000 1970-01-01T00:00:00 made-1
  2 7 13 203000 1970-01-01T00:00:00 made-2
  3 14 24 304000 1970-01-01T00:00:00 made-3
  4 25 38 405000 1970-01-01T00:00:00 made-4
  5 39 56 506000 1970-01-01T00:00:00 made-5
  6 57 77 607000 1970-01-01T00:00:00 made-6
  volumes 6
  $ tape cart.img scrub
  scrub 78 0 0

The longest volume that can be made has 20,000,000 bytes.

  $ cp whole.img cart.img
  $ tape cart.img make 16754 1
  tape: full, need 20000000 have 2405376
  tape: cart.img: there is room for a volume of 2405376 bytes
  [9]
  $ cmp whole.img cart.img

A cartridge that is protected is refused, whether it is formatted or not, and nothing is written on it.

  $ tape cart.img protect on
  protected on
  $ cp cart.img before.img
  $ tape cart.img make 1 1
  tape: the cartridge is protected
  tape: cart.img: write-protected; 'protect off' clears the mark
  [5]
  $ cmp before.img cart.img

A run that is refused leaves its input unread, too.

  $ echo 'nor of this' | (tape cart.img make 1 1; cat)
  tape: the cartridge is protected
  tape: cart.img: write-protected; 'protect off' clears the mark
  nor of this

So is a run without a cartridge, and one on a cartridge that isn't formatted; the protect mark is asked for before that.

  $ tape none.img make 1 1
  tape: no cartridge
  tape: none.img does not exist
  [4]
  $ tape none.img new 3
  blank 3
  $ tape none.img make 1 1
  tape: the cartridge is not formatted
  tape: none.img: no header can be read: if this cartridge was ever in use, do not format it; run check
  [6]
  $ tape none.img protect on
  protected on
  $ tape none.img make 1 1
  tape: the cartridge is protected
  tape: none.img: write-protected; 'protect off' clears the mark
  [5]
  $ cp whole.img cart.img
  $ each lose 2 0 1 2 3
  4 of 4 done
  $ tape cart.img make 1 1
  tape: segment 2 lost 4 sectors
  tape: cart.img: the volume table can't be read: keep the image, and see EXIT STATUS 11 in man tape
  [11]

So is one with a header or a volume table of another tool, and one whose table agrees with no code block.

  $ refused() { cp cart.img before.img; tape cart.img make 1 1; echo $?; cmp before.img cart.img; }
  $ cp whole.img cart.img
  $ each lose 0 29 30 31
  3 of 3 done
  $ put 0 0 4 '\x04'
  $ refused
  tape: foreign format-code 4
  tape: cart.img: another layout, or damage: keep the image; tape_export and tape_salvage can read it
  7
  $ cp whole.img cart.img
  $ put 2 1 0 VTBL
  $ refused
  tape: foreign slot 8
  tape: cart.img: the volume table has an invalid entry; run check, and see EXIT STATUS 7 in man tape
  7
  $ cp whole.img cart.img
  $ put 2 29 0 '\x01'
  $ each lose 2 5 31
  2 of 2 done
  $ refused
  tape: the volume table does not agree
  tape: cart.img: the volume table is corrupt: keep the image, and see EXIT STATUS 8 in man tape
  8

With an output that is full the volumes stand.

  $ cp whole.img cart.img
  $ tape cart.img make 9727 1 > /dev/full
  tape: output failed
  tape: cart.img: the output can't be written
  [17]
  $ tape cart.img list
  1 3 3 1000 1970-01-01T00:00:00 made-1
  volumes 1

The input is not read.

  $ echo 'nothing of this' | (tape cart.img make 9727 1; cat)
  scrub 5 0 0
  volume 2 1000 124630
  nothing of this

The seed is any number, and the count one from 1 to 200.

  $ no() { line=$(tape cart.img "$@" 2>&1); [ "$? ${line%%$'\n'*}" = '2 usage: tape IMAGE COMMAND' ] || echo "a command: $* ($line)"; }
  $ no make
  $ no make 1
  $ no make 1 1 1
  $ no Make 1 1
  $ no 'make 1 1'
  $ for count in '' 0 00 01 201 1000 -1 +1 ' 1' '1 ' 1. one; do no make 1 "$count"; done
  $ for seed in '' 00 01 -1 +1 ' 1' '1 ' 1.5 0x1 one 1000000000; do no make "$seed" 1; done
  $ tape cart.img list | tail -n 1
  volumes 2
