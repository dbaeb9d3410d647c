Upgrading an image
==================

  $ . "$TESTDIR/image.sh"

`upgrade` has an image kept in version 2 of its layout, the newest one, and prints the version before. Here is an image of
version 1, as programs of before made them, with one volume of ten bytes.

  $ old_image
  $ tape cart.img format L
  formatted 84 0
  $ printf 'ten bytes.' | tape cart.img append a 1994-03-01T12:00:00
  appended 1 10 3 3
  $ version
  1
  $ wc -c < cart.img
  2760640
  $ cp cart.img old.img
  $ tape cart.img upgrade
  upgraded from 1
  $ tape cart.img list
  1 3 3 10 1994-03-01T12:00:00 a
  volumes 1
  $ tape cart.img restore 1
  ten bytes. (no-eol)

The sectors were copied, with their states, behind those of version 1. So the file has 1,027 more bytes for each of the 2,688
sectors: 2,760,640 + 2,760,576.

  $ wc -c < cart.img
  5521216

In front of these the mark of the layout was set in byte 14, and the base in the bytes from 16 on: 2,760,640, which is
0x2A1FC0. `cmp` counts from 1, and in octal. The number of the version, which is not read any more, stays.

  $ head -c 2760640 cart.img | cmp -l old.img - | tr -s ' '
   15 0 132
   17 0 300
   18 0 37
   19 0 52
  $ look_at 0 24
   51 49 43 38 30 49 4d 47 01 00 03 00 00 5a 5a 00
   c0 1f 2a 00 00 00 00 00

Each sector has its parts.

  $ parts > new.parts
  $ cp cart.img new.img
  $ cp old.img cart.img
  $ parts > old.parts
  $ cmp new.parts old.parts
  $ cp new.img cart.img

Sector 0 of segment 3 has the number 32 * 3 = 96. Its gate stands at 2,760,640 + 1,027 * 96 = 2,859,232 now, and its bytes
three places behind.

  $ tail -c +2859236 cart.img | head -c 10
  ten bytes. (no-eol)
  $ tape cart.img lose 3 0
  lost 3 0
  $ cmp -l new.img cart.img | tr -s ' '
  2859233 132 301
  $ tape cart.img scrub
  scrub 4 1 0
  $ cmp new.img cart.img

An image of version 2 is upgraded, too, which writes nothing: its time stays.

  $ touch -d 1994-03-01 cart.img
  $ tape cart.img upgrade
  upgraded from 2
  $ stat -c %y cart.img | cut -c 1-10
  1994-03-01
  $ cmp new.img cart.img
  $ tape cart.img list
  1 3 3 10 1994-03-01T12:00:00 a
  volumes 1

So is a new one. One that is put in over an image that was upgraded has the length of a new one.

  $ tape cart.img new 3
  blank 3
  $ wc -c < cart.img
  2760640
  $ tape cart.img upgrade
  upgraded from 2
  $ wc -c < cart.img
  2760640

Whatever the cartridge is
-------------------------

The cartridge isn't mounted, and may be protected. This one was never formatted, and has a defect.

  $ old_image
  $ tape cart.img defect 0 31
  defect 0 31
  $ tape cart.img protect on
  protected on
  $ parts > old.parts
  $ tape cart.img upgrade
  upgraded from 1
  $ parts | cmp - old.parts
  $ look_at 12 3
   5a 00 5a
  $ tape cart.img list
  tape: the cartridge is not formatted
  tape: cart.img: no header can be read: if this cartridge was ever in use, do not format it; run check
  [6]
  $ tape cart.img defect 0 30
  defect 0 30
  $ states defect 0 32
   00 00 00 00 00 00 00 00 00 00 00 00 00 00 00 00
   00 00 00 00 00 00 00 00 00 00 00 00 00 00 bd bd

Here the volume table is lost, with other sectors. A lost sector is lost behind the upgrade as well, and is found as before.

  $ cp old.img cart.img
  $ each lose 2 0 1 2 3
  4 of 4 done
  $ each lose 3 0 7 31
  3 of 3 done
  $ put 1 5 1023 '\x01'
  $ tape cart.img upgrade
  upgraded from 1
  $ tape cart.img list
  tape: segment 2 lost 4 sectors
  tape: cart.img: the volume table can't be read: keep the image, and see EXIT STATUS 11 in man tape
  [11]
  $ states gate 2 64
   c1 c1 c1 c1 5a 5a 5a 5a 5a 5a 5a 5a 5a 5a 5a 5a
   5a 5a 5a 5a 5a 5a 5a 5a 5a 5a 5a 5a 5a 5a 5a 5a
   c1 5a 5a 5a 5a 5a 5a c1 5a 5a 5a 5a 5a 5a 5a 5a
   5a 5a 5a 5a 5a 5a 5a 5a 5a 5a 5a 5a 5a 5a 5a c1
  $ look 1 5 1020 4
   00 00 00 01
  $ cp old.img cart.img
  $ each lose 2 0 1 2
  3 of 3 done
  $ each lose 3 0 7 31
  3 of 3 done
  $ tape cart.img upgrade
  upgraded from 1
  $ tape cart.img list
  1 3 3 10 1994-03-01T12:00:00 a
  volumes 1
  $ tape cart.img scrub
  scrub 4 3 0
  $ parts | cmp - new.parts

A cartridge of four segments per track has 3,584 sectors, and 64 + 2 * 1,027 * 3,584 bytes behind the upgrade.

  $ rm cart.img
  $ printf 'QIC80IMG\1\0\4\0' > cart.img
  $ truncate -s 3680832 cart.img
  $ tape cart.img format four
  formatted 112 0
  $ tape cart.img upgrade
  upgraded from 1
  $ wc -c < cart.img
  7361600
  $ look_at 16 8
   40 2a 38 00 00 00 00 00
  $ tape cart.img info
  label four
  formatted 1970-01-01T00:00:00
  segments 112
  bad sectors 0
  volumes 0

What is refused, and what fails
-------------------------------

  $ tape none.img upgrade
  tape: no cartridge
  tape: none.img does not exist
  [4]
  $ ls none.img 2> why
  [2]
  $ echo 'Dear Sir, the cartridges that you sent ..' > letter
  $ cp letter before
  $ tape letter upgrade
  tape: cannot open the image
  tape: letter is not a tape image; for a dump use tape_import or tape_salvage
  [20]
  $ cmp letter before
  $ cp old.img cart.img
  $ tape cart.img upgrade 2
  usage: tape IMAGE COMMAND
  tape: wrong number of arguments; use: tape IMAGE upgrade
  [2]
  $ tape cart.img upgrades
  usage: tape IMAGE COMMAND
  tape: there is no command 'upgrades'; try 'tape --help'
  [2]
  $ cmp old.img cart.img

Where there is no room for the copy the tape fails, and the image is of version 1.

  $ (trap '' XFSZ; ulimit -f 3000; exec tape cart.img upgrade)
  tape: the tape failed
  tape: cart.img: File too large
  [18]
  $ version
  1
  $ tape cart.img list
  1 3 3 10 1994-03-01T12:00:00 a
  volumes 1

With an output that is full the image is upgraded all the same.

  $ tape cart.img upgrade > /dev/full
  tape: output failed
  tape: cart.img: the output can't be written
  [17]
  $ cmp new.img cart.img
