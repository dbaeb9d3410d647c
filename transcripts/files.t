Image files
===========

  $ . "$TESTDIR/image.sh"

An image is a file that begins with `QIC80IMG`, tells its version and its segments per track, and is long enough: 64 bytes,
and 1,027 for each of the 896 sectors that a segment per track makes. That is 2,760,640 for three, and 3,680,832 for four.

In version 1 the number 1 stands behind the text. Nothing of the bytes 14 to 63 is read, but that the first of them is not the
mark of the layout, 0x5A; and what is behind the sectors is not looked at.

  $ file() { rm -f cart.img; printf "$2" > cart.img; truncate -s $1 cart.img; cp cart.img before.img; }
  $ file 2760640 'QIC80IMG\1\0\3\0'
  $ tape cart.img list
  tape: the cartridge is not formatted
  tape: cart.img: no header can be read: if this cartridge was ever in use, do not format it; run check
  [6]
  $ file 3680832 'QIC80IMG\1\0\4\0\x5A'
  $ tape cart.img list
  tape: the cartridge is not formatted
  tape: cart.img: no header can be read: if this cartridge was ever in use, do not format it; run check
  [6]
  $ tape cart.img format L
  tape: the cartridge is protected
  tape: cart.img: write-protected; 'protect off' clears the mark
  [5]
  $ file 2760640 'QIC80IMG\1\0\3\0\0\0\xA5\xFF\xFF\xFF\xFF\xFF\xFF\xFF\xFF\xFF\xFF'
  $ tape cart.img list
  tape: the cartridge is not formatted
  tape: cart.img: no header can be read: if this cartridge was ever in use, do not format it; run check
  [6]
  $ file 2760641 'QIC80IMG\1\0\3\0'
  $ tape cart.img list
  tape: the cartridge is not formatted
  tape: cart.img: no header can be read: if this cartridge was ever in use, do not format it; run check
  [6]

In version 2 the mark stands. The eight bytes from 16 on are the base, where the sectors begin: 64; or, where an image of
version 1 was upgraded, behind its sectors, at 2,760,640 for three segments per track, which is 0x2A1FC0. The number of the
version is not read then.

  $ file 2760640 'QIC80IMG\2\0\3\0\0\0\x5A\0\x40'
  $ tape cart.img list
  tape: the cartridge is not formatted
  tape: cart.img: no header can be read: if this cartridge was ever in use, do not format it; run check
  [6]
  $ file 2760640 'QIC80IMG\xFF\xFF\3\0\x5A\0\x5A\xFF\x40\0\0\0\0\0\0\0\xFF'
  $ tape cart.img format L
  tape: the cartridge is protected
  tape: cart.img: write-protected; 'protect off' clears the mark
  [5]
  $ file 5521216 'QIC80IMG\1\0\3\0\0\0\x5A\0\xC0\x1F\x2A'
  $ tape cart.img list
  tape: the cartridge is not formatted
  tape: cart.img: no header can be read: if this cartridge was ever in use, do not format it; run check
  [6]
  $ file 5521217 'QIC80IMG\2\0\3\0\0\0\x5A\0\x40'
  $ tape cart.img list
  tape: the cartridge is not formatted
  tape: cart.img: no header can be read: if this cartridge was ever in use, do not format it; run check
  [6]

An empty file holds no cartridge, and each command but `new` leaves it as it is. Any other file holds something else and is no image;
each command leaves it as it is, `new`, too.

  $ looks() {
  >     for command in list info 'format L' 'lose 0 0' 'defect 0 0' 'protect on' 'protect off' upgrade; do
  >         tape cart.img $command 2>&1
  >         cmp cart.img before.img
  >     done | sort | uniq -c | sed 's/^ *//'
  > }
  $ file 0 ''
  $ looks
  8 tape: cart.img: it holds no cartridge, or a 'new' or an import was interrupted; check the path
  8 tape: no cartridge
  $ file 13 'QIC80IMG\1\0\3\0'
  $ looks
  8 tape: cannot open the image
  8 tape: cart.img is not a tape image; for a dump use tape_import or tape_salvage
  $ file 14 'QIC80IMG\1\0\3\0'
  $ looks
  8 tape: cannot open the image
  8 tape: cart.img is not a tape image; for a dump use tape_import or tape_salvage
  $ file 2760639 'QIC80IMG\1\0\3\0'
  $ looks
  8 tape: cannot open the image
  8 tape: cart.img is not a tape image; for a dump use tape_import or tape_salvage
  $ file 2760640 'QIC80IMG\1\0\4\0'
  $ looks
  8 tape: cannot open the image
  8 tape: cart.img is not a tape image; for a dump use tape_import or tape_salvage
  $ file 2760640 'QIC80IMH\1\0\3\0'
  $ looks
  8 tape: cannot open the image
  8 tape: cart.img is not a tape image; for a dump use tape_import or tape_salvage
  $ file 2760640 'qIC80IMG\1\0\3\0'
  $ looks
  8 tape: cannot open the image
  8 tape: cart.img is not a tape image; for a dump use tape_import or tape_salvage
  $ file 2760640 'QIC80IMG\2\0\3\0'
  $ looks
  8 tape: cannot open the image
  8 tape: cart.img is not a tape image; for a dump use tape_import or tape_salvage
  $ file 2760640 'QIC80IMG\1\1\3\0'
  $ looks
  8 tape: cannot open the image
  8 tape: cart.img is not a tape image; for a dump use tape_import or tape_salvage
  $ file 2760640 'QIC80IMG\1\0\3\1'
  $ looks
  8 tape: cannot open the image
  8 tape: cart.img is not a tape image; for a dump use tape_import or tape_salvage

So do an image with the mark that is too short for its base, and one with another base.

  $ file 24 'QIC80IMG\2\0\3\0\0\0\x5A\0\x40'
  $ looks
  8 tape: cannot open the image
  8 tape: cart.img is not a tape image; for a dump use tape_import or tape_salvage
  $ file 2760639 'QIC80IMG\2\0\3\0\0\0\x5A\0\x40'
  $ looks
  8 tape: cannot open the image
  8 tape: cart.img is not a tape image; for a dump use tape_import or tape_salvage
  $ file 5521215 'QIC80IMG\2\0\3\0\0\0\x5A\0\xC0\x1F\x2A'
  $ looks
  8 tape: cannot open the image
  8 tape: cart.img is not a tape image; for a dump use tape_import or tape_salvage
  $ file 5521216 'QIC80IMG\1\0\3\0\0\0\x5A'
  $ looks
  8 tape: cannot open the image
  8 tape: cart.img is not a tape image; for a dump use tape_import or tape_salvage
  $ file 5521216 'QIC80IMG\2\0\3\0\0\0\x5A\0\x3F'
  $ looks
  8 tape: cannot open the image
  8 tape: cart.img is not a tape image; for a dump use tape_import or tape_salvage
  $ file 5521216 'QIC80IMG\2\0\3\0\0\0\x5A\0\x41'
  $ looks
  8 tape: cannot open the image
  8 tape: cart.img is not a tape image; for a dump use tape_import or tape_salvage
  $ file 5521216 'QIC80IMG\2\0\3\0\0\0\x5A\0\xC0\x1F\x2A\0\0\0\0\1'
  $ looks
  8 tape: cannot open the image
  8 tape: cart.img is not a tape image; for a dump use tape_import or tape_salvage
  $ file 2760640 'QIC80IMG\2\0\3\0\0\0\x5B\0\x40'
  $ looks
  8 tape: cannot open the image
  8 tape: cart.img is not a tape image; for a dump use tape_import or tape_salvage

An image of two segments per track would have 1,840,448 bytes, and is none.

  $ file 1840448 'QIC80IMG\1\0\2\0'
  $ looks
  8 tape: cannot open the image
  8 tape: cart.img is not a tape image; for a dump use tape_import or tape_salvage
  $ file 1840448 'QIC80IMG\2\0\2\0\0\0\x5A\0\x40'
  $ looks
  8 tape: cannot open the image
  8 tape: cart.img is not a tape image; for a dump use tape_import or tape_salvage

Nor is a letter an image. It stays as it was, whatever the command, and so it does by words that are no command.

  $ echo 'Dear Sir, the cartridges that you sent ..' > letter
  $ cp letter before
  $ tape letter list
  tape: cannot open the image
  tape: letter is not a tape image; for a dump use tape_import or tape_salvage
  [20]
  $ printf '6\n' | tape letter pulses
  tape: cannot open the image
  tape: letter is not a tape image; for a dump use tape_import or tape_salvage
  [20]
  $ tape letter new 3
  tape: cannot open the image
  tape: letter is not a tape image; for a dump use tape_import or tape_salvage
  [20]
  $ tape letter list now
  usage: tape IMAGE COMMAND
  tape: wrong number of arguments; use: tape IMAGE list
  [2]
  $ cmp letter before

`new` makes an image of an empty file, and one of any length of an image.

  $ : > letter
  $ tape letter new 3
  blank 3
  $ wc -c < letter
  2760640
  $ tape letter new 4
  blank 4
  $ wc -c < letter
  3680832

What a new image holds
----------------------

It is its head, of version 2 with the base 64, and zero bytes behind that; so is the one that is put in over a cartridge with a
defect.

  $ rm cart.img
  $ tape cart.img new 3
  blank 3
  $ look_at 0 32
   51 49 43 38 30 49 4d 47 02 00 03 00 00 00 5a 00
   40 00 00 00 00 00 00 00 00 00 00 00 00 00 00 00
  $ tail -c +33 cart.img | tr -d '\0' | wc -c
  0
  $ cp cart.img new.img

A defect is one byte. Sector 0 of segment 4 has the number 32 * 4 = 128; its third byte of state stands at 64 + 1,027 * 128 + 2
= 131,522, and becomes 0xBD. `cmp` counts from 1, and in octal.

  $ tape cart.img defect 4 0
  defect 4 0
  $ cmp -l new.img cart.img | tr -s ' '
   131523 0 275
  $ tape cart.img new 3
  blank 3
  $ cmp new.img cart.img

The marks
---------

The write protect mark is byte 12 of the head, and 13 is the mark of the reference bursts. 0x5A is a mark, any other byte
is none.

  $ tape cart.img protect on
  protected on
  $ cmp -l new.img cart.img | tr -s ' '
   13 0 132
  $ tape cart.img protect off
  protected off
  $ cmp new.img cart.img
  $ alter 12 '\xA5\x5A'
  $ tape cart.img protect on
  protected on
  $ look_at 12 2
   5a 5a
  $ tape cart.img protect off
  protected off
  $ look_at 12 2
   00 5a

A mark that is as it is to be is not written: a byte that is no mark stays, and so does the file's time.

  $ time_of() { "$@" > line; stat -c %y cart.img | cut -c 1-10; }
  $ alter 12 '\xA5'
  $ touch -d 1994-03-01 cart.img
  $ time_of tape cart.img protect off
  1994-03-01
  $ look_at 12 2
   a5 5a
  $ alter 12 '\x5A'
  $ touch -d 1994-03-01 cart.img
  $ time_of tape cart.img protect on
  1994-03-01

The drive writes the reference bursts where there are none: by the train 16, in Format mode.

  $ . "$TESTDIR/trains.sh"
  $ bursts() { send 7 $(times 17 2) 15 16 > levels; look_at 12 2; }
  $ alter 12 '\0\0'
  $ bursts
   00 5a
  $ alter 12 '\0\1'
  $ bursts
   00 5a
  $ touch -d 1994-03-01 cart.img
  $ time_of bursts
  1994-03-01

Where there is no image
-----------------------

A file is made only where its folder is.

  $ tape no/such/folder.img list
  tape: no cartridge
  tape: no/such/folder.img does not exist
  [4]
  $ tape . list
  tape: cannot open the image
  tape: . is not a regular file
  [20]
  $ ls no
  ls: cannot access 'no': No such file or directory
  [2]
