Slips
=====

  $ . "$TESTDIR/image.sh"

A word too few, a path in the wrong place, the name of another file: none of these makes a file, or takes one that holds something.

Words
-----

The words are read before a file is opened or made. A second line says which is wrong, and why.

  $ tape
  usage: tape IMAGE COMMAND
  tape: the command is missing; try 'tape --help'
  [2]
  $ tape new.img
  usage: tape IMAGE COMMAND
  tape: the command is missing; try 'tape --help'
  [2]
  $ tape list new.img
  usage: tape IMAGE COMMAND
  tape: the image comes first: tape new.img list
  [2]
  $ tape new.img restore 01
  usage: tape IMAGE COMMAND
  tape: '01': a number must not begin with 0
  [2]
  $ tape new.img restore last
  usage: tape IMAGE COMMAND
  tape: 'last': a number must be decimal digits
  [2]
  $ tape new.img restore 1000000000
  usage: tape IMAGE COMMAND
  tape: '1000000000': a number must have at most nine digits
  [2]
  $ tape new.img new 300
  usage: tape IMAGE COMMAND
  tape: '300': expected a number from 3 to 246
  [2]
  $ tape new.img make 1 201
  usage: tape IMAGE COMMAND
  tape: '201': expected a number from 1 to 200
  [2]
  $ tape new.img format L 1994-03-01
  usage: tape IMAGE COMMAND
  tape: '1994-03-01': expected a date like 1996-02-29T12:00:00
  [2]
  $ tape new.img format 'L '
  usage: tape IMAGE COMMAND
  tape: 'L ': a name must be printable ASCII without a space at its ends
  [2]
  $ tape new.img append 0123456789abcdefghijklmnopqrstuvwxyzABCDEFGHI < /dev/null
  usage: tape IMAGE COMMAND
  tape: '0123456789abcdefghijklmnopqrstuvwxyzABCDEFGHI': a name or label must have 1 to 44 bytes
  [2]
  $ tape new.img protect yes
  usage: tape IMAGE COMMAND
  tape: 'yes': not one of the words that may stand there
  [2]
  $ tape new.img defect 4
  usage: tape IMAGE COMMAND
  tape: wrong number of arguments; use: tape IMAGE defect SEG SEC
  [2]
  $ tape new.img help
  usage: tape IMAGE COMMAND
  
  Keeps backups on a QIC-80 cartridge in the file IMAGE, which new and pulses make
  if it does not exist. For a dump of a real tape use tape_import, tape_salvage.
  
      new N                 inserts a blank cartridge, 3 to 246 segments a track
      format LABEL [DATE]   erases and formats the cartridge
      append NAME [DATE]    stores standard input as a new volume
      restore N             writes volume N to standard output
      list                  lists the volumes
      info                  shows what the header says
      room                  shows how many bytes another volume may have
      check                 reports lost and wrong sectors; writes nothing
      scrub                 rewrites lost sectors that parity can recover
      scrub deep            also rewrites sectors that hold wrong bytes
      protect on | off      sets or clears the write-protect mark
      upgrade               converts the image to the newest layout
  
  For tests and scripts:
      lose SEG SEC          makes a sector unreadable until it is rewritten
      defect SEG SEC        makes a sector bad for good that was never formatted
      script                carries out the lines of standard input
      pulses                sends the drive step pulses, read from standard input
      make SEED COUNT       appends generated volumes, damages and restores them
  
  SEG counts from 0, SEC from 0 to 31. DATE is 1996-02-29T12:00:00; without it,
  1970-01-01T00:00:00. If an image may be damaged, copy it and run check first:
  info, list, restore and all that write may change its volume table.
  Exit status 0: done; 2: usage; 11, 12: data lost; 21: check found damage; the
  others in 'man tape'. scrub and script exit with 0 even if data are lost.
  new and format erase what is there without asking.
  $ ls

Help
----

The program tells its commands itself, and makes no file for that.

  $ tape --help | head -n 1
  usage: tape IMAGE COMMAND
  $ tape --help > ../help
  $ tape -h | cmp - ../help
  $ sed -n 's/^    \([a-z]*\( deep\)\{0,1\}\) .*/\1/p' ../help | paste -sd ' '
  new format append restore list info room check scrub scrub deep protect upgrade lose defect script pulses make
  $ tape --version
  tape 1.0, images of version 2 and 1
  $ tape --help > /dev/full
  tape: output failed
  [17]
  $ ls

A file that holds something else
--------------------------------

It is no image, whatever the command is, and stays as it is.

  $ seq 100000 > pages
  $ tar -cf thesis.tar pages
  $ cp thesis.tar kept.tar
  $ tape thesis.tar new 3
  tape: cannot open the image
  tape: thesis.tar is not a tape image; for a dump use tape_import or tape_salvage
  [20]
  $ tape thesis.tar list
  tape: cannot open the image
  tape: thesis.tar is not a tape image; for a dump use tape_import or tape_salvage
  [20]
  $ tape pages append a < kept.tar
  tape: cannot open the image
  tape: pages is not a tape image; for a dump use tape_import or tape_salvage
  [20]
  $ cmp thesis.tar kept.tar
  $ seq 100000 | cmp - pages

So it is for a copy.

  $ tape cart.img new 3
  blank 3
  $ tape_dup thesis.tar cart.img
  tape_dup: thesis.tar is not a tape image; for a dump use tape_import or tape_salvage
  [20]
  $ tape_dup cart.img thesis.tar
  tape_dup: thesis.tar is not a tape image; for a dump use tape_import or tape_salvage
  [20]
  $ cmp thesis.tar kept.tar

A name that can't be printed is escaped.

  $ cp thesis.tar $'a\nb'
  $ tape $'a\nb' new 3
  tape: cannot open the image
  tape: a\x0Ab is not a tape image; for a dump use tape_import or tape_salvage
  [20]

Zero bytes are none of an image, but in a length that a stop leaves.

  $ head -c 100000 /dev/zero > zeros
  $ tape zeros new 3
  tape: cannot open the image
  tape: zeros is not a tape image; for a dump use tape_import or tape_salvage
  [20]
  $ truncate -s 63 zeros
  $ tape zeros list
  tape: cannot open the image
  tape: zeros is not a tape image; for a dump use tape_import or tape_salvage
  [20]
  $ truncate -s 2760641 zeros
  $ tape zeros list
  tape: cannot open the image
  tape: zeros is not a tape image; for a dump use tape_import or tape_salvage
  [20]

A dump of three segments per track whose bytes are zero has a length that no stop leaves.

  $ truncate -s 2752512 zeros
  $ tape zeros list
  tape: cannot open the image
  tape: zeros is not a tape image; for a dump use tape_import or tape_salvage
  [20]

What a stop leaves
------------------

A `new` or an import that was stopped leaves a file that is no cartridge, and may be taken for one. It has no bytes; or byte 0 is
zero, and the seven behind it are zero or those of an image.

  $ free() { rm -f cart.img; printf "$2" > cart.img; truncate -s $1 cart.img; tape cart.img list; tape cart.img new 3; }
  $ free 0 ''
  tape: no cartridge
  tape: cart.img: it holds no cartridge, or a 'new' or an import was interrupted; check the path
  blank 3
  $ free 64 ''
  tape: no cartridge
  tape: cart.img: it holds no cartridge, or a 'new' or an import was interrupted; check the path
  blank 3
  $ free 2760640 ''
  tape: no cartridge
  tape: cart.img: it holds no cartridge, or a 'new' or an import was interrupted; check the path
  blank 3
  $ free 2760640 '\0IC80IMG\2\0\3\0\0\0\x5A\0\x40'
  tape: no cartridge
  tape: cart.img: it holds no cartridge, or a 'new' or an import was interrupted; check the path
  blank 3
  $ free 2760640 '\0IC8\0\0MG'
  tape: no cartridge
  tape: cart.img: it holds no cartridge, or a 'new' or an import was interrupted; check the path
  blank 3

An upgraded image has 5,521,216 bytes, and its first byte is cleared first. An import writes 32,864 bytes a segment behind the head.

  $ free 5521216 '\0IC80IMG\1\0\3\0\0\0\x5A\0\xC0\x1F\x2A'
  tape: no cartridge
  tape: cart.img: it holds no cartridge, or a 'new' or an import was interrupted; check the path
  blank 3
  $ free 32928 ''
  tape: no cartridge
  tape: cart.img: it holds no cartridge, or a 'new' or an import was interrupted; check the path
  blank 3
  $ free 65792 ''
  tape: no cartridge
  tape: cart.img: it holds no cartridge, or a 'new' or an import was interrupted; check the path
  blank 3

With another byte in front, or among the seven, it is something else.

  $ free 2760640 'Q'
  tape: cannot open the image
  tape: cart.img is not a tape image; for a dump use tape_import or tape_salvage
  tape: cannot open the image
  tape: cart.img is not a tape image; for a dump use tape_import or tape_salvage
  [20]
  $ free 64 '\0QIC80IMG'
  tape: cannot open the image
  tape: cart.img is not a tape image; for a dump use tape_import or tape_salvage
  tape: cannot open the image
  tape: cart.img is not a tape image; for a dump use tape_import or tape_salvage
  [20]

A `new` that is killed at each of its syncs leaves such a file, or the new image.

  $ for at in fsync:when=3 fsync:when=4 fdatasync:when=1 fdatasync:when=2; do
  >     : > cart.img
  >     strace --quiet=all -o ../calls -e trace=fsync,fdatasync -e inject=$at:signal=KILL tape cart.img new 3
  >     tape cart.img list
  > done 2>&1 | grep ^tape
  tape: no cartridge
  tape: cart.img: it holds no cartridge, or a 'new' or an import was interrupted; check the path
  tape: no cartridge
  tape: cart.img: it holds no cartridge, or a 'new' or an import was interrupted; check the path
  tape: no cartridge
  tape: cart.img: it holds no cartridge, or a 'new' or an import was interrupted; check the path
  tape: the cartridge is not formatted
  tape: cart.img: no header can be read: if this cartridge was ever in use, do not format it; run check
