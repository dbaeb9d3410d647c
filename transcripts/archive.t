An image that may only be read
==============================

A file without the permission to write it, as an archive is kept: what has nothing to write is carried out, and a write fails.
A run of the superuser gives up its right to write any file first; where that can't be done this page is skipped.

  $ reader() { tape "$@"; }
  $ if [ "$(id -u)" = 0 ]; then
  >     reader() { setpriv --bounding-set -dac_override,-dac_read_search tape "$@"; }
  >     setpriv --bounding-set -dac_override,-dac_read_search true 2> probe || exit 80
  > fi

The cartridge has one volume, and its table is settled.

  $ tape cart.img new 3
  blank 3
  $ tape cart.img format evening 1994-03-01T12:00:00
  formatted 84 0
  $ printf 'ten bytes.' | tape cart.img append a 1994-03-01T12:00:00
  appended 1 10 3 3
  $ cp cart.img open.img
  $ tape cart.img list
  1 3 3 10 1994-03-01T12:00:00 a
  volumes 1
  $ cmp cart.img open.img
  $ chmod a-w cart.img

It is listed and given back, by scripts too, and the drive answers.

  $ reader cart.img info
  label evening
  formatted 1994-03-01T12:00:00
  segments 84
  bad sectors 0
  volumes 1
  $ reader cart.img list
  1 3 3 10 1994-03-01T12:00:00 a
  volumes 1
  $ reader cart.img restore 1
  ten bytes. (no-eol)
  $ reader cart.img restore 2
  tape: no volume 2 of 1
  tape: cart.img: 'list' shows the volumes
  [10]
  $ printf '6\n' | reader cart.img pulses
  1
  $ printf 'list\nrestore 1\nend\n' | reader cart.img script
  1 3 3 10 1994-03-01T12:00:00 a
  volumes 1
  part 10
  ten bytes.restored 1 10
  end
  $ reader cart.img scrub
  scrub 4 0 0
  $ reader cart.img protect off
  protected off
  $ reader cart.img upgrade
  upgraded from 2
  $ reader cart.img lose 99 0
  tape: no such sector
  tape: cart.img: 'info' shows how many segments there are; sectors are 0 to 31
  [15]

What has to write fails as the tape's.

  $ reader cart.img protect on
  tape: the tape failed
  tape: cart.img: the file is read-only
  [18]
  $ reader cart.img lose 3 0
  tape: the tape failed
  tape: cart.img: the file is read-only
  [18]
  $ printf 'more' | reader cart.img append b
  tape: the tape failed
  tape: cart.img: the file is read-only
  [18]
  $ reader cart.img format evening
  tape: the tape failed
  tape: cart.img: the file is read-only
  [18]
  $ reader cart.img make 1 1
  tape: the tape failed
  tape: cart.img: the file is read-only
  [18]
  $ reader cart.img new 3
  tape: the tape failed
  tape: cart.img: the file is read-only
  [18]
  $ printf 'list\nlose 3 0\nlist\n' | reader cart.img script
  1 3 3 10 1994-03-01T12:00:00 a
  volumes 1
  tape: the tape failed
  tape: cart.img: the file is read-only
  [18]
  $ cmp cart.img open.img

So does an upgrade of an image of version 1.

  $ printf 'QIC80IMG\1\0\3\0' > old.img
  $ truncate -s 2760640 old.img
  $ chmod a-w old.img
  $ reader old.img upgrade
  tape: the tape failed
  tape: old.img: the file is read-only
  [18]
  $ tr -d '\0' < old.img | wc -c
  10

A table that is not settled has to be written, unless the cartridge is protected.

  $ tape open.img lose 2 30
  lost 2 30
  $ cp open.img lost.img
  $ chmod a-w lost.img
  $ reader lost.img list
  tape: the tape failed
  tape: lost.img: the file is read-only
  [18]
  $ chmod u+w lost.img
  $ tape lost.img protect on
  protected on
  $ cp lost.img before.img
  $ chmod a-w lost.img
  $ reader lost.img list
  1 3 3 10 1994-03-01T12:00:00 a
  volumes 1
  $ printf 'more' | reader lost.img append b
  tape: the cartridge is protected
  tape: lost.img: write-protected; 'protect off' clears the mark
  [5]
  $ reader lost.img protect on
  protected on
  $ reader lost.img protect off
  tape: the tape failed
  tape: lost.img: the file is read-only
  [18]
  $ cmp lost.img before.img

Two runs that read have it at once, and none that writes beside them.

  $ mkfifo trains levels
  $ reader cart.img pulses < trains > levels & first=$!
  $ exec 8> trains 9< levels
  $ echo 6 >&8
  $ read level <&9 && echo $level
  1
  $ reader cart.img list
  1 3 3 10 1994-03-01T12:00:00 a
  volumes 1
  $ chmod u+w cart.img
  $ reader cart.img list
  tape: cannot open the image
  tape: cart.img is in use by another process, or named twice in this command
  [20]
  $ echo end >&8
  $ wait $first
  $ exec 8>&- 9<&-
  $ reader cart.img list
  1 3 3 10 1994-03-01T12:00:00 a
  volumes 1

A file that is empty is no cartridge, and none is put in; one that holds something else is no image. One that may not even be read
can't be opened.

  $ : > empty.img
  $ echo 'Dear Sir' > letter
  $ chmod a-w empty.img letter
  $ for image in empty.img letter; do
  >     reader $image list
  >     reader $image new 3
  > done
  tape: no cartridge
  tape: empty.img: it holds no cartridge, or a 'new' or an import was interrupted; check the path
  tape: the tape failed
  tape: empty.img: the file is read-only
  tape: cannot open the image
  tape: letter is not a tape image; for a dump use tape_import or tape_salvage
  tape: cannot open the image
  tape: letter is not a tape image; for a dump use tape_import or tape_salvage
  [20]
  $ cat empty.img letter
  Dear Sir
  $ chmod a-r letter
  $ reader letter list
  tape: cannot open the image
  tape: letter can't be opened: Permission denied
  [20]

Nor can a path where there is no file in a folder that may not be written. An image in it can be read.

  $ mkdir folder
  $ cp cart.img folder/
  $ chmod a-w folder/cart.img folder
  $ reader folder/new.img new 3
  tape: cannot open the image
  tape: folder/new.img can't be made: Permission denied
  [20]
  $ reader folder/cart.img list
  1 3 3 10 1994-03-01T12:00:00 a
  volumes 1
  $ chmod u+w folder
  $ ls folder
  cart.img
