Many cartridges
===============

  $ command -v parallel > /dev/null && command -v tape_dup > /dev/null || exit 80
  $ . "$TESTDIR/image.sh"
  $ PATH=$TOP/docs:$PATH

What docs/SHELF.md shows, with 300 images in a folder. They are of version 1, of which a copy has holes where the sectors hold zero
bytes: 300 of version 2 would take 830 MB. Each has three volumes.

  $ old_image
  $ cp cart.img unformatted.img
  $ tape cart.img format evening
  formatted 84 0
  $ for name in one two three; do echo "a page of $name" | tape cart.img append $name; done
  appended 1 14 3 3
  appended 2 14 4 4
  appended 3 16 5 5
  $ mkdir tapes
  $ for number in $(seq -w 300); do cp --sparse=always cart.img tapes/$number.img; done

Seven of them come to harm. Three sectors of a volume are lost, one turns wrong, a header copy is lost, a sector of the volume table
turns wrong, a volume is lost, a file is cut off, and one was never formatted.

  $ lose() { for sector in "${@:3}"; do tape tapes/$1.img lose $2 $sector; done > lost; }
  $ turn() { mv tapes/$1.img cart.img; flip $2 $3 100; mv cart.img tapes/$1.img; }
  $ lose 017 3 0 1 2
  $ turn 042 4 5
  $ lose 101 0 0 1 2 3
  $ turn 150 2 9
  $ lose 200 4 0 1 2 3
  $ truncate -s 100000 tapes/250.img
  $ cp --sparse=always unformatted.img tapes/299.img

A report
--------

It is of all images, in their order, and nothing is written.

  $ tar -c -S tapes | sha1sum > before
  $ shelf.sh check tapes > report; echo status $?
  status 1
  $ tar -c -S tapes | sha1sum | cmp - before
  $ cut -d ' ' -f 3 report | cmp - <(ls -d tapes/*.img)
  $ cut -d ' ' -f 1,2 report | sort | uniq -c | sed 's/^ *//'
  293 0 sound
  1 20 refused
  2 21 lost
  1 21 table
  1 21 weak
  1 21 wrong
  1 6 refused
  $ grep -v '^0 ' report
  21 weak tapes/017.img
  21 wrong tapes/042.img
  21 lost tapes/101.img
  21 table tapes/150.img
  21 lost tapes/200.img
  20 refused tapes/250.img
  6 refused tapes/299.img

In a script that ends at the first failure it stands behind an `if`. One image at a time is enough, too, and a link is an image.

  $ mkdir few
  $ for number in 016 017 018; do ln -s ../tapes/$number.img few/; done
  $ (set -euo pipefail
  >   if JOBS=1 shelf.sh check few; then echo all sound; else echo "see the report (status $?)"; fi)
  0 sound few/016.img
  21 weak few/017.img
  0 sound few/018.img
  see the report (status 1)

Where the report can't be whole the status is 2: without an image, and where a program is missing.

  $ mkdir none
  $ shelf.sh check none
  shelf.sh: there is no image none/*.img
  [2]
  $ mkdir tools
  $ for tool in bash env; do ln -s "$(command -v $tool)" tools/; done
  $ PATH=$PWD/tools "$TOP/docs/shelf.sh" check tapes
  shelf.sh: there is no tape on the path
  [2]
  $ ln -s "$(command -v tape)" tools/
  $ PATH=$PWD/tools "$TOP/docs/shelf.sh" check tapes
  shelf.sh: there is no GNU parallel on the path
  [2]
  $ shelf.sh look tapes
  shelf.sh: usage: check FOLDER, mend IMAGE, or move IMAGE NEW
  [2]

Mending
-------

All that the report calls weak or wrong. Each image is copied before.

  $ (set -euo pipefail
  >   awk '$2 == "weak" || $2 == "wrong"' report | while read -r _ _ image; do
  >     shelf.sh mend "$image"
  >   done)
  scrub 6 3 0
  0 sound tapes/017.img
  wrong 4 5
  scrub 6 1 0
  0 sound tapes/042.img
  $ ls tapes/*.before
  tapes/017.img.before
  tapes/042.img.before
  $ tape tapes/017.img.before check > said
  tape: 1 segments can be mended, 0 not
  tape: tapes/017.img.before: damaged; see EXIT STATUS 21 in man tape
  [21]
  $ for image in 017 042; do tape tapes/$image.img restore 1; tape tapes/$image.img restore 2; done
  a page of one
  a page of two
  a page of one
  a page of two

What is sound, or is no matter of a scrub, is not touched.

  $ shelf.sh mend tapes/001.img
  shelf.sh: tapes/001.img is sound: SHELF.md says what to do
  [2]
  $ shelf.sh mend tapes/150.img
  shelf.sh: tapes/150.img is table: SHELF.md says what to do
  [2]
  $ shelf.sh mend tapes/301.img
  shelf.sh: there is no image tapes/301.img
  [2]
  $ ls tapes/301.img
  ls: cannot access 'tapes/301.img': No such file or directory
  [2]

A protected cartridge isn't mended.

  $ cp tapes/017.img.before tapes/protected.img
  $ tape tapes/protected.img protect on
  protected on
  $ shelf.sh mend tapes/protected.img
  tape: the cartridge is protected
  tape: tapes/protected.img: write-protected; 'protect off' clears the mark
  [5]
  $ rm tapes/protected.img*

The volume table
----------------

  $ tape tapes/150.img check || echo status $?
  wrong 2 9
  check 6 1 0
  tape: 1 segments can be mended, 0 not
  tape: tapes/150.img: damaged; see EXIT STATUS 21 in man tape
  status 21
  $ cp tapes/150.img tapes/150.img.before
  $ tape tapes/150.img lose 2 9
  lost 2 9
  $ tape tapes/150.img list
  1 3 3 14 1970-01-01T00:00:00 one
  2 4 4 14 1970-01-01T00:00:00 two
  3 5 5 16 1970-01-01T00:00:00 three
  volumes 3
  $ cmp tapes/150.img tapes/001.img

A new cartridge
---------------

  $ shelf.sh move tapes/101.img tapes/101-new.img
  blank 3
  formatted 84 0
  copied 1 14
  copied 2 14
  copied 3 16
  volumes 3
  0 sound tapes/101-new.img
  $ tape tapes/101-new.img info | sed -n 1p
  label evening
  $ shelf.sh move tapes/101.img tapes/101-new.img
  shelf.sh: tapes/101-new.img is there already
  [2]

With a volume that can't be read the copy ends before it, and the others are given over one by one.

  $ shelf.sh move tapes/200.img tapes/200-new.img || echo status $?
  blank 3
  formatted 84 0
  copied 1 14
  tape_dup: tapes/200.img: segment 4 can't be read: parity recovers at most 3 lost sectors
  status 32
  $ tape tapes/200.img list | sed '$d' | tail -n +2 > volumes
  $ while read -r number _ _ _ date name; do
  >   if tape tapes/200.img restore "$number" > volume; then
  >     tape tapes/200-new.img append "$name" "$date" < volume
  >   else
  >     echo "$name: status $?, $(wc -c < volume) bytes came"
  >   fi
  > done < volumes
  tape: segment 4 lost 4 sectors
  tape: tapes/200.img: the output is incomplete: it ends before segment 4; tape_salvage gives what is left
  two: status 11, 0 bytes came
  appended 2 16 4 4
  $ tape tapes/200-new.img list
  1 3 3 14 1970-01-01T00:00:00 one
  2 4 4 16 1970-01-01T00:00:00 three
  volumes 2

The old ones, and what is no cartridge, are put away.

  $ mkdir away
  $ mv tapes/101.img tapes/200.img tapes/250.img tapes/299.img away/
  $ shelf.sh check tapes > report; echo status $?
  status 0
  $ cut -d ' ' -f 1,2 report | sort | uniq -c | sed 's/^ *//'
  298 0 sound

Several machines
----------------

A colon stands for this one, which takes no `ssh`.

  $ parallel --nonall --tag --sshlogin : shelf.sh check few
  :\t0 sound few/016.img (esc)
  :\t0 sound few/017.img (esc)
  :\t0 sound few/018.img (esc)
  $ parallel --keep-order --sshlogin : shelf.sh found {} ::: few/*.img
  0 sound few/016.img
  0 sound few/017.img
  0 sound few/018.img
  $ rm -r tapes away few
