Images of version 1
===================

  $ . "$TESTDIR/image.sh"

A new image is of version 2. One of version 1, as programs of before made it, is used as it is: each command does and prints
what it does on a new one, and none but `new` and `upgrade` makes another version of it. Here both get the same commands. The
one of version 1 is made by hand.

  $ old_image
  $ mv cart.img old.img
  $ tape new.img new 3
  blank 3
  $ : > input
  $ both() {
  >     for image in old new; do
  >         tape $image.img "$@" < input > both.said 2>&1
  >         echo "status $?" >> both.said
  >         sed "s/$image.img/IMAGE/" both.said > $image.said
  >     done
  >     cmp old.said new.said && cat new.said
  > }

At any time each sector of the one has the parts that it has in the other, and so have the two marks.

  $ same() {
  >     for image in old new; do
  >         cp $image.img cart.img
  >         (parts; look_at 10 4) > $image.parts
  >     done
  >     cmp old.parts new.parts
  >     wc -c < old.img
  >     head -c 10 old.img | tail -c 2 | od -An -tx1
  > }
  $ same
  2760640
   01 00

Defects and formatting
----------------------

Sector 5 of segment 4 has the number 133. Of version 1 its defect byte stands at 64 + 2 * 2,688 + 133 = 5,573, in the third
plane, and of version 2 at 64 + 1,027 * 133 + 2 = 136,657. `cmp` counts from 1, and in octal.

  $ cp old.img old.before
  $ cp new.img new.before
  $ both list
  tape: the cartridge is not formatted
  tape: IMAGE: no header can be read: if this cartridge was ever in use, do not format it; run check
  status 6
  $ both defect 4 5
  defect 4 5
  status 0
  $ cmp -l old.before old.img | tr -s ' '
   5574 0 275
  $ cmp -l new.before new.img | tr -s ' '
   136658 0 275
  $ both format evening 1994-03-01T12:00:00
  formatted 84 1
  status 0
  $ same
  2760640
   01 00

The header is that of the same place, which begins at 8,128 in version 1.

  $ tail -c +8129 old.img | head -c 4 | od -An -tx1
   55 aa 55 aa
  $ tail -c +68 new.img | head -c 4 | od -An -tx1
   55 aa 55 aa
  $ both defect 4 6
  tape: the sector is formatted
  tape: IMAGE: only a sector that was never formatted can be made a defect
  status 14
  $ both defect 84 0
  tape: no such sector
  tape: IMAGE: 'info' shows how many segments there are; sectors are 0 to 31
  status 15

Volumes
-------

Their bytes begin in segment 3. Of version 1 they stand at 8,128 + 1,024 * 96 = 106,432.

  $ seq 100000 | head -c 30000 > input
  $ both append v
  appended 1 30000 3 4
  status 0
  $ tail -c +106433 old.img | cmp -n 29696 - input
  $ both list
  1 3 4 30000 1970-01-01T00:00:00 v
  volumes 1
  status 0
  $ same
  2760640
   01 00
  $ for sector in 0 7 31; do both lose 3 $sector; done
  lost 3 0
  status 0
  lost 3 7
  status 0
  lost 3 31
  status 0
  $ both restore 1 > said
  $ head -c 30000 said | cmp - input
  $ tail -c +30001 said
  status 0
  $ both scrub
  scrub 5 3 0
  status 0
  $ for sector in 8 9 10 11; do both lose 4 $sector; done | grep -c 'status 0'
  4
  $ both restore 1 | tail -c +29697
  tape: segment 4 lost 4 sectors
  tape: IMAGE: the output is incomplete: it ends before segment 4; tape_salvage gives what is left
  status 11
  $ both scrub
  lost 4 4
  scrub 5 0 1
  status 0
  $ same
  2760640
   01 00

A sector of version 1 is lost by its gate in the first plane: that of sector 8 of segment 4, with the number 136, stands at
64 + 136 = 200.

  $ tail -c +201 old.img | head -c 4 | od -An -tx1
   c1 c1 c1 c1

The volume table
----------------

Three lost sectors of it are found, and written by each command that mounts, unless the cartridge is protected.

  $ for sector in 0 5 30; do both lose 2 $sector; done | grep -c 'status 0'
  3
  $ both protect on
  protected on
  status 0
  $ both info
  label evening
  formatted 1994-03-01T12:00:00
  segments 84
  bad sectors 1
  volumes 1
  status 0
  $ both format other
  tape: the cartridge is protected
  tape: IMAGE: write-protected; 'protect off' clears the mark
  status 5
  $ cp old.img cart.img
  $ states gate 2 32
   c1 5a 5a 5a 5a c1 5a 5a 5a 5a 5a 5a 5a 5a 5a 5a
   5a 5a 5a 5a 5a 5a 5a 5a 5a 5a 5a 5a 5a 5a c1 5a
  $ both protect off
  protected off
  status 0
  $ both list
  1 3 4 30000 1970-01-01T00:00:00 v
  volumes 1
  status 0
  $ cp old.img cart.img
  $ states gate 2 32
   5a 5a 5a 5a 5a 5a 5a 5a 5a 5a 5a 5a 5a 5a 5a 5a
   5a 5a 5a 5a 5a 5a 5a 5a 5a 5a 5a 5a 5a 5a 5a 5a
  $ same
  2760640
   01 00

Scripts, generated runs and trains
----------------------------------

  $ printf 'append b 3\nabcrestore 2\nlose 5 0\nlist\nend\n' > input
  $ both script
  appended 2 3 5 5
  part 3
  abcrestored 2 3
  lost 5 0
  1 3 4 30000 1970-01-01T00:00:00 v
  2 5 5 3 1970-01-01T00:00:00 b
  volumes 2
  end
  status 0
  $ : > input
  $ both make 1 1
  lost 4 4
  scrub 11 1 1
  volume 3 139000 17375985
  status 0
  $ (echo 6; yes 2 | head -n 9) > input
  $ both pulses | xargs
  1 1 0 1 0 1 1 1 0 1 status 0
  $ same
  2760640
   01 00

Formatted again
---------------

Behind the header copies all bytes are zero. Of version 1 these begin at 8,128 + 1,024 * 64 = 73,664.

  $ : > input
  $ both format again
  formatted 84 1
  status 0
  $ same
  2760640
   01 00
  $ tail -c +73665 old.img | tr -d '\0' | wc -c
  0

A new cartridge in the place of one of version 1 is of version 2.

  $ tape old.img new 3
  blank 3
  $ tape new.img new 3
  blank 3
  $ cmp old.img new.img
