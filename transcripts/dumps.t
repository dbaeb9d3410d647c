Flat dumps
==========

  $ command -v tape_export > /dev/null || exit 80

`tape_export` writes the flat dump of a cartridge, its sectors one behind the other, and beside it a map that says which of
them hold bytes. A cartridge with a volume of one segment has lost three sectors of it.

  $ tape cart.img new 3
  blank 3
  $ tape cart.img format evening
  formatted 84 0
  $ echo 'a page of text' | tape cart.img append page
  appended 1 15 3 3
  $ for sector in 0 1 2; do tape cart.img lose 3 $sector; done
  lost 3 0
  lost 3 1
  lost 3 2
  $ cp cart.img before.img
  $ tape_export --map page.map cart.img > page.dump
  $ wc -c < page.dump
  2752512
  $ sha256sum < page.dump
  e9b5c4b266ead95d6b62845074fc223d140f7ab35959fdc151700f4c6993c390  -
  $ cat page.map
  # Mapfile. Created by tape_export
  # current_pos  current_status  current_pass
  0x00000000     +               1
  #      pos        size  status
  0x00000000  0x00018000  +
  0x00018000  0x00000C00  -
  0x00018C00  0x00287400  +

The lost sectors are 1,024 zero bytes each in the dump, whatever lies in the image file in their place, and nothing in the
image changes.

  $ tail -c +98305 page.dump | head -c 3072 | tr -d '\0' | wc -c
  0
  $ cmp before.img cart.img

Without a map the dump is the same. An image that may not be written is exported, too.

  $ chmod a-w cart.img
  $ tape_export cart.img | cmp - page.dump
  $ chmod u+w cart.img

Refusals
--------

A map is written only into a file that is missing or empty, and nothing is printed else.

  $ cp page.map kept.map
  $ tape_export --map page.map cart.img > none.dump
  tape_export: the map is not empty
  [6]
  $ cmp page.map kept.map
  $ wc -c < none.dump
  0
  $ : > empty.map
  $ tape_export --map empty.map cart.img > page.dump
  $ cmp empty.map kept.map

The image is none for its map.

  $ tape_export --map cart.img cart.img > none.dump
  tape_export: cannot open the map
  tape_export: cart.img is in use by another process, or named twice in this command
  [20]
  $ cmp before.img cart.img

  $ : > none.img
  $ tape_export none.img
  tape_export: no cartridge
  [5]
  $ tape_export /dev/null
  tape_export: cannot open the image
  tape_export: /dev/null is not a regular file
  [20]
  $ tape_export --map /dev/null cart.img
  tape_export: cannot open the map
  tape_export: /dev/null is not a regular file
  [20]
  $ tape_export cart.img > cart.img.dump 2> cart.img < cart.img
  [20]
  $ cp before.img cart.img
  $ tape_export cart.img > /dev/full
  tape_export: output failed
  [17]

Words are those that `clap` takes.

  $ tape_export --map=another.map -- cart.img | cmp - page.dump
  $ cmp another.map kept.map
  $ tape_export 2> why
  [2]
  $ tape_export cart.img cart.img 2> why
  [2]
  $ tape_export --help | head -n 1
  Usage: tape_export [OPTIONS] <IMAGE>
