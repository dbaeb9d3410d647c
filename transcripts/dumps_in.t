Flat dumps brought in
=====================

  $ command -v tape_import > /dev/null || exit 80
  $ command -v ddrescue > /dev/null && command -v ddrescuelog > /dev/null || exit 80

`tape_import` makes an image of a flat dump and, where there is one, of its map. Here the dump is that of a cartridge with a
volume of one segment, which has lost three sectors.

  $ tape cart.img new 3
  blank 3
  $ tape cart.img format evening
  formatted 84 0
  $ echo 'a page of text' | tape cart.img append page
  appended 1 15 3 3
  $ for sector in 0 1 2; do tape cart.img lose 3 $sector; done
  lost 3 0
  lost 3 1
  lost 3 2
  $ tape_export --map page.map cart.img > page.dump
  $ tape_import --map page.map back.img < page.dump
  imported 84 3
  $ tape back.img list
  1 3 3 15 1970-01-01T00:00:00 page
  volumes 1
  $ tape back.img restore 1
  a page of text

The image that came back has just the sectors that were held, and the same dump and map.

  $ tape_import --map page.map same.img < page.dump
  imported 84 3
  $ tape_export --map same.map same.img | cmp - page.dump
  $ cmp same.map page.map

A part of a dump
----------------

The first 163,840 bytes are five segments. The sectors behind them are lost, and those that the map has not.

  $ head -c 163840 page.dump > part.dump
  $ tape_import --segments 3 --map page.map part.img < part.dump
  imported 84 2531
  $ tape part.img list
  1 3 3 15 1970-01-01T00:00:00 page
  volumes 1
  $ tape part.img restore 1
  a page of text

A sector of which the dump has only a part is lost: with half of one more as many are, and with all of it one less.

  $ head -c 164352 page.dump | tape_import --segments 3 half.img
  imported 84 2528
  $ head -c 164864 page.dump | tape_import --segments 3 more.img
  imported 84 2527

More segments may be asked for than the dump has. The header tells that it is of another cartridge, whose last segment is 83.

  $ tape_import --segments 4 long.img < page.dump
  imported 112 896
  $ tape long.img list
  tape: foreign last-data 83
  tape: long.img: another layout, or damage: keep the image; tape_export and tape_salvage can read it
  [7]

Without the map the zero bytes in the place of the lost sectors are taken as read. Those of the sectors 1 and 2 are what was
written there; those of sector 0 are not.

  $ tape_import --segments 3 zeros.img < part.dump
  imported 84 2528
  $ tape zeros.img restore 1
  tape: segment 3 does not agree
  tape: zeros.img: the output is incomplete: it ends before segment 3; try 'scrub deep' on a copy
  [12]

The peer
--------

A map that `ddrescue` writes is read: of a dump that it could read whole, and of one in which it met bad sectors. That is
played by `--test-mode`, which fails in the sectors that a map has not as finished.

  $ ddrescue --quiet page.dump copy.dump copy.map
  $ tape_import --map copy.map copy.img < copy.dump
  imported 84 0
  $ ddrescue --quiet --test-mode=page.map page.dump rescued.dump rescued.map
  $ tape_import --map rescued.map rescued.img < rescued.dump
  imported 84 3
  $ tape_export --map again.map rescued.img | cmp - page.dump
  $ cmp again.map page.map

One that is written here is read by `ddrescuelog`, and names the same sectors: 96, 97 and 98 are the first of segment 3.

  $ ddrescuelog --show-status page.map | grep -E 'rescued|bad-sector'
         rescued:    2749 kB,  in      2 area(s)  ( 99.89%)
      bad-sector:     3072 B,  in      1 area(s)  (  0.11%)
  $ ddrescuelog --list-blocks=- --block-size=1024 page.map
  96
  97
  98
  $ ddrescuelog --compare-mapfile=page.map rescued.map

A dump is damaged: three sectors of each segment of a volume are overwritten, and the map says which.

  $ tape tape.img new 3
  blank 3
  $ tape tape.img format evening
  formatted 84 0
  $ seq 10000 > numbers
  $ tape tape.img append numbers < numbers
  appended 1 48894 3 4
  $ tape_export tape.img > tape.dump
  $ printf '%s\n' 96 103 127 128 135 159 |
  >   ddrescuelog --block-size=1024 --size=2752512 --create-mapfile=-+ tape.map
  $ for block in $(ddrescuelog --list-blocks=- --block-size=1024 tape.map); do
  >   dd if=/dev/urandom of=tape.dump bs=1024 seek=$block count=1 conv=notrunc status=none
  > done
  $ tape_import --map tape.map damaged.img < tape.dump
  imported 84 6
  $ tape damaged.img restore 1 | cmp - numbers
  $ tape damaged.img scrub
  scrub 5 6 0
  $ tape damaged.img restore 1 | cmp - numbers
  $ tape_export --map mended.map damaged.img > /dev/null
  $ ddrescuelog --done-status mended.map

Maps
----

A long map, of more bytes than are read at a time: every eighth sector of 25 segments is lost. It is written run by run, and
each run is read again.

  $ tape many.img new 3
  blank 3
  $ tape many.img format evening
  formatted 84 0
  $ lost() { for segment in $(seq 10 34); do for sector in 0 8 16 24; do "$@" $segment $sector; done; done; }
  $ lost echo lose | tape many.img script | tail -n 1
  end
  $ tape_export --map many.map many.img > many.dump
  $ wc -c < many.map
  5368
  $ run() { printf '0x%08X  0x%08X  %s\n' $1 $(($2 - $1)) $3; }
  $ one() { run $at $((1024 * (32 * $1 + $2))) +; at=$((1024 * (32 * $1 + $2 + 1))); run $((at - 1024)) $at -; }
  $ { head -n 4 page.map; at=0; lost one; run $at 2752512 +; } | cmp - many.map
  $ tape_import --map many.map again.img < many.dump
  imported 84 100
  $ tape_export --map more.map again.img | cmp - many.dump
  $ cmp more.map many.map

Two blocks that meet inside sector 1 rescue it together, and 02000 is an octal number.

  $ printf '0 ?\n0 0x600 +\n0x600 0x200 +\n0x800 02000 -\n' > meet.map
  $ tape_import --map meet.map meet.img < page.dump
  imported 84 2686

A carriage return before a newline does not count, nor a comment.

  $ sed 's/$/\r/' page.map > other.map
  $ tape_import --map other.map other.img < page.dump
  imported 84 3

A gap between blocks is a fault; so is a map without a status line, in the line behind its last one.

  $ printf '0x0 +\n0 1024 +\n2048 5 +\n' > gap.map
  $ tape_import --map gap.map none.img < page.dump
  tape_import: fault in line 3 of the map
  [3]
  $ : > empty.map
  $ tape_import --map empty.map none.img < page.dump
  tape_import: fault in line 1 of the map
  [3]

Refusals
--------

A dump has 917,504 bytes for each segment per track, or, where these are asked for, at most as many. The file is empty then,
and can be imported into.

  $ head -c 2752511 page.dump | tape_import none.img
  tape_import: 2752511 bytes are no cartridge
  [4]
  $ { cat page.dump; echo; } | tape_import --segments 3 none.img
  tape_import: 2752513 bytes are no cartridge
  [4]
  $ head -c 917504 page.dump | tape_import none.img
  tape_import: 917504 bytes are no cartridge
  [4]
  $ tape_import none.img < /dev/null
  tape_import: 0 bytes are no cartridge
  [4]

A longer one is read no further than one byte behind the longest that there is, 917,504 * 246, or that of those segments per
track. So an input without an end is refused, too.

  $ tape_import none.img < /dev/zero
  tape_import: 225705985 bytes are no cartridge
  [4]
  $ tape_import --segments 3 none.img < /dev/zero
  tape_import: 2752513 bytes are no cartridge
  [4]
  $ { head -c 3000000 /dev/zero; echo next; } > long.dump
  $ { tape_import --segments 3 none.img; wc -c; } < long.dump
  tape_import: 2752513 bytes are no cartridge
  247492
  $ wc -c < none.img
  0

An image that has a byte stays as it is, an old one, too.

  $ cp cart.img before.img
  $ tape_import cart.img < page.dump
  tape_import: the image is not empty
  [6]
  $ cmp cart.img before.img

A map is not created, and is no device, no standard stream, and not the image, which is locked before it.

  $ tape_import --map missing.map none.img < page.dump
  tape_import: cannot open the map
  tape_import: missing.map can't be opened: No such file or directory
  [20]
  $ test -e missing.map
  [1]
  $ tape_import --map /dev/null none.img < page.dump
  tape_import: cannot open the map
  tape_import: /dev/null is not a regular file
  [20]
  $ tape_import --map page.map none.img < page.map
  tape_import: cannot open the map
  tape_import: page.map is also standard input or output of this command
  [20]
  $ cp page.map both
  $ tape_import --map both both < page.dump
  tape_import: cannot open the map
  tape_import: both is in use by another process, or named twice in this command
  [20]
  $ cmp both page.map
  $ tape_import --map none.img none.img < page.dump
  tape_import: cannot open the map
  tape_import: none.img is in use by another process, or named twice in this command
  [20]
  $ tape_import page.dump < page.dump
  tape_import: cannot open the image
  tape_import: page.dump is also standard input or output of this command
  [20]
  $ tape_import /dev/null < page.dump
  tape_import: cannot open the image
  tape_import: /dev/null is not a regular file
  [20]
  $ tape_import none.img < page.dump 2> none.img
  [20]

An input that fails, and an output: what can't be told is taken back.

  $ tape_import none.img < .
  tape_import: input failed
  [16]
  $ wc -c < none.img
  0
  $ tape_import none.img < page.dump > /dev/full
  tape_import: output failed
  [17]
  $ wc -c < none.img
  0
  $ (trap '' XFSZ; ulimit -f 1000; exec tape_import full.img < page.dump)
  tape_import: the image failed
  tape_import: full.img: File too large
  [18]
  $ tape_import none.img <&-
  tape_import: 0 bytes are no cartridge
  [4]

Words are those that `clap` takes.

  $ tape_import --segments=3 --map=page.map -- last.img < page.dump
  imported 84 3
  $ for words in '' 'none.img none.img' '--segments 2 none.img' '--segments 247 none.img' '--segments' '--map'; do
  >   tape_import $words < page.dump 2> why
  >   echo $?
  > done
  2
  2
  2
  2
  2
  2
  $ wc -c < none.img
  0
  $ tape_import --help | head -n 1
  Usage: tape_import [OPTIONS] <IMAGE>
