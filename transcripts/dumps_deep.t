A dump without its map, scrubbed
================================

  $ command -v tape_import > /dev/null || exit 80

A dump of which nobody knows the bytes that were read: the zero bytes in the place of a lost sector are taken as read. A deep
scrub finds the sector that its segment's parity says is wrong.

  $ tape cart.img new 3
  blank 3
  $ tape cart.img format evening
  formatted 84 0
  $ echo 'a page of text' | tape cart.img append page
  appended 1 15 3 3
  $ tape cart.img lose 3 0
  lost 3 0
  $ tape_export cart.img > cart.dump
  $ head -c 163840 cart.dump > part.dump
  $ tape_import --segments 3 zeros.img < part.dump
  imported 84 2528
  $ tape zeros.img restore 1
  tape: segment 3 does not agree
  tape: zeros.img: the output is incomplete: it ends before segment 3; try 'scrub deep' on a copy
  [12]
  $ tape zeros.img scrub deep
  wrong 3 0
  scrub 4 1 0
  $ tape zeros.img restore 1
  a page of text
