A cartridge, drawn
==================

`docs/picture.py` draws the cartridge in an image, with the label and the volumes that `info` and `list` tell of a copy. Each
rectangle has a line of its own: one for each segment and one for each of the seven grounds and marks of the legend, so 91 for 84
segments. The legend's last mark is the cross of a segment that can't be read.

  $ tape cart.img new 3
  blank 3
  $ python3 "$TOP/docs/picture.py" cart.img > blank.svg
  $ grep -c '<rect' blank.svg
  91
  $ grep -o '>[a-z][^<]*<' blank.svg | tr -d '<>' | grep -v '^track'
  tape: the cartridge is not formatted
  header or table
  volume
  next volume
  free
  never formatted
  lost
  defect
  can't be read

Each segment of it was never formatted. Behind a format three are of the header and the table, and 81 are free.

  $ grep -c 'fill="#ffffff"' blank.svg
  85
  $ tape cart.img format evening
  formatted 84 0
  $ python3 "$TOP/docs/picture.py" cart.img > empty.svg
  $ grep -c 'fill="#5b4a8a"' empty.svg
  4
  $ grep -c 'fill="#e4e4e0"' empty.svg
  82

A volume takes the first free segment. A lost sector is drawn over its segment, and with four of them the segment can't be read.

  $ echo 'a page of text' | tape cart.img append page
  appended 1 15 3 3
  $ tape cart.img lose 3 7
  lost 3 7
  $ python3 "$TOP/docs/picture.py" cart.img > lost.svg
  $ grep -c 'fill="#3f7fbf"' lost.svg
  2
  $ grep -c 'fill="#d23b2f"' lost.svg
  2
  $ grep -c '<path' lost.svg
  1
  $ for sector in 8 9 10; do tape cart.img lose 3 $sector; done > /dev/null
  $ cp cart.img before.img
  $ python3 "$TOP/docs/picture.py" cart.img > crossed.svg
  $ grep -c '<path' crossed.svg
  2
  $ grep -o '>evening<\|>1 page[^<]*<' crossed.svg | tr -d '<>'
  evening
  1 page: 15 bytes, segment 3

The image is as it was, and the table is read as the program reads it, also with three of its sectors lost.

  $ cmp cart.img before.img
  $ for sector in 0 5 9; do tape cart.img lose 2 $sector; done > /dev/null
  $ python3 "$TOP/docs/picture.py" cart.img | grep -o '>1 page[^<]*<' | tr -d '<>'
  1 page: 15 bytes, segment 3
  $ tape cart.img lose 2 10
  lost 2 10
  $ python3 "$TOP/docs/picture.py" cart.img | grep -o '>tape[^<]*<' | tr -d '<>'
  tape: segment 2 lost 4 sectors

An image of version 1 is drawn as well, and what is no image isn't.

  $ . "$TESTDIR/image.sh"
  $ old_image
  $ python3 "$TOP/docs/picture.py" cart.img | cmp - blank.svg
  $ echo text > page
  $ python3 "$TOP/docs/picture.py" page
  picture: no cartridge
  [1]
  $ python3 "$TOP/docs/picture.py" none.img
  picture: none.img: No such file or directory
  [1]
  $ head -c 100000 cart.img > short.img
  $ python3 "$TOP/docs/picture.py" short.img
  picture: the image is shorter than its cartridge
  [1]
  $ python3 "$TOP/docs/picture.py"
  usage: picture.py IMAGE
  [1]
