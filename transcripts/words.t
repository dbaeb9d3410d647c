Words that are no command
=========================

A command is a list of words, and there are no options. Any other list is answered with a line on standard error and one that says
why, and the status 2. Nothing else happens: neither the cartridge nor the input is touched.

  $ tape cart.img new 3
  blank 3
  $ tape cart.img format L
  formatted 84 0
  $ cp cart.img before.img
  $ tape
  usage: tape IMAGE COMMAND
  tape: the command is missing; try 'tape --help'
  [2]
  $ tape cart.img
  usage: tape IMAGE COMMAND
  tape: the command is missing; try 'tape --help'
  [2]
  $ tape cart.img list now
  usage: tape IMAGE COMMAND
  tape: wrong number of arguments; use: tape IMAGE list
  [2]
  $ { tape cart.img pulses now; cat; } << INPUT
  > 6
  > INPUT
  usage: tape IMAGE COMMAND
  tape: wrong number of arguments; use: tape IMAGE pulses
  6
  $ echo 'a volume' | (tape cart.img append; cat)
  usage: tape IMAGE COMMAND
  tape: wrong number of arguments; use: tape IMAGE append NAME [DATE]
  a volume

A word that is no UTF-8 text is no word of a command, and no path of an image either: no file is created.

  $ tape cart.img $'\xFF'
  usage: tape IMAGE COMMAND
  tape: an argument is not valid UTF-8, which a path must be too
  [2]
  $ tape cart.img append $'a\xC3' < before.img
  usage: tape IMAGE COMMAND
  tape: an argument is not valid UTF-8, which a path must be too
  [2]
  $ tape $'new\xFF.img' new 3
  usage: tape IMAGE COMMAND
  tape: an argument is not valid UTF-8, which a path must be too
  [2]
  $ tape new.img new $'3\xFF'
  usage: tape IMAGE COMMAND
  tape: an argument is not valid UTF-8, which a path must be too
  [2]
  $ tape cart.img $'\xFF' 2>&-
  [2]
  $ ls
  before.img
  cart.img
  $ cmp cart.img before.img

In what follows such words are told by `no`, which prints them if they should be a command after all.

  $ no() { line=$(tape cart.img "$@" 2>&1); [ "$? ${line%%$'\n'*}" = '2 usage: tape IMAGE COMMAND' ] || echo "a command: $* ($line)"; }

Words count as they stand: case counts, nothing is trimmed, and an empty word is a word.

  $ for word in '' ' ' List LIST 'list ' ' list' lists inf upgraded end -h --help; do no "$word"; done
  $ no list ''
  $ no '' list
  $ no info info
  $ no 'new 3'
  $ no 'protect on'

Each command has its words, no fewer and no more.

  $ for word in new defect lose protect format append restore; do no $word; done
  $ no new 3 3
  $ no defect 4
  $ no defect 4 0 0
  $ no defect 4 0 ''
  $ no lose 4
  $ no lose 4 0 0
  $ no protect on off
  $ no protect on on
  $ no upgrade 2
  $ no upgrade on
  $ no format two names
  $ no format two names 1994-03-01T12:00:00
  $ no format L 1994-03-01T12:00:00 1994-03-01T12:00:00
  $ no append two names
  $ no append two names 1994-03-01T12:00:00
  $ no append a 1994-03-01T12:00:00 1994-03-01T12:00:00
  $ no restore 1 1
  $ no restore a
  $ no restore 1 volume
  $ for word in Deep deeper 1 scrub ''; do no scrub "$word"; done
  $ no scrub deep 3
  $ no deep
  $ no 'scrub deep'
  $ no info now
  $ no pulses -
  $ no pulses 6
  $ no New 3

Numbers
-------

A number is one to nine decimal digits, as it is printed: without a sign, and without a leading zero but for 0 itself. The
segments per track are 3 to 246.

  $ for number in '' ' ' 0 2 247 03 003 +3 -3 '3 ' ' 3' 3. 3.0 3,0 0x3 3a three 999999999 1000000003; do
  >     no new "$number"
  > done
  $ tape other.img new 151
  blank 151
  $ tape other.img new 246
  blank 246
  $ for number in '' 00 04 -1 +4 '4 ' ' 4' 4, four 1000000000 0000000001; do
  >     no defect "$number" 0
  >     no defect 4 "$number"
  >     no lose "$number" 0
  >     no lose 4 "$number"
  >     no restore "$number"
  > done

The greatest number is a number, though there is no such sector and no such volume.

  $ tape cart.img lose 999999999 999999999
  tape: no such sector
  tape: cart.img: 'info' shows how many segments there are; sectors are 0 to 31
  [15]
  $ tape cart.img defect 999999999 0
  tape: no such sector
  tape: cart.img: 'info' shows how many segments there are; sectors are 0 to 31
  [15]
  $ tape cart.img restore 999999999
  tape: no volume 999999999 of 0
  tape: cart.img: 'list' shows the volumes
  [10]

The mark is `on` or `off`.

  $ for word in '' On ON Off of offf 'on ' ' on' 1 yes; do no protect "$word"; done

Labels
------

A label is one word of 1 to 44 bytes, which are printed characters of ASCII or spaces, and neither begins nor ends with a
space.

  $ for label in '' ' ' ' a' 'a ' $'a\t' $'a\n' $'\n' $'a\x7f' $'\x01' ä; do no format "$label"; done
  $ no format '0123456789abcdefghijklmnopqrstuvwxyzABCDEFGHI'
  $ no format 'an evening of forty-five bytes, one too many.'
  $ no format ' a' 1994-03-01T12:00:00
  $ tape cart.img info | sed -n 1p
  label L

So is the name of a volume.

  $ for name in '' ' ' ' a' 'a ' $'a\t' $'a\n' $'\n' $'a\x7f' $'\x01' ä; do no append "$name"; done
  $ no append '0123456789abcdefghijklmnopqrstuvwxyzABCDEFGHI'
  $ no append ' a' 1994-03-01T12:00:00

These are labels.

  $ cp cart.img other.img
  $ for label in '~' '!' 'a - ~' list 3 1994-03-01T12:00:00 'an evening of forty-four bytes, all of them.'; do
  >     tape other.img format "$label"
  >     tape other.img info | sed -n 1p
  > done | grep -v formatted
  label ~
  label !
  label a - ~
  label list
  label 3
  label 1994-03-01T12:00:00
  label an evening of forty-four bytes, all of them.

Dates
-----

A date has all of its digits, in the years 1970 to 2097. How long a month is isn't looked at.

  $ for date in '' 0 1994-03-01 1994-03-01T12:00 1994-3-01T12:00:00 1994-03-1T12:00:00 1994-03-01T2:00:00 \
  >         94-03-01T12:00:00 +994-03-01T12:00:00 '1994-03-01 12:00:00' 1994-03-01t12:00:00 1994-03-01T12:00:00Z \
  >         '1994-03-01T12:00:0 ' ' 1994-03-01T12:00:00' 1994/03/01T12:00:00 1994-03-01T12-00-00 1994-13-01T12:00:00 \
  >         1994-00-01T12:00:00 1994-03-32T12:00:00 1994-03-00T12:00:00 1994-03-01T24:00:00 1994-03-01T12:60:00 \
  >         1994-03-01T12:00:60 1969-12-31T23:59:59 2098-01-01T00:00:00; do
  >     no format M "$date"
  >     no append a "$date"
  > done
  $ for date in 1970-01-01T00:00:00 1994-02-31T23:59:59 2097-12-31T23:59:59; do
  >     tape other.img format M $date
  >     tape other.img info | sed -n 2p
  > done
  formatted 84 0
  formatted 1970-01-01T00:00:00
  formatted 84 0
  formatted 1994-02-31T23:59:59
  formatted 84 0
  formatted 2097-12-31T23:59:59

After all this the cartridge is as it was.

  $ cmp cart.img before.img
