Scripts
=======

  $ . "$TESTDIR/image.sh"
  $ tape cart.img new 3
  blank 3
  $ tape cart.img format L
  formatted 84 0
  $ cp cart.img whole.img

`script` mounts the cartridge once and carries out the lines of its input, one after the other. Each is replied to, and the
end of the script too. The bytes of an append follow its line at once, as many as the line says, and the next line begins
behind them. A restore tells before each part how many bytes it has; what follows the last byte is the next reply.

  $ tape cart.img script << SCRIPT
  > append a 3
  > abclist
  > restore 1
  > end
  > SCRIPT
  appended 1 3 3 3
  1 3 3 3 1970-01-01T00:00:00 a
  volumes 1
  part 3
  abcrestored 1 3
  end

What it did is done, as if each line had been a command.

  $ tape cart.img list
  1 3 3 3 1970-01-01T00:00:00 a
  volumes 1
  $ tape cart.img restore 1; echo
  abc

An append may have a date, and no byte at all. A volume without a byte has no part. The end of the input is as good as the
line `end`.

  $ printf 'append b 4 1994-03-01T12:00:00\nmoreappend c 0\nlist\nrestore 3\n' | tape cart.img script
  appended 2 4 4 4
  appended 3 0 5 5
  1 3 3 3 1970-01-01T00:00:00 a
  2 4 4 4 1994-03-01T12:00:00 b
  3 5 5 0 1970-01-01T00:00:00 c
  volumes 3
  restored 3 0
  end
  $ tape cart.img script < /dev/null
  end
  $ tape cart.img script <&-
  end

The bytes may be any, also those of a line, and each part is of one segment.

  $ cp whole.img cart.img
  $ printf 'append a 15\nlist\nend\nscrub\n' | tape cart.img script
  appended 1 15 3 3
  end
  $ tape cart.img restore 1
  list
  end
  scrub
  $ cp whole.img cart.img
  $ seq 100000 | head -c 59393 > volume
  $ { echo 'append v 59393'; cat volume; echo 'restore 1'; } | tape cart.img script > replies
  $ {
  >     echo 'appended 1 59393 3 5'
  >     echo 'part 29696'; head -c 29696 volume
  >     echo 'part 29696'; tail -c +29697 volume | head -c 29696
  >     echo 'part 1'; tail -c 1 volume
  >     echo 'restored 1 59393'
  >     echo 'end'
  > } | cmp - replies
  $ cp cart.img volume.img

What follows `end` is not read.

  $ printf 'list\nend\nwhat is this?\n' > lines
  $ { tape cart.img script; cat; } < lines
  1 3 5 59393 1970-01-01T00:00:00 v
  volumes 1
  end
  what is this?

A line is replied to before the next one is read.

  $ mkfifo lines.fifo replies.fifo
  $ tape cart.img script < lines.fifo > replies.fifo & script=$!
  $ exec 8> lines.fifo 9< replies.fifo
  $ echo 'lose 3 0' >&8
  $ read reply <&9 && echo $reply
  lost 3 0
  $ printf 'append w 3\nxyz' >&8
  $ read reply <&9 && echo $reply
  appended 2 3 6 6
  $ exec 8>&-
  $ read reply <&9 && echo $reply
  end
  $ wait $script
  $ exec 9<&-

Lost sectors
------------

`lose` and `scrub` do what the commands do.

  $ cp volume.img cart.img
  $ tape cart.img script << SCRIPT
  > lose 0 7
  > lose 3 0
  > lose 3 1
  > lose 3 31
  > scrub
  > scrub
  > lose 4 0
  > lose 4 1
  > lose 4 2
  > lose 4 31
  > scrub
  > SCRIPT
  lost 0 7
  lost 3 0
  lost 3 1
  lost 3 31
  scrub 6 4 0
  scrub 6 0 0
  lost 4 0
  lost 4 1
  lost 4 2
  lost 4 31
  lost 4 4
  scrub 6 0 1
  end

Of the volume the first segment can still be read. Its part is printed, and directly behind its last byte that segment 4 has
lost four sectors.

  $ echo 'restore 1' | tape cart.img script > replies
  $ { echo 'part 29696'; head -c 29696 volume; echo 'refused lost 4 4'; echo end; } | cmp - replies

A script looks at the volume table again before it appends, and settles it: three lost sectors of it are found again.

  $ cp volume.img cart.img
  $ printf 'append w 3\nxyz' | tape cart.img script
  appended 2 3 6 6
  end
  $ cp cart.img both.img
  $ cp volume.img cart.img
  $ printf 'lose 2 0\nlose 2 5\nlose 2 30\nappend w 3\nxyz' | tape cart.img script
  lost 2 0
  lost 2 5
  lost 2 30
  appended 2 3 6 6
  end
  $ cmp both.img cart.img

A scrub finds them, too.

  $ cp volume.img cart.img
  $ printf 'lose 2 0\nlose 2 5\nlose 2 30\nscrub\n' | tape cart.img script
  lost 2 0
  lost 2 5
  lost 2 30
  scrub 6 3 0
  end
  $ cmp volume.img cart.img

With a fourth one lost nothing can be appended any more. The list that was mounted is still shown, and its volumes are given;
but no later run finds it.

  $ cp whole.img cart.img
  $ tape cart.img script << SCRIPT
  > append a 5
  > hellolose 2 0
  > lose 2 1
  > lose 2 2
  > lose 2 3
  > append b 5
  > list
  > list
  > restore 1
  > scrub
  > SCRIPT
  appended 1 5 3 3
  lost 2 0
  lost 2 1
  lost 2 2
  lost 2 3
  refused lost 2 4
  1 3 3 5 1970-01-01T00:00:00 a
  volumes 1
  part 5
  hellorestored 1 5
  lost 2 4
  scrub 4 0 1
  end
  $ echo list | tape cart.img script
  tape: segment 2 lost 4 sectors
  tape: cart.img: the volume table can't be read: keep the image, and see EXIT STATUS 11 in man tape
  [11]

Refused lines
-------------

A line that is refused is replied to, and the script goes on: with all lines well formed the status is 0, whatever was
refused. There are as many volumes as `list` shows, and the sectors 0 to 31 of the segments 0 to 83.

  $ cp volume.img cart.img
  $ printf 'restore 0\nrestore 2\nrestore 999999999\nlose 84 0\nlose 3 32\nlose 83 31\n' | tape cart.img script; echo $?
  refused no volume 0 of 1
  refused no volume 2 of 1
  refused no volume 999999999 of 1
  refused place 84 0
  refused place 3 32
  lost 83 31
  end
  0

No code block agrees with segment 4, in which a byte was changed behind the drive's back.

  $ put 4 7 100 X
  $ echo 'restore 1' | tape cart.img script > replies
  $ { echo 'part 29696'; head -c 29696 volume; echo 'refused mismatch 4'; echo end; } | cmp - replies

An append has to have room for all of its bytes, and then it may take them all: here 2,405,376. Its bytes are taken all the
same where it is refused, so the next line is the one behind them.

  $ cp whole.img cart.img
  $ { echo 'append a 2405377'; head -c 2405377 /dev/zero; echo list; } | tape cart.img script
  refused full 2405377 2405376
  volumes 0
  end
  $ { echo 'append a 2405376'; head -c 2405376 /dev/zero; printf 'append b 3\nxyzappend c 0\n'; } | tape cart.img script
  appended 1 2405376 3 83
  refused full 3 0
  refused full 0 0
  end

There is room for 232 volumes, if the cartridge has as many segments.

  $ tape nine.img new 9
  blank 9
  $ tape nine.img format L
  formatted 252 0
  $ yes 'append e 0' | head -n 233 | tape nine.img script | tail -n 4
  appended 231 0 233 233
  appended 232 0 234 234
  refused full 0 0
  end

A protected cartridge is appended to and scrubbed no more, and nothing is written on it; but its lists and volumes are given,
and `lose` is what a hand does.

  $ cp volume.img cart.img
  $ tape cart.img protect on
  protected on
  $ cp cart.img before.img
  $ printf 'append w 5\nscrubscrub\nlist\nrestore 2\n' | tape cart.img script
  refused protected
  refused protected
  1 3 5 59393 1970-01-01T00:00:00 v
  volumes 1
  refused no volume 2 of 1
  end
  $ cmp before.img cart.img
  $ echo 'lose 3 0' | tape cart.img script
  lost 3 0
  end

Faults
------

A line that is none ends the script, with its number and how many bytes stand before it; there is no reply `end` then. What
was replied to before it is done. The bytes of an append count, but they are no line.

  $ cp whole.img cart.img
  $ printf 'append a 3\nabc\nlist\n' | tape cart.img script
  appended 1 3 3 3
  tape: input fault in line 2 at byte 14
  tape: cart.img: the line is not valid; those before it were carried out
  [3]
  $ printf 'list\nlose 3 0\nlist now\nlose 3 1\n' | tape cart.img script
  1 3 3 3 1970-01-01T00:00:00 a
  volumes 1
  lost 3 0
  tape: input fault in line 3 at byte 14
  tape: cart.img: the line is not valid; those before it were carried out
  [3]

An append whose bytes end early is none. Nothing is listed of it.

  $ cp whole.img cart.img
  $ printf 'append x 10\n123456789' | tape cart.img script
  tape: input fault in line 1 at byte 0
  tape: cart.img: the line is not valid; those before it were carried out
  [3]
  $ tape cart.img list
  volumes 0
  $ printf 'list\nappend x 999999999\n123456789' | tape cart.img script
  volumes 0
  tape: input fault in line 2 at byte 5
  tape: cart.img: the line is not valid; those before it were carried out
  [3]
  $ { printf 'list\nappend x 2405376\n'; cat volume; } | tape cart.img script
  volumes 0
  tape: input fault in line 2 at byte 5
  tape: cart.img: the line is not valid; those before it were carried out
  [3]
  $ tape cart.img list
  volumes 0

A line is a line as it stands, with one space between two words. These are none; nor is one without its newline, `end` too.

  $ fault() {
  >     answer=$(printf "$1" | tape cart.img script 2>&1)
  >     [ "$? ${answer%%$'\n'*}" = '3 tape: input fault in line 1 at byte 0' ] || echo "a line: $1 ($answer)"
  > }
  $ for line in '' ' ' List LIST ' list' 'list ' 'list now' info 'end end' 'end ' stop pulses 'format L' scrub. \
  >         restore 'restore 01' 'restore -1' 'restore  1' 'restore 1000000000' 'restore 1 2' \
  >         'lose 3' 'lose 3 0 0' 'lose 3  0' 'lose three 0' append 'append a' 'append a b' 'append 0' 'append a 00' \
  >         'append a 1000000000' 'append a 0 1994-03-01' 'append a 0 1994-13-01T12:00:00' 'append a b 0' 'append a 0 0' \
  >         'append  a 0' 'append a  0' 'append a 0 ' 'append \001 0'; do
  >     fault "$line\n"
  > done
  $ for line in list end scrub 'lose 3 0' 'append a 0'; do fault "$line"; done
  $ tape cart.img list
  volumes 0

So a file of another system, with a carriage return before each newline, is no script.

  $ printf 'list\r\nend\r\n' | tape cart.img script
  tape: input fault in line 1 at byte 0
  tape: cart.img: the line is not valid; those before it were carried out
  [3]
  $ printf 'append a 3\r\nabclist\r\n' | tape cart.img script
  tape: input fault in line 1 at byte 0
  tape: cart.img: the line is not valid; those before it were carried out
  [3]

A name has at most 44 bytes, and the longest line is one of 81.

  $ tape cart.img script << SCRIPT
  > append 0123456789abcdefghijklmnopqrstuvwxyzABCDEFGH 0 2097-12-31T23:59:59
  > append 0123456789abcdefghijklmnopqrstuvwxyzABCDEFGHI 0
  > SCRIPT
  appended 1 0 3 3
  tape: input fault in line 2 at byte 74
  tape: cart.img: the line is not valid; those before it were carried out
  [3]

No line has 128 bytes before its newline, so no more are read of one without a newline.

  $ line() { printf "a%.0s" $(seq $1); echo; }
  $ for bytes in 127 128 129 1000; do line $bytes | (tape cart.img script; wc -c); done
  tape: input fault in line 1 at byte 0
  tape: cart.img: the line is not valid; those before it were carried out
  0
  tape: input fault in line 1 at byte 0
  tape: cart.img: the line is not valid; those before it were carried out
  1
  tape: input fault in line 1 at byte 0
  tape: cart.img: the line is not valid; those before it were carried out
  2
  tape: input fault in line 1 at byte 0
  tape: cart.img: the line is not valid; those before it were carried out
  873

As many lines as may be
-----------------------

These are 65,536, each of which is refused, since there is no such place. The next one is at fault, unless it is `end`: so an
input that never ends is answered.

  $ set -o pipefail
  $ many() { { yes 'lose 84 0' | head -n 65536; printf "$1"; } | tape cart.img script | uniq -c | sed 's/^ *//'; }
  $ many ''
  65536 refused place 84 0
  1 end
  $ many 'end\nlose 84 0\n'
  65536 refused place 84 0
  1 end
  $ many 'lose 84 0\n'
  tape: input fault in line 65537 at byte 655360
  tape: cart.img: the line is not valid; those before it were carried out
  65536 refused place 84 0
  [3]
  $ set +o pipefail

The bytes of an append are no lines, so they may have more newlines than that.

  $ { echo 'append n 100000'; yes '' | head -n 100000; echo list; } | tape cart.img script
  appended 2 100000 4 7
  1 3 3 0 2097-12-31T23:59:59 0123456789abcdefghijklmnopqrstuvwxyzABCDEFGH
  2 4 7 100000 1970-01-01T00:00:00 n
  volumes 2
  end

What ends it besides
--------------------

The cartridge is mounted first, and the script is not read where that is refused: with a header or a volume table of another
tool, too, and with a table that agrees with no code block or has lost too much.

  $ lines() { echo list | ("$@"; cat); }
  $ lines tape none.img script
  tape: no cartridge
  tape: none.img does not exist
  list
  $ tape none.img new 3
  blank 3
  $ lines tape none.img script
  tape: the cartridge is not formatted
  tape: none.img: no header can be read: if this cartridge was ever in use, do not format it; run check
  list
  $ cp whole.img cart.img
  $ each lose 0 29 30 31
  3 of 3 done
  $ put 0 0 4 '\x04'
  $ lines tape cart.img script
  tape: foreign format-code 4
  tape: cart.img: another layout, or damage: keep the image; tape_export and tape_salvage can read it
  list
  $ cp whole.img cart.img
  $ put 2 1 0 VTBL
  $ lines tape cart.img script
  tape: foreign slot 8
  tape: cart.img: the volume table has an invalid entry; run check, and see EXIT STATUS 7 in man tape
  list
  $ cp whole.img cart.img
  $ put 2 29 0 '\x01'
  $ each lose 2 5 31
  2 of 2 done
  $ cp cart.img before.img
  $ lines tape cart.img script
  tape: the volume table does not agree
  tape: cart.img: the volume table is corrupt: keep the image, and see EXIT STATUS 8 in man tape
  list
  $ cmp before.img cart.img
  $ each lose 2 0 1
  2 of 2 done
  $ lines tape cart.img script
  tape: segment 2 lost 4 sectors
  tape: cart.img: the volume table can't be read: keep the image, and see EXIT STATUS 11 in man tape
  list
  $ lines tape cart.img script now
  usage: tape IMAGE COMMAND
  tape: wrong number of arguments; use: tape IMAGE script
  list
  $ lines tape cart.img Script
  usage: tape IMAGE COMMAND
  tape: there is no command 'Script'; try 'tape --help'
  list

An input that can't be read ends it, and so does an output that is full. There the line is done whose reply could not be
written, and none behind it.

  $ cp whole.img cart.img
  $ tape cart.img script < .
  tape: input failed
  tape: cart.img: the input can't be read
  [16]
  $ printf 'append a 3\nabcappend b 3\nxyz' | tape cart.img script > /dev/full
  tape: output failed
  tape: cart.img: the output can't be written
  [17]
  $ tape cart.img list
  1 3 3 3 1970-01-01T00:00:00 a
  volumes 1

The machine may stop amid a script. Here the run is killed amid an append of which the last bytes have not come. The lines that
were replied to are done, and the append is not.

  $ tape cart.img script < lines.fifo > replies.fifo & script=$!
  $ exec 8> lines.fifo 9< replies.fifo
  $ printf 'append b 3\nxyz' >&8
  $ read reply <&9 && echo $reply
  appended 2 3 4 4
  $ { echo 'append c 100000'; cat volume; } >&8
  $ { kill -KILL $script; wait $script; } 2> killed
  [137]
  $ exec 8>&- 9<&-
  $ tape cart.img list
  1 3 3 3 1970-01-01T00:00:00 a
  2 4 4 3 1970-01-01T00:00:00 b
  volumes 2
