The edge of real files
======================

Standard streams that are closed, full or broken, paths that are no image, two runs at once, an image that is a standard
stream itself, and a full disk. Behind each case the image's bytes are those from before it, unless the page says
otherwise.

The cartridge has one volume, of ten bytes.

  $ tape cart.img new 3
  blank 3
  $ tape cart.img format evening
  formatted 84 0
  $ printf 'ten bytes.' | tape cart.img append a 1994-03-01T12:00:00
  appended 1 10 3 3
  $ tape cart.img list
  1 3 3 10 1994-03-01T12:00:00 a
  volumes 1
  $ cp cart.img kept.img

Closed streams: a closed output fails, a closed input is empty, and a closed standard error gets no line. First a command
that prints.

  $ tape cart.img list <&-
  1 3 3 10 1994-03-01T12:00:00 a
  volumes 1
  $ cmp cart.img kept.img
  $ tape cart.img list >&-
  tape: output failed
  tape: cart.img: the output can't be written
  [17]
  $ cmp cart.img kept.img
  $ tape cart.img list 2>&-
  1 3 3 10 1994-03-01T12:00:00 a
  volumes 1
  $ cmp cart.img kept.img
  $ tape cart.img list <&- >&-
  tape: output failed
  tape: cart.img: the output can't be written
  [17]
  $ cmp cart.img kept.img
  $ tape cart.img list <&- 2>&-
  1 3 3 10 1994-03-01T12:00:00 a
  volumes 1
  $ cmp cart.img kept.img
  $ tape cart.img list >&- 2>&-
  [17]
  $ cmp cart.img kept.img
  $ tape cart.img list <&- >&- 2>&-
  [17]
  $ cmp cart.img kept.img

A command that reads.

  $ tape cart.img pulses <&-
  $ cmp cart.img kept.img
  $ printf '6\n2\n' | tape cart.img pulses >&-
  tape: output failed
  tape: cart.img: the output can't be written
  [17]
  $ cmp cart.img kept.img
  $ printf '6\n' | tape cart.img pulses 2>&-
  1
  $ cmp cart.img kept.img
  $ printf '6\nsix\n' | tape cart.img pulses 2>&-
  1
  [3]
  $ cmp cart.img kept.img
  $ tape cart.img pulses <&- >&- 2>&-
  $ cmp cart.img kept.img

Words of no command.

  $ tape cart.img rewind 1 <&-
  usage: tape IMAGE COMMAND
  tape: there is no command 'rewind'; try 'tape --help'
  [2]
  $ cmp cart.img kept.img
  $ tape cart.img rewind 1 >&-
  usage: tape IMAGE COMMAND
  tape: there is no command 'rewind'; try 'tape --help'
  [2]
  $ cmp cart.img kept.img
  $ tape cart.img rewind 1 2>&-
  [2]
  $ cmp cart.img kept.img
  $ tape cart.img rewind 1 <&- >&- 2>&-
  [2]
  $ cmp cart.img kept.img
  $ tape 2>&-
  [2]

A command that writes is carried out, whether or not its line can be written.

  $ tape closed.img new 3 <&- >&- 2>&-
  [17]
  $ tape open.img new 3
  blank 3
  $ cmp closed.img open.img

Standard input gives its bytes, in whatever pieces they come, up to the end or the line end: the status of a cartridge
that is referenced.

  $ { printf '6\n2\n2'; sleep 0.1; printf '\n2\n2\n2\n2\n2\n2\n2\nend\nsix\n'; } | tape cart.img pulses
  1
  1
  0
  1
  0
  1
  1
  1
  0
  1
  $ tape cart.img pulses < .
  tape: input failed
  tape: cart.img: the input can't be read
  [16]
  $ cmp cart.img kept.img

A full device, in place of the output and of standard error.

  $ tape cart.img list > /dev/full
  tape: output failed
  tape: cart.img: the output can't be written
  [17]
  $ cmp cart.img kept.img
  $ tape cart.img rewind 2> /dev/full
  [2]
  $ cmp cart.img kept.img
  $ tape cart.img list > /dev/full 2>&1
  [17]
  $ cmp cart.img kept.img

A pipe that nobody reads: the program is not ended by its signal.

  $ mkfifo broken
  $ exec 8<>broken 9>broken 8<&-
  $ tape cart.img list >&9
  tape: output failed
  tape: cart.img: the output can't be written
  [17]
  $ cmp cart.img kept.img
  $ echo 6 | tape cart.img pulses >&9
  tape: output failed
  tape: cart.img: the output can't be written
  [17]
  $ cmp cart.img kept.img
  $ tape cart.img rewind 2>&9
  [2]
  $ cmp cart.img kept.img
  $ exec 9>&-

Only a regular file is an image: no folder, device or pipe, also behind a symbolic link, of which nothing is read and
nothing written.

  $ mkdir folder
  $ tape folder list
  tape: cannot open the image
  tape: folder is not a regular file
  [20]
  $ tape folder/ list
  tape: cannot open the image
  tape: folder/ is not a regular file
  [20]
  $ tape /dev/null list
  tape: cannot open the image
  tape: /dev/null is not a regular file
  [20]
  $ tape /dev/zero new 3
  tape: cannot open the image
  tape: /dev/zero is not a regular file
  [20]
  $ mkfifo pipe
  $ exec 9<>pipe
  $ echo first >&9
  $ tape pipe list
  tape: cannot open the image
  tape: pipe is not a regular file
  [20]
  $ tape pipe new 3
  tape: cannot open the image
  tape: pipe is not a regular file
  [20]
  $ echo second >&9
  $ head -n 2 <&9
  first
  second
  $ exec 9>&-
  $ ln -s folder folder.link
  $ tape folder.link list
  tape: cannot open the image
  tape: folder.link is not a regular file
  [20]
  $ ln -s pipe pipe.link
  $ tape pipe.link list
  tape: cannot open the image
  tape: pipe.link is not a regular file
  [20]
  $ ls folder

A path that can't be opened: a folder that is not there, a file in place of a folder, a name that is too long, an empty
one, and a link to itself.

  $ tape none/cart.img new 3
  tape: cannot open the image
  tape: none/cart.img can't be made: No such file or directory
  [20]
  $ tape cart.img/cart.img new 3
  tape: cannot open the image
  tape: cart.img/cart.img can't be opened: Not a directory
  [20]
  $ cmp cart.img kept.img
  $ tape $(printf 'a%.0s' $(seq 300)) new 3
  tape: cannot open the image
  tape: aaaaaaaaaaaaaaaaaaaaaaaaaaaaaaaaaaaaaaaaaaaaaaaaaaaaaaaaaaaaaaaaaaaaaaaaaaaaaaaaaaaaaaaaaaaaaaaaaaaaaaaaaaaaaaaaaaaaaaaaaaaaaaaaaaaaaaaaaaaaaaaaaaaaaaaaaaaaaaaaaaaaaaaaaaaaaaaaaaaaaaaaaaaaaaaaaaaaaaaaaaaaaaaaaaaaaaaaaaaaaaaaaaaaaaaaaaaaaaaaaaaaaaaaaaaaaaaaaaaaaaaaaaaaaaaaaaaaaaaaaaaaaaaaaaa... can't be opened: File name too long
  [20]
  $ tape '' new 3
  tape: cannot open the image
  tape:  can't be made: No such file or directory
  [20]
  $ ln -s loop loop
  $ tape loop new 3
  tape: cannot open the image
  tape: loop can't be opened: Too many levels of symbolic links
  [20]
  $ tape none/cart.img list 2>&-
  [4]

An image that is a symbolic link: the file that it names is the image, and is created where there is none.

  $ ln -s cart.img cart.link
  $ tape cart.link list
  1 3 3 10 1994-03-01T12:00:00 a
  volumes 1
  $ tape cart.link list <&- >&- 2>&-
  [17]
  $ cmp cart.img kept.img
  $ test -L cart.link
  $ ln -s later.img later.link
  $ tape later.link new 3
  blank 3
  $ cmp later.img open.img

Two runs at once: while one has the image no other can open it, under whatever name. The first is at work when it has
printed a level.

  $ mkfifo trains levels
  $ tape cart.img pulses < trains > levels & first=$!
  $ exec 8> trains 9< levels
  $ echo 6 >&8
  $ read level <&9 && echo $level
  1
  $ tape cart.img list
  tape: cannot open the image
  tape: cart.img is in use by another process, or named twice in this command
  [20]
  $ tape cart.link new 3
  tape: cannot open the image
  tape: cart.link is in use by another process, or named twice in this command
  [20]
  $ cmp cart.img kept.img
  $ echo end >&8
  $ wait $first
  $ exec 8>&- 9<&-
  $ tape cart.img list
  1 3 3 10 1994-03-01T12:00:00 a
  volumes 1
  $ cmp cart.img kept.img

The image as a standard stream of its own run. Where it is standard error the line would be written into it, so there is
none.

  $ tape cart.img list >> cart.img
  tape: cannot open the image
  tape: cart.img is also standard input or output of this command
  [20]
  $ cmp cart.img kept.img
  $ tape cart.link list 2>> cart.img
  [20]
  $ tape cart.link rewind 2>> cart.img
  [2]
  $ cmp cart.img kept.img
  $ tape cart.img pulses < cart.img
  tape: cannot open the image
  tape: cart.img is also standard input or output of this command
  [20]
  $ tape cart.img protect on 1<> cart.img
  tape: cannot open the image
  tape: cart.img is also standard input or output of this command
  [20]
  $ cmp cart.img kept.img

A file that can grow no further, as on a full disk: the tape fails, and the cartridge is no cartridge.

  $ (trap '' XFSZ; ulimit -f 1000; exec tape full.img new 3)
  tape: the tape failed
  tape: full.img: File too large
  [18]
  $ tape full.img list
  tape: no cartridge
  tape: full.img: it holds no cartridge, or a 'new' or an import was interrupted; check the path
  [4]
  $ tape full.img new 3
  blank 3
  $ cmp full.img open.img

An image that gets shorter under a run
--------------------------------------

Somebody cuts the image off while a command that changes it runs, and no read of the command comes to what was cut off. The command
ends as if the image had failed, since what it wrote may be gone. Here the input comes once the image is locked and was cut off.

  $ tape cut.img new 3
  blank 3
  $ tape cut.img format L
  formatted 84 0
  $ late() {
  >     for turn in $(seq 1000); do
  >         grep -q ":$(stat -c %i cut.img) 0 EOF" /proc/locks && break
  >         sleep 0.02
  >     done
  >     sleep 1
  >     truncate -s 200000 cut.img
  >     echo text
  > }
  $ late | tape cut.img append page
  appended 1 5 3 3
  tape: the tape failed
  tape: cut.img: the file got shorter under the run
  [18]
