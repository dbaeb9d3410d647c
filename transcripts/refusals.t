Refusals and their statuses
===========================

  $ . "$TESTDIR/image.sh"

A command that is refused prints one line on standard error, and ends with a status that tells why; behind some statuses a second
line says more. Standard output gets nothing.

  $ told() { tape "$@" 2> line; status=$?; sed "1s/^/$status /" line; }

Words that are no command end with 2, and a line of `pulses` or of `script` that is none with 3.

  $ told cart.img rewind
  2 usage: tape IMAGE COMMAND
  tape: there is no command 'rewind'; try 'tape --help'
  $ echo fast | told cart.img pulses
  3 tape: input fault in line 1 at byte 0
  tape: cart.img: the line is not valid; those before it were carried out

The file is empty so far: it holds no cartridge. That is told before anything else that a command has to say, by each that
needs one.

  $ told cart.img list
  4 tape: no cartridge
  tape: cart.img: it holds no cartridge, or a 'new' or an import was interrupted; check the path
  $ told cart.img info
  4 tape: no cartridge
  tape: cart.img: it holds no cartridge, or a 'new' or an import was interrupted; check the path
  $ told cart.img format L
  4 tape: no cartridge
  tape: cart.img: it holds no cartridge, or a 'new' or an import was interrupted; check the path
  $ told cart.img protect on
  4 tape: no cartridge
  tape: cart.img: it holds no cartridge, or a 'new' or an import was interrupted; check the path
  $ told cart.img protect off
  4 tape: no cartridge
  tape: cart.img: it holds no cartridge, or a 'new' or an import was interrupted; check the path
  $ told cart.img upgrade
  4 tape: no cartridge
  tape: cart.img: it holds no cartridge, or a 'new' or an import was interrupted; check the path
  $ told cart.img defect 84 32
  4 tape: no cartridge
  tape: cart.img: it holds no cartridge, or a 'new' or an import was interrupted; check the path
  $ told cart.img lose 84 32
  4 tape: no cartridge
  tape: cart.img: it holds no cartridge, or a 'new' or an import was interrupted; check the path
  $ told cart.img append a < /dev/null
  4 tape: no cartridge
  tape: cart.img: it holds no cartridge, or a 'new' or an import was interrupted; check the path
  $ told cart.img restore 1
  4 tape: no cartridge
  tape: cart.img: it holds no cartridge, or a 'new' or an import was interrupted; check the path
  $ told cart.img scrub
  4 tape: no cartridge
  tape: cart.img: it holds no cartridge, or a 'new' or an import was interrupted; check the path
  $ echo fast | told cart.img script
  4 tape: no cartridge
  tape: cart.img: it holds no cartridge, or a 'new' or an import was interrupted; check the path
  $ told cart.img make 150 3
  4 tape: no cartridge
  tape: cart.img: it holds no cartridge, or a 'new' or an import was interrupted; check the path
  $ wc -c < cart.img
  0

A protected cartridge is not formatted, and a new one is no formatted one.

  $ tape cart.img new 3
  blank 3
  $ tape cart.img protect on
  protected on
  $ told cart.img format L
  5 tape: the cartridge is protected
  tape: cart.img: write-protected; 'protect off' clears the mark
  $ told cart.img list
  6 tape: the cartridge is not formatted
  tape: cart.img: no header can be read: if this cartridge was ever in use, do not format it; run check
  $ told cart.img info
  6 tape: the cartridge is not formatted
  tape: cart.img: no header can be read: if this cartridge was ever in use, do not format it; run check
  $ told cart.img restore 1
  6 tape: the cartridge is not formatted
  tape: cart.img: no header can be read: if this cartridge was ever in use, do not format it; run check
  $ echo fast | told cart.img script
  6 tape: the cartridge is not formatted
  tape: cart.img: no header can be read: if this cartridge was ever in use, do not format it; run check

A protected cartridge is not appended to and not scrubbed, nor is it one for `make`. That is told before it is mounted, so
also where it is not formatted.

  $ told cart.img append a < /dev/null
  5 tape: the cartridge is protected
  tape: cart.img: write-protected; 'protect off' clears the mark
  $ told cart.img scrub
  5 tape: the cartridge is protected
  tape: cart.img: write-protected; 'protect off' clears the mark
  $ told cart.img make 150 3
  5 tape: the cartridge is protected
  tape: cart.img: write-protected; 'protect off' clears the mark

The protect mark stops nothing that a person's hand does: neither a defect, nor a lost sector, nor an upgrade, nor another
cartridge.

  $ tape cart.img defect 83 31
  defect 83 31
  $ tape cart.img lose 83 30
  lost 83 30
  $ tape cart.img upgrade
  upgraded from 2
  $ tape cart.img new 3
  blank 3
  $ tape cart.img format L
  formatted 84 0

On a formatted cartridge the lines of `script` are read.

  $ echo fast | told cart.img script
  3 tape: input fault in line 1 at byte 0
  tape: cart.img: the line is not valid; those before it were carried out

Of three segments per track there are 84, numbered from 0, and a segment has the sectors 0 to 31. There is no place
beyond, formatted or not, and the last one is there.

  $ told cart.img lose 84 0
  15 tape: no such sector
  tape: cart.img: 'info' shows how many segments there are; sectors are 0 to 31
  $ told cart.img lose 0 32
  15 tape: no such sector
  tape: cart.img: 'info' shows how many segments there are; sectors are 0 to 31
  $ told cart.img defect 84 0
  15 tape: no such sector
  tape: cart.img: 'info' shows how many segments there are; sectors are 0 to 31
  $ told cart.img defect 83 32
  15 tape: no such sector
  tape: cart.img: 'info' shows how many segments there are; sectors are 0 to 31
  $ tape cart.img lose 83 31
  lost 83 31

A sector that was formatted is no place for a defect, though it be lost.

  $ told cart.img defect 3 0
  14 tape: the sector is formatted
  tape: cart.img: only a sector that was never formatted can be made a defect
  $ told cart.img defect 83 31
  14 tape: the sector is formatted
  tape: cart.img: only a sector that was never formatted can be made a defect

Another tool's header or volume table may be refused: by the name of the field, or the number of a slot.

  $ cp cart.img whole.img
  $ each lose 0 29 30 31
  3 of 3 done
  $ put 0 0 4 '\x04'
  $ told cart.img list
  7 tape: foreign format-code 4
  tape: cart.img: another layout, or damage: keep the image; tape_export and tape_salvage can read it
  $ cp whole.img cart.img
  $ put 2 1 0 VTBL
  $ told cart.img list
  7 tape: foreign slot 8
  tape: cart.img: the volume table has an invalid entry; run check, and see EXIT STATUS 7 in man tape

The volume table may be beyond help: two lost sectors, with which the parity, which was changed, does not agree, or too many
that are lost.

  $ cp whole.img cart.img
  $ put 2 29 0 '\x01'
  $ each lose 2 5 31
  2 of 2 done
  $ told cart.img list
  8 tape: the volume table does not agree
  tape: cart.img: the volume table is corrupt: keep the image, and see EXIT STATUS 8 in man tape
  $ each lose 2 0 1
  2 of 2 done
  $ told cart.img info
  11 tape: segment 2 lost 4 sectors
  tape: cart.img: the volume table can't be read: keep the image, and see EXIT STATUS 11 in man tape

The first that holds is told: here the header is foreign, too, and then no header is left.

  $ each lose 0 29 30 31
  3 of 3 done
  $ put 0 0 4 '\x04'
  $ told cart.img list
  7 tape: foreign format-code 4
  tape: cart.img: another layout, or damage: keep the image; tape_export and tape_salvage can read it
  $ each lose 0 0
  1 of 1 done
  $ each lose 1 $(seq 0 31)
  32 of 32 done
  $ told cart.img list
  6 tape: the cartridge is not formatted
  tape: cart.img: no header can be read: if this cartridge was ever in use, do not format it; run check

A defect in front is found when all is formatted, and leaves the cartridge unformatted.

  $ tape cart.img new 3
  blank 3
  $ tape cart.img defect 1 7
  defect 1 7
  $ told cart.img format L
  13 tape: defect in segment 1
  tape: cart.img: it can't be formatted: segments 0 to 2 must have no bad sector
  $ told cart.img list
  6 tape: the cartridge is not formatted
  tape: cart.img: no header can be read: if this cartridge was ever in use, do not format it; run check

An input that can't be read, a folder for one, and an output that takes nothing are told as such. A cartridge is new all the
same where only its line could not be printed.

  $ told cart.img pulses < .
  16 tape: input failed
  tape: cart.img: the input can't be read
  $ tape cart.img new 4 > /dev/full
  tape: output failed
  tape: cart.img: the output can't be written
  [17]
  $ wc -c < cart.img
  3680832
  $ tape cart.img protect on > /dev/full
  tape: output failed
  tape: cart.img: the output can't be written
  [17]
  $ look_at 12 1
   5a
  $ printf '6\n2\n' | tape cart.img pulses > /dev/full
  tape: output failed
  tape: cart.img: the output can't be written
  [17]

A path that can be neither opened nor made is no image.

  $ told no/such/folder.img list
  4 tape: no cartridge
  tape: no/such/folder.img does not exist
