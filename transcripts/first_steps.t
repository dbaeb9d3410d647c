First steps with a cartridge
============================

`tape` keeps a cartridge in an image file. The first word is the file, the others are a command. Only `new` and `pulses` make a
file that isn't there:

  $ tape evening.img list
  tape: no cartridge
  tape: evening.img does not exist
  [4]
  $ ls

A new cartridge of three segments per track is a short one, but has all that a long one has: 28 tracks of three
segments of 32 sectors. Its image is a head of 64 bytes, and 1,027 bytes for each of the 2,688 sectors.

  $ tape evening.img new 3
  blank 3
  $ wc -c < evening.img
  2760640

Nothing was ever written on it, so it has neither a label nor a list of volumes.

  $ tape evening.img list
  tape: the cartridge is not formatted
  tape: evening.img: no header can be read: if this cartridge was ever in use, do not format it; run check
  [6]
  $ tape evening.img info
  tape: the cartridge is not formatted
  tape: evening.img: no header can be read: if this cartridge was ever in use, do not format it; run check
  [6]

Formatting gives it both. Of its 84 segments no sector is bad.

  $ tape evening.img format L
  formatted 84 0
  $ tape evening.img list
  volumes 0
  $ tape evening.img info
  label L
  formatted 1970-01-01T00:00:00
  segments 84
  bad sectors 0
  volumes 0

No date was given, which is the first that there is. A date is a word of its own, and a label is one word, too, which
may have spaces inside. A second formatting takes the place of the first.

  $ tape evening.img format 'an evening' 1994-03-01T12:00:00
  formatted 84 0
  $ tape evening.img info
  label an evening
  formatted 1994-03-01T12:00:00
  segments 84
  bad sectors 0
  volumes 0

A label has at most 44 bytes, and the last date is that of the last second of 2097.

  $ tape evening.img format 0123456789abcdefghijklmnopqrstuvwxyzABCDEFGH 2097-12-31T23:59:59
  formatted 84 0
  $ tape evening.img info
  label 0123456789abcdefghijklmnopqrstuvwxyzABCDEFGH
  formatted 2097-12-31T23:59:59
  segments 84
  bad sectors 0
  volumes 0

The write protect mark keeps a cartridge from being formatted. It is no hindrance to looking at it.

  $ tape evening.img protect on
  protected on
  $ tape evening.img format M
  tape: the cartridge is protected
  tape: evening.img: write-protected; 'protect off' clears the mark
  [5]
  $ tape evening.img list
  volumes 0
  $ tape evening.img info | grep label
  label 0123456789abcdefghijklmnopqrstuvwxyzABCDEFGH
  $ tape evening.img protect off
  protected off
  $ tape evening.img format M
  formatted 84 0
  $ tape evening.img info | grep label
  label M

A tape of 205 ft has 100 segments per track. This one has five sectors in segment 10 that can never be read.

  $ tape long.img new 100
  blank 100
  $ wc -c < long.img
  92019264
  $ for sector in 3 4 5 6 7; do tape long.img defect 10 $sector; done
  defect 10 3
  defect 10 4
  defect 10 5
  defect 10 6
  defect 10 7
  $ tape long.img format evening 1994-03-01T12:00:00
  formatted 2800 5
  $ tape long.img list
  volumes 0
  $ tape long.img info
  label evening
  formatted 1994-03-01T12:00:00
  segments 2800
  bad sectors 5
  volumes 0

`new` puts in another cartridge in place of the one that was there, and asks nothing. A tape of 307.5 ft has 150.

  $ tape long.img new 150
  blank 150
  $ wc -c < long.img
  138028864
  $ tape long.img list
  tape: the cartridge is not formatted
  tape: long.img: no header can be read: if this cartridge was ever in use, do not format it; run check
  [6]
