Faults under a salvage
======================

Calls of the system on the files of a run of `tape_salvage`, made to fail by `strace`; where there is none, or it may trace nothing,
this page fails. A volume of 100,000 bytes lies in the segments 3 to 6.

  $ strace -o probe -e inject=fsync:error=EIO true
  $ command -v tape_salvage > /dev/null || exit 80
  $ export PYTHONDONTWRITEBYTECODE=1
  $ printf 'segments 12\nvolume 3 6 100000 four\n' | python3 "$TESTDIR/foreign.py" tape.dump
  $ printf '0 +\n0 393216 +\n' > tape.map
  $ faulty() { strace --quiet=all -o calls -P "$PWD/$2" -e inject="$1" tape_salvage "${@:3}"; }

The dump is read for its header, its table, and then a segment at a time. What was written before a read that fails is a front.

  $ tape_salvage tape.dump volume 1 > four
  $ for call in 1 2 3 4; do
  >   faulty pread64:error=EIO:when=$call tape.dump tape.dump volume 1 > front
  >   echo status $?
  >   wc -c < front
  >   cmp -n $(stat -c %s front) front four
  > done
  tape_salvage: input failed
  tape_salvage: tape.dump: Input/output error
  status 16
  0
  tape_salvage: input failed
  tape_salvage: tape.dump: Input/output error
  status 16
  0
  tape_salvage: input failed
  tape_salvage: tape.dump: Input/output error
  status 16
  0
  tape_salvage: input failed
  tape_salvage: tape.dump: Input/output error
  status 16
  29696

A read that ends before the length that was seen is one that failed; one that comes back short is read on.

  $ faulty pread64:retval=0:when=3 tape.dump tape.dump volume 1 > front
  tape_salvage: input failed
  tape_salvage: tape.dump: the file got shorter under the run
  [16]
  $ faulty pread64:error=EINTR:when=3 tape.dump tape.dump volume 1 | cmp - four

So it is with the other files that are read.

  $ printf '1\n' > lines
  $ tape_salvage tape.dump segments 0 0 > header
  $ for option in map missing bad header; do
  >   file=lines
  >   [ $option != map ] || file=tape.map
  >   [ $option != header ] || file=header
  >   faulty pread64:error=EIO $file --$option $file tape.dump volume 1
  >   echo status $?
  > done
  tape_salvage: input failed
  status 16
  tape_salvage: input failed
  status 16
  tape_salvage: input failed
  status 16
  tape_salvage: input failed
  tape_salvage: header: Input/output error
  status 16

A file that can't be locked, or put on the disk, is not opened.

  $ faulty flock:error=EIO tape.dump tape.dump list
  tape_salvage: cannot open the dump
  tape_salvage: tape.dump can't be locked: Input/output error
  [20]
  $ faulty fsync:error=EIO tape.map --map tape.map tape.dump list
  tape_salvage: cannot open the map
  tape_salvage: tape.map or its directory can't be synced: Input/output error
  [20]
  $ faulty flock:error=ENOLCK tape.dump tape.dump list
  tape_salvage: cannot open the dump
  tape_salvage: tape.dump can't be locked: No locks available
  [20]

The map of the output gets longer with each line. Where a call of its file fails the run ends; what stands on standard output then is a
front.

  $ : > one.sure
  $ faulty ftruncate:error=EIO one.sure --sure one.sure tape.dump volume 1 > front
  tape_salvage: output failed
  [17]
  $ wc -c < front
  0
  $ stat -c %s one.sure
  0
  $ faulty pwrite64:error=ENOSPC:when=2 one.sure --sure one.sure tape.dump volume 1 > front
  tape_salvage: output failed
  [17]
  $ cmp front four

Last the map is put on the disk. Where that fails it may lack, so the run has failed.

  $ rm one.sure
  $ faulty fsync:error=EIO:when=2 one.sure --sure one.sure tape.dump volume 1 > front
  tape_salvage: output failed
  [17]
  $ cmp front four
  $ rm one.sure
  $ faulty fsync:error=EIO one.sure --sure one.sure tape.dump volume 1 > front
  tape_salvage: cannot open the sure map
  tape_salvage: one.sure or its directory can't be synced: Input/output error
  [20]
