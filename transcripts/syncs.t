What is put on the disk
=======================

The calls by which the program has the system put an image on the disk, and what comes of their failures. They are seen, and
made to fail, by `strace`; where there is none, or it may trace nothing, this page fails.

  $ strace -o probe -e inject=fsync:error=EIO true
  $ . "$TESTDIR/syncs.sh"
  $ mkdir tapes
  $ cd tapes

Opening
-------

An image is synced as it is opened, whatever the command is, and so is its folder where it is empty, as a new one is.

  $ : > cart.img
  $ syncs cart.img list
  tape: no cartridge
  tape: cart.img: it holds no cartridge, or a 'new' or an import was interrupted; check the path
  fsync tapes 0
  fsync cart.img 0
  [4]

It is still empty. A new cartridge gets two lengths, each of which is synced whole, then its head, and last its first letter.

  $ syncs cart.img new 3
  blank 3
  fsync tapes 0
  fsync cart.img 0
  fsync cart.img 0
  fsync cart.img 0
  fdatasync cart.img 0
  fdatasync cart.img 0
  $ syncs cart.img info
  tape: the cartridge is not formatted
  tape: cart.img: no header can be read: if this cartridge was ever in use, do not format it; run check
  fsync cart.img 0
  [6]
  $ syncs cart.img pulses < /dev/null
  fsync cart.img 0
  $ syncs cart.img rewind
  usage: tape IMAGE COMMAND
  tape: there is no command 'rewind'; try 'tape --help'
  [2]

The length stays as it is when a mark is set, so that asks for the data alone; and where the mark stands nothing is written.

  $ syncs cart.img protect on
  protected on
  fsync cart.img 0
  fdatasync cart.img 0
  $ syncs cart.img protect on
  protected on
  fsync cart.img 0

A file is opened as one that is there, and made only where there is none: by a call that takes no other for it. It gets the
mode 0666 less the mask of the run. So its folder, and no other, is opened by the name that the path has for it.

  $ strace --quiet=all -o ../calls -P made.img -P . -e trace=openat,readlink tape made.img new 3
  blank 3
  $ sed -n 's/AT_FDCWD, //; s/, 0x[0-9a-f]*, [0-9]*)/)/; s/ *= .*//p' ../calls
  openat("made.img", O_RDWR|O_NOCTTY|O_CLOEXEC)
  readlink("made.img")
  openat("made.img", O_RDWR|O_CREAT|O_EXCL|O_NOCTTY|O_CLOEXEC, 0666)
  readlink("made.img")
  openat(".", O_RDONLY|O_NOCTTY|O_CLOEXEC)
  $ rm made.img

The entry of a file is in the folder of what a link to it names.

  $ mkdir away
  $ ln -s away/later.img later.link
  $ syncs later.link new 3
  blank 3
  fsync away 0
  fsync later.img 0
  fsync later.img 0
  fsync later.img 0
  fdatasync later.img 0
  fdatasync later.img 0
  $ syncs ./away/../cart.img protect off
  protected off
  fsync cart.img 0
  fdatasync cart.img 0

A run that is killed
--------------------

Amid its write and its sync: the byte stands, and may not be on the disk. The next run has nothing to write, but syncs it
before it says so.

  $ cp cart.img before.img
  $ killed fdatasync cart.img protect on
  [137]
  $ cmp -l before.img cart.img | tr -s ' '
   13 0 132
  $ strace --quiet=all -o ../calls -e trace=fsync,fdatasync,write tape cart.img protect on
  protected on
  $ sed 's/(.*//' ../calls
  fsync
  write

Before the folder of a new image is synced: the next run finds it empty, and syncs the folder.

  $ rm cart.img
  $ killed fsync:when=1 cart.img new 3
  [137]
  $ wc -c < cart.img
  0
  $ syncs cart.img list
  tape: no cartridge
  tape: cart.img: it holds no cartridge, or a 'new' or an import was interrupted; check the path
  fsync tapes 0
  fsync cart.img 0
  [4]
  $ tape cart.img new 3
  blank 3
  $ cmp cart.img before.img

Calls that fail
---------------

An image whose sync fails is not opened, and nothing of it is written.

  $ faulty fsync:error=EIO cart.img protect on
  tape: cannot open the image
  tape: cart.img or its directory can't be synced: Input/output error
  [20]
  $ faulty fsync:error=ENOSPC cart.img list
  tape: cannot open the image
  tape: cart.img or its directory can't be synced: No space left on device
  [20]
  $ faulty fsync:error=EINVAL cart.img list
  tape: cannot open the image
  tape: cart.img or its directory can't be synced: Invalid argument
  [20]
  $ cmp cart.img before.img

Nor is an empty one whose folder can't be synced, or can't be opened for that.

  $ rm cart.img
  $ : > cart.img
  $ for fault in fsync:error=EIO:when=1 fsync:error=EINVAL:when=1 openat:error=EACCES:when=2 readlink:error=EIO; do
  >     faulty $fault cart.img new 3
  >     wc -c < cart.img
  > done 2>&1 | sort | uniq -c | sed 's/^ *//'
  4 0
  4 tape: cannot open the image
  1 tape: cart.img can't be opened: Input/output error
  1 tape: cart.img or its directory can't be synced: Input/output error
  1 tape: cart.img or its directory can't be synced: Invalid argument
  1 tape: cart.img or its directory can't be synced: Permission denied
  $ faulty readlink:error=ENOMEM cart.img new 3
  tape: no memory
  [19]
  $ wc -c < cart.img
  0
  $ syncs cart.img new 3 | tail -n 6
  fsync tapes 0
  fsync cart.img 0
  fsync cart.img 0
  fsync cart.img 0
  fdatasync cart.img 0
  fdatasync cart.img 0
  $ cmp cart.img before.img

A sync behind that is a call of the tape. What was written can still be read; that it is on the disk nobody knows.

  $ faulty fdatasync:error=EIO cart.img protect on
  tape: the tape failed
  tape: cart.img: Input/output error
  [18]
  $ faulty fsync:error=EIO:when=2 cart.img new 3
  tape: the tape failed
  tape: cart.img: Input/output error
  [18]
  $ tape cart.img new 3
  blank 3
  $ cmp cart.img before.img

An image that can't be locked is not opened, whatever the cause. So it is where the system knows no locks for it, as on some
shares over the network: without one two runs would write over one another.

  $ for error in EIO EBADF EINVAL ENOMEM EAGAIN EOPNOTSUPP ENOSYS ENOLCK; do
  >     faulty flock:error=$error cart.img protect on
  > done 2>&1 | sort | uniq -c | sed 's/^ *//'
  8 tape: cannot open the image
  1 tape: cart.img can't be locked: Bad file descriptor
  1 tape: cart.img can't be locked: Cannot allocate memory
  1 tape: cart.img can't be locked: Function not implemented
  1 tape: cart.img can't be locked: Input/output error
  1 tape: cart.img can't be locked: Invalid argument
  1 tape: cart.img can't be locked: No locks available
  1 tape: cart.img can't be locked: Operation not supported
  1 tape: cart.img is in use by another process, or named twice in this command
  $ cmp cart.img before.img

So do the other programs that write or read a file.

  $ refused() { strace --quiet=all -o ../calls -e inject=flock:error=ENOLCK "$@" 2>&1 | sed -n '$s/.*: //p'; }
  $ refused tape_dup cart.img copy.img
  No locks available
  $ refused tape_import import.img < /dev/null
  No locks available
  $ refused tape_export cart.img
  No locks available
  $ refused tape_salvage before.img info
  No locks available
  $ cmp cart.img before.img
  $ rm -f copy.img import.img

A letter is no image, and stays as it was whichever look at it fails: at its kind, its length, its name or its bytes. What
can't be looked at may be anything.

  $ echo 'Dear Sir, the cartridges that you sent ..' > letter
  $ cp letter letter.before
  $ for look in pread64 fstat statx newfstatat; do
  >     for when in 1 2 3 4 5 6; do
  >         strace --quiet=all -o ../calls -P letter -P "$PWD/letter" -e inject=$look:error=EIO:when=$when tape letter new 3
  >         [ $? = 20 ] || echo "$look $when: $?"
  >         cmp letter letter.before
  >     done
  > done > ../said 2>&1
  $ grep -v '^tape: ' ../said
  [1]
  $ sort -u ../said
  tape: cannot open the image
  tape: letter can't be looked at: Input/output error
  tape: letter can't be opened: Input/output error
  tape: letter is not a tape image; for a dump use tape_import or tape_salvage
  tape: letter was replaced or removed while it was opened; try again

The target of a copy is looked at in the same way.

  $ strace --quiet=all -o ../calls -P letter -P "$PWD/letter" -e inject=pread64:error=EIO tape_dup cart.img letter 2>&1 |
  >     sed -n '$s/.*: //p'
  Input/output error
  $ cmp letter letter.before

A file may be a standard stream of the run, so none is opened where a stream can't be looked at, as in a system whose `/proc`
is not there. None is made then, either.

  $ unseen() { strace --quiet=all -o ../calls -P /proc/self/fd/$1 -e inject=statx,newfstatat:error=EACCES "${@:2}"; }
  $ for stream in 0 1 2; do
  >     unseen $stream tape cart.img list
  >     unseen $stream tape fresh.img new 3
  >     unseen $stream tape_export cart.img
  >     unseen $stream tape_import fresh.img < /dev/null
  > done 2>&1 | sed 's/.*\(the standard streams\)/\1/' | sort | uniq -c | sed 's/^ *//'
  6 tape: cannot open the image
  3 tape_export: cannot open the image
  3 tape_import: cannot open the image
  12 the standard streams can't be looked at: Permission denied
  $ cmp cart.img before.img
  $ test -e fresh.img
  [1]

One of which the system tells neither kind nor length is none.

  $ faulty statx:error=EIO:when=2 cart.img info
  tape: cannot open the image
  tape: cart.img can't be opened: Input/output error
  [20]

Nor is one whose name tells nothing, or another file, once it is locked; and a file that is there by the time that a new one
is made is not taken for that.

  $ faulty statx:error=EIO:when=3 cart.img info
  tape: cannot open the image
  tape: cart.img was replaced or removed while it was opened; try again
  [20]
  $ faulty statx:error=ENOENT:when=3 cart.img info
  tape: cannot open the image
  tape: cart.img was replaced or removed while it was opened; try again
  [20]
  $ faulty openat:error=ENOENT:when=1 cart.img new 3
  tape: cannot open the image
  tape: cart.img can't be made: File exists
  [20]
  $ cmp cart.img before.img

A pipe is not opened, since its name tells its kind; and where the name told nothing, not locked, since the open pipe does.

  $ rm cart.img
  $ mkfifo cart.img
  $ faulty statx:error=EIO:when=9 cart.img list
  tape: cannot open the image
  tape: cart.img is not a regular file
  [20]
  $ sed 's/(.*//' ../calls
  statx
  $ faulty statx:error=EIO:when=1 cart.img list
  tape: cannot open the image
  tape: cart.img is not a regular file
  [20]
  $ sed 's/(.*//' ../calls
  statx
  openat
  statx
  close
  $ rm cart.img
  $ cp before.img cart.img

A call that a signal interrupts is made again.

  $ faulty fsync:error=EINTR:when=1 cart.img info
  tape: the cartridge is not formatted
  tape: cart.img: no header can be read: if this cartridge was ever in use, do not format it; run check
  [6]
  $ faulty flock:error=EINTR:when=1 cart.img info
  tape: the cartridge is not formatted
  tape: cart.img: no header can be read: if this cartridge was ever in use, do not format it; run check
  [6]

A read-only file system
-----------------------

An image that can't be opened for writing is opened for reading alone. Such a file system may know no sync (`EINVAL`), and has
nothing to put on the disk then; another failure is one here, too.

  $ read_only() { faulty openat:error=EROFS:when=1 "$@"; }
  $ read_only cart.img info
  tape: the cartridge is not formatted
  tape: cart.img: no header can be read: if this cartridge was ever in use, do not format it; run check
  [6]
  $ read_only cart.img protect on
  tape: the tape failed
  tape: cart.img: the file is read-only
  [18]
  $ read_only cart.img new 3
  tape: the tape failed
  tape: cart.img: the file is read-only
  [18]
  $ cmp cart.img before.img

A read that fails there is told as one; an error that has no name here by its number.

  $ faulty 'openat:error=EROFS:when=1 pread64:error=EIO:when=3' cart.img info
  tape: the tape failed
  tape: cart.img: Input/output error
  [18]
  $ faulty 'openat:error=EROFS:when=1 pread64:error=EPROTO:when=3' cart.img info
  tape: the tape failed
  tape: cart.img: system error 71
  [18]
  $ faulty 'openat:error=EROFS:when=1 fsync:error=EINVAL' cart.img info
  tape: the cartridge is not formatted
  tape: cart.img: no header can be read: if this cartridge was ever in use, do not format it; run check
  [6]
  $ faulty 'openat:error=EROFS:when=1 fsync:error=EIO' cart.img info
  tape: cannot open the image
  tape: cart.img or its directory can't be synced: Input/output error
  [20]
  $ faulty openat:error=EROFS cart.img info
  tape: cannot open the image
  tape: cart.img can't be opened: Read-only file system
  [20]
  $ rm cart.img
  $ faulty openat:error=EROFS:when=1 cart.img new 3
  tape: cannot open the image
  tape: cart.img can't be opened: No such file or directory
  [20]
  $ : > cart.img
  $ faulty 'openat:error=EROFS:when=1 fsync:error=EINVAL' cart.img new 3
  tape: the tape failed
  tape: cart.img: the file is read-only
  [18]

An upgrade
----------

An image of version 1 is copied within its file. Whichever call a run is killed at, the image is then of one of the two
versions, with the same cartridge; the next `upgrade` begins again, or finds it done.

  $ . "$TESTDIR/image.sh"
  $ old_image
  $ tape cart.img format L
  formatted 84 0
  $ printf 'ten bytes.' | tape cart.img append a
  appended 1 10 3 3
  $ cp cart.img old.img
  $ tape cart.img upgrade
  upgraded from 1
  $ cp cart.img new.img
  $ for call in ftruncate fsync:when=2 pwrite64 pwrite64:when=2 pwrite64:when=2000 fdatasync fdatasync:when=2 \
  >     fdatasync:when=3; do
  >     cp old.img cart.img
  >     killed $call cart.img upgrade > ../said
  >     tape cart.img list
  >     tape cart.img upgrade > ../said
  >     tape cart.img list
  >     cmp cart.img new.img
  > done | sort | uniq -c | sed 's/^ *//'
  16 1 3 3 10 1970-01-01T00:00:00 a
  16 volumes 1

So it is where a call fails.

  $ for fault in ftruncate:error=ENOSPC fsync:error=EIO:when=2 pwrite64:error=EIO pwrite64:error=ENOSPC:when=2 \
  >     fdatasync:error=EIO fdatasync:error=EIO:when=2; do
  >     cp old.img cart.img
  >     faulty $fault cart.img upgrade
  >     tape cart.img list
  >     tape cart.img upgrade > ../said
  >     tape cart.img list
  >     cmp cart.img new.img
  > done 2>&1 | sort | uniq -c | sed 's/^ *//'
  12 1 3 3 10 1970-01-01T00:00:00 a
  4 tape: cart.img: Input/output error
  2 tape: cart.img: No space left on device
  6 tape: the tape failed
  12 volumes 1

The map of a dump
-----------------

The file of a map is put on the disk as it is opened, and once it is written.

  $ strace --quiet=all -y -o ../calls -e trace=fsync,fdatasync tape_export --map cart.map cart.img > dump
  $ show_syncs
  fsync cart.img 0
  fsync tapes 0
  fsync cart.map 0
  fsync cart.map 0
  $ rm cart.map
  $ strace --quiet=all -o ../calls -P cart.map -P "$PWD/cart.map" -e inject=fsync:error=EIO:when=2 \
  >     tape_export --map cart.map cart.img > dump
  tape_export: output failed
  [17]
