Folders, links and other users
==============================

Where an image is made, whose it is, and by which name it is found. A run of the superuser gives up its right to open any file
first; where that can't be done this page is skipped.

  $ member() { tape "$@"; }
  $ if [ "$(id -u)" = 0 ]; then
  >     member() { setpriv --bounding-set -dac_override,-dac_read_search tape "$@"; }
  >     setpriv --bounding-set -dac_override,-dac_read_search true 2> probe || exit 80
  > fi

A new image may be read and written by all whom the mask of the run lets.

  $ (umask 000; tape open.img new 3)
  blank 3
  $ (umask 027; tape own.img new 3)
  blank 3
  $ stat -c %a open.img own.img
  666
  640

A folder whose name is no UTF-8 text, and one below a folder that may not be searched: a path within it is enough.

  $ mkdir $'\xFF'
  $ cd $'\xFF'
  $ tape cart.img new 3
  blank 3
  $ mkdir within
  $ tape within/cart.img new 3
  blank 3
  $ cmp cart.img within/cart.img
  $ mkdir -p closed/here
  $ cd closed/here
  $ chmod 0 ..
  $ member cart.img new 3
  blank 3
  $ member cart.img list
  tape: the cartridge is not formatted
  tape: cart.img: no header can be read: if this cartridge was ever in use, do not format it; run check
  [6]
  $ chmod u+rwx ..
  $ cmp cart.img ../../cart.img
  $ cd ../../..

A link is followed to what it names, from its own folder on, and so is one that it names; what is not there yet is made.

  $ mkdir there
  $ ln -s there/made.img near.link
  $ ln -s ../near.link there/far.link
  $ ln -s "$PWD/there/whole.img" whole.link
  $ tape there/far.link new 3
  blank 3
  $ tape whole.link new 3
  blank 3
  $ ls -F there
  far.link@
  made.img
  whole.img
  $ cmp there/made.img there/whole.img
  $ ln -s nowhere/cart.img broken.link
  $ tape broken.link new 3
  tape: cannot open the image
  tape: broken.link can't be made: No such file or directory
  [20]

An image of another user, in a folder where all may make files and each may take away only its own: who may write it does so.

  $ mkdir -m 1777 shared
  $ tape shared/cart.img new 3
  blank 3
  $ chmod 666 shared/cart.img
  $ [ "$(id -u)" != 0 ] || chown 65534 shared/cart.img
  $ member shared/cart.img protect on
  protected on
  $ member shared/cart.img format L
  tape: the cartridge is protected
  tape: shared/cart.img: write-protected; 'protect off' clears the mark
  [5]
