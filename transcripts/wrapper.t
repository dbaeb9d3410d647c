The build
=========

`make`, and the script `./tape`, which calls it: what is proved, and when, what is told of it, and what is installed. `TOP` is the
checkout. The page tries them in a small one of its own, whose path has a space, over a kit that is a script, so nothing is proved here.
`check` is a library of the kit there, as it is one.

  $ export XDG_CACHE_HOME=$PWD/cache
  $ mkdir -p 'small one'/{docs,man} 'small one'/crates/{first,second,kept,tape,spare,rows}/src tools kit/bin
  $ cp "$TOP"/{tape,Makefile,prove} 'small one/'
  $ cp "$TOP/docs/COMMANDS.md" 'small one/docs/'
  $ cp "$TOP/man/tape.1" 'small one/man/'
  $ cd 'small one'
  $ printf '%s\n' first: 'second: first check' 'kept: first' 'tape: first second kept check' 'spare: first' 'rows: tape' > crates.txt
  $ seq 300 > crates/first/src/lib.rt
  $ seq 50 > crates/second/src/lib.rt
  $ seq 20000 > crates/kept/src/lib.rt
  $ seq 80 | tee crates/tape/src/main.rt > crates/spare/src/main.rt
  $ seq 9000 > crates/rows/src/lib.rt

`tools` has what is called if no program is built, and neither `make` nor `rt`.

  $ for tool in bash cat cksum dirname sed tr; do ln -s "$(command -v $tool)" ../tools/; done

Help
----

Before the program is built, each of three words prints where help is. Once it is built, the program prints its own.

  $ PATH=$PWD/../tools ./tape --help > ../help
  $ PATH=$PWD/../tools ./tape -h | cmp - ../help
  $ PATH=$PWD/../tools ./tape help | cmp - ../help
  $ sed "s|$PWD|WHERE|" ../help
  usage: tape IMAGE COMMAND
  The commands: man WHERE/man/tape.1
  Any command builds the program first.

Nothing was built or kept.

  $ ls
  Makefile
  crates
  crates.txt
  docs
  man
  prove
  tape
  $ ls crates/tape
  src

Without make, and without rt
----------------------------

The first line tells what is wanting.

  $ PATH=$PWD/../tools ./tape cart.img new 3 2>&1 | sed "s|$PWD|WHERE|"
  tape: there is no make on the path: WHERE/README.md names what it takes
  $ ln -s "$(command -v make)" ../tools/
  $ PATH=$PWD/../tools ./tape cart.img new 3
  tape: make builds the program first, which takes long; it may be broken off and started again
  Makefile:[0-9]+: [*]{3} there is no rt on the path: the Rattle kit that README.md names has it in its folder bin.  Stop. (re)
  tape: the program could not be built
  [1]
  $ ls out cart.img
  ls: cannot access 'out': No such file or directory
  ls: cannot access 'cart.img': No such file or directory
  [2]

A build
-------

The stubs say what the kit does. `rt` tells where it is, and its version. The prover puts down each crate with the libraries that
it is given, and makes its code of it; what `does` has for the crate is done first. What is linked prints its words.

  $ cat > ../kit/bin/rt << 'END'
  > #!/usr/bin/env bash
  > case $1 in
  > doc) echo "$KITS/START-HERE.md" ;;
  > version) cat "$KITS/KIT-ID" ;;
  > esac
  > END
  $ cat > ../kit/bin/rattle << 'END'
  > #!/usr/bin/env bash
  > crate=$(basename "$PWD") libraries=$(printf '%s\n' "$@" | sed -n 's/^\([a-z]*\)=.*rlib$/\1/p' | xargs)
  > [ ! -e "$KITS/does/$crate" ] || . "$KITS/does/$crate"
  > echo "$crate over $libraries" | tee -a "$KITS/calls"
  > while [ "$1" != -o ]; do shift; done
  > case $2 in
  > *.rlib) rm -rf "$2"; mkdir "$2"; cp src/* "$2" ;;
  > *) cat src/* > "$2" ;;
  > esac
  > END
  $ cat > ../kit/bin/rattle-link << 'END'
  > #!/usr/bin/env bash
  > while [ "$1" != -o ]; do shift; done
  > printf '%s\n' '#!/usr/bin/env bash' 'echo "words: $*"' > "$2"
  > chmod +x "$2"
  > END
  $ chmod +x ../kit/bin/*
  $ mkdir ../kit/does
  $ echo 'a kit' > ../kit/KIT-ID
  $ export KITS=$(dirname "$PWD")/kit PATH=$(dirname "$PWD")/kit/bin:$PATH

What was proved since this was asked last:

  $ calls() { sort "$KITS/calls" 2> /dev/null; rm -f "$KITS/calls"; }

A line a crate tells how many of how many are done, and how long it takes still, once a tenth of the costs is behind it: these
are lines of code, and 300 for each crate. So `first` is too little, of 600 in 21,630. A crate that nothing asked for is left alone.
Where a proof fails no program is made, and a file tells why.

  $ echo 'echo logic=not-proved; exit 1' > ../kit/does/second
  $ make -j 1 tape
  1 of 4: first, [0-9]+ s (re)
  2 of 4: kept, [0-9]+ s, about 1 min to go (re)
  second is not proved: out/build/second.log tells why
  make: *** [Makefile:*: tape] Error 1 (glob)
  [2]
  $ cat out/build/second.log
  logic=not-proved
  $ calls
  first over std
  kept over first std
  $ ls out/bin

The next build goes on from what was proved. It breaks off here: the prover ends all processes of the build, its own too.

  $ echo 'kill -TERM 0; sleep 60' > ../kit/does/tape
  $ rm ../kit/does/second
  $ (timeout 60 ./tape cart.img new 3; true) > ../said 2>&1
  $ grep -v '^make\|Terminated' ../said
  tape: make builds the program first, which takes long; it may be broken off and started again
  3 of 4: second, [0-9]+ s, about 1 min to go (re)
  $ calls
  second over first std check

And the one behind it goes on where that was.

  $ rm ../kit/does/tape
  $ ./tape cart.img new 3
  tape: make builds the program first, which takes long; it may be broken off and started again
  4 of 4: tape, [0-9]+ s (re)
  words: cart.img new 3
  $ calls
  tape over first second kept std check

Built, it is just called, also without `make` and `rt`. The word `help` with others behind it is an image's path.

  $ rm ../tools/make
  $ PATH=$PWD/../tools ./tape help info
  words: help info
  $ PATH=$PWD/../tools ./tape
  words: 
  $ calls

What has changed
----------------

Where something changed just what stands on it is proved again, and a file that is only younger is no change.

  $ touch crates/first/src/lib.rt
  $ make tape
  $ calls

A file of proofs, of which nothing is in what other crates read: its own crate.

  $ mkdir crates/first/proofs
  $ echo '-- a proof' > crates/first/proofs/One.antt
  $ make tape > ../said 2>&1
  $ calls
  first over std

The file is gone: its own crate, too.

  $ rm crates/first/proofs/One.antt
  $ make tape > ../said 2>&1
  $ calls
  first over std

A line of code, and a file of code that is gone.

  $ seq 51 | tee crates/second/src/more.rt > crates/second/src/lib.rt
  $ make tape > ../said 2>&1
  $ calls
  second over first std check
  tape over first second kept std check
  $ rm crates/second/src/more.rt
  $ make tape > ../said 2>&1
  $ calls
  second over first std check
  tape over first second kept std check

A line of `crates.txt`.

  $ sed -i 's/^kept: first/kept: first check/' crates.txt
  $ make tape > ../said 2>&1
  $ calls
  kept over first std check

The kit.

  $ echo 'another kit' > ../kit/KIT-ID
  $ make tape
  1 of 4: first, * (glob)
  2 of 4: * (glob)
  3 of 4: * (glob)
  4 of 4: tape, * (glob)
  $ calls
  first over std
  kept over first std check
  second over first std check
  tape over first second kept std check

The program itself is gone, which is kept, too; or it is wanted for another processor.

  $ rm out/bin/tape
  $ ./tape 2> ../said
  words: 
  $ calls
  $ make PROCESSOR=another tape
  4 of 4: tape, [0-9]+ s (re)
  $ calls
  tape over first second kept std check

`./tape` asks make again once the checkout has moved to another commit. It runs nothing if a proof fails then, though a program was built
before.

  $ mkdir -p .git/refs/heads
  $ echo 'ref: refs/heads/main' > .git/HEAD
  $ echo 1234 > .git/refs/heads/main
  $ ./tape cart.img new 3
  4 of 4: tape, [0-9]+ s (re)
  words: cart.img new 3
  $ ./tape cart.img new 3
  words: cart.img new 3
  $ calls
  tape over first second kept std check
  $ echo 5678 > .git/refs/heads/main
  $ echo 'exit 1' > ../kit/does/tape
  $ seq 52 > crates/second/src/lib.rt
  $ ./tape cart.img new 3
  3 of 4: second, * (glob)
  tape is not proved: out/build/tape.log tells why
  make: *** [Makefile:*: tape] Error 1 (glob)
  tape: the program could not be built
  [1]
  $ rm ../kit/does/tape
  $ calls
  second over first std check

Nor if `crates.txt` is empty.

  $ mv crates.txt ../
  $ touch crates.txt
  $ ./tape
  crates.txt has no crate for: tape
  make: *** [Makefile:*: tape] Error 1 (glob)
  tape: the program could not be built
  [1]
  $ make
  Makefile:*: *** crates.txt has no program.  Stop. (glob)
  [2]
  $ mv ../crates.txt .

Side by side
------------

Of two builds at once the one that comes second waits, and finds what the first made. Here the prover is at `tape` until the second
one waits.

  $ cat > ../kit/does/tape << 'END'
  > touch "$KITS/begun"
  > while [ ! -s "$KITS/../said" ]; do sleep 0.1; done
  > END
  $ rm ../said
  $ make tape > ../one 2>&1 & while [ ! -e ../kit/begun ]; do sleep 0.1; done
  $ ./tape cart.img list 2> ../said
  words: cart.img list
  $ cat ../said
  another build is under way here, and this one waits for it
  $ wait
  $ cat ../one
  4 of 4: tape, [0-9]+ s (re)
  $ calls
  tape over first second kept std check
  $ rm ../kit/does/*

Crates that don't stand on each other are proved side by side, also where both are asked for: each of two waits for the other one
here.

  $ for crate in kept second; do seq 60 > crates/$crate/src/lib.rt; done
  $ echo 'touch "$KITS/kept"; while [ ! -e "$KITS/second" ]; do sleep 0.1; done' > ../kit/does/kept
  $ echo 'touch "$KITS/second"; while [ ! -e "$KITS/kept" ]; do sleep 0.1; done' > ../kit/does/second
  $ timeout 60 make -j 2 kept second > ../said
  $ calls
  kept over first std check
  second over first std check
  $ make tape > ../said
  $ calls
  tape over first second kept std check
  $ rm ../kit/does/*

All programs, and what else
---------------------------

`make` builds each crate of `crates.txt` that has a program. What each proof took is logged: when it began, the crate, its seconds on
the wall, those of a processor in the prover and in the system, and how many processors it could have.

  $ make
  * of 5: spare, * (glob)
  $ make programs
  tape spare
  $ ls out/bin
  spare
  tape
  $ tail -n 1 out/build/times
  20[-0-9]+ [0-9:]+ spare [0-9.]+ [0-9.]+ [0-9.]+ 1 (re)
  $ make
  $ rm ../kit/calls

They are installed with their manual pages, and removed again. Without `rt` what was built is installed.

  $ umask 077
  $ make -s install DESTDIR=../'a root' PREFIX=/usr
  $ cd '../a root'
  $ find . -type f -printf '%m %p\n' | sort
  644 ./usr/share/man/man1/tape.1
  755 ./usr/bin/spare
  755 ./usr/bin/tape
  $ touch usr/bin/other
  $ usr/bin/tape info
  words: info
  $ cd - > ../said
  $ make -s uninstall DESTDIR=../'a root' PREFIX=/usr
  $ find ../'a root' -type f
  ../a root/usr/bin/other
  $ for tool in install make; do ln -s "$(command -v $tool)" ../tools/; done
  $ PATH=$PWD/../tools make -s install DESTDIR=../'a root'
  $ ls ../'a root'/usr/local/bin
  spare
  tape
  $ ls ../cache/tape/*
  first.made
  first.rlib
  first.sum
  kept.made
  kept.rlib
  kept.sum
  second.made
  second.rlib
  second.sum
  spare
  spare.o
  spare.sum
  tape
  tape.o
  tape.sum
  $ make -s clean
  $ ls ../cache/tape
  $ ls
  Makefile
  crates
  crates.txt
  docs
  man
  prove
  tape
