Talking with a run
==================

A run beside the shell, which writes a line and waits for the reply before it writes the next. So a program that read a line
more before it replied would wait for ever; here it would be met by a reply that does not come within a minute.

  $ tape cart.img new 3
  blank 3
  $ tape cart.img format L
  formatted 84 0
  $ say() { printf "$@" >&4; }
  $ hear() { local line; for _ in $(seq $1); do read -r -t 60 -u 3 line || return; echo "$line"; done; }

Each train is answered before the next one is sent.

  $ coproc RUN { tape cart.img pulses; }
  $ pid=$RUN_PID; exec 3<&${RUN[0]} 4>&${RUN[1]}
  $ for train in 6 2 2; do say "$train\n"; hear 1; done
  1
  1
  0
  $ say 'end\n'
  $ wait $pid

Each line of a script is replied to before the next one is sent, an append once its last byte was.

  $ coproc RUN { tape cart.img script; }
  $ pid=$RUN_PID; exec 3<&${RUN[0]} 4>&${RUN[1]}
  $ say 'list\n'; hear 1
  volumes 0
  $ say 'append a 3\nab'; say 'c'; hear 1
  appended 1 3 3 3
  $ say 'list\n'; hear 2
  1 3 3 3 1970-01-01T00:00:00 a
  volumes 1
  $ say 'lose 3 0\n'; hear 1
  lost 3 0
  $ say 'scrub\n'; hear 1
  scrub 4 1 0
  $ say 'append b 0\n'; hear 1
  appended 2 0 4 4
  $ say 'restore 2\n'; hear 1
  restored 2 0
  $ say 'restore 3\n'; hear 1
  refused no volume 3 of 2
  $ say 'end\n'; hear 1
  end
  $ wait $pid
