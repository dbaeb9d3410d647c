The dialogue of a recorded cable
================================

`pulse_trace` reads a recording of the cable between host and drive, and prints what was said. A line of the recording is
the time of a step pulse in microseconds, or the time of a sample of the track-0 line with its level. Pulses that come at
most 1,000 microseconds after the one before are a train:

  $ printf '%s\n' 0 100 200 5000 5100 | pulse_trace
  0 3 Pause
  5000 2 ReportNextBit

A command with a parameter awaits a further train, whose value is two less than its pulses: here a seek to track 3.

  $ (seq 0 100 1200; seq 5000 100 5400) | pulse_trace
  0 13 SeekTrack
  5000 5 value 3

Another gap tells trains apart that were one before.

  $ printf '%s\n' 0 100 | pulse_trace --gap 50
  0 1 Reset
  100 1 Reset
  $ printf '%s\n' 0 100 | pulse_trace --gap=50
  0 1 Reset
  100 1 Reset
  $ printf '%s\n' 0 100 | pulse_trace --
  0 2 ReportNextBit
  $ { seq 0 12; seq 5000 5004; seq 9000 9005; echo '9100 0'; } | pulse_trace --gap 100
  0 13 SeekTrack
  5000 5 value 3
  9000 6 ReportStatus
  9100 not acknowledged

A report
--------

Six pulses ask for the status. The drive acknowledges, and shows a bit of the word for each train of two pulses, the least
first, and a final 1 behind them. The word 0x75 is that of a cartridge that was just put in, at rest and at the beginning of
the tape, with its reference bursts.

  $ (seq 0 100 500; echo 600 1
  >  n=1; for level in 1 0 1 0 1 1 1 0 1; do
  >    echo $((2000 * n)); echo $((2000 * n + 100)); echo "$((2000 * n + 200)) $level"; n=$((n + 1)); done) | pulse_trace
  0 6 ReportStatus
  2000 2 next bit
  4000 2 next bit
  6000 2 next bit
  8000 2 next bit
  10000 2 next bit
  12000 2 next bit
  14000 2 next bit
  16000 2 next bit
  18000 2 next bit
  18200 word 0x0075

The start of a host is three reports: the status, the error word, and how many segments a track has. (`cable.sh` writes the
recording: trains with 100 microseconds between two pulses, and 5,000 behind each.)

  $ . "$TESTDIR/cable.sh"
  $ (report 6 8 0x75; report 7 16 0; report 37 16 3) | pulse_trace | grep -v 'next bit'
  0 6 ReportStatus
  61400 word 0x0075
  62400 7 ReportError
  173500 word 0x0000
  174500 37 ReportFormatSegments
  288600 word 0x0003

A drive that does not answer, a train that is no next bit, a final bit that is missing, and a number that is no command:

  $ (train 6; level 0; train 6; level 1; train 18; train 33; level 1
  >  for n in 1 2 3 4 5 6 7 8 9; do train 2; level 0; done; train 40) | pulse_trace | grep -v 'next bit'
  0 6 ReportStatus
  5600 not acknowledged
  6600 6 ReportStatus
  13200 18 refused in report
  20000 33 ReportTapeStatus
  84100 no final bit
  85100 40 undefined

A skip has two parameters, the setting of the format segments three, and a reset gives all of them up.

  $ (train 25; train 4; train 2; train 38; train 5; train 1; train 5) | pulse_trace
  0 25 SkipReverse
  7500 4 value 2
  12900 2 value 0
  18100 38 SetFormatSegments
  26900 5 value 3
  32400 1 Reset
  37500 5 AlternateTimeout

What is refused
---------------

A line that is no line of a recording ends the run; the dialogue of the lines before it was printed, without a train that
was still open.

  $ printf '0\nx\n' | pulse_trace
  pulse_trace: line 2 is not valid
  [3]
  $ printf '0\n9000\nx\n' | pulse_trace
  0 1 Reset
  pulse_trace: line 3 is not valid
  [3]

So does a time that falls, a level that is neither 0 nor 1, and a last line without its newline.

  $ printf '100\n99\n' | pulse_trace
  pulse_trace: line 2 is not valid
  [3]
  $ printf '0 2\n' | pulse_trace
  pulse_trace: line 1 is not valid
  [3]
  $ printf '0' | pulse_trace
  pulse_trace: line 1 is not valid
  [3]

An empty recording has an empty dialogue.

  $ pulse_trace < /dev/null

Words that the program does not take end it before anything is read.

  $ pulse_trace --gap 0 < /dev/null
  usage: pulse_trace [--gap MICROSECONDS] (1 to 1000000)
  [2]
  $ pulse_trace --gap 1000001 < /dev/null
  usage: pulse_trace [--gap MICROSECONDS] (1 to 1000000)
  [2]
  $ pulse_trace --gap x < /dev/null
  usage: pulse_trace [--gap MICROSECONDS] (1 to 1000000)
  [2]
  $ pulse_trace more < /dev/null
  usage: pulse_trace [--gap MICROSECONDS] (1 to 1000000)
  [2]
  $ pulse_trace --help < /dev/null
  usage: pulse_trace [--gap MICROSECONDS]
  
  Reads a recording of a drive cable from standard input, and writes the dialogue
  in it to standard output. A pulse that comes later than the gap, 1000 unless one
  from 1 to 1000000 is given, begins the next train. Exit status 0: done; 2:
  usage; 3: a line is not valid; the others in 'man pulse_trace'.
  $ pulse_trace --gap= < /dev/null
  usage: pulse_trace [--gap MICROSECONDS] (1 to 1000000)
  [2]

Nor is a word that is no UTF-8 text one of them.

  $ echo 0 | pulse_trace $'\xFF'
  usage: pulse_trace [--gap MICROSECONDS] (1 to 1000000)
  [2]
  $ echo 0 | pulse_trace --gap $'5\xFF'
  usage: pulse_trace [--gap MICROSECONDS] (1 to 1000000)
  [2]

Closed streams and broken ones
------------------------------

A closed input is empty, a closed output fails, and no text is printed for a status.

  $ pulse_trace <&-
  $ echo 0 | pulse_trace >&-
  pulse_trace: standard output can't be written
  [17]
  $ pulse_trace <&- >&-
  $ pulse_trace more <&- >&- 2>&-
  [2]
  $ echo 0 | pulse_trace > /dev/full
  pulse_trace: standard output can't be written
  [17]
  $ pulse_trace < .
  pulse_trace: standard input can't be read
  [16]
