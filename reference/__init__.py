"""What a recording of an MPI run means, in plain Python: the reference for mpiwait.

It is written to be read, follows the definitions rule by rule, and keeps everything in memory. It is not verified, and
it is slow: 100,000 calls take some seconds. The proved program answers the same words by the same bytes; where the two
differ, one of them has a bug. It shows no progress (`--progress` is taken, and changes nothing), and has its own words
for what is wrong with a command line.

Where to begin: `heads` and `traces` read a recording, `ranks` says which call a rank can make, `matches` which calls
meet, `positions` where every run ends, `waits` who waits for whom and who is blocked forever, `findings` what else is
wrong. `journals` reads what a recorder wrote, `communicators` and `lists` make the recording of it, `cuts` looks at the
end of a window. `command_line` is the whole program.
"""
