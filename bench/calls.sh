#!/bin/sh
# The time of every call at full size, with 0, 512 and 1,024 operations waiting: of the library, of the second program, and of the floor, a
# plain | over the lent bytes once (calls.c). By turns in one run: the best of 40 turns, or of as many as are given.
#   bench/calls.sh [TURNS]
# Before a call is timed, its answer and every byte that it leaves are compared with the second program's. The last column says whether the
# goals hold; a missed one is no failure. Then the size of the archive. Needs the Rattle kit, gcc and rustc.
. "$(dirname "$0")/../host/build.sh"
second
compile ../bench/calls '-std=gnu99 -O3'
run calls "$@"
echo
size -t "$archive" | awk 'END { print "the archive: " $1 " bytes of code and constants, " $2 + $3 " of variables" }'
