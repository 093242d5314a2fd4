# Events that are served: how it ends, how often an event was asked for, and how many answers there
# are. A frame is longer by a SecTAG of 16 octets and an ICV of 16.

setup new
format 0200000000010001 4 4

# An install and its use, which are kept; a frame that goes out, one that comes and has no SecTAG,
# and work.
setup some events
events
| submit tx-install 0 1 1
| submit tx-use 0
| work
| work
| work
| work
| work
| work
| work
| work
| controlled 62
| common 62
| work

setup first seven
answered 1 = 1
answered 2 = 2
each 3 5 answered $ = worked
answered 6 = done 1 ok
answered 7 = worked

story a source ends
use new
open
use some events
serve 20 = Ended 14 13
use first seven
each 8 9 answered $ = worked
answered 10 = done 2 ok
answered 11 = 1 94
answered 12 = discarded NoTag 0
answered 13 = idle
answered 14 = none

story turns are spent
with turns=0..13
use new
open
use some events
serve $turns = TurnsSpent $turns $turns
serve 20 = Ended 14 13
use first seven
each 8 9 answered $ = worked
answered 10 = done 2 ok
answered 11 = 1 94
answered 12 = discarded NoTag 0
answered 13 = idle

# The second device call of the second command fails, on the last turn too.
story a device fault halts
with turns=8..10
use new
fail 260+5 on
open
use some events
serve $turns = Halted 8 8
use first seven
answered 8 = Disk
has-under-way tx-use 0 = yes

# What a stopped endpoint answers to one event of each kind, after each of which it halts.
story a stopped endpoint halts
use new
fail 260 on
open
set-replay on 3 = Disk
events
| submit set-replay on 3
| controlled 62
| common 62
| work
each 1 4 serve 9 = Halted $ $
answered 1 = Stopped
answered 2 = Stopped 0
answered 3 = Stopped 0
answered 4 = Stopped
