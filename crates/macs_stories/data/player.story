# The player itself: answers that are not those that are wanted are noticed.

setup new
format 0200000000010001 4 4
open

story another answer is wrong
use new
not window = 1
not window = 00
not window = ok
not window
window = 0
not set-replay on 3 = Disk
not open
not settings = Strict on 3 Explicit
not settings = Strict on 3 Explicit none
not settings = Strict on 3 Explicit none 0 0
not settings = Strict on 4 *
not settings = strict on 3 Explicit none 0
settings = Strict on 3 Explicit none 0
settings = Strict on 3 *
settings = *

story an unknown act is told
fly = no such act
not fly
open now = no such act
format 0200000000010001 4 = no such act
format 0200000000010001 4 four = no such act
use nothing = no such act
use new
fly = no such act
window 3 = no such act
protect 9218 = no such act
protect = no such act
set-replay on = no such act
set-replay on 3 3 = no such act
tx-install 4 1 1 = no such act
rx-add 12153524c0895e810 = no such act
step 2 = no such act
submit = no such act
relay = no such act
push common = no such act
fail = no such act
fail 3 off = no such act

story names stand for the values of a row
with first=3 last=5 word=on list=on,4,Explicit
and number=2..4 other=7
use new
set-replay $word $first
window = 3
not window = $last
set-replay on $number
window = $number
not window = $number+1
set-replay on 2*$number+$other+1
window = 8+2*$number
set-replay on 4
settings = Strict $list none 0
not settings = Strict $list none
nothing $missing = no such act

# The turns of a line, within a setup and without.
setup a turn
set-replay on $; window = $
setup turns
each 8 9 use a turn
set-replay on $; window = $

story a line is done once for each number
use new
each 3 6 set-replay on $; window = $
not window = 5
window = 6
each 7 6 fly
each 2 2 use turns
window = 2
each 1 3 each 1 3 window = no such act

# Each story begins anew: the disk has no journal, no call fails, nothing waits on a wire.
story what a story leaves
use new
fail 0 on
set-replay on 3 = Disk
push common 60

story nothing is left of a story
open = NotFormatted
use new
set-replay on 3
take common = nothing
sent-frames common = 0
