# A relay that rests, and one that a desk attends. After `relay-resting` stands how often it slept. A desk
# wants a line before each turn: `go`, `submit` and a command, `end`. After the last line it wants no
# more than that the relay goes on. `desk-counts` says how often it was asked, how often after a quiet turn,
# and how much it was told.

setup left
format 0200000000010001 65536 65536
open
tx-install 0 07070707070707070707070707070707 1
tx-use 0

# It sleeps after each turn in which there was nothing to do: six of ten where four frames came.
story it sleeps where nothing comes
with frames=0 turns=0 slept=0
with frames=0 turns=5 slept=5
with frames=4 turns=4 slept=0
with frames=4 turns=5 slept=1
with frames=4 turns=10 slept=6
use left
each 1 $frames push controlled 60 $
relay-resting $turns = sent $frames delivered 0 dropped 0 faults 0 slept $slept

# Frames that do not pass are no rest either, nor is a call of a wire that fails.
story what does not pass is no rest
use left
push controlled 13; push common 9217 5; push common 60 5
relay-resting 3 = sent 0 delivered 0 dropped 3 faults 0 slept 1
wire controlled 2 0
relay-resting 5 = sent 0 delivered 0 dropped 0 faults 1 slept 4
wire controlled
wire common 0 1
push controlled 60 5
relay-resting 5 = sent 0 delivered 0 dropped 0 faults 1 slept 4

# A command takes four device calls, one in each turn. The fifth turn is the first with nothing to do.
story work under way is no rest
with turns=4 slept=0
with turns=5 slept=1
with turns=9 slept=5
use left
submit tx-install 1 08080808080808080808080808080808 1 = 1
relay-resting $turns = sent 0 delivered 0 dropped 0 faults 0 slept $slept

# An endpoint that was opened again has no packet number until one is reserved: a frame waits four turns, and is
# sent in the fifth.
story a full slot is no rest
with turns=4 sent=0 dropped=1 slept=0
with turns=5 sent=1 dropped=0 slept=0
with turns=6 sent=1 dropped=0 slept=1
use left
close
open
push controlled 60 5
relay-resting $turns = sent $sent delivered 0 dropped $dropped faults 0 slept $slept

# The first refused step ends it, with no sleep after that turn.
story a refused step is no rest
use left
fail 2 on
submit tx-install 1 08080808080808080808080808080808 1 = 1
relay-resting 9 = Disk slept 0
relay-resting 9 = Stopped slept 0

# Six plain frames, and the change to a new key between them: each command is done in four turns. What
# comes after it goes out under the new key.
story frames pass with commands between them
use left
each 0 5 push controlled 60 $
desk
| submit tx-install 1 08080808080808080808080808080808 1
| submit tx-use 1
attend 20 = sent 6 delivered 0 dropped 0 faults 0
desk-counts = asked 20 quiet 11 told 4
told 1 = ticket 1
told 2 = ticket 2
told 3 = 1 ok
told 4 = 2 ok
sent-numbers common = 1 2 3 4 5 6
push controlled 60 5
attend 1 = sent 1 delivered 0 dropped 0 faults 0
sent-number common 6 = 1

# A relay that nobody stops takes all its turns, and its desk is asked before each one.
story a desk without wishes
with turns=0 sent=0 quiet=0
with turns=1 sent=1 quiet=0
with turns=4 sent=3 quiet=0
with turns=5 sent=3 quiet=1
use left
each 1 3 push controlled 60 $
desk
attend $turns = sent $sent delivered 0 dropped 0 faults 0
desk-counts = asked $turns quiet $quiet told 0

# The end comes before the turn for which it is wanted. What was not taken waits on its wire.
story a desk ends it
use left
each 0 5 push controlled 60 $
desk
| go
| go
| end
| submit tx-remove 0
attend 20 = sent 2 delivered 0 dropped 0 faults 0
desk-counts = asked 3 quiet 0 told 0
each 2 5 take controlled = frame 60 $
next 0 = 3

# A command that is under way at the end has failed, also where its last device call but one was made: a power
# loss then leaves it or not.
story the end with work under way
with turns=1 calls=1 loss=last found=none
with turns=2 calls=2 loss=last found=none
with turns=3 calls=3 loss=durable found=none
with turns=3 calls=3 loss=last found=08080808080808080808080808080808,clear
use left
calls = *
desk
| submit tx-install 1 08080808080808080808080808080808 1 clear
| submit tx-use 1
attend $turns = sent 0 delivered 0 dropped 0 faults 0
calls = $calls
told 1 = ticket 1
power-loss $loss
open
tx-association 1 = $found
encoding = 0

# The desk's end comes before the first command's third call: both have failed, in the order of their tickets.
story an end that is wanted with work under way
use left
desk
| submit tx-install 1 08080808080808080808080808080808 1
| submit tx-use 1
| end
attend 20 = sent 0 delivered 0 dropped 0 faults 0
desk-counts = asked 3 quiet 0 told 4
told 1 = ticket 1
told 2 = ticket 2
told 3 = 1 failed
told 4 = 2 failed
under-way = yes

# A command that is refused makes no device call: it is done in the turn for which it was wanted.
story a command is refused
use left
desk
| submit tx-use 3
| submit tx-install 0 08080808080808080808080808080808 1
attend 3 = sent 0 delivered 0 dropped 0 faults 0
desk-counts = asked 3 quiet 0 told 4
told 1 = ticket 1
told 2 = 1 refused SlotEmpty
told 3 = ticket 2
told 4 = 2 refused SlotTaken

# Commands that waited before are answered too, in front of the desk's own. Sixteen wait at most: one more has no
# ticket, and is not answered.
story sixteen commands wait
use left
each 1 15 submit set-replay on $ = $
desk
| submit set-replay on 16
| submit set-replay on 17
| end
attend 9 = sent 0 delivered 0 dropped 0 faults 0
desk-counts = asked 3 quiet 0 told 18
told 1 = ticket 16
told 2 = ticket QueueFull
each 1 16 told $+2 = $ failed

# A device call fails: it ends in that turn with that fault, and each command under way has failed.
story a device fault with sixteen commands under way
with passed=0
with passed=2
with passed=3
use left
each 1 16 submit set-replay on $ = $
push controlled 60 5
fail $passed on
desk
attend 20 = Disk
sent-frames common = 1
desk-counts = asked $passed+1 quiet 0 told 16
each 1 16 told $ = $ failed
attend 20 = Stopped
desk-counts = asked $passed+2 quiet 0 told 32

# An endpoint that is stopped takes no command, and its first step ends the relay.
story a command at a stopped endpoint
use left
fail 0 on
submit set-replay on 1 = 1
step = Disk
desk
| submit set-replay on 2
attend 20 = Stopped
desk-counts = asked 1 quiet 0 told 2
told 1 = ticket Stopped
told 2 = 1 failed

# Both wires fail between the commands: faults are counted, and each command is answered.
story wires fail between commands
use left
wire controlled 2 0
wire common 1 2
each 0 5 push controlled 60 $
desk
| submit tx-install 1 08080808080808080808080808080808 1
| submit tx-use 1
attend 20 = sent 5 delivered 0 dropped 0 faults 3
sent-numbers common = 1 3 4 5 6
desk-counts = asked 20 quiet 11 told 4
told 3 = 1 ok
told 4 = 2 ok

# A relay is killed with sixteen commands under way, after so many were acknowledged and so many device calls of
# the next one: the next opening finds the acknowledged ones, and the next one where its gate was written and kept.
story a relay is killed with commands under way
with acked=0..15
and calls=0..3 loss=durable more=0
and calls=0..2 loss=last more=0
and calls=3 loss=last more=1
use left
each 1 16 submit set-replay on $ = $
fail 4*$acked+$calls on
desk
attend 100 = Disk
each 1 $acked told $ = $ ok
told $acked+1 = *
each $acked+1 16 told $ = $ failed
power-loss $loss
fail never
open
window = $acked+$more
