# Frames between two wires in memory, through an endpoint. What a relay answers: how many frames it
# sent on the common wire, delivered on the controlled one, and dropped, and how many calls of the
# wires failed. A frame of a wire is of so many octets, each of which is this one.

setup left
format 0200000000010001 $block $block
open
use sending

setup right
disk 1028
format 0200000000020001 $block $block
open
use sending

setup sending
tx-install 0 07070707070707070707070707070707 1
tx-use 0

# Each of the two is the other one's peer.
setup peer is right
rx-add 0200000000020001
rx-install 0200000000020001 0 07070707070707070707070707070707 1

setup peer is left
rx-add 0200000000010001
rx-install 0200000000010001 0 07070707070707070707070707070707 1

# Six plain frames, of which some wait for numbers, by blocks of several sizes. A reservation takes
# the steps of four turns, from that of the frame on that finds the need: so by blocks of 1 every
# fourth turn sends a frame, and by blocks of 4 the fifth turn sends none.
story frames are protected
with block=1 turns=4 sent=1 dropped=1 numbers=1
with block=1 turns=5 sent=2 dropped=0 numbers=1,2
with block=1 turns=20 sent=5 dropped=1 numbers=1,2,3,4,5
with block=1 turns=21 sent=6 dropped=0 numbers=1,2,3,4,5,6
with block=4 turns=4 sent=4 dropped=0 numbers=1,2,3,4
with block=4 turns=5 sent=4 dropped=1 numbers=1,2,3,4
with block=4 turns=6 sent=5 dropped=0 numbers=1,2,3,4,5
with block=4 turns=7 sent=6 dropped=0 numbers=1,2,3,4,5,6
with block=65536 turns=6 sent=6 dropped=0 numbers=1,2,3,4,5,6
use left
each 0 5 push controlled 60 $
relay $turns = sent $sent delivered 0 dropped $dropped faults 0
sent-numbers common = $numbers
sent-frames controlled = 0

# What one endpoint sends the other one delivers, both ways at once: some frames are held back.
# Numbers to send under are reserved first: by blocks of 1 the steps of 32 turns are for the eight
# frames that are sent, and then each delivery takes five turns.
story frames pass both ways
with block=1 one-way=37 both-ways=82
with block=4 one-way=12 both-ways=22
use left
use peer is right
each 0 9 push controlled 60 $
relay $one-way = sent 10 delivered 0 dropped 0 faults 0
keep common
close
wire controlled
wire common
use right
use peer is left
each 0 9 push common kept $
each 0 7 push controlled 60 $
relay $both-ways = sent 8 delivered 10 dropped 0 faults 0
each 0 9 sent-frame controlled $ = 60 $
sent-frames controlled = 10
sent-numbers common = 1 2 3 4 5 6 7 8

# A thousand frames in a burst, four of which are sent in five turns.
story a burst is sent
with block=4
use left
each 1 1000 push controlled 60 5
relay 1249 = sent 1000 delivered 0 dropped 0 faults 0
sent-frames common = 1000
sent-numbers common = 1 2 3 *
each 0 999 sent-number common $ = $+1

# Frames that do not pass, between frames that do.
story frames are dropped
with block=4
use left
use peer is right
push controlled 60 5; push common 60 5
push controlled 13 5; push common 13 5
push controlled 9216 5; push common 9216 5
push controlled 9217 5; push common 9217 5
push controlled 0; push common 0
push controlled 60 5; push common 60 5
relay 6 = sent 2 delivered 0 dropped 10 faults 0
sent-numbers common = 1 2

# A turn more than there are frames, and one fewer: what is not taken waits on its wire.
story each turn takes a frame of each wire
with block=65536 turns=0..7
use left
use peer is right
each 0 6 push controlled 60 $; push common 60 $
relay $turns = sent $turns delivered 0 dropped $turns faults 0
each $turns 6 take controlled = frame 60 $; take common = frame 60 $
take controlled = nothing
take common = nothing

# An endpoint that was opened again has no packet number until one is reserved. A frame that waits
# for it stays in its slot for the four steps of a reservation, and the one behind it on its wire.
# Where there is no turn behind them it is dropped.
story a frame waits for a number
with block=4 turns=1 sent=0 dropped=1 left=2
with block=4 turns=4 sent=0 dropped=1 left=2
with block=4 turns=5 sent=1 dropped=0 left=2
with block=4 turns=6 sent=2 dropped=0 left=1
with block=4 turns=7 sent=3 dropped=0 left=0
use left
close
open
each 0 2 push controlled 60 $
relay $turns = sent $sent delivered 0 dropped $dropped faults 0
each 1 $left take controlled = frame *
take controlled = nothing

# A published frame that is held back is delivered in the turn behind the four steps of a
# reservation, once.
story a frame is held back
with turns=1 delivered=0 dropped=1
with turns=4 delivered=0 dropped=1
with turns=5 delivered=1 dropped=0
with turns=6 delivered=1 dropped=1
format 0200000000010001 4 4
open
rx-add 12153524c0895e81
rx-install 12153524c0895e81 2 ad7a2bd03eac835a6f620fdcb506b345 1
use the published frame
use the published frame
relay $turns = sent 0 delivered $delivered dropped $dropped faults 0
sent-frames controlled = $delivered

setup the published frame
push common hex d609b1f056637a0d46df998d88e5222ab2c2846512153524c0895e8108000f101112131415161718191a1b1c1d1e1f202122232425262728292a2b2c2d2e2f30313233340001f09478a9b09007d06f46e9b6a1da25dd

# The four calls of a reservation fail in turn: a step that fails ends a relay, and one of an
# endpoint that is stopped ends in its first turn. What was sent before is sent, and nothing after.
story a device fault ends it
with calls=268 block=4 sent=2 numbers=1,2
with calls=269 block=4 sent=3 numbers=1,2,3
with calls=270 block=4 sent=4 numbers=1,2,3,4
with calls=271 block=4 sent=4 numbers=1,2,3,4
format 0200000000010001 4 4
fail $calls on
open
use sending
each 0 5 push controlled 60 $
relay 6 = Disk
sent-numbers common = $numbers
relay 6 = Stopped
relay 0 = sent 0 delivered 0 dropped 0 faults 0
sent-numbers common = $numbers

# Wires of which calls fail: a receive of the wire that the frames come from, a receive of the
# other, a send of the other. A fault is counted and the relay goes on; the frame in its room is lost
# and its packet number stays used. Behind them stand how many frames pass, and how many faults
# there are.
story a call fails while frames are protected
with receive=0 other=0 send=0 passed=6 faults=0 left=1,2,3,4,5,6
with receive=0 other=0 send=1 passed=5 faults=1 left=2,3,4,5,6
with receive=0 other=0 send=2 passed=5 faults=1 left=1,3,4,5,6
with receive=0 other=0 send=3 passed=5 faults=1 left=1,2,4,5,6
with receive=0 other=0 send=6 passed=5 faults=1 left=1,2,3,4,5
with receive=0 other=0 send=7 passed=6 faults=0 left=1,2,3,4,5,6
with receive=1 other=0 send=0 passed=6 faults=1 left=1,2,3,4,5,6
with receive=3 other=0 send=0 passed=6 faults=1 left=1,2,3,4,5,6
with receive=7 other=0 send=0 passed=6 faults=1 left=1,2,3,4,5,6
with receive=20 other=0 send=0 passed=6 faults=1 left=1,2,3,4,5,6
with receive=21 other=0 send=0 passed=6 faults=0 left=1,2,3,4,5,6
with receive=0 other=1 send=0 passed=6 faults=1 left=1,2,3,4,5,6
with receive=0 other=20 send=0 passed=6 faults=1 left=1,2,3,4,5,6
with receive=0 other=21 send=0 passed=6 faults=0 left=1,2,3,4,5,6
with receive=2 other=5 send=1 passed=5 faults=3 left=2,3,4,5,6
with receive=3 other=3 send=3 passed=5 faults=3 left=1,2,4,5,6
with receive=20 other=20 send=6 passed=5 faults=3 left=1,2,3,4,5
with receive=1 other=2 send=7 passed=6 faults=2 left=1,2,3,4,5,6
with receive=18446744073709551615 other=18446744073709551615 send=18446744073709551615 passed=6 faults=0 left=1,2,3,4,5,6
and block=65536
use left
wire controlled $receive 0
wire common $other $send
each 1 6 push controlled 60 $
relay 20 = sent $passed delivered 0 dropped 0 faults $faults
sent-numbers common = $left
next 0 = 7
sent-frames controlled = 0

# Seven frames, as another endpoint sent them. The first of them is delivered, so that numbers are
# reserved; then the other six come. The number of the one that is lost stays used: all six are
# discarded as late where they come again.
story a call fails while frames are delivered
with receive=0 other=0 send=0 passed=6 faults=0 left=1,2,3,4,5,6
with receive=0 other=0 send=1 passed=5 faults=1 left=2,3,4,5,6
with receive=0 other=0 send=2 passed=5 faults=1 left=1,3,4,5,6
with receive=0 other=0 send=3 passed=5 faults=1 left=1,2,4,5,6
with receive=0 other=0 send=6 passed=5 faults=1 left=1,2,3,4,5
with receive=0 other=0 send=7 passed=6 faults=0 left=1,2,3,4,5,6
with receive=1 other=0 send=0 passed=6 faults=1 left=1,2,3,4,5,6
with receive=3 other=0 send=0 passed=6 faults=1 left=1,2,3,4,5,6
with receive=7 other=0 send=0 passed=6 faults=1 left=1,2,3,4,5,6
with receive=20 other=0 send=0 passed=6 faults=1 left=1,2,3,4,5,6
with receive=21 other=0 send=0 passed=6 faults=0 left=1,2,3,4,5,6
with receive=0 other=1 send=0 passed=6 faults=1 left=1,2,3,4,5,6
with receive=0 other=20 send=0 passed=6 faults=1 left=1,2,3,4,5,6
with receive=0 other=21 send=0 passed=6 faults=0 left=1,2,3,4,5,6
with receive=2 other=5 send=1 passed=5 faults=3 left=2,3,4,5,6
with receive=3 other=3 send=3 passed=5 faults=3 left=1,2,4,5,6
with receive=20 other=20 send=6 passed=5 faults=3 left=1,2,3,4,5
with receive=1 other=2 send=7 passed=6 faults=2 left=1,2,3,4,5,6
with receive=18446744073709551615 other=18446744073709551615 send=18446744073709551615 passed=6 faults=0 left=1,2,3,4,5,6
and block=65536
use left
use peer is right
each 0 6 push controlled 60 $
relay 20 = sent 7 delivered 0 dropped 0 faults 0
keep common
close
wire controlled
wire common
use right
use peer is left
push common kept 0
relay 5 = sent 0 delivered 1 dropped 0 faults 0
wire controlled $other $send
wire common $receive 0
each 1 6 push common kept $
relay 20 = sent 0 delivered $passed dropped 0 faults $faults
sent-frames common = 0
mend controlled
wire common
each 1 6 push common kept $
relay 20 = sent 0 delivered 0 dropped 6 faults 0
sent-octets controlled 60 = $left

# Two sends of the common wire fail, by a wire in front of another: the inner one fails the third
# send that reaches it, which is the fourth in all.
story two sends fail
with block=65536
use left
wire common 0 3 0 2
each 0 5 push controlled 60 $
relay 20 = sent 4 delivered 0 dropped 0 faults 2
sent-numbers common = 1 3 5 6
sent-frames common = 4
next 0 = 7
