# Frames from the peer b, whose association 2 has the key 5. A frame of sevens has 62 octets.

setup receiver
format 0200000000010001 4 4
open
rx-add b
rx-install b 2 5 1

story numbers are taken below the ceiling
with loss=last
with loss=durable
use receiver
receive b 5 2 5 62 = held back
refill
receive b 5 2 5 62 = delivered Ok
numbers b 2 = 6 6
receive b 5 2 5 62 = discarded Late
receive b 5 2 4 62 = discarded Late
receive b 5 2 7 62 = delivered Ok
numbers b 2 = 8 8
power-loss $loss
open
numbers b 2 = 9 9
receive b 5 2 7 62 = discarded Late
receive b 5 2 8 62 = discarded Late
receive b 5 2 9 62 = held back
refill
receive b 5 2 9 62 = delivered Ok
numbers b 2 = 10 10

# A window of 5, to which 10 came, and 8 twice.
setup windowed
use receiver
set-replay on 5
receive b 5 2 10 62 = held back
refill
receive b 5 2 10 62 = delivered Ok
numbers b 2 = 11 6
each 1 2 receive b 5 2 8 62 = delivered Ok
numbers b 2 = 11 6

# The lowest acceptable number never falls.
story a window changes
use windowed
set-replay on 0
numbers b 2 = 11 11
receive b 5 2 8 62 = discarded Late
set-replay on 100
numbers b 2 = 11 11
receive b 5 2 8 62 = discarded Late

story a window is empty after an opening
with loss=last
with loss=durable
use windowed
power-loss $loss
open
numbers b 2 = 14 14
receive b 5 2 10 62 = discarded Late
receive b 5 2 14 62 = held back
refill
receive b 5 2 14 62 = delivered Ok
numbers b 2 = 15 14

story late frames are delayed without replay protection
use receiver
set-replay off 0
receive b 5 2 5 62 = held back
refill
receive b 5 2 5 62 = delivered Ok
numbers b 2 = 6 6
receive b 5 2 5 62 = delivered Delayed
numbers b 2 = 6 6

# A frame has one verdict under strict validation and another one where validation only checks, each
# time. No number is moved.
setup moves no number
numbers b 2 = 1 1
refill
power-loss $loss
open
numbers b 2 = 1 1

story untagged frames
with loss=last
with loss=durable
use receiver
each 1 2 receive-plain 62 = discarded NoTag
set-validate check
each 1 2 receive-plain 62 = delivered Untagged
use moves no number

story frames in the clear are delivered where validation checks
with channel=b an=2 form=broken strict=NotValid checked=Invalid
with channel=0909090909090909 an=2 form= strict=NoSci checked=UnknownSci
with channel=b an=1 form= strict=NotUsingSa checked=UnusedSa
and loss=last
and loss=durable
use receiver
each 1 2 receive $channel 5 $an 5 62 clear $form = discarded $strict
set-validate check
each 1 2 receive $channel 5 $an 5 62 clear $form = delivered $checked
use moves no number

# The same frames with C set, which have one verdict.
story changed frames are discarded where validation checks
with channel=b an=2 form=broken verdict=NotValid
with channel=0909090909090909 an=2 form= verdict=NoSci
with channel=b an=1 form= verdict=NotUsingSa
and loss=last
and loss=durable
use receiver
each 1 2 receive $channel 5 $an 5 62 $form = discarded $verdict
set-validate check
each 1 2 receive $channel 5 $an 5 62 $form = discarded $verdict
use moves no number

story frames have 14 to 9216 octets
format 0200000000010001 4 4
open
receive-plain 13 = discarded Runt
receive-plain 14 = discarded NoTag
receive-plain 9216 = discarded NoTag
receive-plain 9217 = discarded Oversize
received = discarded Runt 1 discarded Oversize 1 discarded NoTag 2
received-of b = absent

# An association of a channel that went and came back begins anew.
story associations that go leave nothing
with loss=last
with loss=durable
use receiver
receive b 5 2 5 62 = held back
refill
receive b 5 2 5 62 = delivered Ok
rx-remove b 2
numbers b 2 = none
receive b 5 2 6 62 = discarded NotUsingSa
rx-drop b
receive b 5 2 6 62 = discarded NoSci
power-loss $loss
open
numbers b 2 = none
numbers b 0 = none
channel b = no
