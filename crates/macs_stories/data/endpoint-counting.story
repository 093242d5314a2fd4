# What is counted. The peer is b; its association 2 has the key 5.

setup receiver
format 0200000000010001 4 4
open
rx-add b
rx-install b 2 5 1

story sent frames are counted
with loss=last
with loss=durable
use receiver
protect 62 = NoEncodingSa
tx-install 0 1 1
tx-use 0
each 1 4 protect 62 = $
each 1 2 protect 62 = NoNumber
each 1 3 protect 0 = Runt
sent = 4 Runt 3 NoEncodingSa 1 NoNumber 2
power-loss $loss
open
sent = 0

# A frame that is held back is not counted, nor for a channel a frame that names none.
story received frames are counted
with loss=last
with loss=durable
use receiver
received = none
received-of b = none
receive b 5 2 5 62 = held back
refill
receive b 5 2 5 62 = delivered Ok
each 1 2 receive b 5 2 5 62 = discarded Late; receive-plain 62 = discarded NoTag
receive-plain 0 = discarded Runt
received = delivered Ok 1 discarded Runt 1 discarded NoTag 2 discarded Late 2
received-of b = delivered Ok 1 discarded Late 2
power-loss $loss
open
received = none
received-of b = none

# The counts of a channel go with it.
story a new channel begins to count
use receiver
receive b 5 2 5 62 = held back
refill
receive b 5 2 5 62 = delivered Ok
received-of 9 = absent
rx-add 9
received-of 9 = none
received = delivered Ok 1
received-of b = delivered Ok 1
rx-drop b
received-of b = absent
received = delivered Ok 1
rx-add b
received-of b = none
received = delivered Ok 1
