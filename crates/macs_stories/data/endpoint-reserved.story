# How many packet numbers are reserved and not used: those from the next one up to the ceiling, which
# an opening after a power loss skips. Blocks are of 4 packet numbers on either side.

setup both
format 0200000000010001 4 4
open
tx-install 0 1 1
tx-use 0
rx-add b
rx-install b 2 5 1

story an association that does not exist has none
use both
reserved 1 = none
reserved-of b 1 = none
reserved-of c 2 = none

# A key to send with is installed with a first block, and one to receive with without.
story a frame uses one
use both
reserved 0 = 4
protect 62 = 1
reserved 0 = 3
protect 13 = Runt
reserved 0 = 3
protect 62 = 2
reserved 0 = 2

# The block of a receive association is counted from the number that was seen, which the next number
# is not above before its frame is delivered.
story a frame that is delivered uses those up to its own
use both
reserved-of b 2 = 0
receive b 5 2 2 62 = held back
reserved-of b 2 = 0
refill
reserved-of b 2 = 5
receive b 5 2 2 62 = delivered Ok
reserved-of b 2 = 3
receive b 5 2 4 62 = delivered Ok
reserved-of b 2 = 1
receive b 5 2 3 62 = discarded Late
reserved-of b 2 = 1

# A reservation at half a block, of four device calls, counts once they are made.
story a reservation adds a block
use both
each 1 2 protect 62 = $
each 1 3 step = worked; reserved 0 = 2
step = reserved
reserved 0 = 6

# The setup has sent 1 to 3, and delivered 1 of the peer.
setup carried
use both
receive b 5 2 1 62 = held back
refill
receive b 5 2 1 62 = delivered Ok
each 1 3 protect 62 = $
reserved 0 = 1
reserved-of b 2 = 3
next 0 = 4
numbers b 2 = 2 2

story a power loss skips as many
with loss=last
with loss=durable
use carried
power-loss $loss
open
next 0 = 5
reserved 0 = 0
numbers b 2 = 5 5
reserved-of b 2 = 0
each 2 4 receive b 5 2 $ 62 = discarded Late
receive b 5 2 5 62 = held back

# Its last call, a sync, is not made.
story a power loss may find a reservation under way
with loss=last next=9
with loss=durable next=5
use carried
each 1 3 step = worked
reserved 0 = 1
power-loss $loss
open
next 0 = $next

story after a planned end there are none
with loss=last
with loss=durable
use carried
plan-end
reserved 0 = 0
reserved-of b 2 = 0
power-loss $loss
open
next 0 = 4
numbers b 2 = 2 2

# The last packet number is 2^32 - 1.
story numbers end
use both
tx-install 1 2 4294967294
tx-use 1
reserved 1 = 2
protect 62 = 4294967294
reserved 1 = 1
protect 62 = 4294967295
reserved 1 = 0
protect 62 = Exhausted
reserved 0 = 4
