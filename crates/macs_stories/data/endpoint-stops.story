# Stops at each device call: what is found is what stood before, or that and the one thing under way.
# The endpoint sends, number 5 is next, and has the peer's association 2: four records, so that an
# opening makes 264 device calls. The last write of a gate stands where the power loss leaves it,
# though its sync did not come.

setup stored
format 0200000000010001 4 4
open
tx-install 0 1 1
tx-use 0
rx-add b
rx-install b 2 5 1
close

# Nothing is answered but that the endpoint is stopped; readers go on to answer.
setup stopped
stopped = yes
set-replay on 9 = Stopped
tx-remove 0 = Stopped
protect 62 = Stopped
protect 0 = Stopped
receive b 5 2 5 62 = Stopped
refill = Stopped
stopped = yes
window = 0
identity = 0200000000010001 4 4
next 0 = 5
numbers b 2 = 1 1

setup stood before
under-way = no
stopped = no
next 0 = 5
numbers b 2 = 1 1

story a command stopped at a call is found or not
with calls=0..2 loss=last window=0
with calls=3 loss=last window=3
with calls=0..3 loss=durable window=0
use stored
fail 264+$calls on
open
set-replay on 3 = Disk
has-under-way set-replay on 3 = yes
use stopped
has-under-way set-replay on 3 = yes
power-loss $loss
fail never
open
window = $window
use stood before

story a command that is not stopped is found
with loss=last
with loss=durable
use stored
fail 264+4 on
open
set-replay on 3
under-way = no
stopped = no
window = 3
power-loss $loss
fail never
open
window = 3
use stood before

# The reservation of the transmit side comes first, and stays where the next one is stopped.
story a refill stopped at a call is found or not
with calls=0..2 loss=last tx=5 rx=1
with calls=3..6 loss=last tx=9 rx=1
with calls=7 loss=last tx=9 rx=9
with calls=0..3 loss=durable tx=5 rx=1
with calls=4..7 loss=durable tx=9 rx=1
use stored
fail 264+$calls on
open
receive b 5 2 5 62 = held back
refill = Disk
under-way = no
use stopped
under-way = no
power-loss $loss
fail never
open
next 0 = $tx
numbers b 2 = $rx $rx

story a refill that is not stopped is found
with loss=last
with loss=durable
use stored
fail 264+8 on
open
receive b 5 2 5 62 = held back
refill
stopped = no
protect 62 = 5
power-loss $loss
fail never
open
next 0 = 9
numbers b 2 = 9 9

# Association 2 of the peer and of a channel with a lower SCI, whose reservation comes first with
# its four calls. A frame with number 5 was held back for either.
setup two associations
format 0200000000010001 4 4
open
rx-add b
rx-install b 2 5 1
rx-add 9
rx-install 9 2 5 1
close
fail 264+$calls on
open
receive b 5 2 5 62 = held back
receive 9 5 2 5 62 = held back

story a refill stopped between two associations keeps the first
with calls=0..2 loss=last other=1 peers=1
with calls=3..6 loss=last other=9 peers=1
with calls=7 loss=last other=9 peers=9
with calls=0..3 loss=durable other=1 peers=1
with calls=4..7 loss=durable other=9 peers=1
use two associations
refill = Disk
stopped = yes
power-loss $loss
fail never
open
numbers 9 2 = $other $other
numbers b 2 = $peers $peers

story a refill of two associations is found
with calls=8 loss=last
with calls=8 loss=durable
use two associations
refill
power-loss $loss
fail never
open
numbers 9 2 = 9 9
numbers b 2 = 9 9

# Frames make no call of the disk, and a refused command none, nor a refill without need.
story calls without work make no call
use stored
fail 264+4 on
open
refill
protect 62 = 5
receive b 5 2 1 62 = held back
rx-add b = refused ChannelTaken
stopped = no
protect 62 = 6
receive b 5 2 1 62 = held back
rx-add b = refused ChannelTaken
stopped = no
refill = Disk
stopped = yes
