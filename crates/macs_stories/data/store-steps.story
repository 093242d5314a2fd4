# Commands and reservations that a store keeps one device call at a time: what stands changes with
# the last call alone, and a power loss leaves what stood before or what stands then. A disk that is
# filled up to slot 4 has an association of either side.

setup new
format 0200000000010001 4 6

setup filled
write 0 head $generation 1 0200000000010001 4 6
write 1 gate
write 2 record settings
write 4 record tx-install 0 01010101010101010101010101010101 1 30; write 5 gate
write 6 record tx-use 0; write 7 gate
write 8 record rx-add 12153524c0895e81; write 9 gate
write 10 record rx-install 12153524c0895e81 0 02020202020202020202020202020202 1; write 11 gate
each 5 $last write 2+2*$ record set-replay on $; write 3+2*$ gate
sync

story a command is kept step by step
with loss=last
with loss=durable
use new
open-store
step = idle
start set-replay on 3
window = 0
idle = no
each 1 3 step = going
window = 0
idle = no
step = finished
window = 3
idle = yes
step = idle
stopped = no
power-loss $loss
open-store
window = 3

story a transmit reservation is kept step by step
with generation=1 last=4
and loss=last
and loss=durable
use filled
open-store
start-tx 0
each 1 3 step = going
tx-ceiling 0 = 5
step = finished
tx-ceiling 0 = 9
rx-ceiling 12153524c0895e81 0 = 1
power-loss $loss
open-store
tx-ceiling 0 = 9
rx-ceiling 12153524c0895e81 0 = 1

story a receive reservation is kept step by step
with generation=1 last=4
and loss=last
and loss=durable
use filled
open-store
start-rx 12153524c0895e81 0 3
each 1 3 step = going
rx-ceiling 12153524c0895e81 0 = 1
step = finished
tx-ceiling 0 = 5
rx-ceiling 12153524c0895e81 0 = 9
power-loss $loss
open-store
tx-ceiling 0 = 5
rx-ceiling 12153524c0895e81 0 = 9

# A command goes on to its end from each of its steps, and no call is made where none is under way.
story work under way is finished
with loss=last
with loss=durable
use new
open-store
start set-replay on 3
finish; idle = yes
start set-replay on 3
step = going
finish; idle = yes
start set-replay on 3
each 1 2 step = going
finish; idle = yes
start set-replay on 3
each 1 3 step = going
finish; idle = yes
finish
power-loss $loss
open-store
window = 3

# All slots of the first area are used, and all gates of the second are open: a command takes 529
# steps.
story a command at a full area takes so many steps
with generation=2 last=255
and loss=last
and loss=durable
use filled
write 514 head 1 1 0200000000010001 4 6
each 0 256 write 515+2*$ gate
sync
open-store
start set-replay on 3
each 1 525 step = going
window = 255
each 1 3 step = going
window = 255
idle = no
step = finished
window = 3
idle = yes
power-loss $loss
open-store
window = 3

# The write of the gate is the third call of an append; this disk leaves it though its sync did not
# come.
story a command cut at a step is there or not
with steps=0..2 loss=last window=0
with steps=3 loss=last window=3
with steps=0..3 loss=durable window=0
use new
open-store
start set-replay on 3
each 1 $steps step = going
power-loss $loss
open-store
window = $window

# No gate of the other area is open: a command takes 272 steps. Before and behind the first and the
# last reads of gates and the sync behind them, behind the body of the head and that of a record,
# and behind each call from the sync of the bodies on.
story a compaction cut at a step leaves what stood
with generation=1 last=255
and steps=0..1 loss=last window=255
and steps=256..259 loss=last window=255
and steps=264..270 loss=last window=255
and steps=271 loss=last window=3
and steps=0..1 loss=durable window=255
and steps=256..259 loss=durable window=255
and steps=264..271 loss=durable window=255
use filled
open-store
start set-replay on 3
each 1 $steps step = going
power-loss $loss
open-store
window = $window

story a reservation cut at a step is there or not
with generation=1 last=4
and steps=0..2 loss=last ceiling=5
and steps=3 loss=last ceiling=9
and steps=0..3 loss=durable ceiling=5
use filled
open-store
start-tx 0
each 1 $steps step = going
power-loss $loss
open-store
tx-ceiling 0 = $ceiling

# The device passes two calls of the command. Nothing is under way then, and nothing more is taken.
story a call that fails ends the work
with loss=last
with loss=durable
use new
fail 260+2 on
open-store
start set-replay on 3
each 1 2 step = going
step = Disk
idle = yes
stopped = yes
window = 0
step = Stopped
finish = Stopped
start set-replay on 3 = Stopped
idle = yes
power-loss $loss
fail never
open-store
window = 0

# The device passes no call behind the opening.
story a refused start changes nothing
with generation=18446744073709551615 last=255
use filled
fail 515 on
open-store
start tx-use 1 = refused SlotEmpty
start set-replay on 3 = GenerationsSpent
stopped = no
start-tx 0 = GenerationsSpent
start-rx 12153524c0895e81 0 3 = GenerationsSpent
idle = yes
window = 255
tx-ceiling 0 = 5
rx-ceiling 12153524c0895e81 0 = 1

# The first call stops the store.
story a stopped store begins nothing
with generation=1 last=255
use filled
fail 515 on
open-store
set-replay on 3 = Disk
start set-replay on 3 = Stopped
start-tx 0 = Stopped
start-rx 12153524c0895e81 0 3 = Stopped
idle = yes
window = 255
tx-ceiling 0 = 5
rx-ceiling 12153524c0895e81 0 = 1
