# Work on the disk that is cut at its device calls, with frames and commands between. Blocks are of
# 4 numbers.

setup new
format 0200000000010001 4 4
open

setup sender
use new
tx-install 0 1 1
tx-use 0

# A command that finds no need takes four device calls.
story a command is four steps
use new
step = idle
submit set-replay on 3 = 1
under-way = no
step = worked
has-under-way set-replay on 3 = yes
each 1 2 step = worked
window = 0
step = done 1 ok
window = 3
under-way = no
step = idle

# A call that is busy changes nothing.
story calls are busy while a command waits
use new
submit set-replay on 3 = 1
rx-add b = Busy
refill = Busy
channels = none
each 1 3 step = worked
rx-add b = Busy
refill = Busy
channels = none
step = done 1 ok
refill
rx-add b
window = 3
channels = 000000000000000b

# Sixteen commands wait, the one under way included, and no more. They are kept in their order.
story sixteen commands wait
use new
each 1 16 submit set-replay on $ = $
submit rx-add b = QueueFull
each 1 3 step = worked
step = done 1 ok
window = 1
submit set-replay on 17 = 17
submit rx-add b = QueueFull
each 2 17 step = worked; step = worked; step = worked; step = done $ ok; window = $
step = idle

# The command under way is not found either: its gate was not written.
story what waits is forgotten at a power loss
with loss=last
with loss=durable
use new
submit set-replay on 3 = 1
submit set-replay on 4 = 2
each 1 2 step = worked
power-loss $loss
open
under-way = no
step = idle
window = 0
submit set-replay on 5 = 1

# The reservation begins when two numbers are left, and the third frame after that waits.
story frames go out between the steps of a reservation
with loss=last
with loss=durable
use sender
protect 62 = 1
step = idle
protect 62 = 2
step = worked
protect 62 = 3
step = worked
submit set-replay on 3 = 1
protect 62 = 4
step = worked
protect 62 = NoNumber
step = reserved
protect 62 = 5
next 0 = 6
power-loss $loss
open
next 0 = 9
window = 0

# Frames go out under the association of before until the command is done with.
story frames go out between the steps of a command
with loss=last
with loss=durable
use sender
tx-install 3 2 70
submit tx-use 3 = 1
each 1 3 protect 62 = $; step = worked
protect 62 = 4
step = done 1 ok
protect 62 = 70
encoding = 3
power-loss $loss
open
encoding = 3
next 0 = 5

# Frames come to the channel of before until the command is done with.
story frames come between the steps of a command
use new
rx-add b
rx-install b 2 5 1
receive b 5 2 5 62 = held back
rest = 4 idle
receive b 5 2 5 62 = delivered Ok
submit rx-drop b = 1
step = worked
receive b 5 2 6 62 = delivered Ok
step = worked
receive b 5 2 6 62 = discarded Late
step = worked
receive b 5 2 7 62 = delivered Ok
numbers b 2 = 8 8
step = done 1 ok
channels = none

story no frame waits where blocks are of 16
format 0200000000010001 16 16
open
tx-install 0 1 1
tx-use 0
each 1 200 protect 62 = $; step = *
stopped = no

story no frame waits for commands where blocks are of 20
format 0200000000010001 20 20
open
tx-install 0 1 1
tx-use 0
each 1 200 submit set-replay on 3 = *; protect 62 = $; step = *
stopped = no

# The reservation is first; then they take turns.
story a reservation and a command take turns
use sender
each 1 2 protect 62 = $
submit set-replay on 3 = 1
submit set-replay on 4 = 2
step = worked
under-way = no
each 1 2 step = worked
step = reserved
each 3 6 protect 62 = $
step = worked
has-under-way set-replay on 3 = yes
each 1 2 step = worked
step = done 1 ok
step = worked
under-way = no
each 1 2 step = worked
step = reserved
step = worked
has-under-way set-replay on 4 = yes
each 1 2 step = worked
step = done 2 ok
step = idle

# A command is judged when its turn comes. A refused one makes no device call and uses its turn.
story a refused command is done with
use sender
each 1 2 protect 62 = $
submit tx-remove 0 = 1
submit set-replay on 3 = 2
each 1 3 step = worked
step = reserved
each 3 6 protect 62 = $
step = done 1 refused InUse
encoding = 0
step = worked
under-way = no
each 1 2 step = worked
step = reserved
step = worked
has-under-way set-replay on 3 = yes

# A command that does not wait, and a refill, finish what is under way first.
story a reservation under way is finished first
with loss=last
with loss=durable
use sender
each 1 2 protect 62 = $
step = worked
set-replay on 3
protect 62 = 3
step = idle
protect 62 = 4
step = idle
each 5 6 protect 62 = $
step = worked
refill
step = idle
protect 62 = 7
power-loss $loss
open
next 0 = 13
window = 3

# A refill that finishes a reservation under way uses its turn: the command that waits then is first.
story a reservation that a refill finishes uses its turn
use sender
each 1 2 protect 62 = $
step = worked
refill
each 3 6 protect 62 = $
submit set-replay on 3 = 1
step = worked
has-under-way set-replay on 3 = yes

# The device passes no call behind the opening.
story a step without work makes no device call
format 0200000000010001 4 4
fail 260 on
open
each 1 2 step = idle
submit tx-use 0 = 1
step = done 1 refused SlotEmpty
step = idle
stopped = no
submit set-replay on 3 = 2
step = Disk
