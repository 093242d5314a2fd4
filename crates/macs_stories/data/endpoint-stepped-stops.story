# Stops at each step, and power losses behind each: what is found is what stood before, or that and
# the one thing under way.

setup new
format 0200000000010001 4 4

# The disk of a sender has two records: an opening makes 262 calls.
setup sender
use new
open
tx-install 0 1 1
tx-use 0
close

# So many steps make a device call each, and the next one fails. Then nothing is answered but that
# the endpoint is stopped.
setup stopped
each 1 $calls step = worked
step = Disk
stopped = yes
step = Stopped
submit rx-add b = Stopped
rx-add b = Stopped
refill = Stopped
protect 62 = Stopped
receive b 5 2 1 62 = Stopped

story a command stopped at a step is found or not
with calls=0..2 loss=last window=0
with calls=3 loss=last window=3
with calls=0..3 loss=durable window=0
use new
fail 260+$calls on
open
submit set-replay on 3 = 1
use stopped
has-under-way set-replay on 3 = yes
window = 0
power-loss $loss
fail never
open
window = $window

# A command that waits is not under way.
story a reservation stopped at a step is found or not
with calls=0..2 loss=last next=5
with calls=3 loss=last next=9
with calls=0..3 loss=durable next=5
use sender
fail 262+$calls on
open
submit set-replay on 3 = 1
use stopped
under-way = no
next 0 = 5
power-loss $loss
fail never
open
next 0 = $next
window = 0

# The device passes the calls of a reservation and of a command, and no further one.
story a step is one device call
with loss=last
with loss=durable
use sender
fail 262+8 on
open
submit set-replay on 3 = 1
each 1 3 step = worked
step = reserved
each 1 3 step = worked
step = done 1 ok
each 5 6 protect 62 = $
step = Disk
power-loss $loss
fail never
open
next 0 = 9
window = 3

# A plain frame is handed in behind each of so many steps, while commands wait, and then the power
# goes. With blocks of 4 the first command takes steps 1 to 4; two numbers are left behind frame 2,
# so that steps 5 to 8 are a reservation, which frames wait for; 9 to 12 are the second command, 13
# to 16 the next reservation. The gate of a reservation is written by its third step. The endpoint
# that is found makes a reservation first, in four steps, and then a command.
story no number goes out twice wherever power goes
with first=0 waits=4 second=4 waits-again=11 third=8 loss=last next=5
with first=0 waits=4 second=4 waits-again=11 third=8 loss=durable next=5
with first=1 waits=4 second=4 waits-again=11 third=8 loss=last next=5
with first=1 waits=4 second=4 waits-again=11 third=8 loss=durable next=5
with first=2 waits=4 second=4 waits-again=11 third=8 loss=last next=5
with first=2 waits=4 second=4 waits-again=11 third=8 loss=durable next=5
with first=3 waits=4 second=4 waits-again=11 third=8 loss=last next=5
with first=3 waits=4 second=4 waits-again=11 third=8 loss=durable next=5
with first=4 waits=4 second=4 waits-again=11 third=8 loss=last next=5
with first=4 waits=4 second=4 waits-again=11 third=8 loss=durable next=5
with first=4 waits=5 second=4 waits-again=11 third=8 loss=last next=5
with first=4 waits=5 second=4 waits-again=11 third=8 loss=durable next=5
with first=4 waits=6 second=4 waits-again=11 third=8 loss=last next=5
with first=4 waits=6 second=4 waits-again=11 third=8 loss=durable next=5
with first=4 waits=7 second=4 waits-again=11 third=8 loss=last next=9
with first=4 waits=7 second=4 waits-again=11 third=8 loss=durable next=5
with first=4 waits=7 second=5 waits-again=11 third=8 loss=last next=9
with first=4 waits=7 second=5 waits-again=11 third=8 loss=durable next=9
with first=4 waits=7 second=6 waits-again=11 third=8 loss=last next=9
with first=4 waits=7 second=6 waits-again=11 third=8 loss=durable next=9
with first=4 waits=7 second=7 waits-again=11 third=8 loss=last next=9
with first=4 waits=7 second=7 waits-again=11 third=8 loss=durable next=9
with first=4 waits=7 second=8 waits-again=11 third=8 loss=last next=9
with first=4 waits=7 second=8 waits-again=11 third=8 loss=durable next=9
with first=4 waits=7 second=8 waits-again=12 third=8 loss=last next=9
with first=4 waits=7 second=8 waits-again=12 third=8 loss=durable next=9
with first=4 waits=7 second=8 waits-again=13 third=8 loss=last next=9
with first=4 waits=7 second=8 waits-again=13 third=8 loss=durable next=9
with first=4 waits=7 second=8 waits-again=14 third=8 loss=last next=9
with first=4 waits=7 second=8 waits-again=14 third=8 loss=durable next=9
with first=4 waits=7 second=8 waits-again=15 third=8 loss=last next=13
with first=4 waits=7 second=8 waits-again=15 third=8 loss=durable next=9
with first=4 waits=7 second=8 waits-again=15 third=9 loss=last next=13
with first=4 waits=7 second=8 waits-again=15 third=9 loss=durable next=13
use new
open
tx-install 0 1 1
tx-use 0
each 1 $first submit set-replay on 3 = *; step = *; protect 62 = $
each 5 $waits submit set-replay on 3 = *; step = *; protect 62 = NoNumber
each 5 $second submit set-replay on 3 = *; step = *; protect 62 = $
each 12 $waits-again submit set-replay on 3 = *; step = *; protect 62 = NoNumber
each 9 $third submit set-replay on 3 = *; step = *; protect 62 = $
stopped = no
power-loss $loss
open
next 0 = $next
each 1 3 submit set-replay on 3 = *; step = *; protect 62 = NoNumber
each 0 3 submit set-replay on 3 = *; step = *; protect 62 = $next+$
each 8 9 submit set-replay on 3 = *; step = *; protect 62 = NoNumber
stopped = no

# With blocks of 16 a frame goes out between any two steps: eight numbers are left behind frame 8,
# and steps 9 to 12 are a reservation.
story no number goes out twice wherever power goes, in wide blocks
with steps=0..10 loss=last next=17
with steps=0..10 loss=durable next=17
with steps=11 loss=last next=33
with steps=11 loss=durable next=17
with steps=12..16 loss=last next=33
with steps=12..16 loss=durable next=33
format 0200000000010001 16 16
open
tx-install 0 1 1
tx-use 0
each 1 $steps submit set-replay on 3 = *; step = *; protect 62 = $
stopped = no
power-loss $loss
open
next 0 = $next
each 1 3 submit set-replay on 3 = *; step = *; protect 62 = NoNumber
each 0 5 submit set-replay on 3 = *; step = *; protect 62 = $next+$
stopped = no

# The peer's frames from number 1 on come behind each of so many steps, while commands wait, with
# blocks of 16. The first command takes steps 1 to 4; steps 5 to 8 are a reservation of 16 numbers
# beyond frame 4, up to 20; 9 to 12 are the second command, and 13 to 16 a reservation beyond frame
# 12, up to 28. Behind the power loss they come again: what is found is late below the ceiling;
# frames from there on are held back until the endpoint's turn is a reservation's.
setup receives
each 1 $held submit set-replay on 0 = *; step = *; receive b 5 2 $ 62 = held back
each 8 $delivered submit set-replay on 0 = *; step = *; receive b 5 2 $ 62 = delivered Ok
stopped = no
power-loss $loss
open
numbers b 2 = $next $next

setup wide receiver
format 0200000000010001 16 16
open
rx-add b
rx-install b 2 5 1

story no frame is delivered twice wherever power goes
with held=0 delivered=7 loss=last next=1 late=0 last=7
with held=0 delivered=7 loss=durable next=1 late=0 last=7
with held=1 delivered=7 loss=last next=1 late=0 last=7
with held=1 delivered=7 loss=durable next=1 late=0 last=7
with held=2 delivered=7 loss=last next=1 late=0 last=7
with held=2 delivered=7 loss=durable next=1 late=0 last=7
with held=3 delivered=7 loss=last next=1 late=0 last=7
with held=3 delivered=7 loss=durable next=1 late=0 last=7
with held=4 delivered=7 loss=last next=1 late=0 last=7
with held=4 delivered=7 loss=durable next=1 late=0 last=7
with held=5 delivered=7 loss=last next=1 late=0 last=7
with held=5 delivered=7 loss=durable next=1 late=0 last=7
with held=6 delivered=7 loss=last next=1 late=0 last=7
with held=6 delivered=7 loss=durable next=1 late=0 last=7
with held=7 delivered=7 loss=last next=20 late=19 last=23
with held=7 delivered=7 loss=durable next=1 late=0 last=7
with held=7 delivered=8 loss=last next=20 late=19 last=23
with held=7 delivered=8 loss=durable next=20 late=19 last=23
with held=7 delivered=9 loss=last next=20 late=19 last=23
with held=7 delivered=9 loss=durable next=20 late=19 last=23
with held=7 delivered=10 loss=last next=20 late=19 last=23
with held=7 delivered=10 loss=durable next=20 late=19 last=23
with held=7 delivered=11 loss=last next=20 late=19 last=23
with held=7 delivered=11 loss=durable next=20 late=19 last=23
with held=7 delivered=12 loss=last next=20 late=19 last=23
with held=7 delivered=12 loss=durable next=20 late=19 last=23
with held=7 delivered=13 loss=last next=20 late=19 last=23
with held=7 delivered=13 loss=durable next=20 late=19 last=23
with held=7 delivered=14 loss=last next=20 late=19 last=23
with held=7 delivered=14 loss=durable next=20 late=19 last=23
with held=7 delivered=15 loss=last next=28 late=27 last=31
with held=7 delivered=15 loss=durable next=20 late=19 last=23
with held=7 delivered=16 loss=last next=28 late=27 last=31
with held=7 delivered=16 loss=durable next=28 late=27 last=31
use wide receiver
use receives
each 1 $late submit set-replay on 0 = *; step = *; receive b 5 2 $ 62 = discarded Late
each $next $last submit set-replay on 0 = *; step = *; receive b 5 2 $ 62 = held back
each $last+1 40 submit set-replay on 0 = *; step = *; receive b 5 2 $ 62 = delivered Ok
stopped = no
