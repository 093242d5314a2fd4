# Planned ends: a rest compacts the journal, with the next packet numbers as ceilings. The endpoint
# has sent 1 to 3 with a ceiling of 5, and the peer's association 2 has delivered 1 and 2 with one of
# 5. The snapshot has six records: settings, both associations, the channel, a spent key each side. So
# a rest makes 268 calls: the reads of 257 gates, a sync, the bodies of the head and of six records, a
# sync, the head gate, a sync.

setup sending
format 0200000000010001 4 4
open
tx-install 0 1 1
tx-use 0
rx-add b
rx-install b 2 5 1
receive b 5 2 1 62 = held back
refill
receive b 5 2 1 62 = delivered Ok
receive b 5 2 2 62 = delivered Ok
each 1 3 protect 62 = $
next 0 = 4
numbers b 2 = 3 3

# Nothing is skipped, and no number is used before it is reserved again.
story a planned end skips no packet number
with loss=last
with loss=durable
use sending
plan-end
protect 62 = NoNumber
receive b 5 2 3 62 = held back
next 0 = 4
numbers b 2 = 3 3
power-loss $loss
open
next 0 = 4
numbers b 2 = 3 3
refill
protect 62 = 4
receive b 5 2 2 62 = discarded Late
receive b 5 2 3 62 = held back

story an end that is not planned skips up to the ceilings
with loss=last
with loss=durable
use sending
power-loss $loss
open
next 0 = 5
numbers b 2 = 5 5

story after a planned end a reservation counts again
with loss=last
with loss=durable
use sending
plan-end
refill
protect 62 = 4
power-loss $loss
open
next 0 = 8

# The device passes so many calls of the rest.
story a rest stopped at a call is found or not
with calls=0..266 loss=last next=5 lowest=5
with calls=267 loss=last next=4 lowest=3
with calls=0..267 loss=durable next=5 lowest=5
use sending
fail $calls on
plan-end = Disk
stopped = yes
plan-end = Stopped
power-loss $loss
fail never
open
next 0 = $next
numbers b 2 = $lowest $lowest

story a rest that is not stopped makes 268 calls
use sending
calls = *
plan-end
calls = 268
fail 1 on
protect 62 = NoNumber
plan-end = Disk

# A reservation that steps have begun is finished first: its record, and the four calls of it.
story a rest finishes a reservation
with loss=last
with loss=durable
use sending
step = worked
plan-end
power-loss $loss
open
next 0 = 4
numbers b 2 = 3 3

story a rest waits for no command
use sending
submit set-replay on 3 = 1
plan-end = Busy
next 0 = 4
finish = 7 done 1 ok
plan-end
next 0 = 4
