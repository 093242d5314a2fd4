# Endpoints whose journal begins anew with a snapshot of what stands. A full disk has 255 commands
# behind the snapshot of a new journal: all slots are used, and an opening makes 515 device calls.
# The 256th command makes 267: the reads of 257 gates, none of which is open, a sync, the bodies of
# the head and of the settings, a sync, the head gate, a sync, and four for its own record.

setup full
format 12153524c0895e81 4 4
open
each 1 255 set-replay on $
close

story the first sectors of a journal that began anew
with loss=last
with loss=durable
use full
open
set-replay on 256
window = 256
power-loss $loss
sector 514 = 4d534543484541440000000200000000000000020000000112153524c0895e810000000400000004
sector 515 = 4d5345434f50454e
sector 516 = 4d524543010001000000ff00ff
sector 517 = -
sector 518 = 4d5245430701000001
sector 519 = 4d5345434f50454e
sector 520 = -
sector 521 = -
open
window = 256

# The device passes so many calls of the 256th command.
setup stopped
fail 515+$calls on
open
window = 255
set-replay on 256 = Disk
has-under-way set-replay on 256 = yes
window = 255
stopped = yes
close
fail never

setup found
open
window = $window
under-way = no
stopped = no

# Nothing is written yet.
story a command stopped at a read of a compaction is not found
with calls=0..258 window=255
use full
use stopped
pending = 0
power-loss last
use found

# The same on one disk, one stop after another.
setup one more stop
fail 515+$ on
open
window = 255
set-replay on 256 = Disk
has-under-way set-replay on 256 = yes
window = 255
stopped = yes
close
fail never
pending = 0
power-loss last

story commands stopped at each read of a compaction are not found
with window=255
use full
each 0 258 use one more stop
use found

# Nothing is written, the bodies of the head and of the settings, the head gate, the command's body
# or its gate are.
story a command stopped at a write of a compaction is not found
with calls=259 pending=1 window=255
with calls=260 pending=2 window=255
with calls=261 pending=0 window=255
with calls=262 pending=1 window=255
with calls=263 pending=0 window=255
with calls=264 pending=1 window=255
with calls=265 pending=0 window=255
and way=durable
and way=last
and way=zeros
and way=ones
and way=gate
and way=half
use full
use stopped
pending = $pending
power-loss $way
use found

# The last call makes the gate of the command's slot durable.
story a command stopped at the last call of a compaction is found or not
with calls=266
and way=durable window=255
and way=last window=256
and way=zeros window=255
and way=ones window=255
and way=gate window=256
and way=half window=256
use full
use stopped
pending = 1
power-loss $way
use found

# The device passes the last call of the command, and no further one.
story a command with a compaction that is not stopped is kept
with loss=last
with loss=durable
use full
fail 515+267 on
open
set-replay on 256
window = 256
set-replay on 257 = Disk
power-loss $loss
fail never
open
window = 256

# The reservation is the first record behind the snapshot, which has the ceiling of before.
story transmit numbers go on above the ceiling
with loss=last
with loss=durable
format 0200000000010001 4 4
open
tx-install 0 1 1
tx-use 0
each 1 253 set-replay on $
each 1 2 protect 62 = $
refill
protect 62 = 3
next 0 = 4
window = 253
power-loss $loss
open
next 0 = 9
protect 62 = NoNumber
refill
protect 62 = 9

story received numbers go on above the ceiling
with loss=last
with loss=durable
format 0200000000010001 4 4
open
rx-add b
rx-install b 2 5 1
each 1 253 set-replay on $
receive b 5 2 5 62 = held back
refill
receive b 5 2 5 62 = delivered Ok
receive b 5 2 8 62 = delivered Ok
power-loss $loss
open
numbers b 2 = 9 9
receive b 5 2 5 62 = discarded Late
receive b 5 2 9 62 = held back
refill
receive b 5 2 9 62 = delivered Ok

# The associations are gone before the journal begins anew.
story a key stays spent
with loss=last
with loss=durable
format 0200000000010001 4 4
open
tx-install 0 1 1
tx-remove 0
rx-add b
rx-install b 0 5 1
rx-remove b 0
each 1 251 set-replay on $
tx-install 1 1 1 = refused KeySpent
rx-install b 1 5 1 = refused KeySpent
window = 251
power-loss $loss
open
tx-install 1 1 1 = refused KeySpent
rx-install b 1 5 1 = refused KeySpent
window = 251

# The disk of an endpoint that sends: all slots are used, and the generation is the last.
setup spent
format 0200000000010001 4 4
open
tx-install 0 1 1
tx-use 0
each 1 253 set-replay on $
close
put 0 head 18446744073709551615 1 0200000000010001 4 4

# The device passes no call behind the opening: each of these would stop the endpoint.
story the last generation takes no further record
with loss=last
with loss=durable
use spent
fail 515 on
open
set-replay on 9 = GenerationsSpent
tx-use 1 = refused SlotEmpty
protect 62 = NoNumber
refill = GenerationsSpent
stopped = no
under-way = no
window = 253
next 0 = 5
power-loss $loss
fail never
open
window = 253
next 0 = 5

# The device passes no call behind the opening. A reservation that the spent journal refuses uses
# its turn.
story the last generation refuses by turns
use spent
fail 515 on
open
submit set-replay on 9 = 1
submit tx-use 1 = 2
step = GenerationsSpent
step = done 1 GenerationsSpent
step = GenerationsSpent
step = done 2 refused SlotEmpty
each 1 2 step = GenerationsSpent
protect 62 = NoNumber
under-way = no
stopped = no
window = 253
next 0 = 5

# 256 slots are used in either area. 257 gates of the other one are read, 256 closed, then come a
# sync and two bodies. The old gates are closed for good before a body behind them changes.
story the gates of the other area are closed before a body behind them changes
format 0200000000010001 4 4
open
each 1 510 set-replay on $
close
open
fail 516 on
set-replay on 511 = Disk
close
fail never
tear 1 durable = no
tear 2 durable
pending = 2
power-loss torn
open
window = 510
