# Endpoints whose journal begins anew while frames go on. The endpoint has an association on either
# side, and all slots of the second area used. The first area had a snapshot of one record, in whose
# slot the gate is closed, since the head gate stands for it; its 256 other gates are open. A
# snapshot has six records: the settings, a transmit association, a channel, its association, and
# the spent keys of either side. A command, or a reservation, that finds all slots used takes 272
# steps where no gate of the other area is open, and one more for each gate that is.

setup full again
format 0200000000010001 $block $block
open
tx-install 0 1 1
tx-use 0
rx-add b
rx-install b 2 5 1
each 1 251 set-replay on $
submit set-replay on 252 = 1
finish = 271 done 1 ok
each 253 501 set-replay on $

story a compaction is counted
with block=4 loss=last
with block=4 loss=durable
use full again
submit set-replay on 502 = 2
finish = 527 done 2 ok
power-loss $loss
open
window = 502
next 0 = 5
numbers b 2 = 1 1

# The last gate of the first area is open, too: nobody looks at it there. An opening makes 511
# calls: a sync, the reads of two head gates and two head bodies, of the 250 gates behind the
# snapshot and of 256 bodies. What is needed first after it is a reservation. Each step makes one
# device call, and the device passes no further one.
story a worst compaction is counted
with block=4 loss=last
with block=4 loss=durable
use full again
close
put 3 gate
fail 511+529 on
open
rest = 529 idle
protect 62 = 5
submit set-replay on 503 = 1
step = Disk
power-loss $loss
fail never
open
window = 501
next 0 = 9
numbers b 2 = 1 1

# A full disk: 255 commands behind the snapshot of a new journal. The 256th takes 267 steps; behind
# 266 of them its own gate is written.
setup full
format 12153524c0895e81 4 4
open
each 1 255 set-replay on $
close
open
submit set-replay on 256 = 1
each 1 $steps step = worked

setup found
open
window = $window
under-way = no
stopped = no

story a command is not found before its gate is open
with steps=257..265 window=255
and way=durable
and way=last
and way=zeros
and way=ones
and way=gate
and way=half
use full
power-loss $way
use found

story a command is found once its gate is open
with steps=266
and way=durable window=255
and way=last window=256
and way=zeros window=255
and way=ones window=255
and way=gate window=256
and way=half window=256
use full
power-loss $way
use found

# The power goes while the gates of the other area are read.
story a command is not found while gates are read
with steps=0..1 window=255
with steps=100 window=255
with steps=256 window=255
use full
power-loss last
use found

# Blocks of 1,300 numbers: the reservation begins when half of them are left, and takes 528 steps.
story frames go out while the journal begins anew
with block=1300 loss=last
with block=1300 loss=durable
use full again
each 1 649 protect 62 = $; step = idle
each 650 1176 protect 62 = $; step = worked
each 1177 1177 protect 62 = $; step = reserved
each 1178 1400 protect 62 = $; step = idle
power-loss $loss
open
next 0 = 2601
