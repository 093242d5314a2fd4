# A store stopped at each device call: what is found is what stood before, or that and the one thing
# under way. Its disk has one record, a transmit association, so that an opening makes 261 calls. The
# last write of a gate stands, though its sync did not come.

setup stored
format 0200000000010001 4 6
open-store
tx-install 0 01010101010101010101010101010101 1 30
close

story a command stopped at a call is there or not
with calls=0..2 loss=last window=0
with calls=3 loss=last window=3
with calls=0..3 loss=durable window=0
use stored
fail 261+$calls on
open-store
set-replay on 3 = Disk
window = 0
stopped = yes
set-replay on 4 = Stopped
reserve-tx 0 = Stopped
power-loss $loss
fail never
open-store
window = $window

story a command that is not stopped is there
with loss=last
with loss=durable
use stored
fail 261+4 on
open-store
set-replay on 3
window = 3
stopped = no
power-loss $loss
fail never
open-store
window = 3

story a reservation stopped at a call is there or not
with calls=0..2 loss=last ceiling=5
with calls=3 loss=last ceiling=9
with calls=0..3 loss=durable ceiling=5
use stored
fail 261+$calls on
open-store
reserve-tx 0 = Disk
tx-ceiling 0 = 5
power-loss $loss
fail never
open-store
tx-ceiling 0 = $ceiling

story a reservation that is not stopped is there
with loss=last
with loss=durable
use stored
fail 261+4 on
open-store
reserve-tx 0
tx-ceiling 0 = 9
power-loss $loss
fail never
open-store
tx-ceiling 0 = 9

# The same command is taken then.
story a gate torn closed takes the command back
with loss=last
with loss=durable
use stored
fail 261+3 on
open-store
set-replay on 3 = Disk
close
fail never
tear 7 zeros
power-loss torn
open-store
window = 0
set-replay on 3
power-loss $loss
open-store
window = 3
