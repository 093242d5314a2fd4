# Stores whose journal begins anew with a snapshot of what stands. The first area of a filled disk
# has a head of this generation, under which the settings are the snapshot, and behind them commands
# that make an association of either side, then windows, each by the number of its slot. An opening
# of a full area makes 515 device calls. A command there makes 272: the reads of 257 gates, a sync,
# the bodies of the head and of six records, a sync, the head gate, a sync, and four for its own
# record.

setup filled
write 0 head $generation 1 0200000000010001 4 6
write 1 gate
write 2 record settings
write 4 record tx-install 0 01010101010101010101010101010101 1 30; write 5 gate
write 6 record tx-use 0; write 7 gate
write 8 record rx-add 12153524c0895e81; write 9 gate
write 10 record rx-install 12153524c0895e81 0 02020202020202020202020202020202 1; write 11 gate
each 5 $last write 2+2*$ record set-replay on $; write 3+2*$ gate
sync

# What a filled disk has beside its window.
setup associations
encoding = 0
channels = 12153524c0895e81
tx-ceiling 0 = 5
rx-ceiling 12153524c0895e81 0 = 1
spent-tx 01010101010101010101010101010101 = yes
spent-rx 12153524c0895e81 01010101010101010101010101010101 = no
spent-tx 02020202020202020202020202020202 = no
spent-rx 12153524c0895e81 02020202020202020202020202020202 = yes
stopped = no

story a full journal begins anew
with loss=last
with loss=durable
format 0200000000010001 4 6
open-store
tx-install 0 01010101010101010101010101010101 1 30
tx-use 0
rx-add 12153524c0895e81
rx-install 12153524c0895e81 0 02020202020202020202020202020202 1
each 1 251 set-replay on $
window = 251
use associations
set-replay on 9
power-loss $loss
open-store
window = 9
use associations

# The device passes the last call of the command, and no further one.
story a compaction makes so many calls
with generation=1 last=255
and loss=last
and loss=durable
use filled
fail 515+272 on
open-store
set-replay on 9
stopped = no
set-replay on 8 = Disk
power-loss $loss
fail never
open-store
window = 9
use associations

# Stops at the first and the last reads of gates and the sync behind them, at the first body, and at
# either gate and the body between them: no sector is pending.
story a compaction stopped before a write leaves what stood
with generation=1 last=255 loss=last
with generation=1 last=255 loss=durable
and calls=0..1
and calls=128
and calls=256..258
and calls=266
and calls=268
and calls=270
use filled
fail 515+$calls on
open-store
set-replay on 9 = Disk
window = 255
stopped = yes
close
pending = 0
power-loss $loss
fail never
open-store
window = 255
use associations
set-replay on 9
power-loss $loss
open-store
window = 9
use associations

# Stops behind the first body, some and all of them, and behind the head gate and the body of the
# command's record: these are pending.
story a compaction stopped behind a write leaves what stood
with generation=1 last=255 calls=259 pending=1
with generation=1 last=255 calls=262 pending=4
with generation=1 last=255 calls=265 pending=7
with generation=1 last=255 calls=267 pending=1
with generation=1 last=255 calls=269 pending=1
and way=durable
and way=last
and way=zeros
and way=ones
and way=gate
and way=half
use filled
use a stop behind a write
window = 255
use associations
use the command again

# The gate of the command's record decides.
story a compaction stopped behind its last write is there or not
with generation=1 last=255 calls=271 pending=1
and way=durable window=255
and way=last window=9
and way=zeros window=255
and way=ones window=255
and way=gate window=9
and way=half window=9
use filled
use a stop behind a write
window = $window
use associations
use the command again

setup a stop behind a write
fail 515+$calls on
open-store
set-replay on 9 = Disk
window = 255
stopped = yes
close
pending = $pending
power-loss $way
fail never
open-store

setup the command again
set-replay on 9
power-loss last
open-store
window = 9
use associations

# The first area has 256 open gates, that of its head and those of all slots but the snapshot's,
# when the second one is full: they are closed again. An opening makes 511 calls then: a sync, the
# reads of two head gates and two head bodies, of 250 gates behind the snapshot and of 256 bodies.
story areas take turns
with generation=1 last=255
and loss=last
and loss=durable
use filled
open-store
each 1001 1250 set-replay on $
close
fail 511+528 on
open-store
window = 1250
use associations
set-replay on 9
window = 9
set-replay on 8 = Disk
power-loss $loss
fail never
open-store
window = 9
use associations

story a transmit reservation begins the journal anew
with generation=1 last=255
and loss=last
and loss=durable
use filled
open-store
reserve-tx 0
tx-ceiling 0 = 9
power-loss $loss
open-store
window = 255
tx-ceiling 0 = 9
rx-ceiling 12153524c0895e81 0 = 1

story a receive reservation begins the journal anew
with generation=1 last=255
and loss=last
and loss=durable
use filled
open-store
reserve-rx 12153524c0895e81 0 3
rx-ceiling 12153524c0895e81 0 = 9
power-loss $loss
open-store
window = 255
tx-ceiling 0 = 5
rx-ceiling 12153524c0895e81 0 = 9

# The device passes no call behind the opening: each of these would stop the store.
story the last generation takes no further record
with generation=18446744073709551615 last=255
and loss=last
and loss=durable
use filled
fail 515 on
open-store
set-replay on 9 = GenerationsSpent
tx-use 1 = refused SlotEmpty
reserve-tx 0 = GenerationsSpent
reserve-rx 12153524c0895e81 0 3 = GenerationsSpent
window = 255
use associations
power-loss $loss
fail never
open-store
window = 255
use associations

story the last slot of the last generation is used
with generation=18446744073709551615 last=254
and loss=last
and loss=durable
use filled
open-store
window = 254
set-replay on 9
set-replay on 8 = GenerationsSpent
power-loss $loss
open-store
window = 9
use associations

# The associations are gone before the journal begins anew.
story keys stay spent
with loss=last
with loss=durable
format 0200000000010001 4 6
open-store
tx-install 0 01010101010101010101010101010101 1 30
tx-remove 0
rx-add 12153524c0895e81
rx-install 12153524c0895e81 0 02020202020202020202020202020202 1
rx-remove 12153524c0895e81 0
each 1 251 set-replay on $
use spent keys
power-loss $loss
open-store
use spent keys

setup spent keys
tx-install 1 01010101010101010101010101010101 1 30 = refused KeySpent
rx-install 12153524c0895e81 1 02020202020202020202020202020202 1 = refused KeySpent
tx-ceiling 0 = none
rx-ceiling 12153524c0895e81 0 = none
