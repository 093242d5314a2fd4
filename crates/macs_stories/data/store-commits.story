# Commands that a store keeps, and those that it refuses; ceilings that rise. Blocks are of 4 packet
# numbers on the transmit side and of 6 on the receive side. An opening of a new journal makes 260
# device calls.

setup new
format 0200000000010001 4 6

story a new disk has the default configuration
use new
open-store
identity = 0200000000010001 4 6
settings = Strict on 0 Explicit none 0
each 0 3 tx-ceiling $ = none; rx-ceiling 12153524c0895e81 $ = none

# What stands after every command is what is found. An association that is gone has no ceiling; a
# new one may use a block, or what is left of it. Keys stay spent.
story commands are found again
with one=01010101010101010101010101010101 two=02020202020202020202020202020202
and three=03030303030303030303030303030303 four=04040404040404040404040404040404 loss=last
and three=03030303030303030303030303030303 four=04040404040404040404040404040404 loss=durable
use new
open-store
set-validate check
set-replay off 7
set-sci-mode end-station
tx-install 0 $one 5 30
tx-install 3 $two 4294967293 30
tx-use 3
tx-remove 0
rx-add 12153524c0895e81
rx-install 12153524c0895e81 0 $three 9
rx-install 12153524c0895e81 3 $four 4294967295
rx-remove 12153524c0895e81 3
power-loss $loss
open-store
settings = Check off 7 EndStation 3 1
tx-association 0 = none
tx-association 3 = 02020202020202020202020202020202 30
rx-association 12153524c0895e81 0 = 03030303030303030303030303030303 0
channel 12153524c0895e81 = yes
tx-ceiling 0 = none
tx-ceiling 3 = 4294967296
rx-ceiling 12153524c0895e81 0 = 9
rx-ceiling 12153524c0895e81 3 = none
spent-tx $one = yes; spent-rx 12153524c0895e81 $one = no
spent-tx $two = yes; spent-rx 12153524c0895e81 $two = no
spent-tx $three = no; spent-rx 12153524c0895e81 $three = yes
spent-tx $four = no; spent-rx 12153524c0895e81 $four = yes

story a dropped channel comes back without ceilings
with loss=last
with loss=durable
use new
open-store
rx-add 12153524c0895e81
rx-install 12153524c0895e81 0 03030303030303030303030303030303 9
rx-drop 12153524c0895e81
rx-ceiling 12153524c0895e81 0 = none
rx-add 12153524c0895e81
rx-ceiling 12153524c0895e81 0 = none
power-loss $loss
open-store
channel 12153524c0895e81 = yes
rx-ceiling 12153524c0895e81 0 = none
rx-install 12153524c0895e81 0 03030303030303030303030303030303 9 = refused KeySpent

# A channel that comes or goes leaves the ceilings of another: 9 is the start of its association.
story a channel keeps its ceilings beside another
with loss=last
with loss=durable
use new
open-store
rx-add 12153524c0895e81
rx-install 12153524c0895e81 0 03030303030303030303030303030303 9
rx-add b
rx-ceiling 12153524c0895e81 0 = 9
rx-ceiling b 0 = none
rx-drop b
rx-ceiling 12153524c0895e81 0 = 9
power-loss $loss
open-store
rx-ceiling 12153524c0895e81 0 = 9

# The device passes the calls of the opening, and no further one: at that the store stops.
story a refused command makes no call
use new
fail 260 on
open-store
tx-use 0 = refused SlotEmpty
tx-install 0 01010101010101010101010101010101 0 30 = refused StartRange
set-replay on 1 = Disk
window = 0
set-replay on 1 = Stopped
tx-use 0 = Stopped

story disks without a journal are refused
disk 1027
open-store = TooSmall
disk 1028
open-store = NotFormatted
use new
fail 259 on
open-store = Disk

story a transmit ceiling rises by a block
with loss=last
with loss=durable
use new
open-store
tx-install 0 01010101010101010101010101010101 5 30
tx-install 3 02020202020202020202020202020202 4294967290 30
tx-ceiling 0 = 9
tx-ceiling 3 = 4294967294
each 1 2 reserve-tx 0
reserve-tx 3
tx-ceiling 0 = 17
tx-ceiling 3 = 4294967296
power-loss $loss
open-store
tx-ceiling 0 = 17
tx-ceiling 3 = 4294967296

story a receive ceiling rises beyond what was seen
with loss=last
with loss=durable
use new
open-store
rx-add 12153524c0895e81
rx-install 12153524c0895e81 2 01010101010101010101010101010101 5
rx-ceiling 12153524c0895e81 2 = 5
reserve-rx 12153524c0895e81 2 1
rx-ceiling 12153524c0895e81 2 = 7
reserve-rx 12153524c0895e81 2 4294967295
rx-ceiling 12153524c0895e81 2 = 4294967296
power-loss $loss
open-store
rx-ceiling 12153524c0895e81 2 = 4294967296
