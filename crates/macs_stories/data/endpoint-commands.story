# Commands that are kept, torn or refused. The peer is b, its key 5.

setup new
format 0200000000010001 4 4
open

story a new endpoint has the default configuration
use new
identity = 0200000000010001 4 4
settings = Strict on 0 Explicit none 0
stopped = no
under-way = no

# An install whose gate was written and not made durable.
setup torn install
format 0200000000010001 4 4
fail 260+3 on
open
tx-install 0 1 1 = Disk
close
fail never

story a gate torn open keeps the command
with way=gate
with way=last
with way=half
use torn install
tear 5 $way
power-loss torn
open
next 0 = 5
tx-install 0 1 1 = refused SlotTaken
tx-install 1 1 1 = refused KeySpent
next 1 = none

story a gate torn closed takes the command back
with way=zeros
with way=durable
with way=ones
use torn install
tear 5 $way
power-loss torn
open
next 0 = none
tx-install 0 1 1
next 0 = 1

story a body that is made durable has no gate that is pending
format 0200000000010001 4 4
open
fail 2 on
tx-install 0 1 1 = Disk
close
fail never
tear 5 gate = no
power-loss torn
open
next 0 = none

# On the receive side it is spent for one channel.
story a key stays spent
with loss=last
with loss=durable
use new
tx-install 0 1 1
tx-remove 0
next 0 = none
tx-install 1 1 1 = refused KeySpent
power-loss $loss
open
next 0 = none
tx-install 1 1 1 = refused KeySpent
rx-add b
rx-install b 0 5 1
rx-remove b 0
rx-install b 1 5 1 = refused KeySpent

# What stands after every command is what is found.
story commands are found again
with loss=last
with loss=durable
use new
set-validate check
set-replay on 7
set-sci-mode end-station
tx-install 0 1 5
tx-install 3 2 4294967293
tx-use 3
tx-remove 0
rx-add b
rx-install b 0 5 9
rx-add 9
rx-drop 9
next 3 = 4294967293
power-loss $loss
open
settings = Check on 7 EndStation 3 1
channel b = yes
channel 9 = no
next 0 = none
next 3 = 4294967296
numbers b 0 = 9 9
numbers b 3 = none

# A key of 256 bits, and one of 128 bits: both are kept by records and by a snapshot.
story a long and a short key outlive a power loss and a compaction
with long=000102030405060708090a0b0c0d0e0f101112131415161718191a1b1c1d1e1f short=000102030405060708090a0b0c0d0e0f
and loss=last
and loss=durable
use new
tx-install 0 $long 1
tx-install 1 $short 1
tx-use 0
protect 62 = 1
tx-use 1
protect 62 = 1
power-loss $loss
open
next 0 = 5
next 1 = 5
refill
protect 62 = 5
each 1 256 set-replay on $
close
open-journal
version = 2
snapshot = 4
close
open
next 0 = 5
next 1 = 9
tx-install 2 $long 1 = refused KeySpent
tx-install 2 $short 1 = refused KeySpent
tx-install 0 $long 1 = refused SlotTaken
tx-install 1 $short 1 = refused SlotTaken

# A key of 256 bits, and one of 128 bits that is its first half: each is another key than the other.
story a long and a short key stand side by side
with key=000102030405060708090a0b0c0d0e0f101112131415161718191a1b1c1d1e1f
use new
rx-add b
tx-install 0 $key 1
rx-install b 0 $key 1
tx-install 0 $key 1 = refused SlotTaken
tx-install 1 $key 1 = refused KeySpent
spent-tx $key = yes
spent-rx b $key = yes
spent-tx 000102030405060708090a0b0c0d0e0f = no
submit tx-install 1 000102030405060708090a0b0c0d0e0f 1 = 1
finish = 3 done 1 ok
rx-install b 1 000102030405060708090a0b0c0d0e0f 1
spent-tx 000102030405060708090a0b0c0d0e0f = yes
power-loss last
open
next 0 = 5
next 1 = 5
tx-install 2 $key 1 = refused KeySpent
rx-install b 2 $key 1 = refused KeySpent
tx-install 2 000102030405060708090a0b0c0d0e0f 1 = refused KeySpent
rx-install b 2 000102030405060708090a0b0c0d0e0f 1 = refused KeySpent
