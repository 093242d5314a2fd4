# Disks of format one: an opening begins the journal anew in the other area, in format two. A disk of
# format one is made of one of format two by another head body.

# The three sectors that a format of the older edition writes.
setup old
put 0 4d534543484541440000000100000000000000010000000112153524c0895e810000000400000004
put 1 gate
put 2 record settings

# One transmit association, whose ceiling is 5: three records, and as many in a snapshot.
setup old sender
format 0200000000010001 4 4
open
tx-install 0 1 1
tx-use 0
close
put 0 old-head 1 1 0200000000010001 4 4

# The calls of the first opening: a sync, the reads of two head gates and a head body, of 255 gates of
# slots and one body; then 257 reads of gates, a sync, two bodies, a sync, the head gate, a sync. The
# second opening reads two head bodies, and writes nothing.
story a journal of format one begins anew when it is opened
use old
calls = *
open
calls = 523
identity = 12153524c0895e81 4 4
close
pending = 0
sector 0 = 4d534543484541440000000100000000000000010000000112153524c0895e810000000400000004
sector 1 = 4d5345434f50454e
sector 2 = 4d5245430100010000000000ff
zeros 3 514 = yes
sector 514 = 4d534543484541440000000200000000000000020000000112153524c0895e810000000400000004
sector 515 = 4d5345434f50454e
sector 516 = 4d5245430100010000000000ff
zeros 517 1028 = yes
open
calls = 261
close
pending = 0
sector 0 = 4d534543484541440000000100000000000000010000000112153524c0895e810000000400000004
sector 514 = 4d534543484541440000000200000000000000020000000112153524c0895e810000000400000004
zeros 3 514 = yes
zeros 517 1028 = yes
open-journal
version = 2
snapshot = 1
records = settings

# It begins anew in the area that is not current, and closes the gates there that read open: those of
# its head and of two slots.
story a journal of format one begins anew in the first area
put 0 old-head 6 1 12153524c0895e81 4 4
put 1 gate
put 2 record settings
put 4 record set-replay on 9
put 5 gate
put 6 record set-replay on 8
put 7 gate
put 514 old-head 7 1 12153524c0895e81 4 4
put 515 gate
put 516 record settings
put 518 record set-replay on 3
put 519 gate
calls = *
open
calls = 262+262+3+1
window = 3
close
sector 0 = 4d534543484541440000000200000000000000080000000112153524c0895e810000000400000004
sector 1 = 4d5345434f50454e
sector 2 = 4d5245430100010000000300ff
sector 5 = -
sector 7 = -
sector 514 = 4d534543484541440000000100000000000000070000000112153524c0895e810000000400000004
sector 515 = 4d5345434f50454e
sector 519 = 4d5345434f50454e

# The same with format two: nothing is written.
story a journal of format two stays as it is
use old
put 0 head 1 1 12153524c0895e81 4 4
calls = *
open
calls = 260
close
pending = 0
zeros 3 1028 = yes

# What is kept is the same before and after, and spent keys stay spent.
story what was kept is kept in format two
use old sender
open
next 0 = 5
encoding = 0
tx-install 1 1 1 = refused KeySpent
tx-install 1 2 1
refill
protect 62 = 5
power-loss durable
open-journal
version = 2
snapshot = 3
count = 5
close
open
next 0 = 9
tx-install 2 1 1 = refused KeySpent
tx-install 2 2 1 = refused KeySpent

# The generation is judged after the records, and nothing is written.
story a journal of format one in the last generation is not opened
use old
put 0 old-head 18446744073709551615 1 12153524c0895e81 4 4
calls = *
open = GenerationsSpent
calls = 260
open-store = GenerationsSpent
calls = 260
pending = 0
sector 0 = 4d5345434845414400000001ffffffffffffffff0000000112153524c0895e810000000400000004
sector 1 = 4d5345434f50454e
sector 2 = 4d5245430100010000000000ff
zeros 3 1028 = yes
put 2 record set-replay on 9
open = BadJournal

# Records of long keys are of format two alone.
story a record of a long key in an area of format one is a bad journal
with key=000102030405060708090a0b0c0d0e0f101112131415161718191a1b1c1d1e1f
use old
put 4 record tx-install 0 $key 1
put 5 gate
open = BadJournal
open-store = BadJournal
pending = 0
zeros 514 1028 = yes
put 0 head 1 1 12153524c0895e81 4 4
open
next 0 = 5
tx-install 1 $key 1 = refused KeySpent

# How many channels may stand is the program's, whatever the format is.
setup thirty-two channels
use old
put 4 record rx-add 1; put 5 gate
put 6 record rx-add 2; put 7 gate
put 8 record rx-add 3; put 9 gate
put 10 record rx-add 4; put 11 gate
put 12 record rx-add 5; put 13 gate
put 14 record rx-add 6; put 15 gate
put 16 record rx-add 7; put 17 gate
put 18 record rx-add 8; put 19 gate
put 20 record rx-add 9; put 21 gate
put 22 record rx-add a; put 23 gate
put 24 record rx-add b; put 25 gate
put 26 record rx-add c; put 27 gate
put 28 record rx-add d; put 29 gate
put 30 record rx-add e; put 31 gate
put 32 record rx-add f; put 33 gate
put 34 record rx-add 10; put 35 gate
put 36 record rx-add 11; put 37 gate
put 38 record rx-add 12; put 39 gate
put 40 record rx-add 13; put 41 gate
put 42 record rx-add 14; put 43 gate
put 44 record rx-add 15; put 45 gate
put 46 record rx-add 16; put 47 gate
put 48 record rx-add 17; put 49 gate
put 50 record rx-add 18; put 51 gate
put 52 record rx-add 19; put 53 gate
put 54 record rx-add 1a; put 55 gate
put 56 record rx-add 1b; put 57 gate
put 58 record rx-add 1c; put 59 gate
put 60 record rx-add 1d; put 61 gate
put 62 record rx-add 1e; put 63 gate
put 64 record rx-add 1f; put 65 gate
put 66 record rx-add 20; put 67 gate

story more channels than the older edition had are found in an area of format one
use thirty-two channels
open
rx-add 21 = refused ChannelsFull
rx-drop 20
rx-add 21
close
open-journal
version = 2
snapshot = 33
close

story the thirty-third channel is refused in an area of either format
with head=old-head
with head=head
use thirty-two channels
put 0 $head 1 1 12153524c0895e81 4 4
put 68 record rx-add 21; put 69 gate
open = BadJournal
put 69 zeros
open
rx-add 21 = refused ChannelsFull

story a journal of format two in the last generation is opened
use old
put 0 head 18446744073709551615 1 12153524c0895e81 4 4
open
identity = 12153524c0895e81 4 4

# Up to the call that writes the head gate an opening that is cut leaves the journal of format one: 262 calls
# find it, 257 read gates, then come a sync, four bodies, a sync, and the gate.
story an opening is cut before the head gate is written
with calls=0
with calls=261..263
with calls=518..525
and loss=durable
and loss=last
and loss=zeros
and loss=ones
and loss=half
and loss=gate
use old sender
fail $calls on
open = Disk
power-loss $loss
fail never
open-journal
version = 1
count = 3
close
open
next 0 = 5
close
open-journal
version = 2
count = 3

# The last call makes the gate durable: what a power loss leaves of the gate says which journal is found.
story an opening is cut before the head gate is durable
with loss=durable version=1
with loss=zeros version=1
with loss=ones version=1
with loss=last version=2
with loss=half version=2
with loss=gate version=2
use old sender
fail 526 on
open = Disk
pending = 1
pending 515 = yes
power-loss $loss
fail never
open-journal
version = $version
count = 3
close
open
next 0 = 5
close
open-journal
version = 2
count = 3

# A write that fails may leave other octets: in a body whose gate is closed, or in the gate itself.
story an opening is cut in a write that leaves other octets
with calls=520..523
with calls=525
use old sender
fail $calls filled
open = Disk
power-loss last
open
next 0 = 5
encoding = 0
