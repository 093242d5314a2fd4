# A hundred random stories. Their answers come from an independent model of an endpoint, written in
# Python from the specification alone, and not from the program. In two places that the specification
# leaves open the model follows the endpoint: a command that is refused at once uses a turn, and a
# reservation uses its turn at its last call.

story random 0
format 0200000000010001 4 4
open
submit rx-install b 2 4 1 30 = 1
settings = Strict on 0 Explicit none 0
tx-install 1 5 1 = Busy
rest = 1 idle
refill
protect 14 = NoEncodingSa
rx-install b 3 5 4294967293 = refused NoChannel
numbers 9 3 = none
receive b 3 0 3 14 = discarded NoSci
submit tx-use 1 = 2
receive b 5 1 1 62 = discarded NoSci
submit rx-add 200000000010001 = 3
settings = Strict on 0 Explicit none 0
step = done 2 refused SlotEmpty
rx-install b 2 1 1 7 = Busy
protect 9185 = TooLong
fail 5 on
refill = Busy
settings = Strict on 0 Explicit none 0
calls = 524
numbers 9 0 = none
calls = 0
stopped = no
stopped = no
step = done 3 refused OwnSci
step = idle
numbers b 1 = none
rest = 0 idle
step = idle
rest = 0 idle
next 0 = none
numbers b 3 = none
protect 9184 = NoEncodingSa
calls = 0
fail never
power-loss half
open
step = idle
step = idle
refill
protect 62 = NoEncodingSa
calls = 260
calls = 0
step = idle
step = idle
protect 62 = NoEncodingSa
calls = 0
stopped = no
refill
fail 3 filled
numbers 9 0 = none
refill
set-sci-mode explicit = Disk
fail never
power-loss zeros
open
submit rx-drop b = 1
step = done 1 refused NoChannel
step = idle
tx-install 0 3 4294967293 30
protect 9184 = NoEncodingSa
submit set-replay on 0 = 2
next 3 = none
protect 62 = NoEncodingSa
step = worked
protect 14 = NoEncodingSa
submit rx-drop 9 = 3
rx-drop b = Busy
step = worked
fail never
power-loss ones
open
numbers b 1 = none
next 1 = none
next 3 = none
rest = 0 idle
receive b 1 2 1 14 = discarded NoSci
step = idle
next 0 = 4294967296
settings = Strict on 0 Explicit none 0
numbers b 0 = none
rx-add 9
rest = 0 idle
protect 62 = NoEncodingSa
calls = 535
protect 9184 = NoEncodingSa
rest = 0 idle
protect 14 = NoEncodingSa
submit tx-use 2 = 1
fail never
power-loss half
open
fail never
close
open
protect 62 = NoEncodingSa
fail never
power-loss half
open
rest = 0 idle
protect 62 = NoEncodingSa
numbers 9 3 = none
rest = 0 idle
protect 62 = NoEncodingSa
settings = Strict on 0 Explicit none 1
step = idle
receive-plain 9216 = discarded NoTag
submit set-validate check = 1
next 1 = none
stopped = no
calls = 786
rest = 4 idle
protect 62 = NoEncodingSa
calls = 4
step = idle
fail never
power-loss gate
open
stopped = no
fail never
power-loss durable
open
next 0 = 4294967296
next 0 = 4294967296
settings = Check on 0 Explicit none 1
fail 3 on
receive 9 4 1 2 14 clear = delivered UnusedSa
receive 9 1 3 6 62 clear = delivered UnusedSa
refill
step = idle
protect 62 = NoEncodingSa
step = idle
protect 62 = NoEncodingSa
receive-plain 14 = delivered Untagged
submit rx-install 9 2 5 4294967293 = 1
settings = Check on 0 Explicit none 1
refill = Busy
receive b 5 2 1 14 = discarded NoSci
settings = Check on 0 Explicit none 1
step = worked
step = worked
fail never
power-loss half
open
protect 9185 = TooLong
fail never
power-loss last
open
receive b 5 3 3 62 clear = delivered UnknownSci
calls = 1054
fail never
close
open
receive b 4 0 1 62 = discarded NoSci
step = idle
step = idle
rx-install b 0 2 1 = refused NoChannel
rest = 0 idle
set-validate check
fail never
power-loss gate
open
step = idle
stopped = no
rx-install 9 2 3 1
submit set-replay on 0 = 1
stopped = no
refill = Busy
fail never
close
open
step = idle
stopped = no
step = idle
settings = Check on 0 Explicit none 1
fail never
close
open
settings = Check on 0 Explicit none 1
numbers 9 1 = none
calls = 1065
receive 9 3 2 1 62 = held back
submit rx-add b = 1
settings = Check on 0 Explicit none 1
tx-install 1 5 4294967293 clear = Busy
rest = 8 idle
step = idle
submit tx-use 0 = 2
step = worked
fail never
power-loss durable
open
numbers b 0 = none
calls = 276
next 1 = none
step = idle
receive 9 3 2 6 14 broken = discarded NotValid
stopped = no
protect 9184 = NoEncodingSa
refill
settings = Check on 0 Explicit none 2
stopped = no
numbers b 3 = none
receive 9 3 2 4 14 = discarded Late
rest = 0 idle
protect 62 = NoEncodingSa
fail 5 filled
next 0 = 4294967296
refill
step = idle
receive 9 3 2 6 14 = held back

story random 1
format 0200000000010001 4 4
open
receive b 3 1 1 62 clear = discarded NoSci
next 0 = none
submit set-replay on 4294967295 = 1
submit tx-use 2 = 2
refill = Busy
receive b 4 3 1 62 clear broken = discarded NoSci
settings = Strict on 0 Explicit none 0
receive 9 1 0 1 62 broken = discarded NoSci
protect 62 = NoEncodingSa
fail never
power-loss durable
open
fail never
power-loss ones
open
step = idle
protect 13 = Runt
step = idle
calls = 1044
step = idle
stopped = no
settings = Strict on 0 Explicit none 0
set-replay on 10
step = idle
rest = 0 idle
fail never
power-loss durable
open
receive-plain 14 = discarded NoTag
step = idle
protect 62 = NoEncodingSa
step = idle
receive-plain 9217 = discarded Oversize
receive-plain 14 = discarded NoTag
step = idle
refill
rx-install b 2 2 1 = refused NoChannel
rest = 0 idle
protect 62 = NoEncodingSa
receive 9 1 0 1 100 clear = discarded NoSci
settings = Strict on 10 Explicit none 0
receive 9 4 0 3 62 = discarded NoSci
step = idle
receive b 1 3 1 100 = discarded NoSci
numbers 9 0 = none
settings = Strict on 10 Explicit none 0
rest = 0 idle
refill
refill
receive-plain 0 = discarded Runt
rest = 0 idle
rest = 0 idle
protect 14 = NoEncodingSa
numbers 9 0 = none
receive-plain 14 = discarded NoTag
calls = 265
submit rx-install 9 0 2 1 = 1
refill = Busy
step = done 1 refused NoChannel
protect 62 = NoEncodingSa
receive b 4 3 1 62 = discarded NoSci
receive-plain 14 = discarded NoTag
protect 13 = Runt
calls = 0
refill
receive-plain 62 = discarded NoTag
protect 62 = NoEncodingSa
rest = 0 idle
protect 62 = NoEncodingSa
step = idle
step = idle
stopped = no
calls = 0
step = idle
rx-install 200000000010001 1 2 1 50 = refused NoChannel
step = idle
settings = Strict on 10 Explicit none 0
protect 9193 = TooLong
step = idle
step = idle
receive-plain 62 = discarded NoTag
rest = 0 idle
set-replay on 0
numbers 9 2 = none
calls = 4
submit set-replay on 0 = 2
numbers 9 1 = none
settings = Strict on 0 Explicit none 0
receive 9 5 3 1 100 = discarded NoSci
rx-add b = Busy
receive 9 2 1 1 14 clear = discarded NoSci
settings = Strict on 0 Explicit none 0
receive 9 4 2 2 100 = discarded NoSci
calls = 0
step = worked
step = worked
next 2 = none
step = worked
receive 9 4 0 1 100 clear = discarded NoSci
calls = 3
receive b 1 0 1 100 = discarded NoSci
step = done 2 ok
rest = 0 idle
protect 62 = NoEncodingSa
fail never
power-loss gate
open
stopped = no
tx-use 0 = refused SlotEmpty
rx-remove 9 1 = refused NoChannel
stopped = no
numbers b 3 = none
tx-use 0 = refused SlotEmpty
protect 9184 = NoEncodingSa
step = idle
numbers 9 1 = none
tx-install 0 3 70
refill
step = idle
next 2 = none
rest = 0 idle
step = idle
step = idle
protect 14 = NoEncodingSa
next 1 = none
stopped = no
receive 9 3 0 1 62 clear = discarded NoSci
next 2 = none
settings = Strict on 0 Explicit none 0
protect 62 = NoEncodingSa
refill
rest = 0 idle
numbers 9 3 = none
step = idle
fail never
power-loss half
open
receive-plain 9216 = discarded NoTag
rest = 0 idle
rest = 0 idle
refill
next 0 = 74
stopped = no
rest = 0 idle
stopped = no
rest = 0 idle
fail never
power-loss half
open
step = idle
stopped = no
set-sci-mode end-station
refill
protect 9184 = ForeignSource
settings = Strict on 0 EndStation none 0
submit tx-install 1 2 1 50 = 1
step = worked
step = worked
refill = Busy
rest = 2 idle
fail never
power-loss half
open
next 3 = none
next 3 = none
receive-plain 14 = discarded NoTag
submit rx-install b 0 2 1 30 = 1
receive b 2 2 1 62 clear = discarded NoSci
refill = Busy
step = done 1 refused NoChannel
receive 9 5 2 2 62 clear = discarded NoSci
rest = 0 idle
receive-plain 9217 = discarded Oversize
next 2 = none
next 2 = none
calls = 1070
stopped = no
receive b 5 1 3 62 = discarded NoSci
submit set-validate strict = 2
fail 6 on
submit tx-install 0 5 4294967293 = 3
numbers b 1 = none
set-validate check = Busy
fail 3
refill = Busy
protect 9185 = ForeignSource
stopped = no
step = worked
step = worked
fail never
power-loss last
open
rest = 0 idle
settings = Strict on 0 EndStation none 0
protect 9185 = ForeignSource
step = idle
calls = 268
refill
step = idle
protect 9185 = ForeignSource
step = idle

story random 2
format 0200000000010001 16 16
open
rest = 0 idle
step = idle
receive-plain 9216 = discarded NoTag
receive b 1 2 1 100 = discarded NoSci
protect 9193 = TooLong
tx-install 1 4 70 30
protect 62 = NoEncodingSa
receive-plain 62 = discarded NoTag
settings = Strict on 0 Explicit none 0
receive 9 2 2 6 62 = discarded NoSci
receive b 5 0 6 100 = discarded NoSci
protect 14 = NoEncodingSa
submit tx-use 3 = 1
rest = 1 idle
receive b 1 0 1 62 = discarded NoSci
tx-install 1 5 1 = refused SlotTaken
receive 9 5 2 3 14 = discarded NoSci
fail never
power-loss ones
open
calls = 789
protect 9193 = TooLong
set-replay off 4294967295
next 0 = none
fail never
close
open
fail never
power-loss last
open
numbers 9 1 = none
receive 9 1 1 3 62 clear = discarded NoSci
protect 62 = NoEncodingSa
receive-plain 62 = discarded NoTag
fail never
close
open
refill
rx-drop b = refused NoChannel
step = idle
submit tx-use 2 = 1
rest = 1 idle
receive-plain 0 = discarded Runt
receive-plain 13 = discarded Runt
rest = 0 idle
stopped = no
submit rx-drop 9 = 2
step = done 2 refused NoChannel
refill
protect 9193 = TooLong
receive b 3 2 1 62 = discarded NoSci
calls = 790
next 1 = 86
receive-plain 14 = discarded NoTag
step = idle
receive-plain 62 = discarded NoTag
step = idle
submit rx-add b = 3
submit rx-remove b 2 = 4
rest = 5 idle
refill
step = idle
protect 62 = NoEncodingSa
stopped = no
calls = 4
protect 62 = NoEncodingSa
calls = 0
next 0 = none
rest = 0 idle
refill
settings = Strict off 4294967295 Explicit none 1
set-validate check
step = idle
settings = Check off 4294967295 Explicit none 1
next 0 = none
numbers 9 3 = none
step = idle
settings = Check off 4294967295 Explicit none 1
refill
step = idle
protect 9184 = NoEncodingSa
refill
next 0 = none
settings = Check off 4294967295 Explicit none 1
step = idle
step = idle
protect 62 = NoEncodingSa
fail never
power-loss last
open
numbers 9 0 = none
receive-plain 62 = delivered Untagged
protect 9185 = TooLong
stopped = no
rx-install b 1 3 1
numbers b 2 = none
settings = Check off 4294967295 Explicit none 1
fail never
power-loss ones
open
receive b 3 1 1 14 clear = held back
set-sci-mode end-station
step = worked
protect 14 = ForeignSource
numbers 9 1 = none
stopped = no
step = worked
receive b 3 1 1 14 clear broken = delivered Invalid
step = worked
settings = Check off 4294967295 EndStation none 1
step = reserved
step = idle
next 2 = none
settings = Check off 4294967295 EndStation none 1
rest = 0 idle
step = idle
receive b 3 1 1 62 clear = delivered Ok
refill
calls = 545
step = idle
stopped = no
next 2 = none
fail never
close
open
receive b 3 1 16 14 = delivered Delayed
receive-plain 9217 = discarded Oversize
fail 3 filled
step = worked
stopped = no
numbers b 1 = 17 17
step = worked
set-replay on 4294967295 = Disk
numbers 9 0 = none
step = Stopped
rest = 0 Stopped
fail never
power-loss half
open
next 1 = 86
calls = 539
step = idle
receive b 3 1 37 100 = held back
step = worked
step = worked
step = worked
step = reserved
calls = 4
receive b 3 1 34 62 clear = delivered Ok
stopped = no
rest = 0 idle
stopped = no
step = idle
calls = 0
step = idle
fail never
power-loss durable
open
stopped = no
next 2 = none
next 2 = none
refill
receive-plain 14 = delivered Untagged
receive b 3 1 54 62 = held back
step = worked
rest = 3 idle
protect 62 = ForeignSource
rest = 0 idle
receive b 3 1 53 14 clear = delivered Ok
next 0 = none
protect 14 = ForeignSource
step = idle
refill
tx-remove 1
stopped = no
receive b 3 1 56 100 = delivered Ok
calls = 277
settings = Check off 4294967295 EndStation none 1
numbers 9 0 = none
submit rx-install 200000000010001 3 2 1 = 1
protect 9185 = ForeignSource
receive b 3 1 56 62 = delivered Ok
protect 62 = ForeignSource
fail never
power-loss ones
open
set-replay off 0
submit set-replay on 10 = 1
step = worked
next 3 = none
step = worked
settings = Check off 0 EndStation none 1
calls = 277
stopped = no
rest = 2 idle
step = idle
rest = 0 idle
receive-plain 0 = discarded Runt
settings = Check on 10 EndStation none 1
step = idle
step = idle
step = idle

story random 3
format 0200000000010001 16 16
open
numbers b 2 = none
calls = 524
settings = Strict on 0 Explicit none 0
receive 9 5 3 6 100 clear = discarded NoSci
step = idle
numbers b 1 = none
step = idle
next 3 = none
receive-plain 9216 = discarded NoTag
receive 9 3 0 1 14 = discarded NoSci
receive 9 5 0 1 62 = discarded NoSci
protect 9185 = TooLong
fail 6
submit tx-use 3 = 1
step = done 1 refused SlotEmpty
rest = 0 idle
stopped = no
protect 62 = NoEncodingSa
stopped = no
protect 9193 = TooLong
calls = 0
stopped = no
step = idle
protect 9193 = TooLong
step = idle
protect 9185 = TooLong
numbers 9 2 = none
protect 9184 = NoEncodingSa
calls = 0
receive b 2 1 1 100 = discarded NoSci
receive 9 3 2 1 14 = discarded NoSci
protect 62 = NoEncodingSa
step = idle
next 2 = none
next 3 = none
numbers b 3 = none
receive b 5 3 2 62 = discarded NoSci
fail never
power-loss durable
open
tx-remove 1 = refused SlotEmpty
step = idle
numbers 9 0 = none
submit tx-remove 0 = 1
numbers b 0 = none
protect 62 = NoEncodingSa
rest = 1 idle
calls = 260
step = idle
settings = Strict on 0 Explicit none 0
step = idle
step = idle
refill
receive-plain 14 = discarded NoTag
rest = 0 idle
next 1 = none
stopped = no
step = idle
next 3 = none
calls = 0
stopped = no
step = idle
receive b 5 1 2 100 = discarded NoSci
stopped = no
stopped = no
step = idle
fail never
close
open
calls = 260
rx-install 9 2 2 70 30 = refused NoChannel
fail never
power-loss half
open
step = idle
settings = Strict on 0 Explicit none 0
receive b 2 2 1 62 = discarded NoSci
rest = 0 idle
settings = Strict on 0 Explicit none 0
protect 9184 = NoEncodingSa
step = idle
calls = 260
step = idle
submit rx-add b = 1
set-validate check = Busy
step = worked
receive-plain 9217 = discarded Oversize
stopped = no
stopped = no
step = worked
fail never
power-loss half
open
receive-plain 9216 = discarded NoTag
receive 9 5 3 1 100 clear broken = discarded NoSci
settings = Strict on 0 Explicit none 0
step = idle
step = idle
refill
numbers 9 2 = none
settings = Strict on 0 Explicit none 0
step = idle
rest = 0 idle
protect 62 = NoEncodingSa
protect 9184 = NoEncodingSa
rest = 0 idle
step = idle
next 3 = none
protect 9193 = TooLong
calls = 262
step = idle
next 3 = none
step = idle
step = idle
receive-plain 62 = discarded NoTag
receive 9 5 3 1 62 = discarded NoSci
rest = 0 idle
protect 62 = NoEncodingSa
rest = 0 idle
refill
stopped = no
submit rx-install 9 1 2 1 7 = 1
receive 9 5 0 1 62 = discarded NoSci
stopped = no
next 1 = none
rest = 1 idle
receive-plain 0 = discarded Runt
step = idle
numbers 9 0 = none
rx-add 200000000010001 = refused OwnSci
receive-plain 14 = discarded NoTag
step = idle
numbers 9 2 = none
step = idle
fail 1
calls = 0
step = idle
numbers b 1 = none
receive b 2 3 6 62 = discarded NoSci
receive-plain 62 = discarded NoTag
protect 62 = NoEncodingSa
step = idle
calls = 0
submit rx-remove b 0 = 2
step = done 2 refused NoChannel
refill
rest = 0 idle
step = idle
stopped = no
settings = Strict on 0 Explicit none 0
settings = Strict on 0 Explicit none 0
settings = Strict on 0 Explicit none 0
protect 14 = NoEncodingSa
step = idle
receive b 3 0 3 62 broken = discarded NoSci
protect 62 = NoEncodingSa
settings = Strict on 0 Explicit none 0
stopped = no
fail 7
fail never
power-loss ones
open
receive b 2 1 6 100 = discarded NoSci
rest = 0 idle
fail never
power-loss gate
open
calls = 520
tx-install 1 1 4294967293
settings = Strict on 0 Explicit none 0
step = idle
receive 9 5 2 1 100 = discarded NoSci
submit tx-remove 0 = 1
stopped = no
stopped = no
stopped = no
refill = Busy
step = done 1 refused SlotEmpty
step = idle
rx-add b
protect 9193 = TooLong
numbers b 0 = none
refill
receive 9 1 0 1 62 = discarded NoSci
stopped = no
step = idle
step = idle
refill
receive b 3 0 1 14 = discarded NotUsingSa
numbers 9 3 = none
refill
numbers 9 2 = none
stopped = no
stopped = no
protect 62 = NoEncodingSa
receive b 5 2 1 62 = discarded NotUsingSa
submit rx-add 9 = 2
step = worked

story random 4
format 0200000000010001 2 2
open
refill
numbers 9 2 = none
refill
calls = 524
fail never
close
open
receive-plain 13 = discarded Runt
rest = 0 idle
protect 13 = Runt
step = idle
rest = 0 idle
refill
stopped = no
settings = Strict on 0 Explicit none 0
receive 9 4 2 1 62 broken = discarded NoSci
receive b 4 3 1 62 = discarded NoSci
numbers 9 0 = none
tx-install 0 5 0 = refused StartRange
step = idle
submit set-replay on 0 = 1
set-replay on 3 = Busy
step = worked
rest = 3 idle
rest = 0 idle
refill
receive b 5 2 3 62 = discarded NoSci
receive-plain 62 = discarded NoTag
step = idle
numbers 9 2 = none
next 2 = none
calls = 264
receive-plain 14 = discarded NoTag
receive 9 2 0 1 62 = discarded NoSci
receive b 2 1 1 62 clear = discarded NoSci
next 3 = none
protect 14 = NoEncodingSa
numbers b 3 = none
rest = 0 idle
submit tx-remove 0 = 2
refill = Busy
refill = Busy
step = done 2 refused SlotEmpty
receive 9 5 2 1 62 = discarded NoSci
next 0 = none
step = idle
stopped = no
calls = 0
settings = Strict on 0 Explicit none 0
receive b 5 2 6 62 = discarded NoSci
receive b 5 3 1 62 = discarded NoSci
next 0 = none
receive 9 2 0 1 14 = discarded NoSci
stopped = no
fail never
power-loss durable
open
calls = 261
numbers 9 3 = none
numbers b 0 = none
protect 62 = NoEncodingSa
next 0 = none
rest = 0 idle
receive-plain 14 = discarded NoTag
protect 62 = NoEncodingSa
protect 62 = NoEncodingSa
stopped = no
receive-plain 62 = discarded NoTag
settings = Strict on 0 Explicit none 0
step = idle
protect 9193 = TooLong
receive-plain 62 = discarded NoTag
step = idle
step = idle
refill
step = idle
step = idle
numbers b 1 = none
step = idle
receive-plain 9217 = discarded Oversize
protect 62 = NoEncodingSa
protect 62 = NoEncodingSa
protect 9184 = NoEncodingSa
step = idle
protect 9185 = TooLong
set-validate check
receive b 5 0 3 62 = discarded NoSci
refill
numbers 9 3 = none
rest = 0 idle
receive 9 5 1 1 14 clear = delivered UnknownSci
step = idle
refill
protect 9184 = NoEncodingSa
step = idle
step = idle
tx-remove 2 = refused SlotEmpty
next 2 = none
next 2 = none
next 1 = none
receive 9 3 0 1 100 = discarded NoSci
rest = 0 idle
refill
protect 62 = NoEncodingSa
set-replay on 0
set-sci-mode explicit
numbers b 3 = none
step = idle
refill
fail 8 on
protect 62 = NoEncodingSa
refill
step = idle
set-replay on 4294967295
step = idle
submit rx-add b = 1
step = worked
rest = 3 idle
protect 62 = NoEncodingSa
protect 9185 = TooLong
protect 62 = NoEncodingSa
receive 9 4 0 3 14 = discarded NoSci
numbers 9 2 = none
settings = Check on 4294967295 Explicit none 1
receive-plain 14 = delivered Untagged
stopped = no
calls = 20
fail never
power-loss last
open
step = idle
step = idle
settings = Check on 4294967295 Explicit none 1
next 0 = none
settings = Check on 4294967295 Explicit none 1
receive-plain 9217 = discarded Oversize
submit rx-add 200000000010001 = 1
rest = 1 idle
receive b 2 1 6 14 = discarded NotUsingSa
settings = Check on 4294967295 Explicit none 1
receive b 2 3 1 14 clear = delivered UnusedSa
numbers b 2 = none
numbers 9 0 = none
refill
refill
receive b 2 2 2 100 = discarded NotUsingSa
step = idle
next 1 = none
refill
fail never
power-loss last
open
refill
receive-plain 0 = discarded Runt
set-replay on 4294967295
step = idle
next 3 = none
rx-install b 3 2 70
receive-plain 62 = delivered Untagged
rest = 0 idle
calls = 540
fail never
close
open
settings = Check on 4294967295 Explicit none 1
calls = 268
stopped = no
submit tx-install 0 1 4294967293 = 1
step = worked
calls = 1
receive b 5 3 72 100 = discarded NotValid
receive b 2 3 69 14 clear = discarded Late
step = worked
rest = 2 idle
step = idle
fail 1 filled
protect 62 = NoEncodingSa
submit tx-use 0 = 2
step = worked
calls = 4
protect 13 = Runt
refill = Busy
refill = Busy
stopped = no
numbers 9 1 = none
numbers 9 2 = none
step = Disk
fail never
close
open
stopped = no
rx-install b 1 3 70 50
next 3 = none
step = idle
receive b 5 1 70 62 50 = discarded NotValid
step = idle
receive-plain 13 = discarded Runt
fail never
power-loss last
open
step = idle
protect 9185 = TooLong

story random 5
format 0200000000010001 4 4
open
refill
rx-add b
stopped = no
receive b 5 3 1 100 broken = discarded NotUsingSa
step = idle
receive-plain 14 = discarded NoTag
next 1 = none
tx-use 3 = refused SlotEmpty
step = idle
protect 62 = NoEncodingSa
refill
settings = Strict on 0 Explicit none 1
stopped = no
stopped = no
calls = 528
settings = Strict on 0 Explicit none 1
protect 13 = Runt
rest = 0 idle
receive-plain 62 = discarded NoTag
step = idle
receive-plain 0 = discarded Runt
receive 9 3 1 1 14 = discarded NoSci
receive b 3 1 1 14 = discarded NotUsingSa
step = idle
step = idle
calls = 0
receive-plain 9216 = discarded NoTag
step = idle
tx-install 0 4 1 30
refill
protect 9185 = TooLong
protect 9185 = TooLong
fail 3 on
protect 62 = NoEncodingSa
rest = 0 idle
calls = 4
numbers b 2 = none
set-replay off 10 = Disk
protect 62 = Stopped
tx-remove 3 = Stopped
tx-install 0 4 1 50 = Stopped
fail never
power-loss ones
open
settings = Strict on 0 Explicit none 1
numbers b 0 = none
fail never
close
open
fail 3 on
step = idle
protect 14 = NoEncodingSa
receive 9 2 1 1 14 = discarded NoSci
calls = 528
calls = 0
step = idle
protect 62 = NoEncodingSa
stopped = no
step = idle
next 3 = none
receive b 5 0 2 14 = discarded NotUsingSa
protect 13 = Runt
step = idle
step = idle
settings = Strict on 0 Explicit none 1
receive 9 1 0 3 62 = discarded NoSci
step = idle
fail never
power-loss zeros
open
fail never
power-loss durable
open
fail never
power-loss last
open
next 1 = none
protect 14 = NoEncodingSa
numbers 9 0 = none
receive 9 2 3 3 14 = discarded NoSci
stopped = no
calls = 786
fail never
power-loss durable
open
settings = Strict on 0 Explicit none 1
next 2 = none
receive-plain 62 = discarded NoTag
settings = Strict on 0 Explicit none 1
stopped = no
receive-plain 9216 = discarded NoTag
submit rx-remove b 3 = 1
stopped = no
protect 62 = NoEncodingSa
step = done 1 refused SlotEmpty
receive b 4 0 1 14 = discarded NotUsingSa
receive 9 3 3 1 62 broken = discarded NoSci
receive b 3 1 1 14 = discarded NotUsingSa
stopped = no
submit rx-install 9 3 2 0 = 2
receive 9 4 1 6 14 = discarded NoSci
stopped = no
step = done 2 refused StartRange
step = idle
next 0 = 5
calls = 262
receive b 1 0 1 62 clear = discarded NotUsingSa
next 1 = none
step = idle
rest = 0 idle
receive-plain 9217 = discarded Oversize
rest = 0 idle
submit set-sci-mode implicit = 3
settings = Strict on 0 Explicit none 1
protect 13 = Runt
receive 9 2 0 2 62 = discarded NoSci
submit tx-use 2 = 4
step = worked
protect 9185 = TooLong
numbers 9 1 = none
calls = 1
calls = 0
calls = 0
calls = 0
fail 8 on
protect 9193 = TooLong
receive b 5 1 6 14 clear = discarded NotUsingSa
rest = 4 idle
receive-plain 9216 = discarded NoTag
numbers b 2 = none
refill
fail never
power-loss ones
open
stopped = no
rest = 0 idle
protect 9185 = NoEncodingSa
receive b 3 2 2 100 clear = discarded NotUsingSa
submit rx-install 200000000010001 3 2 0 = 1
receive-plain 9217 = discarded Oversize
step = done 1 refused StartRange
protect 13 = Runt
protect 62 = NoEncodingSa
submit set-replay on 10 = 2
step = worked
refill = Busy
settings = Strict on 0 Implicit none 1
stopped = no
receive-plain 9217 = discarded Oversize
step = worked
rx-drop 9 = Busy
receive 9 5 0 1 62 = discarded NoSci
receive 9 1 1 1 62 = discarded NoSci
fail 5 filled
stopped = no
rest = 2 idle
receive b 5 3 1 62 = discarded NotUsingSa
refill
step = idle
fail never
power-loss half
open
refill
protect 14 = NoEncodingSa
numbers 9 1 = none
settings = Strict on 10 Implicit none 1
protect 62 = NoEncodingSa
step = idle
protect 62 = NoEncodingSa
numbers b 3 = none
set-replay on 10
protect 9184 = NoEncodingSa
set-sci-mode end-station
receive b 5 2 1 100 = discarded NotUsingSa
protect 62 = ForeignSource
calls = 542
step = idle
receive b 1 1 6 100 clear = discarded NotUsingSa
receive-plain 9217 = discarded Oversize
fail never
power-loss ones
open
step = idle
numbers b 2 = none
submit rx-drop b = 1
settings = Strict on 10 EndStation none 1
submit rx-add 9 = 2
refill = Busy
receive-plain 13 = discarded Runt
stopped = no
step = worked
step = worked
step = worked
receive-plain 13 = discarded Runt
next 3 = none
settings = Strict on 10 EndStation none 1
refill = Busy
receive b 5 0 3 14 clear broken = discarded NotUsingSa
fail never
power-loss last
open
stopped = no
refill

story random 6
format 0200000000010001 4 4
open
refill
protect 62 = NoEncodingSa
receive 9 5 1 2 100 clear = discarded NoSci
step = idle
step = idle
receive b 1 2 2 100 broken = discarded NoSci
step = idle
stopped = no
refill
protect 9185 = TooLong
tx-install 2 4 0 clear = refused StartRange
receive-plain 62 = discarded NoTag
tx-use 3 = refused SlotEmpty
receive b 4 3 1 62 = discarded NoSci
step = idle
rx-add 9
next 0 = none
numbers b 1 = none
fail never
power-loss gate
open
rest = 0 idle
refill
submit rx-install b 1 5 70 50 = 1
receive-plain 14 = discarded NoTag
settings = Strict on 0 Explicit none 1
fail never
power-loss zeros
open
rx-install b 1 3 1 = refused NoChannel
protect 9193 = TooLong
step = idle
set-replay on 10
protect 62 = NoEncodingSa
next 0 = none
step = idle
rest = 0 idle
rx-add b
rx-drop b
protect 62 = NoEncodingSa
numbers 9 1 = none
receive-plain 62 = discarded NoTag
settings = Strict on 10 Explicit none 1
refill
settings = Strict on 10 Explicit none 1
submit tx-use 2 = 1
receive b 3 3 3 14 = discarded NoSci
numbers b 2 = none
receive b 2 1 2 100 clear = discarded NoSci
receive 9 2 3 1 62 = discarded NotUsingSa
rest = 1 idle
receive 9 4 2 6 14 clear broken = discarded NotUsingSa
stopped = no
refill
numbers b 3 = none
step = idle
step = idle
numbers b 1 = none
refill
refill
receive b 1 2 1 100 = discarded NoSci
step = idle
rx-remove 9 2 = refused SlotEmpty
submit rx-remove 9 0 = 2
fail 1 on
calls = 1062
protect 9185 = TooLong
refill = Busy
protect 13 = Runt
step = done 2 refused SlotEmpty
stopped = no
receive-plain 14 = discarded NoTag
settings = Strict on 10 Explicit none 1
submit rx-add 9 = 3
set-replay on 0 = Busy
receive-plain 14 = discarded NoTag
step = done 3 refused ChannelTaken
rest = 0 idle
settings = Strict on 10 Explicit none 1
protect 13 = Runt
step = idle
receive 9 5 2 1 100 broken = discarded NotUsingSa
receive 9 3 2 2 62 clear = discarded NotUsingSa
step = idle
protect 14 = NoEncodingSa
calls = 0
protect 9184 = NoEncodingSa
rx-drop 9 = Disk
submit tx-install 2 2 70 = Stopped
stopped = yes
fail never
power-loss half
open
settings = Strict on 10 Explicit none 1
calls = 266
receive-plain 0 = discarded Runt
fail never
power-loss durable
open
settings = Strict on 10 Explicit none 1
receive 9 4 1 1 14 broken = discarded NotUsingSa
protect 62 = NoEncodingSa
step = idle
calls = 264
numbers b 1 = none
step = idle
receive-plain 14 = discarded NoTag
submit tx-remove 1 = 1
step = done 1 refused SlotEmpty
protect 13 = Runt
settings = Strict on 10 Explicit none 1
receive 9 2 2 1 62 = discarded NotUsingSa
protect 13 = Runt
next 3 = none
protect 9193 = TooLong
receive b 5 1 2 100 = discarded NoSci
fail never
power-loss zeros
open
rest = 0 idle
step = idle
tx-install 1 2 70 7 = refused OffsetChoice
calls = 264
settings = Strict on 10 Explicit none 1
step = idle
receive b 1 1 1 100 broken = discarded NoSci
refill
step = idle
receive b 4 1 1 62 = discarded NoSci
step = idle
step = idle
refill
calls = 0
protect 13 = Runt
protect 9193 = TooLong
receive 9 3 3 1 62 = discarded NotUsingSa
rest = 0 idle
rest = 0 idle
set-sci-mode explicit
protect 62 = NoEncodingSa
next 0 = none
stopped = no
settings = Strict on 10 Explicit none 1
protect 14 = NoEncodingSa
step = idle
receive b 1 2 1 100 = discarded NoSci
submit tx-use 3 = 1
next 2 = none
receive 9 1 0 1 14 = discarded NotUsingSa
stopped = no
step = done 1 refused SlotEmpty
protect 9193 = TooLong
fail never
close
open
rx-add 9 = refused ChannelTaken
step = idle
next 0 = none
protect 62 = NoEncodingSa
step = idle
numbers 9 2 = none
receive b 1 2 6 62 = discarded NoSci
protect 9184 = NoEncodingSa
protect 9185 = TooLong
step = idle
step = idle
receive b 2 1 2 62 clear = discarded NoSci
stopped = no
step = idle
receive 9 4 0 1 62 clear broken = discarded NotUsingSa
receive-plain 9216 = discarded NoTag
settings = Strict on 10 Explicit none 1
receive-plain 9216 = discarded NoTag
refill
fail 8
calls = 269
receive b 5 3 1 62 clear = discarded NoSci
settings = Strict on 10 Explicit none 1
tx-install 3 3 1 30
protect 13 = Runt
tx-install 2 4 0 clear = refused StartRange
rest = 0 idle
receive-plain 14 = discarded NoTag
refill
rest = 0 idle
receive-plain 9216 = discarded NoTag
stopped = no
receive-plain 0 = discarded Runt
step = idle
fail 1 filled
fail never
power-loss half
open
numbers b 3 = none
next 0 = none
calls = 270
rest = 0 idle
numbers b 0 = none
rest = 0 idle
fail 8 on
calls = 0
fail 5
step = idle

story random 7
format 0200000000010001 4 4
open
step = idle
receive b 3 1 1 100 = discarded NoSci
receive-plain 13 = discarded Runt
calls = 524
tx-use 3 = refused SlotEmpty
protect 62 = NoEncodingSa
numbers 9 1 = none
calls = 0
tx-use 3 = refused SlotEmpty
receive 9 5 1 1 62 = discarded NoSci
tx-use 0 = refused SlotEmpty
next 1 = none
receive b 2 2 1 62 = discarded NoSci
calls = 0
step = idle
refill
step = idle
rest = 0 idle
receive-plain 13 = discarded Runt
step = idle
calls = 0
receive-plain 13 = discarded Runt
protect 9193 = TooLong
step = idle
next 1 = none
step = idle
step = idle
tx-remove 1 = refused SlotEmpty
next 0 = none
calls = 0
step = idle
rest = 0 idle
settings = Strict on 0 Explicit none 0
step = idle
stopped = no
protect 14 = NoEncodingSa
step = idle
step = idle
calls = 0
settings = Strict on 0 Explicit none 0
fail never
close
open
step = idle
step = idle
stopped = no
calls = 260
stopped = no
settings = Strict on 0 Explicit none 0
step = idle
protect 13 = Runt
stopped = no
submit rx-add b = 1
numbers b 1 = none
receive b 2 2 2 100 = discarded NoSci
settings = Strict on 0 Explicit none 0
stopped = no
calls = 0
receive 9 2 0 1 62 = discarded NoSci
submit rx-install 200000000010001 0 1 1 30 = 2
step = worked
step = worked
stopped = no
next 1 = none
refill = Busy
next 1 = none
receive b 4 1 6 14 clear = discarded NoSci
step = worked
next 0 = none
refill = Busy
step = done 1 ok
rest = 1 idle
stopped = no
stopped = no
calls = 4
receive b 2 0 3 62 = discarded NotUsingSa
rest = 0 idle
numbers b 0 = none
step = idle
settings = Strict on 0 Explicit none 1
protect 9185 = TooLong
submit tx-install 2 3 0 clear = 3
receive 9 3 1 2 100 = discarded NoSci
settings = Strict on 0 Explicit none 1
numbers 9 2 = none
rest = 1 idle
numbers b 2 = none
step = idle
protect 13 = Runt
step = idle
fail never
power-loss zeros
open
protect 62 = NoEncodingSa
next 3 = none
submit rx-remove 200000000010001 1 = 1
receive b 5 0 6 62 clear = discarded NotUsingSa
rx-drop 9 = Busy
rx-remove 200000000010001 1 = Busy
step = done 1 refused NoChannel
receive 9 5 2 1 62 clear = discarded NoSci
refill
rx-drop b
receive 9 4 0 1 14 = discarded NoSci
step = idle
submit tx-use 1 = 2
rest = 1 idle
step = idle
protect 9185 = TooLong
numbers 9 2 = none
receive-plain 62 = discarded NoTag
settings = Strict on 0 Explicit none 0
protect 62 = NoEncodingSa
step = idle
stopped = no
submit rx-add 9 = 3
stopped = no
step = worked
stopped = no
rest = 3 idle
rx-install 9 0 1 1 30
receive 9 1 0 1 62 30 = held back
receive 9 1 0 3 14 clear = held back
protect 62 = NoEncodingSa
fail never
power-loss durable
open
receive-plain 13 = discarded Runt
submit set-replay on 10 = 1
step = worked
next 1 = none
refill = Busy
next 3 = none
receive 9 1 0 1 14 30 = held back
refill = Busy
protect 14 = NoEncodingSa
step = worked
step = worked
step = done 1 ok
receive b 1 3 2 62 = discarded NoSci
protect 13 = Runt
step = worked
settings = Strict on 10 Explicit none 1
numbers 9 2 = none
calls = 542
step = worked
numbers b 0 = none
next 3 = none
numbers b 1 = none
next 2 = none
next 0 = none
protect 13 = Runt
stopped = no
protect 62 = NoEncodingSa
submit tx-use 2 = 2
receive 9 1 0 1 62 clear = held back
settings = Strict on 10 Explicit none 1
step = worked
protect 9193 = TooLong
stopped = no
next 3 = none
settings = Strict on 10 Explicit none 1
step = reserved
settings = Strict on 10 Explicit none 1
rest = 1 idle
receive 9 1 0 1 62 30 = delivered Ok
refill
step = idle
fail never
power-loss half
open
submit set-sci-mode explicit = 1
settings = Strict on 10 Explicit none 1
receive 9 1 0 10 62 clear = held back
fail never
power-loss durable
open
submit set-replay on 0 = 1
stopped = no
fail 2
protect 14 = NoEncodingSa
step = worked
fail never
power-loss ones
open
set-replay on 3
rx-add b
protect 14 = NoEncodingSa
receive-plain 9217 = discarded Oversize
fail never
power-loss durable
open
protect 62 = NoEncodingSa
step = idle
protect 62 = NoEncodingSa
receive 9 1 0 2 100 broken 30 = discarded Late
receive 9 1 0 5 62 clear = held back

story random 8
format 0200000000010001 1 1
open
step = idle
fail 8 on
protect 62 = NoEncodingSa
submit rx-drop b = 1
refill = Busy
receive-plain 13 = discarded Runt
step = done 1 refused NoChannel
fail never
power-loss ones
open
stopped = no
tx-install 3 4 4294967293 30
submit tx-use 1 = 1
next 0 = none
protect 62 = NoEncodingSa
numbers b 1 = none
stopped = no
receive b 4 3 3 100 clear = discarded NoSci
settings = Strict on 0 Explicit none 0
fail never
power-loss durable
open
receive 9 2 1 2 14 broken = discarded NoSci
settings = Strict on 0 Explicit none 0
fail never
close
open
calls = 1310
protect 9185 = TooLong
fail never
close
open
step = idle
refill
step = idle
receive b 1 3 3 62 clear = discarded NoSci
fail 4 filled
receive b 5 1 1 14 clear = discarded NoSci
tx-remove 2 = refused SlotEmpty
protect 62 = NoEncodingSa
protect 14 = NoEncodingSa
calls = 261
receive-plain 9216 = discarded NoTag
next 0 = none
submit rx-install 9 1 5 4294967293 7 = 1
protect 62 = NoEncodingSa
numbers b 0 = none
submit tx-install 3 2 1 = 2
step = done 1 refused OffsetChoice
settings = Strict on 0 Explicit none 0
step = done 2 refused SlotTaken
numbers b 1 = none
receive b 2 2 1 14 clear = discarded NoSci
step = idle
receive b 5 0 6 14 = discarded NoSci
tx-use 3
step = Disk
rest = 0 Stopped
fail never
close
open
refill
next 3 = 4294967294
rest = 0 idle
receive 9 2 1 2 100 = discarded NoSci
rest = 0 idle
receive-plain 9216 = discarded NoTag
numbers 9 2 = none
next 1 = none
fail 0 on
receive b 3 3 1 100 = discarded NoSci
receive-plain 9216 = discarded NoTag
next 3 = 4294967294
set-replay on 3 = Disk
settings = Strict on 0 Explicit 3 0
settings = Strict on 0 Explicit 3 0
rest = 0 Stopped
fail never
power-loss last
open
step = worked
step = worked
step = worked
step = reserved
receive-plain 13 = discarded Runt
next 2 = none
calls = 539
step = idle
stopped = no
step = idle
rest = 0 idle
protect 62 = 4294967295
numbers b 3 = none
numbers b 3 = none
settings = Strict on 0 Explicit 3 0
receive b 1 2 1 100 = discarded NoSci
rest = 0 idle
numbers 9 1 = none
protect 62 = Exhausted
step = idle
protect 62 = Exhausted
refill
protect 9184 = Exhausted
protect 14 = Exhausted
receive-plain 62 = discarded NoTag
protect 9184 = Exhausted
protect 62 = Exhausted
step = idle
step = idle
step = idle
protect 62 = Exhausted
next 3 = 4294967296
protect 9193 = TooLong
protect 9184 = Exhausted
refill
rest = 0 idle
receive b 1 2 1 62 = discarded NoSci
stopped = no
settings = Strict on 0 Explicit 3 0
rest = 0 idle
stopped = no
protect 9193 = TooLong
step = idle
refill
calls = 0
step = idle
next 3 = 4294967296
next 2 = none
protect 13 = Runt
receive-plain 9217 = discarded Oversize
rest = 0 idle
rest = 0 idle
protect 62 = Exhausted
receive b 5 3 1 62 = discarded NoSci
step = idle
receive 9 5 2 1 14 = discarded NoSci
protect 62 = Exhausted
receive-plain 62 = discarded NoTag
settings = Strict on 0 Explicit 3 0
receive-plain 62 = discarded NoTag
refill
protect 62 = Exhausted
receive-plain 13 = discarded Runt
receive b 2 1 1 62 clear = discarded NoSci
receive-plain 9216 = discarded NoTag
fail 0 filled
step = idle
refill
set-sci-mode explicit = Disk
step = Stopped
receive b 3 0 1 14 clear = Stopped
receive b 1 2 1 14 clear = Stopped
rx-drop b = Stopped
submit set-replay on 4294967295 = Stopped
numbers 9 3 = none
receive 9 5 3 6 14 = Stopped
rest = 0 Stopped
fail never
power-loss zeros
open
step = idle
calls = 265
step = idle
receive b 4 1 6 62 = discarded NoSci
step = idle
protect 62 = Exhausted
protect 62 = Exhausted
refill
receive-plain 62 = discarded NoTag
settings = Strict on 0 Explicit 3 0
stopped = no
rx-install 200000000010001 2 5 1 = refused NoChannel
fail 3 filled
receive b 2 2 1 14 = discarded NoSci
fail 2 on
fail never
power-loss zeros
open
step = idle
step = idle
fail never
close
open
step = idle
next 1 = none
calls = 528
receive b 2 2 2 62 clear = discarded NoSci
rx-remove 200000000010001 2 = refused NoChannel
receive-plain 9217 = discarded Oversize
receive-plain 9216 = discarded NoTag
step = idle
protect 13 = Runt
receive b 5 3 1 100 = discarded NoSci
receive 9 2 1 2 100 = discarded NoSci
step = idle
step = idle
calls = 0
calls = 0
settings = Strict on 0 Explicit 3 0
rx-install 9 1 1 1 = refused NoChannel
step = idle
protect 62 = Exhausted
submit tx-remove 0 = 1

story random 9
format 0200000000010001 16 16
open
rx-add b
tx-use 2 = refused SlotEmpty
stopped = no
step = idle
fail never
power-loss durable
open
refill
step = idle
numbers b 2 = none
numbers 9 0 = none
refill
receive b 2 0 1 62 clear broken = discarded NotUsingSa
receive-plain 13 = discarded Runt
receive 9 5 2 1 100 clear broken = discarded NoSci
receive 9 5 3 3 14 clear = discarded NoSci
fail never
close
open
step = idle
calls = 1050
receive-plain 9216 = discarded NoTag
submit tx-install 3 2 70 = 1
next 0 = none
numbers 9 2 = none
step = worked
protect 14 = NoEncodingSa
step = worked
rest = 2 idle
fail never
power-loss half
open
step = idle
fail never
power-loss zeros
open
receive-plain 14 = discarded NoTag
receive 9 1 2 3 100 broken = discarded NoSci
protect 13 = Runt
step = idle
step = idle
numbers 9 3 = none
tx-use 2 = refused SlotEmpty
numbers 9 1 = none
protect 9185 = TooLong
next 3 = 86
submit rx-remove b 3 = 1
protect 62 = NoEncodingSa
step = done 1 refused SlotEmpty
tx-use 3
settings = Strict on 0 Explicit 3 1
step = worked
refill
protect 9184 = 86
step = idle
protect 9193 = TooLong
tx-install 1 1 0 = refused StartRange
numbers 9 3 = none
set-replay on 10
step = idle
step = idle
settings = Strict on 10 Explicit 3 1
step = idle
step = idle
receive b 4 3 1 100 clear = discarded NotUsingSa
step = idle
rest = 0 idle
stopped = no
submit tx-use 2 = 2
settings = Strict on 10 Explicit 3 1
stopped = no
calls = 540
fail 6 filled
fail never
power-loss half
open
stopped = no
stopped = no
stopped = no
fail 7 filled
stopped = no
calls = 265
step = worked
step = worked
stopped = no
step = worked
rest = 1 idle
receive b 1 0 6 14 = discarded NotUsingSa
calls = 4
rest = 0 idle
stopped = no
calls = 0
settings = Strict on 10 Explicit 3 1
set-replay on 3 = Disk
numbers 9 1 = none
rest = 0 Stopped
fail never
power-loss half
open
fail 2
step = worked
submit tx-use 0 = 1
numbers 9 3 = none
fail never
power-loss ones
open
step = worked
stopped = no
next 3 = 118
numbers 9 0 = none
protect 62 = NoNumber
receive b 5 1 1 62 broken = discarded NotUsingSa
step = worked
calls = 541
stopped = no
receive-plain 14 = discarded NoTag
set-sci-mode end-station
receive b 3 2 1 62 = discarded NotUsingSa
refill
numbers 9 2 = none
receive 9 2 3 1 62 = discarded NoSci
submit tx-install 1 5 4294967293 = 1
settings = Strict on 3 EndStation 3 1
receive-plain 9216 = discarded NoTag
calls = 6
step = worked
settings = Strict on 3 EndStation 3 1
stopped = no
step = worked
receive b 3 0 6 62 broken = discarded NotUsingSa
receive b 4 0 1 100 = discarded NotUsingSa
rest = 2 idle
next 2 = none
refill
step = idle
fail 2
tx-use 1 = Disk
fail never
power-loss ones
open
protect 62 = ForeignSource
refill
protect 62 = ForeignSource
step = idle
rest = 0 idle
step = idle
stopped = no
fail never
power-loss durable
open
protect 62 = ForeignSource
step = worked
next 1 = 4294967296
receive 9 5 2 1 62 clear = discarded NoSci
fail 8 filled
next 1 = 4294967296
stopped = no
next 3 = 150
next 0 = none
stopped = no
step = worked
step = worked
receive 9 3 2 3 14 clear = discarded NoSci
numbers 9 1 = none
protect 9193 = TooLong
rx-drop 9 = refused NoChannel
refill
refill
receive b 1 0 1 100 = discarded NotUsingSa
protect 62 = ForeignSource
next 0 = none
tx-install 3 4 1 = refused SlotTaken
rest = 0 idle
tx-remove 1
step = idle
refill
receive 9 3 0 1 14 = discarded NoSci
step = idle
step = idle
protect 62 = ForeignSource
fail 8 on
step = idle
step = idle
fail never
power-loss zeros
open
fail never
power-loss last
open
stopped = no
protect 62 = ForeignSource
next 0 = none
fail never
power-loss gate
open
step = worked
next 2 = none
receive 9 4 2 1 14 clear = discarded NoSci
receive-plain 0 = discarded Runt
rest = 3 idle
receive b 1 2 1 62 = discarded NotUsingSa
refill
receive 9 4 2 2 62 = discarded NoSci
refill
tx-remove 1 = refused SlotEmpty

story random 10
format 0200000000010001 2 2
open
numbers b 3 = none
receive 9 2 2 3 100 clear = discarded NoSci
receive 9 3 2 6 62 clear = discarded NoSci
settings = Strict on 0 Explicit none 0
set-sci-mode explicit
protect 13 = Runt
step = idle
step = idle
protect 9193 = TooLong
receive b 1 2 3 62 = discarded NoSci
protect 62 = NoEncodingSa
rx-install 9 3 1 1 7 = refused OffsetChoice
receive-plain 9217 = discarded Oversize
receive-plain 14 = discarded NoTag
step = idle
receive b 2 3 1 14 = discarded NoSci
next 2 = none
step = idle
numbers 9 2 = none
step = idle
settings = Strict on 0 Explicit none 0
protect 62 = NoEncodingSa
numbers 9 3 = none
fail 8
step = idle
stopped = no
next 3 = none
numbers 9 2 = none
step = idle
receive b 4 1 6 14 = discarded NoSci
numbers 9 1 = none
stopped = no
rx-install 9 0 4 1 30 = refused NoChannel
step = idle
step = idle
receive 9 5 1 1 62 broken = discarded NoSci
receive 9 1 2 1 62 clear broken = discarded NoSci
receive b 4 1 1 62 = discarded NoSci
refill
step = idle
next 3 = none
refill
submit rx-remove 200000000010001 1 = 1
next 2 = none
stopped = no
rest = 1 idle
submit rx-add 9 = 2
fail 2 on
submit rx-add 200000000010001 = 3
step = worked
refill = Busy
rest = 1 Disk
fail never
power-loss gate
open
numbers b 1 = none
receive-plain 62 = discarded NoTag
receive 9 2 0 1 14 broken = discarded NoSci
receive 9 4 3 1 14 clear = discarded NoSci
step = idle
step = idle
next 2 = none
rest = 0 idle
fail never
power-loss zeros
open
next 0 = none
stopped = no
protect 62 = NoEncodingSa
rest = 0 idle
receive-plain 62 = discarded NoTag
next 0 = none
next 1 = none
calls = 1053
protect 9193 = TooLong
rest = 0 idle
stopped = no
fail never
power-loss ones
open
receive-plain 0 = discarded Runt
fail never
close
open
refill
submit tx-install 1 2 1 7 = 1
refill = Busy
step = done 1 refused OffsetChoice
protect 14 = NoEncodingSa
submit set-sci-mode implicit = 2
receive 9 2 1 6 62 clear broken = discarded NoSci
submit tx-install 1 5 1 = 3
stopped = no
rest = 8 idle
fail never
power-loss last
open
rx-install 9 1 3 0 = refused StartRange
protect 62 = NoEncodingSa
receive-plain 62 = discarded NoTag
step = idle
submit rx-add 9 = 1
stopped = no
protect 62 = NoEncodingSa
receive b 3 0 1 62 clear = discarded NoSci
step = worked
step = worked
calls = 795
stopped = no
receive-plain 13 = discarded Runt
stopped = no
fail never
close
open
submit set-replay on 3 = 1
step = worked
rest = 3 idle
step = idle
calls = 267
protect 9185 = NoEncodingSa
protect 62 = NoEncodingSa
protect 9185 = NoEncodingSa
numbers 9 1 = none
step = idle
step = idle
rx-install 9 1 3 1 = refused NoChannel
step = idle
stopped = no
step = idle
numbers b 3 = none
rx-remove b 3 = refused NoChannel
receive b 5 3 1 62 = discarded NoSci
submit set-validate strict = 2
fail 4 on
refill = Busy
rest = 4 idle
numbers 9 1 = none
receive-plain 9216 = discarded NoTag
stopped = no
fail 8 on
refill
protect 62 = NoEncodingSa
tx-remove 3 = refused SlotEmpty
receive b 4 1 1 62 broken = discarded NoSci
stopped = no
protect 62 = NoEncodingSa
step = idle
protect 62 = NoEncodingSa
step = idle
set-sci-mode explicit
receive 9 5 2 1 62 clear = discarded NoSci
numbers b 1 = none
submit rx-remove b 2 = 3
settings = Strict on 3 Explicit none 0
protect 14 = NoEncodingSa
numbers 9 3 = none
settings = Strict on 3 Explicit none 0
calls = 8
receive b 2 2 1 100 = discarded NoSci
stopped = no
receive-plain 0 = discarded Runt
numbers 9 1 = none
next 2 = none
receive b 3 1 3 62 = discarded NoSci
receive b 3 0 1 14 = discarded NoSci
fail 8 on
next 2 = none
receive-plain 13 = discarded Runt
fail 5 on
rest = 1 idle
submit set-sci-mode explicit = 4
step = worked
stopped = no
calls = 1
settings = Strict on 3 Explicit none 0
calls = 0
fail never
power-loss gate
open
protect 62 = NoEncodingSa
protect 62 = NoEncodingSa
fail never
close
open
refill
numbers 9 2 = none
step = idle
rest = 0 idle
protect 9185 = TooLong
stopped = no
receive 9 3 2 1 100 broken = discarded NoSci
submit rx-install b 2 2 4294967293 = 1
receive b 4 3 1 62 clear = discarded NoSci
next 1 = 3
stopped = no
refill = Busy
stopped = no
step = done 1 refused NoChannel

story random 11
format 0200000000010001 4 4
open
protect 62 = NoEncodingSa
rx-install 9 2 5 0 7 = refused StartRange
rx-drop 9 = refused NoChannel
calls = 524
step = idle
step = idle
receive b 3 3 1 62 = discarded NoSci
step = idle
rest = 0 idle
step = idle
settings = Strict on 0 Explicit none 0
step = idle
step = idle
step = idle
submit set-validate strict = 1
submit tx-use 2 = 2
rest = 5 idle
step = idle
next 0 = none
step = idle
next 0 = none
settings = Strict on 0 Explicit none 0
step = idle
protect 14 = NoEncodingSa
submit rx-install 200000000010001 1 2 70 50 = 3
step = done 3 refused NoChannel
fail never
power-loss half
open
protect 9185 = TooLong
stopped = no
refill
next 3 = none
settings = Strict on 0 Explicit none 0
step = idle
step = idle
fail never
power-loss last
open
stopped = no
receive b 2 3 2 14 = discarded NoSci
submit tx-remove 3 = 1
step = done 1 refused SlotEmpty
settings = Strict on 0 Explicit none 0
protect 9193 = TooLong
next 2 = none
stopped = no
calls = 526
rx-install b 0 4 4294967293 = refused NoChannel
submit set-replay on 10 = 2
stopped = no
receive-plain 0 = discarded Runt
fail never
power-loss gate
open
numbers b 2 = none
protect 62 = NoEncodingSa
receive-plain 14 = discarded NoTag
receive b 5 1 1 62 broken = discarded NoSci
protect 62 = NoEncodingSa
stopped = no
protect 62 = NoEncodingSa
step = idle
set-sci-mode implicit
receive b 2 2 1 14 = discarded NoSci
submit rx-install 9 1 2 1 7 = 1
fail never
power-loss zeros
open
fail never
power-loss durable
open
rx-add 9
receive 9 4 0 6 62 broken = discarded NotUsingSa
next 2 = none
set-replay off 3
receive-plain 14 = discarded NoTag
step = idle
receive-plain 14 = discarded NoTag
next 2 = none
receive 9 1 3 6 62 = discarded NotUsingSa
receive-plain 14 = discarded NoTag
receive b 3 3 1 62 clear broken = discarded NoSci
tx-remove 0 = refused SlotEmpty
next 0 = none
step = idle
receive b 4 1 1 100 = discarded NoSci
refill
refill
step = idle
step = idle
protect 13 = Runt
tx-use 0 = refused SlotEmpty
receive 9 2 2 1 62 = discarded NotUsingSa
rest = 0 idle
receive 9 2 3 1 100 = discarded NotUsingSa
protect 62 = NoEncodingSa
receive b 3 3 1 100 = discarded NoSci
submit rx-install b 2 4 0 50 = 1
calls = 797
numbers b 3 = none
fail never
close
open
calls = 264
receive 9 3 0 1 62 = discarded NotUsingSa
receive-plain 9216 = discarded NoTag
receive 9 5 3 1 62 clear = discarded NotUsingSa
rest = 0 idle
settings = Strict off 3 Implicit none 1
set-sci-mode explicit
protect 14 = NoEncodingSa
protect 62 = NoEncodingSa
next 0 = none
tx-remove 0 = refused SlotEmpty
rest = 0 idle
rest = 0 idle
settings = Strict off 3 Explicit none 1
protect 9185 = TooLong
next 1 = none
tx-install 0 5 1 7 = refused OffsetChoice
step = idle
settings = Strict off 3 Explicit none 1
receive-plain 0 = discarded Runt
step = idle
step = idle
protect 62 = NoEncodingSa
receive b 2 1 6 100 = discarded NoSci
next 2 = none
stopped = no
step = idle
numbers 9 1 = none
protect 14 = NoEncodingSa
receive-plain 9217 = discarded Oversize
receive b 4 0 2 62 = discarded NoSci
receive-plain 13 = discarded Runt
submit rx-install b 0 4 1 = 1
refill = Busy
protect 9185 = TooLong
step = done 1 refused NoChannel
receive-plain 62 = discarded NoTag
protect 14 = NoEncodingSa
settings = Strict off 3 Explicit none 1
step = idle
numbers b 2 = none
step = idle
numbers b 1 = none
calls = 4
next 3 = none
fail 6 filled
calls = 0
submit tx-remove 1 = 2
next 0 = none
refill = Busy
step = done 2 refused SlotEmpty
numbers b 0 = none
protect 9185 = TooLong
receive-plain 9216 = discarded NoTag
protect 62 = NoEncodingSa
calls = 0
protect 62 = NoEncodingSa
step = idle
numbers b 3 = none
rx-add b
receive-plain 14 = discarded NoTag
fail never
power-loss last
open
next 3 = none
protect 13 = Runt
numbers 9 1 = none
protect 62 = NoEncodingSa
rx-install 9 1 4 1
protect 14 = NoEncodingSa
numbers b 3 = none
receive 9 4 1 1 100 clear = held back
set-sci-mode explicit
submit rx-add b = 1
receive 9 4 1 1 14 = held back
fail never
close
open
stopped = no
rest = 0 idle
step = idle
step = idle
settings = Strict off 3 Explicit none 2
receive-plain 13 = discarded Runt
refill
numbers b 3 = none
fail 0 filled
receive 9 4 1 2 14 = held back
rest = 0 Disk
protect 62 = Stopped
settings = Strict off 3 Explicit none 2
fail 2 on
fail never
power-loss zeros
open
settings = Strict off 3 Explicit none 2

story random 12
format 0200000000010001 16 16
open
protect 62 = NoEncodingSa
stopped = no
numbers b 0 = none
step = idle
receive 9 3 1 6 14 = discarded NoSci
protect 13 = Runt
rest = 0 idle
rest = 0 idle
submit rx-install b 2 3 1 30 = 1
submit tx-remove 3 = 2
calls = 524
submit rx-install 9 3 5 1 7 = 3
receive-plain 9217 = discarded Oversize
receive 9 3 2 3 14 = discarded NoSci
refill = Busy
receive-plain 9216 = discarded NoTag
next 1 = none
settings = Strict on 0 Explicit none 0
step = done 1 refused NoChannel
calls = 0
refill = Busy
step = done 2 refused SlotEmpty
receive 9 4 1 6 62 = discarded NoSci
calls = 0
stopped = no
submit set-validate strict = 4
fail never
close
open
numbers 9 1 = none
protect 9193 = TooLong
fail never
power-loss last
open
numbers 9 0 = none
step = idle
receive b 4 3 1 62 clear = discarded NoSci
step = idle
next 0 = none
protect 9193 = TooLong
fail never
power-loss last
open
protect 9184 = NoEncodingSa
receive-plain 9216 = discarded NoTag
fail never
power-loss ones
open
refill
receive 9 3 0 1 62 = discarded NoSci
receive 9 3 0 6 62 broken = discarded NoSci
settings = Strict on 0 Explicit none 0
step = idle
protect 62 = NoEncodingSa
receive 9 4 2 6 62 broken = discarded NoSci
stopped = no
next 0 = none
protect 62 = NoEncodingSa
stopped = no
receive b 5 1 1 14 clear = discarded NoSci
step = idle
numbers 9 1 = none
rest = 0 idle
receive b 5 0 1 62 clear = discarded NoSci
step = idle
calls = 1040
step = idle
fail never
power-loss gate
open
next 2 = none
refill
step = idle
step = idle
step = idle
receive 9 4 3 1 62 = discarded NoSci
protect 62 = NoEncodingSa
step = idle
receive-plain 14 = discarded NoTag
protect 9185 = TooLong
receive-plain 9216 = discarded NoTag
receive-plain 9217 = discarded Oversize
next 2 = none
receive b 5 2 1 14 = discarded NoSci
settings = Strict on 0 Explicit none 0
rx-add b
receive-plain 13 = discarded Runt
refill
step = idle
protect 62 = NoEncodingSa
fail 1 on
rx-remove b 3 = refused SlotEmpty
fail never
power-loss half
open
step = idle
rest = 0 idle
rest = 0 idle
calls = 525
rest = 0 idle
calls = 0
refill
next 3 = none
refill
submit set-replay on 4294967295 = 1
fail never
power-loss zeros
open
refill
receive b 5 0 1 62 broken = discarded NotUsingSa
receive 9 3 3 1 62 = discarded NoSci
submit tx-use 0 = 1
receive b 2 1 1 100 broken = discarded NotUsingSa
numbers 9 1 = none
fail never
power-loss durable
open
set-sci-mode explicit
rest = 0 idle
rest = 0 idle
set-replay on 0
next 0 = none
protect 62 = NoEncodingSa
receive 9 4 0 1 62 broken = discarded NoSci
receive 9 4 3 1 14 = discarded NoSci
protect 9184 = NoEncodingSa
rest = 0 idle
step = idle
receive-plain 62 = discarded NoTag
step = idle
submit tx-remove 0 = 1
settings = Strict on 0 Explicit none 1
next 1 = none
next 0 = none
step = done 1 refused SlotEmpty
receive 9 5 2 1 62 = discarded NoSci
numbers b 2 = none
step = idle
protect 9193 = TooLong
rest = 0 idle
step = idle
calls = 530
step = idle
receive 9 3 0 1 62 = discarded NoSci
calls = 0
step = idle
receive 9 1 3 1 62 = discarded NoSci
receive b 1 1 1 62 clear = discarded NotUsingSa
step = idle
step = idle
protect 62 = NoEncodingSa
stopped = no
step = idle
settings = Strict on 0 Explicit none 1
submit rx-remove b 1 = 2
fail never
power-loss last
open
settings = Strict on 0 Explicit none 1
protect 62 = NoEncodingSa
submit rx-add 200000000010001 = 1
step = done 1 refused OwnSci
stopped = no
receive-plain 0 = discarded Runt
step = idle
submit set-sci-mode explicit = 2
settings = Strict on 0 Explicit none 1
receive b 5 2 2 62 = discarded NotUsingSa
step = worked
numbers b 2 = none
receive-plain 0 = discarded Runt
submit set-replay on 4294967295 = 3
step = worked
step = worked
next 3 = none
submit rx-drop 9 = 4
receive-plain 0 = discarded Runt
calls = 266
settings = Strict on 0 Explicit none 1
step = done 2 ok
fail never
power-loss last
open
protect 9193 = TooLong
fail never
power-loss gate
open
refill
settings = Strict on 0 Explicit none 1
next 0 = none
calls = 529
step = idle
next 3 = none
calls = 0
step = idle
receive-plain 62 = discarded NoTag
fail never
power-loss zeros
open
fail never
close
open
tx-install 1 3 70 50
protect 62 = NoEncodingSa

story random 13
format 0200000000010001 4 4
open
step = idle
receive-plain 62 = discarded NoTag
step = idle
rest = 0 idle
step = idle
rest = 0 idle
submit rx-add b = 1
receive b 4 3 1 100 clear broken = discarded NoSci
protect 62 = NoEncodingSa
refill = Busy
protect 62 = NoEncodingSa
receive b 4 1 3 100 = discarded NoSci
receive 9 1 3 1 62 clear broken = discarded NoSci
calls = 524
receive-plain 13 = discarded Runt
rx-install 9 0 4 70 = Busy
step = worked
settings = Strict on 0 Explicit none 0
step = worked
stopped = no
calls = 2
receive b 2 2 1 62 clear = discarded NoSci
settings = Strict on 0 Explicit none 0
receive 9 4 0 1 14 = discarded NoSci
rx-add 9 = Busy
refill = Busy
protect 62 = NoEncodingSa
submit rx-install 9 0 5 1 = 2
rest = 3 idle
step = idle
stopped = no
stopped = no
fail 8
protect 13 = Runt
protect 9184 = NoEncodingSa
settings = Strict on 0 Explicit none 1
receive-plain 0 = discarded Runt
next 0 = none
receive-plain 13 = discarded Runt
receive 9 3 2 1 14 = discarded NoSci
stopped = no
set-replay on 0
step = idle
step = idle
receive b 1 3 1 62 broken = discarded NotUsingSa
step = idle
step = idle
refill
step = idle
step = idle
step = idle
stopped = no
fail never
power-loss durable
open
set-sci-mode explicit
step = idle
rest = 0 idle
numbers b 3 = none
submit tx-use 0 = 1
rx-install b 2 2 1 7 = Busy
receive-plain 0 = discarded Runt
numbers b 1 = none
receive-plain 62 = discarded NoTag
receive 9 1 3 1 62 = discarded NoSci
receive b 4 1 1 14 broken = discarded NotUsingSa
rest = 1 idle
protect 9184 = NoEncodingSa
receive 9 2 2 1 62 clear = discarded NoSci
receive-plain 62 = discarded NoTag
step = idle
stopped = no
receive 9 5 2 2 62 = discarded NoSci
refill
fail never
power-loss gate
open
submit rx-drop 9 = 1
calls = 535
receive b 4 0 2 100 clear = discarded NotUsingSa
next 2 = none
rest = 1 idle
receive b 4 1 1 100 clear = discarded NotUsingSa
calls = 0
protect 9193 = TooLong
refill
rest = 0 idle
fail never
close
open
calls = 263
receive 9 5 3 1 14 clear = discarded NoSci
tx-install 1 5 0 = refused StartRange
rest = 0 idle
stopped = no
receive-plain 0 = discarded Runt
protect 62 = NoEncodingSa
protect 9185 = TooLong
numbers 9 1 = none
protect 62 = NoEncodingSa
refill
step = idle
protect 62 = NoEncodingSa
numbers b 2 = none
settings = Strict on 0 Explicit none 1
receive b 3 0 2 100 clear = discarded NotUsingSa
step = idle
settings = Strict on 0 Explicit none 1
receive b 4 2 3 62 clear = discarded NotUsingSa
tx-install 0 3 70 clear
settings = Strict on 0 Explicit none 1
protect 9193 = TooLong
step = idle
fail 1
numbers b 3 = none
rx-drop b = Disk
step = Stopped
fail never
power-loss zeros
open
receive 9 2 2 1 14 = discarded NoSci
next 3 = none
fail never
power-loss ones
open
stopped = no
next 0 = 74
submit rx-add 9 = 1
step = worked
calls = 535
step = worked
protect 14 = NoEncodingSa
receive b 4 3 1 62 = discarded NotUsingSa
calls = 1
step = worked
protect 62 = NoEncodingSa
receive-plain 9216 = discarded NoTag
protect 13 = Runt
calls = 1
protect 62 = NoEncodingSa
receive-plain 0 = discarded Runt
next 0 = 74
receive-plain 0 = discarded Runt
receive b 3 2 1 14 = discarded NotUsingSa
step = done 1 ok
next 1 = none
rest = 0 idle
step = idle
next 3 = none
submit rx-drop 9 = 2
refill = Busy
submit set-replay off 3 = 3
next 1 = none
submit set-validate strict = 4
receive-plain 13 = discarded Runt
protect 9193 = TooLong
protect 62 = NoEncodingSa
settings = Strict on 0 Explicit none 2
next 3 = none
step = worked
step = worked
receive b 1 0 6 14 = discarded NotUsingSa
refill = Busy
receive 9 2 2 1 100 clear = discarded NotUsingSa
step = worked
refill = Busy
protect 9184 = NoEncodingSa
numbers 9 0 = none
step = done 2 ok
rx-install b 0 1 0 50 = Busy
calls = 5
step = worked
next 2 = none
refill = Busy
rest = 7 idle
rx-install 9 2 1 1 50 = refused NoChannel
fail never
power-loss durable
open
fail never
power-loss half
open
next 1 = none
calls = 544
protect 9184 = NoEncodingSa
step = idle
protect 62 = NoEncodingSa
stopped = no
refill
protect 9184 = NoEncodingSa
stopped = no
settings = Strict off 3 Explicit none 1
receive 9 5 0 1 14 = discarded NoSci
step = idle
fail never
power-loss ones
open
step = idle

story random 14
format 0200000000010001 4 4
open
submit rx-install 9 1 1 4294967293 50 = 1
settings = Strict on 0 Explicit none 0
numbers b 3 = none
set-sci-mode explicit = Busy
settings = Strict on 0 Explicit none 0
calls = 524
step = done 1 refused NoChannel
rest = 0 idle
settings = Strict on 0 Explicit none 0
receive 9 5 2 6 14 broken = discarded NoSci
refill
refill
refill
protect 13 = Runt
step = idle
submit set-replay off 0 = 2
protect 62 = NoEncodingSa
fail 3
rest = 3 Disk
fail never
power-loss zeros
open
refill
fail 8 filled
receive b 3 0 2 100 = discarded NoSci
next 2 = none
protect 9193 = TooLong
receive b 5 2 1 14 = discarded NoSci
receive b 1 0 1 14 = discarded NoSci
receive-plain 9217 = discarded Oversize
receive b 1 0 1 62 = discarded NoSci
stopped = no
protect 9185 = TooLong
numbers b 3 = none
next 3 = none
receive b 4 2 1 100 clear = discarded NoSci
protect 62 = NoEncodingSa
step = idle
step = idle
step = idle
calls = 264
receive 9 1 0 1 14 = discarded NoSci
receive 9 5 1 1 62 broken = discarded NoSci
step = idle
fail never
power-loss durable
open
submit rx-add 9 = 1
rx-install 200000000010001 3 2 0 = Busy
stopped = no
stopped = no
receive-plain 13 = discarded Runt
settings = Strict on 0 Explicit none 0
tx-remove 3 = Busy
stopped = no
tx-install 1 4 1 clear = Busy
step = worked
step = worked
protect 62 = NoEncodingSa
stopped = no
refill = Busy
receive-plain 9216 = discarded NoTag
next 1 = none
stopped = no
stopped = no
submit tx-use 3 = 2
submit rx-add 200000000010001 = 3
step = worked
settings = Strict on 0 Explicit none 0
protect 9184 = NoEncodingSa
next 1 = none
rx-install 200000000010001 3 3 1 50 = Busy
protect 62 = NoEncodingSa
settings = Strict on 0 Explicit none 0
next 2 = none
step = done 1 ok
refill = Busy
receive 9 3 1 1 100 clear broken = discarded NotUsingSa
fail never
power-loss durable
open
protect 9184 = NoEncodingSa
protect 62 = NoEncodingSa
rest = 0 idle
step = idle
next 2 = none
receive b 5 2 2 14 = discarded NoSci
calls = 525
receive 9 4 1 1 14 clear broken = discarded NotUsingSa
receive-plain 0 = discarded Runt
receive 9 4 3 1 62 broken = discarded NotUsingSa
submit set-sci-mode end-station = 1
receive 9 5 1 1 100 clear = discarded NotUsingSa
settings = Strict on 0 Explicit none 1
receive b 3 0 1 62 clear = discarded NoSci
receive-plain 14 = discarded NoTag
fail 7 on
submit tx-install 1 2 4294967293 clear = 2
submit rx-remove 9 3 = 3
step = worked
fail 6 filled
settings = Strict on 0 Explicit none 1
numbers 9 1 = none
step = worked
next 3 = none
calls = 2
stopped = no
protect 13 = Runt
stopped = no
fail never
power-loss ones
open
protect 9184 = NoEncodingSa
protect 14 = NoEncodingSa
receive b 3 2 2 62 = discarded NoSci
next 1 = none
step = idle
rest = 0 idle
settings = Strict on 0 Explicit none 1
step = idle
next 3 = none
protect 62 = NoEncodingSa
fail never
power-loss ones
open
protect 14 = NoEncodingSa
step = idle
stopped = no
protect 13 = Runt
protect 62 = NoEncodingSa
numbers 9 0 = none
submit rx-remove b 1 = 1
settings = Strict on 0 Explicit none 1
receive-plain 0 = discarded Runt
fail 3 on
numbers b 2 = none
submit rx-add b = 2
refill = Busy
refill = Busy
step = done 1 refused NoChannel
fail 8 on
submit set-validate strict = 3
submit tx-use 0 = 4
refill = Busy
protect 62 = NoEncodingSa
protect 62 = NoEncodingSa
next 1 = none
receive b 2 3 1 14 = discarded NoSci
rest = 9 idle
protect 9184 = NoEncodingSa
protect 14 = NoEncodingSa
calls = 530
stopped = no
calls = 0
step = idle
step = idle
rx-add 9 = refused ChannelTaken
numbers b 0 = none
receive-plain 9217 = discarded Oversize
rx-add b = refused ChannelTaken
fail 3
numbers b 2 = none
tx-remove 0 = refused SlotEmpty
rest = 0 idle
receive-plain 9217 = discarded Oversize
calls = 0
step = idle
receive b 1 0 3 62 clear = discarded NotUsingSa
protect 62 = NoEncodingSa
step = idle
submit tx-use 2 = 5
settings = Strict on 0 Explicit none 2
step = done 5 refused SlotEmpty
refill
set-sci-mode explicit = Disk
fail never
power-loss ones
open
calls = 267
next 1 = none
settings = Strict on 0 Explicit none 2
next 1 = none
receive b 1 3 1 62 = discarded NotUsingSa
receive-plain 14 = discarded NoTag
protect 14 = NoEncodingSa
receive-plain 9216 = discarded NoTag
submit set-replay on 10 = 1
receive b 2 3 1 62 = discarded NotUsingSa
rest = 4 idle
receive 9 2 0 1 100 = discarded NotUsingSa
protect 9193 = TooLong
protect 62 = NoEncodingSa
stopped = no
receive b 4 2 1 62 = discarded NotUsingSa
receive 9 5 2 6 62 = discarded NotUsingSa
submit rx-install 9 0 1 70 = 2

story random 15
format 0200000000010001 1 1
open
next 0 = none
protect 62 = NoEncodingSa
fail never
power-loss durable
open
protect 9193 = TooLong
fail 6
receive-plain 13 = discarded Runt
calls = 784
rest = 0 idle
calls = 0
rest = 0 idle
refill
calls = 0
rest = 0 idle
rx-install 9 0 1 70 30 = refused NoChannel
receive-plain 0 = discarded Runt
next 2 = none
step = idle
step = idle
stopped = no
fail 0 on
tx-use 0 = refused SlotEmpty
submit tx-remove 0 = 1
protect 9193 = TooLong
protect 62 = NoEncodingSa
rest = 1 idle
step = idle
step = idle
fail never
power-loss gate
open
receive b 4 0 1 62 = discarded NoSci
refill
receive b 5 2 1 14 = discarded NoSci
protect 62 = NoEncodingSa
calls = 260
settings = Strict on 0 Explicit none 0
step = idle
numbers b 3 = none
numbers 9 3 = none
receive-plain 13 = discarded Runt
submit rx-install 9 2 2 70 7 = 1
refill = Busy
step = done 1 refused OffsetChoice
fail never
power-loss gate
open
receive-plain 9216 = discarded NoTag
receive b 4 0 3 62 = discarded NoSci
next 2 = none
refill
fail never
power-loss zeros
open
protect 14 = NoEncodingSa
numbers 9 2 = none
stopped = no
next 1 = none
refill
submit set-replay on 3 = 1
stopped = no
step = worked
protect 62 = NoEncodingSa
refill = Busy
calls = 521
step = worked
step = worked
step = done 1 ok
fail never
power-loss half
open
refill
receive b 5 0 6 14 = discarded NoSci
receive b 5 1 1 62 clear = discarded NoSci
rest = 0 idle
step = idle
calls = 264
refill
refill
stopped = no
fail never
power-loss gate
open
protect 62 = NoEncodingSa
refill
receive 9 1 1 1 62 clear = discarded NoSci
protect 14 = NoEncodingSa
receive-plain 62 = discarded NoTag
receive 9 5 0 1 100 = discarded NoSci
rest = 0 idle
rx-install 9 1 2 0 = refused StartRange
stopped = no
protect 9185 = TooLong
protect 62 = NoEncodingSa
receive 9 5 2 6 62 clear broken = discarded NoSci
receive 9 5 3 1 14 = discarded NoSci
protect 62 = NoEncodingSa
rx-remove 200000000010001 1 = refused NoChannel
protect 62 = NoEncodingSa
calls = 261
step = idle
numbers 9 2 = none
refill
receive b 1 1 1 14 = discarded NoSci
step = idle
numbers b 0 = none
next 3 = none
settings = Strict on 3 Explicit none 0
settings = Strict on 3 Explicit none 0
numbers b 2 = none
submit rx-add 9 = 1
refill = Busy
settings = Strict on 3 Explicit none 0
step = worked
rx-add 9 = Busy
receive 9 3 1 1 14 = discarded NoSci
rest = 3 idle
step = idle
receive b 3 1 1 100 = discarded NoSci
rest = 0 idle
protect 62 = NoEncodingSa
protect 14 = NoEncodingSa
refill
fail 6 filled
refill
protect 62 = NoEncodingSa
rest = 0 idle
fail 6
calls = 4
numbers b 0 = none
calls = 0
rest = 0 idle
step = idle
protect 9184 = NoEncodingSa
receive 9 1 2 1 14 = discarded NotUsingSa
rx-install 9 2 2 0 = refused StartRange
next 0 = none
submit tx-use 0 = 2
numbers 9 3 = none
step = done 2 refused SlotEmpty
rest = 0 idle
receive 9 5 2 1 14 = discarded NotUsingSa
receive 9 5 0 3 62 = discarded NotUsingSa
calls = 0
receive-plain 9217 = discarded Oversize
rx-install b 3 1 4294967293 = refused NoChannel
step = idle
step = idle
rx-drop b = refused NoChannel
submit rx-remove 9 2 = 3
numbers b 1 = none
protect 14 = NoEncodingSa
settings = Strict on 3 Explicit none 1
step = done 3 refused SlotEmpty
stopped = no
submit rx-drop b = 4
receive b 2 1 6 62 = discarded NoSci
tx-use 0 = Busy
settings = Strict on 3 Explicit none 1
receive b 2 0 2 62 clear = discarded NoSci
step = done 4 refused NoChannel
rest = 0 idle
next 2 = none
settings = Strict on 3 Explicit none 1
refill
refill
protect 62 = NoEncodingSa
refill
stopped = no
stopped = no
submit rx-add 9 = 5
next 2 = none
protect 9185 = TooLong
refill = Busy
step = done 5 refused ChannelTaken
stopped = no
receive 9 2 1 1 62 clear = discarded NotUsingSa
step = idle
stopped = no
receive 9 1 1 3 14 = discarded NotUsingSa
protect 9184 = NoEncodingSa
protect 9184 = NoEncodingSa
protect 9184 = NoEncodingSa
submit set-sci-mode end-station = 6
calls = 0
refill = Busy
protect 9193 = TooLong
step = worked
settings = Strict on 3 Explicit none 1
numbers b 2 = none
stopped = no
step = worked
settings = Strict on 3 Explicit none 1
refill = Busy
step = worked
next 0 = none
step = done 6 ok
rest = 0 idle

story random 16
format 0200000000010001 16 16
open
settings = Strict on 0 Explicit none 0
protect 62 = NoEncodingSa
receive 9 5 3 6 62 = discarded NoSci
numbers 9 2 = none
stopped = no
protect 62 = NoEncodingSa
next 2 = none
receive 9 4 0 1 100 clear = discarded NoSci
receive 9 4 3 2 62 = discarded NoSci
stopped = no
step = idle
stopped = no
protect 62 = NoEncodingSa
receive-plain 13 = discarded Runt
rest = 0 idle
refill
tx-install 3 3 4294967293
rest = 0 idle
step = idle
stopped = no
settings = Strict on 0 Explicit none 0
refill
protect 9184 = NoEncodingSa
protect 9184 = NoEncodingSa
protect 62 = NoEncodingSa
fail never
power-loss last
open
rest = 0 idle
next 3 = 4294967296
receive 9 1 1 1 62 = discarded NoSci
receive 9 2 3 3 62 = discarded NoSci
submit tx-use 0 = 1
refill = Busy
submit rx-drop b = 2
settings = Strict on 0 Explicit none 0
receive 9 1 0 1 62 = discarded NoSci
calls = 789
receive 9 2 2 1 62 = discarded NoSci
step = done 1 refused SlotEmpty
fail never
power-loss ones
open
receive b 2 1 1 14 broken = discarded NoSci
refill
rest = 0 idle
settings = Strict on 0 Explicit none 0
numbers b 2 = none
next 2 = none
receive b 2 2 1 62 = discarded NoSci
protect 9193 = TooLong
protect 62 = NoEncodingSa
receive b 1 1 1 100 = discarded NoSci
next 3 = 4294967296
calls = 261
numbers 9 1 = none
step = idle
calls = 0
settings = Strict on 0 Explicit none 0
receive b 3 3 1 62 = discarded NoSci
protect 9185 = TooLong
receive b 3 0 1 100 clear = discarded NoSci
step = idle
step = idle
receive 9 5 2 2 62 = discarded NoSci
settings = Strict on 0 Explicit none 0
settings = Strict on 0 Explicit none 0
refill
stopped = no
receive b 2 2 1 62 = discarded NoSci
step = idle
protect 9185 = TooLong
settings = Strict on 0 Explicit none 0
calls = 0
protect 62 = NoEncodingSa
tx-install 2 3 1 = refused KeySpent
receive 9 4 0 1 62 = discarded NoSci
next 1 = none
step = idle
settings = Strict on 0 Explicit none 0
step = idle
step = idle
receive 9 3 2 6 62 = discarded NoSci
protect 62 = NoEncodingSa
fail never
power-loss ones
open
next 1 = none
submit rx-install 9 1 3 70 50 = 1
protect 62 = NoEncodingSa
receive 9 1 2 1 14 = discarded NoSci
receive-plain 62 = discarded NoTag
receive b 4 1 2 14 = discarded NoSci
rx-install b 3 3 1 = Busy
settings = Strict on 0 Explicit none 0
numbers b 2 = none
receive b 4 0 6 62 = discarded NoSci
numbers b 2 = none
step = done 1 refused NoChannel
protect 62 = NoEncodingSa
protect 13 = Runt
protect 9184 = NoEncodingSa
refill
receive b 4 3 3 62 = discarded NoSci
step = idle
step = idle
protect 62 = NoEncodingSa
protect 62 = NoEncodingSa
submit rx-install 9 0 1 4294967293 = 2
settings = Strict on 0 Explicit none 0
next 1 = none
rest = 1 idle
rest = 0 idle
step = idle
submit rx-install b 3 5 1 = 3
step = done 3 refused NoChannel
receive b 2 3 1 14 clear = discarded NoSci
settings = Strict on 0 Explicit none 0
numbers 9 3 = none
next 3 = 4294967296
rest = 0 idle
next 2 = none
tx-install 0 3 1 50 = refused KeySpent
submit tx-use 1 = 4
settings = Strict on 0 Explicit none 0
receive 9 4 0 1 14 clear broken = discarded NoSci
step = done 4 refused SlotEmpty
protect 62 = NoEncodingSa
submit set-replay on 3 = 5
calls = 261
stopped = no
step = worked
receive 9 1 2 1 100 = discarded NoSci
receive b 1 2 2 100 = discarded NoSci
settings = Strict on 0 Explicit none 0
rx-install 9 1 4 4294967293 = Busy
fail never
power-loss durable
open
step = idle
next 2 = none
protect 9193 = TooLong
step = idle
refill
step = idle
refill
stopped = no
stopped = no
receive b 3 1 6 62 clear = discarded NoSci
protect 62 = NoEncodingSa
receive-plain 9217 = discarded Oversize
step = idle
protect 9185 = TooLong
receive 9 2 3 1 14 = discarded NoSci
stopped = no
rx-install b 0 5 4294967293 = refused NoChannel
stopped = no
step = idle
rest = 0 idle
receive-plain 13 = discarded Runt
submit set-sci-mode end-station = 1
submit set-sci-mode implicit = 2
next 0 = none
next 0 = none
next 2 = none
step = worked
step = worked
settings = Strict on 0 Explicit none 0
receive 9 1 2 6 62 = discarded NoSci
receive-plain 9217 = discarded Oversize
step = worked
receive b 4 1 1 62 = discarded NoSci
settings = Strict on 0 Explicit none 0
calls = 265
receive-plain 14 = discarded NoTag
calls = 0
next 1 = none
submit rx-install 9 3 3 1 30 = 3
step = done 1 ok
protect 62 = ForeignSource
next 1 = none
receive b 5 2 2 62 = discarded NoSci
rest = 5 idle
fail never
power-loss ones
open
submit tx-install 3 5 1 clear = 1
step = done 1 refused SlotTaken
stopped = no
submit rx-remove b 3 = 2
stopped = no
next 2 = none
settings = Strict on 0 Implicit none 0
numbers b 1 = none
fail 1
receive b 1 1 1 14 clear = discarded NoSci
step = done 2 refused NoChannel
protect 62 = NoEncodingSa
numbers 9 0 = none

story random 17
format 0200000000010001 4 4
open
step = idle
step = idle
receive b 4 1 2 62 = discarded NoSci
next 1 = none
receive b 5 1 1 62 clear broken = discarded NoSci
rest = 0 idle
numbers b 3 = none
numbers b 2 = none
submit set-sci-mode explicit = 1
calls = 524
rest = 4 idle
step = idle
refill
receive-plain 62 = discarded NoTag
protect 62 = NoEncodingSa
rest = 0 idle
rest = 0 idle
fail 6 filled
protect 9185 = TooLong
next 3 = none
protect 13 = Runt
receive b 1 2 3 100 = discarded NoSci
protect 9184 = NoEncodingSa
rest = 0 idle
protect 13 = Runt
numbers b 0 = none
fail never
power-loss gate
open
receive b 2 3 3 100 = discarded NoSci
receive 9 5 0 3 62 = discarded NoSci
step = idle
rest = 0 idle
next 0 = none
next 0 = none
set-replay on 0
calls = 269
set-validate strict
numbers b 2 = none
rest = 0 idle
receive 9 4 0 1 62 = discarded NoSci
receive-plain 62 = discarded NoTag
step = idle
numbers 9 2 = none
calls = 4
rx-add 9
numbers 9 1 = none
step = idle
protect 14 = NoEncodingSa
step = idle
receive-plain 9216 = discarded NoTag
receive 9 5 2 1 62 = discarded NotUsingSa
rest = 0 idle
receive 9 3 3 1 100 clear = discarded NotUsingSa
next 3 = none
protect 62 = NoEncodingSa
receive 9 5 3 1 14 clear = discarded NotUsingSa
stopped = no
receive b 1 0 1 62 = discarded NoSci
refill
step = idle
receive-plain 62 = discarded NoTag
receive 9 2 1 1 14 clear = discarded NotUsingSa
submit rx-add b = 1
stopped = no
numbers b 0 = none
submit tx-install 3 2 1 7 = 2
stopped = no
stopped = no
step = worked
step = worked
set-replay on 4294967295 = Busy
receive 9 4 0 2 62 = discarded NotUsingSa
rest = 3 idle
protect 62 = NoEncodingSa
next 3 = none
fail 5 on
refill
receive-plain 13 = discarded Runt
step = idle
receive 9 2 1 1 14 = discarded NotUsingSa
rest = 0 idle
refill
step = idle
rx-install b 1 1 1
rx-drop 9 = Disk
fail never
power-loss half
open
rest = 0 idle
numbers 9 3 = none
refill
stopped = no
step = idle
receive-plain 9216 = discarded NoTag
fail 0 filled
next 3 = none
receive b 1 1 6 62 clear = held back
stopped = no
settings = Strict on 0 Explicit none 2
step = Disk
step = Stopped
numbers b 3 = none
fail never
close
open
numbers b 2 = none
rest = 0 idle
receive-plain 9217 = discarded Oversize
fail 0 on
protect 13 = Runt
calls = 547
step = idle
step = idle
submit rx-install b 3 5 0 = 1
step = done 1 refused StartRange
numbers b 2 = none
numbers b 0 = none
stopped = no
rest = 0 idle
submit tx-install 0 4 1 clear = 2
rx-install 9 3 5 1 = Busy
step = Disk
refill = Stopped
calls = 1
fail never
power-loss zeros
open
protect 9193 = TooLong
receive b 1 1 1 14 clear = held back
rx-drop 9
settings = Strict on 0 Explicit none 1
rest = 4 idle
protect 62 = NoEncodingSa
submit set-replay on 3 = 1
step = worked
settings = Strict on 0 Explicit none 1
numbers 9 3 = none
step = worked
next 1 = none
step = worked
step = done 1 ok
receive b 1 1 1 100 = delivered Ok
next 2 = none
numbers b 0 = none
fail 5 on
submit tx-use 2 = 2
step = done 2 refused SlotEmpty
stopped = no
rest = 0 idle
receive b 5 2 3 14 = discarded NotUsingSa
fail never
power-loss half
open
receive b 1 1 5 100 = held back
refill
submit tx-use 2 = 1
stopped = no
protect 62 = NoEncodingSa
protect 9184 = NoEncodingSa
stopped = no
next 3 = none
fail never
power-loss durable
open
settings = Strict on 3 Explicit none 1
step = idle
protect 62 = NoEncodingSa
protect 9193 = TooLong
calls = 821
submit rx-install 9 2 2 1 7 = 1
stopped = no
step = done 1 refused OffsetChoice
protect 14 = NoEncodingSa
receive-plain 9217 = discarded Oversize
settings = Strict on 3 Explicit none 1
stopped = no
step = idle
fail 5
step = idle
calls = 0
fail never
power-loss durable
open
receive b 1 1 11 62 clear broken = discarded NotValid
receive b 1 1 9 62 = held back
protect 9193 = TooLong
receive b 1 1 14 14 clear = held back
rx-install b 3 2 0 = refused StartRange
settings = Strict on 3 Explicit none 1
fail never
close
open
receive b 1 1 11 100 = held back
numbers b 0 = none
tx-remove 0 = refused SlotEmpty
numbers 9 3 = none
step = worked
fail never
close
open
numbers 9 3 = none

story random 18
format 0200000000010001 4 4
open
refill
receive-plain 62 = discarded NoTag
step = idle
numbers 9 3 = none
protect 62 = NoEncodingSa
refill
submit tx-install 2 5 4294967293 clear = 1
step = worked
fail never
power-loss zeros
open
calls = 785
receive 9 3 3 6 100 = discarded NoSci
next 3 = none
rest = 0 idle
protect 62 = NoEncodingSa
rx-install b 0 4 0 7 = refused StartRange
numbers b 3 = none
receive 9 4 3 1 14 = discarded NoSci
receive b 2 0 1 62 = discarded NoSci
stopped = no
settings = Strict on 0 Explicit none 0
calls = 0
receive 9 4 3 1 62 = discarded NoSci
receive b 2 0 6 62 = discarded NoSci
protect 62 = NoEncodingSa
step = idle
settings = Strict on 0 Explicit none 0
step = idle
rx-install 9 2 5 1 7 = refused OffsetChoice
fail never
power-loss half
open
step = idle
protect 62 = NoEncodingSa
rest = 0 idle
fail never
close
open
receive-plain 13 = discarded Runt
protect 13 = Runt
fail 5
protect 62 = NoEncodingSa
next 1 = none
step = idle
protect 9185 = TooLong
receive 9 2 3 1 100 broken = discarded NoSci
rest = 0 idle
fail never
power-loss half
open
set-replay on 3
next 2 = none
rest = 0 idle
fail never
power-loss zeros
open
rest = 0 idle
numbers b 3 = none
receive-plain 13 = discarded Runt
rx-remove 9 3 = refused NoChannel
receive 9 5 2 1 62 = discarded NoSci
calls = 1045
receive 9 5 0 1 100 clear = discarded NoSci
numbers b 2 = none
step = idle
receive-plain 0 = discarded Runt
receive 9 3 2 1 62 = discarded NoSci
receive b 5 0 1 62 = discarded NoSci
step = idle
receive b 5 2 1 14 = discarded NoSci
tx-install 0 3 1
fail never
power-loss last
open
settings = Strict on 3 Explicit none 0
step = idle
step = idle
rest = 0 idle
refill
next 1 = none
calls = 266
rest = 0 idle
step = idle
protect 9184 = NoEncodingSa
step = idle
step = idle
numbers 9 1 = none
calls = 0
receive 9 3 2 1 62 clear = discarded NoSci
settings = Strict on 3 Explicit none 0
protect 9184 = NoEncodingSa
stopped = no
settings = Strict on 3 Explicit none 0
calls = 0
receive b 3 1 6 100 = discarded NoSci
protect 62 = NoEncodingSa
receive b 1 3 1 100 = discarded NoSci
calls = 0
receive b 2 3 3 62 = discarded NoSci
numbers b 0 = none
rx-install 9 1 1 1 50 = refused NoChannel
step = idle
step = idle
rest = 0 idle
submit rx-add b = 1
refill = Busy
receive 9 1 1 1 14 = discarded NoSci
receive b 4 1 1 100 = discarded NoSci
settings = Strict on 3 Explicit none 0
protect 62 = NoEncodingSa
tx-install 2 4 1 clear = Busy
receive 9 3 1 2 100 = discarded NoSci
refill = Busy
refill = Busy
submit tx-install 2 3 70 clear = 2
step = worked
receive 9 1 2 3 100 = discarded NoSci
settings = Strict on 3 Explicit none 0
step = worked
fail never
power-loss ones
open
next 0 = 5
submit rx-add 9 = 1
rx-drop 9 = Busy
submit tx-remove 2 = 2
receive 9 4 0 1 100 broken = discarded NoSci
protect 62 = NoEncodingSa
fail never
close
open
receive b 2 2 6 14 = discarded NoSci
refill
receive b 3 2 6 62 broken = discarded NoSci
step = idle
numbers b 3 = none
step = idle
fail never
power-loss zeros
open
settings = Strict on 3 Explicit none 0
settings = Strict on 3 Explicit none 0
step = idle
refill
step = idle
calls = 788
step = idle
rx-install 9 1 4 1 = refused NoChannel
calls = 0
stopped = no
receive-plain 0 = discarded Runt
next 0 = 5
submit rx-add b = 1
protect 9184 = NoEncodingSa
step = worked
receive b 1 1 3 62 = discarded NoSci
receive 9 1 3 1 14 clear = discarded NoSci
receive 9 2 0 2 100 = discarded NoSci
next 3 = none
numbers b 3 = none
step = worked
step = worked
next 3 = none
step = done 1 ok
step = idle
settings = Strict on 3 Explicit none 1
stopped = no
receive-plain 14 = discarded NoTag
stopped = no
submit rx-remove 9 2 = 2
protect 62 = NoEncodingSa
settings = Strict on 3 Explicit none 1
step = done 2 refused NoChannel
numbers b 2 = none
step = idle
fail 2
rest = 0 idle
protect 9193 = TooLong
submit set-validate strict = 3
tx-use 1 = Busy
refill = Busy
step = worked
protect 14 = NoEncodingSa
step = worked
tx-use 3 = Busy
numbers 9 3 = none
protect 62 = NoEncodingSa
calls = 6
step = Disk
fail never
power-loss gate
open
settings = Strict on 3 Explicit none 1
step = idle
step = idle
protect 9185 = TooLong
rx-install b 1 4 1
numbers b 2 = none
submit rx-install 9 2 2 1 50 = 1
refill = Busy

story random 19
format 0200000000010001 16 16
open
rest = 0 idle
rx-add b
fail 4
fail never
power-loss durable
open
set-sci-mode end-station
fail never
power-loss gate
open
receive 9 3 2 6 62 = discarded NoSci
protect 14 = ForeignSource
stopped = no
calls = 1055
protect 14 = ForeignSource
fail never
close
open
tx-install 2 3 0 = refused StartRange
calls = 262
rx-install b 0 5 1
protect 14 = ForeignSource
numbers b 3 = none
protect 9185 = ForeignSource
step = idle
tx-install 1 4 1
rx-drop 9 = refused NoChannel
receive 9 1 0 2 62 = discarded NoSci
next 2 = none
submit set-validate check = 1
fail 3 on
settings = Strict on 0 EndStation none 1
calls = 8
numbers b 3 = none
step = worked
protect 62 = ForeignSource
step = worked
step = worked
protect 62 = ForeignSource
protect 14 = ForeignSource
submit tx-install 3 5 70 7 = 2
next 1 = 1
settings = Strict on 0 EndStation none 1
receive b 5 0 3 62 clear broken = discarded NotValid
receive-plain 9217 = discarded Oversize
submit rx-install b 0 1 1 7 = 3
step = Disk
receive b 5 0 3 62 = Stopped
refill = Stopped
receive b 5 0 1 62 broken = Stopped
submit rx-install b 0 5 1 = Stopped
step = Stopped
fail never
power-loss last
open
next 0 = none
refill
step = idle
protect 9185 = ForeignSource
protect 62 = ForeignSource
calls = 269
rest = 0 idle
receive-plain 0 = discarded Runt
settings = Check on 0 EndStation none 1
receive b 5 0 2 14 = held back
tx-install 1 3 1 50 = refused SlotTaken
fail never
power-loss gate
open
receive-plain 9217 = discarded Oversize
refill
fail 0 on
submit tx-install 0 2 0 = 1
stopped = no
protect 62 = ForeignSource
receive b 5 0 3 14 broken = discarded NotValid
numbers b 2 = none
next 1 = 17
next 1 = 17
step = done 1 refused StartRange
calls = 265
receive 9 2 3 1 62 clear = delivered UnknownSci
step = idle
settings = Check on 0 EndStation none 1
calls = 0
receive-plain 13 = discarded Runt
step = idle
next 1 = 17
next 3 = none
submit tx-remove 0 = 2
settings = Check on 0 EndStation none 1
rest = 1 idle
step = idle
submit tx-remove 3 = 3
next 0 = none
fail never
power-loss zeros
open
settings = Check on 0 EndStation none 1
set-replay off 10
next 0 = none
stopped = no
step = idle
calls = 269
protect 9185 = ForeignSource
receive-plain 9217 = discarded Oversize
step = idle
rest = 0 idle
protect 62 = ForeignSource
protect 62 = ForeignSource
submit set-sci-mode end-station = 1
protect 62 = ForeignSource
submit rx-install b 2 1 4294967293 = 2
receive b 5 0 3 62 clear broken = delivered Invalid
step = worked
receive-plain 9217 = discarded Oversize
calls = 1
step = worked
fail 4 filled
refill = Busy
receive-plain 0 = discarded Runt
tx-install 0 3 70 = Busy
step = worked
settings = Check off 10 EndStation none 1
fail 8 filled
rest = 5 idle
step = idle
receive b 1 2 4294967290 62 = delivered Delayed
protect 13 = Runt
next 0 = none
rest = 3 Disk
stopped = yes
receive b 1 2 4294967293 62 clear = Stopped
step = Stopped
fail never
power-loss half
open
receive-plain 13 = discarded Runt
stopped = no
numbers 9 3 = none
rx-install b 0 4 70 = refused SlotTaken
refill
step = idle
protect 9193 = TooLong
numbers b 0 = 1 1
receive b 5 0 1 62 = held back
numbers 9 2 = none
calls = 280
receive-plain 62 = delivered Untagged
numbers b 1 = none
protect 14 = ForeignSource
protect 9193 = TooLong
rest = 4 idle
next 2 = none
protect 9185 = ForeignSource
protect 9185 = ForeignSource
submit set-sci-mode explicit = 1
stopped = no
step = worked
calls = 5
receive b 5 0 3 14 = delivered Ok
numbers 9 0 = none
settings = Check off 10 EndStation none 1
receive b 5 0 4 62 broken = discarded NotValid
fail never
close
open
receive b 1 2 4294967293 14 = delivered Delayed
receive b 1 2 4294967295 62 = delivered Delayed
rest = 0 idle
submit tx-install 1 2 1 = 1
submit rx-remove b 1 = 2
stopped = no
protect 62 = ForeignSource
step = done 1 refused SlotTaken
fail never
power-loss ones
open
fail never
power-loss durable
open
receive b 1 2 4294967293 14 clear = delivered Delayed
rest = 0 idle
protect 14 = ForeignSource
refill
protect 62 = ForeignSource
protect 9193 = TooLong
set-replay on 0
refill
protect 62 = ForeignSource
fail never
power-loss gate
open
step = idle
protect 9193 = TooLong
receive b 5 0 14 62 = discarded Late
refill
stopped = no
rest = 0 idle
rest = 0 idle
set-replay on 10
settings = Check on 10 EndStation none 1
refill
protect 9193 = TooLong
protect 62 = ForeignSource
refill

story random 20
format 0200000000010001 4 4
open
numbers 9 2 = none
receive 9 4 2 1 100 = discarded NoSci
fail never
power-loss zeros
open
fail 8 filled
rest = 0 idle
next 1 = none
step = idle
stopped = no
calls = 784
receive b 5 3 1 100 broken = discarded NoSci
step = idle
submit rx-drop b = 1
submit tx-use 1 = 2
stopped = no
set-replay off 4294967295 = Busy
refill = Busy
fail never
power-loss ones
open
receive-plain 9216 = discarded NoTag
calls = 260
stopped = no
receive 9 1 0 1 100 clear = discarded NoSci
numbers 9 1 = none
settings = Strict on 0 Explicit none 0
protect 9184 = NoEncodingSa
calls = 0
receive b 5 1 1 62 = discarded NoSci
settings = Strict on 0 Explicit none 0
submit set-validate strict = 1
calls = 0
receive 9 4 0 1 62 = discarded NoSci
numbers b 1 = none
receive 9 5 0 3 62 = discarded NoSci
next 3 = none
next 2 = none
next 3 = none
fail 5 on
receive b 1 1 1 62 broken = discarded NoSci
submit set-replay on 3 = 2
receive b 3 3 6 14 = discarded NoSci
step = worked
rx-remove b 0 = Busy
fail never
power-loss zeros
open
rx-remove b 3 = refused NoChannel
numbers b 0 = none
calls = 261
numbers b 1 = none
stopped = no
refill
calls = 0
refill
numbers b 3 = none
protect 62 = NoEncodingSa
fail never
power-loss durable
open
receive-plain 62 = discarded NoTag
submit rx-add b = 1
next 2 = none
settings = Strict on 0 Explicit none 0
step = worked
receive b 2 0 1 14 clear = discarded NoSci
rest = 3 idle
settings = Strict on 0 Explicit none 1
receive b 4 3 1 62 = discarded NotUsingSa
fail never
power-loss last
open
next 3 = none
rest = 0 idle
rx-add 9
calls = 529
rest = 0 idle
step = idle
settings = Strict on 0 Explicit none 2
next 2 = none
submit set-replay on 0 = 1
protect 9184 = NoEncodingSa
step = worked
stopped = no
fail never
power-loss half
open
fail never
power-loss ones
open
numbers b 1 = none
receive-plain 9216 = discarded NoTag
next 0 = none
submit tx-use 1 = 1
rest = 1 idle
receive-plain 0 = discarded Runt
step = idle
tx-use 1 = refused SlotEmpty
set-replay off 0
submit tx-install 2 1 0 clear = 2
stopped = no
fail never
power-loss last
open
step = idle
submit set-validate check = 1
settings = Strict off 0 Explicit none 2
numbers 9 2 = none
next 3 = none
submit rx-install 9 3 2 70 = 2
protect 9193 = TooLong
step = worked
stopped = no
protect 14 = NoEncodingSa
rest = 7 idle
step = idle
protect 62 = NoEncodingSa
receive 9 2 3 75 62 = held back
refill
receive 9 2 3 71 14 = delivered Ok
numbers b 2 = none
numbers b 0 = none
protect 62 = NoEncodingSa
protect 9193 = TooLong
protect 62 = NoEncodingSa
numbers 9 3 = 72 72
stopped = no
settings = Check off 0 Explicit none 2
stopped = no
numbers b 3 = none
next 2 = none
numbers b 0 = none
next 3 = none
step = idle
receive b 5 3 1 62 clear = delivered UnusedSa
submit rx-install b 3 5 70 7 = 3
step = done 3 refused OffsetChoice
step = idle
stopped = no
next 0 = none
fail never
power-loss half
open
protect 9193 = TooLong
numbers 9 0 = none
stopped = no
fail 1 filled
tx-use 0 = refused SlotEmpty
receive 9 2 3 76 62 = delivered Delayed
numbers 9 1 = none
rest = 1 Disk
rx-add b = Stopped
stopped = yes
next 0 = none
numbers b 3 = none
protect 9185 = Stopped
fail never
power-loss gate
open
receive 9 2 3 79 100 = held back
tx-use 2 = refused SlotEmpty
step = worked
refill
rest = 0 idle
protect 62 = NoEncodingSa
rx-install b 1 5 70 50
protect 9185 = TooLong
protect 62 = NoEncodingSa
refill
refill
fail 0 on
calls = 1346
receive-plain 14 = delivered Untagged
numbers b 2 = none
next 0 = none
fail never
power-loss half
open
settings = Check off 0 Explicit none 2
stopped = no
fail 4 on
receive b 5 1 72 62 clear = held back
fail never
power-loss last
open
settings = Check off 0 Explicit none 2
calls = 536
submit tx-use 2 = 1
protect 9193 = TooLong
rest = 1 idle
protect 9184 = NoEncodingSa
receive 9 2 3 83 100 broken = discarded NotValid
step = idle
fail 7 on
fail never
power-loss ones
open
rx-add b = refused ChannelTaken
set-replay off 10
calls = 272
protect 62 = NoEncodingSa
refill
receive b 3 0 6 100 = discarded NotUsingSa
fail 6

story random 21
format 0200000000010001 1 1
open
protect 13 = Runt
receive-plain 9217 = discarded Oversize
submit rx-remove b 3 = 1
step = done 1 refused NoChannel
numbers 9 0 = none
receive b 5 1 1 62 clear broken = discarded NoSci
numbers b 1 = none
settings = Strict on 0 Explicit none 0
rx-install 9 2 4 70 = refused NoChannel
receive b 4 2 3 100 clear = discarded NoSci
fail never
power-loss gate
open
receive 9 3 1 6 100 = discarded NoSci
receive b 5 3 6 62 = discarded NoSci
step = idle
refill
stopped = no
step = idle
refill
rest = 0 idle
step = idle
next 2 = none
stopped = no
settings = Strict on 0 Explicit none 0
protect 14 = NoEncodingSa
settings = Strict on 0 Explicit none 0
tx-use 2 = refused SlotEmpty
receive-plain 62 = discarded NoTag
calls = 784
receive 9 3 0 6 100 clear = discarded NoSci
receive-plain 9217 = discarded Oversize
calls = 0
settings = Strict on 0 Explicit none 0
receive b 2 1 1 62 = discarded NoSci
fail never
power-loss half
open
protect 9185 = TooLong
stopped = no
step = idle
submit set-validate check = 1
receive b 4 1 1 14 = discarded NoSci
settings = Strict on 0 Explicit none 0
protect 9193 = TooLong
calls = 260
set-validate strict = Busy
rest = 4 idle
protect 62 = NoEncodingSa
protect 62 = NoEncodingSa
receive 9 1 2 1 62 = discarded NoSci
receive b 1 2 1 62 broken = discarded NoSci
step = idle
calls = 4
refill
protect 62 = NoEncodingSa
settings = Check on 0 Explicit none 0
settings = Check on 0 Explicit none 0
step = idle
calls = 0
receive 9 4 3 1 62 broken = discarded NoSci
step = idle
settings = Check on 0 Explicit none 0
protect 9193 = TooLong
step = idle
protect 14 = NoEncodingSa
receive-plain 14 = delivered Untagged
receive 9 5 1 6 62 clear = delivered UnknownSci
fail never
close
open
calls = 261
protect 14 = NoEncodingSa
submit rx-install b 1 4 70 = 1
numbers b 3 = none
fail 3 filled
next 1 = none
rest = 1 idle
receive 9 2 0 2 62 = discarded NoSci
step = idle
protect 9193 = TooLong
calls = 0
receive b 4 1 1 100 broken = discarded NoSci
receive b 5 2 1 14 = discarded NoSci
set-replay on 10 = Disk
fail never
close
open
settings = Check on 10 Explicit none 0
refill
calls = 266
protect 62 = NoEncodingSa
fail never
power-loss zeros
open
receive-plain 9217 = discarded Oversize
step = idle
settings = Check on 10 Explicit none 0
receive b 3 3 1 100 broken = discarded NoSci
numbers b 2 = none
step = idle
receive 9 3 1 1 14 clear = delivered UnknownSci
receive b 4 0 1 62 = discarded NoSci
numbers 9 2 = none
protect 9193 = TooLong
step = idle
receive-plain 0 = discarded Runt
receive 9 2 2 2 14 clear = delivered UnknownSci
refill
receive 9 5 0 1 62 clear = delivered UnknownSci
step = idle
receive b 5 3 1 62 clear = delivered UnknownSci
step = idle
refill
settings = Check on 10 Explicit none 0
stopped = no
numbers 9 1 = none
next 2 = none
receive b 5 0 6 62 = discarded NoSci
receive b 3 2 2 14 broken = discarded NoSci
protect 62 = NoEncodingSa
set-sci-mode implicit
receive b 5 2 1 62 clear = delivered UnknownSci
calls = 266
rest = 0 idle
calls = 0
numbers 9 3 = none
step = idle
next 3 = none
rest = 0 idle
stopped = no
step = idle
fail never
close
open
next 3 = none
next 0 = none
fail 3 on
receive b 4 1 1 100 = discarded NoSci
receive 9 4 2 1 62 broken = discarded NoSci
fail never
power-loss zeros
open
refill
protect 62 = NoEncodingSa
refill
calls = 526
numbers 9 1 = none
receive b 4 0 1 100 = discarded NoSci
fail never
power-loss half
open
stopped = no
fail never
close
open
protect 9193 = TooLong
step = idle
stopped = no
submit rx-remove b 0 = 1
calls = 526
step = done 1 refused NoChannel
stopped = no
next 0 = none
fail never
power-loss durable
open
fail never
power-loss ones
open
rx-drop 9 = refused NoChannel
receive 9 4 1 3 62 = discarded NoSci
fail 1 on
settings = Check on 10 Implicit none 0
step = idle
receive b 1 2 6 62 clear broken = delivered UnknownSci
tx-use 1 = refused SlotEmpty
step = idle
rest = 0 idle
step = idle
submit rx-add 200000000010001 = 1
refill = Busy
numbers b 0 = none
rest = 1 idle
numbers b 2 = none
receive-plain 9217 = discarded Oversize
receive b 3 3 1 100 = discarded NoSci
receive 9 3 0 1 62 broken = discarded NoSci
step = idle
calls = 526
step = idle
rx-install 9 2 3 0 30 = refused StartRange
stopped = no
settings = Check on 10 Implicit none 0
protect 13 = Runt
settings = Check on 10 Implicit none 0
receive b 1 3 3 62 = discarded NoSci
protect 9185 = NoEncodingSa
numbers b 2 = none
step = idle
next 0 = none
step = idle
refill
rest = 0 idle
step = idle

story random 22
format 0200000000010001 4 4
open
stopped = no
receive-plain 13 = discarded Runt
fail never
power-loss zeros
open
refill
next 0 = none
step = idle
set-sci-mode explicit
rest = 0 idle
receive 9 2 3 1 62 = discarded NoSci
protect 9193 = TooLong
stopped = no
fail 6 filled
calls = 788
settings = Strict on 0 Explicit none 0
fail never
power-loss last
open
receive b 1 2 1 100 clear broken = discarded NoSci
calls = 261
refill
next 3 = none
step = idle
protect 62 = NoEncodingSa
receive b 5 3 6 100 = discarded NoSci
receive 9 3 0 1 62 = discarded NoSci
rest = 0 idle
step = idle
set-validate strict
refill
next 0 = none
step = idle
step = idle
protect 9184 = NoEncodingSa
receive-plain 0 = discarded Runt
submit set-replay on 10 = 1
receive-plain 14 = discarded NoTag
refill = Busy
step = worked
fail never
power-loss durable
open
step = idle
step = idle
step = idle
submit tx-remove 1 = 1
submit tx-use 0 = 2
set-replay on 0 = Busy
calls = 267
receive b 3 2 1 62 = discarded NoSci
refill = Busy
receive b 5 3 2 62 = discarded NoSci
next 3 = none
step = done 1 refused SlotEmpty
numbers b 0 = none
numbers b 0 = none
receive b 2 1 3 14 = discarded NoSci
protect 13 = Runt
stopped = no
receive-plain 13 = discarded Runt
refill = Busy
receive 9 4 1 1 14 clear = discarded NoSci
submit tx-use 1 = 3
calls = 0
numbers 9 1 = none
submit rx-remove b 1 = 4
step = done 2 refused SlotEmpty
step = done 3 refused SlotEmpty
tx-install 1 2 1 = Busy
step = done 4 refused NoChannel
step = idle
submit rx-install b 2 3 1 30 = 5
stopped = no
step = done 5 refused NoChannel
numbers b 3 = none
submit set-replay on 4294967295 = 6
step = worked
protect 9184 = NoEncodingSa
protect 62 = NoEncodingSa
receive b 4 3 1 100 = discarded NoSci
refill = Busy
protect 62 = NoEncodingSa
protect 62 = NoEncodingSa
protect 9184 = NoEncodingSa
step = worked
protect 9193 = TooLong
fail 3
protect 13 = Runt
numbers b 0 = none
refill = Busy
receive-plain 13 = discarded Runt
fail never
power-loss durable
open
receive b 5 1 1 14 = discarded NoSci
submit rx-drop b = 1
rx-add 9 = Busy
fail never
power-loss gate
open
rest = 0 idle
step = idle
next 3 = none
settings = Strict on 0 Explicit none 0
step = idle
step = idle
fail 4 filled
fail never
power-loss gate
open
submit set-replay on 3 = 1
settings = Strict on 0 Explicit none 0
settings = Strict on 0 Explicit none 0
step = worked
calls = 789
rx-remove 200000000010001 1 = Busy
next 1 = none
calls = 0
submit tx-install 2 5 4294967293 = 2
fail never
power-loss ones
open
protect 62 = NoEncodingSa
receive b 5 0 1 62 clear = discarded NoSci
receive b 4 1 3 62 = discarded NoSci
protect 13 = Runt
rest = 0 idle
receive 9 4 2 1 62 clear = discarded NoSci
step = idle
protect 13 = Runt
step = idle
step = idle
step = idle
protect 9193 = TooLong
receive 9 4 2 2 14 = discarded NoSci
step = idle
tx-remove 0 = refused SlotEmpty
receive 9 1 0 1 100 clear = discarded NoSci
set-replay on 10
receive b 5 3 1 100 = discarded NoSci
protect 13 = Runt
numbers 9 3 = none
step = idle
submit rx-install 9 2 3 4294967293 50 = 1
stopped = no
receive-plain 0 = discarded Runt
numbers b 1 = none
step = done 1 refused NoChannel
receive 9 2 3 3 62 = discarded NoSci
numbers 9 3 = none
numbers b 1 = none
protect 62 = NoEncodingSa
refill
fail never
close
open
rest = 0 idle
settings = Strict on 10 Explicit none 0
receive 9 2 1 1 100 = discarded NoSci
settings = Strict on 10 Explicit none 0
submit rx-install 9 1 4 1 = 1
stopped = no
receive-plain 9217 = discarded Oversize
step = done 1 refused NoChannel
set-sci-mode explicit
submit rx-install b 2 5 0 = 2
next 0 = none
receive 9 4 1 1 100 clear = discarded NoSci
next 2 = none
step = done 2 refused StartRange
settings = Strict on 10 Explicit none 0
calls = 533
fail never
close
open
numbers 9 3 = none
step = idle
next 1 = none
protect 9185 = TooLong
stopped = no
step = idle
submit set-validate check = 1
protect 13 = Runt
step = worked
numbers 9 1 = none
stopped = no
step = worked
set-validate strict = Busy
calls = 266
receive-plain 14 = discarded NoTag
refill = Busy
stopped = no
step = worked
next 2 = none
receive-plain 9216 = discarded NoTag
refill = Busy
settings = Strict on 10 Explicit none 0
refill = Busy
step = done 1 ok
rx-drop b = refused NoChannel

story random 23
format 0200000000010001 2 2
open
stopped = no
next 1 = none
receive b 4 3 1 100 = discarded NoSci
settings = Strict on 0 Explicit none 0
step = idle
step = idle
rx-install b 0 5 1 = refused NoChannel
submit rx-install 9 2 2 4294967293 7 = 1
settings = Strict on 0 Explicit none 0
protect 62 = NoEncodingSa
receive 9 4 1 2 14 = discarded NoSci
set-replay on 10 = Busy
stopped = no
refill = Busy
next 2 = none
fail 5 filled
calls = 524
receive b 1 0 1 62 = discarded NoSci
submit set-validate check = 2
next 0 = none
tx-remove 3 = Busy
numbers 9 2 = none
numbers b 2 = none
fail never
power-loss durable
open
next 2 = none
protect 62 = NoEncodingSa
settings = Strict on 0 Explicit none 0
next 1 = none
receive 9 5 3 1 62 = discarded NoSci
fail 5
stopped = no
calls = 260
fail never
power-loss half
open
submit rx-install 9 3 3 1 = 1
next 2 = none
refill = Busy
stopped = no
step = done 1 refused NoChannel
fail never
power-loss gate
open
settings = Strict on 0 Explicit none 0
stopped = no
rest = 0 idle
stopped = no
receive b 3 0 1 100 = discarded NoSci
receive 9 4 1 1 14 clear broken = discarded NoSci
next 3 = none
step = idle
rest = 0 idle
protect 62 = NoEncodingSa
rest = 0 idle
calls = 520
rest = 0 idle
fail never
close
open
next 0 = none
protect 9185 = TooLong
receive-plain 13 = discarded Runt
stopped = no
receive-plain 14 = discarded NoTag
fail never
power-loss last
open
receive 9 2 1 1 62 = discarded NoSci
protect 62 = NoEncodingSa
rx-add 200000000010001 = refused OwnSci
settings = Strict on 0 Explicit none 0
protect 62 = NoEncodingSa
step = idle
numbers b 1 = none
fail never
power-loss half
open
step = idle
receive 9 2 1 1 62 = discarded NoSci
step = idle
refill
next 3 = none
fail 2
calls = 780
submit tx-use 3 = 1
step = done 1 refused SlotEmpty
receive-plain 62 = discarded NoTag
numbers b 2 = none
settings = Strict on 0 Explicit none 0
protect 13 = Runt
tx-install 2 3 0 clear = refused StartRange
rest = 0 idle
numbers b 1 = none
rest = 0 idle
receive b 4 0 1 14 clear = discarded NoSci
receive 9 5 0 3 62 = discarded NoSci
receive b 3 3 1 62 = discarded NoSci
step = idle
refill
receive 9 5 1 1 14 = discarded NoSci
step = idle
rx-drop 9 = refused NoChannel
calls = 0
calls = 0
calls = 0
stopped = no
rx-add b = Disk
stopped = yes
numbers b 3 = none
numbers b 2 = none
fail never
power-loss gate
open
fail never
power-loss half
open
settings = Strict on 0 Explicit none 0
numbers b 3 = none
receive 9 5 2 1 14 = discarded NoSci
step = idle
submit tx-use 3 = 1
protect 13 = Runt
receive-plain 14 = discarded NoTag
submit rx-add 200000000010001 = 2
refill = Busy
receive 9 5 1 3 100 = discarded NoSci
receive 9 4 2 1 14 = discarded NoSci
step = done 1 refused SlotEmpty
tx-install 0 5 70 clear = Busy
settings = Strict on 0 Explicit none 0
refill = Busy
receive 9 3 3 1 100 = discarded NoSci
refill = Busy
step = done 2 refused OwnSci
step = idle
protect 62 = NoEncodingSa
stopped = no
fail never
power-loss last
open
step = idle
receive 9 3 1 1 62 = discarded NoSci
step = idle
settings = Strict on 0 Explicit none 0
receive b 3 3 3 100 = discarded NoSci
submit tx-use 2 = 1
submit rx-install 9 3 4 1 30 = 2
submit tx-install 3 5 1 clear = 3
protect 14 = NoEncodingSa
fail 5 on
receive 9 4 1 1 62 = discarded NoSci
submit set-replay on 4294967295 = 4
calls = 783
step = done 1 refused SlotEmpty
protect 62 = NoEncodingSa
step = done 2 refused NoChannel
step = worked
receive 9 5 1 1 62 broken = discarded NoSci
next 3 = none
submit tx-use 0 = 5
tx-remove 0 = Busy
numbers 9 2 = none
tx-use 3 = Busy
receive-plain 0 = discarded Runt
receive-plain 14 = discarded NoTag
next 1 = none
rest = 4 Disk
protect 14 = Stopped
protect 62 = Stopped
fail never
power-loss last
open
receive 9 3 0 1 62 = discarded NoSci
stopped = no
fail never
power-loss ones
open
set-replay on 0
refill
protect 9185 = TooLong
receive 9 5 3 1 62 broken = discarded NoSci
protect 9185 = TooLong
stopped = no
rest = 0 idle
fail never
close
open
protect 9193 = TooLong
step = idle
receive 9 3 2 1 62 clear = discarded NoSci
protect 62 = NoEncodingSa
rest = 0 idle
fail never
close
open
protect 62 = NoEncodingSa
numbers 9 3 = none
step = idle
protect 14 = NoEncodingSa
rest = 0 idle
fail 8
step = idle
calls = 1056
step = idle
protect 62 = NoEncodingSa
refill

story random 24
format 0200000000010001 2 2
open
rest = 0 idle
refill
protect 9193 = TooLong
rest = 0 idle
set-validate strict
submit rx-remove 9 0 = 1
numbers 9 3 = none
settings = Strict on 0 Explicit none 0
step = done 1 refused NoChannel
protect 9193 = TooLong
receive-plain 9217 = discarded Oversize
protect 62 = NoEncodingSa
calls = 528
next 0 = none
settings = Strict on 0 Explicit none 0
step = idle
settings = Strict on 0 Explicit none 0
rest = 0 idle
rx-add 200000000010001 = refused OwnSci
step = idle
receive b 4 3 6 14 = discarded NoSci
protect 62 = NoEncodingSa
submit tx-install 2 3 1 30 = 2
numbers 9 2 = none
protect 9185 = TooLong
receive b 4 1 2 14 = discarded NoSci
protect 9193 = TooLong
next 2 = none
rx-add b = Busy
calls = 0
calls = 0
step = worked
numbers b 1 = none
step = worked
next 0 = none
fail never
power-loss durable
open
numbers b 0 = none
step = idle
step = idle
step = idle
rest = 0 idle
calls = 263
numbers 9 2 = none
calls = 0
next 1 = none
next 3 = none
submit tx-use 2 = 1
protect 14 = NoEncodingSa
protect 62 = NoEncodingSa
fail never
power-loss half
open
step = idle
receive b 2 1 3 14 broken = discarded NoSci
step = idle
submit rx-install 9 3 2 4294967293 = 1
step = done 1 refused NoChannel
receive-plain 9216 = discarded NoTag
rest = 0 idle
receive-plain 9217 = discarded Oversize
receive-plain 9217 = discarded Oversize
calls = 261
receive 9 3 3 1 100 = discarded NoSci
protect 14 = NoEncodingSa
step = idle
receive-plain 9216 = discarded NoTag
step = idle
protect 14 = NoEncodingSa
rest = 0 idle
next 3 = none
numbers 9 1 = none
step = idle
calls = 0
receive b 2 3 6 100 clear = discarded NoSci
numbers b 2 = none
step = idle
protect 62 = NoEncodingSa
receive-plain 9217 = discarded Oversize
step = idle
settings = Strict on 0 Explicit none 0
submit set-replay on 0 = 2
receive b 5 0 1 62 = discarded NoSci
stopped = no
receive 9 3 2 2 14 = discarded NoSci
next 0 = none
refill = Busy
protect 13 = Runt
protect 62 = NoEncodingSa
step = worked
protect 9193 = TooLong
step = worked
numbers 9 1 = none
receive b 4 1 1 100 clear = discarded NoSci
step = worked
submit rx-add 9 = 3
step = done 2 ok
numbers 9 2 = none
step = worked
receive-plain 62 = discarded NoTag
step = worked
rx-install 200000000010001 0 4 70 = Busy
submit set-replay on 3 = 4
step = worked
receive-plain 13 = discarded Runt
step = done 3 ok
step = worked
step = worked
calls = 10
fail never
power-loss durable
open
step = idle
rest = 0 idle
receive 9 2 0 1 62 = discarded NotUsingSa
fail 7
next 2 = none
rx-install b 2 4 1 = refused NoChannel
next 1 = none
fail never
close
open
calls = 526
protect 62 = NoEncodingSa
step = idle
step = idle
rest = 0 idle
step = idle
stopped = no
protect 62 = NoEncodingSa
receive-plain 14 = discarded NoTag
numbers b 2 = none
tx-use 1 = refused SlotEmpty
calls = 0
receive 9 4 1 1 62 = discarded NotUsingSa
submit rx-add 9 = 1
settings = Strict on 0 Explicit none 1
protect 9193 = TooLong
rest = 1 idle
receive-plain 14 = discarded NoTag
step = idle
tx-remove 2 = refused SlotEmpty
protect 9193 = TooLong
calls = 0
receive b 1 3 1 100 clear = discarded NoSci
step = idle
rx-remove b 3 = refused NoChannel
step = idle
refill
rest = 0 idle
next 3 = none
receive 9 4 1 2 62 broken = discarded NotUsingSa
receive 9 5 3 1 14 clear = discarded NotUsingSa
next 2 = none
calls = 0
receive b 5 0 1 14 clear = discarded NoSci
fail never
power-loss gate
open
submit rx-add 9 = 1
settings = Strict on 0 Explicit none 1
receive b 4 2 1 62 = discarded NoSci
protect 9185 = TooLong
protect 9193 = TooLong
receive 9 3 0 1 100 broken = discarded NotUsingSa
step = done 1 refused ChannelTaken
calls = 263
next 3 = none
stopped = no
fail 6 filled
submit set-replay on 4294967295 = 2
settings = Strict on 0 Explicit none 1
protect 13 = Runt
receive 9 1 0 1 62 = discarded NotUsingSa
protect 62 = NoEncodingSa
calls = 0
fail never
power-loss ones
open
receive 9 5 3 1 62 = discarded NotUsingSa
receive 9 4 3 1 62 clear = discarded NotUsingSa
refill
protect 62 = NoEncodingSa
receive 9 3 1 1 62 = discarded NotUsingSa
receive-plain 14 = discarded NoTag
settings = Strict on 0 Explicit none 1
receive-plain 62 = discarded NoTag
step = idle
rx-add b
rest = 0 idle
refill
step = idle
receive-plain 62 = discarded NoTag
calls = 267
receive 9 4 1 1 62 = discarded NotUsingSa
fail never
power-loss durable
open

story random 25
format 0200000000010001 16 16
open
protect 62 = NoEncodingSa
step = idle
submit rx-drop b = 1
settings = Strict on 0 Explicit none 0
step = done 1 refused NoChannel
calls = 524
rest = 0 idle
refill
receive 9 3 3 6 62 = discarded NoSci
rest = 0 idle
step = idle
step = idle
next 3 = none
next 0 = none
protect 62 = NoEncodingSa
numbers 9 3 = none
receive-plain 62 = discarded NoTag
rest = 0 idle
settings = Strict on 0 Explicit none 0
next 3 = none
rx-install b 2 1 70 50 = refused NoChannel
step = idle
calls = 0
settings = Strict on 0 Explicit none 0
numbers b 2 = none
rest = 0 idle
protect 62 = NoEncodingSa
submit tx-install 3 2 1 7 = 2
step = done 2 refused OffsetChoice
tx-use 1 = refused SlotEmpty
step = idle
next 0 = none
protect 62 = NoEncodingSa
stopped = no
refill
step = idle
next 3 = none
submit rx-add b = 3
step = worked
settings = Strict on 0 Explicit none 0
stopped = no
rest = 3 idle
tx-use 3 = refused SlotEmpty
fail never
power-loss durable
open
protect 62 = NoEncodingSa
step = idle
rest = 0 idle
next 1 = none
submit tx-use 3 = 1
step = done 1 refused SlotEmpty
stopped = no
submit set-sci-mode explicit = 2
step = worked
receive 9 2 3 3 100 = discarded NoSci
receive b 5 0 1 62 = discarded NotUsingSa
receive b 3 2 2 62 = discarded NotUsingSa
protect 13 = Runt
protect 14 = NoEncodingSa
step = worked
rest = 2 idle
stopped = no
fail 1 on
step = idle
stopped = no
step = idle
numbers b 0 = none
submit set-replay on 3 = 3
step = worked
fail never
close
open
settings = Strict on 0 Explicit none 1
numbers 9 2 = none
fail 6 filled
step = idle
receive b 3 3 2 62 clear = discarded NotUsingSa
protect 14 = NoEncodingSa
rest = 0 idle
next 2 = none
step = idle
receive-plain 14 = discarded NoTag
fail never
power-loss gate
open
submit set-validate check = 1
refill = Busy
protect 14 = NoEncodingSa
numbers 9 3 = none
step = worked
next 3 = none
protect 62 = NoEncodingSa
receive-plain 9217 = discarded Oversize
settings = Strict on 0 Explicit none 1
receive 9 3 3 2 62 = discarded NoSci
protect 62 = NoEncodingSa
settings = Strict on 0 Explicit none 1
submit rx-add 9 = 2
calls = 795
protect 13 = Runt
tx-remove 1 = Busy
step = worked
next 3 = none
step = worked
protect 9184 = NoEncodingSa
protect 62 = NoEncodingSa
refill = Busy
next 1 = none
receive 9 2 3 3 62 = discarded NoSci
settings = Strict on 0 Explicit none 1
step = done 1 ok
calls = 3
settings = Check on 0 Explicit none 1
calls = 0
set-validate strict = Busy
receive b 3 3 1 100 clear = delivered UnusedSa
rx-remove 200000000010001 2 = Busy
submit rx-add b = 3
calls = 0
calls = 0
numbers b 3 = none
refill = Busy
step = worked
step = worked
submit tx-install 2 2 1 = 4
numbers 9 1 = none
receive b 3 0 1 62 = discarded NotUsingSa
next 1 = none
rest = 7 idle
protect 62 = NoEncodingSa
receive-plain 13 = discarded Runt
step = idle
step = idle
calls = 8
protect 13 = Runt
step = idle
calls = 0
calls = 0
step = idle
fail never
close
open
calls = 265
receive b 5 1 2 100 broken = discarded NotUsingSa
protect 9193 = TooLong
receive-plain 62 = delivered Untagged
receive-plain 62 = delivered Untagged
step = idle
step = idle
fail never
power-loss ones
open
protect 62 = NoEncodingSa
settings = Check on 0 Explicit none 2
protect 62 = NoEncodingSa
tx-install 1 2 1 clear = refused KeySpent
refill
protect 13 = Runt
calls = 265
step = idle
protect 62 = NoEncodingSa
calls = 0
next 3 = none
step = idle
step = idle
tx-use 1 = refused SlotEmpty
tx-remove 2
receive-plain 0 = discarded Runt
step = idle
step = idle
receive-plain 62 = delivered Untagged
fail 4 on
rest = 0 idle
rest = 0 idle
next 2 = none
receive-plain 9216 = delivered Untagged
numbers 9 0 = none
calls = 4
receive-plain 13 = discarded Runt
step = idle
numbers b 2 = none
step = idle
fail never
power-loss ones
open
step = idle
protect 13 = Runt
rest = 0 idle
step = idle
step = idle
rest = 0 idle
submit rx-install 200000000010001 1 1 4294967293 30 = 1
step = done 1 refused NoChannel
protect 13 = Runt
numbers b 0 = none
stopped = no
step = idle
step = idle
receive b 2 0 3 100 clear = delivered UnusedSa
step = idle

story random 26
format 0200000000010001 4 4
open
settings = Strict on 0 Explicit none 0
receive 9 1 1 2 62 broken = discarded NoSci
refill
receive b 1 1 2 62 broken = discarded NoSci
fail 2 on
protect 9184 = NoEncodingSa
receive-plain 9217 = discarded Oversize
receive 9 5 3 3 62 = discarded NoSci
protect 9193 = TooLong
rest = 0 idle
step = idle
step = idle
rest = 0 idle
receive 9 3 0 2 14 = discarded NoSci
step = idle
refill
stopped = no
protect 62 = NoEncodingSa
rest = 0 idle
submit rx-add b = 1
protect 62 = NoEncodingSa
stopped = no
rest = 2 Disk
step = Stopped
fail never
power-loss ones
open
next 3 = none
rx-remove 9 1 = refused NoChannel
set-replay off 10
protect 14 = NoEncodingSa
step = idle
step = idle
calls = 791
step = idle
protect 62 = NoEncodingSa
receive b 1 0 1 100 broken = discarded NoSci
refill
stopped = no
settings = Strict off 10 Explicit none 0
step = idle
next 2 = none
receive-plain 9216 = discarded NoTag
receive b 1 1 1 100 = discarded NoSci
receive b 4 3 1 14 broken = discarded NoSci
rest = 0 idle
fail never
close
open
protect 9184 = NoEncodingSa
next 2 = none
settings = Strict off 10 Explicit none 0
receive 9 1 1 2 14 clear = discarded NoSci
step = idle
set-validate check
rest = 0 idle
stopped = no
numbers 9 0 = none
set-sci-mode implicit
fail never
power-loss last
open
receive-plain 62 = delivered Untagged
step = idle
next 0 = none
step = idle
step = idle
rx-install b 2 3 1 30 = refused NoChannel
receive-plain 9216 = delivered Untagged
fail never
close
open
fail never
power-loss gate
open
stopped = no
protect 13 = Runt
step = idle
receive-plain 9216 = delivered Untagged
settings = Check off 10 Implicit none 0
rx-install b 3 1 1 = refused NoChannel
step = idle
refill
receive 9 3 2 3 14 = discarded NoSci
calls = 1058
rx-install 200000000010001 2 4 4294967293 = refused NoChannel
fail 6
receive 9 2 1 1 62 = discarded NoSci
receive 9 1 1 6 62 broken = discarded NoSci
step = idle
receive 9 1 2 1 62 = discarded NoSci
calls = 0
protect 62 = NoEncodingSa
receive-plain 9217 = discarded Oversize
fail never
power-loss last
open
next 0 = none
rest = 0 idle
tx-install 3 3 1 clear
stopped = no
stopped = no
submit set-sci-mode explicit = 1
step = worked
receive-plain 9216 = delivered Untagged
rest = 3 idle
fail never
power-loss gate
open
protect 62 = NoEncodingSa
fail 7 on
refill
fail 1
step = idle
rest = 0 idle
tx-install 3 3 70 30 = refused SlotTaken
receive-plain 13 = discarded Runt
rest = 0 idle
step = idle
numbers 9 0 = none
step = idle
step = idle
submit tx-install 2 1 1 30 = 1
protect 13 = Runt
settings = Check off 10 Explicit none 0
rest = 1 Disk
fail never
power-loss last
open
protect 9185 = TooLong
settings = Check off 10 Explicit none 0
protect 62 = NoEncodingSa
fail never
power-loss zeros
open
step = idle
step = idle
submit tx-install 3 3 1 7 = 1
protect 13 = Runt
receive-plain 0 = discarded Runt
step = done 1 refused OffsetChoice
step = idle
step = idle
step = idle
numbers 9 0 = none
protect 62 = NoEncodingSa
refill
numbers 9 0 = none
settings = Check off 10 Explicit none 0
step = idle
receive b 5 3 1 62 = discarded NoSci
protect 62 = NoEncodingSa
numbers 9 1 = none
stopped = no
numbers 9 1 = none
calls = 1068
refill
tx-remove 1 = refused SlotEmpty
refill
receive 9 3 0 2 14 = discarded NoSci
settings = Check off 10 Explicit none 0
step = idle
step = idle
stopped = no
set-sci-mode end-station
numbers 9 0 = none
rest = 0 idle
receive-plain 62 = delivered Untagged
stopped = no
rx-remove b 1 = refused NoChannel
step = idle
next 1 = none
settings = Check off 10 EndStation none 0
protect 62 = ForeignSource
receive b 3 1 1 62 clear = delivered UnknownSci
set-replay on 4294967295
protect 9193 = TooLong
stopped = no
numbers 9 0 = none
receive-plain 0 = discarded Runt
step = idle
numbers b 0 = none
receive b 4 2 1 62 = discarded NoSci
stopped = no
set-replay on 0
protect 62 = ForeignSource
receive 9 2 3 1 14 = discarded NoSci
step = idle
next 1 = none
numbers b 3 = none
step = idle
fail never
power-loss last
open
rest = 0 idle
calls = 280
submit set-replay on 3 = 1
next 0 = none
next 1 = none
step = worked
protect 9193 = TooLong
submit set-replay on 0 = 2

story random 27
format 0200000000010001 4 4
open
fail never
power-loss zeros
open
receive b 1 1 1 14 = discarded NoSci
fail never
power-loss last
open
receive b 3 2 1 62 = discarded NoSci
refill
refill
protect 9184 = NoEncodingSa
rest = 0 idle
tx-use 1 = refused SlotEmpty
rx-drop b = refused NoChannel
protect 62 = NoEncodingSa
receive b 3 3 2 14 = discarded NoSci
rest = 0 idle
submit tx-install 3 2 0 clear = 1
stopped = no
numbers 9 3 = none
protect 62 = NoEncodingSa
numbers b 2 = none
step = done 1 refused StartRange
stopped = no
step = idle
fail never
close
open
protect 62 = NoEncodingSa
submit rx-remove b 3 = 1
calls = 1304
refill = Busy
submit tx-remove 3 = 2
numbers b 0 = none
refill = Busy
rx-remove 9 3 = Busy
refill = Busy
refill = Busy
submit rx-add b = 3
protect 13 = Runt
refill = Busy
rest = 6 idle
stopped = no
refill
calls = 4
fail never
power-loss ones
open
fail never
power-loss durable
open
calls = 522
rest = 0 idle
protect 9185 = TooLong
numbers b 2 = none
receive 9 4 2 3 62 clear broken = discarded NoSci
next 2 = none
stopped = no
rest = 0 idle
numbers b 3 = none
protect 9185 = TooLong
receive 9 1 0 1 100 = discarded NoSci
receive b 4 3 1 14 = discarded NotUsingSa
protect 62 = NoEncodingSa
protect 9185 = TooLong
next 1 = none
numbers b 1 = none
receive-plain 62 = discarded NoTag
calls = 0
protect 13 = Runt
step = idle
rest = 0 idle
protect 9184 = NoEncodingSa
settings = Strict on 0 Explicit none 1
receive-plain 0 = discarded Runt
numbers b 3 = none
fail 3 filled
receive-plain 9217 = discarded Oversize
protect 62 = NoEncodingSa
protect 14 = NoEncodingSa
calls = 0
receive b 3 2 1 14 clear = discarded NotUsingSa
settings = Strict on 0 Explicit none 1
stopped = no
numbers 9 2 = none
submit tx-install 2 4 1 clear = 1
settings = Strict on 0 Explicit none 1
settings = Strict on 0 Explicit none 1
step = worked
stopped = no
step = worked
receive-plain 9216 = discarded NoTag
next 0 = none
receive 9 5 1 1 62 = discarded NoSci
protect 9185 = TooLong
receive 9 2 1 3 100 clear = discarded NoSci
protect 13 = Runt
step = worked
receive 9 3 3 3 62 broken = discarded NoSci
step = Disk
tx-install 3 2 70 = Stopped
receive-plain 9217 = Stopped
fail never
close
open
submit set-replay off 0 = 1
tx-use 0 = Busy
rx-install b 0 4 70 = Busy
step = worked
step = worked
refill = Busy
protect 62 = NoEncodingSa
step = worked
settings = Strict on 0 Explicit none 1
numbers b 1 = none
step = done 1 ok
step = idle
settings = Strict off 0 Explicit none 1
step = idle
step = idle
receive-plain 0 = discarded Runt
stopped = no
numbers b 0 = none
receive b 5 2 1 100 = discarded NotUsingSa
receive 9 5 2 6 62 = discarded NoSci
receive b 1 3 1 62 clear = discarded NotUsingSa
next 1 = none
receive b 5 3 3 62 clear = discarded NotUsingSa
stopped = no
protect 62 = NoEncodingSa
refill
tx-use 2
submit set-replay on 3 = 2
protect 62 = NoNumber
settings = Strict off 0 Explicit 2 1
protect 9185 = TooLong
receive-plain 14 = discarded NoTag
receive b 4 2 1 100 clear broken = discarded NotUsingSa
receive-plain 0 = discarded Runt
submit rx-remove b 3 = 3
receive-plain 9217 = discarded Oversize
tx-remove 0 = Busy
step = worked
receive 9 4 1 6 100 = discarded NoSci
step = worked
step = worked
calls = 277
step = reserved
protect 62 = 5
settings = Strict off 0 Explicit 2 1
rest = 5 idle
fail 8 on
refill
step = idle
refill
protect 13 = Runt
settings = Strict on 3 Explicit 2 1
receive-plain 9216 = discarded NoTag
receive b 3 3 1 100 broken = discarded NotUsingSa
calls = 5
fail never
power-loss half
open
rest = 4 idle
submit tx-install 2 5 1 50 = 1
submit rx-install 9 3 1 4294967293 50 = 2
stopped = no
protect 9185 = TooLong
step = done 1 refused SlotTaken
submit rx-install 9 3 3 4294967293 30 = 3
stopped = no
receive 9 3 0 1 100 = discarded NoSci
rest = 2 idle
step = idle
refill
protect 9193 = TooLong
step = idle
set-replay on 4294967295
step = idle
protect 9184 = 9
step = idle
step = idle
receive 9 4 0 1 100 = discarded NoSci
step = idle
stopped = no
calls = 274
step = idle
numbers b 0 = none
submit rx-remove 9 0 = 4
numbers 9 0 = none
rest = 1 idle
fail never
power-loss durable
open
settings = Strict on 4294967295 Explicit 2 1
refill
numbers b 2 = none
fail never
power-loss last
open
protect 62 = NoNumber
step = worked
receive b 4 0 2 62 broken = discarded NotUsingSa

story random 28
format 0200000000010001 4 4
open
receive 9 3 1 1 62 = discarded NoSci
fail 1 filled
receive b 2 3 1 62 = discarded NoSci
submit set-replay on 10 = 1
calls = 524
numbers 9 1 = none
step = worked
receive 9 4 2 6 14 = discarded NoSci
fail never
power-loss half
open
submit tx-use 3 = 1
refill = Busy
protect 9184 = NoEncodingSa
step = done 1 refused SlotEmpty
refill
receive-plain 0 = discarded Runt
receive b 4 1 2 62 clear = discarded NoSci
rest = 0 idle
step = idle
settings = Strict on 0 Explicit none 0
receive 9 1 1 1 62 clear = discarded NoSci
numbers b 1 = none
refill
numbers b 0 = none
next 3 = none
receive 9 5 3 1 100 = discarded NoSci
rest = 0 idle
stopped = no
step = idle
rest = 0 idle
step = idle
receive 9 4 0 6 62 = discarded NoSci
rest = 0 idle
settings = Strict on 0 Explicit none 0
receive b 1 3 3 100 = discarded NoSci
calls = 261
receive b 5 2 1 100 clear broken = discarded NoSci
step = idle
step = idle
next 3 = none
protect 62 = NoEncodingSa
rx-add 9
receive-plain 0 = discarded Runt
receive b 4 0 2 100 = discarded NoSci
step = idle
step = idle
refill
calls = 4
step = idle
next 1 = none
settings = Strict on 0 Explicit none 1
protect 62 = NoEncodingSa
receive-plain 9216 = discarded NoTag
numbers b 1 = none
refill
receive b 1 0 1 14 = discarded NoSci
step = idle
fail 6 on
next 2 = none
stopped = no
submit rx-install 9 3 1 4294967293 50 = 2
step = worked
fail never
close
open
receive-plain 13 = discarded Runt
stopped = no
rx-add b
step = idle
receive-plain 9217 = discarded Oversize
protect 62 = NoEncodingSa
step = idle
protect 13 = Runt
fail never
power-loss half
open
rest = 0 idle
protect 9193 = TooLong
calls = 528
calls = 0
submit rx-remove b 3 = 1
next 2 = none
protect 62 = NoEncodingSa
protect 62 = NoEncodingSa
receive b 4 2 1 62 = discarded NotUsingSa
receive-plain 13 = discarded Runt
receive-plain 9216 = discarded NoTag
rest = 1 idle
receive b 4 2 1 62 = discarded NotUsingSa
submit set-validate strict = 2
receive b 5 3 1 62 = discarded NotUsingSa
protect 14 = NoEncodingSa
receive b 2 3 1 100 = discarded NotUsingSa
submit rx-install b 3 1 1 30 = 3
refill = Busy
submit rx-remove 9 3 = 4
settings = Strict on 0 Explicit none 2
protect 14 = NoEncodingSa
next 2 = none
protect 9193 = TooLong
receive 9 4 3 1 14 = discarded NotUsingSa
stopped = no
receive-plain 9217 = discarded Oversize
step = worked
calls = 1
step = worked
receive-plain 9217 = discarded Oversize
calls = 1
refill = Busy
fail 8
rx-add b = Busy
next 2 = none
stopped = no
step = worked
next 1 = none
refill = Busy
step = done 2 ok
next 1 = none
rest = 5 idle
stopped = no
numbers 9 3 = none
step = idle
step = idle
rx-add b = refused ChannelTaken
submit rx-install 9 0 5 1 = 5
refill = Busy
rx-remove 9 2 = Busy
rest = 2 Disk
numbers 9 2 = none
fail never
power-loss durable
open
protect 9185 = TooLong
refill
receive b 1 3 1 62 clear broken = discarded NotValid
stopped = no
receive-plain 9217 = discarded Oversize
protect 62 = NoEncodingSa
receive b 1 3 1 100 broken 30 = discarded NotValid
receive-plain 0 = discarded Runt
protect 9184 = NoEncodingSa
rx-install b 1 5 0 50 = refused StartRange
refill
receive-plain 14 = discarded NoTag
fail never
close
open
calls = 537
rx-remove 9 2 = refused SlotEmpty
receive-plain 14 = discarded NoTag
protect 62 = NoEncodingSa
numbers b 0 = none
submit set-sci-mode end-station = 1
step = worked
submit tx-install 1 5 4294967293 30 = 2
step = worked
calls = 2
fail never
power-loss ones
open
step = idle
rx-install 9 3 2 1
step = idle
stopped = no
stopped = no
refill
step = idle
next 2 = none
protect 13 = Runt
receive b 1 3 2 100 broken 30 = discarded NotValid
rx-add b = refused ChannelTaken
step = idle
protect 9185 = TooLong
receive b 1 3 1 62 30 = held back
rest = 4 idle
submit set-sci-mode implicit = 1
protect 13 = Runt
step = worked
rest = 3 idle
submit tx-install 1 2 1 = 2
calls = 276
protect 62 = NoEncodingSa
step = worked
rx-install b 3 5 1 50 = Busy
numbers b 2 = none
step = worked
numbers b 3 = 1 1
stopped = no
next 2 = none
submit set-sci-mode explicit = 3
step = worked
protect 62 = NoEncodingSa
step = done 2 ok
refill = Busy
rx-install 9 3 2 1 = Busy
protect 62 = NoEncodingSa
receive 9 2 3 3 62 = held back
receive-plain 9217 = discarded Oversize
rx-remove 9 0 = Busy

story random 29
format 0200000000010001 4 4
open
refill
refill
receive-plain 62 = discarded NoTag
receive-plain 13 = discarded Runt
step = idle
settings = Strict on 0 Explicit none 0
step = idle
rx-install 200000000010001 0 1 1 = refused NoChannel
step = idle
fail never
power-loss half
open
settings = Strict on 0 Explicit none 0
protect 62 = NoEncodingSa
settings = Strict on 0 Explicit none 0
receive b 3 1 1 100 = discarded NoSci
receive 9 5 2 6 14 = discarded NoSci
receive-plain 62 = discarded NoTag
step = idle
protect 13 = Runt
step = idle
step = idle
step = idle
fail never
power-loss ones
open
fail never
power-loss ones
open
step = idle
receive 9 4 2 1 62 = discarded NoSci
submit rx-drop b = 1
next 0 = none
fail 5 on
step = done 1 refused NoChannel
refill
step = idle
protect 13 = Runt
calls = 1304
submit set-validate strict = 2
set-replay off 3 = Busy
tx-install 3 2 0 7 = Busy
step = worked
settings = Strict on 0 Explicit none 0
tx-install 2 4 4294967293 = Busy
receive-plain 14 = discarded NoTag
stopped = no
calls = 1
rest = 3 idle
protect 9193 = TooLong
settings = Strict on 0 Explicit none 0
stopped = no
stopped = no
protect 9184 = NoEncodingSa
tx-use 3 = refused SlotEmpty
rx-remove 9 1 = refused NoChannel
receive 9 5 1 1 14 = discarded NoSci
stopped = no
calls = 3
next 0 = none
receive 9 2 0 1 14 = discarded NoSci
fail 2
protect 9193 = TooLong
step = idle
next 2 = none
receive b 2 3 1 100 = discarded NoSci
protect 62 = NoEncodingSa
protect 14 = NoEncodingSa
protect 62 = NoEncodingSa
receive-plain 62 = discarded NoTag
rest = 0 idle
protect 62 = NoEncodingSa
receive-plain 9217 = discarded Oversize
protect 9193 = TooLong
refill
refill
refill
protect 9185 = TooLong
step = idle
refill
calls = 0
receive-plain 9217 = discarded Oversize
step = idle
receive 9 4 2 1 62 = discarded NoSci
rx-add b = Disk
step = Stopped
fail never
power-loss half
open
settings = Strict on 0 Explicit none 0
step = idle
set-validate strict
calls = 268
refill
settings = Strict on 0 Explicit none 0
protect 62 = NoEncodingSa
calls = 0
fail never
power-loss gate
open
step = idle
tx-install 0 3 4294967293 clear
step = idle
protect 62 = NoEncodingSa
fail never
power-loss gate
open
receive-plain 0 = discarded Runt
step = idle
step = idle
fail never
power-loss zeros
open
fail never
power-loss zeros
open
receive b 5 0 1 100 broken = discarded NoSci
receive-plain 9216 = discarded NoTag
step = idle
settings = Strict on 0 Explicit none 0
receive 9 4 3 1 62 clear = discarded NoSci
numbers b 1 = none
receive-plain 9216 = discarded NoTag
numbers 9 0 = none
receive-plain 13 = discarded Runt
receive b 5 2 6 62 = discarded NoSci
protect 62 = NoEncodingSa
submit tx-install 0 2 70 7 = 1
receive-plain 9216 = discarded NoTag
protect 62 = NoEncodingSa
rest = 1 idle
submit tx-use 1 = 2
settings = Strict on 0 Explicit none 0
receive b 4 3 1 14 = discarded NoSci
step = done 2 refused SlotEmpty
rest = 0 idle
submit set-validate strict = 3
numbers 9 3 = none
next 3 = none
next 2 = none
receive 9 5 1 2 62 = discarded NoSci
rest = 4 idle
receive-plain 62 = discarded NoTag
calls = 1059
settings = Strict on 0 Explicit none 0
step = idle
step = idle
submit rx-install b 2 3 1 7 = 4
next 0 = 4294967296
stopped = no
step = done 4 refused OffsetChoice
rx-add 9
numbers b 1 = none
receive b 1 3 2 62 clear = discarded NoSci
calls = 4
calls = 0
stopped = no
stopped = no
tx-remove 1 = refused SlotEmpty
receive b 4 2 2 14 = discarded NoSci
step = idle
receive-plain 9216 = discarded NoTag
step = idle
next 3 = none
step = idle
protect 62 = NoEncodingSa
rest = 0 idle
receive b 4 2 6 100 clear = discarded NoSci
stopped = no
rest = 0 idle
rest = 0 idle
set-validate check
stopped = no
step = idle
receive 9 2 1 1 62 broken = discarded NotUsingSa
fail never
power-loss zeros
open
refill
numbers 9 2 = none
numbers b 3 = none
step = idle
submit rx-remove b 2 = 1
receive b 2 3 1 100 = discarded NoSci
calls = 270
step = done 1 refused NoChannel
refill
fail 6 on
step = idle
receive-plain 0 = discarded Runt
step = idle
receive 9 2 2 1 14 clear = delivered UnusedSa
receive-plain 13 = discarded Runt
numbers b 2 = none
step = idle
refill
protect 62 = NoEncodingSa
numbers b 0 = none
fail 1 on
protect 62 = NoEncodingSa
rest = 0 idle
calls = 0

story random 30
format 0200000000010001 16 16
open
next 2 = none
stopped = no
receive-plain 9217 = discarded Oversize
settings = Strict on 0 Explicit none 0
receive-plain 9216 = discarded NoTag
step = idle
rest = 0 idle
calls = 524
step = idle
fail 0 filled
set-validate check = Disk
numbers b 3 = none
protect 62 = Stopped
calls = 1
numbers 9 1 = none
fail never
power-loss last
open
numbers 9 3 = none
step = idle
settings = Strict on 0 Explicit none 0
stopped = no
step = idle
fail never
power-loss gate
open
numbers 9 3 = none
rest = 0 idle
receive-plain 13 = discarded Runt
tx-install 0 4 1
calls = 524
receive-plain 13 = discarded Runt
step = idle
rest = 0 idle
settings = Strict on 0 Explicit none 0
settings = Strict on 0 Explicit none 0
refill
set-replay off 10
step = idle
next 0 = 1
rest = 0 idle
rx-install 9 1 2 1 = refused NoChannel
stopped = no
protect 14 = NoEncodingSa
fail never
close
open
rest = 0 idle
next 0 = 17
fail never
close
open
step = idle
rx-add b
refill
protect 9185 = TooLong
numbers 9 1 = none
step = idle
stopped = no
rest = 0 idle
rx-install 9 3 5 4294967293 30 = refused NoChannel
stopped = no
stopped = no
protect 9185 = TooLong
numbers b 2 = none
step = idle
settings = Strict off 10 Explicit none 1
receive b 1 0 1 62 = discarded NotUsingSa
receive b 5 1 2 14 = discarded NotUsingSa
rx-install b 1 1 70 50
step = idle
step = idle
numbers 9 1 = none
receive b 1 1 70 100 50 = held back
next 3 = none
settings = Strict off 10 Explicit none 1
settings = Strict off 10 Explicit none 1
next 1 = none
numbers 9 3 = none
numbers b 3 = none
protect 62 = NoEncodingSa
settings = Strict off 10 Explicit none 1
fail never
power-loss gate
open
submit rx-install b 2 4 1 = 1
submit tx-use 2 = 2
rest = 5 idle
receive-plain 9216 = discarded NoTag
step = idle
stopped = no
fail never
power-loss half
open
submit rx-add b = 1
calls = 1069
receive-plain 9216 = discarded NoTag
fail never
power-loss half
open
step = idle
receive b 1 1 71 62 broken 50 = discarded NotValid
receive b 1 1 67 14 50 = delivered Delayed
settings = Strict off 10 Explicit none 1
step = worked
rx-add b = refused ChannelTaken
receive-plain 13 = discarded Runt
receive b 4 2 3 62 broken = discarded NotValid
step = worked
step = worked
stopped = no
receive b 1 1 69 100 clear = delivered Delayed
step = reserved
receive-plain 62 = discarded NoTag
protect 62 = NoEncodingSa
stopped = no
refill
receive-plain 0 = discarded Runt
rest = 0 idle
receive b 4 2 6 14 = held back
protect 62 = NoEncodingSa
step = worked
receive b 4 2 2 62 broken = discarded NotValid
receive b 1 1 71 100 clear = delivered Ok
step = worked
submit rx-install 9 1 4 1 = 1
calls = 271
rest = 3 idle
next 1 = none
fail never
power-loss zeros
open
stopped = no
next 2 = none
receive 9 2 0 6 62 = discarded NoSci
receive-plain 62 = discarded NoTag
submit tx-use 1 = 1
receive b 1 1 80 14 clear = delivered Delayed
settings = Strict off 10 Explicit none 1
receive b 5 2 22 62 broken = discarded NotValid
step = worked
stopped = no
rest = 4 idle
numbers b 3 = none
rx-install 9 1 1 0 = refused StartRange
step = idle
step = idle
settings = Strict off 10 Explicit none 1
step = idle
refill
refill
settings = Strict off 10 Explicit none 1
next 2 = none
stopped = no
step = idle
refill
calls = 273
step = idle
step = idle
protect 9193 = TooLong
receive b 1 1 83 62 50 = delivered Ok
next 1 = none
step = idle
rest = 0 idle
step = idle
protect 62 = NoEncodingSa
numbers b 2 = 22 22
settings = Strict off 10 Explicit none 1
refill
rx-drop b
refill
rx-install 9 2 1 1 = refused NoChannel
stopped = no
next 1 = none
calls = 4
fail 2 on
step = idle
stopped = no
receive 9 2 0 6 62 clear broken = discarded NoSci
step = idle
receive-plain 14 = discarded NoTag
step = idle
numbers b 0 = none
step = idle
rest = 0 idle
settings = Strict off 10 Explicit none 0
rest = 0 idle
receive b 4 0 1 62 clear = discarded NoSci
numbers 9 1 = none
settings = Strict off 10 Explicit none 0
fail 2 on
submit rx-install 9 0 5 1 = 2
receive 9 3 3 1 100 = discarded NoSci
submit rx-drop 200000000010001 = 3
refill = Busy
fail never
power-loss ones
open
receive 9 5 2 1 62 = discarded NoSci
calls = 269
receive 9 1 0 3 14 clear = discarded NoSci
rest = 0 idle
refill

story random 31
format 0200000000010001 1 1
open
submit tx-use 2 = 1
fail 5 on
set-replay off 0 = Busy
submit rx-install b 0 4 1 30 = 2
submit rx-remove 200000000010001 0 = 3
step = done 1 refused SlotEmpty
settings = Strict on 0 Explicit none 0
calls = 524
stopped = no
receive b 3 0 1 100 = discarded NoSci
calls = 0
receive-plain 9216 = discarded NoTag
fail never
power-loss durable
open
numbers b 3 = none
step = idle
tx-remove 3 = refused SlotEmpty
receive b 2 3 2 62 = discarded NoSci
next 1 = none
refill
receive 9 1 2 1 62 = discarded NoSci
protect 62 = NoEncodingSa
numbers 9 0 = none
fail never
power-loss durable
open
protect 9193 = TooLong
receive 9 2 3 1 14 = discarded NoSci
stopped = no
fail 2
submit tx-use 1 = 1
rest = 1 idle
stopped = no
stopped = no
rest = 0 idle
calls = 520
calls = 0
receive-plain 62 = discarded NoTag
step = idle
step = idle
calls = 0
step = idle
receive-plain 9217 = discarded Oversize
rest = 0 idle
protect 9193 = TooLong
rx-install 9 1 2 4294967293 7 = refused OffsetChoice
calls = 0
step = idle
next 0 = none
step = idle
submit rx-add 9 = 2
step = worked
numbers b 2 = none
fail never
power-loss zeros
open
settings = Strict on 0 Explicit none 0
step = idle
next 3 = none
settings = Strict on 0 Explicit none 0
refill
receive 9 1 3 6 62 = discarded NoSci
stopped = no
next 2 = none
step = idle
fail 1 on
receive-plain 14 = discarded NoTag
stopped = no
submit rx-install 9 1 1 1 30 = 1
tx-use 0 = Busy
next 1 = none
receive 9 3 3 6 100 = discarded NoSci
settings = Strict on 0 Explicit none 0
step = done 1 refused NoChannel
stopped = no
fail 0 filled
receive-plain 9216 = discarded NoTag
fail never
power-loss gate
open
numbers b 0 = none
receive-plain 9216 = discarded NoTag
next 0 = none
rx-add b
next 2 = none
receive 9 2 3 1 14 broken = discarded NoSci
receive b 1 2 1 100 clear = discarded NotUsingSa
rest = 0 idle
receive-plain 9217 = discarded Oversize
settings = Strict on 0 Explicit none 1
receive-plain 9217 = discarded Oversize
step = idle
fail never
power-loss gate
open
stopped = no
submit rx-add b = 1
stopped = no
receive-plain 9217 = discarded Oversize
stopped = no
numbers b 3 = none
receive-plain 9217 = discarded Oversize
rest = 1 idle
fail never
close
open
numbers b 3 = none
next 2 = none
step = idle
receive b 1 3 6 14 = discarded NotUsingSa
protect 9184 = NoEncodingSa
receive 9 1 1 1 14 clear = discarded NoSci
receive 9 5 1 1 14 clear = discarded NoSci
settings = Strict on 0 Explicit none 1
next 1 = none
refill
set-validate check
rest = 0 idle
stopped = no
settings = Check on 0 Explicit none 1
receive-plain 13 = discarded Runt
refill
numbers b 3 = none
numbers b 0 = none
submit rx-install b 0 2 1 7 = 1
fail never
power-loss durable
open
step = idle
fail never
power-loss last
open
receive-plain 9216 = delivered Untagged
stopped = no
settings = Check on 0 Explicit none 1
rest = 0 idle
protect 9184 = NoEncodingSa
receive 9 1 2 1 62 broken = discarded NoSci
step = idle
protect 62 = NoEncodingSa
settings = Check on 0 Explicit none 1
submit set-sci-mode explicit = 1
step = worked
step = worked
receive-plain 62 = delivered Untagged
step = worked
rest = 1 idle
receive-plain 0 = discarded Runt
receive 9 3 0 1 62 = discarded NoSci
step = idle
protect 62 = NoEncodingSa
receive 9 5 2 3 62 clear = delivered UnknownSci
fail never
power-loss half
open
next 1 = none
receive b 3 1 2 62 clear = delivered UnusedSa
rest = 0 idle
receive-plain 13 = discarded Runt
calls = 1842
rest = 0 idle
refill
stopped = no
submit rx-drop b = 1
set-validate strict = Busy
protect 62 = NoEncodingSa
step = worked
calls = 1
receive-plain 9216 = delivered Untagged
step = worked
fail 4
protect 9185 = TooLong
submit tx-use 3 = 2
protect 14 = NoEncodingSa
protect 9193 = TooLong
protect 62 = NoEncodingSa
refill = Busy
rest = 3 idle
rx-drop 200000000010001 = refused NoChannel
set-validate strict = Disk
fail never
power-loss ones
open
stopped = no
next 3 = none
step = idle
tx-install 2 2 1
protect 62 = NoEncodingSa
receive 9 3 1 1 100 clear = delivered UnknownSci
step = idle
fail 1 on
submit rx-install b 2 1 0 = 1
fail 8 on
step = done 1 refused StartRange
protect 9185 = TooLong
protect 62 = NoEncodingSa
submit rx-install 9 3 3 0 7 = 2
receive-plain 0 = discarded Runt
receive-plain 9217 = discarded Oversize
calls = 274
receive 9 5 2 3 62 clear = delivered UnknownSci
step = done 2 refused StartRange

story random 32
format 0200000000010001 4 4
open
calls = 524
submit set-sci-mode explicit = 1
calls = 0
protect 9184 = NoEncodingSa
step = worked
numbers b 2 = none
stopped = no
next 0 = none
receive b 4 0 1 14 = discarded NoSci
next 0 = none
receive 9 3 3 3 100 = discarded NoSci
receive 9 5 0 2 14 = discarded NoSci
fail 4 filled
rx-remove b 3 = Busy
numbers b 3 = none
tx-use 3 = Busy
fail never
close
open
stopped = no
next 3 = none
next 3 = none
settings = Strict on 0 Explicit none 0
receive b 2 0 1 14 clear = discarded NoSci
next 3 = none
submit rx-install 9 3 3 1 = 1
rest = 1 idle
protect 62 = NoEncodingSa
refill
numbers b 0 = none
refill
rest = 0 idle
protect 14 = NoEncodingSa
step = idle
stopped = no
settings = Strict on 0 Explicit none 0
protect 9193 = TooLong
protect 62 = NoEncodingSa
step = idle
next 0 = none
receive 9 4 0 1 14 = discarded NoSci
refill
calls = 261
fail never
close
open
stopped = no
stopped = no
step = idle
receive-plain 0 = discarded Runt
stopped = no
receive b 1 3 1 14 = discarded NoSci
stopped = no
next 0 = none
receive-plain 0 = discarded Runt
next 3 = none
step = idle
step = idle
next 0 = none
protect 62 = NoEncodingSa
fail never
power-loss gate
open
tx-use 3 = refused SlotEmpty
next 3 = none
step = idle
receive 9 2 2 1 14 clear = discarded NoSci
step = idle
receive-plain 9216 = discarded NoTag
receive 9 4 1 3 14 = discarded NoSci
rest = 0 idle
next 0 = none
step = idle
protect 13 = Runt
rx-install 9 1 4 70 50 = refused NoChannel
next 1 = none
refill
step = idle
step = idle
step = idle
protect 62 = NoEncodingSa
receive b 2 2 3 62 clear = discarded NoSci
calls = 520
receive 9 3 2 1 100 = discarded NoSci
numbers 9 3 = none
stopped = no
protect 13 = Runt
calls = 0
receive-plain 9217 = discarded Oversize
protect 62 = NoEncodingSa
refill
numbers 9 0 = none
receive 9 1 1 1 100 clear = discarded NoSci
submit tx-remove 1 = 1
receive-plain 14 = discarded NoTag
refill = Busy
step = done 1 refused SlotEmpty
step = idle
fail 6
set-validate check
rest = 0 idle
protect 9184 = NoEncodingSa
submit tx-install 1 4 0 7 = 2
receive-plain 13 = discarded Runt
protect 62 = NoEncodingSa
protect 14 = NoEncodingSa
step = done 2 refused StartRange
step = idle
calls = 4
step = idle
calls = 0
step = idle
refill
calls = 0
submit set-validate check = 3
step = worked
settings = Check on 0 Explicit none 0
refill = Busy
refill = Busy
rest = 1 Disk
fail never
power-loss ones
open
step = idle
receive-plain 9217 = discarded Oversize
settings = Check on 0 Explicit none 0
protect 62 = NoEncodingSa
protect 9193 = TooLong
stopped = no
stopped = no
stopped = no
settings = Check on 0 Explicit none 0
calls = 264
receive 9 2 3 1 100 clear broken = delivered UnknownSci
step = idle
fail never
power-loss half
open
fail never
power-loss gate
open
numbers 9 2 = none
receive-plain 13 = discarded Runt
protect 62 = NoEncodingSa
protect 62 = NoEncodingSa
receive 9 3 2 2 62 = discarded NoSci
next 0 = none
step = idle
step = idle
receive 9 3 2 6 62 clear broken = delivered UnknownSci
tx-use 0 = refused SlotEmpty
protect 14 = NoEncodingSa
rest = 0 idle
protect 9193 = TooLong
stopped = no
receive b 3 0 3 14 clear broken = delivered UnknownSci
submit set-replay on 3 = 1
submit rx-add 9 = 2
submit rx-add b = 3
step = worked
numbers 9 1 = none
tx-use 2 = Busy
calls = 523
refill = Busy
step = worked
tx-install 0 3 1 clear = Busy
step = worked
step = done 1 ok
next 3 = none
refill = Busy
step = worked
fail never
power-loss last
open
stopped = no
step = idle
calls = 266
protect 62 = NoEncodingSa
receive-plain 9217 = discarded Oversize
step = idle
receive-plain 13 = discarded Runt
settings = Check on 3 Explicit none 0
refill
receive b 5 3 1 62 clear = delivered UnknownSci
receive-plain 9217 = discarded Oversize
stopped = no
next 0 = none
stopped = no
rest = 0 idle
tx-use 2 = refused SlotEmpty
receive 9 3 3 1 100 = discarded NoSci
step = idle
numbers 9 1 = none
rest = 0 idle
next 3 = none
submit tx-use 0 = 1
protect 14 = NoEncodingSa

story random 33
format 0200000000010001 1 1
open
rest = 0 idle
step = idle
calls = 524
refill
step = idle
submit rx-remove b 3 = 1
step = done 1 refused NoChannel
rest = 0 idle
next 3 = none
protect 62 = NoEncodingSa
protect 9193 = TooLong
protect 62 = NoEncodingSa
step = idle
settings = Strict on 0 Explicit none 0
numbers 9 3 = none
receive b 2 1 3 62 broken = discarded NoSci
fail never
power-loss zeros
open
submit rx-install b 1 2 4294967293 7 = 1
stopped = no
stopped = no
step = done 1 refused OffsetChoice
stopped = no
calls = 260
refill
receive b 4 0 1 14 = discarded NoSci
stopped = no
numbers 9 1 = none
numbers 9 3 = none
fail 1 on
rest = 0 idle
calls = 0
receive b 4 3 1 62 = discarded NoSci
step = idle
receive 9 2 3 6 62 = discarded NoSci
stopped = no
step = idle
receive-plain 0 = discarded Runt
set-replay on 0 = Disk
rx-remove b 2 = Stopped
step = Stopped
receive 9 1 0 1 62 = Stopped
receive-plain 0 = Stopped
receive b 3 3 1 100 clear = Stopped
step = Stopped
fail never
close
open
refill
protect 14 = NoEncodingSa
tx-remove 1 = refused SlotEmpty
rest = 0 idle
fail never
power-loss last
open
receive b 1 0 6 100 clear = discarded NoSci
stopped = no
calls = 522
step = idle
numbers b 0 = none
calls = 0
settings = Strict on 0 Explicit none 0
step = idle
rest = 0 idle
rx-install b 2 2 1 = refused NoChannel
calls = 0
submit set-validate strict = 1
step = worked
refill = Busy
refill = Busy
settings = Strict on 0 Explicit none 0
step = worked
submit tx-remove 0 = 2
receive b 5 1 1 14 clear = discarded NoSci
step = worked
stopped = no
step = done 1 ok
fail 1 filled
calls = 4
refill = Busy
stopped = no
protect 62 = NoEncodingSa
receive-plain 13 = discarded Runt
receive 9 4 3 1 62 = discarded NoSci
rest = 1 idle
step = idle
rx-install b 2 1 70 = refused NoChannel
next 1 = none
next 2 = none
receive 9 4 1 1 14 clear = discarded NoSci
fail never
close
open
receive 9 5 1 1 62 = discarded NoSci
step = idle
protect 9184 = NoEncodingSa
fail never
power-loss ones
open
submit set-replay off 3 = 1
refill = Busy
receive b 3 3 1 62 clear = discarded NoSci
settings = Strict on 0 Explicit none 0
calls = 522
calls = 0
rest = 4 idle
receive b 3 1 1 14 = discarded NoSci
calls = 4
step = idle
receive 9 3 2 3 100 clear = discarded NoSci
receive 9 3 0 6 14 = discarded NoSci
protect 14 = NoEncodingSa
submit tx-use 2 = 2
receive-plain 9217 = discarded Oversize
stopped = no
step = done 2 refused SlotEmpty
receive 9 4 2 1 62 = discarded NoSci
stopped = no
receive 9 4 0 1 100 = discarded NoSci
submit tx-remove 3 = 3
settings = Strict off 3 Explicit none 0
receive 9 2 3 2 100 = discarded NoSci
submit rx-add b = 4
next 1 = none
rest = 5 idle
step = idle
submit set-replay on 4294967295 = 5
rest = 4 idle
calls = 8
step = idle
stopped = no
receive 9 1 2 1 14 clear = discarded NoSci
protect 9193 = TooLong
next 3 = none
calls = 0
settings = Strict on 4294967295 Explicit none 1
receive-plain 13 = discarded Runt
submit set-sci-mode implicit = 6
protect 62 = NoEncodingSa
receive b 1 2 1 62 = discarded NotUsingSa
step = worked
step = worked
fail never
power-loss last
open
calls = 266
next 1 = none
tx-install 3 4 4294967293
rx-install b 0 5 70
fail never
close
open
submit rx-install 9 2 4 1 30 = 1
step = done 1 refused NoChannel
receive b 5 0 70 100 clear = held back
receive b 5 0 70 62 clear broken = discarded NotValid
submit rx-install b 0 2 1 30 = 2
step = worked
rx-drop b = Busy
submit set-replay on 3 = 3
protect 9193 = TooLong
step = worked
fail never
power-loss durable
open
receive b 5 0 70 14 clear = held back
step = worked
step = worked
stopped = no
step = worked
fail never
power-loss half
open
calls = 812
rest = 0 idle
protect 9193 = TooLong
receive-plain 9217 = discarded Oversize
step = idle
next 0 = none
fail never
close
open
stopped = no
next 0 = none
calls = 267
settings = Strict on 4294967295 Explicit none 1
step = idle
receive b 5 0 76 100 clear = held back
next 3 = 4294967294
next 1 = none
stopped = no
refill
protect 9184 = NoEncodingSa
next 1 = none
next 1 = none
receive-plain 9217 = discarded Oversize
stopped = no
protect 9185 = TooLong
refill
receive b 5 0 71 14 = delivered Ok
numbers b 3 = none
receive b 4 3 1 100 = discarded NotUsingSa

story random 34
format 0200000000010001 1 1
open
receive 9 2 0 1 62 = discarded NoSci
settings = Strict on 0 Explicit none 0
protect 9184 = NoEncodingSa
receive 9 1 2 1 62 = discarded NoSci
submit rx-add b = 1
step = worked
step = worked
calls = 526
step = worked
calls = 1
receive 9 5 0 1 62 clear = discarded NoSci
step = done 1 ok
next 3 = none
step = idle
numbers 9 2 = none
numbers 9 2 = none
rx-remove b 1 = refused SlotEmpty
step = idle
numbers b 3 = none
step = idle
calls = 1
rest = 0 idle
rest = 0 idle
stopped = no
rx-install b 0 5 70
numbers 9 0 = none
numbers 9 2 = none
rest = 0 idle
step = idle
next 3 = none
refill
settings = Strict on 0 Explicit none 1
submit set-replay on 4294967295 = 2
receive b 5 0 71 62 = held back
step = worked
protect 13 = Runt
step = worked
refill = Busy
numbers 9 3 = none
settings = Strict on 0 Explicit none 1
calls = 6
step = worked
rest = 5 idle
fail never
close
open
refill
next 0 = none
step = idle
submit rx-drop b = 1
rest = 4 idle
rest = 0 idle
protect 9184 = NoEncodingSa
protect 9184 = NoEncodingSa
protect 9185 = TooLong
stopped = no
receive 9 1 0 1 14 = discarded NoSci
settings = Strict on 4294967295 Explicit none 0
stopped = no
step = idle
step = idle
submit set-replay on 4294967295 = 2
rest = 4 idle
receive-plain 0 = discarded Runt
receive b 1 0 6 14 clear = discarded NoSci
calls = 278
submit rx-add b = 3
fail 5 filled
step = worked
step = worked
stopped = no
numbers 9 3 = none
protect 62 = NoEncodingSa
stopped = no
receive-plain 14 = discarded NoTag
receive b 3 1 3 100 clear = discarded NoSci
tx-use 0 = Busy
step = worked
receive b 3 3 1 100 clear = discarded NoSci
step = done 3 ok
stopped = no
settings = Strict on 4294967295 Explicit none 1
step = idle
calls = 4
submit set-sci-mode end-station = 4
submit tx-install 3 5 4294967293 = 5
receive b 5 3 1 62 broken = discarded NotUsingSa
protect 14 = NoEncodingSa
protect 9193 = TooLong
step = worked
protect 62 = NoEncodingSa
settings = Strict on 4294967295 Explicit none 1
submit tx-remove 2 = 6
fail never
power-loss last
open
next 3 = none
fail never
power-loss durable
open
step = idle
numbers 9 0 = none
stopped = no
rx-drop b
protect 9184 = NoEncodingSa
fail 5 on
set-replay on 0
step = idle
step = idle
refill
step = idle
next 3 = none
numbers b 3 = none
refill
numbers 9 0 = none
receive-plain 13 = discarded Runt
step = idle
step = idle
protect 9185 = TooLong
receive-plain 14 = discarded NoTag
step = idle
step = idle
submit tx-use 1 = 1
submit tx-use 1 = 2
numbers 9 2 = none
stopped = no
refill = Busy
numbers b 1 = none
numbers 9 0 = none
tx-use 1 = Busy
refill = Busy
settings = Strict on 0 Explicit none 0
step = done 1 refused SlotEmpty
receive b 2 3 1 14 = discarded NoSci
tx-use 1 = Busy
rest = 1 idle
rest = 0 idle
fail never
power-loss gate
open
receive-plain 0 = discarded Runt
rest = 0 idle
stopped = no
protect 13 = Runt
step = idle
stopped = no
numbers b 1 = none
refill
numbers b 0 = none
rest = 0 idle
receive b 4 3 2 62 clear = discarded NoSci
receive b 1 0 1 62 = discarded NoSci
receive-plain 9217 = discarded Oversize
tx-install 3 1 4294967293 clear
receive b 3 3 1 62 = discarded NoSci
calls = 816
protect 62 = NoEncodingSa
calls = 0
receive-plain 62 = discarded NoTag
receive 9 5 3 1 62 = discarded NoSci
step = idle
calls = 0
protect 14 = NoEncodingSa
protect 9185 = TooLong
step = idle
receive-plain 62 = discarded NoTag
receive b 5 3 1 100 = discarded NoSci
submit rx-add b = 1
numbers 9 3 = none
settings = Strict on 0 Explicit none 0
protect 62 = NoEncodingSa
fail never
power-loss last
open
fail 4 filled
step = idle
step = idle
calls = 270
calls = 0
refill
receive 9 2 3 6 14 = discarded NoSci
protect 13 = Runt
receive-plain 9216 = discarded NoTag
numbers b 3 = none
stopped = no
receive b 4 1 2 14 clear = discarded NoSci
numbers 9 2 = none
rest = 0 idle
step = idle
numbers 9 3 = none
numbers b 2 = none
rest = 0 idle
calls = 0
stopped = no
receive-plain 9217 = discarded Oversize
protect 9193 = TooLong
protect 9193 = TooLong
fail never
power-loss gate
open
rx-add b
settings = Strict on 0 Explicit none 1
stopped = no

story random 35
format 0200000000010001 4 4
open
receive-plain 9217 = discarded Oversize
submit tx-install 0 1 1 = 1
step = worked
protect 62 = NoEncodingSa
step = worked
receive 9 5 1 1 62 = discarded NoSci
next 3 = none
receive-plain 62 = discarded NoTag
protect 62 = NoEncodingSa
step = worked
calls = 527
next 0 = none
next 3 = none
calls = 0
calls = 0
step = done 1 ok
step = idle
refill
step = idle
receive b 1 2 1 62 clear broken = discarded NoSci
calls = 1
rest = 0 idle
step = idle
step = idle
calls = 0
receive b 2 0 1 62 clear = discarded NoSci
protect 9184 = NoEncodingSa
receive b 2 3 6 14 broken = discarded NoSci
next 1 = none
protect 62 = NoEncodingSa
rest = 0 idle
refill
rest = 0 idle
stopped = no
receive-plain 13 = discarded Runt
fail never
power-loss half
open
step = idle
fail never
power-loss last
open
step = idle
protect 9185 = TooLong
fail never
power-loss zeros
open
protect 62 = NoEncodingSa
receive-plain 9216 = discarded NoTag
protect 62 = NoEncodingSa
protect 9185 = TooLong
protect 62 = NoEncodingSa
protect 9193 = TooLong
settings = Strict on 0 Explicit none 0
stopped = no
receive 9 5 1 2 100 clear = discarded NoSci
numbers 9 3 = none
refill
refill
settings = Strict on 0 Explicit none 0
stopped = no
numbers b 2 = none
receive 9 3 2 6 14 = discarded NoSci
protect 62 = NoEncodingSa
stopped = no
stopped = no
receive-plain 9217 = discarded Oversize
step = idle
next 2 = none
receive 9 1 1 1 62 clear broken = discarded NoSci
rest = 0 idle
submit set-replay on 10 = 1
tx-remove 0 = Busy
fail never
power-loss durable
open
fail never
power-loss durable
open
protect 62 = NoEncodingSa
submit rx-remove b 3 = 1
protect 62 = NoEncodingSa
step = done 1 refused NoChannel
numbers b 2 = none
step = idle
settings = Strict on 0 Explicit none 0
refill
fail never
power-loss zeros
open
settings = Strict on 0 Explicit none 0
numbers b 2 = none
fail never
power-loss gate
open
refill
rx-add b
step = idle
protect 62 = NoEncodingSa
receive b 1 3 1 14 = discarded NotUsingSa
submit tx-install 0 2 70 30 = 1
receive-plain 14 = discarded NoTag
protect 62 = NoEncodingSa
stopped = no
stopped = no
receive b 4 2 1 14 clear = discarded NotUsingSa
numbers 9 1 = none
numbers b 3 = none
numbers b 2 = none
protect 62 = NoEncodingSa
refill = Busy
step = done 1 refused SlotTaken
numbers b 0 = none
rest = 0 idle
fail never
power-loss gate
open
step = idle
step = idle
step = idle
calls = 2093
receive 9 3 1 1 62 clear = discarded NoSci
step = idle
stopped = no
receive b 5 2 1 62 clear = discarded NotUsingSa
numbers b 3 = none
receive-plain 13 = discarded Runt
receive b 4 3 2 100 = discarded NotUsingSa
stopped = no
settings = Strict on 0 Explicit none 1
receive b 2 3 1 100 = discarded NotUsingSa
submit set-replay on 0 = 1
rx-install 200000000010001 2 2 1 = Busy
receive 9 1 0 1 100 = discarded NoSci
rest = 4 idle
receive 9 4 2 1 62 clear = discarded NoSci
step = idle
step = idle
rx-add 9
submit tx-use 3 = 2
step = done 2 refused SlotEmpty
step = idle
receive 9 2 1 3 62 clear = discarded NotUsingSa
settings = Strict on 0 Explicit none 2
step = idle
rx-install b 2 5 1 7 = refused OffsetChoice
protect 62 = NoEncodingSa
settings = Strict on 0 Explicit none 2
protect 62 = NoEncodingSa
protect 62 = NoEncodingSa
fail never
close
open
receive b 5 3 3 62 = discarded NotUsingSa
numbers b 3 = none
next 2 = none
step = idle
fail 4
step = idle
submit tx-remove 2 = 1
next 1 = none
step = done 1 refused SlotEmpty
submit rx-drop 200000000010001 = 2
calls = 272
calls = 0
next 2 = none
settings = Strict on 0 Explicit none 2
rx-remove 9 1 = Busy
next 3 = none
protect 13 = Runt
receive-plain 62 = discarded NoTag
rest = 1 idle
receive b 3 0 3 100 = discarded NotUsingSa
step = idle
step = idle
refill
protect 9193 = TooLong
stopped = no
rest = 0 idle
numbers b 2 = none
receive 9 2 2 6 62 = discarded NotUsingSa
receive 9 1 3 1 100 broken = discarded NotUsingSa
protect 13 = Runt
tx-install 2 4 0 7 = refused StartRange
receive 9 1 1 1 14 clear = discarded NotUsingSa
fail never
power-loss half
open
tx-install 2 5 4294967293
rx-remove b 2 = refused SlotEmpty
next 1 = none
receive b 3 0 1 62 = discarded NotUsingSa
protect 14 = NoEncodingSa
step = idle
stopped = no
rx-remove 9 3 = refused SlotEmpty
submit rx-drop 9 = 1
fail 2 on
fail never
power-loss gate
open
rx-drop 9
receive b 1 1 1 62 broken = discarded NotUsingSa
fail never
close
open

story random 36
format 0200000000010001 16 16
open
step = idle
step = idle
receive 9 3 0 1 62 broken = discarded NoSci
step = idle
step = idle
calls = 524
step = idle
stopped = no
numbers 9 2 = none
submit set-replay on 0 = 1
submit tx-use 2 = 2
rest = 5 idle
settings = Strict on 0 Explicit none 0
calls = 4
fail 5
protect 13 = Runt
protect 9185 = TooLong
receive b 4 3 3 62 clear = discarded NoSci
step = idle
protect 9193 = TooLong
refill
receive-plain 13 = discarded Runt
step = idle
settings = Strict on 0 Explicit none 0
numbers 9 2 = none
settings = Strict on 0 Explicit none 0
receive b 3 3 3 100 = discarded NoSci
rest = 0 idle
protect 13 = Runt
rx-install b 1 4 70 = refused NoChannel
next 2 = none
protect 62 = NoEncodingSa
next 3 = none
submit rx-add 200000000010001 = 3
refill = Busy
calls = 0
step = done 3 refused OwnSci
refill
step = idle
calls = 0
receive b 3 0 6 62 = discarded NoSci
rx-remove b 3 = refused NoChannel
protect 62 = NoEncodingSa
submit rx-install 9 3 2 4294967293 30 = 4
stopped = no
receive-plain 9217 = discarded Oversize
refill = Busy
numbers 9 1 = none
fail 8 filled
refill = Busy
settings = Strict on 0 Explicit none 0
rest = 1 idle
calls = 0
receive b 4 0 1 62 clear = discarded NoSci
receive-plain 9217 = discarded Oversize
protect 9193 = TooLong
stopped = no
submit tx-remove 3 = 5
step = done 5 refused SlotEmpty
stopped = no
step = idle
fail never
power-loss ones
open
calls = 261
next 1 = none
protect 13 = Runt
receive-plain 13 = discarded Runt
step = idle
numbers b 1 = none
protect 14 = NoEncodingSa
fail never
power-loss last
open
protect 9193 = TooLong
step = idle
submit tx-remove 2 = 1
receive b 2 3 6 62 clear = discarded NoSci
protect 62 = NoEncodingSa
protect 9193 = TooLong
numbers 9 1 = none
rx-install b 2 5 70 = Busy
protect 62 = NoEncodingSa
step = done 1 refused SlotEmpty
next 1 = none
refill
numbers b 3 = none
calls = 261
refill
set-sci-mode implicit
numbers 9 3 = none
numbers 9 3 = none
receive b 2 2 1 62 = discarded NoSci
settings = Strict on 0 Implicit none 0
receive b 5 0 1 100 = discarded NoSci
protect 62 = NoEncodingSa
receive-plain 13 = discarded Runt
fail 0 filled
protect 62 = NoEncodingSa
set-replay off 3 = Disk
fail never
power-loss last
open
numbers b 1 = none
fail never
close
open
receive 9 4 1 1 62 = discarded NoSci
calls = 529
refill
protect 14 = NoEncodingSa
numbers b 1 = none
submit tx-use 0 = 1
fail never
power-loss half
open
calls = 262
receive-plain 0 = discarded Runt
tx-remove 1 = refused SlotEmpty
fail never
power-loss last
open
step = idle
receive b 2 0 2 62 clear = discarded NoSci
refill
next 2 = none
submit tx-remove 2 = 1
fail 6
submit tx-remove 1 = 2
settings = Strict on 0 Implicit none 0
step = done 1 refused SlotEmpty
protect 9185 = NoEncodingSa
protect 9184 = NoEncodingSa
protect 62 = NoEncodingSa
next 1 = none
protect 14 = NoEncodingSa
rx-install 9 1 3 0 30 = Busy
calls = 262
fail never
power-loss durable
open
step = idle
protect 9185 = NoEncodingSa
step = idle
protect 9185 = NoEncodingSa
calls = 262
next 1 = none
step = idle
step = idle
protect 62 = NoEncodingSa
next 0 = none
calls = 0
submit tx-use 3 = 1
step = done 1 refused SlotEmpty
tx-use 2 = refused SlotEmpty
rx-remove 9 2 = refused NoChannel
protect 9184 = NoEncodingSa
submit tx-install 2 5 1 7 = 2
receive-plain 9217 = discarded Oversize
calls = 0
tx-install 1 4 1 = Busy
receive-plain 9216 = discarded NoTag
step = done 2 refused OffsetChoice
receive-plain 14 = discarded NoTag
rest = 0 idle
rx-drop b = refused NoChannel
receive b 1 3 2 62 = discarded NoSci
receive 9 3 3 1 62 clear = discarded NoSci
step = idle
receive-plain 9217 = discarded Oversize
protect 9193 = TooLong
receive 9 2 3 3 100 = discarded NoSci
set-validate check
fail 4 on
tx-use 0 = refused SlotEmpty
refill
receive b 4 0 3 100 broken = discarded NoSci
calls = 4
receive b 1 3 1 62 = discarded NoSci
tx-remove 2 = refused SlotEmpty
receive-plain 14 = delivered Untagged
refill
receive 9 2 0 1 100 clear = delivered UnknownSci
protect 9185 = NoEncodingSa
step = idle
protect 13 = Runt
protect 62 = NoEncodingSa
protect 62 = NoEncodingSa
rest = 0 idle
protect 62 = NoEncodingSa
receive 9 4 2 1 62 clear = delivered UnknownSci
fail never
close
open
refill
next 1 = none
step = idle
settings = Check on 0 Implicit none 0
protect 62 = NoEncodingSa
next 2 = none
step = idle
rest = 0 idle

story random 37
format 0200000000010001 4 4
open
protect 62 = NoEncodingSa
fail never
power-loss last
open
receive-plain 9217 = discarded Oversize
tx-install 2 4 1 30
step = idle
settings = Strict on 0 Explicit none 0
rest = 0 idle
stopped = no
rx-install 9 3 5 1 7 = refused OffsetChoice
receive-plain 9217 = discarded Oversize
calls = 788
protect 62 = NoEncodingSa
protect 13 = Runt
step = idle
step = idle
step = idle
receive b 5 0 1 14 clear = discarded NoSci
stopped = no
next 2 = 1
receive b 2 0 1 14 broken = discarded NoSci
step = idle
numbers b 1 = none
numbers 9 1 = none
calls = 0
protect 62 = NoEncodingSa
next 1 = none
receive-plain 9216 = discarded NoTag
protect 62 = NoEncodingSa
receive b 5 2 1 62 clear = discarded NoSci
step = idle
protect 62 = NoEncodingSa
step = idle
step = idle
next 2 = 1
protect 62 = NoEncodingSa
receive 9 3 3 1 62 = discarded NoSci
fail never
close
open
receive b 4 0 2 100 clear = discarded NoSci
step = idle
refill
step = idle
stopped = no
rest = 0 idle
receive b 4 3 1 62 = discarded NoSci
stopped = no
submit rx-drop b = 1
step = done 1 refused NoChannel
receive b 5 2 1 62 broken = discarded NoSci
protect 14 = NoEncodingSa
receive-plain 9216 = discarded NoTag
step = idle
protect 9185 = TooLong
step = idle
protect 62 = NoEncodingSa
next 1 = none
rest = 0 idle
step = idle
fail never
power-loss gate
open
receive-plain 9216 = discarded NoTag
rest = 0 idle
receive 9 5 1 1 14 = discarded NoSci
refill
rx-add 200000000010001 = refused OwnSci
next 0 = none
next 1 = none
rest = 0 idle
settings = Strict on 0 Explicit none 0
submit rx-install 9 0 5 1 = 1
refill = Busy
next 3 = none
rx-drop 9 = Busy
rx-install 9 0 3 4294967293 30 = Busy
protect 13 = Runt
stopped = no
calls = 522
receive 9 1 2 1 62 clear = discarded NoSci
protect 14 = NoEncodingSa
protect 14 = NoEncodingSa
numbers b 3 = none
step = done 1 refused NoChannel
submit rx-add b = 2
settings = Strict on 0 Explicit none 0
receive 9 1 2 1 62 clear = discarded NoSci
step = worked
receive 9 3 3 1 62 = discarded NoSci
rx-drop 9 = Busy
settings = Strict on 0 Explicit none 0
step = worked
fail never
close
open
receive 9 5 2 1 62 = discarded NoSci
step = idle
receive-plain 0 = discarded Runt
submit rx-remove b 1 = 1
fail never
power-loss ones
open
receive-plain 9217 = discarded Oversize
numbers b 3 = none
fail never
power-loss zeros
open
numbers b 0 = none
rest = 0 idle
step = idle
fail 0 filled
set-sci-mode implicit = Disk
calls = 786
receive b 5 0 1 62 clear = Stopped
submit rx-add b = Stopped
fail never
power-loss last
open
stopped = no
tx-use 3 = refused SlotEmpty
stopped = no
refill
refill
submit tx-use 2 = 1
step = worked
step = worked
receive-plain 9217 = discarded Oversize
fail never
close
open
submit rx-install b 2 2 1 50 = 1
submit tx-remove 2 = 2
receive 9 3 2 1 14 = discarded NoSci
submit tx-use 0 = 3
calls = 524
numbers b 1 = none
settings = Strict on 0 Explicit none 0
stopped = no
protect 9184 = NoEncodingSa
numbers b 2 = none
rest = 6 idle
tx-remove 2 = refused SlotEmpty
settings = Strict on 0 Explicit none 0
next 3 = none
calls = 4
fail never
power-loss last
open
stopped = no
calls = 262
calls = 0
receive b 4 1 1 62 = discarded NoSci
settings = Strict on 0 Explicit none 0
next 2 = none
calls = 0
numbers 9 3 = none
fail never
close
open
numbers b 3 = none
stopped = no
step = idle
step = idle
numbers b 0 = none
set-replay on 0
protect 62 = NoEncodingSa
receive b 5 1 3 62 clear broken = discarded NoSci
numbers b 1 = none
settings = Strict on 0 Explicit none 0
protect 62 = NoEncodingSa
refill
next 3 = none
stopped = no
step = idle
step = idle
step = idle
protect 9185 = TooLong
settings = Strict on 0 Explicit none 0
stopped = no
step = idle
protect 62 = NoEncodingSa
receive-plain 14 = discarded NoTag
step = idle
protect 62 = NoEncodingSa
numbers 9 3 = none
step = idle
stopped = no
settings = Strict on 0 Explicit none 0
rest = 0 idle
calls = 266
receive 9 1 2 1 14 = discarded NoSci
numbers 9 2 = none
step = idle
submit rx-install 9 3 4 0 30 = 1
step = done 1 refused StartRange
fail 3 on
step = idle
step = idle
submit tx-use 0 = 2
rest = 1 idle
receive-plain 62 = discarded NoTag
protect 9184 = NoEncodingSa
fail never
power-loss durable
open

story random 38
format 0200000000010001 4 4
open
rx-add b
receive 9 4 0 1 100 clear broken = discarded NoSci
step = idle
settings = Strict on 0 Explicit none 1
refill
receive-plain 0 = discarded Runt
numbers b 2 = none
receive 9 3 0 1 62 = discarded NoSci
next 0 = none
receive b 4 0 1 100 clear = discarded NotUsingSa
settings = Strict on 0 Explicit none 1
protect 14 = NoEncodingSa
submit set-validate check = 1
step = worked
step = worked
numbers b 0 = none
submit rx-add b = 2
step = worked
fail never
power-loss zeros
open
protect 9185 = TooLong
stopped = no
settings = Strict on 0 Explicit none 1
rest = 0 idle
protect 13 = Runt
receive b 1 2 6 100 = discarded NotUsingSa
step = idle
step = idle
step = idle
protect 62 = NoEncodingSa
numbers b 1 = none
fail 7
protect 9193 = TooLong
step = idle
step = idle
stopped = no
step = idle
calls = 792
receive 9 2 1 2 14 broken = discarded NoSci
rx-drop 9 = refused NoChannel
protect 62 = NoEncodingSa
submit rx-add b = 1
set-replay on 10 = Busy
step = done 1 refused ChannelTaken
submit rx-drop b = 2
settings = Strict on 0 Explicit none 1
receive 9 3 2 6 62 broken = discarded NoSci
receive b 2 1 1 100 = discarded NotUsingSa
rx-install b 3 1 70 30 = Busy
receive-plain 62 = discarded NoTag
numbers b 0 = none
receive-plain 9217 = discarded Oversize
step = worked
stopped = no
fail never
power-loss ones
open
step = idle
step = idle
step = idle
stopped = no
protect 62 = NoEncodingSa
settings = Strict on 0 Explicit none 1
calls = 262
step = idle
receive-plain 13 = discarded Runt
refill
next 2 = none
rx-add b = refused ChannelTaken
step = idle
numbers 9 1 = none
step = idle
receive 9 3 0 1 62 = discarded NoSci
next 3 = none
step = idle
step = idle
step = idle
rest = 0 idle
rest = 0 idle
next 3 = none
refill
receive b 5 1 1 14 clear = discarded NotUsingSa
receive-plain 62 = discarded NoTag
submit rx-remove b 2 = 1
submit rx-install b 1 2 0 = 2
receive b 3 0 6 14 = discarded NotUsingSa
tx-remove 0 = Busy
receive 9 2 0 1 62 = discarded NoSci
receive 9 3 3 6 62 clear = discarded NoSci
settings = Strict on 0 Explicit none 1
fail never
close
open
receive-plain 13 = discarded Runt
calls = 261
next 0 = none
next 2 = none
stopped = no
next 2 = none
stopped = no
fail 6 on
step = idle
calls = 0
numbers 9 0 = none
step = idle
next 1 = none
calls = 0
calls = 0
receive b 1 3 1 14 = discarded NotUsingSa
step = idle
rx-drop 9 = refused NoChannel
protect 13 = Runt
stopped = no
protect 13 = Runt
step = idle
step = idle
numbers 9 2 = none
calls = 0
refill
set-sci-mode implicit
next 2 = none
refill
rx-add 9 = Disk
submit rx-install 9 3 3 1 30 = Stopped
fail never
power-loss ones
open
receive b 3 3 1 62 clear = discarded NotUsingSa
stopped = no
settings = Strict on 0 Implicit none 1
settings = Strict on 0 Implicit none 1
tx-use 1 = refused SlotEmpty
numbers b 3 = none
fail never
power-loss ones
open
next 3 = none
submit tx-install 2 1 1 50 = 1
next 2 = none
receive 9 4 1 1 14 = discarded NoSci
next 1 = none
step = worked
submit rx-add 9 = 2
stopped = no
receive-plain 14 = discarded NoTag
calls = 532
receive 9 2 2 1 14 clear = discarded NoSci
step = worked
submit rx-install 9 2 4 0 = 3
stopped = no
next 3 = none
step = worked
protect 62 = NoEncodingSa
step = done 1 ok
refill = Busy
next 3 = none
step = worked
rest = 4 idle
settings = Strict on 0 Implicit none 2
step = idle
stopped = no
submit set-sci-mode end-station = 4
rest = 4 idle
numbers 9 1 = none
calls = 11
receive-plain 13 = discarded Runt
fail never
power-loss gate
open
next 1 = none
protect 62 = ForeignSource
rest = 0 idle
next 0 = none
submit rx-install 9 3 5 4294967293 = 1
stopped = no
receive 9 5 3 2 62 clear broken = discarded NotUsingSa
rest = 4 idle
step = idle
submit rx-install b 2 3 0 30 = 2
submit rx-add 200000000010001 = 3
protect 62 = ForeignSource
receive 9 5 3 4294967293 62 = held back
step = worked
settings = Strict on 0 EndStation none 2
fail 8 filled
rest = 5 idle
protect 62 = ForeignSource
fail never
power-loss half
open
protect 9193 = TooLong
step = idle
receive-plain 14 = discarded NoTag
calls = 540
receive-plain 9217 = discarded Oversize
rest = 0 idle
step = idle
receive-plain 9217 = discarded Oversize
stopped = no

story random 39
format 0200000000010001 1 1
open
protect 62 = NoEncodingSa
rest = 0 idle
receive 9 1 0 1 62 = discarded NoSci
protect 9193 = TooLong
rest = 0 idle
calls = 524
protect 62 = NoEncodingSa
submit tx-remove 0 = 1
receive b 5 2 1 62 = discarded NoSci
receive-plain 13 = discarded Runt
protect 9185 = TooLong
next 0 = none
set-validate check = Busy
fail never
power-loss half
open
step = idle
submit set-sci-mode explicit = 1
rest = 4 idle
step = idle
step = idle
rest = 0 idle
protect 62 = NoEncodingSa
step = idle
numbers b 2 = none
settings = Strict on 0 Explicit none 0
settings = Strict on 0 Explicit none 0
submit rx-install 9 3 1 70 = 2
settings = Strict on 0 Explicit none 0
calls = 264
step = done 2 refused NoChannel
receive 9 5 0 1 62 = discarded NoSci
fail never
power-loss last
open
protect 13 = Runt
set-replay on 0
protect 62 = NoEncodingSa
fail never
close
open
step = idle
receive b 1 0 1 62 broken = discarded NoSci
receive-plain 14 = discarded NoTag
protect 14 = NoEncodingSa
numbers 9 0 = none
rx-remove b 2 = refused NoChannel
step = idle
protect 62 = NoEncodingSa
step = idle
step = idle
rest = 0 idle
next 3 = none
receive-plain 62 = discarded NoTag
protect 62 = NoEncodingSa
step = idle
numbers b 3 = none
set-validate check
step = idle
refill
rest = 0 idle
receive-plain 9216 = delivered Untagged
step = idle
rest = 0 idle
fail 2 on
protect 9184 = NoEncodingSa
protect 62 = NoEncodingSa
receive-plain 13 = discarded Runt
receive b 1 0 2 14 clear = delivered UnknownSci
protect 62 = NoEncodingSa
stopped = no
settings = Check on 0 Explicit none 0
submit rx-remove 9 0 = 1
settings = Check on 0 Explicit none 0
stopped = no
receive b 1 3 1 14 = discarded NoSci
protect 9184 = NoEncodingSa
calls = 531
protect 9184 = NoEncodingSa
numbers 9 0 = none
protect 14 = NoEncodingSa
numbers b 0 = none
numbers b 2 = none
rest = 1 idle
receive 9 2 1 1 62 = discarded NoSci
stopped = no
rx-install 9 0 2 1 50 = refused NoChannel
receive b 1 0 6 100 clear = delivered UnknownSci
calls = 0
receive-plain 62 = delivered Untagged
receive b 3 1 3 62 broken = discarded NoSci
numbers 9 0 = none
submit rx-remove b 0 = 2
protect 62 = NoEncodingSa
settings = Check on 0 Explicit none 0
fail never
power-loss half
open
step = idle
protect 62 = NoEncodingSa
receive b 4 3 3 100 clear broken = delivered UnknownSci
protect 9184 = NoEncodingSa
receive b 5 0 1 100 broken = discarded NoSci
next 1 = none
step = idle
receive-plain 9217 = discarded Oversize
rest = 0 idle
receive-plain 14 = delivered Untagged
protect 14 = NoEncodingSa
step = idle
receive b 3 1 1 100 = discarded NoSci
rest = 0 idle
rest = 0 idle
next 2 = none
next 3 = none
refill
step = idle
receive 9 5 3 6 62 = discarded NoSci
protect 9185 = TooLong
set-sci-mode end-station
set-sci-mode end-station
receive-plain 9217 = discarded Oversize
settings = Check on 0 EndStation none 0
protect 14 = ForeignSource
step = idle
rx-install b 1 1 70 = refused NoChannel
receive 9 4 0 1 62 broken = discarded NoSci
submit rx-install 9 3 1 1 7 = 1
step = done 1 refused OffsetChoice
step = idle
tx-install 2 1 4294967293 clear
next 0 = none
stopped = no
step = idle
rx-add b
receive-plain 14 = delivered Untagged
fail 4 filled
protect 13 = Runt
step = idle
submit rx-remove 200000000010001 2 = 2
rest = 1 idle
settings = Check on 0 EndStation none 1
receive b 1 2 1 62 = discarded NotUsingSa
next 1 = none
numbers 9 2 = none
step = idle
step = idle
receive 9 4 1 1 14 broken = discarded NoSci
refill
protect 14 = ForeignSource
step = idle
calls = 279
step = idle
tx-install 3 5 1 clear
calls = 4
rest = 0 idle
step = idle
submit tx-use 3 = 3
refill = Busy
step = Disk
fail never
power-loss ones
open
refill
next 3 = 2
refill
numbers 9 0 = none
step = idle
step = idle
submit set-replay on 4294967295 = 1
step = worked
protect 13 = Runt
stopped = no
calls = 270
step = worked
receive-plain 9217 = discarded Oversize
receive b 4 3 3 100 clear = delivered UnusedSa
protect 9193 = TooLong
stopped = no
protect 9185 = ForeignSource
rest = 2 idle
step = idle
submit rx-install b 3 3 70 = 2
settings = Check on 4294967295 EndStation none 1
protect 14 = ForeignSource
protect 9185 = ForeignSource
submit rx-add 9 = 3
numbers 9 1 = none
step = worked
stopped = no
step = worked
set-replay on 0 = Busy
fail never
power-loss gate
open
receive b 3 0 1 100 clear = delivered UnusedSa
calls = 274

story random 40
format 0200000000010001 16 16
open
numbers 9 2 = none
submit rx-install b 1 1 70 50 = 1
settings = Strict on 0 Explicit none 0
rest = 1 idle
step = idle
calls = 524
refill
stopped = no
submit set-sci-mode explicit = 2
submit rx-remove 200000000010001 3 = 3
refill = Busy
protect 62 = NoEncodingSa
receive 9 2 3 1 100 clear = discarded NoSci
calls = 0
next 3 = none
set-validate check = Busy
refill = Busy
rest = 5 idle
submit tx-remove 1 = 4
submit rx-add b = 5
step = done 4 refused SlotEmpty
receive 9 2 1 1 62 broken = discarded NoSci
receive 9 4 1 1 100 clear = discarded NoSci
rest = 4 idle
protect 62 = NoEncodingSa
protect 9185 = TooLong
fail never
power-loss half
open
step = idle
fail never
power-loss gate
open
rest = 0 idle
step = idle
rest = 0 idle
numbers 9 3 = none
receive-plain 9216 = discarded NoTag
fail never
power-loss ones
open
step = idle
fail 5 on
rest = 0 idle
receive b 5 2 1 62 = discarded NotUsingSa
next 2 = none
step = idle
step = idle
receive-plain 14 = discarded NoTag
settings = Strict on 0 Explicit none 1
numbers b 2 = none
next 0 = none
tx-use 0 = refused SlotEmpty
protect 9193 = TooLong
tx-remove 2 = refused SlotEmpty
receive b 2 0 6 14 broken = discarded NotUsingSa
rest = 0 idle
fail never
power-loss half
open
step = idle
rest = 0 idle
fail never
close
open
fail never
power-loss zeros
open
step = idle
next 1 = none
numbers b 0 = none
stopped = no
next 3 = none
calls = 1580
protect 9193 = TooLong
refill
step = idle
protect 62 = NoEncodingSa
refill
receive 9 4 3 3 62 broken = discarded NoSci
receive 9 1 1 1 62 = discarded NoSci
stopped = no
refill
step = idle
fail never
power-loss gate
open
numbers b 1 = none
stopped = no
protect 62 = NoEncodingSa
stopped = no
calls = 262
receive b 5 2 1 62 = discarded NotUsingSa
rx-install 9 1 4 4294967293 50 = refused NoChannel
step = idle
tx-install 1 1 0 = refused StartRange
rest = 0 idle
step = idle
refill
next 0 = none
protect 62 = NoEncodingSa
protect 62 = NoEncodingSa
receive b 3 1 1 100 clear = discarded NotUsingSa
submit rx-install b 3 2 70 50 = 1
receive 9 3 0 6 100 clear = discarded NoSci
calls = 0
step = worked
numbers b 3 = none
protect 62 = NoEncodingSa
step = worked
next 0 = none
stopped = no
step = worked
stopped = no
step = done 1 ok
fail 8 filled
next 0 = none
fail 6
step = idle
receive-plain 62 = discarded NoTag
rx-install b 1 1 4294967293
rx-install 200000000010001 2 5 1 50 = refused NoChannel
receive-plain 14 = discarded NoTag
refill
numbers 9 3 = none
receive-plain 13 = discarded Runt
receive-plain 13 = discarded Runt
numbers b 1 = 4294967293 4294967293
stopped = no
protect 14 = NoEncodingSa
stopped = no
receive b 4 0 3 62 = discarded NotUsingSa
receive b 1 1 4294967294 62 = held back
settings = Strict on 0 Explicit none 1
step = worked
submit set-replay on 0 = 2
calls = 9
submit rx-add b = 3
receive-plain 9217 = discarded Oversize
protect 62 = NoEncodingSa
settings = Strict on 0 Explicit none 1
step = worked
numbers 9 1 = none
rest = 0 Disk
receive b 1 1 4294967293 14 = Stopped
fail never
power-loss half
open
fail 8 on
step = idle
submit rx-install b 1 3 70 30 = 1
stopped = no
refill = Busy
protect 14 = NoEncodingSa
protect 62 = NoEncodingSa
settings = Strict on 0 Explicit none 1
calls = 266
receive-plain 9216 = discarded NoTag
step = done 1 refused SlotTaken
calls = 0
protect 62 = NoEncodingSa
refill
rest = 0 idle
rest = 0 idle
next 0 = none
refill
protect 62 = NoEncodingSa
next 1 = none
protect 62 = NoEncodingSa
receive b 2 3 70 100 broken 50 = discarded NotValid
calls = 0
receive b 1 1 4294967293 100 clear = held back
receive b 2 3 72 62 clear = held back
step = worked
receive-plain 0 = discarded Runt
tx-install 1 1 1 clear
fail 7 on
next 0 = none
receive b 4 3 71 100 clear = discarded NotValid
set-replay off 10
step = worked
next 0 = none
rest = 2 Disk
stopped = yes
fail never
power-loss zeros
open
receive 9 3 3 1 100 clear = discarded NoSci
receive-plain 9216 = discarded NoTag
receive b 2 3 70 62 clear = held back
protect 14 = NoEncodingSa
receive b 5 1 4294967295 14 clear = discarded NotValid
next 3 = none
protect 62 = NoEncodingSa
step = worked
step = worked
receive b 1 1 4294967295 14 broken = discarded NotValid
step = worked
step = reserved
stopped = no
submit rx-remove 9 2 = 1
receive-plain 0 = discarded Runt

story random 41
format 0200000000010001 4 4
open
receive b 3 0 2 62 = discarded NoSci
protect 9185 = TooLong
settings = Strict on 0 Explicit none 0
step = idle
calls = 524
step = idle
protect 9184 = NoEncodingSa
fail never
close
open
submit rx-remove 9 0 = 1
protect 9185 = TooLong
next 3 = none
step = done 1 refused NoChannel
stopped = no
rest = 0 idle
calls = 260
step = idle
step = idle
protect 62 = NoEncodingSa
protect 62 = NoEncodingSa
calls = 0
receive b 5 0 1 14 = discarded NoSci
fail never
close
open
protect 14 = NoEncodingSa
rx-remove b 0 = refused NoChannel
receive b 3 0 3 100 = discarded NoSci
receive b 4 3 3 62 = discarded NoSci
step = idle
fail 4 filled
step = idle
receive 9 1 0 1 14 = discarded NoSci
settings = Strict on 0 Explicit none 0
calls = 260
rest = 0 idle
calls = 0
set-sci-mode end-station
step = idle
protect 14 = ForeignSource
numbers b 3 = none
next 2 = none
calls = 4
fail never
power-loss last
open
protect 13 = Runt
step = idle
settings = Strict on 0 EndStation none 0
refill
step = idle
calls = 261
refill
step = idle
receive b 2 1 1 14 = discarded NoSci
rest = 0 idle
stopped = no
settings = Strict on 0 EndStation none 0
numbers 9 3 = none
protect 62 = ForeignSource
next 0 = none
refill
tx-use 3 = refused SlotEmpty
refill
rest = 0 idle
fail never
power-loss half
open
protect 62 = ForeignSource
stopped = no
protect 9185 = ForeignSource
submit set-replay off 0 = 1
settings = Strict on 0 EndStation none 0
refill = Busy
receive-plain 9216 = discarded NoTag
step = worked
receive-plain 14 = discarded NoTag
stopped = no
refill = Busy
rest = 3 idle
settings = Strict off 0 EndStation none 0
protect 62 = ForeignSource
calls = 265
receive b 3 1 6 62 = discarded NoSci
submit set-replay on 0 = 2
next 2 = none
submit set-sci-mode implicit = 3
step = worked
step = worked
rest = 6 idle
receive-plain 9217 = discarded Oversize
step = idle
numbers b 1 = none
receive-plain 62 = discarded NoTag
rest = 0 idle
settings = Strict on 0 Implicit none 0
receive-plain 9217 = discarded Oversize
fail 6 on
protect 62 = NoEncodingSa
refill
step = idle
refill
settings = Strict on 0 Implicit none 0
rest = 0 idle
numbers 9 0 = none
step = idle
step = idle
stopped = no
step = idle
protect 9184 = NoEncodingSa
step = idle
numbers b 3 = none
step = idle
receive 9 1 3 1 14 = discarded NoSci
numbers 9 1 = none
step = idle
submit rx-install 200000000010001 0 4 70 30 = 4
stopped = no
protect 62 = NoEncodingSa
set-replay off 10 = Busy
refill = Busy
protect 62 = NoEncodingSa
settings = Strict on 0 Implicit none 0
next 1 = none
protect 9185 = NoEncodingSa
submit rx-drop b = 5
set-replay off 0 = Busy
stopped = no
receive-plain 14 = discarded NoTag
receive b 4 3 1 62 clear = discarded NoSci
numbers 9 0 = none
settings = Strict on 0 Implicit none 0
calls = 8
rest = 2 idle
receive-plain 14 = discarded NoTag
submit rx-install 9 2 3 1 = 6
calls = 0
receive 9 3 3 1 14 broken = discarded NoSci
step = done 6 refused NoChannel
step = idle
refill
receive b 5 2 3 100 = discarded NoSci
receive-plain 9216 = discarded NoTag
rest = 0 idle
tx-install 0 5 1 30
receive b 2 1 1 62 = discarded NoSci
receive b 5 1 1 62 = discarded NoSci
rest = 0 idle
protect 13 = Runt
step = idle
receive b 4 1 1 62 = discarded NoSci
step = idle
calls = 4
protect 62 = NoEncodingSa
receive 9 4 0 2 14 = discarded NoSci
refill
next 2 = none
set-replay on 0 = Disk
receive-plain 0 = Stopped
protect 13 = Stopped
next 1 = none
next 0 = 1
receive b 2 0 6 100 = Stopped
protect 13 = Stopped
protect 14 = Stopped
numbers b 3 = none
fail never
power-loss half
open
rest = 0 idle
step = idle
next 3 = none
rx-add b
receive-plain 62 = discarded NoTag
submit rx-install 9 0 1 1 50 = 1
calls = 272
rest = 1 idle
stopped = no
stopped = no
settings = Strict on 0 Implicit none 1
step = idle
step = idle
settings = Strict on 0 Implicit none 1
step = idle
stopped = no
receive b 2 2 1 100 = discarded NotUsingSa
next 3 = none
calls = 0
stopped = no
protect 14 = NoEncodingSa
step = idle
fail never
power-loss half
open
stopped = no
step = idle
protect 62 = NoEncodingSa

story random 42
format 0200000000010001 1 1
open
receive 9 3 1 1 62 = discarded NoSci
step = idle
tx-use 0 = refused SlotEmpty
numbers 9 0 = none
next 0 = none
step = idle
receive b 2 3 1 100 = discarded NoSci
step = idle
rx-remove 9 0 = refused NoChannel
step = idle
rx-drop 9 = refused NoChannel
fail never
power-loss durable
open
fail never
power-loss half
open
next 2 = none
next 2 = none
protect 62 = NoEncodingSa
protect 62 = NoEncodingSa
receive 9 2 3 1 14 clear = discarded NoSci
receive 9 3 3 2 100 = discarded NoSci
refill
step = idle
submit rx-add 9 = 1
protect 62 = NoEncodingSa
step = worked
settings = Strict on 0 Explicit none 0
receive-plain 0 = discarded Runt
rx-remove 9 0 = Busy
receive-plain 62 = discarded NoTag
step = worked
receive-plain 13 = discarded Runt
settings = Strict on 0 Explicit none 0
receive-plain 14 = discarded NoTag
step = worked
refill = Busy
rest = 1 idle
receive-plain 62 = discarded NoTag
receive b 4 0 2 100 clear = discarded NoSci
receive-plain 62 = discarded NoTag
fail 2
fail never
close
open
receive-plain 14 = discarded NoTag
fail never
power-loss half
open
fail never
close
open
settings = Strict on 0 Explicit none 1
receive b 1 3 6 14 = discarded NoSci
rest = 0 idle
receive b 2 1 1 14 = discarded NoSci
submit rx-remove b 1 = 1
next 1 = none
receive 9 2 1 1 14 = discarded NotUsingSa
receive b 1 2 1 100 broken = discarded NoSci
step = done 1 refused NoChannel
stopped = no
settings = Strict on 0 Explicit none 1
rest = 0 idle
refill
submit rx-install b 2 1 1 7 = 2
next 1 = none
step = done 2 refused OffsetChoice
settings = Strict on 0 Explicit none 1
numbers 9 0 = none
numbers b 2 = none
next 0 = none
stopped = no
stopped = no
step = idle
receive 9 4 1 1 62 clear broken = discarded NotUsingSa
refill
fail 2 on
refill
receive b 4 2 6 62 = discarded NoSci
fail never
power-loss gate
open
calls = 2092
fail never
close
open
rest = 0 idle
calls = 261
submit set-replay on 0 = 1
step = worked
rx-add 9 = Busy
settings = Strict on 0 Explicit none 1
next 1 = none
submit rx-install 9 1 5 0 = 2
step = worked
protect 62 = NoEncodingSa
refill = Busy
settings = Strict on 0 Explicit none 1
submit tx-remove 3 = 3
step = worked
set-validate strict = Busy
step = done 1 ok
step = done 2 refused StartRange
submit tx-install 3 3 1 clear = 4
submit tx-use 1 = 5
fail 7 filled
fail 2 on
numbers 9 3 = none
settings = Strict on 0 Explicit none 1
receive 9 2 0 1 100 = discarded NotUsingSa
submit tx-remove 1 = 6
receive-plain 62 = discarded NoTag
step = done 3 refused SlotEmpty
numbers 9 3 = none
rx-drop 9 = Busy
tx-remove 3 = Busy
receive 9 2 0 1 14 = discarded NotUsingSa
stopped = no
calls = 4
rest = 2 Disk
fail never
close
open
receive 9 4 3 1 62 = discarded NotUsingSa
protect 9184 = NoEncodingSa
numbers 9 2 = none
settings = Strict on 0 Explicit none 1
refill
protect 62 = NoEncodingSa
protect 62 = NoEncodingSa
receive 9 5 0 1 100 = discarded NotUsingSa
step = idle
numbers b 3 = none
receive-plain 9216 = discarded NoTag
protect 14 = NoEncodingSa
set-replay on 3
submit rx-drop 9 = 1
protect 62 = NoEncodingSa
calls = 269
refill = Busy
step = worked
receive-plain 9216 = discarded NoTag
step = worked
protect 62 = NoEncodingSa
step = worked
protect 62 = NoEncodingSa
receive b 5 1 1 62 clear = discarded NoSci
rest = 1 idle
protect 62 = NoEncodingSa
step = idle
tx-remove 0 = refused SlotEmpty
tx-remove 1 = refused SlotEmpty
receive b 5 0 3 100 = discarded NoSci
settings = Strict on 3 Explicit none 0
rx-add b
protect 62 = NoEncodingSa
step = idle
tx-use 0 = refused SlotEmpty
calls = 8
receive b 1 2 1 100 = discarded NotUsingSa
receive-plain 62 = discarded NoTag
receive-plain 13 = discarded Runt
step = idle
next 1 = none
submit set-replay off 0 = 2
step = worked
numbers b 2 = none
step = worked
receive 9 3 0 1 14 = discarded NoSci
step = worked
step = done 2 ok
step = idle
protect 9193 = TooLong
receive-plain 62 = discarded NoTag
step = idle
next 3 = none
numbers 9 1 = none
fail 7 filled
settings = Strict off 0 Explicit none 1
protect 62 = NoEncodingSa
step = idle
refill
numbers b 2 = none
step = idle
calls = 4
rest = 0 idle
receive 9 2 0 1 14 = discarded NoSci
rest = 0 idle
step = idle
tx-use 1 = refused SlotEmpty
submit set-sci-mode end-station = 3
settings = Strict off 0 Explicit none 1
fail never
close
open
numbers b 2 = none
set-replay on 0
rx-drop 9 = refused NoChannel
refill
calls = 270
settings = Strict on 0 Explicit none 1

story random 43
format 0200000000010001 4 4
open
step = idle
rest = 0 idle
receive 9 4 3 3 62 broken = discarded NoSci
rx-install b 3 5 1 = refused NoChannel
next 1 = none
step = idle
refill
stopped = no
receive-plain 14 = discarded NoTag
refill
submit set-replay off 3 = 1
stopped = no
protect 62 = NoEncodingSa
receive-plain 9216 = discarded NoTag
step = worked
step = worked
rest = 2 idle
fail 6 on
rest = 0 idle
next 0 = none
refill
fail never
power-loss durable
open
step = idle
receive-plain 14 = discarded NoTag
fail never
power-loss durable
open
step = idle
step = idle
receive 9 1 0 1 62 clear = discarded NoSci
protect 9185 = TooLong
receive 9 5 1 1 100 = discarded NoSci
protect 9184 = NoEncodingSa
protect 62 = NoEncodingSa
fail never
power-loss last
open
protect 62 = NoEncodingSa
receive b 1 2 1 62 = discarded NoSci
calls = 1311
fail never
power-loss gate
open
refill
submit set-validate check = 1
next 2 = none
rest = 4 idle
protect 62 = NoEncodingSa
stopped = no
protect 9185 = TooLong
stopped = no
receive 9 1 0 1 62 = discarded NoSci
protect 62 = NoEncodingSa
rest = 0 idle
step = idle
settings = Check off 3 Explicit none 0
rest = 0 idle
next 0 = none
receive b 3 3 6 100 broken = discarded NoSci
settings = Check off 3 Explicit none 0
numbers b 1 = none
refill
step = idle
stopped = no
receive 9 5 3 6 100 broken = discarded NoSci
protect 62 = NoEncodingSa
numbers 9 2 = none
rx-install 9 0 1 70 = refused NoChannel
receive b 3 0 2 14 broken = discarded NoSci
step = idle
settings = Check off 3 Explicit none 0
protect 9185 = TooLong
numbers 9 0 = none
protect 9193 = TooLong
next 1 = none
receive 9 3 3 1 62 clear = delivered UnknownSci
rest = 0 idle
step = idle
next 3 = none
fail 8 on
tx-use 2 = refused SlotEmpty
tx-use 0 = refused SlotEmpty
calls = 265
fail never
power-loss zeros
open
refill
next 2 = none
calls = 262
step = idle
calls = 0
step = idle
receive 9 3 0 1 62 broken = discarded NoSci
rest = 0 idle
fail never
power-loss gate
open
step = idle
settings = Check off 3 Explicit none 0
submit tx-use 3 = 1
step = done 1 refused SlotEmpty
next 0 = none
submit tx-use 3 = 2
rest = 1 idle
step = idle
refill
submit set-validate check = 3
rest = 4 idle
refill
tx-use 1 = refused SlotEmpty
protect 62 = NoEncodingSa
submit rx-add 9 = 4
calls = 266
receive 9 5 2 6 62 = discarded NoSci
step = worked
stopped = no
numbers b 0 = none
step = worked
receive-plain 9216 = delivered Untagged
receive-plain 13 = discarded Runt
receive b 5 3 3 62 = discarded NoSci
step = worked
stopped = no
settings = Check off 3 Explicit none 0
receive 9 5 1 1 62 = discarded NoSci
step = done 4 ok
calls = 4
step = idle
settings = Check off 3 Explicit none 1
settings = Check off 3 Explicit none 1
receive-plain 0 = discarded Runt
rest = 0 idle
receive b 1 2 3 100 = discarded NoSci
refill
next 3 = none
protect 9185 = TooLong
next 1 = none
fail never
power-loss durable
open
fail 7 filled
step = idle
protect 9193 = TooLong
rx-install 9 2 1 1
next 1 = none
numbers 9 0 = none
step = idle
receive 9 1 2 1 62 = held back
receive 9 1 2 1 62 broken = discarded NotValid
receive 9 1 2 1 14 clear = held back
numbers b 3 = none
step = worked
tx-install 3 3 1 clear = Disk
refill = Stopped
protect 62 = Stopped
calls = 272
fail never
power-loss ones
open
protect 9185 = TooLong
calls = 265
fail 8 filled
step = idle
fail never
power-loss last
open
protect 9185 = TooLong
numbers 9 2 = 1 1
refill
rx-install 9 0 3 0 = refused StartRange
stopped = no
receive 9 1 2 1 100 = held back
protect 9193 = TooLong
refill
receive 9 2 1 1 62 clear = delivered UnusedSa
step = idle
refill
submit set-validate strict = 1
calls = 269
receive 9 1 2 1 62 = delivered Ok
numbers b 0 = none
numbers 9 0 = none
step = worked
settings = Check off 3 Explicit none 1
next 2 = none
calls = 1
step = worked
set-validate strict = Busy
protect 9193 = TooLong
submit set-replay on 0 = 2
calls = 1
step = worked
receive 9 1 2 4 62 = delivered Ok
numbers b 3 = none
protect 9184 = NoEncodingSa
next 3 = none
step = done 1 ok
protect 62 = NoEncodingSa
fail 0 on
refill = Busy

story random 44
format 0200000000010001 2 2
open
refill
submit rx-remove b 1 = 1
rest = 1 idle
calls = 524
stopped = no
step = idle
next 1 = none
step = idle
step = idle
tx-install 0 1 4294967293 7 = refused OffsetChoice
next 1 = none
stopped = no
rx-remove 9 2 = refused NoChannel
tx-install 1 2 0 50 = refused StartRange
protect 9193 = TooLong
step = idle
receive b 3 1 1 100 = discarded NoSci
protect 14 = NoEncodingSa
receive 9 5 3 1 62 = discarded NoSci
protect 62 = NoEncodingSa
tx-use 2 = refused SlotEmpty
tx-use 2 = refused SlotEmpty
protect 9184 = NoEncodingSa
step = idle
step = idle
fail never
power-loss gate
open
protect 62 = NoEncodingSa
rest = 0 idle
protect 62 = NoEncodingSa
numbers 9 2 = none
rest = 0 idle
settings = Strict on 0 Explicit none 0
fail 8
numbers 9 3 = none
submit rx-remove 9 1 = 1
refill = Busy
receive b 5 2 1 62 = discarded NoSci
step = done 1 refused NoChannel
protect 9184 = NoEncodingSa
receive b 2 0 1 62 = discarded NoSci
protect 9185 = TooLong
set-validate strict
protect 62 = NoEncodingSa
step = idle
receive b 5 0 1 14 = discarded NoSci
protect 62 = NoEncodingSa
fail never
power-loss ones
open
refill
refill
step = idle
protect 9193 = TooLong
step = idle
receive-plain 62 = discarded NoTag
protect 14 = NoEncodingSa
next 2 = none
next 0 = none
receive b 1 0 1 62 = discarded NoSci
stopped = no
stopped = no
protect 62 = NoEncodingSa
submit rx-add 9 = 1
stopped = no
receive 9 2 3 1 14 = discarded NoSci
submit tx-install 0 1 0 clear = 2
rest = 5 idle
receive b 1 0 1 14 = discarded NoSci
numbers b 3 = none
step = idle
step = idle
refill
stopped = no
protect 62 = NoEncodingSa
refill
protect 9185 = TooLong
step = idle
receive 9 1 3 3 62 = discarded NotUsingSa
receive 9 2 3 1 62 = discarded NotUsingSa
step = idle
protect 9193 = TooLong
refill
next 2 = none
submit tx-install 0 5 0 = 3
protect 13 = Runt
step = done 3 refused StartRange
receive 9 4 3 1 62 = discarded NotUsingSa
numbers 9 0 = none
protect 13 = Runt
protect 13 = Runt
receive-plain 9216 = discarded NoTag
calls = 529
numbers 9 0 = none
fail never
power-loss durable
open
next 2 = none
rest = 0 idle
protect 62 = NoEncodingSa
step = idle
calls = 262
numbers b 2 = none
step = idle
protect 9185 = TooLong
submit rx-install b 0 1 0 = 1
next 3 = none
tx-remove 2 = Busy
step = done 1 refused StartRange
settings = Strict on 0 Explicit none 1
refill
step = idle
fail 1 filled
step = idle
settings = Strict on 0 Explicit none 1
next 0 = none
step = idle
submit tx-use 1 = 2
step = done 2 refused SlotEmpty
protect 62 = NoEncodingSa
step = idle
step = idle
receive-plain 62 = discarded NoTag
rest = 0 idle
step = idle
stopped = no
protect 9184 = NoEncodingSa
protect 62 = NoEncodingSa
submit rx-remove 9 0 = 3
settings = Strict on 0 Explicit none 1
refill = Busy
set-sci-mode end-station = Busy
receive 9 2 3 1 62 clear = discarded NotUsingSa
next 0 = none
refill = Busy
numbers 9 3 = none
receive 9 3 1 1 62 = discarded NotUsingSa
receive b 4 0 2 100 = discarded NoSci
stopped = no
step = done 3 refused SlotEmpty
calls = 0
protect 62 = NoEncodingSa
next 1 = none
settings = Strict on 0 Explicit none 1
receive-plain 62 = discarded NoTag
receive b 5 1 1 100 clear = discarded NoSci
step = idle
receive-plain 13 = discarded Runt
protect 62 = NoEncodingSa
refill
step = idle
rx-install b 1 4 1 = refused NoChannel
step = idle
refill
receive b 2 0 6 62 = discarded NoSci
rest = 0 idle
step = idle
step = idle
receive 9 5 0 1 62 clear = discarded NotUsingSa
fail never
power-loss ones
open
refill
receive b 1 2 1 62 clear = discarded NoSci
protect 13 = Runt
protect 62 = NoEncodingSa
next 3 = none
step = idle
protect 9185 = TooLong
step = idle
step = idle
tx-install 1 4 1 7 = refused OffsetChoice
next 1 = none
next 2 = none
fail 6
protect 13 = Runt
protect 62 = NoEncodingSa
step = idle
protect 62 = NoEncodingSa
step = idle
step = idle
step = idle
calls = 262
submit set-replay on 10 = 1
next 1 = none
stopped = no
protect 9193 = TooLong
stopped = no
refill = Busy
step = worked
fail never
power-loss zeros
open
receive b 2 1 1 62 = discarded NoSci
next 3 = none
calls = 263
step = idle
receive 9 4 2 1 62 clear = discarded NotUsingSa

story random 45
format 0200000000010001 4 4
open
receive b 3 0 1 62 = discarded NoSci
protect 9184 = NoEncodingSa
step = idle
rx-install b 2 4 1 = refused NoChannel
receive-plain 9217 = discarded Oversize
calls = 524
submit tx-remove 2 = 1
protect 14 = NoEncodingSa
fail never
power-loss durable
open
step = idle
fail 3 filled
set-replay on 0 = Disk
fail never
power-loss half
open
calls = 525
submit tx-install 3 2 1 50 = 1
set-sci-mode explicit = Busy
stopped = no
receive b 4 2 1 62 = discarded NoSci
calls = 0
receive b 2 0 1 14 clear = discarded NoSci
calls = 0
stopped = no
stopped = no
tx-install 2 4 1 clear = Busy
step = worked
receive 9 4 2 3 100 = discarded NoSci
next 2 = none
step = worked
calls = 2
fail never
power-loss half
open
submit tx-use 1 = 1
next 0 = none
set-replay off 10 = Busy
submit rx-install b 0 2 1 50 = 2
submit tx-remove 0 = 3
refill = Busy
rx-add b = Busy
submit rx-install 9 3 3 4294967293 = 4
next 0 = none
fail never
close
open
numbers b 3 = none
step = idle
receive b 5 3 3 100 = discarded NoSci
fail never
power-loss durable
open
next 3 = none
rx-drop 9 = refused NoChannel
fail never
power-loss last
open
fail 1
calls = 1044
receive-plain 14 = discarded NoTag
receive-plain 9216 = discarded NoTag
protect 62 = NoEncodingSa
step = idle
step = idle
submit rx-drop b = 1
refill = Busy
rest = 1 idle
receive-plain 14 = discarded NoTag
stopped = no
receive 9 4 3 1 62 clear broken = discarded NoSci
step = idle
rest = 0 idle
step = idle
refill
calls = 0
receive-plain 62 = discarded NoTag
numbers 9 3 = none
next 2 = none
fail never
power-loss durable
open
numbers 9 0 = none
step = idle
submit tx-install 0 1 1 7 = 1
calls = 261
refill = Busy
tx-use 0 = Busy
numbers 9 3 = none
fail never
close
open
numbers b 2 = none
calls = 261
next 2 = none
submit rx-drop 200000000010001 = 1
receive-plain 13 = discarded Runt
step = done 1 refused NoChannel
receive b 4 0 1 62 = discarded NoSci
rx-install b 0 2 1 30 = refused NoChannel
protect 9184 = NoEncodingSa
settings = Strict on 0 Explicit none 0
protect 9184 = NoEncodingSa
fail never
power-loss gate
open
submit rx-install b 2 1 0 = 1
step = done 1 refused StartRange
set-sci-mode implicit
refill
refill
next 2 = none
stopped = no
receive-plain 9216 = discarded NoTag
settings = Strict on 0 Implicit none 0
refill
numbers 9 1 = none
receive b 5 1 1 100 = discarded NoSci
stopped = no
protect 62 = NoEncodingSa
protect 9184 = NoEncodingSa
submit set-validate check = 2
receive b 4 2 1 100 clear = discarded NoSci
rx-add b = Busy
step = worked
protect 62 = NoEncodingSa
settings = Strict on 0 Implicit none 0
step = worked
step = worked
rx-remove 9 0 = Busy
step = done 2 ok
receive-plain 62 = delivered Untagged
step = idle
receive b 4 0 1 62 = discarded NoSci
step = idle
receive-plain 62 = delivered Untagged
next 2 = none
calls = 269
refill
rx-add b
next 2 = none
step = idle
numbers b 1 = none
protect 9193 = TooLong
calls = 4
protect 62 = NoEncodingSa
rest = 0 idle
calls = 0
submit set-replay off 4294967295 = 3
fail never
power-loss zeros
open
next 2 = none
receive 9 2 0 1 14 = discarded NoSci
protect 13 = Runt
rx-install b 0 3 1
fail never
power-loss last
open
rest = 0 idle
set-replay on 4294967295
receive b 3 0 1 62 = held back
fail never
power-loss zeros
open
receive 9 2 0 2 62 = discarded NoSci
calls = 803
rx-install 9 3 1 1 7 = refused OffsetChoice
calls = 0
step = idle
stopped = no
receive-plain 62 = delivered Untagged
numbers b 2 = none
next 2 = none
fail never
power-loss zeros
open
protect 62 = NoEncodingSa
receive b 3 0 1 62 broken = discarded NotValid
receive b 3 0 1 100 clear = held back
calls = 266
receive b 2 1 1 100 = discarded NotUsingSa
refill
stopped = no
numbers 9 1 = none
step = idle
receive b 3 0 3 62 = delivered Ok
refill
protect 9184 = NoEncodingSa
protect 9185 = NoEncodingSa
rest = 0 idle
calls = 8
numbers b 1 = none
rest = 0 idle
step = idle
refill
stopped = no
step = idle
step = idle
rx-remove 200000000010001 3 = refused NoChannel
step = idle
protect 62 = NoEncodingSa
stopped = no
protect 9184 = NoEncodingSa

story random 46
format 0200000000010001 1 1
open
submit set-replay on 0 = 1
step = worked
step = worked
numbers 9 2 = none
receive-plain 9216 = discarded NoTag
calls = 526
step = worked
receive 9 3 2 1 14 broken = discarded NoSci
fail never
power-loss half
open
step = idle
step = idle
calls = 262
fail never
power-loss zeros
open
numbers b 1 = none
rx-remove 9 2 = refused NoChannel
protect 9184 = NoEncodingSa
calls = 261
calls = 0
step = idle
settings = Strict on 0 Explicit none 0
protect 14 = NoEncodingSa
receive 9 1 2 1 14 = discarded NoSci
set-replay off 0
receive b 4 0 1 62 = discarded NoSci
next 2 = none
settings = Strict off 0 Explicit none 0
receive-plain 9216 = discarded NoTag
receive-plain 13 = discarded Runt
submit tx-install 2 2 1 7 = 1
rest = 1 idle
calls = 4
protect 9185 = TooLong
next 0 = none
receive-plain 62 = discarded NoTag
step = idle
calls = 0
rx-drop 9 = refused NoChannel
numbers 9 0 = none
receive 9 3 3 1 14 = discarded NoSci
receive 9 5 2 1 14 clear = discarded NoSci
calls = 0
protect 9193 = TooLong
step = idle
stopped = no
protect 9185 = TooLong
step = idle
refill
numbers 9 0 = none
step = idle
receive 9 3 2 1 100 = discarded NoSci
step = idle
step = idle
fail 3 on
protect 14 = NoEncodingSa
protect 9193 = TooLong
numbers b 1 = none
next 2 = none
rest = 0 idle
step = idle
calls = 0
rx-add b = Disk
protect 62 = Stopped
step = Stopped
numbers b 1 = none
fail never
power-loss ones
open
numbers 9 2 = none
fail 7 filled
calls = 266
calls = 0
refill
set-replay on 4294967295
next 0 = none
receive-plain 62 = discarded NoTag
step = idle
receive-plain 62 = discarded NoTag
submit rx-install b 3 1 1 30 = 1
fail never
close
open
protect 62 = NoEncodingSa
numbers b 2 = none
receive-plain 9217 = discarded Oversize
calls = 267
next 1 = none
rest = 0 idle
calls = 0
receive 9 2 3 1 100 = discarded NoSci
fail never
power-loss gate
open
step = idle
settings = Strict on 4294967295 Explicit none 0
protect 14 = NoEncodingSa
refill
submit rx-install b 2 3 1 30 = 1
rest = 1 idle
receive-plain 13 = discarded Runt
protect 9185 = TooLong
next 2 = none
numbers 9 0 = none
submit tx-use 3 = 2
protect 62 = NoEncodingSa
step = done 2 refused SlotEmpty
step = idle
submit set-replay on 10 = 3
step = worked
calls = 264
calls = 0
refill = Busy
refill = Busy
rest = 3 idle
tx-use 3 = refused SlotEmpty
set-sci-mode end-station
rest = 0 idle
rx-install 9 1 1 1 30 = refused NoChannel
settings = Strict on 10 EndStation none 0
receive-plain 14 = discarded NoTag
submit rx-remove b 1 = 4
calls = 7
protect 62 = ForeignSource
submit rx-drop 9 = 5
rx-install b 2 1 0 = Busy
numbers b 2 = none
receive-plain 9217 = discarded Oversize
protect 13 = Runt
next 0 = none
step = done 4 refused NoChannel
next 1 = none
next 0 = none
settings = Strict on 10 EndStation none 0
refill = Busy
protect 9193 = TooLong
receive 9 1 2 3 62 = discarded NoSci
protect 62 = ForeignSource
step = done 5 refused NoChannel
step = idle
step = idle
settings = Strict on 10 EndStation none 0
refill
rx-add 9
submit set-validate strict = 6
submit rx-add b = 7
rest = 8 idle
receive-plain 13 = discarded Runt
settings = Strict on 10 EndStation none 2
receive b 4 2 1 62 clear = discarded NotUsingSa
submit rx-install 9 2 5 1 = 8
receive b 5 0 1 100 clear = discarded NotUsingSa
rest = 4 idle
stopped = no
numbers 9 3 = none
fail never
power-loss half
open
stopped = no
set-replay off 0
rest = 0 idle
rest = 0 idle
fail never
power-loss zeros
open
receive 9 5 2 6 100 = held back
settings = Strict off 0 EndStation none 2
next 2 = none
tx-install 1 4 70 clear
settings = Strict off 0 EndStation none 2
refill
next 0 = none
rest = 0 idle
refill
tx-use 0 = refused SlotEmpty
numbers b 1 = none
step = idle
tx-use 2 = refused SlotEmpty
receive b 2 0 1 14 = discarded NotUsingSa
next 3 = none
step = idle
submit rx-add b = 1
next 0 = none
protect 62 = ForeignSource
step = done 1 refused ChannelTaken
step = idle
protect 62 = ForeignSource
next 2 = none
rest = 0 idle
step = idle
receive 9 5 2 1 62 = delivered Ok
receive-plain 62 = discarded NoTag
protect 9184 = ForeignSource
settings = Strict off 0 EndStation none 2
step = idle
next 2 = none
step = idle
fail 0

story random 47
format 0200000000010001 4 4
open
stopped = no
settings = Strict on 0 Explicit none 0
rest = 0 idle
set-replay on 4294967295
receive-plain 14 = discarded NoTag
refill
receive 9 1 1 6 100 = discarded NoSci
receive b 4 0 1 62 clear = discarded NoSci
protect 9184 = NoEncodingSa
settings = Strict on 4294967295 Explicit none 0
settings = Strict on 4294967295 Explicit none 0
step = idle
step = idle
step = idle
submit rx-remove b 1 = 1
receive b 4 0 2 62 broken = discarded NoSci
fail never
close
open
fail 0 on
receive b 5 2 1 62 broken = discarded NoSci
settings = Strict on 4294967295 Explicit none 0
protect 14 = NoEncodingSa
step = idle
receive b 1 0 3 100 = discarded NoSci
receive b 3 2 6 14 clear = discarded NoSci
receive 9 3 3 6 14 = discarded NoSci
set-sci-mode end-station = Disk
fail never
power-loss gate
open
receive 9 2 1 1 62 = discarded NoSci
fail never
power-loss last
open
step = idle
receive 9 2 1 2 14 = discarded NoSci
rest = 0 idle
numbers b 2 = none
fail never
power-loss last
open
step = idle
refill
step = idle
step = idle
step = idle
refill
protect 9193 = TooLong
step = idle
stopped = no
protect 62 = NoEncodingSa
step = idle
fail 3 on
receive b 2 0 1 62 clear = discarded NoSci
calls = 1573
fail 8 filled
fail 2
receive 9 5 1 1 62 = discarded NoSci
step = idle
refill
receive-plain 9217 = discarded Oversize
set-validate check = Disk
rx-install 9 2 4 4294967293 = Stopped
protect 13 = Stopped
fail never
close
open
tx-remove 1 = refused SlotEmpty
calls = 264
submit tx-install 0 1 1 = 1
receive-plain 14 = discarded NoTag
fail never
power-loss zeros
open
numbers b 2 = none
step = idle
step = idle
set-validate check
numbers 9 3 = none
refill
rest = 0 idle
fail 4 on
fail never
close
open
next 0 = none
submit set-validate strict = 1
set-replay on 4294967295 = Busy
numbers 9 3 = none
numbers b 0 = none
step = worked
set-replay off 0 = Busy
step = worked
step = worked
settings = Check on 4294967295 Explicit none 0
fail never
power-loss ones
open
submit tx-use 2 = 1
protect 9184 = NoEncodingSa
receive-plain 0 = discarded Runt
refill = Busy
receive b 2 2 1 62 = discarded NoSci
settings = Check on 4294967295 Explicit none 0
numbers b 0 = none
fail never
power-loss last
open
numbers b 1 = none
receive 9 2 1 3 62 = discarded NoSci
numbers b 3 = none
receive 9 3 2 3 62 clear = delivered UnknownSci
stopped = no
rest = 0 idle
rest = 0 idle
receive-plain 14 = delivered Untagged
rest = 0 idle
calls = 1054
receive-plain 0 = discarded Runt
refill
protect 62 = NoEncodingSa
receive-plain 62 = delivered Untagged
receive b 4 3 1 62 clear = delivered UnknownSci
step = idle
rest = 0 idle
settings = Check on 4294967295 Explicit none 0
rest = 0 idle
protect 62 = NoEncodingSa
protect 13 = Runt
stopped = no
protect 9184 = NoEncodingSa
calls = 0
fail never
close
open
next 3 = none
stopped = no
submit tx-use 2 = 1
stopped = no
receive-plain 62 = delivered Untagged
receive-plain 9216 = delivered Untagged
refill = Busy
stopped = no
protect 62 = NoEncodingSa
submit set-sci-mode end-station = 2
step = done 1 refused SlotEmpty
protect 62 = NoEncodingSa
refill = Busy
receive 9 4 3 1 62 = discarded NoSci
protect 13 = Runt
calls = 262
next 3 = none
calls = 0
step = worked
submit set-sci-mode explicit = 3
protect 62 = NoEncodingSa
settings = Check on 4294967295 Explicit none 0
rest = 7 idle
step = idle
calls = 8
submit tx-remove 2 = 4
receive 9 5 1 6 62 broken = discarded NoSci
next 3 = none
step = done 4 refused SlotEmpty
stopped = no
protect 62 = NoEncodingSa
calls = 0
settings = Check on 4294967295 Explicit none 0
step = idle
step = idle
receive-plain 13 = discarded Runt
fail never
power-loss last
open
receive b 3 1 2 100 = discarded NoSci
stopped = no
step = idle
receive-plain 9216 = delivered Untagged
receive 9 5 3 3 62 broken = discarded NoSci
fail never
power-loss zeros
open
submit rx-remove 9 1 = 1
protect 9185 = TooLong
rest = 1 idle
step = idle
stopped = no
refill
rest = 0 idle
receive-plain 14 = delivered Untagged
receive-plain 13 = discarded Runt
stopped = no
next 2 = none
refill
protect 9185 = TooLong
receive b 5 3 3 100 = discarded NoSci
receive-plain 62 = delivered Untagged
receive-plain 14 = delivered Untagged
step = idle
calls = 528
fail never
power-loss zeros
open
submit tx-use 2 = 1
receive-plain 14 = delivered Untagged
stopped = no
refill = Busy

story random 48
format 0200000000010001 4 4
open
protect 62 = NoEncodingSa
step = idle
receive b 1 1 1 62 = discarded NoSci
step = idle
rx-add b
receive 9 4 2 2 62 = discarded NoSci
receive b 1 1 1 14 = discarded NotUsingSa
protect 62 = NoEncodingSa
step = idle
receive-plain 14 = discarded NoTag
calls = 528
protect 14 = NoEncodingSa
step = idle
protect 9184 = NoEncodingSa
step = idle
next 0 = none
settings = Strict on 0 Explicit none 1
step = idle
refill
receive-plain 0 = discarded Runt
protect 62 = NoEncodingSa
receive b 4 0 1 62 = discarded NotUsingSa
calls = 0
receive b 1 1 6 100 = discarded NotUsingSa
step = idle
rx-install 9 2 2 4294967293 = refused NoChannel
stopped = no
rx-install 9 2 4 0 30 = refused StartRange
refill
step = idle
fail never
power-loss gate
open
receive 9 5 3 3 62 = discarded NoSci
protect 62 = NoEncodingSa
step = idle
rx-install 200000000010001 3 4 0 = refused StartRange
step = idle
protect 62 = NoEncodingSa
next 1 = none
receive-plain 62 = discarded NoTag
next 3 = none
numbers 9 2 = none
fail never
power-loss durable
open
receive 9 1 3 1 62 clear broken = discarded NoSci
receive b 5 3 1 62 broken = discarded NotUsingSa
refill
calls = 522
refill
rest = 0 idle
next 2 = none
submit rx-drop 9 = 1
protect 62 = NoEncodingSa
receive 9 3 3 1 100 = discarded NoSci
next 1 = none
step = done 1 refused NoChannel
numbers 9 2 = none
protect 13 = Runt
receive b 5 0 1 100 = discarded NotUsingSa
step = idle
calls = 0
receive-plain 0 = discarded Runt
protect 62 = NoEncodingSa
protect 62 = NoEncodingSa
step = idle
settings = Strict on 0 Explicit none 1
protect 62 = NoEncodingSa
calls = 0
refill
tx-remove 0 = refused SlotEmpty
rx-install 9 2 1 4294967293 = refused NoChannel
receive b 4 3 1 100 = discarded NotUsingSa
set-validate strict
protect 14 = NoEncodingSa
settings = Strict on 0 Explicit none 1
next 3 = none
receive 9 1 1 6 14 = discarded NoSci
step = idle
calls = 4
step = idle
rest = 0 idle
receive-plain 0 = discarded Runt
settings = Strict on 0 Explicit none 1
protect 62 = NoEncodingSa
numbers 9 2 = none
refill
stopped = no
submit tx-remove 1 = 2
protect 13 = Runt
submit tx-install 3 2 4294967293 clear = 3
protect 62 = NoEncodingSa
rest = 5 idle
refill
settings = Strict on 0 Explicit none 1
step = idle
settings = Strict on 0 Explicit none 1
fail never
power-loss half
open
receive b 2 0 3 14 = discarded NotUsingSa
receive 9 2 1 2 14 = discarded NoSci
protect 62 = NoEncodingSa
tx-remove 3
numbers b 1 = none
receive b 5 0 1 62 = discarded NotUsingSa
submit rx-install 9 3 3 1 = 1
refill = Busy
calls = 271
receive-plain 9217 = discarded Oversize
receive-plain 62 = discarded NoTag
step = done 1 refused NoChannel
settings = Strict on 0 Explicit none 1
receive b 4 1 1 14 clear broken = discarded NotUsingSa
rx-install 9 0 1 0 = refused StartRange
calls = 0
receive b 5 0 1 100 = discarded NotUsingSa
next 1 = none
fail 7 on
fail never
power-loss ones
open
refill
receive 9 2 1 1 100 clear = discarded NoSci
rest = 0 idle
next 0 = none
stopped = no
submit tx-remove 1 = 1
step = done 1 refused SlotEmpty
submit set-replay on 10 = 2
receive 9 3 2 1 14 broken = discarded NoSci
set-validate check = Busy
refill = Busy
receive b 4 0 1 100 clear = discarded NotUsingSa
submit tx-remove 2 = 3
calls = 264
calls = 0
next 0 = none
protect 14 = NoEncodingSa
numbers 9 0 = none
receive 9 5 1 1 100 clear = discarded NoSci
step = worked
step = worked
settings = Strict on 0 Explicit none 1
protect 62 = NoEncodingSa
numbers b 3 = none
numbers 9 0 = none
settings = Strict on 0 Explicit none 1
rx-add b = Busy
stopped = no
receive 9 1 0 1 62 = discarded NoSci
receive-plain 14 = discarded NoTag
stopped = no
stopped = no
submit set-sci-mode implicit = 4
fail 3 filled
step = worked
calls = 3
rx-drop 9 = Busy
protect 13 = Runt
numbers 9 0 = none
stopped = no
settings = Strict on 0 Explicit none 1
receive-plain 9217 = discarded Oversize
protect 9184 = NoEncodingSa
protect 9185 = TooLong
step = done 2 ok
receive b 2 1 3 14 = discarded NotUsingSa
rest = 2 Disk
stopped = yes
fail never
power-loss ones
open
rest = 0 idle
tx-use 2 = refused SlotEmpty
protect 62 = NoEncodingSa
settings = Strict on 10 Explicit none 1
step = idle
receive 9 4 3 1 14 = discarded NoSci
step = idle
calls = 268
tx-use 3 = refused SlotEmpty
rest = 0 idle
rx-install b 0 2 1
fail 2 on
rx-add 9 = Disk
next 0 = none
rx-install b 0 4 1 = Stopped
fail never
power-loss gate
open
step = idle
protect 9185 = TooLong
submit tx-remove 0 = 1
receive b 2 0 3 14 = held back
rest = 5 idle
receive 9 3 0 1 62 = discarded NoSci
settings = Strict on 10 Explicit none 1

story random 49
format 0200000000010001 1 1
open
step = idle
refill
protect 62 = NoEncodingSa
receive b 1 1 1 62 = discarded NoSci
refill
rest = 0 idle
step = idle
step = idle
submit rx-add 9 = 1
settings = Strict on 0 Explicit none 0
settings = Strict on 0 Explicit none 0
step = worked
protect 62 = NoEncodingSa
refill = Busy
submit set-replay off 10 = 2
step = worked
receive b 2 2 1 14 broken = discarded NoSci
protect 9193 = TooLong
fail 8
set-sci-mode explicit = Busy
rx-install b 2 4 4294967293 7 = Busy
calls = 526
step = worked
step = done 1 ok
refill = Busy
step = worked
settings = Strict on 0 Explicit none 1
step = worked
step = worked
protect 62 = NoEncodingSa
refill = Busy
refill = Busy
step = done 2 ok
step = idle
step = idle
protect 62 = NoEncodingSa
protect 9193 = TooLong
fail never
power-loss last
open
receive b 5 3 6 14 clear = discarded NoSci
protect 62 = NoEncodingSa
step = idle
numbers 9 3 = none
step = idle
stopped = no
step = idle
rest = 0 idle
fail never
power-loss ones
open
numbers b 0 = none
step = idle
rest = 0 idle
next 3 = none
next 3 = none
step = idle
stopped = no
receive 9 3 2 1 100 = discarded NotUsingSa
protect 14 = NoEncodingSa
protect 62 = NoEncodingSa
refill
submit tx-use 1 = 1
settings = Strict off 10 Explicit none 1
step = done 1 refused SlotEmpty
step = idle
submit rx-drop 200000000010001 = 2
next 1 = none
step = done 2 refused NoChannel
rx-add 9 = refused ChannelTaken
step = idle
numbers 9 1 = none
receive b 4 3 3 62 clear = discarded NoSci
numbers 9 0 = none
receive 9 3 0 1 62 = discarded NotUsingSa
protect 62 = NoEncodingSa
step = idle
receive 9 3 3 1 62 = discarded NotUsingSa
receive b 4 1 1 100 = discarded NoSci
receive-plain 13 = discarded Runt
step = idle
stopped = no
stopped = no
fail 2
receive-plain 9216 = discarded NoTag
stopped = no
settings = Strict off 10 Explicit none 1
fail 3
next 1 = none
fail 3 filled
refill
protect 62 = NoEncodingSa
protect 9184 = NoEncodingSa
refill
refill
receive 9 2 3 2 100 clear broken = discarded NotUsingSa
protect 62 = NoEncodingSa
step = idle
stopped = no
receive-plain 14 = discarded NoTag
receive 9 4 0 2 62 = discarded NotUsingSa
rest = 0 idle
submit rx-add 9 = 3
receive-plain 9217 = discarded Oversize
step = done 3 refused ChannelTaken
step = idle
receive 9 3 3 6 62 clear = discarded NotUsingSa
refill
receive 9 3 0 2 14 = discarded NotUsingSa
fail never
power-loss zeros
open
submit set-replay off 4294967295 = 1
receive 9 3 0 1 14 clear = discarded NotUsingSa
step = worked
step = worked
rest = 2 idle
step = idle
numbers 9 0 = none
step = idle
fail never
close
open
numbers 9 3 = none
numbers b 0 = none
rx-add 9 = refused ChannelTaken
protect 13 = Runt
receive-plain 62 = discarded NoTag
step = idle
step = idle
calls = 1059
receive b 5 1 1 100 = discarded NoSci
rest = 0 idle
calls = 0
rest = 0 idle
step = idle
receive-plain 62 = discarded NoTag
fail 8 filled
calls = 0
receive b 2 0 2 14 = discarded NoSci
numbers 9 0 = none
receive b 5 0 1 100 = discarded NoSci
stopped = no
protect 62 = NoEncodingSa
calls = 0
protect 62 = NoEncodingSa
rest = 0 idle
receive-plain 9217 = discarded Oversize
submit rx-add b = 1
fail never
power-loss ones
open
step = idle
step = idle
refill
rx-install 200000000010001 1 5 4294967293 = refused NoChannel
fail never
power-loss gate
open
next 2 = none
receive-plain 62 = discarded NoTag
receive b 2 1 3 62 clear broken = discarded NoSci
receive-plain 62 = discarded NoTag
numbers 9 0 = none
receive-plain 14 = discarded NoTag
rx-add 9 = refused ChannelTaken
next 0 = none
receive-plain 0 = discarded Runt
stopped = no
fail never
power-loss zeros
open
step = idle
set-replay on 3
receive-plain 62 = discarded NoTag
refill
fail never
power-loss durable
open
receive b 4 1 3 62 = discarded NoSci
protect 62 = NoEncodingSa
protect 9193 = TooLong
submit rx-install 200000000010001 3 1 70 = 1
receive-plain 0 = discarded Runt
rest = 1 idle
calls = 1057
receive-plain 14 = discarded NoTag
rx-install 9 3 5 0 = refused StartRange
step = idle
rest = 0 idle
settings = Strict on 3 Explicit none 1
protect 62 = NoEncodingSa
receive 9 4 3 1 100 = discarded NotUsingSa
receive-plain 0 = discarded Runt
receive-plain 9217 = discarded Oversize
step = idle
stopped = no
fail never
power-loss half
open
rx-add b
refill
step = idle

story random 50
format 0200000000010001 4 4
open
receive b 5 2 1 62 = discarded NoSci
calls = 524
receive 9 3 3 1 100 = discarded NoSci
step = idle
receive-plain 62 = discarded NoTag
protect 62 = NoEncodingSa
set-validate strict
set-validate strict
numbers 9 1 = none
rest = 0 idle
step = idle
receive b 1 1 6 62 = discarded NoSci
fail never
power-loss ones
open
step = idle
submit tx-use 3 = 1
submit set-replay on 3 = 2
receive 9 5 2 1 14 = discarded NoSci
stopped = no
refill = Busy
rest = 5 idle
receive b 5 1 2 62 = discarded NoSci
rest = 0 idle
tx-use 1 = refused SlotEmpty
step = idle
tx-install 2 4 1 clear
step = idle
receive b 2 3 1 62 = discarded NoSci
settings = Strict on 3 Explicit none 0
refill
protect 9185 = TooLong
submit rx-drop 9 = 3
submit tx-install 3 2 4294967293 50 = 4
rest = 5 idle
step = idle
step = idle
receive 9 2 1 6 62 broken = discarded NoSci
fail never
power-loss gate
open
receive 9 3 3 1 14 = discarded NoSci
fail 7 on
fail never
close
open
protect 14 = NoEncodingSa
refill
receive 9 5 0 1 14 clear = discarded NoSci
protect 62 = NoEncodingSa
set-sci-mode implicit
protect 9185 = NoEncodingSa
receive-plain 0 = discarded Runt
receive b 2 2 6 62 clear = discarded NoSci
numbers b 1 = none
calls = 816
step = idle
fail 6
fail never
power-loss zeros
open
rx-remove b 3 = refused NoChannel
receive 9 3 1 1 62 clear = discarded NoSci
set-sci-mode implicit
step = idle
receive-plain 9216 = discarded NoTag
receive b 1 0 1 62 clear = discarded NoSci
stopped = no
step = idle
receive 9 5 3 2 14 clear = discarded NoSci
stopped = no
protect 14 = NoEncodingSa
calls = 270
receive-plain 9217 = discarded Oversize
rest = 0 idle
calls = 0
protect 62 = NoEncodingSa
settings = Strict on 3 Implicit none 0
receive b 1 3 6 14 = discarded NoSci
step = idle
receive b 2 1 1 62 clear broken = discarded NoSci
submit tx-use 0 = 1
receive b 1 1 1 62 broken = discarded NoSci
stopped = no
submit rx-install 200000000010001 1 2 70 = 2
receive 9 1 0 1 100 broken = discarded NoSci
refill = Busy
submit rx-add 200000000010001 = 3
receive 9 2 2 2 100 = discarded NoSci
protect 62 = NoEncodingSa
refill = Busy
calls = 0
step = done 1 refused SlotEmpty
tx-install 0 1 1 clear = Busy
protect 9185 = NoEncodingSa
step = done 2 refused NoChannel
step = done 3 refused OwnSci
numbers b 3 = none
calls = 0
submit tx-install 1 3 1 7 = 4
calls = 0
settings = Strict on 3 Implicit none 0
receive b 3 2 1 100 = discarded NoSci
receive 9 1 0 1 100 clear = discarded NoSci
refill = Busy
protect 14 = NoEncodingSa
refill = Busy
settings = Strict on 3 Implicit none 0
fail never
close
open
step = idle
calls = 267
receive b 1 3 1 14 clear = discarded NoSci
settings = Strict on 3 Implicit none 0
stopped = no
step = idle
protect 9184 = NoEncodingSa
numbers b 2 = none
settings = Strict on 3 Implicit none 0
numbers b 3 = none
stopped = no
step = idle
receive 9 5 0 1 14 clear = discarded NoSci
protect 9185 = NoEncodingSa
calls = 0
step = idle
receive 9 2 1 6 62 = discarded NoSci
step = idle
refill
protect 62 = NoEncodingSa
next 2 = 5
submit rx-remove 200000000010001 2 = 1
fail never
close
open
settings = Strict on 3 Implicit none 0
protect 9193 = TooLong
next 3 = 4294967296
protect 9185 = NoEncodingSa
refill
submit rx-install 9 2 5 1 = 1
protect 62 = NoEncodingSa
receive-plain 13 = discarded Runt
next 3 = 4294967296
next 0 = none
protect 14 = NoEncodingSa
fail 5 on
receive b 4 3 3 62 broken = discarded NoSci
receive b 4 0 2 14 clear = discarded NoSci
calls = 267
step = done 1 refused NoChannel
stopped = no
numbers 9 0 = none
receive-plain 13 = discarded Runt
step = idle
protect 13 = Runt
receive-plain 14 = discarded NoTag
step = idle
rest = 0 idle
step = idle
settings = Strict on 3 Implicit none 0
submit rx-add b = 2
fail 5 on
step = worked
tx-use 2 = Busy
step = worked
step = worked
protect 9184 = NoEncodingSa
tx-install 0 2 70 = Busy
numbers 9 2 = none
refill = Busy
fail never
power-loss zeros
open
rx-install b 2 1 70 = refused NoChannel
numbers b 3 = none
rx-install b 3 1 4294967293 = refused NoChannel
receive-plain 9216 = discarded NoTag
set-replay on 4294967295
receive 9 5 0 6 62 = discarded NoSci
step = idle
refill
step = idle
step = idle
fail 5 filled
step = idle
submit set-replay on 10 = 1
refill = Busy
fail never
power-loss gate
open
submit set-validate check = 1
calls = 542
protect 13 = Runt
submit tx-use 0 = 2
receive-plain 62 = discarded NoTag
protect 9185 = NoEncodingSa

story random 51
format 0200000000010001 4 4
open
receive b 1 3 2 62 clear = discarded NoSci
numbers b 0 = none
step = idle
calls = 524
refill
calls = 0
step = idle
protect 62 = NoEncodingSa
rest = 0 idle
submit set-validate check = 1
settings = Strict on 0 Explicit none 0
rx-install b 0 4 4294967293 50 = Busy
settings = Strict on 0 Explicit none 0
settings = Strict on 0 Explicit none 0
receive-plain 13 = discarded Runt
stopped = no
step = worked
protect 14 = NoEncodingSa
protect 62 = NoEncodingSa
fail 3 on
next 3 = none
settings = Strict on 0 Explicit none 0
rx-remove 9 3 = Busy
calls = 1
rest = 3 idle
stopped = no
tx-install 3 3 1 clear = Disk
settings = Check on 0 Explicit none 0
fail never
power-loss half
open
refill
fail 2 filled
rx-drop b = refused NoChannel
settings = Check on 0 Explicit none 0
settings = Check on 0 Explicit none 0
refill
protect 9184 = NoEncodingSa
receive 9 1 2 1 62 clear = delivered UnknownSci
numbers b 1 = none
stopped = no
fail 8 filled
step = idle
next 3 = none
rest = 0 idle
rest = 0 idle
calls = 265
settings = Check on 0 Explicit none 0
step = idle
next 0 = none
step = idle
step = idle
receive b 3 2 3 14 = discarded NoSci
next 1 = none
numbers 9 1 = none
step = idle
protect 14 = NoEncodingSa
protect 9193 = TooLong
rx-install b 3 2 4294967293 = refused NoChannel
receive b 5 2 1 62 = discarded NoSci
calls = 0
calls = 0
receive b 5 2 6 62 = discarded NoSci
protect 9193 = TooLong
step = idle
step = idle
fail never
power-loss zeros
open
tx-install 1 3 4294967293
stopped = no
rx-install 9 0 3 4294967293 = refused NoChannel
step = idle
calls = 265
calls = 0
stopped = no
tx-remove 2 = refused SlotEmpty
step = idle
settings = Check on 0 Explicit none 0
receive b 4 2 2 100 = discarded NoSci
protect 62 = NoEncodingSa
stopped = no
calls = 0
protect 62 = NoEncodingSa
step = idle
step = idle
next 1 = 4294967293
calls = 0
step = idle
submit set-validate check = 1
settings = Check on 0 Explicit none 0
next 0 = none
receive b 5 0 1 62 = discarded NoSci
receive-plain 9216 = delivered Untagged
submit set-replay on 10 = 2
step = worked
calls = 1
protect 62 = NoEncodingSa
receive 9 4 2 6 100 clear = delivered UnknownSci
refill = Busy
receive-plain 0 = discarded Runt
rest = 7 idle
receive b 3 1 1 100 clear = delivered UnknownSci
receive b 5 3 1 62 clear = delivered UnknownSci
tx-install 3 4 1 clear
submit tx-install 2 3 4294967293 30 = 3
step = done 3 refused KeySpent
receive 9 1 0 3 14 clear = delivered UnknownSci
submit rx-install b 2 3 1 50 = 4
receive-plain 62 = delivered Untagged
protect 14 = NoEncodingSa
step = done 4 refused NoChannel
protect 62 = NoEncodingSa
submit rx-drop b = 5
calls = 11
step = done 5 refused NoChannel
submit rx-add 9 = 6
step = worked
calls = 1
refill = Busy
receive-plain 9216 = delivered Untagged
step = worked
fail never
power-loss half
open
step = idle
receive 9 3 1 1 62 broken = discarded NoSci
next 0 = none
step = idle
stopped = no
step = idle
rest = 0 idle
receive-plain 13 = discarded Runt
tx-use 2 = refused SlotEmpty
refill
protect 14 = NoEncodingSa
receive-plain 14 = delivered Untagged
calls = 266
step = idle
receive b 2 2 3 14 = discarded NoSci
step = idle
tx-use 2 = refused SlotEmpty
numbers b 0 = none
submit set-replay on 4294967295 = 1
receive b 3 3 1 62 = discarded NoSci
rest = 4 idle
step = idle
rest = 0 idle
step = idle
rest = 0 idle
calls = 4
next 1 = 4294967296
next 1 = 4294967296
submit tx-use 1 = 2
receive b 3 1 3 14 clear broken = delivered UnknownSci
rx-add 9 = Busy
refill = Busy
fail never
power-loss half
open
receive 9 5 3 1 100 clear = delivered UnknownSci
settings = Check on 4294967295 Explicit none 0
fail never
power-loss zeros
open
settings = Check on 4294967295 Explicit none 0
rest = 0 idle
step = idle
rest = 0 idle
receive b 5 1 2 62 clear = delivered UnknownSci
protect 62 = NoEncodingSa
receive b 1 1 1 100 clear = delivered UnknownSci
step = idle
fail never
power-loss durable
open
stopped = no
calls = 798
receive 9 5 2 6 14 broken = discarded NoSci
refill
next 1 = 4294967296
fail 5 on
step = idle
refill
next 1 = 4294967296
calls = 0
step = idle
step = idle
receive b 3 3 1 14 broken = discarded NoSci
calls = 0
numbers 9 2 = none
numbers b 1 = none
calls = 0
protect 9193 = TooLong
receive b 4 2 1 62 clear = delivered UnknownSci
next 3 = 5
refill
next 3 = 5

story random 52
format 0200000000010001 2 2
open
settings = Strict on 0 Explicit none 0
rest = 0 idle
step = idle
fail 2 on
receive b 5 3 2 100 = discarded NoSci
stopped = no
receive 9 4 1 1 62 = discarded NoSci
settings = Strict on 0 Explicit none 0
receive-plain 14 = discarded NoTag
numbers b 3 = none
settings = Strict on 0 Explicit none 0
submit rx-install b 3 2 1 7 = 1
settings = Strict on 0 Explicit none 0
receive 9 1 1 1 62 = discarded NoSci
receive b 5 3 1 62 broken = discarded NoSci
calls = 524
next 3 = none
protect 62 = NoEncodingSa
protect 62 = NoEncodingSa
step = done 1 refused OffsetChoice
receive-plain 13 = discarded Runt
receive b 5 2 6 100 = discarded NoSci
receive b 5 0 1 100 = discarded NoSci
next 2 = none
fail 0
rest = 0 idle
receive-plain 14 = discarded NoTag
settings = Strict on 0 Explicit none 0
receive b 4 3 2 62 broken = discarded NoSci
step = idle
rx-install 9 0 4 1 = refused NoChannel
stopped = no
refill
step = idle
receive 9 1 3 1 100 = discarded NoSci
fail never
power-loss zeros
open
protect 9184 = NoEncodingSa
tx-install 2 4 0 = refused StartRange
receive 9 5 3 1 100 clear = discarded NoSci
receive b 2 1 1 62 = discarded NoSci
protect 62 = NoEncodingSa
step = idle
step = idle
protect 62 = NoEncodingSa
step = idle
receive b 2 3 1 14 = discarded NoSci
receive-plain 9216 = discarded NoTag
fail never
power-loss gate
open
refill
rest = 0 idle
protect 62 = NoEncodingSa
step = idle
step = idle
protect 14 = NoEncodingSa
next 2 = none
receive 9 5 3 6 62 = discarded NoSci
step = idle
step = idle
calls = 520
numbers 9 1 = none
receive b 5 1 1 100 clear = discarded NoSci
protect 62 = NoEncodingSa
numbers 9 1 = none
stopped = no
step = idle
step = idle
numbers 9 3 = none
stopped = no
step = idle
stopped = no
receive 9 2 3 3 62 clear = discarded NoSci
numbers 9 1 = none
protect 9193 = TooLong
rest = 0 idle
submit set-replay on 10 = 1
receive b 1 0 1 62 clear broken = discarded NoSci
step = worked
receive-plain 0 = discarded Runt
receive b 1 0 1 62 broken = discarded NoSci
numbers 9 2 = none
receive 9 2 3 1 62 clear = discarded NoSci
protect 62 = NoEncodingSa
rest = 3 idle
next 0 = none
step = idle
protect 62 = NoEncodingSa
tx-remove 3 = refused SlotEmpty
next 2 = none
next 2 = none
calls = 4
fail 5 filled
fail 5 filled
submit rx-remove 9 1 = 2
next 1 = none
step = done 2 refused NoChannel
next 1 = none
receive b 3 1 1 100 = discarded NoSci
rest = 0 idle
receive-plain 13 = discarded Runt
step = idle
fail never
power-loss gate
open
rx-install 9 1 4 70 7 = refused OffsetChoice
calls = 261
step = idle
refill
step = idle
fail never
power-loss durable
open
receive-plain 62 = discarded NoTag
receive-plain 0 = discarded Runt
submit rx-add 200000000010001 = 1
protect 14 = NoEncodingSa
tx-use 3 = Busy
calls = 261
protect 62 = NoEncodingSa
rest = 1 idle
submit rx-install 9 1 4 0 = 2
stopped = no
step = done 2 refused StartRange
protect 14 = NoEncodingSa
calls = 0
protect 62 = NoEncodingSa
protect 9193 = TooLong
calls = 0
rest = 0 idle
fail 2
set-replay off 0 = Disk
fail never
power-loss half
open
step = idle
stopped = no
receive b 4 1 1 14 clear = discarded NoSci
refill
receive 9 2 1 6 62 = discarded NoSci
receive 9 4 3 1 62 = discarded NoSci
protect 62 = NoEncodingSa
step = idle
next 1 = none
settings = Strict on 10 Explicit none 0
stopped = no
receive 9 5 0 3 62 = discarded NoSci
receive 9 4 1 1 62 clear = discarded NoSci
refill
next 2 = none
calls = 264
set-sci-mode explicit
calls = 4
numbers 9 3 = none
submit tx-use 1 = 1
refill = Busy
protect 62 = NoEncodingSa
settings = Strict on 10 Explicit none 0
step = done 1 refused SlotEmpty
set-replay off 0
receive 9 2 1 6 100 clear = discarded NoSci
numbers b 0 = none
rest = 0 idle
step = idle
step = idle
settings = Strict off 0 Explicit none 0
receive 9 4 1 3 62 = discarded NoSci
next 3 = none
submit set-replay off 0 = 2
step = worked
rest = 3 idle
step = idle
calls = 8
receive-plain 9217 = discarded Oversize
step = idle
next 3 = none
fail never
power-loss durable
open
step = idle
protect 14 = NoEncodingSa
step = idle
receive-plain 0 = discarded Runt
stopped = no
numbers 9 0 = none
next 0 = none
protect 62 = NoEncodingSa
fail 7 on
receive b 3 1 1 62 = discarded NoSci
next 3 = none
submit rx-add b = 1
receive b 5 3 2 62 = discarded NoSci
receive b 3 2 3 100 broken = discarded NoSci
settings = Strict off 0 Explicit none 0
protect 9185 = TooLong
receive 9 5 3 2 62 clear = discarded NoSci
stopped = no
submit set-sci-mode explicit = 2

story random 53
format 0200000000010001 1 1
open
protect 13 = Runt
step = idle
rest = 0 idle
rest = 0 idle
step = idle
rest = 0 idle
numbers 9 0 = none
submit set-sci-mode explicit = 1
submit set-replay on 4294967295 = 2
protect 62 = NoEncodingSa
receive b 2 3 1 14 broken = discarded NoSci
rx-install 200000000010001 3 5 4294967293 7 = Busy
settings = Strict on 0 Explicit none 0
receive 9 3 3 1 14 broken = discarded NoSci
refill = Busy
step = worked
receive-plain 0 = discarded Runt
settings = Strict on 0 Explicit none 0
protect 62 = NoEncodingSa
receive 9 3 2 2 100 = discarded NoSci
calls = 525
protect 14 = NoEncodingSa
step = worked
step = worked
refill = Busy
receive 9 5 2 1 62 clear = discarded NoSci
set-replay on 0 = Busy
protect 62 = NoEncodingSa
protect 13 = Runt
receive b 4 1 1 62 clear = discarded NoSci
fail never
power-loss gate
open
rx-drop 200000000010001 = refused NoChannel
step = idle
protect 13 = Runt
receive b 5 1 1 14 = discarded NoSci
step = idle
receive-plain 9216 = discarded NoTag
stopped = no
stopped = no
receive b 2 1 3 62 clear = discarded NoSci
stopped = no
fail 3 on
refill
tx-use 0 = refused SlotEmpty
step = idle
protect 9193 = TooLong
refill
step = idle
step = idle
protect 9184 = NoEncodingSa
stopped = no
calls = 263
stopped = no
rx-install 9 3 2 1 30 = refused NoChannel
step = idle
submit set-validate strict = 1
step = worked
receive 9 2 0 1 62 = discarded NoSci
settings = Strict on 0 Explicit none 0
rest = 2 Disk
submit tx-remove 1 = Stopped
submit tx-install 1 4 1 30 = Stopped
fail never
power-loss last
open
settings = Strict on 0 Explicit none 0
receive b 5 0 6 100 = discarded NoSci
numbers b 2 = none
receive 9 3 1 6 100 = discarded NoSci
settings = Strict on 0 Explicit none 0
settings = Strict on 0 Explicit none 0
stopped = no
rest = 0 idle
calls = 266
calls = 0
protect 62 = NoEncodingSa
submit tx-install 3 3 4294967293 clear = 1
calls = 0
submit tx-install 1 5 4294967293 = 2
next 1 = none
settings = Strict on 0 Explicit none 0
stopped = no
protect 62 = NoEncodingSa
step = worked
next 1 = none
set-validate check = Busy
protect 62 = NoEncodingSa
step = worked
protect 9185 = TooLong
settings = Strict on 0 Explicit none 0
protect 62 = NoEncodingSa
protect 13 = Runt
stopped = no
receive-plain 13 = discarded Runt
next 1 = none
calls = 2
set-sci-mode implicit = Busy
refill = Busy
settings = Strict on 0 Explicit none 0
step = worked
settings = Strict on 0 Explicit none 0
numbers b 0 = none
rx-install 9 2 3 1 = Busy
protect 9185 = TooLong
receive-plain 14 = discarded NoTag
protect 62 = NoEncodingSa
fail never
close
open
set-replay off 0
next 1 = none
fail 0
refill
step = idle
settings = Strict off 0 Explicit none 0
protect 62 = NoEncodingSa
step = idle
next 1 = none
numbers b 1 = none
settings = Strict off 0 Explicit none 0
settings = Strict off 0 Explicit none 0
fail never
power-loss half
open
protect 62 = NoEncodingSa
numbers b 1 = none
step = idle
fail 3
numbers b 2 = none
numbers 9 2 = none
numbers b 2 = none
receive 9 1 0 6 100 = discarded NoSci
protect 9185 = TooLong
step = idle
calls = 532
receive b 4 3 1 100 = discarded NoSci
step = idle
step = idle
receive-plain 0 = discarded Runt
protect 62 = NoEncodingSa
numbers 9 2 = none
stopped = no
step = idle
numbers 9 0 = none
rx-install 200000000010001 1 5 1 30 = refused NoChannel
next 1 = none
protect 9185 = TooLong
settings = Strict off 0 Explicit none 0
next 1 = none
next 1 = none
numbers 9 0 = none
fail 6 filled
step = idle
rest = 0 idle
fail 0 filled
refill
receive 9 2 3 3 14 = discarded NoSci
stopped = no
next 2 = none
numbers b 3 = none
submit rx-install 9 0 1 1 50 = 1
numbers 9 0 = none
protect 62 = NoEncodingSa
receive-plain 14 = discarded NoTag
fail never
power-loss last
open
calls = 264
settings = Strict off 0 Explicit none 0
receive-plain 0 = discarded Runt
refill
rest = 0 idle
protect 62 = NoEncodingSa
receive-plain 14 = discarded NoTag
rest = 0 idle
step = idle
next 2 = none
protect 14 = NoEncodingSa
receive-plain 9217 = discarded Oversize
submit set-replay on 0 = 1
receive-plain 62 = discarded NoTag
numbers b 2 = none
next 2 = none
numbers b 0 = none
tx-install 3 5 70 30 = Busy
submit rx-install 200000000010001 1 1 1 7 = 2
refill = Busy
fail 7 on
next 0 = none
rx-install 9 0 1 0 = Busy
step = worked
next 0 = none
calls = 1

story random 54
format 0200000000010001 1 1
open
numbers b 0 = none
numbers 9 3 = none
step = idle
submit rx-add b = 1
step = worked
receive 9 2 1 1 100 broken = discarded NoSci
settings = Strict on 0 Explicit none 0
settings = Strict on 0 Explicit none 0
settings = Strict on 0 Explicit none 0
next 0 = none
refill = Busy
refill = Busy
rx-install b 0 3 1 = Busy
next 2 = none
step = worked
step = worked
fail never
power-loss durable
open
tx-use 0 = refused SlotEmpty
fail never
power-loss durable
open
receive b 4 0 6 62 = discarded NoSci
numbers b 2 = none
next 3 = none
refill
protect 62 = NoEncodingSa
receive b 3 3 1 62 = discarded NoSci
settings = Strict on 0 Explicit none 0
step = idle
submit rx-drop b = 1
stopped = no
step = done 1 refused NoChannel
protect 9184 = NoEncodingSa
receive-plain 13 = discarded Runt
step = idle
step = idle
protect 62 = NoEncodingSa
receive-plain 14 = discarded NoTag
rest = 0 idle
calls = 1047
receive 9 5 2 3 62 clear broken = discarded NoSci
receive b 3 1 1 14 = discarded NoSci
receive b 4 2 6 62 = discarded NoSci
next 1 = none
protect 13 = Runt
protect 14 = NoEncodingSa
refill
numbers 9 1 = none
submit rx-remove 200000000010001 0 = 2
step = done 2 refused NoChannel
submit set-replay on 3 = 3
step = worked
fail 0
receive b 4 0 1 14 = discarded NoSci
protect 9185 = TooLong
next 1 = none
step = Disk
fail never
power-loss last
open
step = idle
next 3 = none
stopped = no
set-sci-mode explicit
numbers 9 0 = none
step = idle
refill
protect 9193 = TooLong
receive b 2 3 1 100 broken = discarded NoSci
step = idle
settings = Strict on 0 Explicit none 0
rest = 0 idle
protect 14 = NoEncodingSa
protect 9184 = NoEncodingSa
refill
receive 9 1 2 1 62 = discarded NoSci
submit rx-add 9 = 1
settings = Strict on 0 Explicit none 0
numbers 9 0 = none
refill = Busy
refill = Busy
protect 62 = NoEncodingSa
stopped = no
receive 9 5 1 1 14 clear = discarded NoSci
settings = Strict on 0 Explicit none 0
fail never
power-loss last
open
submit tx-use 2 = 1
settings = Strict on 0 Explicit none 0
rest = 1 idle
step = idle
stopped = no
step = idle
settings = Strict on 0 Explicit none 0
rx-install 9 0 2 4294967293 30 = refused NoChannel
protect 62 = NoEncodingSa
stopped = no
receive b 4 0 6 62 clear = discarded NoSci
refill
stopped = no
protect 13 = Runt
refill
step = idle
calls = 527
next 1 = none
step = idle
rx-install 9 1 1 4294967293 7 = refused OffsetChoice
refill
fail 8
settings = Strict on 0 Explicit none 0
receive 9 5 3 3 62 clear broken = discarded NoSci
calls = 0
settings = Strict on 0 Explicit none 0
numbers b 3 = none
calls = 0
receive b 2 2 1 62 clear = discarded NoSci
calls = 0
receive-plain 62 = discarded NoTag
step = idle
protect 62 = NoEncodingSa
numbers b 2 = none
rest = 0 idle
submit tx-install 3 5 1 clear = 2
receive-plain 9216 = discarded NoTag
protect 62 = NoEncodingSa
protect 9184 = NoEncodingSa
numbers b 3 = none
step = worked
numbers 9 2 = none
step = worked
protect 62 = NoEncodingSa
next 0 = none
next 1 = none
receive b 1 2 6 14 = discarded NoSci
settings = Strict on 0 Explicit none 0
fail 3 on
receive b 1 2 1 62 clear = discarded NoSci
submit rx-add b = 3
next 3 = none
set-validate strict = Busy
protect 62 = NoEncodingSa
protect 62 = NoEncodingSa
step = worked
next 0 = none
protect 62 = NoEncodingSa
submit rx-remove 9 0 = 4
settings = Strict on 0 Explicit none 0
next 3 = none
refill = Busy
submit rx-add b = 5
receive b 5 2 1 14 clear = discarded NoSci
stopped = no
step = done 2 ok
fail never
close
open
tx-install 1 2 1 clear
step = idle
submit rx-install b 0 1 0 = 1
step = done 1 refused StartRange
calls = 270
protect 62 = NoEncodingSa
tx-use 1
next 3 = 2
receive-plain 9216 = discarded NoTag
refill
settings = Strict on 0 Explicit 1 0
protect 14 = 1
submit rx-install 9 2 5 70 7 = 2
fail 6 filled
tx-install 1 3 1 30 = Busy
set-replay on 0 = Busy
step = worked
numbers 9 1 = none
settings = Strict on 0 Explicit 1 0
step = worked
refill = Busy
receive-plain 14 = discarded NoTag
submit tx-use 1 = 3
receive b 5 2 1 100 = discarded NoSci
calls = 6
protect 14 = NoNumber
fail 4 on
calls = 0
step = worked
calls = 1
calls = 0
receive 9 2 2 1 62 = discarded NoSci
next 3 = 2
receive 9 1 2 6 62 broken = discarded NoSci
receive-plain 62 = discarded NoTag
tx-install 3 5 1 50 = Busy
refill = Busy

story random 55
format 0200000000010001 4 4
open
protect 62 = NoEncodingSa
step = idle
next 0 = none
tx-install 3 1 1
receive-plain 9216 = discarded NoTag
protect 62 = NoEncodingSa
fail never
power-loss gate
open
fail 7
refill
submit rx-add 9 = 1
receive-plain 9217 = discarded Oversize
rx-install b 0 2 70 = Busy
set-sci-mode implicit = Busy
fail 8
step = worked
stopped = no
receive-plain 9216 = discarded NoTag
receive b 3 3 3 62 = discarded NoSci
stopped = no
stopped = no
protect 9185 = TooLong
fail 4
rest = 3 idle
rest = 0 idle
settings = Strict on 0 Explicit none 1
numbers b 1 = none
protect 13 = Runt
numbers b 1 = none
next 2 = none
receive b 4 1 1 62 = discarded NoSci
receive-plain 9217 = discarded Oversize
rest = 0 idle
rx-add 9 = refused ChannelTaken
refill
step = idle
step = idle
receive 9 5 1 3 62 clear broken = discarded NotUsingSa
stopped = no
next 3 = 5
step = idle
rest = 0 idle
refill
protect 62 = NoEncodingSa
protect 13 = Runt
receive-plain 0 = discarded Runt
step = idle
step = idle
stopped = no
next 3 = 5
rest = 0 idle
submit tx-use 3 = 2
settings = Strict on 0 Explicit none 1
rest = 1 Disk
fail never
power-loss last
open
protect 9185 = TooLong
calls = 1057
fail never
power-loss durable
open
refill
receive-plain 14 = discarded NoTag
protect 62 = NoEncodingSa
set-sci-mode explicit
submit set-sci-mode implicit = 1
fail 1 on
receive-plain 9216 = discarded NoTag
set-replay off 3 = Busy
step = worked
submit tx-remove 1 = 2
step = Disk
receive-plain 13 = Stopped
refill = Stopped
numbers b 0 = none
receive 9 3 1 1 100 = Stopped
fail never
close
open
stopped = no
receive-plain 14 = discarded NoTag
receive b 5 0 2 62 clear = discarded NoSci
calls = 531
step = idle
numbers 9 3 = none
next 3 = 5
refill
numbers b 3 = none
step = idle
protect 62 = NoEncodingSa
fail 8 on
numbers b 1 = none
submit tx-use 1 = 1
receive 9 4 0 1 62 = discarded NotUsingSa
step = done 1 refused SlotEmpty
protect 62 = NoEncodingSa
protect 9185 = TooLong
refill
refill
receive-plain 0 = discarded Runt
next 0 = none
fail never
close
open
receive-plain 9217 = discarded Oversize
receive 9 5 2 1 62 = discarded NotUsingSa
receive b 1 0 2 100 = discarded NoSci
fail never
power-loss durable
open
step = idle
fail never
power-loss half
open
protect 9184 = NoEncodingSa
step = idle
submit set-sci-mode end-station = 1
step = worked
next 0 = none
numbers b 3 = none
receive-plain 9216 = discarded NoTag
receive-plain 14 = discarded NoTag
protect 9185 = TooLong
protect 13 = Runt
protect 14 = NoEncodingSa
settings = Strict on 0 Explicit none 1
calls = 790
step = worked
rest = 2 idle
protect 62 = ForeignSource
submit tx-use 0 = 2
numbers b 1 = none
calls = 3
protect 62 = ForeignSource
receive 9 3 0 1 100 broken = discarded NotUsingSa
settings = Strict on 0 EndStation none 1
step = done 2 refused SlotEmpty
numbers b 3 = none
settings = Strict on 0 EndStation none 1
calls = 0
rx-remove 200000000010001 2 = refused NoChannel
numbers 9 1 = none
fail never
power-loss zeros
open
protect 62 = ForeignSource
refill
step = idle
step = idle
numbers b 0 = none
rx-add 9 = refused ChannelTaken
fail 7 filled
calls = 264
rest = 0 idle
receive 9 4 2 1 62 = discarded NotUsingSa
refill
protect 13 = Runt
protect 13 = Runt
calls = 0
receive 9 4 2 1 14 = discarded NotUsingSa
receive 9 1 2 1 14 = discarded NotUsingSa
rest = 0 idle
settings = Strict on 0 EndStation none 1
rest = 0 idle
fail never
power-loss durable
open
receive-plain 9217 = discarded Oversize
step = idle
calls = 264
protect 62 = ForeignSource
set-replay on 0
step = idle
submit tx-use 0 = 1
receive b 2 1 1 62 clear = discarded NoSci
fail never
power-loss gate
open
protect 62 = ForeignSource
protect 62 = ForeignSource
receive-plain 9216 = discarded NoTag
next 0 = none
receive b 1 0 1 62 clear = discarded NoSci
settings = Strict on 0 EndStation none 1
receive b 4 0 3 14 = discarded NoSci
protect 9185 = ForeignSource
fail never
power-loss ones
open
protect 9184 = ForeignSource
next 1 = none
protect 9185 = ForeignSource
rest = 0 idle
refill
step = idle
numbers b 1 = none
calls = 534
fail never
close
open
stopped = no
receive b 4 1 1 14 clear = discarded NoSci
receive-plain 0 = discarded Runt
numbers b 2 = none
stopped = no
rest = 0 idle
set-sci-mode implicit

story random 56
format 0200000000010001 4 4
open
receive 9 2 0 3 62 = discarded NoSci
receive b 3 1 1 62 = discarded NoSci
fail never
power-loss durable
open
receive 9 3 2 1 62 clear = discarded NoSci
rest = 0 idle
receive 9 3 3 3 14 = discarded NoSci
fail never
power-loss zeros
open
protect 62 = NoEncodingSa
step = idle
receive b 4 0 1 100 clear = discarded NoSci
tx-remove 0 = refused SlotEmpty
protect 62 = NoEncodingSa
stopped = no
receive b 2 0 2 62 = discarded NoSci
next 0 = none
receive 9 5 3 1 100 = discarded NoSci
settings = Strict on 0 Explicit none 0
stopped = no
stopped = no
receive b 1 3 2 100 = discarded NoSci
receive b 1 3 1 100 clear = discarded NoSci
protect 62 = NoEncodingSa
stopped = no
step = idle
settings = Strict on 0 Explicit none 0
step = idle
refill
step = idle
calls = 1044
calls = 0
submit rx-install 9 3 1 1 = 1
step = done 1 refused NoChannel
refill
stopped = no
tx-use 0 = refused SlotEmpty
set-validate strict
refill
calls = 4
step = idle
next 3 = none
step = idle
receive-plain 9216 = discarded NoTag
next 1 = none
numbers b 0 = none
calls = 0
settings = Strict on 0 Explicit none 0
stopped = no
rest = 0 idle
rest = 0 idle
calls = 0
receive-plain 9217 = discarded Oversize
step = idle
step = idle
rest = 0 idle
receive b 3 0 6 14 = discarded NoSci
fail 1
receive b 2 1 1 62 = discarded NoSci
step = idle
receive b 1 1 1 62 broken = discarded NoSci
settings = Strict on 0 Explicit none 0
step = idle
next 3 = none
fail 8
receive-plain 9216 = discarded NoTag
rest = 0 idle
step = idle
refill
protect 62 = NoEncodingSa
next 0 = none
protect 9184 = NoEncodingSa
receive b 3 1 2 62 clear = discarded NoSci
receive 9 3 2 1 14 = discarded NoSci
receive-plain 9217 = discarded Oversize
rest = 0 idle
receive 9 4 0 3 62 = discarded NoSci
receive 9 3 0 1 100 broken = discarded NoSci
receive 9 1 2 3 62 clear broken = discarded NoSci
protect 9193 = TooLong
protect 62 = NoEncodingSa
fail 7 on
fail never
power-loss last
open
numbers b 1 = none
numbers b 1 = none
receive 9 4 1 1 14 broken = discarded NoSci
step = idle
step = idle
protect 9184 = NoEncodingSa
receive 9 1 3 1 14 = discarded NoSci
calls = 261
step = idle
fail never
power-loss last
open
receive-plain 9217 = discarded Oversize
receive-plain 62 = discarded NoTag
receive-plain 13 = discarded Runt
settings = Strict on 0 Explicit none 0
rest = 0 idle
receive 9 5 2 3 14 = discarded NoSci
stopped = no
refill
numbers 9 3 = none
numbers 9 1 = none
protect 14 = NoEncodingSa
refill
protect 13 = Runt
protect 9185 = TooLong
step = idle
submit set-validate check = 1
step = worked
refill = Busy
step = worked
step = worked
calls = 264
step = done 1 ok
rest = 0 idle
step = idle
refill
protect 9185 = TooLong
next 1 = none
calls = 1
submit tx-install 1 3 1 = 2
settings = Check on 0 Explicit none 0
refill = Busy
fail never
power-loss zeros
open
rest = 0 idle
receive-plain 9216 = delivered Untagged
stopped = no
refill
protect 9184 = NoEncodingSa
protect 62 = NoEncodingSa
step = idle
step = idle
refill
step = idle
submit tx-use 1 = 1
rx-add 9 = Busy
fail never
power-loss gate
open
calls = 524
step = idle
rest = 0 idle
protect 62 = NoEncodingSa
refill
protect 13 = Runt
next 2 = none
step = idle
stopped = no
next 0 = none
refill
settings = Check on 0 Explicit none 0
fail 4
refill
step = idle
receive-plain 62 = delivered Untagged
step = idle
fail never
power-loss gate
open
refill
next 2 = none
next 2 = none
next 3 = none
protect 62 = NoEncodingSa
numbers 9 0 = none
rx-drop b = refused NoChannel
protect 14 = NoEncodingSa
next 1 = none
rx-add b
settings = Check on 0 Explicit none 1
calls = 266
refill
fail never
power-loss gate
open
submit tx-use 1 = 1
refill = Busy
step = done 1 refused SlotEmpty
step = idle
settings = Check on 0 Explicit none 1
refill
protect 13 = Runt
receive 9 3 1 6 100 = discarded NoSci
calls = 263
stopped = no
refill
calls = 0
fail never
power-loss gate
open
step = idle
stopped = no
protect 62 = NoEncodingSa
calls = 263

story random 57
format 0200000000010001 4 4
open
receive-plain 62 = discarded NoTag
numbers b 3 = none
stopped = no
settings = Strict on 0 Explicit none 0
receive b 4 2 1 62 = discarded NoSci
numbers 9 2 = none
receive 9 2 2 1 100 = discarded NoSci
protect 62 = NoEncodingSa
step = idle
submit tx-use 2 = 1
protect 14 = NoEncodingSa
calls = 524
protect 9193 = TooLong
submit rx-install 9 2 1 4294967293 = 2
fail never
power-loss zeros
open
set-replay off 4294967295
numbers 9 2 = none
numbers b 3 = none
numbers 9 3 = none
tx-remove 0 = refused SlotEmpty
submit tx-use 3 = 1
next 0 = none
step = done 1 refused SlotEmpty
rest = 0 idle
rx-remove 9 3 = refused NoChannel
protect 9185 = TooLong
receive 9 1 3 1 62 = discarded NoSci
next 2 = none
calls = 264
receive b 2 3 1 62 = discarded NoSci
calls = 0
refill
stopped = no
rest = 0 idle
set-validate check
refill
fail 5 on
protect 62 = NoEncodingSa
calls = 4
protect 62 = NoEncodingSa
tx-install 1 3 1 50
step = idle
stopped = no
receive-plain 13 = discarded Runt
receive 9 1 2 1 62 clear = delivered UnknownSci
settings = Check off 4294967295 Explicit none 0
submit rx-add b = 2
protect 62 = NoEncodingSa
submit tx-use 1 = 3
receive b 5 0 1 100 = discarded NoSci
step = worked
fail never
power-loss ones
open
receive 9 4 0 3 62 clear = delivered UnknownSci
rest = 0 idle
protect 13 = Runt
rest = 0 idle
step = idle
settings = Check off 4294967295 Explicit none 0
settings = Check off 4294967295 Explicit none 0
calls = 268
set-replay on 4294967295
numbers b 2 = none
settings = Check on 4294967295 Explicit none 0
calls = 4
receive-plain 14 = delivered Untagged
receive-plain 0 = discarded Runt
submit rx-install b 0 1 1 30 = 1
calls = 0
receive b 2 3 1 14 clear = delivered UnknownSci
fail never
power-loss zeros
open
rx-install b 3 1 1 = refused NoChannel
next 0 = none
receive b 5 1 1 100 clear = delivered UnknownSci
next 2 = none
receive-plain 9217 = discarded Oversize
step = idle
refill
receive 9 2 1 1 62 = discarded NoSci
refill
step = idle
settings = Check on 4294967295 Explicit none 0
protect 9184 = NoEncodingSa
next 0 = none
tx-install 1 3 0 clear = refused StartRange
step = idle
next 2 = none
step = idle
protect 9193 = TooLong
calls = 264
settings = Check on 4294967295 Explicit none 0
fail never
power-loss gate
open
step = idle
protect 14 = NoEncodingSa
tx-install 1 3 70 = refused SlotTaken
numbers 9 1 = none
stopped = no
refill
step = idle
step = idle
submit set-replay on 4294967295 = 1
refill = Busy
receive-plain 14 = delivered Untagged
fail 3 on
step = worked
receive-plain 14 = delivered Untagged
settings = Check on 4294967295 Explicit none 0
fail 1
rest = 1 Disk
fail never
power-loss half
open
tx-use 2 = refused SlotEmpty
step = idle
step = idle
fail never
power-loss gate
open
step = idle
set-sci-mode explicit
stopped = no
step = idle
protect 14 = NoEncodingSa
step = idle
protect 13 = Runt
receive 9 4 1 3 62 clear = delivered UnknownSci
receive 9 5 2 1 100 clear = delivered UnknownSci
step = idle
step = idle
numbers b 2 = none
settings = Check on 4294967295 Explicit none 0
step = idle
step = idle
receive-plain 13 = discarded Runt
receive-plain 0 = discarded Runt
calls = 799
receive b 3 1 1 62 = discarded NoSci
fail never
power-loss zeros
open
receive-plain 14 = delivered Untagged
step = idle
protect 9193 = TooLong
receive-plain 0 = discarded Runt
numbers 9 2 = none
protect 9185 = TooLong
protect 62 = NoEncodingSa
step = idle
protect 62 = NoEncodingSa
stopped = no
next 0 = none
rx-install b 3 5 1 = refused NoChannel
step = idle
step = idle
protect 9193 = TooLong
protect 62 = NoEncodingSa
protect 9184 = NoEncodingSa
settings = Check on 4294967295 Explicit none 0
stopped = no
step = idle
rest = 0 idle
step = idle
refill
fail never
power-loss last
open
step = idle
step = idle
fail 3
next 1 = 5
step = idle
fail never
power-loss zeros
open
settings = Check on 4294967295 Explicit none 0
stopped = no
fail never
power-loss ones
open
protect 62 = NoEncodingSa
set-validate strict
rest = 0 idle
next 1 = 5
tx-install 1 1 70 clear = refused SlotTaken
numbers 9 3 = none
protect 62 = NoEncodingSa
receive 9 5 3 2 62 = discarded NoSci
step = idle
numbers b 3 = none
fail 0 filled
step = idle
stopped = no
rest = 0 idle
calls = 1064
stopped = no
protect 9193 = TooLong
submit rx-remove 200000000010001 3 = 1
fail never
power-loss ones
open

story random 58
format 0200000000010001 1 1
open
set-validate strict
stopped = no
receive b 4 1 1 14 = discarded NoSci
receive b 3 1 1 62 clear broken = discarded NoSci
stopped = no
submit tx-install 3 2 1 clear = 1
calls = 528
fail never
power-loss half
open
calls = 261
protect 9185 = TooLong
stopped = no
protect 62 = NoEncodingSa
tx-install 1 1 0 = refused StartRange
next 1 = none
numbers b 2 = none
refill
protect 14 = NoEncodingSa
set-replay on 4294967295
receive b 3 2 3 62 = discarded NoSci
rest = 0 idle
refill
rest = 0 idle
protect 62 = NoEncodingSa
protect 62 = NoEncodingSa
next 3 = none
receive b 1 0 1 62 = discarded NoSci
refill
numbers b 0 = none
step = idle
step = idle
protect 62 = NoEncodingSa
step = idle
fail 5 filled
next 1 = none
fail never
power-loss durable
open
protect 62 = NoEncodingSa
protect 62 = NoEncodingSa
receive-plain 9217 = discarded Oversize
receive-plain 13 = discarded Runt
fail never
power-loss gate
open
receive-plain 9217 = discarded Oversize
step = idle
step = idle
step = idle
step = idle
step = idle
receive 9 4 0 1 62 = discarded NoSci
next 1 = none
numbers 9 0 = none
protect 62 = NoEncodingSa
rest = 0 idle
receive-plain 9216 = discarded NoTag
receive b 3 3 2 14 = discarded NoSci
receive 9 4 2 1 100 clear = discarded NoSci
stopped = no
calls = 528
refill
step = idle
calls = 0
set-replay on 0
numbers 9 1 = none
numbers b 2 = none
next 0 = none
submit tx-use 3 = 1
protect 62 = NoEncodingSa
protect 13 = Runt
calls = 4
protect 9193 = TooLong
protect 9185 = TooLong
receive-plain 9217 = discarded Oversize
rest = 1 idle
submit set-replay on 3 = 2
step = worked
step = worked
stopped = no
rest = 2 idle
receive-plain 9216 = discarded NoTag
step = idle
fail never
close
open
refill
stopped = no
receive 9 2 2 1 62 broken = discarded NoSci
submit tx-install 1 2 70 30 = 1
receive 9 3 3 3 14 clear = discarded NoSci
step = worked
receive-plain 13 = discarded Runt
receive 9 5 2 1 62 = discarded NoSci
tx-install 0 2 1 clear = Busy
step = worked
settings = Strict on 3 Explicit none 0
fail never
close
open
receive-plain 62 = discarded NoTag
receive-plain 9217 = discarded Oversize
protect 9185 = TooLong
receive 9 2 2 1 100 = discarded NoSci
rest = 0 idle
fail never
power-loss zeros
open
submit set-validate check = 1
rest = 4 idle
step = idle
refill
numbers b 0 = none
step = idle
settings = Check on 3 Explicit none 0
fail never
power-loss ones
open
step = idle
protect 62 = NoEncodingSa
refill
step = idle
calls = 1067
numbers 9 2 = none
next 3 = none
step = idle
settings = Check on 3 Explicit none 0
tx-install 3 2 1
step = idle
refill
set-validate check
protect 13 = Runt
rest = 0 idle
next 0 = none
fail never
power-loss half
open
protect 9185 = TooLong
submit set-replay on 0 = 1
rest = 4 idle
set-replay on 0
next 0 = none
step = idle
receive b 5 2 1 62 clear = delivered UnknownSci
next 1 = none
step = idle
refill
refill
receive 9 4 2 1 14 = discarded NoSci
refill
settings = Check on 0 Explicit none 0
rx-add 9
numbers b 1 = none
protect 62 = NoEncodingSa
stopped = no
rest = 0 idle
protect 9185 = TooLong
fail 6
next 2 = none
receive 9 3 0 1 100 clear broken = delivered UnusedSa
step = idle
step = idle
receive-plain 9217 = discarded Oversize
step = idle
refill
calls = 287
step = idle
fail never
close
open
calls = 270
receive b 3 1 1 100 = discarded NoSci
protect 62 = NoEncodingSa
step = idle
rest = 0 idle
calls = 0
numbers 9 1 = none
protect 9185 = TooLong
step = idle
protect 9185 = TooLong
step = idle
step = idle
receive b 3 3 2 100 = discarded NoSci
step = idle
rest = 0 idle
refill
rest = 0 idle
receive-plain 9217 = discarded Oversize
submit set-replay on 0 = 1
rest = 4 idle
rx-drop 9
rest = 0 idle
rest = 0 idle
protect 62 = NoEncodingSa
receive 9 3 1 1 14 broken = discarded NoSci
step = idle
rest = 0 idle
numbers 9 2 = none
protect 62 = NoEncodingSa
rest = 0 idle
fail never
power-loss half
open
numbers 9 2 = none
receive-plain 13 = discarded Runt
next 2 = none

story random 59
format 0200000000010001 16 16
open
rest = 0 idle
step = idle
submit tx-install 2 5 0 clear = 1
submit tx-install 3 1 1 50 = 2
submit tx-install 3 3 1 clear = 3
fail never
close
open
step = idle
step = idle
protect 9184 = NoEncodingSa
rx-install 9 3 1 70 30 = refused NoChannel
numbers 9 2 = none
step = idle
stopped = no
next 2 = none
receive-plain 9217 = discarded Oversize
refill
settings = Strict on 0 Explicit none 0
step = idle
submit tx-use 1 = 1
protect 62 = NoEncodingSa
rest = 1 idle
step = idle
receive-plain 13 = discarded Runt
settings = Strict on 0 Explicit none 0
settings = Strict on 0 Explicit none 0
numbers 9 2 = none
next 1 = none
step = idle
submit tx-use 3 = 2
fail 0 on
next 2 = none
stopped = no
stopped = no
step = done 2 refused SlotEmpty
receive-plain 13 = discarded Runt
receive 9 5 0 1 14 = discarded NoSci
rest = 0 idle
receive-plain 9217 = discarded Oversize
step = idle
receive 9 2 3 1 62 = discarded NoSci
step = idle
submit tx-install 1 1 1 50 = 3
numbers b 1 = none
settings = Strict on 0 Explicit none 0
receive b 3 0 1 14 broken = discarded NoSci
fail 7 filled
step = worked
receive 9 1 3 1 62 = discarded NoSci
rx-add 9 = Busy
protect 9184 = NoEncodingSa
next 2 = none
receive 9 1 3 2 100 broken = discarded NoSci
numbers b 1 = none
protect 14 = NoEncodingSa
receive b 1 0 3 62 = discarded NoSci
submit rx-add 9 = 4
step = worked
calls = 786
step = worked
receive 9 3 0 2 62 = discarded NoSci
rest = 4 Disk
receive 9 2 1 1 62 clear = Stopped
settings = Strict on 0 Explicit none 0
receive 9 4 0 1 62 = Stopped
fail never
close
open
submit rx-add 9 = 1
protect 14 = NoEncodingSa
fail never
power-loss gate
open
protect 9193 = TooLong
rx-drop 9
numbers b 3 = none
calls = 534
step = idle
rest = 0 idle
protect 9184 = NoEncodingSa
calls = 0
stopped = no
protect 9193 = TooLong
calls = 0
receive 9 5 1 3 62 = discarded NoSci
submit rx-install b 2 1 70 = 1
fail never
power-loss gate
open
fail never
power-loss last
open
submit tx-install 1 2 4294967293 = 1
submit rx-install b 1 4 1 = 2
calls = 526
step = done 1 refused SlotTaken
step = done 2 refused NoChannel
next 2 = none
refill
tx-use 3 = refused SlotEmpty
submit set-sci-mode end-station = 3
protect 62 = NoEncodingSa
calls = 0
stopped = no
rx-install 9 0 1 4294967293 = Busy
settings = Strict on 0 Explicit none 0
protect 9193 = TooLong
next 3 = none
submit set-validate strict = 4
step = worked
protect 13 = Runt
stopped = no
receive 9 5 0 3 100 = discarded NoSci
rest = 7 idle
submit tx-remove 2 = 5
step = done 5 refused SlotEmpty
next 0 = none
refill
receive-plain 62 = discarded NoTag
rest = 0 idle
protect 62 = ForeignSource
step = idle
submit rx-add 9 = 6
rest = 4 idle
rest = 0 idle
calls = 12
rest = 0 idle
receive b 2 3 1 62 = discarded NoSci
receive b 4 2 1 100 clear broken = discarded NoSci
refill
submit rx-add 9 = 7
step = done 7 refused ChannelTaken
step = idle
rx-install b 0 4 1 = refused NoChannel
receive b 4 1 1 62 = discarded NoSci
step = idle
submit rx-install 9 0 3 4294967293 = 8
step = worked
fail never
power-loss durable
open
fail 0
submit tx-remove 1 = 1
step = Disk
tx-use 2 = Stopped
numbers b 0 = none
fail never
power-loss gate
open
next 1 = 17
fail never
power-loss last
open
refill
numbers 9 2 = none
fail 2
numbers 9 0 = none
step = idle
receive b 2 1 3 14 = discarded NoSci
stopped = no
fail 2 on
submit tx-use 1 = 1
receive b 4 3 1 62 broken = discarded NoSci
step = worked
receive 9 5 0 2 100 clear = discarded NotUsingSa
tx-use 3 = Busy
receive b 2 3 1 62 = discarded NoSci
refill = Busy
receive b 1 3 1 14 = discarded NoSci
tx-use 0 = Busy
receive 9 3 1 1 100 = discarded NotUsingSa
set-replay on 3 = Busy
numbers 9 2 = none
calls = 801
step = worked
step = Disk
fail never
power-loss half
open
step = idle
step = idle
fail never
power-loss zeros
open
receive b 5 2 1 62 = discarded NoSci
receive-plain 62 = discarded NoTag
step = idle
numbers b 1 = none
protect 9184 = ForeignSource
settings = Strict on 0 EndStation none 1
next 0 = none
receive-plain 13 = discarded Runt
calls = 534
next 2 = none
refill
numbers 9 2 = none
refill
step = idle
calls = 0
step = idle
refill
settings = Strict on 0 EndStation none 1

story random 60
format 0200000000010001 4 4
open
next 3 = none
submit tx-remove 0 = 1
fail 3 on
receive b 4 3 3 62 broken = discarded NoSci
rx-drop 9 = Busy
stopped = no
submit set-replay on 4294967295 = 2
fail 3
next 0 = none
numbers b 0 = none
numbers b 2 = none
calls = 524
protect 62 = NoEncodingSa
refill = Busy
step = done 1 refused SlotEmpty
set-replay on 3 = Busy
numbers b 1 = none
fail never
close
open
receive b 2 1 1 62 broken = discarded NoSci
stopped = no
set-replay off 3
refill
submit rx-install b 0 2 1 50 = 1
settings = Strict off 3 Explicit none 0
receive 9 4 2 1 14 broken = discarded NoSci
receive-plain 9216 = discarded NoTag
receive-plain 14 = discarded NoTag
submit tx-use 3 = 2
protect 9184 = NoEncodingSa
calls = 264
protect 9185 = TooLong
calls = 0
rest = 2 idle
settings = Strict off 3 Explicit none 0
refill
step = idle
set-validate check
calls = 4
settings = Check off 3 Explicit none 0
stopped = no
fail 4 on
numbers b 3 = none
receive b 4 1 1 62 broken = discarded NoSci
receive-plain 9217 = discarded Oversize
settings = Check off 3 Explicit none 0
step = idle
fail never
power-loss half
open
fail never
power-loss last
open
stopped = no
protect 62 = NoEncodingSa
rest = 0 idle
fail never
close
open
stopped = no
submit set-validate strict = 1
tx-use 3 = Busy
numbers 9 2 = none
calls = 786
receive 9 4 1 1 100 clear = delivered UnknownSci
stopped = no
receive-plain 9216 = delivered Untagged
tx-install 2 3 1 = Busy
calls = 0
refill = Busy
numbers b 3 = none
rest = 4 idle
submit tx-install 2 2 4294967293 50 = 2
receive b 2 0 1 62 = discarded NoSci
settings = Strict off 3 Explicit none 0
numbers 9 3 = none
receive b 3 1 2 100 = discarded NoSci
rx-install b 2 2 70 30 = Busy
step = worked
settings = Strict off 3 Explicit none 0
protect 9184 = NoEncodingSa
step = worked
settings = Strict off 3 Explicit none 0
calls = 6
rest = 2 idle
calls = 2
receive b 2 2 1 62 = discarded NoSci
calls = 0
receive b 4 2 1 62 clear = discarded NoSci
receive 9 3 1 1 100 = discarded NoSci
protect 9185 = TooLong
rest = 0 idle
fail 0 on
protect 9193 = TooLong
next 2 = 4294967293
refill
numbers 9 1 = none
step = idle
step = idle
next 2 = 4294967293
step = idle
submit rx-drop 9 = 3
protect 9193 = TooLong
settings = Strict off 3 Explicit none 0
step = done 3 refused NoChannel
receive 9 5 2 1 62 = discarded NoSci
rx-install 9 2 4 4294967293 50 = refused NoChannel
numbers 9 0 = none
settings = Strict off 3 Explicit none 0
receive-plain 14 = discarded NoTag
receive b 1 0 6 62 broken = discarded NoSci
receive 9 2 3 1 62 = discarded NoSci
step = idle
stopped = no
receive b 2 1 1 14 = discarded NoSci
receive-plain 9217 = discarded Oversize
refill
receive b 5 1 1 62 clear = discarded NoSci
step = idle
stopped = no
next 2 = 4294967293
step = idle
protect 14 = NoEncodingSa
fail never
power-loss half
open
protect 9184 = NoEncodingSa
rest = 0 idle
stopped = no
stopped = no
stopped = no
receive b 1 3 6 62 = discarded NoSci
protect 13 = Runt
rest = 0 idle
receive-plain 62 = discarded NoTag
receive-plain 9216 = discarded NoTag
fail never
power-loss last
open
protect 14 = NoEncodingSa
numbers b 3 = none
receive b 1 2 6 14 = discarded NoSci
refill
refill
settings = Strict off 3 Explicit none 0
refill
step = idle
receive-plain 9216 = discarded NoTag
stopped = no
receive-plain 14 = discarded NoTag
protect 62 = NoEncodingSa
receive b 5 3 6 100 = discarded NoSci
calls = 528
rest = 0 idle
receive-plain 0 = discarded Runt
refill
step = idle
rx-install 9 2 4 1 = refused NoChannel
receive-plain 9217 = discarded Oversize
refill
fail never
power-loss gate
open
protect 62 = NoEncodingSa
calls = 264
receive b 3 0 1 62 clear = discarded NoSci
step = idle
set-sci-mode end-station
calls = 4
fail never
close
open
refill
calls = 265
receive-plain 9216 = discarded NoTag
stopped = no
rx-add b
receive 9 3 3 3 14 clear broken = discarded NoSci
tx-remove 0 = refused SlotEmpty
fail never
power-loss ones
open
settings = Strict off 3 EndStation none 1
refill
protect 14 = ForeignSource
protect 62 = ForeignSource
protect 9193 = TooLong
step = idle
submit tx-install 2 2 1 clear = 1
protect 62 = ForeignSource
receive b 3 3 1 14 clear broken = discarded NotUsingSa
receive-plain 9216 = discarded NoTag
refill = Busy
rest = 1 idle
step = idle
receive 9 2 0 2 62 = discarded NoSci
step = idle
receive b 5 0 1 62 clear = discarded NotUsingSa
step = idle
fail never
close
open

story random 61
format 0200000000010001 2 2
open
settings = Strict on 0 Explicit none 0
rest = 0 idle
receive 9 5 2 6 14 = discarded NoSci
next 2 = none
calls = 524
fail 3 filled
calls = 0
receive b 5 3 6 62 = discarded NoSci
protect 9184 = NoEncodingSa
numbers 9 1 = none
receive b 4 0 1 62 = discarded NoSci
receive b 4 2 6 62 = discarded NoSci
next 3 = none
step = idle
numbers b 3 = none
receive 9 1 1 1 62 = discarded NoSci
receive-plain 62 = discarded NoTag
refill
next 1 = none
step = idle
step = idle
next 1 = none
rest = 0 idle
fail never
close
open
refill
settings = Strict on 0 Explicit none 0
receive b 5 3 1 62 = discarded NoSci
numbers 9 1 = none
protect 62 = NoEncodingSa
submit rx-add b = 1
receive 9 4 1 1 100 clear = discarded NoSci
receive 9 1 2 1 14 = discarded NoSci
rx-install b 2 5 0 = Busy
refill = Busy
settings = Strict on 0 Explicit none 0
receive-plain 62 = discarded NoTag
numbers b 3 = none
settings = Strict on 0 Explicit none 0
calls = 260
calls = 0
calls = 0
submit rx-drop 200000000010001 = 2
submit set-validate check = 3
receive b 5 2 1 62 broken = discarded NoSci
tx-use 0 = Busy
protect 9184 = NoEncodingSa
receive-plain 9216 = discarded NoTag
next 3 = none
rx-install 9 3 3 1 = Busy
stopped = no
tx-install 2 1 1 clear = Busy
step = worked
numbers 9 2 = none
tx-remove 0 = Busy
refill = Busy
calls = 1
refill = Busy
receive 9 3 3 1 62 = discarded NoSci
receive b 3 1 2 62 clear = discarded NoSci
numbers b 0 = none
receive-plain 14 = discarded NoTag
step = worked
refill = Busy
step = worked
fail never
power-loss durable
open
rest = 0 idle
set-replay on 3
receive b 1 1 3 62 clear = discarded NoSci
stopped = no
protect 13 = Runt
receive 9 3 0 1 100 = discarded NoSci
step = idle
refill
refill
submit set-sci-mode implicit = 1
next 1 = none
calls = 266
set-sci-mode implicit = Busy
settings = Strict on 3 Explicit none 0
stopped = no
next 2 = none
calls = 0
stopped = no
fail 2 filled
step = worked
step = worked
step = Disk
receive-plain 9217 = Stopped
receive-plain 14 = Stopped
fail never
power-loss zeros
open
step = idle
stopped = no
receive-plain 13 = discarded Runt
refill
protect 62 = NoEncodingSa
protect 14 = NoEncodingSa
stopped = no
receive-plain 0 = discarded Runt
tx-install 0 4 70
step = idle
step = idle
fail never
power-loss last
open
rest = 0 idle
rest = 0 idle
calls = 530
receive-plain 9217 = discarded Oversize
receive-plain 13 = discarded Runt
protect 62 = NoEncodingSa
settings = Strict on 3 Explicit none 0
next 2 = none
rest = 0 idle
step = idle
submit rx-install 200000000010001 0 5 1 7 = 1
settings = Strict on 3 Explicit none 0
step = done 1 refused OffsetChoice
protect 9185 = TooLong
refill
step = idle
receive-plain 9217 = discarded Oversize
fail never
power-loss durable
open
submit set-replay on 4294967295 = 1
step = worked
step = worked
protect 9184 = NoEncodingSa
settings = Strict on 3 Explicit none 0
stopped = no
protect 13 = Runt
step = worked
settings = Strict on 3 Explicit none 0
protect 9193 = TooLong
fail 1 on
receive b 1 1 6 62 clear = discarded NoSci
step = done 1 ok
stopped = no
calls = 266
stopped = no
numbers 9 0 = none
receive b 5 3 1 62 = discarded NoSci
settings = Strict on 4294967295 Explicit none 0
numbers b 1 = none
refill
calls = 0
fail never
power-loss half
open
calls = 263
step = idle
step = idle
receive b 2 2 1 100 = discarded NoSci
step = idle
step = idle
step = idle
stopped = no
receive 9 3 1 1 14 = discarded NoSci
receive 9 2 1 1 100 = discarded NoSci
protect 62 = NoEncodingSa
receive b 1 0 1 14 = discarded NoSci
next 2 = none
step = idle
receive 9 1 1 1 62 = discarded NoSci
stopped = no
receive b 2 0 3 62 clear = discarded NoSci
fail 5 on
numbers b 0 = none
step = idle
refill
receive 9 5 1 1 62 = discarded NoSci
rx-remove b 2 = refused NoChannel
stopped = no
step = idle
protect 62 = NoEncodingSa
fail never
close
open
protect 62 = NoEncodingSa
protect 62 = NoEncodingSa
receive-plain 9216 = discarded NoTag
step = idle
refill
step = idle
step = idle
protect 9193 = TooLong
protect 14 = NoEncodingSa
fail never
power-loss last
open
step = idle
tx-remove 1 = refused SlotEmpty
rest = 0 idle
stopped = no
receive b 3 0 1 14 = discarded NoSci
receive 9 1 1 1 100 clear = discarded NoSci

story random 62
format 0200000000010001 2 2
open
numbers b 3 = none
step = idle
next 2 = none
calls = 524
step = idle
calls = 0
submit tx-install 0 1 70 50 = 1
calls = 0
step = worked
numbers b 3 = none
protect 62 = NoEncodingSa
settings = Strict on 0 Explicit none 0
calls = 1
rx-remove b 0 = Busy
step = worked
numbers 9 0 = none
rest = 2 idle
calls = 3
settings = Strict on 0 Explicit none 0
submit tx-use 1 = 2
tx-remove 3 = Busy
step = done 2 refused SlotEmpty
receive b 2 1 3 62 clear = discarded NoSci
rest = 0 idle
rx-install 200000000010001 1 3 1 7 = refused OffsetChoice
fail never
power-loss durable
open
protect 62 = NoEncodingSa
receive-plain 9217 = discarded Oversize
stopped = no
calls = 261
refill
stopped = no
step = idle
step = idle
protect 62 = NoEncodingSa
step = idle
step = idle
protect 62 = NoEncodingSa
refill
rest = 0 idle
next 3 = none
tx-remove 3 = refused SlotEmpty
next 1 = none
protect 62 = NoEncodingSa
receive 9 5 3 2 62 = discarded NoSci
refill
stopped = no
step = idle
protect 62 = NoEncodingSa
protect 62 = NoEncodingSa
submit rx-remove b 3 = 1
calls = 0
rest = 1 idle
numbers 9 3 = none
numbers 9 0 = none
numbers b 3 = none
settings = Strict on 0 Explicit none 0
step = idle
rest = 0 idle
next 2 = none
receive-plain 14 = discarded NoTag
receive-plain 0 = discarded Runt
receive 9 3 2 1 100 = discarded NoSci
receive b 4 2 1 62 = discarded NoSci
receive-plain 9217 = discarded Oversize
receive-plain 14 = discarded NoTag
rest = 0 idle
step = idle
settings = Strict on 0 Explicit none 0
step = idle
numbers 9 2 = none
protect 14 = NoEncodingSa
receive b 2 3 1 14 = discarded NoSci
receive b 3 2 1 14 clear = discarded NoSci
protect 9184 = NoEncodingSa
refill
protect 13 = Runt
step = idle
step = idle
receive 9 2 2 1 14 = discarded NoSci
protect 62 = NoEncodingSa
receive 9 2 3 1 62 = discarded NoSci
receive-plain 9217 = discarded Oversize
receive-plain 9217 = discarded Oversize
step = idle
step = idle
calls = 0
rest = 0 idle
fail never
close
open
step = idle
step = idle
step = idle
stopped = no
submit tx-use 1 = 1
protect 9185 = TooLong
numbers 9 1 = none
calls = 261
set-replay on 3 = Busy
rx-install b 1 4 70 7 = Busy
step = done 1 refused SlotEmpty
step = idle
numbers b 2 = none
numbers 9 1 = none
rx-add 9
submit tx-install 3 1 1 7 = 2
protect 62 = NoEncodingSa
step = done 2 refused OffsetChoice
receive b 4 0 3 14 = discarded NoSci
next 0 = 72
fail never
power-loss half
open
settings = Strict on 0 Explicit none 1
calls = 266
tx-install 0 5 1 30 = refused SlotTaken
step = idle
step = idle
rx-add b
protect 9184 = NoEncodingSa
next 1 = none
step = idle
numbers b 0 = none
tx-use 1 = refused SlotEmpty
step = idle
rest = 0 idle
refill
fail never
power-loss gate
open
calls = 267
fail never
power-loss zeros
open
step = idle
numbers b 3 = none
set-sci-mode explicit
receive-plain 62 = discarded NoTag
step = idle
step = idle
numbers 9 2 = none
fail 4 on
fail never
power-loss durable
open
step = idle
fail never
power-loss durable
open
numbers b 1 = none
numbers 9 2 = none
rest = 0 idle
step = idle
calls = 795
step = idle
next 0 = 72
receive 9 1 1 1 62 = discarded NotUsingSa
step = idle
receive-plain 0 = discarded Runt
refill
protect 14 = NoEncodingSa
receive b 5 0 3 100 = discarded NotUsingSa
step = idle
tx-use 2 = refused SlotEmpty
protect 62 = NoEncodingSa
step = idle
stopped = no
submit set-sci-mode explicit = 1
numbers 9 3 = none
protect 14 = NoEncodingSa
settings = Strict on 0 Explicit none 2
next 1 = none
next 1 = none
calls = 0
step = worked
numbers 9 3 = none
rest = 3 idle
receive 9 3 1 6 62 broken = discarded NotUsingSa
protect 9193 = TooLong
set-sci-mode end-station
settings = Strict on 0 EndStation none 2
protect 14 = ForeignSource
next 0 = 72
step = idle
protect 9184 = ForeignSource
protect 62 = ForeignSource
settings = Strict on 0 EndStation none 2
step = idle
calls = 8
settings = Strict on 0 EndStation none 2
submit set-sci-mode end-station = 2
next 3 = none
stopped = no
step = worked
receive b 5 2 1 100 broken = discarded NotUsingSa
receive 9 2 3 1 62 = discarded NotUsingSa
fail never
power-loss last
open

story random 63
format 0200000000010001 16 16
open
stopped = no
step = idle
receive-plain 14 = discarded NoTag
stopped = no
receive b 3 2 1 100 = discarded NoSci
protect 13 = Runt
submit rx-install 200000000010001 0 1 0 50 = 1
refill = Busy
refill = Busy
set-replay on 0 = Busy
receive-plain 9216 = discarded NoTag
protect 9185 = TooLong
rest = 1 idle
protect 9184 = NoEncodingSa
receive b 1 2 3 100 = discarded NoSci
step = idle
next 1 = none
step = idle
receive 9 5 2 1 62 = discarded NoSci
fail never
power-loss last
open
submit tx-remove 2 = 1
receive-plain 0 = discarded Runt
settings = Strict on 0 Explicit none 0
tx-use 1 = Busy
stopped = no
stopped = no
rest = 1 idle
protect 9185 = TooLong
refill
receive-plain 14 = discarded NoTag
receive 9 1 1 6 62 = discarded NoSci
step = idle
stopped = no
protect 9185 = TooLong
fail never
power-loss zeros
open
stopped = no
fail 1 filled
settings = Strict on 0 Explicit none 0
settings = Strict on 0 Explicit none 0
set-sci-mode explicit = Disk
fail never
power-loss gate
open
next 1 = none
protect 13 = Runt
submit rx-install b 1 4 1 = 1
calls = 1306
rest = 1 idle
protect 62 = NoEncodingSa
settings = Strict on 0 Explicit none 0
receive-plain 14 = discarded NoTag
receive b 3 2 1 62 broken = discarded NoSci
fail never
close
open
rest = 0 idle
protect 14 = NoEncodingSa
submit rx-add 9 = 1
step = worked
step = worked
rest = 2 idle
set-replay off 4294967295
fail never
power-loss half
open
next 1 = none
protect 13 = Runt
step = idle
settings = Strict off 4294967295 Explicit none 1
numbers b 0 = none
step = idle
rest = 0 idle
rest = 0 idle
receive b 2 2 1 100 clear = discarded NoSci
settings = Strict off 4294967295 Explicit none 1
protect 13 = Runt
stopped = no
receive-plain 9217 = discarded Oversize
fail never
close
open
step = idle
next 3 = none
protect 9184 = NoEncodingSa
step = idle
submit rx-install 9 0 4 0 = 1
next 2 = none
refill = Busy
protect 62 = NoEncodingSa
submit rx-install 200000000010001 2 1 1 30 = 2
numbers b 3 = none
rest = 2 idle
step = idle
stopped = no
receive b 3 2 1 100 clear = discarded NoSci
receive 9 1 2 1 62 = discarded NotUsingSa
submit rx-drop b = 3
refill = Busy
receive-plain 62 = discarded NoTag
refill = Busy
rx-drop b = Busy
numbers 9 0 = none
rest = 1 idle
next 3 = none
calls = 792
calls = 0
settings = Strict off 4294967295 Explicit none 1
step = idle
settings = Strict off 4294967295 Explicit none 1
calls = 0
step = idle
fail 5 on
receive b 4 2 1 62 clear = discarded NoSci
receive 9 1 0 2 14 clear = discarded NotUsingSa
fail never
power-loss gate
open
refill
refill
fail never
close
open
protect 62 = NoEncodingSa
numbers 9 1 = none
fail never
close
open
protect 14 = NoEncodingSa
fail never
power-loss half
open
settings = Strict off 4294967295 Explicit none 1
submit rx-remove 9 2 = 1
rest = 1 idle
receive 9 2 1 1 62 broken = discarded NotUsingSa
protect 62 = NoEncodingSa
refill
refill
submit rx-install 9 0 2 4294967293 = 2
submit tx-remove 3 = 3
fail never
close
open
rest = 0 idle
receive-plain 62 = discarded NoTag
next 2 = none
fail 1 on
rest = 0 idle
protect 62 = NoEncodingSa
protect 9193 = TooLong
protect 9185 = TooLong
receive-plain 9216 = discarded NoTag
protect 13 = Runt
next 3 = none
numbers 9 1 = none
step = idle
submit tx-install 0 2 0 = 1
protect 62 = NoEncodingSa
refill = Busy
settings = Strict off 4294967295 Explicit none 1
submit rx-install 200000000010001 3 4 1 = 2
step = done 1 refused StartRange
refill = Busy
calls = 1310
calls = 0
protect 9193 = TooLong
stopped = no
submit tx-remove 3 = 3
step = done 2 refused NoChannel
tx-install 2 4 1 7 = Busy
step = done 3 refused SlotEmpty
fail 8 on
fail never
power-loss gate
open
rest = 0 idle
fail never
power-loss ones
open
protect 9184 = NoEncodingSa
receive b 2 2 1 14 = discarded NoSci
step = idle
protect 9193 = TooLong
tx-use 3 = refused SlotEmpty
receive 9 3 1 1 62 = discarded NotUsingSa
next 2 = none
protect 9185 = TooLong
step = idle
submit tx-install 3 2 70 clear = 1
step = worked
set-sci-mode end-station = Busy
numbers b 2 = none
settings = Strict off 4294967295 Explicit none 1
receive-plain 13 = discarded Runt
receive b 5 0 2 14 = discarded NoSci
protect 62 = NoEncodingSa
step = worked
step = worked
receive-plain 9216 = discarded NoTag
step = done 1 ok
step = idle
tx-use 2 = refused SlotEmpty

story random 64
format 0200000000010001 4 4
open
protect 9184 = NoEncodingSa
settings = Strict on 0 Explicit none 0
step = idle
stopped = no
protect 62 = NoEncodingSa
calls = 524
step = idle
protect 9184 = NoEncodingSa
step = idle
step = idle
numbers 9 3 = none
tx-install 0 3 4294967293 7 = refused OffsetChoice
next 0 = none
receive b 5 2 1 62 = discarded NoSci
stopped = no
settings = Strict on 0 Explicit none 0
protect 62 = NoEncodingSa
submit set-validate check = 1
protect 9193 = TooLong
rest = 4 idle
tx-use 3 = refused SlotEmpty
stopped = no
step = idle
settings = Check on 0 Explicit none 0
submit rx-install b 3 1 1 30 = 2
numbers 9 1 = none
calls = 4
receive 9 5 2 1 14 = discarded NoSci
calls = 0
calls = 0
settings = Check on 0 Explicit none 0
receive 9 2 2 1 62 = discarded NoSci
settings = Check on 0 Explicit none 0
numbers 9 2 = none
settings = Check on 0 Explicit none 0
refill = Busy
next 2 = none
next 3 = none
step = done 2 refused NoChannel
rx-add b
calls = 4
settings = Check on 0 Explicit none 1
protect 62 = NoEncodingSa
refill
step = idle
receive 9 2 0 1 14 broken = discarded NoSci
protect 9193 = TooLong
numbers b 1 = none
calls = 0
stopped = no
step = idle
fail never
power-loss gate
open
receive 9 2 0 1 62 clear = delivered UnknownSci
fail 7 filled
step = idle
protect 9184 = NoEncodingSa
receive b 4 3 1 100 broken = discarded NotUsingSa
receive-plain 13 = discarded Runt
rest = 0 idle
receive 9 2 1 1 14 = discarded NoSci
protect 9184 = NoEncodingSa
receive-plain 9217 = discarded Oversize
numbers b 1 = none
receive 9 2 1 3 62 = discarded NoSci
receive b 5 1 2 62 clear = delivered UnusedSa
receive 9 1 1 1 14 = discarded NoSci
calls = 262
protect 62 = NoEncodingSa
protect 14 = NoEncodingSa
tx-use 2 = refused SlotEmpty
next 1 = none
submit set-replay off 4294967295 = 1
step = worked
receive 9 1 0 2 62 clear = delivered UnknownSci
settings = Check on 0 Explicit none 1
protect 62 = NoEncodingSa
stopped = no
receive b 2 2 1 100 = discarded NotUsingSa
step = worked
set-validate check = Busy
receive-plain 9216 = delivered Untagged
receive 9 2 0 2 14 = discarded NoSci
numbers 9 0 = none
step = worked
next 3 = none
protect 13 = Runt
stopped = no
refill = Busy
numbers b 1 = none
step = done 1 ok
receive b 3 3 1 14 = discarded NotUsingSa
rest = 0 idle
refill
numbers b 3 = none
submit rx-add 9 = 2
fail 6 filled
next 0 = none
refill = Busy
step = worked
receive b 4 2 1 100 clear broken = delivered UnusedSa
submit rx-add b = 3
step = worked
settings = Check off 4294967295 Explicit none 1
calls = 6
receive b 1 1 1 14 = discarded NotUsingSa
settings = Check off 4294967295 Explicit none 1
rx-drop 9 = Busy
settings = Check off 4294967295 Explicit none 1
fail 5 filled
set-replay on 0 = Busy
fail 2 filled
numbers b 0 = none
receive b 2 0 6 62 = discarded NotUsingSa
calls = 0
stopped = no
step = worked
step = done 2 ok
rest = 1 idle
fail never
close
open
next 3 = none
receive 9 2 3 1 62 broken = discarded NotUsingSa
rest = 0 idle
settings = Check off 4294967295 Explicit none 2
receive-plain 13 = discarded Runt
fail 1 filled
receive 9 4 0 1 62 clear = delivered UnusedSa
rest = 0 idle
step = idle
numbers 9 1 = none
settings = Check off 4294967295 Explicit none 2
step = idle
rest = 0 idle
calls = 266
stopped = no
receive b 1 3 3 62 clear = delivered UnusedSa
numbers b 0 = none
protect 62 = NoEncodingSa
protect 62 = NoEncodingSa
stopped = no
rx-drop b = Disk
fail never
power-loss gate
open
settings = Check off 4294967295 Explicit none 2
receive b 3 2 1 62 = discarded NotUsingSa
settings = Check off 4294967295 Explicit none 2
receive 9 5 1 1 62 = discarded NotUsingSa
protect 62 = NoEncodingSa
next 2 = none
numbers b 1 = none
submit tx-install 0 3 4294967293 7 = 1
calls = 266
step = done 1 refused OffsetChoice
refill
submit tx-use 0 = 2
protect 13 = Runt
protect 62 = NoEncodingSa
refill = Busy
settings = Check off 4294967295 Explicit none 2
step = done 2 refused SlotEmpty
receive b 3 3 1 62 broken = discarded NotUsingSa
fail 0 filled
step = idle
receive b 2 0 1 62 = discarded NotUsingSa
refill
refill
stopped = no
step = idle
protect 62 = NoEncodingSa
fail 8 on
stopped = no
receive-plain 0 = discarded Runt
numbers b 0 = none
rest = 0 idle
numbers 9 1 = none
numbers b 3 = none
receive-plain 9216 = delivered Untagged
fail 3 filled
numbers b 1 = none
step = idle
protect 62 = NoEncodingSa
next 1 = none
settings = Check off 4294967295 Explicit none 2
submit tx-remove 0 = 3
step = done 3 refused SlotEmpty
receive b 1 0 6 100 = discarded NotUsingSa
rest = 0 idle
receive b 2 2 1 62 = discarded NotUsingSa
protect 62 = NoEncodingSa
numbers b 0 = none
refill
submit rx-remove b 2 = 4
fail 4 filled
protect 9185 = TooLong

story random 65
format 0200000000010001 16 16
open
settings = Strict on 0 Explicit none 0
receive 9 2 1 1 62 broken = discarded NoSci
tx-install 2 3 0 clear = refused StartRange
next 1 = none
fail never
power-loss gate
open
numbers 9 1 = none
step = idle
protect 9184 = NoEncodingSa
set-replay off 0
step = idle
receive b 1 1 6 100 broken = discarded NoSci
protect 9184 = NoEncodingSa
submit rx-add b = 1
receive-plain 14 = discarded NoTag
step = worked
numbers b 1 = none
fail never
power-loss half
open
step = idle
settings = Strict off 0 Explicit none 0
set-validate strict
receive b 3 0 2 62 broken = discarded NoSci
fail never
power-loss zeros
open
fail never
power-loss gate
open
step = idle
receive-plain 9217 = discarded Oversize
step = idle
rx-add 9
refill
step = idle
protect 13 = Runt
step = idle
step = idle
protect 62 = NoEncodingSa
settings = Strict off 0 Explicit none 1
numbers b 1 = none
settings = Strict off 0 Explicit none 1
receive 9 2 0 3 62 clear = discarded NotUsingSa
receive b 5 3 1 100 = discarded NoSci
stopped = no
protect 9184 = NoEncodingSa
calls = 1582
numbers b 0 = none
numbers b 3 = none
rest = 0 idle
protect 62 = NoEncodingSa
set-replay on 10
rx-drop b = refused NoChannel
receive 9 1 0 1 14 = discarded NotUsingSa
step = idle
protect 9193 = TooLong
settings = Strict on 10 Explicit none 1
submit set-sci-mode explicit = 1
stopped = no
fail never
power-loss last
open
receive 9 1 2 1 62 = discarded NotUsingSa
submit set-replay off 10 = 1
tx-install 1 4 1 = Busy
refill = Busy
step = worked
receive 9 5 3 3 14 = discarded NotUsingSa
settings = Strict on 10 Explicit none 1
step = worked
tx-use 3 = Busy
refill = Busy
receive-plain 9216 = discarded NoTag
protect 62 = NoEncodingSa
submit rx-add b = 2
step = worked
next 0 = none
settings = Strict on 10 Explicit none 1
protect 62 = NoEncodingSa
settings = Strict on 10 Explicit none 1
step = done 1 ok
refill = Busy
rx-add 200000000010001 = Busy
stopped = no
rest = 4 idle
step = idle
step = idle
refill
protect 9184 = NoEncodingSa
step = idle
step = idle
step = idle
rest = 0 idle
fail never
power-loss ones
open
submit set-validate strict = 1
step = worked
settings = Strict off 10 Explicit none 2
numbers b 2 = none
submit set-replay off 4294967295 = 2
protect 62 = NoEncodingSa
next 0 = none
fail never
power-loss durable
open
rest = 0 idle
receive-plain 13 = discarded Runt
stopped = no
receive 9 5 3 1 62 clear = discarded NotUsingSa
submit rx-add 200000000010001 = 1
next 3 = none
rest = 1 idle
submit rx-install b 2 4 70 = 2
rest = 4 idle
protect 62 = NoEncodingSa
settings = Strict off 10 Explicit none 2
protect 62 = NoEncodingSa
step = idle
calls = 813
receive b 4 2 75 14 = held back
protect 9185 = TooLong
protect 9185 = TooLong
stopped = no
stopped = no
receive b 4 2 70 62 clear = held back
calls = 0
numbers 9 1 = none
receive b 4 2 70 62 clear = held back
stopped = no
set-replay on 0
rest = 4 idle
receive 9 4 2 1 14 = discarded NotUsingSa
receive b 4 2 69 62 = discarded Late
step = idle
receive b 4 2 75 100 = delivered Ok
step = idle
receive-plain 0 = discarded Runt
receive b 4 2 76 62 = delivered Ok
protect 62 = NoEncodingSa
next 3 = none
submit tx-remove 3 = 3
receive b 4 2 77 14 = delivered Ok
fail never
power-loss gate
open
next 0 = none
step = idle
receive b 4 2 90 100 = discarded Late
calls = 277
step = idle
rest = 0 idle
fail never
power-loss half
open
refill
numbers b 0 = none
numbers 9 0 = none
calls = 269
receive b 4 2 91 62 clear = held back
receive-plain 13 = discarded Runt
settings = Strict on 0 Explicit none 2
step = worked
receive b 4 2 96 62 = held back
step = worked
refill
numbers b 0 = none
fail 3
settings = Strict on 0 Explicit none 2
rest = 0 idle
calls = 4
rest = 0 idle
calls = 0
receive-plain 9217 = discarded Oversize
submit rx-install b 1 2 1 = 1
step = worked
receive-plain 62 = discarded NoTag
receive b 4 2 91 62 = delivered Ok
submit tx-use 0 = 2
rest = 2 Disk
fail never
power-loss half
open
fail 4 on
numbers 9 0 = none
submit set-replay on 10 = 1
set-replay off 10 = Busy
stopped = no
step = worked
step = worked
step = worked
step = done 1 ok
protect 62 = NoEncodingSa
calls = 279
step = idle
receive b 4 2 106 62 = discarded Late
refill
next 2 = none
protect 62 = NoEncodingSa

story random 66
format 0200000000010001 16 16
open
settings = Strict on 0 Explicit none 0
receive b 2 0 1 62 broken = discarded NoSci
protect 62 = NoEncodingSa
fail 0 filled
step = idle
protect 9184 = NoEncodingSa
stopped = no
numbers 9 1 = none
receive b 2 3 6 62 clear = discarded NoSci
set-replay off 3 = Disk
fail never
power-loss last
open
step = idle
protect 62 = NoEncodingSa
receive-plain 0 = discarded Runt
rx-remove 9 2 = refused NoChannel
protect 62 = NoEncodingSa
step = idle
step = idle
step = idle
receive 9 2 3 1 14 broken = discarded NoSci
step = idle
step = idle
fail never
power-loss durable
open
fail never
power-loss gate
open
calls = 1305
next 2 = none
numbers b 2 = none
receive-plain 9217 = discarded Oversize
submit rx-drop 9 = 1
refill = Busy
fail 5 filled
refill = Busy
numbers 9 2 = none
protect 13 = Runt
calls = 0
stopped = no
refill = Busy
rest = 1 idle
step = idle
receive 9 2 3 1 62 broken = discarded NoSci
stopped = no
stopped = no
refill
step = idle
submit set-replay on 3 = 2
settings = Strict on 0 Explicit none 0
receive b 2 0 1 62 clear = discarded NoSci
submit rx-remove b 0 = 3
stopped = no
tx-use 2 = Busy
receive b 1 3 3 100 clear = discarded NoSci
set-replay on 4294967295 = Busy
fail never
power-loss last
open
next 0 = none
calls = 260
rest = 0 idle
rx-install 9 3 2 4294967293 = refused NoChannel
step = idle
step = idle
step = idle
stopped = no
protect 13 = Runt
protect 9185 = TooLong
protect 9185 = TooLong
step = idle
submit set-sci-mode end-station = 1
protect 62 = NoEncodingSa
step = worked
settings = Strict on 0 Explicit none 0
numbers b 2 = none
submit rx-install b 3 2 70 50 = 2
step = worked
next 1 = none
protect 9184 = NoEncodingSa
protect 62 = NoEncodingSa
submit tx-use 1 = 3
refill = Busy
step = worked
rest = 3 idle
settings = Strict on 0 EndStation none 0
step = idle
protect 9193 = TooLong
step = idle
receive-plain 0 = discarded Runt
fail never
close
open
fail never
close
open
refill
submit rx-install b 2 1 4294967293 50 = 1
rx-install 9 3 1 1 = Busy
next 2 = none
fail never
close
open
numbers b 3 = none
numbers 9 3 = none
step = idle
fail never
close
open
next 0 = none
step = idle
step = idle
refill
calls = 1048
step = idle
receive 9 2 2 1 62 = discarded NoSci
stopped = no
stopped = no
receive-plain 9217 = discarded Oversize
step = idle
submit rx-install b 3 5 4294967293 = 1
protect 13 = Runt
rx-install b 2 1 1 7 = Busy
next 0 = none
rest = 1 idle
receive b 4 1 1 100 = discarded NoSci
step = idle
numbers b 1 = none
step = idle
step = idle
settings = Strict on 0 EndStation none 0
step = idle
receive-plain 14 = discarded NoTag
protect 62 = ForeignSource
refill
rest = 0 idle
refill
submit set-validate strict = 2
numbers 9 1 = none
rest = 4 idle
submit set-replay off 10 = 3
numbers 9 3 = none
calls = 4
step = worked
submit tx-install 2 4 0 = 4
protect 9193 = TooLong
step = worked
rest = 3 idle
step = idle
refill
settings = Strict off 10 EndStation none 0
calls = 4
calls = 0
step = idle
rest = 0 idle
settings = Strict off 10 EndStation none 0
step = idle
receive-plain 9217 = discarded Oversize
protect 62 = ForeignSource
fail never
power-loss gate
open
settings = Strict off 10 EndStation none 0
settings = Strict off 10 EndStation none 0
fail never
power-loss gate
open
refill
protect 13 = Runt
stopped = no
settings = Strict off 10 EndStation none 0
numbers b 1 = none
fail never
power-loss ones
open
step = idle
protect 62 = ForeignSource
receive-plain 62 = discarded NoTag
calls = 789
refill
submit rx-add 9 = 1
rest = 4 idle
receive 9 1 3 3 62 = discarded NotUsingSa
step = idle
next 2 = none
step = idle
rx-install 9 3 3 1
calls = 8
receive-plain 9216 = discarded NoTag
step = idle
step = idle
stopped = no
set-replay on 3
settings = Strict on 3 EndStation none 1
receive b 1 0 1 14 clear = discarded NoSci
next 1 = none
fail 8 filled
step = idle
settings = Strict on 3 EndStation none 1
calls = 4
next 0 = none
protect 9193 = TooLong

story random 67
format 0200000000010001 16 16
open
numbers 9 2 = none
numbers b 1 = none
protect 13 = Runt
rest = 0 idle
protect 13 = Runt
calls = 524
settings = Strict on 0 Explicit none 0
submit tx-use 3 = 1
step = done 1 refused SlotEmpty
step = idle
stopped = no
tx-use 1 = refused SlotEmpty
step = idle
step = idle
step = idle
protect 62 = NoEncodingSa
submit set-validate check = 2
calls = 0
protect 13 = Runt
refill = Busy
receive 9 4 3 1 62 = discarded NoSci
step = worked
step = worked
submit rx-install 200000000010001 0 4 0 = 3
set-replay off 0 = Busy
calls = 2
step = worked
calls = 1
rest = 2 idle
protect 9184 = NoEncodingSa
protect 13 = Runt
receive-plain 13 = discarded Runt
protect 13 = Runt
receive b 5 3 1 100 = discarded NoSci
step = idle
receive-plain 14 = delivered Untagged
receive-plain 14 = delivered Untagged
calls = 1
rest = 0 idle
step = idle
calls = 0
settings = Check on 0 Explicit none 0
step = idle
rx-remove 200000000010001 1 = refused NoChannel
protect 62 = NoEncodingSa
next 2 = none
numbers 9 3 = none
step = idle
numbers 9 2 = none
refill
receive-plain 9216 = delivered Untagged
step = idle
receive 9 5 0 1 100 = discarded NoSci
protect 9185 = TooLong
settings = Check on 0 Explicit none 0
receive b 2 2 1 62 = discarded NoSci
next 0 = none
receive b 5 1 3 62 = discarded NoSci
rest = 0 idle
numbers 9 3 = none
rx-install 9 1 3 4294967293 = refused NoChannel
receive 9 1 1 1 14 = discarded NoSci
receive-plain 62 = delivered Untagged
refill
receive 9 2 3 1 14 = discarded NoSci
numbers 9 3 = none
rest = 0 idle
step = idle
calls = 0
protect 9184 = NoEncodingSa
protect 9184 = NoEncodingSa
stopped = no
fail 8
rest = 0 idle
protect 62 = NoEncodingSa
fail 8
settings = Check on 0 Explicit none 0
receive b 3 2 1 14 = discarded NoSci
step = idle
receive 9 2 0 1 62 clear = delivered UnknownSci
receive-plain 13 = discarded Runt
step = idle
receive 9 2 0 6 62 clear = delivered UnknownSci
protect 62 = NoEncodingSa
receive-plain 9216 = delivered Untagged
next 0 = none
protect 9185 = TooLong
step = idle
next 2 = none
rest = 0 idle
refill
step = idle
set-sci-mode implicit
receive 9 2 1 1 62 = discarded NoSci
fail never
power-loss zeros
open
numbers 9 3 = none
rx-add b
refill
receive b 4 1 1 14 = discarded NotUsingSa
numbers 9 1 = none
step = idle
tx-install 3 3 70 7 = refused OffsetChoice
numbers 9 0 = none
rx-remove 9 0 = refused NoChannel
next 2 = none
calls = 270
step = idle
protect 62 = NoEncodingSa
stopped = no
refill
receive 9 2 0 1 100 clear = delivered UnknownSci
stopped = no
step = idle
refill
receive 9 4 3 2 14 = discarded NoSci
next 1 = none
calls = 0
receive 9 5 3 2 14 = discarded NoSci
receive-plain 9217 = discarded Oversize
settings = Check on 0 Implicit none 1
receive-plain 0 = discarded Runt
submit set-replay on 10 = 1
protect 9193 = TooLong
settings = Check on 0 Implicit none 1
step = worked
numbers 9 1 = none
step = worked
stopped = no
step = worked
fail 0
submit rx-add 9 = 2
submit set-replay on 10 = 3
stopped = no
step = Disk
fail never
close
open
rest = 0 idle
step = idle
refill
receive 9 3 2 1 100 = discarded NoSci
rx-install 9 0 3 0 50 = refused StartRange
step = idle
step = idle
stopped = no
refill
next 2 = none
settings = Check on 10 Implicit none 1
next 1 = none
refill
protect 62 = NoEncodingSa
rest = 0 idle
step = idle
receive 9 4 3 1 100 = discarded NoSci
receive 9 3 3 1 100 = discarded NoSci
fail never
power-loss gate
open
receive-plain 9216 = delivered Untagged
step = idle
rest = 0 idle
step = idle
step = idle
step = idle
tx-remove 2 = refused SlotEmpty
protect 13 = Runt
settings = Check on 10 Implicit none 1
calls = 532
stopped = no
rest = 0 idle
stopped = no
receive-plain 13 = discarded Runt
protect 13 = Runt
submit rx-remove 9 1 = 1
step = done 1 refused NoChannel
rx-add 9
receive 9 2 0 1 62 = discarded NotUsingSa
protect 9185 = NoEncodingSa
next 0 = none
receive 9 2 3 1 14 clear broken = delivered UnusedSa
receive-plain 0 = discarded Runt
calls = 4
step = idle
protect 62 = NoEncodingSa
submit set-sci-mode explicit = 2
fail never
power-loss gate
open
receive b 1 0 3 14 = discarded NotUsingSa

story random 68
format 0200000000010001 1 1
open
step = idle
calls = 524
settings = Strict on 0 Explicit none 0
receive-plain 62 = discarded NoTag
refill
stopped = no
stopped = no
submit set-validate check = 1
numbers 9 3 = none
numbers 9 1 = none
rest = 4 idle
step = idle
next 0 = none
protect 62 = NoEncodingSa
submit rx-add 9 = 2
receive-plain 62 = delivered Untagged
fail 4
settings = Check on 0 Explicit none 0
settings = Check on 0 Explicit none 0
receive b 2 3 1 62 = discarded NoSci
set-validate check = Busy
protect 62 = NoEncodingSa
protect 62 = NoEncodingSa
next 1 = none
receive 9 1 1 1 100 broken = discarded NoSci
fail never
power-loss ones
open
submit tx-use 2 = 1
protect 9184 = NoEncodingSa
receive b 2 0 3 62 = discarded NoSci
stopped = no
receive 9 2 3 6 100 clear = delivered UnknownSci
numbers b 0 = none
step = done 1 refused SlotEmpty
submit tx-install 2 5 1 30 = 2
step = worked
receive-plain 0 = discarded Runt
receive-plain 9217 = discarded Oversize
rest = 3 idle
submit rx-remove b 2 = 3
refill = Busy
next 3 = none
tx-remove 3 = Busy
step = done 3 refused NoChannel
next 3 = none
rest = 0 idle
settings = Check on 0 Explicit none 0
receive-plain 14 = delivered Untagged
numbers 9 3 = none
receive-plain 13 = discarded Runt
step = idle
numbers b 1 = none
calls = 269
numbers 9 0 = none
protect 9185 = TooLong
calls = 0
settings = Check on 0 Explicit none 0
receive-plain 62 = delivered Untagged
protect 62 = NoEncodingSa
stopped = no
receive 9 2 2 1 62 clear = delivered UnknownSci
tx-use 2
next 3 = none
protect 62 = 1
refill
rx-install b 1 4 4294967293 7 = refused OffsetChoice
receive-plain 62 = delivered Untagged
next 3 = none
protect 14 = 2
step = worked
submit rx-remove b 2 = 4
step = worked
refill = Busy
rest = 3 idle
rest = 0 idle
step = idle
refill
step = idle
numbers 9 1 = none
next 3 = none
protect 9185 = TooLong
refill
receive 9 5 1 2 62 broken = discarded NoSci
protect 62 = 3
calls = 12
rest = 4 idle
protect 9184 = 4
fail never
power-loss ones
open
next 0 = none
tx-use 0 = refused SlotEmpty
fail never
power-loss gate
open
calls = 536
submit rx-remove b 0 = 1
stopped = no
calls = 0
step = worked
receive 9 5 1 1 62 clear = delivered UnknownSci
receive 9 4 3 2 62 clear = delivered UnknownSci
receive-plain 0 = discarded Runt
set-replay off 10 = Busy
refill = Busy
refill = Busy
tx-use 3 = Busy
step = worked
fail 4 on
step = worked
receive b 1 0 6 100 = discarded NoSci
rest = 2 idle
settings = Check on 0 Explicit 2 0
tx-use 3 = refused SlotEmpty
rest = 0 idle
refill
step = idle
next 2 = 5
protect 9184 = 5
settings = Check on 0 Explicit 2 0
step = worked
protect 9193 = TooLong
fail 8 on
receive 9 1 3 1 62 clear = delivered UnknownSci
rx-install 9 1 1 1 = refused NoChannel
tx-use 1 = refused SlotEmpty
settings = Check on 0 Explicit 2 0
receive-plain 14 = delivered Untagged
protect 9184 = NoNumber
receive 9 1 3 1 100 clear = delivered UnknownSci
protect 62 = NoNumber
step = worked
step = worked
step = reserved
numbers 9 0 = none
protect 9184 = 6
receive 9 5 2 1 62 = discarded NoSci
receive b 2 1 1 100 = discarded NoSci
step = worked
fail never
power-loss durable
open
rx-install 200000000010001 0 2 1 50 = refused NoChannel
step = worked
receive-plain 0 = discarded Runt
next 2 = 7
receive-plain 9217 = discarded Oversize
refill
fail 2 on
numbers b 0 = none
receive-plain 13 = discarded Runt
calls = 281
refill
step = idle
stopped = no
step = idle
next 2 = 7
receive-plain 13 = discarded Runt
submit set-sci-mode explicit = 1
numbers 9 2 = none
receive b 2 0 1 14 = discarded NoSci
submit rx-add 9 = 2
step = worked
submit tx-install 1 3 1 = 3
settings = Check on 0 Explicit 2 0
protect 62 = 7
step = worked
numbers 9 2 = none
receive b 5 0 1 62 clear = delivered UnknownSci
step = Disk
fail never
power-loss gate
open
tx-use 1 = refused SlotEmpty
protect 9184 = NoNumber
calls = 272
receive-plain 13 = discarded Runt
fail 7 filled
refill
receive 9 2 3 1 100 = discarded NoSci
fail 4
step = idle
next 1 = none
submit rx-install 9 0 3 0 30 = 1
tx-install 0 4 0 = Busy
receive b 1 1 1 14 broken = discarded NoSci
fail never
power-loss zeros
open
step = worked
receive b 1 2 3 100 = discarded NoSci
receive 9 5 1 3 62 clear = delivered UnknownSci
step = worked
fail never
power-loss ones
open
numbers b 3 = none

story random 69
format 0200000000010001 16 16
open
rest = 0 idle
tx-install 3 3 0 clear = refused StartRange
rest = 0 idle
protect 62 = NoEncodingSa
receive 9 3 2 3 62 clear = discarded NoSci
protect 14 = NoEncodingSa
rest = 0 idle
settings = Strict on 0 Explicit none 0
stopped = no
stopped = no
protect 62 = NoEncodingSa
refill
stopped = no
submit tx-remove 2 = 1
protect 9185 = TooLong
fail never
power-loss half
open
submit tx-remove 3 = 1
settings = Strict on 0 Explicit none 0
set-validate check = Busy
protect 62 = NoEncodingSa
protect 62 = NoEncodingSa
rx-install b 1 3 0 = Busy
stopped = no
receive b 1 2 1 62 clear = discarded NoSci
settings = Strict on 0 Explicit none 0
submit rx-drop b = 2
calls = 784
calls = 0
step = done 1 refused SlotEmpty
numbers b 2 = none
step = done 2 refused NoChannel
receive 9 2 0 6 62 = discarded NoSci
settings = Strict on 0 Explicit none 0
next 0 = none
numbers b 2 = none
numbers b 0 = none
settings = Strict on 0 Explicit none 0
step = idle
step = idle
calls = 0
receive b 1 0 1 62 broken = discarded NoSci
submit set-replay on 0 = 3
refill = Busy
step = worked
stopped = no
submit tx-use 3 = 4
step = worked
receive-plain 9217 = discarded Oversize
refill = Busy
fail never
power-loss gate
open
fail never
power-loss half
open
settings = Strict on 0 Explicit none 0
protect 9193 = TooLong
refill
refill
step = idle
rx-remove 9 1 = refused NoChannel
protect 9185 = TooLong
protect 14 = NoEncodingSa
protect 13 = Runt
step = idle
rest = 0 idle
receive 9 5 2 1 62 clear = discarded NoSci
receive-plain 13 = discarded Runt
next 3 = none
receive b 5 3 3 62 = discarded NoSci
calls = 522
step = idle
refill
receive-plain 13 = discarded Runt
settings = Strict on 0 Explicit none 0
rx-drop 9 = refused NoChannel
rx-remove 9 2 = refused NoChannel
submit set-validate strict = 1
numbers b 1 = none
step = worked
protect 9185 = TooLong
numbers 9 0 = none
stopped = no
next 1 = none
set-sci-mode end-station = Busy
step = worked
rest = 2 idle
refill
fail never
power-loss ones
open
stopped = no
submit tx-remove 2 = 1
step = done 1 refused SlotEmpty
receive 9 2 2 1 100 = discarded NoSci
set-validate strict
submit rx-install 200000000010001 2 4 4294967293 50 = 2
settings = Strict on 0 Explicit none 0
receive 9 3 3 1 62 = discarded NoSci
receive b 4 3 6 14 clear = discarded NoSci
stopped = no
protect 14 = NoEncodingSa
protect 9193 = TooLong
step = done 2 refused NoChannel
step = idle
stopped = no
protect 9185 = TooLong
calls = 269
receive 9 3 2 1 14 = discarded NoSci
submit tx-install 3 3 1 7 = 3
step = done 3 refused OffsetChoice
stopped = no
rx-add b
protect 14 = NoEncodingSa
step = idle
step = idle
step = idle
numbers 9 1 = none
refill
receive b 3 3 6 62 = discarded NotUsingSa
receive b 4 1 6 62 broken = discarded NotUsingSa
stopped = no
receive b 5 1 1 62 broken = discarded NotUsingSa
stopped = no
step = idle
rx-install b 2 5 1
step = idle
receive 9 2 0 1 62 clear = discarded NoSci
step = idle
tx-use 0 = refused SlotEmpty
step = idle
settings = Strict on 0 Explicit none 1
numbers 9 1 = none
receive-plain 62 = discarded NoTag
calls = 8
fail 4 on
step = idle
step = idle
calls = 0
rest = 0 idle
numbers b 0 = none
fail never
power-loss last
open
receive b 2 0 3 62 = discarded NotUsingSa
step = idle
fail 7
next 2 = none
receive-plain 14 = discarded NoTag
refill
step = idle
step = idle
stopped = no
receive-plain 13 = discarded Runt
receive b 5 2 1 62 = held back
settings = Strict on 0 Explicit none 1
receive b 5 2 1 62 = held back
step = worked
stopped = no
refill
receive 9 3 0 2 62 = discarded NoSci
protect 62 = NoEncodingSa
settings = Strict on 0 Explicit none 1
next 1 = none
set-validate strict = Disk
next 2 = none
step = Stopped
receive-plain 9217 = Stopped
fail never
power-loss last
open
tx-use 1 = refused SlotEmpty
step = idle
protect 13 = Runt
rest = 0 idle
stopped = no
fail never
power-loss zeros
open
calls = 804
calls = 0
next 3 = none
refill
receive-plain 62 = discarded NoTag
receive-plain 9216 = discarded NoTag
stopped = no
stopped = no
numbers b 3 = none
calls = 0
submit tx-use 2 = 1
protect 62 = NoEncodingSa
step = done 1 refused SlotEmpty
next 0 = none
tx-use 1 = refused SlotEmpty
protect 14 = NoEncodingSa

story random 70
format 0200000000010001 1 1
open
stopped = no
rest = 0 idle
step = idle
step = idle
fail never
power-loss gate
open
protect 62 = NoEncodingSa
receive b 5 0 1 100 = discarded NoSci
stopped = no
settings = Strict on 0 Explicit none 0
rx-add 9
receive 9 5 3 1 14 clear = discarded NotUsingSa
rest = 0 idle
numbers b 2 = none
protect 14 = NoEncodingSa
submit tx-install 3 4 70 = 1
calls = 788
calls = 0
step = worked
receive 9 3 0 6 100 = discarded NotUsingSa
fail never
power-loss ones
open
stopped = no
protect 62 = NoEncodingSa
fail never
power-loss gate
open
refill
tx-remove 0 = refused SlotEmpty
stopped = no
next 1 = none
rest = 0 idle
step = idle
numbers 9 2 = none
refill
protect 62 = NoEncodingSa
submit rx-remove 200000000010001 0 = 1
protect 14 = NoEncodingSa
protect 9193 = TooLong
receive 9 2 0 1 62 clear = discarded NotUsingSa
step = done 1 refused NoChannel
protect 14 = NoEncodingSa
fail never
close
open
receive b 1 1 1 62 = discarded NoSci
stopped = no
fail never
power-loss half
open
next 0 = none
numbers b 2 = none
protect 62 = NoEncodingSa
refill
protect 9184 = NoEncodingSa
step = idle
step = idle
fail never
power-loss durable
open
submit rx-add b = 1
rest = 4 idle
numbers 9 3 = none
protect 13 = Runt
receive-plain 13 = discarded Runt
protect 9184 = NoEncodingSa
stopped = no
receive-plain 13 = discarded Runt
numbers 9 1 = none
refill
rest = 0 idle
numbers b 0 = none
rest = 0 idle
receive-plain 0 = discarded Runt
calls = 1310
receive 9 2 2 1 62 = discarded NotUsingSa
protect 9193 = TooLong
calls = 0
next 2 = none
rx-drop 9
calls = 4
stopped = no
receive b 5 3 1 62 = discarded NotUsingSa
settings = Strict on 0 Explicit none 1
numbers 9 2 = none
rx-install 9 0 2 1 30 = refused NoChannel
receive 9 5 2 2 100 = discarded NoSci
settings = Strict on 0 Explicit none 1
step = idle
step = idle
rest = 0 idle
submit rx-drop b = 2
rx-install b 2 3 1 7 = Busy
step = worked
refill = Busy
receive-plain 0 = discarded Runt
submit set-replay on 0 = 3
settings = Strict on 0 Explicit none 1
settings = Strict on 0 Explicit none 1
step = worked
step = worked
fail never
power-loss ones
open
step = idle
numbers b 2 = none
step = idle
submit set-sci-mode explicit = 1
step = worked
receive b 2 0 6 100 = discarded NotUsingSa
calls = 267
receive-plain 9217 = discarded Oversize
submit rx-install 200000000010001 3 3 0 = 2
protect 9185 = TooLong
tx-remove 3 = Busy
receive-plain 0 = discarded Runt
numbers 9 3 = none
rx-install b 2 5 70 50 = Busy
fail 7
fail never
power-loss ones
open
protect 13 = Runt
calls = 263
numbers b 1 = none
fail never
power-loss ones
open
step = idle
step = idle
receive 9 3 0 1 62 = discarded NoSci
settings = Strict on 0 Explicit none 1
submit rx-add b = 1
step = done 1 refused ChannelTaken
fail never
power-loss half
open
step = idle
next 2 = none
tx-use 1 = refused SlotEmpty
submit rx-remove 9 3 = 1
step = done 1 refused NoChannel
refill
protect 9185 = TooLong
stopped = no
receive 9 1 0 1 14 = discarded NoSci
step = idle
fail 7 filled
set-validate check
step = idle
protect 13 = Runt
protect 9185 = TooLong
settings = Check on 0 Explicit none 1
step = idle
stopped = no
calls = 530
submit set-validate strict = 2
receive b 2 1 2 62 = discarded NotUsingSa
step = worked
receive 9 1 2 6 100 = discarded NoSci
rest = 2 Disk
receive-plain 9217 = Stopped
receive b 1 0 2 100 broken = Stopped
receive 9 3 3 1 62 = Stopped
receive b 4 2 6 14 = Stopped
set-replay off 0 = Stopped
step = Stopped
receive b 5 1 1 62 = Stopped
fail never
power-loss half
open
step = idle
tx-install 2 1 1 7 = refused OffsetChoice
stopped = no
set-replay on 0
rx-remove b 1 = refused SlotEmpty
stopped = no
numbers b 3 = none
refill
set-replay on 0
receive 9 3 2 1 62 = discarded NoSci
calls = 277
rest = 0 idle
submit set-sci-mode end-station = 1
step = worked
receive b 5 3 1 14 = discarded NotUsingSa
rest = 3 idle
next 3 = none
step = idle
numbers 9 3 = none
rest = 0 idle
numbers b 3 = none
receive b 5 3 1 62 = discarded NotUsingSa
step = idle
rest = 0 idle
receive 9 5 2 2 62 = discarded NoSci
stopped = no
calls = 4
receive-plain 14 = discarded NoTag
next 1 = none
protect 62 = ForeignSource

story random 71
format 0200000000010001 1 1
open
fail 6 on
calls = 524
step = idle
step = idle
receive b 4 3 1 62 broken = discarded NoSci
settings = Strict on 0 Explicit none 0
protect 62 = NoEncodingSa
step = idle
settings = Strict on 0 Explicit none 0
receive-plain 13 = discarded Runt
receive 9 1 3 2 62 = discarded NoSci
receive b 2 0 1 14 = discarded NoSci
receive b 1 0 6 62 clear = discarded NoSci
calls = 0
protect 13 = Runt
receive-plain 13 = discarded Runt
receive b 4 3 1 14 = discarded NoSci
next 1 = none
fail never
power-loss durable
open
rest = 0 idle
receive b 1 1 3 14 = discarded NoSci
rest = 0 idle
step = idle
calls = 260
receive b 5 2 1 14 = discarded NoSci
next 1 = none
calls = 0
receive-plain 62 = discarded NoTag
settings = Strict on 0 Explicit none 0
step = idle
rest = 0 idle
settings = Strict on 0 Explicit none 0
fail never
power-loss durable
open
refill
settings = Strict on 0 Explicit none 0
next 0 = none
fail never
power-loss last
open
protect 62 = NoEncodingSa
protect 62 = NoEncodingSa
protect 14 = NoEncodingSa
next 3 = none
calls = 520
calls = 0
step = idle
protect 13 = Runt
fail 6
receive 9 5 2 1 62 = discarded NoSci
protect 9184 = NoEncodingSa
rest = 0 idle
calls = 0
protect 62 = NoEncodingSa
next 0 = none
numbers b 3 = none
step = idle
receive-plain 13 = discarded Runt
protect 9184 = NoEncodingSa
protect 62 = NoEncodingSa
numbers 9 0 = none
next 1 = none
step = idle
fail never
power-loss half
open
set-replay off 0
protect 9193 = TooLong
protect 62 = NoEncodingSa
next 3 = none
receive-plain 13 = discarded Runt
submit set-sci-mode explicit = 1
refill = Busy
rest = 4 idle
fail never
power-loss last
open
submit tx-install 2 3 1 clear = 1
fail never
close
open
next 3 = none
fail 1 on
step = idle
set-validate strict = Disk
receive 9 3 2 1 62 clear = Stopped
receive 9 4 2 1 62 clear = Stopped
fail never
power-loss durable
open
refill
stopped = no
step = idle
receive 9 5 1 1 14 = discarded NoSci
stopped = no
stopped = no
step = idle
refill
numbers 9 1 = none
refill
rx-add 9
step = idle
receive-plain 9217 = discarded Oversize
receive b 5 3 1 100 clear = discarded NoSci
numbers b 1 = none
receive b 4 1 1 100 clear = discarded NoSci
receive b 2 0 1 14 = discarded NoSci
numbers 9 1 = none
rest = 0 idle
submit rx-install b 1 5 4294967293 30 = 1
protect 9185 = TooLong
fail never
power-loss last
open
refill
submit rx-add b = 1
refill = Busy
step = worked
rx-add 9 = Busy
protect 9184 = NoEncodingSa
next 3 = none
receive-plain 9217 = discarded Oversize
step = worked
refill = Busy
rest = 2 idle
receive b 5 2 2 62 = discarded NotUsingSa
numbers b 3 = none
numbers 9 1 = none
stopped = no
next 3 = none
step = idle
step = idle
stopped = no
fail never
power-loss durable
open
receive b 3 1 1 14 clear = discarded NotUsingSa
rest = 0 idle
step = idle
refill
submit rx-drop 200000000010001 = 1
next 0 = none
numbers b 3 = none
step = done 1 refused NoChannel
next 1 = none
submit set-replay off 3 = 2
rx-install 200000000010001 2 1 0 50 = Busy
tx-use 1 = Busy
rx-install 200000000010001 2 3 1 30 = Busy
tx-install 2 5 1 clear = Busy
step = worked
next 3 = none
receive b 1 1 2 14 = discarded NotUsingSa
receive b 3 2 1 62 = discarded NotUsingSa
next 3 = none
next 0 = none
rest = 3 idle
step = idle
refill
calls = 1595
settings = Strict off 3 Explicit none 2
receive-plain 0 = discarded Runt
settings = Strict off 3 Explicit none 2
set-replay on 3
protect 62 = NoEncodingSa
step = idle
protect 62 = NoEncodingSa
refill
stopped = no
protect 62 = NoEncodingSa
protect 9193 = TooLong
refill
fail never
power-loss half
open
step = idle
receive-plain 62 = discarded NoTag
fail never
power-loss half
open
refill
submit rx-install 9 0 1 1 = 1
next 3 = none
receive-plain 13 = discarded Runt
numbers b 3 = none
receive b 1 2 2 14 = discarded NotUsingSa
protect 9193 = TooLong
step = worked
protect 62 = NoEncodingSa
protect 9185 = TooLong
step = worked
rest = 2 idle
step = idle
stopped = no
tx-install 1 3 1 7 = refused OffsetChoice
refill
rest = 0 idle
calls = 540
set-replay on 0
stopped = no
settings = Strict on 0 Explicit none 2

story random 72
format 0200000000010001 2 2
open
receive b 5 0 1 14 = discarded NoSci
step = idle
step = idle
receive 9 4 0 1 62 = discarded NoSci
stopped = no
receive-plain 0 = discarded Runt
settings = Strict on 0 Explicit none 0
receive-plain 9217 = discarded Oversize
protect 9184 = NoEncodingSa
submit rx-remove 9 0 = 1
protect 13 = Runt
protect 9184 = NoEncodingSa
step = done 1 refused NoChannel
step = idle
step = idle
numbers b 0 = none
receive b 3 1 6 62 broken = discarded NoSci
settings = Strict on 0 Explicit none 0
settings = Strict on 0 Explicit none 0
next 2 = none
calls = 524
protect 62 = NoEncodingSa
receive b 3 3 1 62 = discarded NoSci
submit rx-drop 9 = 2
step = done 2 refused NoChannel
refill
protect 62 = NoEncodingSa
calls = 0
calls = 0
step = idle
step = idle
rest = 0 idle
step = idle
refill
receive 9 4 0 6 62 = discarded NoSci
stopped = no
stopped = no
rest = 0 idle
fail never
power-loss durable
open
fail 3 on
calls = 260
protect 9184 = NoEncodingSa
stopped = no
numbers b 0 = none
refill
numbers 9 1 = none
numbers 9 3 = none
submit tx-use 2 = 1
step = done 1 refused SlotEmpty
refill
protect 9184 = NoEncodingSa
calls = 0
receive 9 5 1 1 62 = discarded NoSci
protect 62 = NoEncodingSa
rest = 0 idle
numbers b 3 = none
step = idle
step = idle
numbers 9 1 = none
step = idle
receive 9 4 1 1 62 clear = discarded NoSci
receive b 2 2 1 62 = discarded NoSci
step = idle
protect 9193 = TooLong
fail 5 filled
receive-plain 62 = discarded NoTag
receive 9 1 1 1 100 = discarded NoSci
fail never
power-loss last
open
receive-plain 13 = discarded Runt
protect 62 = NoEncodingSa
protect 62 = NoEncodingSa
fail never
close
open
next 0 = none
stopped = no
protect 13 = Runt
rx-drop 9 = refused NoChannel
tx-install 1 3 1 clear
step = idle
stopped = no
numbers 9 2 = none
protect 13 = Runt
step = idle
fail never
power-loss durable
open
stopped = no
rx-install 9 1 3 1 = refused NoChannel
submit tx-install 0 5 1 50 = 1
fail never
power-loss zeros
open
next 3 = none
rx-drop 200000000010001 = refused NoChannel
rest = 0 idle
numbers 9 1 = none
refill
numbers 9 0 = none
rest = 0 idle
calls = 1046
receive-plain 9216 = discarded NoTag
next 0 = none
fail never
power-loss ones
open
fail never
power-loss gate
open
numbers 9 1 = none
refill
next 0 = none
fail never
power-loss zeros
open
receive 9 3 3 1 14 = discarded NoSci
numbers b 2 = none
protect 9185 = TooLong
next 3 = none
stopped = no
step = idle
rest = 0 idle
calls = 783
step = idle
numbers 9 1 = none
step = idle
protect 9185 = TooLong
receive-plain 0 = discarded Runt
rest = 0 idle
step = idle
fail 7 on
stopped = no
settings = Strict on 0 Explicit none 0
receive-plain 9217 = discarded Oversize
receive-plain 9216 = discarded NoTag
receive 9 5 2 3 62 = discarded NoSci
step = idle
step = idle
receive 9 2 1 1 14 = discarded NoSci
receive 9 2 1 2 14 = discarded NoSci
submit rx-install b 0 4 70 = 1
receive-plain 0 = discarded Runt
step = done 1 refused NoChannel
step = idle
protect 9193 = TooLong
next 0 = none
calls = 0
refill
step = idle
receive 9 4 2 6 14 = discarded NoSci
stopped = no
rest = 0 idle
step = idle
step = idle
fail never
close
open
receive 9 2 1 3 62 broken = discarded NoSci
refill
receive-plain 0 = discarded Runt
receive-plain 62 = discarded NoTag
calls = 261
step = idle
protect 9185 = TooLong
tx-install 2 3 70 30 = refused KeySpent
receive-plain 9217 = discarded Oversize
numbers 9 0 = none
step = idle
calls = 0
calls = 0
submit rx-install 9 2 5 1 50 = 1
settings = Strict on 0 Explicit none 0
fail never
power-loss half
open
protect 9184 = NoEncodingSa
refill
receive-plain 62 = discarded NoTag
step = idle
receive b 2 1 1 14 = discarded NoSci
next 1 = 3
numbers b 1 = none
step = idle
calls = 261
numbers 9 3 = none
numbers 9 1 = none
receive b 2 1 2 14 = discarded NoSci
step = idle
rest = 0 idle
rest = 0 idle
receive 9 5 1 2 62 clear = discarded NoSci
stopped = no
step = idle
step = idle
step = idle
receive-plain 14 = discarded NoTag
calls = 0
refill
tx-install 0 4 1 clear
submit rx-install 9 0 5 4294967293 = 1

story random 73
format 0200000000010001 16 16
open
protect 13 = Runt
step = idle
fail never
power-loss ones
open
receive b 3 2 1 14 = discarded NoSci
rest = 0 idle
rest = 0 idle
numbers b 2 = none
receive b 2 2 6 62 = discarded NoSci
tx-install 1 2 0 = refused StartRange
refill
stopped = no
submit set-validate strict = 1
step = worked
protect 62 = NoEncodingSa
refill = Busy
step = worked
fail never
power-loss gate
open
receive-plain 9216 = discarded NoTag
step = idle
numbers 9 3 = none
step = idle
receive 9 2 1 1 100 = discarded NoSci
stopped = no
protect 14 = NoEncodingSa
rx-install 200000000010001 3 4 4294967293 = refused NoChannel
calls = 1046
step = idle
step = idle
numbers b 2 = none
rest = 0 idle
rest = 0 idle
settings = Strict on 0 Explicit none 0
receive 9 1 2 6 100 clear = discarded NoSci
receive-plain 13 = discarded Runt
receive b 5 1 1 100 clear = discarded NoSci
receive-plain 13 = discarded Runt
settings = Strict on 0 Explicit none 0
step = idle
settings = Strict on 0 Explicit none 0
stopped = no
numbers b 0 = none
next 1 = none
settings = Strict on 0 Explicit none 0
protect 9185 = TooLong
step = idle
settings = Strict on 0 Explicit none 0
submit tx-remove 1 = 1
set-sci-mode explicit = Busy
tx-install 2 3 1 = Busy
fail never
power-loss zeros
open
step = idle
stopped = no
next 3 = none
receive-plain 14 = discarded NoTag
receive-plain 62 = discarded NoTag
stopped = no
receive-plain 14 = discarded NoTag
step = idle
rx-add b
receive b 4 0 1 14 = discarded NotUsingSa
calls = 264
receive b 1 1 2 62 = discarded NotUsingSa
calls = 0
calls = 0
rest = 0 idle
step = idle
refill
step = idle
protect 9185 = TooLong
refill
refill
receive b 3 1 1 62 clear = discarded NotUsingSa
numbers 9 0 = none
numbers b 1 = none
numbers 9 2 = none
refill
receive 9 2 2 1 100 = discarded NoSci
receive-plain 9216 = discarded NoTag
refill
refill
step = idle
protect 14 = NoEncodingSa
submit tx-use 0 = 1
next 1 = none
next 2 = none
step = done 1 refused SlotEmpty
stopped = no
calls = 0
calls = 0
submit set-replay on 4294967295 = 2
receive b 3 0 1 62 clear = discarded NotUsingSa
protect 14 = NoEncodingSa
receive-plain 62 = discarded NoTag
step = worked
settings = Strict on 0 Explicit none 1
calls = 1
next 0 = none
receive-plain 9217 = discarded Oversize
submit set-sci-mode explicit = 3
next 1 = none
submit tx-use 1 = 4
refill = Busy
calls = 0
refill = Busy
protect 9185 = TooLong
protect 14 = NoEncodingSa
submit set-validate strict = 5
calls = 0
refill = Busy
receive 9 5 2 1 62 broken = discarded NoSci
fail 4
submit rx-remove 9 3 = 6
next 3 = none
step = worked
protect 9184 = NoEncodingSa
rx-install b 1 1 1 = Busy
protect 9193 = TooLong
step = worked
receive b 5 2 1 100 clear = discarded NotUsingSa
step = done 2 ok
tx-use 2 = Busy
settings = Strict on 4294967295 Explicit none 1
receive-plain 0 = discarded Runt
receive 9 3 2 2 62 clear = discarded NoSci
refill = Busy
fail never
power-loss ones
open
submit tx-use 1 = 1
receive-plain 9217 = discarded Oversize
calls = 265
next 1 = none
calls = 0
settings = Strict on 4294967295 Explicit none 1
next 3 = none
next 2 = none
refill = Busy
settings = Strict on 4294967295 Explicit none 1
submit tx-use 1 = 2
protect 62 = NoEncodingSa
receive-plain 13 = discarded Runt
step = done 1 refused SlotEmpty
protect 9185 = TooLong
step = done 2 refused SlotEmpty
refill
protect 14 = NoEncodingSa
protect 62 = NoEncodingSa
numbers b 2 = none
step = idle
rest = 0 idle
rest = 0 idle
next 2 = none
calls = 0
rest = 0 idle
calls = 0
step = idle
calls = 0
refill
next 3 = none
receive-plain 9217 = discarded Oversize
rest = 0 idle
step = idle
step = idle
protect 9193 = TooLong
stopped = no
protect 62 = NoEncodingSa
fail never
power-loss ones
open
calls = 262
settings = Strict on 4294967295 Explicit none 1
settings = Strict on 4294967295 Explicit none 1
receive-plain 0 = discarded Runt
step = idle
step = idle
step = idle
stopped = no
receive 9 5 0 3 62 = discarded NoSci
refill
fail never
power-loss last
open
submit rx-install b 2 3 1 30 = 1
rx-install 9 2 2 0 = Busy
step = worked
protect 9185 = TooLong
fail never
power-loss ones
open
submit rx-install 200000000010001 2 1 70 = 1
step = done 1 refused NoChannel
step = idle
receive 9 5 3 1 100 = discarded NoSci
next 3 = none

story random 74
format 0200000000010001 4 4
open
submit tx-install 1 2 1 30 = 1
calls = 524
step = worked
submit rx-install b 0 4 0 = 2
step = worked
step = worked
submit set-validate strict = 3
protect 9185 = TooLong
settings = Strict on 0 Explicit none 0
protect 9184 = NoEncodingSa
fail never
close
open
protect 62 = NoEncodingSa
rest = 0 idle
step = idle
receive-plain 14 = discarded NoTag
refill
receive b 1 2 1 100 = discarded NoSci
step = idle
next 0 = none
settings = Strict on 0 Explicit none 0
refill
calls = 264
protect 62 = NoEncodingSa
calls = 0
refill
numbers b 3 = none
step = idle
next 1 = 5
receive b 2 3 1 62 = discarded NoSci
refill
next 1 = 5
protect 13 = Runt
step = idle
rest = 0 idle
calls = 0
settings = Strict on 0 Explicit none 0
receive-plain 0 = discarded Runt
tx-install 0 2 1 30 = refused KeySpent
protect 62 = NoEncodingSa
step = idle
refill
fail never
close
open
calls = 261
step = idle
step = idle
receive 9 3 0 6 62 = discarded NoSci
receive b 5 2 1 100 clear = discarded NoSci
protect 14 = NoEncodingSa
next 0 = none
submit rx-install 9 0 3 0 = 1
protect 9193 = TooLong
protect 62 = NoEncodingSa
submit set-replay on 0 = 2
step = done 1 refused StartRange
next 1 = 5
settings = Strict on 0 Explicit none 0
protect 9185 = TooLong
settings = Strict on 0 Explicit none 0
receive 9 2 3 6 62 clear = discarded NoSci
receive 9 4 3 1 14 = discarded NoSci
protect 14 = NoEncodingSa
receive 9 2 0 1 62 = discarded NoSci
numbers b 2 = none
calls = 0
rx-add b = Busy
refill = Busy
step = worked
stopped = no
next 0 = none
receive 9 3 2 1 14 = discarded NoSci
step = worked
refill = Busy
receive 9 1 1 2 14 = discarded NoSci
submit rx-remove 9 0 = 3
rest = 3 idle
tx-install 1 1 1 clear = refused SlotTaken
set-sci-mode implicit
step = idle
fail 1 on
stopped = no
settings = Strict on 0 Implicit none 0
fail never
power-loss zeros
open
next 0 = none
receive-plain 9216 = discarded NoTag
next 3 = none
numbers b 0 = none
receive b 5 2 1 62 = discarded NoSci
step = idle
step = idle
calls = 271
fail 7 filled
protect 62 = NoEncodingSa
step = idle
calls = 0
next 1 = 5
step = idle
rx-add 9
calls = 4
submit rx-install 9 2 1 1 = 1
protect 13 = Runt
stopped = no
protect 9184 = NoEncodingSa
receive-plain 13 = discarded Runt
protect 62 = NoEncodingSa
calls = 0
step = worked
step = worked
set-validate check = Busy
step = worked
rx-drop b = Busy
next 2 = none
protect 62 = NoEncodingSa
submit tx-remove 0 = 2
receive b 5 2 1 62 clear broken = discarded NoSci
step = Disk
numbers 9 0 = none
fail never
close
open
settings = Strict on 0 Implicit none 1
rest = 0 idle
step = idle
protect 62 = NoEncodingSa
step = idle
calls = 269
step = idle
rest = 0 idle
step = idle
protect 62 = NoEncodingSa
next 1 = 5
next 3 = none
numbers 9 0 = none
numbers b 2 = none
receive 9 1 2 2 62 = held back
step = worked
stopped = no
settings = Strict on 0 Implicit none 1
step = worked
receive-plain 9216 = discarded NoTag
fail 7 on
step = worked
step = reserved
fail 7
receive 9 1 2 1 62 clear = delivered Ok
step = idle
protect 9193 = TooLong
settings = Strict on 0 Implicit none 1
rx-remove b 2 = refused NoChannel
next 0 = none
submit set-replay off 0 = 1
receive 9 1 2 2 62 clear = delivered Ok
rest = 4 idle
step = idle
rest = 0 idle
next 1 = 5
refill
receive b 3 3 3 62 = discarded NoSci
receive b 1 1 1 100 clear = discarded NoSci
receive-plain 13 = discarded Runt
settings = Strict off 0 Implicit none 1
stopped = no
receive-plain 9217 = discarded Oversize
fail never
close
open
receive-plain 13 = discarded Runt
numbers b 2 = none
numbers b 2 = none
calls = 275
numbers b 0 = none
stopped = no
receive-plain 13 = discarded Runt
step = idle
rest = 0 idle
rest = 0 idle
step = idle
protect 14 = NoEncodingSa
protect 13 = Runt
settings = Strict off 0 Implicit none 1
fail 7 filled
receive 9 1 2 6 14 = held back
step = worked
rx-install b 3 4 70 = refused NoChannel
step = worked
submit rx-install b 2 4 1 = 1
fail never
power-loss ones
open
receive 9 1 2 7 14 = held back
settings = Strict off 0 Implicit none 1

story random 75
format 0200000000010001 4 4
open
rest = 0 idle
fail 4 on
refill
step = idle
receive-plain 9216 = discarded NoTag
rest = 0 idle
fail 4 on
step = idle
submit rx-drop b = 1
rest = 1 idle
rx-drop b = refused NoChannel
fail 4 filled
receive 9 1 2 6 100 = discarded NoSci
numbers b 1 = none
step = idle
step = idle
step = idle
settings = Strict on 0 Explicit none 0
step = idle
protect 62 = NoEncodingSa
receive 9 2 3 2 62 = discarded NoSci
rest = 0 idle
step = idle
receive b 5 1 6 100 clear broken = discarded NoSci
settings = Strict on 0 Explicit none 0
step = idle
step = idle
numbers 9 1 = none
submit rx-remove 9 1 = 2
numbers b 2 = none
next 3 = none
rest = 1 idle
receive-plain 13 = discarded Runt
receive b 4 3 1 62 = discarded NoSci
rx-add b
settings = Strict on 0 Explicit none 1
next 3 = none
calls = 528
step = idle
step = idle
submit rx-install 9 0 2 1 7 = 3
receive 9 5 0 3 14 clear = discarded NoSci
rx-drop b = Busy
step = done 3 refused OffsetChoice
calls = 0
tx-install 0 2 1 7 = refused OffsetChoice
refill
protect 14 = NoEncodingSa
step = idle
step = idle
receive 9 2 0 1 62 clear = discarded NoSci
calls = 0
step = idle
receive 9 5 3 6 62 = discarded NoSci
receive b 3 0 1 100 clear = discarded NotUsingSa
next 1 = none
step = idle
protect 62 = NoEncodingSa
protect 13 = Runt
calls = 0
refill
numbers 9 2 = none
receive b 2 0 1 14 clear = discarded NotUsingSa
settings = Strict on 0 Explicit none 1
rest = 0 idle
stopped = no
fail never
close
open
receive-plain 13 = discarded Runt
stopped = no
protect 9184 = NoEncodingSa
next 2 = none
protect 62 = NoEncodingSa
receive-plain 14 = discarded NoTag
step = idle
receive 9 5 0 1 62 = discarded NoSci
refill
protect 9184 = NoEncodingSa
step = idle
receive b 4 2 1 100 clear = discarded NotUsingSa
fail 3 on
protect 62 = NoEncodingSa
protect 62 = NoEncodingSa
refill
protect 9184 = NoEncodingSa
receive 9 4 1 6 100 = discarded NoSci
rest = 0 idle
settings = Strict on 0 Explicit none 1
step = idle
stopped = no
step = idle
rest = 0 idle
step = idle
numbers b 3 = none
receive-plain 13 = discarded Runt
next 0 = none
protect 62 = NoEncodingSa
next 3 = none
settings = Strict on 0 Explicit none 1
protect 62 = NoEncodingSa
next 1 = none
rest = 0 idle
next 3 = none
step = idle
receive-plain 0 = discarded Runt
stopped = no
protect 9193 = TooLong
stopped = no
step = idle
protect 9193 = TooLong
step = idle
numbers 9 1 = none
refill
receive b 5 3 6 14 = discarded NotUsingSa
receive 9 1 2 3 62 clear = discarded NoSci
protect 14 = NoEncodingSa
step = idle
next 2 = none
next 0 = none
rest = 0 idle
settings = Strict on 0 Explicit none 1
step = idle
submit set-replay on 3 = 1
set-validate strict = Busy
receive 9 3 3 2 62 = discarded NoSci
refill = Busy
calls = 261
step = worked
fail never
power-loss zeros
open
step = idle
settings = Strict on 0 Explicit none 1
rest = 0 idle
stopped = no
fail 6
rest = 0 idle
set-sci-mode explicit
receive b 4 2 3 14 = discarded NotUsingSa
protect 14 = NoEncodingSa
submit rx-add 9 = 1
calls = 266
fail never
power-loss last
open
step = idle
stopped = no
protect 62 = NoEncodingSa
receive 9 1 3 1 62 = discarded NoSci
stopped = no
step = idle
receive-plain 62 = discarded NoTag
receive b 2 3 6 62 clear broken = discarded NotUsingSa
numbers 9 2 = none
step = idle
numbers 9 0 = none
protect 62 = NoEncodingSa
settings = Strict on 0 Explicit none 1
step = idle
step = idle
calls = 262
numbers 9 3 = none
settings = Strict on 0 Explicit none 1
rx-install b 2 1 4294967293 50
tx-install 1 1 4294967293
receive b 1 2 4294967295 100 clear broken = discarded NotValid
protect 14 = NoEncodingSa
settings = Strict on 0 Explicit none 1
protect 14 = NoEncodingSa
fail 8 filled
receive b 1 2 4294967292 62 broken 50 = discarded Late
receive 9 1 0 6 14 clear = discarded NoSci
receive-plain 9217 = discarded Oversize
submit tx-use 0 = 1
next 3 = none
settings = Strict on 0 Explicit none 1
rest = 1 idle
step = idle
receive-plain 9216 = discarded NoTag
calls = 8
step = idle
tx-install 2 4 4294967293
numbers b 2 = 4294967293 4294967293
settings = Strict on 0 Explicit none 1
settings = Strict on 0 Explicit none 1
protect 62 = NoEncodingSa
tx-install 1 4 1 clear = refused SlotTaken
settings = Strict on 0 Explicit none 1
next 2 = 4294967293
rx-add 9

story random 76
format 0200000000010001 4 4
open
calls = 524
protect 14 = NoEncodingSa
stopped = no
protect 62 = NoEncodingSa
rx-add b
rx-install 9 3 5 1 50 = refused NoChannel
submit tx-use 2 = 1
submit set-replay on 3 = 2
stopped = no
settings = Strict on 0 Explicit none 1
step = done 1 refused SlotEmpty
receive 9 4 2 1 100 clear = discarded NoSci
step = worked
calls = 5
numbers b 1 = none
receive b 3 0 1 62 clear = discarded NotUsingSa
numbers b 3 = none
receive-plain 62 = discarded NoTag
receive-plain 62 = discarded NoTag
protect 9185 = TooLong
next 1 = none
refill = Busy
step = worked
step = worked
protect 14 = NoEncodingSa
fail never
power-loss half
open
step = idle
step = idle
protect 9185 = TooLong
receive b 3 2 2 62 = discarded NotUsingSa
submit rx-add b = 1
rx-install 200000000010001 3 5 0 = Busy
protect 9193 = TooLong
calls = 264
settings = Strict on 3 Explicit none 1
settings = Strict on 3 Explicit none 1
settings = Strict on 3 Explicit none 1
tx-use 1 = Busy
step = done 1 refused ChannelTaken
protect 9184 = NoEncodingSa
settings = Strict on 3 Explicit none 1
step = idle
stopped = no
submit rx-add 9 = 2
step = worked
next 3 = none
fail 7 filled
fail 4 filled
receive 9 3 3 2 100 clear = discarded NoSci
receive-plain 9216 = discarded NoTag
receive 9 5 1 6 14 clear = discarded NoSci
refill = Busy
calls = 1
refill = Busy
rest = 3 idle
receive b 1 0 2 100 clear broken = discarded NotUsingSa
step = idle
refill
step = idle
protect 9185 = TooLong
protect 9185 = TooLong
calls = 3
protect 62 = NoEncodingSa
numbers 9 0 = none
refill
rx-remove 9 2 = refused SlotEmpty
settings = Strict on 3 Explicit none 2
numbers 9 0 = none
stopped = no
step = idle
step = idle
fail never
power-loss zeros
open
receive 9 1 0 1 62 = discarded NotUsingSa
next 0 = none
rest = 0 idle
stopped = no
step = idle
step = idle
fail 8
fail 8 on
set-validate check
calls = 267
calls = 0
rest = 0 idle
receive 9 2 2 3 62 broken = discarded NotUsingSa
step = idle
stopped = no
tx-use 3 = refused SlotEmpty
step = idle
receive b 5 3 3 62 = discarded NotUsingSa
receive 9 3 3 1 62 = discarded NotUsingSa
numbers b 1 = none
stopped = no
fail never
power-loss gate
open
protect 9185 = TooLong
fail never
power-loss durable
open
receive b 2 0 1 62 = discarded NotUsingSa
protect 9185 = TooLong
receive 9 3 1 1 100 broken = discarded NotUsingSa
tx-install 0 1 1
next 3 = none
stopped = no
step = idle
calls = 532
rest = 0 idle
rest = 0 idle
next 1 = none
rest = 0 idle
step = idle
step = idle
receive b 3 3 3 62 = discarded NotUsingSa
step = idle
stopped = no
numbers b 1 = none
rest = 0 idle
submit set-validate check = 1
protect 62 = NoEncodingSa
step = worked
fail never
close
open
step = idle
rx-remove 9 0 = refused SlotEmpty
fail 4 filled
protect 62 = NoEncodingSa
rest = 0 idle
receive-plain 0 = discarded Runt
step = idle
receive-plain 9217 = discarded Oversize
fail 8
step = idle
receive 9 3 2 1 14 broken = discarded NotUsingSa
fail 1
step = idle
receive 9 4 3 1 62 broken = discarded NotUsingSa
step = idle
stopped = no
calls = 266
rx-install b 0 1 4294967293 = Disk
rx-drop b = Stopped
calls = 2
fail never
power-loss gate
open
rx-add b = refused ChannelTaken
step = idle
receive-plain 0 = discarded Runt
settings = Check on 3 Explicit none 2
refill
receive 9 5 2 1 62 clear = delivered UnusedSa
tx-use 3 = refused SlotEmpty
receive b 2 0 3 62 = discarded NotUsingSa
step = idle
settings = Check on 3 Explicit none 2
receive 9 5 3 2 62 = discarded NotUsingSa
fail never
power-loss durable
open
numbers 9 3 = none
step = idle
rest = 0 idle
refill
refill
step = idle
receive-plain 0 = discarded Runt
submit set-sci-mode end-station = 1
calls = 530
settings = Check on 3 Explicit none 2
rest = 4 idle
protect 62 = ForeignSource
receive 9 3 3 1 62 clear = delivered UnusedSa
next 3 = none
numbers 9 3 = none
fail never
power-loss last
open
receive b 5 3 6 62 = discarded NotUsingSa
refill
step = idle
step = idle
stopped = no
numbers b 0 = none
settings = Check on 3 EndStation none 2
stopped = no
receive-plain 14 = delivered Untagged
submit rx-install 9 0 1 1 = 1
receive b 2 1 3 14 = discarded NotUsingSa
step = worked
stopped = no
submit rx-add b = 2
next 2 = none
receive b 5 3 1 62 = discarded NotUsingSa
protect 9193 = TooLong

story random 77
format 0200000000010001 2 2
open
step = idle
rest = 0 idle
fail 4 filled
receive b 3 0 6 100 broken = discarded NoSci
tx-remove 2 = refused SlotEmpty
receive-plain 13 = discarded Runt
step = idle
stopped = no
protect 62 = NoEncodingSa
next 1 = none
receive 9 4 3 6 14 broken = discarded NoSci
step = idle
step = idle
next 1 = none
step = idle
refill
refill
receive b 5 0 1 62 clear = discarded NoSci
refill
step = idle
settings = Strict on 0 Explicit none 0
step = idle
step = idle
stopped = no
rest = 0 idle
rest = 0 idle
step = idle
stopped = no
numbers b 0 = none
step = idle
submit rx-install 9 1 4 4294967293 = 1
settings = Strict on 0 Explicit none 0
step = done 1 refused NoChannel
tx-use 0 = refused SlotEmpty
protect 62 = NoEncodingSa
calls = 524
refill
refill
receive-plain 9217 = discarded Oversize
receive 9 2 1 3 62 = discarded NoSci
receive-plain 9217 = discarded Oversize
protect 62 = NoEncodingSa
rest = 0 idle
receive-plain 9216 = discarded NoTag
protect 62 = NoEncodingSa
rest = 0 idle
receive b 4 2 1 62 broken = discarded NoSci
refill
step = idle
refill
submit rx-drop b = 2
next 2 = none
receive b 1 0 3 62 = discarded NoSci
protect 14 = NoEncodingSa
protect 62 = NoEncodingSa
calls = 0
step = done 2 refused NoChannel
submit rx-add b = 3
set-validate strict = Busy
step = worked
protect 62 = NoEncodingSa
numbers b 2 = none
refill = Busy
step = worked
next 1 = none
rest = 2 idle
tx-use 0 = refused SlotEmpty
protect 9184 = NoEncodingSa
step = idle
protect 62 = NoEncodingSa
refill
step = idle
receive b 5 0 1 14 = discarded NotUsingSa
receive 9 2 3 1 100 = discarded NoSci
protect 9185 = TooLong
fail never
power-loss half
open
settings = Strict on 0 Explicit none 1
rest = 0 idle
refill
stopped = no
fail 8
next 3 = none
stopped = no
protect 9185 = TooLong
next 3 = none
numbers b 2 = none
step = idle
step = idle
refill
step = idle
protect 9185 = TooLong
protect 9193 = TooLong
next 3 = none
receive-plain 62 = discarded NoTag
settings = Strict on 0 Explicit none 1
numbers b 3 = none
refill
step = idle
step = idle
calls = 265
receive-plain 14 = discarded NoTag
step = idle
receive b 2 1 1 62 = discarded NotUsingSa
rest = 0 idle
numbers b 3 = none
stopped = no
numbers 9 0 = none
step = idle
rx-add 9
step = idle
set-sci-mode end-station
settings = Strict on 0 EndStation none 2
refill
stopped = no
next 0 = none
refill
rest = 0 idle
step = idle
calls = 8
receive-plain 9217 = discarded Oversize
receive 9 3 1 1 62 = discarded NotUsingSa
receive-plain 0 = discarded Runt
fail never
power-loss durable
open
fail 1 filled
protect 9193 = TooLong
protect 9193 = TooLong
tx-use 0 = refused SlotEmpty
receive b 5 1 1 62 clear broken = discarded NotUsingSa
step = idle
step = idle
refill
rx-install b 1 1 1 7 = refused OffsetChoice
rest = 0 idle
settings = Strict on 0 EndStation none 2
receive-plain 13 = discarded Runt
receive 9 3 1 1 62 = discarded NotUsingSa
numbers 9 2 = none
step = idle
receive-plain 9217 = discarded Oversize
tx-install 2 5 1 = Disk
protect 62 = Stopped
refill = Stopped
fail never
close
open
stopped = no
receive b 1 1 6 100 clear = discarded NotUsingSa
rest = 0 idle
calls = 528
rest = 0 idle
protect 9185 = ForeignSource
receive b 5 0 3 100 = discarded NotUsingSa
step = idle
receive b 5 0 1 62 = discarded NotUsingSa
next 0 = none
tx-use 3 = refused SlotEmpty
rest = 0 idle
fail never
close
open
next 0 = none
set-sci-mode explicit
settings = Strict on 0 Explicit none 2
next 2 = none
fail 2 filled
receive 9 2 2 6 62 clear = discarded NotUsingSa
step = idle
refill
next 2 = none
next 2 = none
step = idle
step = idle
step = idle
step = idle
receive 9 5 3 3 14 = discarded NotUsingSa
submit set-sci-mode explicit = 1
step = worked
calls = 268
rx-drop b = Busy
set-sci-mode explicit = Busy
receive 9 4 0 1 62 = discarded NotUsingSa
rest = 1 Disk
step = Stopped
fail never
close
open
settings = Strict on 0 Explicit none 2
step = idle
receive-plain 62 = discarded NoTag
rx-drop 9
receive 9 1 2 1 100 = discarded NoSci
next 0 = none

story random 78
format 0200000000010001 4 4
open
protect 62 = NoEncodingSa
step = idle
receive b 3 0 3 100 clear = discarded NoSci
submit rx-add 9 = 1
stopped = no
next 2 = none
settings = Strict on 0 Explicit none 0
receive 9 4 3 6 62 clear = discarded NoSci
stopped = no
numbers b 3 = none
submit set-sci-mode explicit = 2
rest = 8 idle
settings = Strict on 0 Explicit none 1
receive-plain 62 = discarded NoTag
rest = 0 idle
receive b 4 1 6 14 = discarded NoSci
calls = 532
calls = 0
step = idle
protect 62 = NoEncodingSa
next 0 = none
step = idle
rest = 0 idle
stopped = no
settings = Strict on 0 Explicit none 1
receive 9 2 2 6 14 clear = discarded NotUsingSa
refill
numbers 9 0 = none
step = idle
rest = 0 idle
stopped = no
step = idle
next 0 = none
step = idle
protect 13 = Runt
settings = Strict on 0 Explicit none 1
protect 9184 = NoEncodingSa
next 3 = none
receive-plain 9217 = discarded Oversize
rx-add 9 = refused ChannelTaken
fail never
close
open
refill
settings = Strict on 0 Explicit none 1
protect 14 = NoEncodingSa
calls = 262
step = idle
receive-plain 14 = discarded NoTag
calls = 0
submit tx-remove 1 = 1
receive 9 4 3 1 62 = discarded NotUsingSa
protect 62 = NoEncodingSa
numbers 9 1 = none
refill = Busy
receive b 3 1 1 62 clear broken = discarded NoSci
protect 14 = NoEncodingSa
calls = 0
receive-plain 0 = discarded Runt
protect 62 = NoEncodingSa
receive b 5 2 1 62 broken = discarded NoSci
refill = Busy
rest = 1 idle
protect 9193 = TooLong
receive-plain 9216 = discarded NoTag
receive 9 5 1 1 100 clear = discarded NotUsingSa
refill
set-sci-mode end-station
step = idle
step = idle
submit tx-install 3 3 0 = 2
protect 62 = ForeignSource
fail 1
step = done 2 refused StartRange
fail 8 filled
next 0 = none
receive-plain 14 = discarded NoTag
set-validate strict
submit tx-use 2 = 3
numbers b 3 = none
fail never
power-loss half
open
fail never
power-loss gate
open
rest = 0 idle
step = idle
submit tx-install 3 1 0 = 1
stopped = no
step = done 1 refused StartRange
next 0 = none
fail 1 on
step = idle
tx-use 2 = refused SlotEmpty
rest = 0 idle
receive-plain 62 = discarded NoTag
receive b 5 2 1 100 clear = discarded NoSci
fail never
power-loss durable
open
next 2 = none
submit set-validate strict = 1
rx-remove b 3 = Busy
receive 9 1 0 1 14 broken = discarded NotUsingSa
numbers 9 2 = none
calls = 800
step = worked
numbers b 0 = none
receive-plain 62 = discarded NoTag
protect 14 = ForeignSource
receive b 5 1 1 62 = discarded NoSci
calls = 1
rx-drop 9 = Busy
receive 9 3 0 6 14 clear = discarded NotUsingSa
step = worked
next 2 = none
submit tx-remove 1 = 2
receive b 2 0 6 14 = discarded NoSci
next 1 = none
rest = 3 idle
tx-install 2 1 1 30
fail never
power-loss zeros
open
calls = 273
protect 62 = ForeignSource
step = idle
step = idle
numbers b 0 = none
next 2 = 5
next 0 = none
step = idle
settings = Strict on 0 EndStation none 1
receive-plain 62 = discarded NoTag
stopped = no
step = idle
rest = 0 idle
stopped = no
set-validate check
submit set-validate strict = 1
step = worked
settings = Check on 0 EndStation none 1
settings = Check on 0 EndStation none 1
step = worked
receive b 5 1 1 100 = discarded NoSci
step = worked
calls = 7
receive 9 5 0 1 14 clear = delivered UnusedSa
numbers 9 3 = none
step = done 1 ok
submit set-replay on 0 = 2
receive 9 1 1 1 100 = discarded NotUsingSa
settings = Strict on 0 EndStation none 1
step = worked
step = worked
step = worked
receive-plain 9217 = discarded Oversize
receive-plain 9217 = discarded Oversize
receive b 5 3 3 62 = discarded NoSci
step = done 2 ok
calls = 5
protect 62 = ForeignSource
step = idle
stopped = no
receive b 1 2 2 62 broken = discarded NoSci
stopped = no
calls = 0
receive-plain 62 = discarded NoTag
tx-use 0 = refused SlotEmpty
calls = 0
rest = 0 idle
submit rx-drop 200000000010001 = 3
protect 14 = ForeignSource
submit rx-drop b = 4
settings = Strict on 0 EndStation none 1
receive-plain 13 = discarded Runt
step = done 3 refused NoChannel
step = done 4 refused NoChannel
step = idle
calls = 0
rest = 0 idle
receive 9 5 0 2 62 = discarded NotUsingSa
stopped = no
submit set-replay on 4294967295 = 5
protect 9193 = TooLong
stopped = no
refill = Busy
rest = 4 idle
settings = Strict on 4294967295 EndStation none 1
step = idle
settings = Strict on 4294967295 EndStation none 1
protect 14 = ForeignSource
settings = Strict on 4294967295 EndStation none 1
protect 9193 = TooLong
fail never
power-loss last

story random 79
format 0200000000010001 1 1
open
step = idle
calls = 524
receive 9 3 2 2 62 clear = discarded NoSci
submit rx-install b 0 3 1 7 = 1
rx-install b 1 5 0 = Busy
settings = Strict on 0 Explicit none 0
settings = Strict on 0 Explicit none 0
stopped = no
numbers b 2 = none
receive-plain 13 = discarded Runt
step = done 1 refused OffsetChoice
rest = 0 idle
numbers b 3 = none
step = idle
protect 62 = NoEncodingSa
rx-remove 9 0 = refused NoChannel
protect 14 = NoEncodingSa
step = idle
step = idle
numbers b 3 = none
tx-use 2 = refused SlotEmpty
settings = Strict on 0 Explicit none 0
fail never
close
open
receive b 1 1 2 62 = discarded NoSci
tx-install 1 4 4294967293 clear
calls = 264
numbers 9 0 = none
numbers 9 2 = none
rx-install 9 3 1 1 30 = refused NoChannel
step = idle
protect 13 = Runt
next 1 = 4294967293
set-replay on 10
stopped = no
next 0 = none
rx-add 9
step = idle
refill
next 2 = none
fail never
close
open
protect 9184 = NoEncodingSa
receive b 5 1 1 62 clear broken = discarded NoSci
submit rx-add b = 1
rest = 4 idle
receive 9 1 1 1 62 broken = discarded NotUsingSa
step = idle
rest = 0 idle
step = idle
submit tx-use 3 = 2
receive 9 5 0 1 14 = discarded NotUsingSa
protect 62 = NoEncodingSa
protect 62 = NoEncodingSa
receive 9 2 3 1 14 clear = discarded NotUsingSa
step = done 2 refused SlotEmpty
fail never
power-loss half
open
receive 9 1 2 1 62 = discarded NotUsingSa
fail 3
rest = 0 idle
receive b 4 1 1 62 = discarded NotUsingSa
calls = 539
next 1 = 4294967294
fail never
power-loss durable
open
calls = 264
receive b 3 3 1 100 = discarded NotUsingSa
receive-plain 9216 = discarded NoTag
submit set-validate strict = 1
settings = Strict on 10 Explicit none 2
step = worked
submit rx-install b 2 5 0 7 = 2
receive b 1 3 2 14 = discarded NotUsingSa
stopped = no
refill = Busy
fail 0
next 3 = none
protect 9185 = TooLong
set-replay on 0 = Busy
fail 4 filled
settings = Strict on 10 Explicit none 2
rest = 4 idle
step = idle
step = idle
numbers 9 1 = none
stopped = no
settings = Strict on 10 Explicit none 2
rx-install b 3 3 1 = Disk
fail never
power-loss zeros
open
tx-remove 0 = refused SlotEmpty
tx-use 1
refill
numbers b 3 = none
rest = 0 idle
step = idle
numbers b 0 = none
receive-plain 13 = discarded Runt
protect 62 = 4294967294
next 2 = none
stopped = no
step = worked
rest = 3 idle
step = idle
step = idle
step = idle
numbers 9 0 = none
next 3 = none
stopped = no
protect 9185 = TooLong
rest = 0 idle
step = idle
receive-plain 0 = discarded Runt
receive 9 4 2 2 62 = discarded NotUsingSa
numbers b 3 = none
step = idle
receive 9 4 2 3 14 clear = discarded NotUsingSa
stopped = no
receive-plain 0 = discarded Runt
step = idle
receive 9 3 0 1 62 = discarded NotUsingSa
step = idle
rest = 0 idle
step = idle
tx-install 1 4 4294967293 = refused SlotTaken
receive-plain 14 = discarded NoTag
receive 9 3 2 1 62 = discarded NotUsingSa
step = idle
calls = 283
step = idle
step = idle
protect 9193 = TooLong
step = idle
submit tx-remove 3 = 1
step = done 1 refused SlotEmpty
refill
protect 62 = 4294967295
numbers 9 3 = none
settings = Strict on 10 Explicit 1 2
receive 9 3 3 1 62 clear = discarded NotUsingSa
submit rx-install 9 3 4 1 = 2
step = worked
protect 14 = Exhausted
step = worked
calls = 2
numbers 9 3 = none
numbers b 1 = none
settings = Strict on 10 Explicit 1 2
tx-install 0 1 1 = Busy
receive 9 1 1 1 62 = discarded NotUsingSa
receive b 2 0 1 100 = discarded NotUsingSa
receive 9 5 2 1 100 clear = discarded NotUsingSa
rest = 2 idle
receive-plain 13 = discarded Runt
next 0 = none
tx-use 3 = refused SlotEmpty
receive-plain 62 = discarded NoTag
settings = Strict on 10 Explicit 1 2
calls = 2
submit tx-use 0 = 3
rest = 1 idle
settings = Strict on 10 Explicit 1 2
rest = 0 idle
protect 13 = Runt
receive b 3 1 1 62 = discarded NotUsingSa
step = idle
receive-plain 62 = discarded NoTag
step = idle
protect 9185 = TooLong
protect 9185 = TooLong
receive-plain 14 = discarded NoTag
submit rx-remove b 0 = 4
refill = Busy
protect 62 = Exhausted
fail never
power-loss ones
open
numbers b 0 = none
protect 9184 = Exhausted
submit rx-install b 3 5 1 7 = 1
settings = Strict on 10 Explicit 1 2
step = done 1 refused OffsetChoice
refill
receive 9 4 3 1 100 = held back
numbers b 1 = none
submit rx-install b 3 5 1 50 = 2
receive 9 4 3 1 62 = held back
receive-plain 9217 = discarded Oversize
protect 9193 = TooLong
stopped = no
protect 14 = Exhausted
receive b 2 0 1 62 clear = discarded NotUsingSa

story random 80
format 0200000000010001 4 4
open
calls = 524
step = idle
submit rx-install 200000000010001 2 4 1 = 1
receive 9 5 3 1 14 clear = discarded NoSci
step = done 1 refused NoChannel
receive 9 5 3 1 62 = discarded NoSci
step = idle
numbers 9 3 = none
rest = 0 idle
calls = 0
protect 62 = NoEncodingSa
stopped = no
protect 13 = Runt
numbers b 1 = none
rx-add b
rest = 0 idle
numbers 9 1 = none
settings = Strict on 0 Explicit none 1
next 3 = none
next 0 = none
rest = 0 idle
receive b 5 2 1 14 = discarded NotUsingSa
step = idle
settings = Strict on 0 Explicit none 1
protect 9193 = TooLong
protect 9185 = TooLong
receive b 3 2 1 62 clear = discarded NotUsingSa
protect 62 = NoEncodingSa
refill
numbers 9 2 = none
step = idle
step = idle
step = idle
settings = Strict on 0 Explicit none 1
rx-install 9 3 5 1 7 = refused OffsetChoice
rest = 0 idle
stopped = no
fail never
power-loss last
open
receive-plain 13 = discarded Runt
refill
step = idle
receive 9 5 0 1 62 = discarded NoSci
receive-plain 0 = discarded Runt
rest = 0 idle
receive-plain 13 = discarded Runt
stopped = no
fail never
power-loss gate
open
rx-install 9 3 5 0 = refused StartRange
protect 62 = NoEncodingSa
step = idle
step = idle
stopped = no
receive-plain 9217 = discarded Oversize
step = idle
tx-use 3 = refused SlotEmpty
calls = 526
step = idle
step = idle
step = idle
stopped = no
settings = Strict on 0 Explicit none 1
step = idle
step = idle
calls = 0
step = idle
next 3 = none
stopped = no
settings = Strict on 0 Explicit none 1
next 3 = none
settings = Strict on 0 Explicit none 1
numbers b 3 = none
submit rx-remove b 3 = 1
step = done 1 refused SlotEmpty
submit rx-add b = 2
step = done 2 refused ChannelTaken
tx-install 1 5 1 30
tx-install 1 1 1 7 = refused OffsetChoice
protect 9184 = NoEncodingSa
settings = Strict on 0 Explicit none 1
tx-install 3 2 0 clear = refused StartRange
refill
step = idle
numbers b 3 = none
settings = Strict on 0 Explicit none 1
fail 8
rx-add b = refused ChannelTaken
settings = Strict on 0 Explicit none 1
protect 62 = NoEncodingSa
submit set-replay on 0 = 3
stopped = no
fail never
power-loss half
open
receive-plain 62 = discarded NoTag
refill
settings = Strict on 0 Explicit none 1
numbers b 1 = none
submit tx-install 3 3 1 30 = 1
step = worked
receive 9 1 0 1 14 = discarded NoSci
receive 9 4 0 2 100 = discarded NoSci
receive b 4 2 1 62 clear = discarded NotUsingSa
receive b 1 2 1 14 clear = discarded NotUsingSa
step = worked
receive-plain 0 = discarded Runt
stopped = no
receive-plain 0 = discarded Runt
settings = Strict on 0 Explicit none 1
submit set-sci-mode implicit = 2
calls = 268
stopped = no
receive-plain 13 = discarded Runt
step = worked
receive b 3 0 6 100 clear = discarded NotUsingSa
receive b 4 2 1 62 = discarded NotUsingSa
receive-plain 0 = discarded Runt
receive 9 3 0 1 14 clear = discarded NoSci
rx-install 9 2 2 4294967293 50 = Busy
rest = 5 idle
settings = Strict on 0 Implicit none 1
next 0 = none
protect 14 = NoEncodingSa
protect 9184 = NoEncodingSa
calls = 6
step = idle
stopped = no
settings = Strict on 0 Implicit none 1
fail 0 filled
receive b 2 2 1 62 clear = discarded NotUsingSa
submit rx-add b = 3
tx-use 2 = Busy
receive b 3 3 3 100 clear = discarded NotUsingSa
step = done 3 refused ChannelTaken
calls = 0
submit rx-drop b = 4
refill = Busy
settings = Strict on 0 Implicit none 1
refill = Busy
next 3 = 1
step = Disk
submit tx-remove 3 = Stopped
fail never
power-loss gate
open
protect 62 = NoEncodingSa
step = idle
next 1 = 5
rx-remove b 3 = refused SlotEmpty
receive b 3 1 1 62 broken = discarded NotUsingSa
receive-plain 14 = discarded NoTag
numbers 9 1 = none
receive 9 3 0 1 14 broken = discarded NoSci
protect 62 = NoEncodingSa
receive 9 5 2 6 100 = discarded NoSci
rx-add b = refused ChannelTaken
calls = 265
refill
fail never
power-loss gate
open
receive 9 4 0 1 62 = discarded NoSci
step = idle
refill
protect 62 = NoEncodingSa
receive 9 3 3 1 100 = discarded NoSci
receive-plain 62 = discarded NoTag
numbers b 3 = none
protect 62 = NoEncodingSa
calls = 264
protect 9185 = NoEncodingSa
fail never
power-loss durable
open
fail never
power-loss durable
open
refill
step = idle
next 0 = none
protect 9193 = TooLong
step = idle
calls = 528
step = idle
step = idle
receive 9 5 3 1 100 clear = discarded NoSci
rest = 0 idle
rest = 0 idle
protect 62 = NoEncodingSa
settings = Strict on 0 Implicit none 1
receive b 5 2 6 62 = discarded NotUsingSa
protect 62 = NoEncodingSa

story random 81
format 0200000000010001 1 1
open
next 2 = none
receive 9 5 3 6 62 = discarded NoSci
numbers b 2 = none
receive-plain 62 = discarded NoTag
receive-plain 9217 = discarded Oversize
set-validate check
fail never
power-loss half
open
refill
protect 9185 = TooLong
submit rx-install b 1 3 4294967293 30 = 1
stopped = no
calls = 789
step = done 1 refused NoChannel
receive b 1 3 3 14 clear = delivered UnknownSci
rest = 0 idle
protect 62 = NoEncodingSa
receive 9 2 0 1 62 = discarded NoSci
rx-add 9
submit rx-add 9 = 2
fail 2
next 0 = none
fail never
power-loss zeros
open
protect 62 = NoEncodingSa
receive 9 5 0 1 14 = discarded NotUsingSa
protect 9185 = TooLong
set-validate strict
receive-plain 0 = discarded Runt
stopped = no
protect 62 = NoEncodingSa
fail 5 on
submit set-validate check = 1
tx-install 0 1 1 7 = Busy
stopped = no
calls = 270
step = worked
receive b 3 1 1 62 broken = discarded NoSci
rest = 3 idle
calls = 4
step = idle
settings = Check on 0 Explicit none 1
numbers 9 0 = none
numbers 9 0 = none
numbers b 2 = none
protect 14 = NoEncodingSa
receive-plain 9217 = discarded Oversize
receive-plain 62 = delivered Untagged
fail 5 on
receive b 3 0 6 100 = discarded NoSci
numbers 9 1 = none
stopped = no
protect 9185 = TooLong
protect 9184 = NoEncodingSa
refill
rx-remove b 2 = refused NoChannel
next 1 = none
rest = 0 idle
receive 9 3 3 2 100 = discarded NotUsingSa
fail never
power-loss gate
open
submit set-validate check = 1
protect 62 = NoEncodingSa
step = worked
receive 9 3 3 1 100 = discarded NotUsingSa
refill = Busy
protect 62 = NoEncodingSa
step = worked
step = worked
stopped = no
submit tx-install 1 3 1 7 = 2
protect 62 = NoEncodingSa
submit set-replay on 4294967295 = 3
receive-plain 13 = discarded Runt
protect 9184 = NoEncodingSa
protect 62 = NoEncodingSa
step = done 1 ok
protect 9184 = NoEncodingSa
step = done 2 refused OffsetChoice
step = worked
protect 9184 = NoEncodingSa
refill = Busy
receive-plain 9217 = discarded Oversize
numbers 9 1 = none
protect 14 = NoEncodingSa
rest = 3 idle
protect 62 = NoEncodingSa
rx-install 9 2 5 4294967293 7 = refused OffsetChoice
settings = Check on 4294967295 Explicit none 1
fail 3 on
receive-plain 9216 = delivered Untagged
rx-add b = Disk
fail never
power-loss zeros
open
submit tx-use 3 = 1
next 0 = none
calls = 542
protect 9193 = TooLong
step = done 1 refused SlotEmpty
next 0 = none
receive b 3 1 1 14 clear = delivered UnknownSci
step = idle
receive-plain 62 = delivered Untagged
step = idle
receive-plain 9216 = delivered Untagged
rx-install b 0 4 70 7 = refused OffsetChoice
step = idle
rest = 0 idle
receive b 4 1 1 62 = discarded NoSci
rest = 0 idle
receive-plain 9217 = discarded Oversize
receive 9 4 2 3 100 clear = delivered UnusedSa
receive b 3 3 1 100 broken = discarded NoSci
numbers b 3 = none
refill
step = idle
rest = 0 idle
numbers 9 1 = none
settings = Check on 4294967295 Explicit none 1
fail never
power-loss zeros
open
submit rx-add 9 = 1
next 1 = none
submit rx-add b = 2
receive-plain 14 = delivered Untagged
settings = Check on 4294967295 Explicit none 1
receive 9 2 3 1 14 clear = delivered UnusedSa
protect 62 = NoEncodingSa
step = done 1 refused ChannelTaken
numbers 9 0 = none
step = worked
protect 9193 = TooLong
refill = Busy
step = worked
receive-plain 0 = discarded Runt
protect 9184 = NoEncodingSa
step = worked
settings = Check on 4294967295 Explicit none 1
next 3 = none
settings = Check on 4294967295 Explicit none 1
next 0 = none
step = done 2 ok
step = idle
step = idle
rest = 0 idle
step = idle
step = idle
step = idle
refill
rx-install 9 2 5 1 7 = refused OffsetChoice
step = idle
refill
settings = Check on 4294967295 Explicit none 2
stopped = no
refill
step = idle
calls = 270
protect 62 = NoEncodingSa
next 3 = none
receive b 1 0 1 62 broken = discarded NotUsingSa
fail 3 filled
receive b 2 2 3 14 clear broken = delivered UnusedSa
fail 6 on
step = idle
fail never
power-loss zeros
open
stopped = no
next 2 = none
step = idle
protect 62 = NoEncodingSa
tx-remove 0 = refused SlotEmpty
protect 62 = NoEncodingSa
protect 62 = NoEncodingSa
protect 62 = NoEncodingSa
step = idle
refill
protect 62 = NoEncodingSa
rx-install 200000000010001 3 5 1 = refused NoChannel
receive b 5 2 1 62 = discarded NotUsingSa
step = idle
next 1 = none
settings = Check on 4294967295 Explicit none 2
protect 62 = NoEncodingSa
numbers 9 1 = none
settings = Check on 4294967295 Explicit none 2
submit rx-add b = 1
submit rx-install b 1 2 4294967293 50 = 2
fail never
power-loss ones
open
refill
step = idle
receive-plain 62 = delivered Untagged
protect 62 = NoEncodingSa

story random 82
format 0200000000010001 4 4
open
numbers 9 1 = none
protect 14 = NoEncodingSa
next 2 = none
numbers 9 2 = none
receive 9 1 1 1 62 = discarded NoSci
rest = 0 idle
tx-install 0 4 70 clear
rx-add 9
protect 9184 = NoEncodingSa
protect 13 = Runt
submit rx-remove 9 3 = 1
next 2 = none
set-replay on 0 = Busy
step = done 1 refused SlotEmpty
step = idle
fail never
power-loss half
open
receive 9 3 2 1 62 = discarded NotUsingSa
protect 14 = NoEncodingSa
next 1 = none
receive 9 1 1 1 100 = discarded NotUsingSa
protect 9193 = TooLong
submit tx-use 1 = 1
stopped = no
step = done 1 refused SlotEmpty
tx-remove 2 = refused SlotEmpty
protect 14 = NoEncodingSa
protect 62 = NoEncodingSa
numbers 9 3 = none
next 3 = none
rx-install 9 1 4 4294967293
receive-plain 9217 = discarded Oversize
settings = Strict on 0 Explicit none 1
receive 9 4 1 4294967294 62 = held back
stopped = no
protect 62 = NoEncodingSa
next 3 = none
stopped = no
submit tx-remove 2 = 2
step = worked
rest = 4 idle
tx-install 1 1 0 clear = refused StartRange
numbers 9 1 = 4294967293 4294967293
submit set-validate check = 3
refill = Busy
submit rx-remove b 2 = 4
protect 9193 = TooLong
protect 9185 = TooLong
receive 9 4 1 4294967293 62 broken = discarded NotValid
receive b 5 3 1 100 = discarded NoSci
receive-plain 9216 = discarded NoTag
receive 9 4 1 4294967293 14 broken = discarded NotValid
settings = Strict on 0 Explicit none 1
refill = Busy
calls = 802
protect 9184 = NoEncodingSa
step = worked
submit tx-install 1 5 1 = 5
receive-plain 13 = discarded Runt
step = worked
calls = 2
receive 9 4 1 4294967294 62 = delivered Ok
receive 9 4 1 4294967294 62 = discarded Late
rx-drop 9 = Busy
tx-install 2 1 1 = Busy
step = worked
calls = 1
step = done 3 ok
next 3 = none
step = done 4 refused NoChannel
receive 9 4 1 4294967292 14 = discarded Late
step = worked
rest = 3 idle
submit tx-remove 1 = 6
rest = 4 idle
receive 9 4 1 4294967295 62 clear = delivered Ok
step = idle
step = idle
step = idle
calls = 9
receive b 4 3 1 100 clear = delivered UnknownSci
protect 62 = NoEncodingSa
protect 62 = NoEncodingSa
receive-plain 9216 = delivered Untagged
protect 14 = NoEncodingSa
step = idle
receive 9 4 1 4294967295 100 clear = discarded Late
receive-plain 62 = delivered Untagged
receive-plain 14 = delivered Untagged
step = idle
set-replay off 0
refill
next 1 = none
stopped = no
receive b 1 3 1 14 = discarded NoSci
step = idle
receive-plain 0 = discarded Runt
refill
rest = 0 idle
calls = 4
rest = 0 idle
rest = 0 idle
numbers 9 0 = none
stopped = no
protect 62 = NoEncodingSa
settings = Check off 0 Explicit none 1
numbers 9 2 = none
submit tx-remove 3 = 7
refill = Busy
receive 9 4 1 4294967293 100 = delivered Delayed
next 3 = none
step = done 7 refused SlotEmpty
protect 13 = Runt
protect 62 = NoEncodingSa
protect 62 = NoEncodingSa
receive-plain 13 = discarded Runt
receive-plain 9217 = discarded Oversize
protect 9193 = TooLong
stopped = no
fail 6
calls = 0
submit rx-install b 0 2 1 50 = 8
step = done 8 refused NoChannel
submit tx-install 1 5 4294967293 clear = 9
protect 9193 = TooLong
stopped = no
protect 14 = NoEncodingSa
step = done 9 refused KeySpent
protect 62 = NoEncodingSa
refill
refill
refill
receive 9 4 1 4294967293 62 clear = delivered Delayed
refill
fail never
close
open
step = idle
receive 9 4 1 4294967295 100 clear = delivered Delayed
set-replay on 0
submit rx-remove 9 0 = 1
receive 9 4 1 4294967295 14 = discarded Late
stopped = no
receive 9 4 1 4294967293 62 clear broken = discarded Late
stopped = no
receive-plain 9217 = discarded Oversize
step = done 1 refused SlotEmpty
set-validate strict
protect 13 = Runt
protect 9185 = TooLong
receive-plain 9216 = discarded NoTag
receive 9 4 1 4294967295 62 = discarded Late
next 3 = none
receive 9 4 1 4294967295 14 = discarded Late
settings = Strict on 0 Explicit none 1
fail never
power-loss durable
open
rx-add b
tx-remove 0
next 0 = none
numbers 9 2 = none
stopped = no
rest = 0 idle
calls = 554
calls = 0
receive 9 4 1 4294967295 100 = discarded Late
receive 9 4 1 4294967295 14 broken = discarded Late
calls = 0
receive-plain 14 = discarded NoTag
step = idle
step = idle
refill
rest = 0 idle
step = idle
step = idle
step = idle
step = idle
fail 2 on
receive 9 4 1 4294967295 62 clear = discarded Late
step = idle
rest = 0 idle
fail never
power-loss ones
open
refill
tx-use 0 = refused SlotEmpty
protect 62 = NoEncodingSa
step = idle
stopped = no
receive-plain 62 = discarded NoTag
receive 9 4 1 4294967295 62 = discarded Late
step = idle
receive b 1 3 2 100 = discarded NotUsingSa
fail 6 filled
set-sci-mode implicit

story random 83
format 0200000000010001 2 2
open
step = idle
step = idle
step = idle
step = idle
next 3 = none
protect 13 = Runt
protect 62 = NoEncodingSa
protect 14 = NoEncodingSa
protect 62 = NoEncodingSa
rest = 0 idle
submit rx-install 9 0 5 1 7 = 1
calls = 524
receive 9 5 3 1 100 clear = discarded NoSci
next 1 = none
receive b 3 3 1 62 = discarded NoSci
refill = Busy
calls = 0
rest = 1 idle
fail 0 filled
submit set-sci-mode end-station = 2
settings = Strict on 0 Explicit none 0
receive-plain 62 = discarded NoTag
receive 9 3 2 1 14 = discarded NoSci
receive-plain 9216 = discarded NoTag
protect 62 = NoEncodingSa
stopped = no
step = Disk
fail never
power-loss last
open
receive-plain 62 = discarded NoTag
settings = Strict on 0 Explicit none 0
calls = 261
numbers b 0 = none
receive 9 1 1 1 62 = discarded NoSci
receive 9 1 1 1 100 = discarded NoSci
step = idle
stopped = no
rx-install 9 3 5 70 = refused NoChannel
receive-plain 13 = discarded Runt
refill
refill
rx-install 9 2 3 0 = refused StartRange
rx-remove b 0 = refused NoChannel
rx-add b
step = idle
rest = 0 idle
protect 9193 = TooLong
numbers 9 0 = none
rest = 0 idle
receive b 2 0 1 62 clear = discarded NotUsingSa
fail never
power-loss gate
open
receive 9 5 2 1 62 = discarded NoSci
receive-plain 9217 = discarded Oversize
receive 9 5 2 6 62 = discarded NoSci
receive-plain 13 = discarded Runt
fail never
power-loss half
open
protect 62 = NoEncodingSa
calls = 526
submit rx-install 9 1 4 70 = 1
protect 9185 = TooLong
numbers b 3 = none
rest = 1 idle
refill
step = idle
numbers 9 1 = none
stopped = no
protect 9185 = TooLong
calls = 0
step = idle
refill
fail never
close
open
receive 9 3 0 2 100 = discarded NoSci
receive b 1 0 2 14 broken = discarded NotUsingSa
step = idle
rest = 0 idle
submit set-replay on 0 = 1
step = worked
numbers 9 3 = none
next 1 = none
refill = Busy
protect 9185 = TooLong
receive b 5 1 2 62 = discarded NotUsingSa
calls = 262
calls = 0
stopped = no
step = worked
step = worked
receive b 1 2 3 62 = discarded NotUsingSa
calls = 2
numbers 9 0 = none
submit rx-add b = 2
fail 8
settings = Strict on 0 Explicit none 1
refill = Busy
stopped = no
settings = Strict on 0 Explicit none 1
step = done 1 ok
fail never
power-loss half
open
stopped = no
step = idle
step = idle
submit tx-install 3 5 70 clear = 1
fail never
power-loss half
open
calls = 525
protect 62 = NoEncodingSa
step = idle
calls = 0
receive-plain 13 = discarded Runt
rx-drop 9 = refused NoChannel
calls = 0
receive-plain 13 = discarded Runt
receive 9 5 1 2 100 = discarded NoSci
calls = 0
submit rx-remove b 2 = 1
fail never
power-loss zeros
open
submit tx-remove 1 = 1
receive-plain 0 = discarded Runt
receive 9 2 3 6 62 = discarded NoSci
receive-plain 62 = discarded NoTag
tx-remove 3 = Busy
fail never
power-loss half
open
fail 7 on
tx-use 3 = refused SlotEmpty
next 2 = none
step = idle
protect 9184 = NoEncodingSa
protect 9184 = NoEncodingSa
step = idle
stopped = no
calls = 524
receive 9 1 0 1 100 = discarded NoSci
receive-plain 9217 = discarded Oversize
submit rx-install b 2 1 1 50 = 1
receive b 4 0 1 14 clear = discarded NotUsingSa
receive-plain 9217 = discarded Oversize
step = worked
step = worked
receive b 4 3 1 62 clear = discarded NotUsingSa
stopped = no
tx-install 0 4 1 50 = Busy
rest = 2 idle
refill
step = idle
rx-add 200000000010001 = refused OwnSci
protect 13 = Runt
stopped = no
fail 6 filled
receive b 1 2 2 62 clear = held back
next 0 = none
receive b 1 2 2 14 50 = held back
step = worked
step = worked
receive b 1 2 6 62 50 = held back
protect 14 = NoEncodingSa
step = worked
rx-add 9 = Disk
rest = 0 Stopped
fail never
power-loss last
open
protect 9185 = TooLong
step = idle
step = idle
stopped = no
rest = 0 idle
step = idle
refill
step = idle
settings = Strict on 0 Explicit none 1
step = idle
fail never
power-loss zeros
open
rest = 0 idle
protect 9184 = NoEncodingSa
step = idle
settings = Strict on 0 Explicit none 1
step = idle
step = idle
fail 6
protect 13 = Runt
protect 9184 = NoEncodingSa
next 2 = none
step = idle
receive b 1 2 4 62 50 = held back
receive-plain 13 = discarded Runt
step = worked

story random 84
format 0200000000010001 4 4
open
protect 13 = Runt
protect 9193 = TooLong
calls = 524
refill
submit tx-use 1 = 1
settings = Strict on 0 Explicit none 0
step = done 1 refused SlotEmpty
receive b 2 0 1 62 clear = discarded NoSci
stopped = no
step = idle
rest = 0 idle
protect 62 = NoEncodingSa
stopped = no
submit rx-install 9 3 5 70 = 2
receive b 3 2 1 62 broken = discarded NoSci
protect 62 = NoEncodingSa
step = done 2 refused NoChannel
protect 9184 = NoEncodingSa
receive-plain 62 = discarded NoTag
step = idle
calls = 0
calls = 0
submit set-validate strict = 3
refill = Busy
refill = Busy
submit set-validate strict = 4
stopped = no
submit tx-remove 1 = 5
receive 9 5 3 1 62 broken = discarded NoSci
submit rx-install b 1 5 1 30 = 6
rest = 10 idle
fail never
power-loss durable
open
calls = 270
rest = 0 idle
calls = 0
rest = 0 idle
stopped = no
submit set-replay on 10 = 1
step = worked
stopped = no
step = worked
fail 7 on
step = worked
step = done 1 ok
fail 2
fail never
power-loss durable
open
rest = 0 idle
protect 62 = NoEncodingSa
rx-install 200000000010001 2 4 1 = refused NoChannel
receive b 1 0 3 100 = discarded NoSci
step = idle
calls = 267
receive b 1 2 1 62 = discarded NoSci
set-validate check
numbers b 0 = none
step = idle
next 2 = none
settings = Check on 10 Explicit none 0
receive 9 2 2 6 62 clear = delivered UnknownSci
receive-plain 62 = delivered Untagged
submit rx-remove b 3 = 1
protect 9184 = NoEncodingSa
step = done 1 refused NoChannel
rest = 0 idle
rest = 0 idle
step = idle
step = idle
protect 62 = NoEncodingSa
refill
step = idle
protect 9185 = TooLong
calls = 4
protect 62 = NoEncodingSa
refill
submit tx-use 1 = 2
protect 13 = Runt
settings = Check on 10 Explicit none 0
submit set-sci-mode end-station = 3
receive-plain 14 = delivered Untagged
receive 9 1 2 1 62 = discarded NoSci
rest = 5 idle
calls = 4
numbers b 2 = none
step = idle
stopped = no
stopped = no
step = idle
fail never
power-loss zeros
open
step = idle
fail 0 filled
refill
step = idle
settings = Check on 10 EndStation none 0
settings = Check on 10 EndStation none 0
receive b 3 1 1 62 clear = delivered UnknownSci
rest = 0 idle
receive 9 1 3 3 62 = discarded NoSci
refill
receive 9 4 1 1 100 clear = delivered UnknownSci
step = idle
receive 9 2 1 6 62 = discarded NoSci
refill
refill
rx-install b 1 4 1 30 = refused NoChannel
tx-install 2 1 4294967293 clear = Disk
calls = 266
receive b 4 1 6 14 = Stopped
next 3 = none
submit tx-remove 2 = Stopped
protect 9193 = Stopped
protect 62 = Stopped
step = Stopped
receive 9 5 1 1 62 = Stopped
fail never
close
open
settings = Check on 10 EndStation none 0
receive-plain 62 = delivered Untagged
submit rx-add 9 = 1
stopped = no
stopped = no
step = worked
step = worked
numbers 9 0 = none
receive 9 4 3 1 100 = discarded NoSci
step = worked
receive-plain 14 = delivered Untagged
rest = 1 idle
calls = 269
step = idle
receive 9 3 2 3 14 = discarded NotUsingSa
receive 9 2 3 2 62 clear broken = delivered UnusedSa
step = idle
fail never
close
open
receive 9 3 2 6 14 = discarded NotUsingSa
numbers b 0 = none
receive b 1 0 1 100 = discarded NoSci
numbers b 3 = none
refill
receive-plain 14 = delivered Untagged
receive-plain 62 = delivered Untagged
step = idle
settings = Check on 10 EndStation none 1
calls = 266
stopped = no
receive 9 2 2 2 62 broken = discarded NotUsingSa
set-sci-mode implicit
receive b 5 1 1 62 = discarded NoSci
protect 62 = NoEncodingSa
receive-plain 9217 = discarded Oversize
protect 9184 = NoEncodingSa
calls = 4
stopped = no
submit set-sci-mode explicit = 1
receive-plain 9216 = delivered Untagged
set-replay on 4294967295 = Busy
step = worked
receive b 1 1 1 14 = discarded NoSci
numbers 9 3 = none
step = worked
protect 9184 = NoEncodingSa
settings = Check on 10 Implicit none 1
receive 9 5 3 1 62 = discarded NotUsingSa
step = worked
numbers b 3 = none
refill = Busy
settings = Check on 10 Implicit none 1
submit rx-install b 0 5 1 50 = 2
rest = 2 idle
refill
refill
step = idle
next 0 = none
rest = 0 idle
calls = 4
refill
step = idle
receive-plain 0 = discarded Runt
set-replay off 3
stopped = no
step = idle
refill
refill
refill
receive-plain 0 = discarded Runt
fail never
power-loss durable
open
numbers b 2 = none
calls = 273
receive-plain 62 = delivered Untagged

story random 85
format 0200000000010001 4 4
open
protect 13 = Runt
settings = Strict on 0 Explicit none 0
step = idle
submit tx-install 0 4 0 = 1
tx-use 0 = Busy
fail never
power-loss last
open
tx-use 3 = refused SlotEmpty
receive 9 1 2 6 100 clear = discarded NoSci
settings = Strict on 0 Explicit none 0
receive 9 1 0 2 62 = discarded NoSci
step = idle
submit rx-install 200000000010001 2 4 1 7 = 1
step = done 1 refused OffsetChoice
step = idle
step = idle
receive b 5 2 1 100 clear = discarded NoSci
receive-plain 0 = discarded Runt
rest = 0 idle
submit tx-install 1 2 1 = 2
fail never
power-loss gate
open
protect 62 = NoEncodingSa
step = idle
protect 62 = NoEncodingSa
receive b 3 1 1 62 clear broken = discarded NoSci
step = idle
protect 9193 = TooLong
calls = 1044
numbers b 1 = none
submit rx-add 9 = 1
rest = 4 idle
protect 13 = Runt
tx-install 0 5 0 50 = refused StartRange
settings = Strict on 0 Explicit none 1
protect 62 = NoEncodingSa
step = idle
receive b 5 3 6 100 clear = discarded NoSci
numbers b 1 = none
protect 9184 = NoEncodingSa
submit rx-remove b 2 = 2
stopped = no
step = done 2 refused NoChannel
step = idle
next 1 = none
tx-install 2 2 4294967293 50
protect 62 = NoEncodingSa
rest = 0 idle
rest = 0 idle
refill
step = idle
receive-plain 9217 = discarded Oversize
step = idle
calls = 8
rx-add 200000000010001 = refused OwnSci
fail never
power-loss ones
open
calls = 262
rest = 0 idle
stopped = no
submit rx-install b 3 2 1 30 = 1
step = done 1 refused NoChannel
refill
calls = 0
receive b 1 2 1 14 = discarded NoSci
stopped = no
numbers 9 0 = none
submit rx-install b 1 5 70 50 = 2
receive-plain 14 = discarded NoTag
refill = Busy
fail never
power-loss durable
open
numbers b 0 = none
protect 62 = NoEncodingSa
protect 13 = Runt
submit rx-remove 9 3 = 1
rest = 1 idle
step = idle
fail never
power-loss half
open
receive 9 1 0 1 14 = discarded NotUsingSa
calls = 524
step = idle
step = idle
calls = 0
step = idle
step = idle
step = idle
fail never
power-loss ones
open
receive b 2 0 1 100 = discarded NoSci
step = idle
refill
numbers 9 1 = none
settings = Strict on 0 Explicit none 1
settings = Strict on 0 Explicit none 1
step = idle
receive 9 5 0 1 62 clear = discarded NotUsingSa
protect 62 = NoEncodingSa
refill
receive 9 2 2 2 100 broken = discarded NotUsingSa
refill
rx-add 9 = refused ChannelTaken
settings = Strict on 0 Explicit none 1
step = idle
stopped = no
fail never
power-loss ones
open
calls = 524
stopped = no
receive 9 4 3 1 62 broken = discarded NotUsingSa
step = idle
protect 14 = NoEncodingSa
rest = 0 idle
refill
submit rx-add b = 1
protect 9184 = NoEncodingSa
next 1 = none
stopped = no
stopped = no
step = worked
receive-plain 9217 = discarded Oversize
calls = 1
step = worked
protect 62 = NoEncodingSa
receive b 2 1 1 62 = discarded NoSci
receive b 5 0 6 14 = discarded NoSci
step = worked
protect 9184 = NoEncodingSa
submit tx-remove 0 = 2
receive 9 2 2 1 100 = discarded NotUsingSa
rx-drop 9 = Busy
stopped = no
calls = 2
next 3 = none
rx-remove 200000000010001 3 = Busy
receive 9 4 0 3 100 broken = discarded NotUsingSa
rest = 2 idle
next 0 = none
protect 9184 = NoEncodingSa
stopped = no
stopped = no
numbers 9 3 = none
step = idle
refill
step = idle
rest = 0 idle
submit set-sci-mode explicit = 3
rest = 4 idle
protect 62 = NoEncodingSa
receive 9 1 1 2 100 = discarded NotUsingSa
settings = Strict on 0 Explicit none 2
numbers 9 1 = none
rx-install 9 2 2 1
protect 9184 = NoEncodingSa
step = idle
rest = 0 idle
protect 14 = NoEncodingSa
rx-remove b 3 = refused SlotEmpty
protect 9193 = TooLong
numbers b 2 = none
submit tx-use 3 = 4
step = done 4 refused SlotEmpty
rest = 0 idle
numbers b 0 = none
stopped = no
receive-plain 13 = discarded Runt
step = idle
refill
fail never
close
open
refill
protect 62 = NoEncodingSa
next 3 = none
protect 62 = NoEncodingSa
refill
settings = Strict on 0 Explicit none 2
receive 9 2 2 1 62 = held back
settings = Strict on 0 Explicit none 2
stopped = no
protect 9184 = NoEncodingSa
receive 9 1 0 2 62 = discarded NotUsingSa
step = worked
protect 14 = NoEncodingSa
receive 9 2 2 1 100 clear = held back
step = worked
submit tx-use 0 = 1
step = worked

story random 86
format 0200000000010001 4 4
open
numbers b 1 = none
receive-plain 62 = discarded NoTag
protect 9184 = NoEncodingSa
calls = 524
step = idle
stopped = no
next 3 = none
rest = 0 idle
fail never
close
open
stopped = no
rest = 0 idle
submit tx-use 1 = 1
step = done 1 refused SlotEmpty
numbers 9 3 = none
settings = Strict on 0 Explicit none 0
rest = 0 idle
rx-drop 9 = refused NoChannel
step = idle
numbers b 0 = none
protect 62 = NoEncodingSa
receive 9 4 2 3 100 clear = discarded NoSci
numbers 9 0 = none
settings = Strict on 0 Explicit none 0
calls = 260
refill
refill
step = idle
protect 13 = Runt
settings = Strict on 0 Explicit none 0
protect 62 = NoEncodingSa
settings = Strict on 0 Explicit none 0
calls = 0
tx-install 0 4 1 clear
receive-plain 14 = discarded NoTag
set-validate strict
receive 9 3 0 1 62 = discarded NoSci
receive 9 3 1 1 62 = discarded NoSci
stopped = no
step = idle
step = idle
set-replay off 0
receive b 5 3 1 100 clear = discarded NoSci
calls = 12
receive-plain 0 = discarded Runt
settings = Strict off 0 Explicit none 0
submit set-sci-mode explicit = 2
step = worked
settings = Strict off 0 Explicit none 0
next 3 = none
protect 9193 = TooLong
rx-add b = Busy
next 1 = none
submit rx-add 9 = 3
submit rx-drop b = 4
tx-use 2 = Busy
tx-install 3 5 1 clear = Busy
settings = Strict off 0 Explicit none 0
receive b 5 3 1 62 = discarded NoSci
receive 9 1 0 1 62 clear = discarded NoSci
settings = Strict off 0 Explicit none 0
protect 13 = Runt
rest = 8 idle
protect 62 = NoEncodingSa
next 0 = 1
step = idle
step = idle
receive 9 2 3 2 14 = discarded NotUsingSa
step = idle
step = idle
settings = Strict off 0 Explicit none 1
protect 9193 = TooLong
refill
numbers b 1 = none
rest = 0 idle
receive b 3 0 1 62 broken = discarded NoSci
submit tx-use 0 = 5
fail 2
next 0 = 1
receive b 3 2 3 62 clear = discarded NoSci
step = worked
receive b 2 0 1 100 clear = discarded NoSci
fail never
power-loss last
open
receive-plain 0 = discarded Runt
receive 9 4 1 1 62 = discarded NotUsingSa
receive 9 2 3 1 62 = discarded NotUsingSa
settings = Strict off 0 Explicit none 1
settings = Strict off 0 Explicit none 1
receive 9 3 0 1 62 clear broken = discarded NotUsingSa
calls = 274
receive b 5 0 1 14 = discarded NoSci
receive-plain 0 = discarded Runt
step = idle
submit rx-add 9 = 1
submit rx-add b = 2
numbers b 0 = none
receive 9 2 3 1 62 clear = discarded NotUsingSa
settings = Strict off 0 Explicit none 1
protect 9193 = TooLong
numbers b 2 = none
receive-plain 9217 = discarded Oversize
numbers 9 1 = none
fail never
power-loss zeros
open
step = idle
step = idle
calls = 265
numbers 9 1 = none
step = idle
rx-install b 0 3 1 30 = refused NoChannel
fail never
power-loss ones
open
submit set-replay off 4294967295 = 1
calls = 265
protect 62 = NoEncodingSa
refill = Busy
settings = Strict off 0 Explicit none 1
stopped = no
receive b 5 2 6 14 clear = discarded NoSci
rest = 4 idle
next 2 = none
step = idle
receive 9 2 3 1 100 broken = discarded NotUsingSa
refill
receive-plain 9216 = discarded NoTag
receive-plain 13 = discarded Runt
next 0 = 5
rest = 0 idle
receive 9 3 3 6 62 = discarded NotUsingSa
step = idle
settings = Strict off 4294967295 Explicit none 1
step = idle
set-validate strict
numbers b 3 = none
receive-plain 0 = discarded Runt
protect 14 = NoEncodingSa
step = idle
next 3 = none
refill
protect 9185 = TooLong
receive b 4 0 3 62 clear = discarded NoSci
step = idle
receive b 4 0 1 14 = discarded NoSci
step = idle
step = idle
protect 9184 = NoEncodingSa
receive b 1 2 1 62 = discarded NoSci
receive-plain 9216 = discarded NoTag
step = idle
numbers 9 0 = none
numbers b 0 = none
step = idle
receive b 2 1 1 62 clear broken = discarded NoSci
rest = 0 idle
tx-install 3 1 1
refill
protect 14 = NoEncodingSa
step = idle
receive 9 1 2 1 62 = discarded NotUsingSa
submit rx-remove 9 3 = 2
calls = 12
protect 9185 = TooLong
calls = 0
submit tx-use 3 = 3
protect 13 = Runt
receive-plain 14 = discarded NoTag
refill = Busy
protect 14 = NoEncodingSa
protect 9193 = TooLong
protect 9193 = TooLong
refill = Busy
refill = Busy
step = done 2 refused SlotEmpty
fail never
power-loss half
open
receive 9 4 0 1 62 = discarded NotUsingSa
step = idle
stopped = no
step = idle
step = idle
next 1 = none
calls = 268
submit set-sci-mode explicit = 1
step = worked
receive b 3 0 3 62 = discarded NoSci
submit tx-use 3 = 2
receive b 1 1 2 100 = discarded NoSci
step = worked
rest = 10 idle
rest = 0 idle

story random 87
format 0200000000010001 2 2
open
step = idle
calls = 524
step = idle
receive b 3 0 1 14 = discarded NoSci
receive 9 3 2 6 62 = discarded NoSci
refill
next 0 = none
receive b 3 1 2 100 clear broken = discarded NoSci
receive b 3 3 1 14 = discarded NoSci
next 2 = none
set-replay on 4294967295
protect 62 = NoEncodingSa
step = idle
protect 62 = NoEncodingSa
step = idle
refill
receive 9 3 2 2 100 = discarded NoSci
rest = 0 idle
next 1 = none
next 3 = none
rest = 0 idle
step = idle
calls = 4
numbers 9 1 = none
rest = 0 idle
numbers 9 1 = none
receive 9 2 1 2 14 broken = discarded NoSci
step = idle
receive 9 5 1 3 100 = discarded NoSci
step = idle
receive 9 4 3 1 14 clear = discarded NoSci
protect 14 = NoEncodingSa
calls = 0
settings = Strict on 4294967295 Explicit none 0
protect 9193 = TooLong
step = idle
fail 1 filled
receive-plain 62 = discarded NoTag
rx-install 200000000010001 0 3 0 = refused StartRange
submit tx-install 0 2 1 clear = 1
protect 14 = NoEncodingSa
next 1 = none
calls = 0
receive b 3 1 1 62 = discarded NoSci
refill = Busy
protect 62 = NoEncodingSa
settings = Strict on 4294967295 Explicit none 0
protect 62 = NoEncodingSa
refill = Busy
refill = Busy
refill = Busy
protect 9185 = TooLong
settings = Strict on 4294967295 Explicit none 0
submit tx-install 1 4 1 clear = 2
fail never
power-loss gate
open
submit rx-drop b = 1
stopped = no
protect 62 = NoEncodingSa
settings = Strict on 4294967295 Explicit none 0
protect 13 = Runt
receive 9 4 1 1 100 = discarded NoSci
submit tx-remove 1 = 2
numbers 9 3 = none
numbers 9 1 = none
calls = 261
step = done 1 refused NoChannel
receive-plain 13 = discarded Runt
calls = 0
step = done 2 refused SlotEmpty
next 0 = none
protect 62 = NoEncodingSa
receive-plain 9216 = discarded NoTag
stopped = no
receive-plain 62 = discarded NoTag
step = idle
step = idle
receive b 1 2 1 100 clear = discarded NoSci
step = idle
set-replay on 0
receive-plain 14 = discarded NoTag
step = idle
refill
fail never
close
open
stopped = no
refill
refill
protect 62 = NoEncodingSa
receive-plain 62 = discarded NoTag
protect 13 = Runt
receive 9 1 3 1 62 clear = discarded NoSci
next 1 = none
stopped = no
protect 62 = NoEncodingSa
rx-install b 0 3 70 7 = refused OffsetChoice
receive-plain 0 = discarded Runt
refill
stopped = no
step = idle
step = idle
receive 9 4 1 1 14 broken = discarded NoSci
set-sci-mode implicit
step = idle
step = idle
step = idle
rest = 0 idle
submit rx-install 9 2 2 1 30 = 1
step = done 1 refused NoChannel
receive 9 2 1 1 100 clear = discarded NoSci
submit rx-install b 3 2 70 = 2
step = done 2 refused NoChannel
receive b 4 3 2 62 clear = discarded NoSci
step = idle
protect 13 = Runt
receive-plain 14 = discarded NoTag
numbers 9 3 = none
submit tx-install 2 2 1 clear = 3
protect 14 = NoEncodingSa
numbers b 2 = none
step = worked
receive 9 5 2 1 100 clear = discarded NoSci
step = worked
protect 62 = NoEncodingSa
receive b 4 0 1 100 = discarded NoSci
next 3 = none
step = worked
rest = 1 idle
submit rx-install b 1 5 1 = 4
rx-install b 3 3 1 50 = Busy
fail never
power-loss zeros
open
receive-plain 9216 = discarded NoTag
rest = 0 idle
submit rx-install 9 2 4 0 7 = 1
settings = Strict on 0 Implicit none 0
submit rx-add b = 2
fail 8
numbers 9 3 = none
stopped = no
step = done 1 refused StartRange
step = worked
receive 9 1 0 6 62 = discarded NoSci
calls = 539
fail never
close
open
receive-plain 62 = discarded NoTag
stopped = no
step = idle
rest = 0 idle
submit set-replay on 3 = 1
rx-drop b = Busy
step = worked
submit tx-install 2 1 1 7 = 2
rest = 4 idle
receive b 1 0 1 14 = discarded NoSci
protect 62 = NoEncodingSa
protect 62 = NoEncodingSa
calls = 268
calls = 0
fail never
power-loss gate
open
receive 9 5 3 1 62 = discarded NoSci
protect 62 = NoEncodingSa
next 0 = none
settings = Strict on 3 Implicit none 0
step = idle
step = idle
receive 9 2 1 1 62 = discarded NoSci
receive-plain 9216 = discarded NoTag
numbers b 1 = none
receive-plain 0 = discarded Runt
receive-plain 14 = discarded NoTag
fail never
power-loss durable
open
calls = 530
settings = Strict on 3 Implicit none 0
protect 13 = Runt
refill
stopped = no
step = idle
step = idle
next 3 = none
rest = 0 idle
rest = 0 idle
calls = 0
protect 13 = Runt
rest = 0 idle
refill
set-replay off 10
next 3 = none
protect 62 = NoEncodingSa

story random 88
format 0200000000010001 4 4
open
refill
next 2 = none
rest = 0 idle
receive 9 3 3 1 62 = discarded NoSci
step = idle
receive-plain 62 = discarded NoTag
step = idle
next 0 = none
refill
fail 3 on
receive 9 1 2 1 14 = discarded NoSci
rest = 0 idle
refill
protect 62 = NoEncodingSa
step = idle
step = idle
step = idle
numbers b 2 = none
submit tx-use 1 = 1
receive b 5 0 1 14 clear = discarded NoSci
settings = Strict on 0 Explicit none 0
fail 5
numbers b 0 = none
calls = 524
protect 9193 = TooLong
receive-plain 14 = discarded NoTag
next 3 = none
fail 4 filled
stopped = no
step = done 1 refused SlotEmpty
step = idle
receive 9 4 3 6 62 = discarded NoSci
next 2 = none
receive b 5 3 1 100 clear = discarded NoSci
step = idle
protect 62 = NoEncodingSa
receive-plain 9217 = discarded Oversize
submit tx-use 3 = 2
protect 62 = NoEncodingSa
receive-plain 9216 = discarded NoTag
submit rx-add 9 = 3
receive-plain 9217 = discarded Oversize
submit rx-install 9 2 4 70 30 = 4
receive-plain 13 = discarded Runt
step = done 2 refused SlotEmpty
fail 5
protect 62 = NoEncodingSa
rest = 5 Disk
numbers 9 2 = none
fail never
power-loss ones
open
settings = Strict on 0 Explicit none 1
receive b 2 0 1 62 = discarded NoSci
refill
settings = Strict on 0 Explicit none 1
refill
rest = 0 idle
calls = 267
numbers 9 1 = none
step = idle
step = idle
stopped = no
submit set-sci-mode implicit = 1
fail never
power-loss last
open
numbers b 1 = none
receive b 5 2 2 14 = discarded NoSci
fail never
power-loss gate
open
protect 62 = NoEncodingSa
next 2 = none
protect 9185 = TooLong
next 1 = none
stopped = no
rx-remove b 1 = refused NoChannel
calls = 522
step = idle
calls = 0
settings = Strict on 0 Explicit none 1
protect 62 = NoEncodingSa
stopped = no
protect 9185 = TooLong
receive b 1 1 1 62 broken = discarded NoSci
next 0 = none
calls = 0
step = idle
step = idle
receive b 5 0 6 100 clear = discarded NoSci
rest = 0 idle
step = idle
numbers 9 1 = none
receive b 2 2 2 100 clear = discarded NoSci
rest = 0 idle
settings = Strict on 0 Explicit none 1
tx-install 0 1 1
calls = 4
step = idle
numbers 9 3 = none
stopped = no
protect 14 = NoEncodingSa
receive-plain 14 = discarded NoTag
receive-plain 9216 = discarded NoTag
next 3 = none
fail never
power-loss last
open
next 0 = 5
tx-install 3 2 4294967293 30
next 3 = 4294967293
receive 9 1 3 1 100 = discarded NotUsingSa
receive b 1 1 1 62 = discarded NoSci
refill
refill
receive b 5 1 1 14 = discarded NoSci
numbers b 3 = none
step = idle
calls = 266
fail 7 on
next 2 = none
stopped = no
protect 62 = NoEncodingSa
protect 9184 = NoEncodingSa
step = idle
stopped = no
step = idle
set-replay off 4294967295
stopped = no
step = idle
calls = 4
fail never
power-loss gate
open
calls = 264
receive-plain 9217 = discarded Oversize
step = idle
stopped = no
step = idle
protect 62 = NoEncodingSa
step = idle
receive b 4 1 1 100 = discarded NoSci
next 3 = 4294967296
receive b 2 3 6 62 = discarded NoSci
protect 62 = NoEncodingSa
refill
calls = 0
calls = 0
calls = 0
receive 9 5 1 1 62 broken = discarded NotUsingSa
step = idle
receive 9 3 0 1 14 clear = discarded NotUsingSa
rest = 0 idle
protect 62 = NoEncodingSa
receive-plain 13 = discarded Runt
next 3 = 4294967296
stopped = no
protect 62 = NoEncodingSa
rx-remove b 0 = refused NoChannel
receive 9 2 1 1 100 clear = discarded NotUsingSa
step = idle
tx-use 3
protect 62 = Exhausted
settings = Strict off 4294967295 Explicit 3 1
submit set-sci-mode explicit = 1
step = worked
step = worked
fail never
power-loss ones
open
rest = 0 idle
receive b 1 0 1 62 = discarded NoSci
refill
numbers b 0 = none
rest = 0 idle
receive b 5 0 1 14 = discarded NoSci
next 2 = none
receive 9 3 3 1 14 = discarded NotUsingSa
protect 9185 = TooLong
settings = Strict off 4294967295 Explicit 3 1
stopped = no
protect 9184 = Exhausted
numbers 9 2 = none
protect 14 = Exhausted
protect 62 = Exhausted
numbers b 0 = none
set-replay off 3
tx-use 0
protect 9185 = TooLong
stopped = no
step = worked
refill
refill
rx-add b
submit tx-remove 3 = 1
receive-plain 14 = discarded NoTag
calls = 287
protect 9193 = TooLong
step = worked
next 0 = 5
step = worked

story random 89
format 0200000000010001 4 4
open
stopped = no
protect 9193 = TooLong
receive 9 5 0 6 100 = discarded NoSci
protect 9193 = TooLong
next 3 = none
rest = 0 idle
rest = 0 idle
submit set-replay off 10 = 1
step = worked
tx-use 0 = Busy
fail never
power-loss gate
open
next 0 = none
fail never
power-loss ones
open
receive 9 1 0 6 62 = discarded NoSci
submit set-replay off 10 = 1
protect 9184 = NoEncodingSa
protect 13 = Runt
rest = 4 idle
stopped = no
stopped = no
refill
tx-use 1 = refused SlotEmpty
rest = 0 idle
fail never
power-loss gate
open
receive-plain 62 = discarded NoTag
submit rx-install b 3 1 1 = 1
calls = 1310
receive 9 3 1 1 62 broken = discarded NoSci
submit tx-install 3 2 70 50 = 2
settings = Strict off 10 Explicit none 0
next 1 = none
settings = Strict off 10 Explicit none 0
settings = Strict off 10 Explicit none 0
refill = Busy
receive 9 1 2 1 62 = discarded NoSci
stopped = no
rest = 5 idle
rest = 0 idle
calls = 4
step = idle
refill
settings = Strict off 10 Explicit none 0
fail never
power-loss ones
open
rest = 0 idle
receive b 4 3 1 62 broken = discarded NoSci
stopped = no
step = idle
rx-install 9 1 4 1 30 = refused NoChannel
rx-add 9
receive-plain 14 = discarded NoTag
calls = 266
refill
settings = Strict off 10 Explicit none 1
refill
protect 14 = NoEncodingSa
rest = 0 idle
refill
numbers 9 1 = none
step = idle
calls = 0
step = idle
calls = 0
numbers 9 3 = none
submit rx-add 9 = 1
submit tx-install 2 2 1 = 2
stopped = no
rx-install 9 0 3 70 50 = Busy
rx-install b 0 5 1 = Busy
step = done 1 refused ChannelTaken
step = done 2 refused KeySpent
step = idle
receive b 3 2 3 14 broken = discarded NoSci
step = idle
fail never
power-loss half
open
numbers 9 0 = none
next 0 = none
refill
rx-add b
receive-plain 9216 = discarded NoTag
numbers 9 1 = none
refill
stopped = no
protect 13 = Runt
protect 13 = Runt
settings = Strict off 10 Explicit none 2
next 1 = none
submit set-sci-mode explicit = 1
fail 8
step = worked
step = worked
receive b 1 2 3 62 = discarded NotUsingSa
calls = 269
step = worked
step = done 1 ok
protect 62 = NoEncodingSa
next 1 = none
receive b 1 1 6 100 clear = discarded NotUsingSa
calls = 2
rest = 0 idle
receive-plain 13 = discarded Runt
step = idle
refill
next 2 = none
rest = 0 idle
fail 3
fail never
close
open
step = idle
next 2 = none
next 2 = none
receive-plain 9217 = discarded Oversize
rx-remove 9 2 = refused SlotEmpty
calls = 265
next 3 = 74
receive b 1 1 1 62 = discarded NotUsingSa
next 0 = none
numbers 9 1 = none
receive 9 2 0 1 62 broken = discarded NotUsingSa
step = idle
protect 62 = NoEncodingSa
numbers 9 0 = none
stopped = no
step = idle
rx-drop b
numbers b 1 = none
step = idle
rest = 0 idle
submit rx-add 9 = 1
numbers 9 2 = none
protect 62 = NoEncodingSa
rest = 1 idle
submit rx-add 9 = 2
fail never
power-loss gate
open
refill
receive b 5 3 1 62 = discarded NoSci
next 2 = none
refill
next 2 = none
receive 9 2 3 1 100 = discarded NotUsingSa
step = idle
next 1 = none
set-validate check
rest = 0 idle
receive b 1 3 2 100 = discarded NoSci
refill
submit rx-install 200000000010001 1 1 1 = 1
next 1 = none
fail never
power-loss last
open
fail 7 on
protect 13 = Runt
step = idle
calls = 541
rx-add 9 = refused ChannelTaken
submit rx-remove b 2 = 1
rest = 1 idle
step = idle
receive 9 4 3 3 62 = discarded NotUsingSa
step = idle
receive 9 5 1 1 62 = discarded NotUsingSa
protect 13 = Runt
next 2 = none
step = idle
settings = Check off 10 Explicit none 1
next 0 = none
rx-install 9 0 3 70 7 = refused OffsetChoice
numbers b 2 = none
rest = 0 idle
numbers 9 0 = none
protect 14 = NoEncodingSa
step = idle
submit rx-add 9 = 2
receive-plain 13 = discarded Runt
step = done 2 refused ChannelTaken
step = idle
rest = 0 idle
calls = 0
receive-plain 9217 = discarded Oversize
protect 14 = NoEncodingSa
protect 9193 = TooLong
set-sci-mode explicit
stopped = no
step = idle
refill
numbers b 1 = none
stopped = no
step = idle

story random 90
format 0200000000010001 4 4
open
fail 5
refill
step = idle
rx-remove 9 1 = refused NoChannel
calls = 524
next 2 = none
numbers 9 3 = none
refill
settings = Strict on 0 Explicit none 0
fail never
power-loss gate
open
receive b 1 2 1 14 = discarded NoSci
stopped = no
step = idle
step = idle
step = idle
refill
protect 13 = Runt
receive b 3 3 1 62 = discarded NoSci
receive-plain 9217 = discarded Oversize
stopped = no
rest = 0 idle
receive b 2 0 1 62 = discarded NoSci
numbers b 0 = none
numbers b 1 = none
protect 62 = NoEncodingSa
receive b 4 2 1 62 = discarded NoSci
numbers b 2 = none
calls = 260
refill
settings = Strict on 0 Explicit none 0
step = idle
rest = 0 idle
step = idle
receive 9 3 0 1 100 clear = discarded NoSci
protect 9184 = NoEncodingSa
step = idle
rest = 0 idle
stopped = no
refill
step = idle
step = idle
next 3 = none
numbers b 1 = none
refill
tx-use 0 = refused SlotEmpty
next 1 = none
receive 9 2 1 1 100 = discarded NoSci
receive 9 4 2 6 62 clear = discarded NoSci
receive-plain 0 = discarded Runt
rx-drop 9 = refused NoChannel
calls = 0
receive b 4 0 3 100 = discarded NoSci
receive 9 2 2 1 62 clear = discarded NoSci
rest = 0 idle
receive-plain 0 = discarded Runt
next 1 = none
stopped = no
protect 13 = Runt
step = idle
protect 9184 = NoEncodingSa
receive 9 1 3 1 62 = discarded NoSci
numbers b 2 = none
settings = Strict on 0 Explicit none 0
receive-plain 0 = discarded Runt
calls = 0
next 3 = none
fail 8
fail never
power-loss last
open
refill
protect 14 = NoEncodingSa
stopped = no
next 3 = none
receive 9 4 3 1 62 broken = discarded NoSci
rest = 0 idle
step = idle
receive 9 1 0 2 14 clear = discarded NoSci
settings = Strict on 0 Explicit none 0
refill
protect 62 = NoEncodingSa
protect 13 = Runt
receive b 2 3 1 62 = discarded NoSci
tx-install 2 5 1 7 = refused OffsetChoice
submit rx-drop b = 1
refill = Busy
receive-plain 62 = discarded NoTag
rx-install b 2 1 70 30 = Busy
calls = 260
settings = Strict on 0 Explicit none 0
protect 13 = Runt
fail never
power-loss half
open
receive b 1 1 1 100 clear = discarded NoSci
refill
step = idle
submit rx-remove 9 0 = 1
receive 9 4 2 1 14 clear = discarded NoSci
submit set-replay on 10 = 2
receive-plain 13 = discarded Runt
protect 9193 = TooLong
rest = 5 idle
calls = 264
receive-plain 14 = discarded NoTag
numbers 9 0 = none
protect 9185 = TooLong
calls = 0
refill
calls = 0
submit set-replay on 0 = 3
submit rx-install 200000000010001 0 4 1 = 4
numbers b 1 = none
receive-plain 0 = discarded Runt
fail never
power-loss ones
open
protect 9193 = TooLong
fail 0
receive 9 1 2 1 62 broken = discarded NoSci
numbers b 2 = none
protect 62 = NoEncodingSa
stopped = no
step = idle
receive 9 5 0 2 62 = discarded NoSci
fail never
power-loss ones
open
settings = Strict on 10 Explicit none 0
numbers b 3 = none
rest = 0 idle
protect 62 = NoEncodingSa
calls = 522
protect 62 = NoEncodingSa
rx-drop 9 = refused NoChannel
protect 9193 = TooLong
next 1 = none
step = idle
step = idle
set-replay on 0
protect 14 = NoEncodingSa
protect 9184 = NoEncodingSa
step = idle
stopped = no
calls = 4
receive b 2 2 3 62 = discarded NoSci
receive-plain 9217 = discarded Oversize
settings = Strict on 0 Explicit none 0
step = idle
step = idle
receive-plain 9217 = discarded Oversize
receive 9 3 3 1 62 broken = discarded NoSci
step = idle
refill
next 0 = none
fail never
close
open
rest = 0 idle
rx-remove b 0 = refused NoChannel
receive b 4 1 2 100 = discarded NoSci
refill
numbers 9 1 = none
fail never
close
open
refill
submit set-sci-mode explicit = 1
receive 9 2 3 1 100 = discarded NoSci
receive b 5 3 6 100 = discarded NoSci
protect 62 = NoEncodingSa
calls = 524
receive b 4 2 1 62 clear = discarded NoSci
step = worked
fail never
power-loss ones
open
calls = 263
protect 62 = NoEncodingSa
protect 13 = Runt
refill
numbers b 3 = none
receive 9 4 1 1 14 = discarded NoSci
fail never
power-loss ones
open
refill
calls = 262
next 2 = none
stopped = no
rest = 0 idle
rest = 0 idle
protect 9185 = TooLong
protect 62 = NoEncodingSa
refill
step = idle
protect 62 = NoEncodingSa
step = idle
receive b 5 3 2 62 clear = discarded NoSci
protect 62 = NoEncodingSa
next 3 = none
protect 62 = NoEncodingSa

story random 91
format 0200000000010001 16 16
open
stopped = no
submit rx-remove b 0 = 1
step = done 1 refused NoChannel
next 0 = none
next 3 = none
submit set-replay on 0 = 2
step = worked
stopped = no
step = worked
calls = 526
next 1 = none
step = worked
calls = 1
submit set-replay off 4294967295 = 3
step = done 2 ok
step = worked
stopped = no
next 1 = none
protect 62 = NoEncodingSa
rest = 3 idle
step = idle
rest = 0 idle
protect 13 = Runt
step = idle
receive b 3 0 6 14 = discarded NoSci
tx-use 0 = refused SlotEmpty
receive-plain 14 = discarded NoTag
refill
step = idle
rx-install 9 0 3 1 7 = refused OffsetChoice
settings = Strict off 4294967295 Explicit none 0
refill
rx-add 9
submit tx-install 0 1 0 clear = 4
protect 9193 = TooLong
protect 62 = NoEncodingSa
calls = 9
set-sci-mode explicit = Busy
step = done 4 refused StartRange
numbers b 0 = none
protect 9185 = TooLong
receive 9 4 1 6 100 = discarded NotUsingSa
fail 3
fail never
power-loss ones
open
protect 62 = NoEncodingSa
fail 2 filled
step = idle
fail never
power-loss half
open
refill
calls = 526
protect 62 = NoEncodingSa
rx-drop 9
step = idle
protect 62 = NoEncodingSa
receive 9 3 2 2 14 = discarded NoSci
refill
tx-remove 2 = refused SlotEmpty
calls = 4
submit tx-install 3 4 1 30 = 1
tx-install 3 5 1 clear = Busy
next 2 = none
fail 7 filled
settings = Strict off 4294967295 Explicit none 0
stopped = no
settings = Strict off 4294967295 Explicit none 0
fail never
power-loss gate
open
tx-use 2 = refused SlotEmpty
settings = Strict off 4294967295 Explicit none 0
refill
set-sci-mode end-station
receive b 5 1 2 100 clear = discarded NoSci
numbers b 2 = none
rest = 0 idle
receive b 4 1 1 62 clear = discarded NoSci
fail never
power-loss last
open
calls = 533
step = idle
rest = 0 idle
fail never
power-loss last
open
settings = Strict off 4294967295 EndStation none 0
receive-plain 9217 = discarded Oversize
fail never
power-loss half
open
rest = 0 idle
stopped = no
calls = 530
protect 14 = ForeignSource
receive-plain 13 = discarded Runt
stopped = no
stopped = no
receive b 4 3 6 100 = discarded NoSci
refill
step = idle
step = idle
receive-plain 9216 = discarded NoTag
calls = 0
numbers b 2 = none
stopped = no
settings = Strict off 4294967295 EndStation none 0
protect 14 = ForeignSource
refill
protect 9185 = ForeignSource
tx-install 0 2 4294967293 30
receive-plain 9216 = discarded NoTag
settings = Strict off 4294967295 EndStation none 0
rest = 0 idle
rx-install 9 1 3 4294967293 = refused NoChannel
numbers b 2 = none
stopped = no
protect 62 = ForeignSource
step = idle
next 3 = none
receive 9 4 0 1 62 = discarded NoSci
submit set-validate check = 1
calls = 4
step = worked
tx-install 0 2 1 50 = Busy
numbers 9 1 = none
step = worked
receive-plain 14 = discarded NoTag
next 1 = none
calls = 2
step = worked
receive-plain 9216 = discarded NoTag
protect 9193 = TooLong
fail 4
step = done 1 ok
rest = 0 idle
refill
next 0 = 4294967293
settings = Check off 4294967295 EndStation none 0
submit tx-install 0 3 1 7 = 2
refill = Busy
step = done 2 refused OffsetChoice
calls = 2
step = idle
calls = 0
next 0 = 4294967293
step = idle
next 1 = none
next 0 = 4294967293
set-sci-mode end-station = Disk
receive b 4 2 1 62 = Stopped
rest = 0 Stopped
receive-plain 13 = Stopped
stopped = yes
rest = 0 Stopped
fail never
power-loss gate
open
rx-install b 2 1 0 30 = refused StartRange
protect 62 = ForeignSource
protect 9185 = ForeignSource
next 1 = none
submit rx-remove 9 3 = 1
step = done 1 refused NoChannel
rx-add b
step = idle
step = idle
settings = Check off 4294967295 EndStation none 1
settings = Check off 4294967295 EndStation none 1
next 3 = none
step = idle
step = idle
step = idle
receive-plain 14 = delivered Untagged
refill
step = idle
rx-add b = refused ChannelTaken
stopped = no
step = idle
submit tx-install 2 4 0 50 = 2
stopped = no
stopped = no
settings = Check off 4294967295 EndStation none 1
protect 9184 = ForeignSource
receive b 2 0 3 62 clear = delivered UnusedSa
next 3 = none
step = done 2 refused StartRange
step = idle
step = idle
stopped = no
rx-add 9
receive b 3 2 1 62 clear = delivered UnusedSa
step = idle
step = idle
refill
step = idle

story random 92
format 0200000000010001 2 2
open
next 3 = none
refill
refill
protect 62 = NoEncodingSa
stopped = no
fail never
power-loss gate
open
stopped = no
numbers b 1 = none
receive 9 2 3 1 14 = discarded NoSci
receive 9 4 2 1 62 clear = discarded NoSci
refill
calls = 784
receive b 1 2 2 62 = discarded NoSci
receive 9 3 3 3 62 = discarded NoSci
receive 9 5 0 1 14 clear = discarded NoSci
refill
refill
refill
receive 9 4 0 1 62 = discarded NoSci
next 1 = none
step = idle
step = idle
receive 9 2 3 1 62 clear = discarded NoSci
step = idle
protect 9185 = TooLong
step = idle
step = idle
step = idle
step = idle
receive-plain 9216 = discarded NoTag
stopped = no
step = idle
settings = Strict on 0 Explicit none 0
fail never
power-loss last
open
submit rx-install 200000000010001 3 5 1 7 = 1
submit set-validate strict = 2
tx-install 1 2 70 clear = Busy
protect 62 = NoEncodingSa
protect 62 = NoEncodingSa
receive-plain 0 = discarded Runt
next 3 = none
protect 9184 = NoEncodingSa
receive 9 5 2 6 14 = discarded NoSci
submit set-replay on 0 = 3
step = done 1 refused OffsetChoice
protect 62 = NoEncodingSa
submit set-replay on 10 = 4
step = worked
receive-plain 9216 = discarded NoTag
receive b 2 2 1 100 = discarded NoSci
receive 9 5 1 3 62 clear = discarded NoSci
refill = Busy
receive-plain 0 = discarded Runt
protect 9193 = TooLong
receive 9 1 0 1 62 = discarded NoSci
receive-plain 9216 = discarded NoTag
step = worked
next 3 = none
receive b 3 2 1 100 broken = discarded NoSci
refill = Busy
receive b 1 0 1 100 = discarded NoSci
settings = Strict on 0 Explicit none 0
settings = Strict on 0 Explicit none 0
step = worked
protect 9185 = TooLong
fail never
close
open
fail never
close
open
step = idle
step = idle
rest = 0 idle
receive-plain 14 = discarded NoTag
settings = Strict on 0 Explicit none 0
numbers 9 2 = none
numbers 9 1 = none
protect 62 = NoEncodingSa
numbers 9 1 = none
refill
calls = 785
receive b 4 3 2 62 clear = discarded NoSci
protect 62 = NoEncodingSa
refill
calls = 0
submit set-sci-mode explicit = 1
protect 62 = NoEncodingSa
receive 9 5 2 1 14 = discarded NoSci
rest = 4 idle
protect 62 = NoEncodingSa
settings = Strict on 0 Explicit none 0
stopped = no
next 1 = none
receive 9 2 1 1 62 broken = discarded NoSci
fail never
power-loss durable
open
receive-plain 0 = discarded Runt
settings = Strict on 0 Explicit none 0
protect 13 = Runt
protect 62 = NoEncodingSa
refill
submit set-validate check = 1
protect 9193 = TooLong
next 0 = none
rest = 4 idle
rest = 0 idle
stopped = no
receive 9 1 2 3 100 = discarded NoSci
stopped = no
step = idle
step = idle
stopped = no
fail never
power-loss gate
open
protect 62 = NoEncodingSa
rest = 0 idle
receive b 2 1 6 14 clear = delivered UnknownSci
step = idle
calls = 533
set-replay off 0
fail 5 filled
protect 9185 = TooLong
receive b 5 3 1 100 = discarded NoSci
submit rx-install b 3 5 1 50 = 1
fail 2 on
step = done 1 refused NoChannel
settings = Check off 0 Explicit none 0
receive b 2 0 2 62 = discarded NoSci
numbers b 2 = none
calls = 4
numbers b 3 = none
receive b 1 1 1 62 = discarded NoSci
protect 13 = Runt
protect 62 = NoEncodingSa
step = idle
numbers 9 3 = none
protect 14 = NoEncodingSa
step = idle
set-replay on 10 = Disk
fail never
power-loss zeros
open
receive 9 1 3 1 62 = discarded NoSci
step = idle
numbers b 2 = none
calls = 267
numbers 9 2 = none
receive-plain 9217 = discarded Oversize
protect 9185 = TooLong
protect 9193 = TooLong
stopped = no
step = idle
fail never
power-loss last
open
submit tx-use 1 = 1
receive-plain 9216 = delivered Untagged
receive b 2 1 1 62 = discarded NoSci
stopped = no
numbers 9 3 = none
stopped = no
receive-plain 9217 = discarded Oversize
numbers 9 0 = none
receive-plain 62 = delivered Untagged
next 0 = none
step = done 1 refused SlotEmpty
next 2 = none
rest = 0 idle
stopped = no
numbers 9 0 = none
step = idle
receive-plain 13 = discarded Runt
protect 13 = Runt
fail 3 filled
fail never
power-loss zeros
open
refill
receive 9 1 3 1 62 = discarded NoSci
fail never
close
open
rest = 0 idle
fail 7 filled
protect 13 = Runt
stopped = no
step = idle
protect 9193 = TooLong
step = idle
refill
next 3 = none
step = idle
settings = Check off 0 Explicit none 0

story random 93
format 0200000000010001 1 1
open
step = idle
receive-plain 0 = discarded Runt
step = idle
fail never
power-loss gate
open
refill
rest = 0 idle
refill
stopped = no
receive b 5 3 2 100 = discarded NoSci
step = idle
rest = 0 idle
calls = 784
calls = 0
numbers b 1 = none
receive-plain 62 = discarded NoTag
refill
step = idle
step = idle
next 3 = none
receive 9 3 0 2 62 = discarded NoSci
rest = 0 idle
refill
receive b 2 3 1 14 = discarded NoSci
step = idle
submit tx-use 1 = 1
submit tx-use 2 = 2
protect 9193 = TooLong
refill = Busy
tx-use 2 = Busy
rest = 2 idle
receive-plain 14 = discarded NoTag
tx-install 1 3 1 30
rest = 0 idle
tx-install 0 5 4294967293 30
submit tx-use 3 = 3
numbers 9 2 = none
next 2 = none
receive-plain 0 = discarded Runt
calls = 8
receive 9 1 0 3 62 clear = discarded NoSci
receive 9 5 1 6 62 clear = discarded NoSci
rest = 1 idle
stopped = no
receive-plain 9216 = discarded NoTag
set-replay on 4294967295
settings = Strict on 4294967295 Explicit none 0
receive-plain 62 = discarded NoTag
step = idle
step = idle
receive-plain 0 = discarded Runt
refill
numbers 9 3 = none
step = idle
receive 9 4 2 1 14 = discarded NoSci
step = idle
receive 9 3 1 1 62 = discarded NoSci
tx-remove 1
protect 62 = NoEncodingSa
protect 62 = NoEncodingSa
settings = Strict on 4294967295 Explicit none 0
stopped = no
refill
fail never
power-loss ones
open
step = idle
receive 9 5 2 3 14 = discarded NoSci
protect 62 = NoEncodingSa
calls = 272
step = idle
fail never
power-loss zeros
open
next 0 = 4294967294
settings = Strict on 4294967295 Explicit none 0
set-replay on 0
step = idle
receive 9 3 2 1 100 clear = discarded NoSci
refill
stopped = no
step = idle
protect 62 = NoEncodingSa
fail never
power-loss half
open
next 1 = none
step = idle
settings = Strict on 0 Explicit none 0
step = idle
rx-add b
next 1 = none
receive 9 4 0 2 62 clear = discarded NoSci
set-replay off 4294967295
receive b 2 3 1 100 = discarded NotUsingSa
next 0 = 4294967294
step = idle
calls = 541
next 2 = none
set-sci-mode end-station
step = idle
step = idle
step = idle
submit rx-add 9 = 1
step = worked
protect 62 = ForeignSource
receive 9 3 2 1 100 clear = discarded NoSci
step = worked
fail never
close
open
stopped = no
step = idle
receive 9 3 1 1 100 = discarded NoSci
next 2 = none
step = idle
rest = 0 idle
rest = 0 idle
protect 62 = ForeignSource
receive 9 4 2 6 100 broken = discarded NoSci
stopped = no
submit rx-add 9 = 1
step = worked
submit rx-install b 2 1 1 50 = 2
step = worked
receive b 2 0 6 100 = discarded NotUsingSa
fail 8 filled
submit rx-remove 200000000010001 2 = 3
step = worked
step = done 1 ok
step = worked
step = worked
fail 2 filled
refill = Busy
numbers 9 3 = none
rest = 3 idle
rest = 0 idle
settings = Strict off 4294967295 EndStation none 2
next 2 = none
step = idle
calls = 282
receive b 1 2 1 62 clear = held back
set-validate check = Disk
next 2 = none
fail never
power-loss durable
open
receive b 1 2 1 62 50 = held back
refill
rest = 0 idle
receive b 1 2 1 62 clear broken = discarded NotValid
receive b 1 2 6 62 50 = held back
refill
receive b 1 2 1 62 50 = delivered Ok
receive-plain 14 = discarded NoTag
receive-plain 9216 = discarded NoTag
refill
settings = Strict off 4294967295 EndStation none 2
calls = 279
numbers b 2 = 2 1
step = idle
protect 62 = ForeignSource
rx-remove b 0 = refused SlotEmpty
refill
receive b 1 2 3 62 50 = delivered Ok
protect 14 = ForeignSource
step = idle
rest = 0 idle
refill
next 1 = none
calls = 0
rx-install 9 0 3 1 30
protect 62 = ForeignSource
submit rx-remove 9 0 = 1
receive b 1 2 4 62 50 = delivered Ok
refill = Busy
step = worked
fail never
power-loss last
open
protect 62 = ForeignSource
submit rx-install b 1 3 1 7 = 1
protect 9185 = ForeignSource
receive-plain 0 = discarded Runt
fail never
power-loss durable
open
submit rx-add b = 1
receive 9 3 0 1 62 30 = held back
protect 62 = ForeignSource
protect 9193 = TooLong
rx-add 9 = Busy
protect 9184 = ForeignSource
receive 9 3 0 3 62 broken 30 = discarded NotValid
calls = 551

story random 94
format 0200000000010001 2 2
open
protect 62 = NoEncodingSa
protect 9184 = NoEncodingSa
receive 9 2 0 6 62 = discarded NoSci
refill
next 0 = none
receive 9 1 3 1 62 clear = discarded NoSci
fail 6 on
numbers 9 1 = none
rx-install 9 3 4 4294967293 30 = refused NoChannel
stopped = no
numbers b 1 = none
fail 6 on
receive b 1 1 3 14 clear = discarded NoSci
receive-plain 9216 = discarded NoTag
stopped = no
receive 9 2 3 1 62 = discarded NoSci
settings = Strict on 0 Explicit none 0
stopped = no
protect 62 = NoEncodingSa
receive b 4 1 2 14 = discarded NoSci
receive b 4 2 1 62 clear = discarded NoSci
stopped = no
settings = Strict on 0 Explicit none 0
settings = Strict on 0 Explicit none 0
rx-install b 2 1 1 7 = refused OffsetChoice
fail 0
step = idle
step = idle
next 3 = none
receive-plain 62 = discarded NoTag
stopped = no
stopped = no
step = idle
numbers b 3 = none
receive-plain 9216 = discarded NoTag
rest = 0 idle
calls = 524
step = idle
protect 62 = NoEncodingSa
step = idle
calls = 0
receive 9 4 1 1 14 = discarded NoSci
protect 13 = Runt
step = idle
tx-use 2 = refused SlotEmpty
stopped = no
step = idle
settings = Strict on 0 Explicit none 0
settings = Strict on 0 Explicit none 0
receive-plain 62 = discarded NoTag
numbers 9 3 = none
step = idle
next 0 = none
step = idle
rest = 0 idle
stopped = no
settings = Strict on 0 Explicit none 0
step = idle
receive b 1 1 1 62 = discarded NoSci
receive 9 5 3 2 100 clear = discarded NoSci
stopped = no
receive 9 4 2 3 62 = discarded NoSci
step = idle
next 3 = none
settings = Strict on 0 Explicit none 0
refill
step = idle
receive 9 5 2 1 14 = discarded NoSci
receive 9 5 0 1 62 = discarded NoSci
rest = 0 idle
next 3 = none
calls = 0
stopped = no
step = idle
step = idle
tx-install 3 3 70 clear = Disk
fail never
power-loss durable
open
receive 9 5 1 6 100 = discarded NoSci
calls = 261
settings = Strict on 0 Explicit none 0
rx-add 9
stopped = no
fail never
close
open
rx-remove 9 0 = refused SlotEmpty
refill
submit set-replay off 10 = 1
receive-plain 62 = discarded NoTag
step = worked
step = worked
receive-plain 62 = discarded NoTag
protect 9184 = NoEncodingSa
step = worked
receive b 1 3 2 100 clear = discarded NoSci
tx-install 0 4 4294967293 clear = Busy
receive b 2 3 6 100 = discarded NoSci
rest = 1 idle
step = idle
refill
next 3 = none
receive b 1 1 1 62 = discarded NoSci
tx-install 2 2 1 30
numbers b 2 = none
step = idle
numbers 9 3 = none
protect 9184 = NoEncodingSa
protect 9193 = TooLong
protect 9185 = TooLong
refill
protect 62 = NoEncodingSa
fail 3 on
receive-plain 9216 = discarded NoTag
protect 13 = Runt
step = idle
step = idle
set-replay on 10 = Disk
receive-plain 0 = Stopped
step = Stopped
fail never
power-loss zeros
open
numbers b 2 = none
rest = 0 idle
settings = Strict off 10 Explicit none 1
step = idle
receive b 2 0 2 14 = discarded NoSci
refill
rest = 0 idle
receive-plain 9216 = discarded NoTag
receive 9 3 2 2 14 = discarded NotUsingSa
settings = Strict off 10 Explicit none 1
stopped = no
next 0 = none
next 0 = none
settings = Strict off 10 Explicit none 1
step = idle
receive 9 4 1 1 62 broken = discarded NotUsingSa
step = idle
step = idle
settings = Strict off 10 Explicit none 1
stopped = no
rx-add b
protect 14 = NoEncodingSa
step = idle
stopped = no
receive b 4 3 2 14 clear = discarded NotUsingSa
protect 13 = Runt
fail 3 filled
protect 62 = NoEncodingSa
submit tx-use 3 = 1
step = done 1 refused SlotEmpty
refill
calls = 544
step = idle
stopped = no
receive 9 1 3 1 62 = discarded NotUsingSa
rx-add 9 = refused ChannelTaken
numbers b 3 = none
submit tx-use 0 = 2
receive b 2 1 3 62 clear = discarded NotUsingSa
submit tx-install 0 2 1 30 = 3
receive-plain 0 = discarded Runt
receive b 3 1 1 14 = discarded NotUsingSa
stopped = no
step = done 2 refused SlotEmpty
step = done 3 refused KeySpent
fail never
power-loss ones
open
step = idle
refill
calls = 264
calls = 0
protect 9184 = NoEncodingSa
receive 9 2 2 6 62 = discarded NotUsingSa
protect 14 = NoEncodingSa
stopped = no
receive-plain 9216 = discarded NoTag
submit rx-install b 0 1 1 7 = 1
numbers 9 2 = none
next 2 = 3
submit set-sci-mode implicit = 2
receive b 5 3 1 100 clear = discarded NotUsingSa
step = done 1 refused OffsetChoice
receive 9 1 3 1 62 clear = discarded NotUsingSa
rest = 4 idle
fail never
power-loss durable
open
settings = Strict off 10 Implicit none 2
numbers 9 0 = none
step = idle
numbers b 0 = none
protect 9185 = NoEncodingSa
protect 9184 = NoEncodingSa
step = idle
rest = 0 idle
protect 9184 = NoEncodingSa

story random 95
format 0200000000010001 2 2
open
protect 62 = NoEncodingSa
stopped = no
settings = Strict on 0 Explicit none 0
step = idle
rest = 0 idle
refill
calls = 524
fail never
power-loss ones
open
step = idle
next 1 = none
rest = 0 idle
step = idle
protect 9193 = TooLong
submit tx-remove 0 = 1
stopped = no
refill = Busy
step = done 1 refused SlotEmpty
calls = 260
protect 9185 = TooLong
protect 9185 = TooLong
refill
refill
submit rx-install b 2 2 1 = 2
settings = Strict on 0 Explicit none 0
next 1 = none
step = done 2 refused NoChannel
receive b 2 2 1 100 = discarded NoSci
submit set-sci-mode explicit = 3
receive b 4 0 1 62 = discarded NoSci
step = worked
receive 9 2 2 1 62 clear broken = discarded NoSci
next 0 = none
submit tx-install 1 1 4294967293 clear = 4
numbers 9 1 = none
stopped = no
next 1 = none
stopped = no
stopped = no
step = worked
protect 62 = NoEncodingSa
stopped = no
stopped = no
receive 9 2 2 1 14 clear = discarded NoSci
submit tx-use 0 = 5
numbers b 3 = none
step = worked
fail never
power-loss ones
open
submit rx-install b 3 4 4294967293 = 1
next 1 = none
rest = 1 idle
settings = Strict on 0 Explicit none 0
stopped = no
numbers b 1 = none
rest = 0 idle
receive b 1 0 3 62 clear = discarded NoSci
step = idle
refill
protect 9184 = NoEncodingSa
protect 62 = NoEncodingSa
step = idle
numbers 9 0 = none
protect 62 = NoEncodingSa
receive-plain 14 = discarded NoTag
step = idle
stopped = no
calls = 263
protect 62 = NoEncodingSa
protect 9184 = NoEncodingSa
receive 9 5 3 3 62 = discarded NoSci
rest = 0 idle
next 2 = none
receive 9 5 3 2 14 = discarded NoSci
calls = 0
calls = 0
step = idle
numbers 9 2 = none
stopped = no
step = idle
stopped = no
protect 62 = NoEncodingSa
fail never
power-loss zeros
open
receive-plain 9216 = discarded NoTag
rx-drop 9 = refused NoChannel
fail never
power-loss durable
open
tx-install 3 5 1 7 = refused OffsetChoice
calls = 520
rx-install 9 3 3 1 50 = refused NoChannel
set-replay on 0
submit set-sci-mode explicit = 1
step = worked
receive b 1 0 1 14 = discarded NoSci
rest = 3 idle
receive-plain 62 = discarded NoTag
receive-plain 62 = discarded NoTag
protect 62 = NoEncodingSa
step = idle
settings = Strict on 0 Explicit none 0
rest = 0 idle
stopped = no
calls = 8
receive b 3 2 1 62 = discarded NoSci
next 3 = none
rx-drop b = refused NoChannel
receive 9 4 2 1 14 = discarded NoSci
numbers 9 3 = none
stopped = no
submit tx-use 2 = 2
receive 9 4 0 2 62 = discarded NoSci
settings = Strict on 0 Explicit none 0
numbers b 2 = none
numbers b 1 = none
next 3 = none
fail never
close
open
fail never
power-loss durable
open
tx-use 0 = refused SlotEmpty
settings = Strict on 0 Explicit none 0
step = idle
fail never
power-loss gate
open
step = idle
protect 9193 = TooLong
step = idle
submit rx-add 9 = 1
submit set-validate check = 2
tx-remove 3 = Busy
rest = 8 idle
stopped = no
receive 9 2 3 1 14 = discarded NotUsingSa
receive-plain 14 = delivered Untagged
refill
step = idle
fail never
close
open
fail 8 filled
next 0 = none
rx-add b
protect 62 = NoEncodingSa
numbers b 2 = none
step = idle
receive b 5 0 6 14 = discarded NotUsingSa
settings = Check on 0 Explicit none 2
calls = 1062
fail never
power-loss gate
open
stopped = no
settings = Check on 0 Explicit none 2
receive b 1 3 2 62 clear broken = delivered UnusedSa
submit tx-use 2 = 1
submit set-sci-mode end-station = 2
rest = 5 idle
tx-remove 2 = refused SlotEmpty
protect 62 = ForeignSource
refill
step = idle
step = idle
step = idle
next 0 = none
refill
refill
calls = 269
step = idle
refill
set-replay on 10
receive-plain 9217 = discarded Oversize
tx-install 0 3 1 50
protect 9184 = ForeignSource
step = idle
next 3 = none
settings = Check on 10 EndStation none 2
tx-use 0
stopped = no
next 0 = 1
receive-plain 9217 = discarded Oversize
receive b 5 1 2 14 clear = delivered UnusedSa
settings = Check on 10 EndStation 0 2
step = idle
rest = 0 idle
refill
receive-plain 62 = delivered Untagged
next 2 = none
step = idle
receive 9 1 3 2 62 clear = delivered UnusedSa
step = idle
fail never
power-loss durable
open
rest = 4 idle
submit tx-use 0 = 1
calls = 285
calls = 0
calls = 0

story random 96
format 0200000000010001 4 4
open
submit set-sci-mode explicit = 1
tx-remove 1 = Busy
next 3 = none
stopped = no
receive 9 2 2 1 14 clear = discarded NoSci
step = worked
step = worked
receive-plain 13 = discarded Runt
numbers b 1 = none
receive-plain 14 = discarded NoTag
settings = Strict on 0 Explicit none 0
step = worked
settings = Strict on 0 Explicit none 0
settings = Strict on 0 Explicit none 0
calls = 527
receive 9 3 1 1 100 broken = discarded NoSci
rx-install b 1 3 1 50 = Busy
protect 62 = NoEncodingSa
refill = Busy
protect 9184 = NoEncodingSa
rest = 1 idle
rest = 0 idle
settings = Strict on 0 Explicit none 0
next 2 = none
fail never
power-loss gate
open
step = idle
receive-plain 13 = discarded Runt
set-replay off 0
receive-plain 13 = discarded Runt
calls = 266
refill
fail never
power-loss gate
open
calls = 262
receive 9 3 1 1 62 clear = discarded NoSci
step = idle
tx-remove 3 = refused SlotEmpty
step = idle
fail 5 on
fail 5
protect 9193 = TooLong
rx-install 200000000010001 3 2 1 7 = refused OffsetChoice
calls = 0
rx-install b 3 2 1 7 = refused OffsetChoice
step = idle
refill
protect 62 = NoEncodingSa
next 3 = none
rx-remove 9 2 = refused NoChannel
stopped = no
calls = 0
refill
receive b 3 0 1 14 clear = discarded NoSci
rest = 0 idle
submit set-validate strict = 1
settings = Strict off 0 Explicit none 0
numbers 9 1 = none
numbers 9 0 = none
numbers 9 2 = none
step = worked
calls = 1
settings = Strict off 0 Explicit none 0
step = worked
submit tx-install 2 3 70 clear = 2
receive 9 3 1 3 62 = discarded NoSci
receive-plain 9216 = discarded NoTag
rest = 3 Disk
fail never
power-loss ones
open
submit rx-install b 1 5 70 50 = 1
rest = 1 idle
receive b 4 2 1 14 broken = discarded NoSci
protect 62 = NoEncodingSa
submit rx-remove 9 1 = 2
next 1 = none
rest = 1 idle
refill
set-sci-mode implicit
fail never
power-loss half
open
receive 9 4 1 1 62 clear broken = discarded NoSci
submit tx-remove 1 = 1
calls = 536
refill = Busy
rest = 1 idle
stopped = no
settings = Strict off 0 Implicit none 0
next 2 = none
calls = 0
submit rx-install b 2 5 4294967293 = 2
rest = 1 idle
calls = 0
receive 9 1 0 1 62 clear = discarded NoSci
stopped = no
step = idle
calls = 0
set-replay off 3
rest = 0 idle
numbers b 1 = none
receive b 5 0 3 14 clear = discarded NoSci
submit rx-install 9 1 2 4294967293 = 3
submit tx-use 3 = 4
protect 9185 = NoEncodingSa
rest = 2 idle
stopped = no
stopped = no
numbers 9 2 = none
rx-install 9 0 2 4294967293 7 = refused OffsetChoice
step = idle
receive b 5 3 3 100 = discarded NoSci
receive 9 5 3 1 14 = discarded NoSci
rest = 0 idle
step = idle
calls = 4
stopped = no
fail 7
rest = 0 idle
settings = Strict off 3 Implicit none 0
calls = 0
protect 62 = NoEncodingSa
protect 13 = Runt
receive-plain 14 = discarded NoTag
step = idle
submit rx-install 200000000010001 3 3 70 7 = 5
tx-install 2 4 70 50 = Busy
settings = Strict off 3 Implicit none 0
receive b 3 1 6 62 = discarded NoSci
receive 9 2 0 1 62 = discarded NoSci
receive 9 3 3 1 100 = discarded NoSci
submit tx-use 3 = 6
step = done 5 refused OffsetChoice
refill = Busy
step = done 6 refused SlotEmpty
numbers b 2 = none
submit rx-install b 3 4 0 30 = 7
receive-plain 0 = discarded Runt
settings = Strict off 3 Implicit none 0
submit tx-remove 3 = 8
step = done 7 refused StartRange
calls = 0
refill = Busy
calls = 0
step = done 8 refused SlotEmpty
protect 9184 = NoEncodingSa
receive 9 3 1 1 62 = discarded NoSci
protect 9185 = NoEncodingSa
fail never
power-loss gate
open
settings = Strict off 3 Implicit none 0
settings = Strict off 3 Implicit none 0
receive 9 1 3 2 100 = discarded NoSci
next 2 = none
refill
calls = 265
step = idle
protect 62 = NoEncodingSa
rest = 0 idle
step = idle
numbers 9 0 = none
protect 9193 = TooLong
calls = 0
submit rx-install b 1 1 1 = 1
rest = 1 idle
step = idle
protect 62 = NoEncodingSa
next 1 = none
receive-plain 9217 = discarded Oversize
step = idle
refill
submit tx-install 1 1 4294967293 = 2
protect 62 = NoEncodingSa
protect 9185 = NoEncodingSa
calls = 0
receive b 5 2 1 62 = discarded NoSci
receive-plain 62 = discarded NoTag
fail never
power-loss last
open
receive-plain 9217 = discarded Oversize
calls = 265
rest = 0 idle
step = idle
submit tx-remove 2 = 1
fail never
power-loss zeros
open
receive 9 1 2 6 100 = discarded NoSci
calls = 265
protect 9184 = NoEncodingSa
step = idle
step = idle
submit tx-install 3 1 1 = 1
receive b 4 2 1 100 = discarded NoSci
step = worked

story random 97
format 0200000000010001 4 4
open
settings = Strict on 0 Explicit none 0
step = idle
protect 13 = Runt
submit tx-use 2 = 1
calls = 524
fail 1 filled
fail 0 filled
step = done 1 refused SlotEmpty
settings = Strict on 0 Explicit none 0
receive b 1 3 1 14 = discarded NoSci
receive b 3 3 3 100 clear broken = discarded NoSci
step = idle
refill
stopped = no
fail never
power-loss gate
open
receive-plain 13 = discarded Runt
protect 9185 = TooLong
rest = 0 idle
protect 62 = NoEncodingSa
receive-plain 62 = discarded NoTag
settings = Strict on 0 Explicit none 0
step = idle
numbers 9 1 = none
next 3 = none
settings = Strict on 0 Explicit none 0
step = idle
next 2 = none
fail 5
step = idle
settings = Strict on 0 Explicit none 0
receive 9 2 2 1 62 = discarded NoSci
refill
step = idle
fail 1 filled
rest = 0 idle
step = idle
refill
receive b 3 2 1 62 = discarded NoSci
protect 62 = NoEncodingSa
numbers 9 1 = none
receive b 5 0 3 14 = discarded NoSci
protect 62 = NoEncodingSa
rest = 0 idle
fail never
power-loss half
open
refill
stopped = no
refill
step = idle
receive b 4 1 6 100 = discarded NoSci
rest = 0 idle
numbers 9 2 = none
stopped = no
next 0 = none
refill
rest = 0 idle
receive 9 3 1 3 100 clear = discarded NoSci
rest = 0 idle
stopped = no
step = idle
settings = Strict on 0 Explicit none 0
next 3 = none
step = idle
settings = Strict on 0 Explicit none 0
stopped = no
receive-plain 14 = discarded NoTag
receive-plain 9216 = discarded NoTag
refill
next 3 = none
fail never
power-loss last
open
settings = Strict on 0 Explicit none 0
submit rx-install b 0 3 1 30 = 1
receive b 2 0 1 14 clear = discarded NoSci
rest = 1 idle
set-validate strict
settings = Strict on 0 Explicit none 0
receive b 1 1 1 100 = discarded NoSci
submit tx-use 3 = 2
fail 1
fail 3 filled
protect 9185 = TooLong
protect 62 = NoEncodingSa
step = done 2 refused SlotEmpty
stopped = no
settings = Strict on 0 Explicit none 0
next 1 = none
numbers b 3 = none
protect 62 = NoEncodingSa
receive-plain 13 = discarded Runt
fail never
power-loss last
open
protect 62 = NoEncodingSa
step = idle
protect 13 = Runt
next 2 = none
protect 62 = NoEncodingSa
step = idle
submit tx-remove 1 = 1
step = done 1 refused SlotEmpty
step = idle
step = idle
receive 9 1 0 1 100 clear broken = discarded NoSci
protect 9184 = NoEncodingSa
receive-plain 13 = discarded Runt
receive b 1 0 1 100 = discarded NoSci
refill
receive b 5 2 6 14 = discarded NoSci
settings = Strict on 0 Explicit none 0
fail never
close
open
receive-plain 9216 = discarded NoTag
step = idle
protect 13 = Runt
refill
receive 9 1 0 1 62 = discarded NoSci
rest = 0 idle
protect 62 = NoEncodingSa
calls = 1306
fail never
power-loss ones
open
receive-plain 0 = discarded Runt
numbers 9 1 = none
receive 9 3 0 1 62 broken = discarded NoSci
next 2 = none
next 3 = none
settings = Strict on 0 Explicit none 0
set-replay on 4294967295
set-replay on 0
protect 14 = NoEncodingSa
receive-plain 13 = discarded Runt
calls = 269
refill
settings = Strict on 0 Explicit none 0
protect 13 = Runt
calls = 0
submit set-replay on 4294967295 = 1
receive 9 1 1 6 14 = discarded NoSci
step = worked
step = worked
protect 13 = Runt
receive-plain 62 = discarded NoTag
refill = Busy
numbers b 1 = none
step = worked
numbers b 2 = none
calls = 3
step = done 1 ok
submit rx-install b 2 1 1 = 2
numbers 9 1 = none
protect 9185 = TooLong
step = done 2 refused NoChannel
stopped = no
fail never
power-loss zeros
open
rest = 0 idle
rx-install b 2 3 0 30 = refused StartRange
calls = 265
rest = 0 idle
rest = 0 idle
refill
receive b 3 0 1 62 clear = discarded NoSci
step = idle
protect 62 = NoEncodingSa
rest = 0 idle
stopped = no
receive-plain 9217 = discarded Oversize
stopped = no
fail never
power-loss ones
open
rest = 0 idle
protect 9193 = TooLong
step = idle
submit rx-add 9 = 1
step = worked
settings = Strict on 4294967295 Explicit none 0
settings = Strict on 4294967295 Explicit none 0
submit set-validate strict = 2
receive 9 5 0 1 100 = discarded NoSci
step = worked
settings = Strict on 4294967295 Explicit none 0
refill = Busy
step = worked
tx-install 2 4 70 clear = Busy
refill = Busy
next 3 = none
set-validate check = Busy
stopped = no
receive b 3 3 2 14 = discarded NoSci
settings = Strict on 4294967295 Explicit none 0
step = done 1 ok
receive-plain 13 = discarded Runt
step = worked

story random 98
format 0200000000010001 4 4
open
receive b 2 3 1 14 clear = discarded NoSci
step = idle
receive-plain 9217 = discarded Oversize
submit rx-drop b = 1
rest = 1 idle
rest = 0 idle
refill
submit set-sci-mode end-station = 2
protect 9185 = TooLong
calls = 524
rest = 4 idle
step = idle
step = idle
stopped = no
stopped = no
receive b 1 1 1 62 = discarded NoSci
protect 13 = Runt
submit set-replay on 0 = 3
set-validate check = Busy
refill = Busy
receive b 5 3 1 100 clear = discarded NoSci
submit rx-install 200000000010001 3 3 1 50 = 4
protect 13 = Runt
step = worked
settings = Strict on 0 EndStation none 0
calls = 5
protect 9193 = TooLong
refill = Busy
step = worked
numbers 9 2 = none
step = worked
fail never
power-loss zeros
open
numbers b 0 = none
protect 9185 = ForeignSource
calls = 263
receive b 2 1 1 62 broken = discarded NoSci
fail never
power-loss ones
open
fail 5 on
protect 62 = ForeignSource
refill
refill
receive 9 3 1 1 62 = discarded NoSci
protect 14 = ForeignSource
calls = 261
stopped = no
step = idle
rest = 0 idle
receive b 3 0 1 62 = discarded NoSci
refill
receive-plain 13 = discarded Runt
step = idle
rest = 0 idle
fail 4 filled
numbers b 2 = none
step = idle
step = idle
refill
receive 9 5 1 1 62 broken = discarded NoSci
receive-plain 9217 = discarded Oversize
fail never
close
open
rx-install 9 0 5 1 = refused NoChannel
calls = 261
numbers 9 2 = none
submit rx-add b = 1
receive-plain 62 = discarded NoTag
submit rx-add 9 = 2
rest = 8 idle
protect 14 = ForeignSource
set-replay on 4294967295
submit rx-install b 1 5 1 = 3
step = worked
fail never
close
open
step = idle
step = idle
numbers b 2 = none
fail 1 filled
protect 14 = ForeignSource
calls = 277
protect 62 = ForeignSource
settings = Strict on 4294967295 EndStation none 2
receive 9 1 0 1 14 = discarded NotUsingSa
stopped = no
protect 62 = ForeignSource
numbers 9 1 = none
set-replay on 0 = Disk
receive-plain 62 = Stopped
receive b 3 2 1 62 broken = Stopped
step = Stopped
stopped = yes
fail never
power-loss gate
open
receive 9 4 1 6 14 clear = discarded NotUsingSa
refill
refill
tx-remove 0 = refused SlotEmpty
fail never
power-loss durable
open
fail never
power-loss ones
open
receive b 3 0 1 14 = discarded NotUsingSa
step = idle
submit rx-drop 9 = 1
stopped = no
step = worked
protect 9193 = TooLong
next 0 = none
step = worked
rx-add 9 = Busy
step = worked
numbers 9 3 = none
protect 9193 = TooLong
fail never
power-loss zeros
open
submit set-replay on 4294967295 = 1
next 1 = none
numbers 9 2 = none
receive b 5 3 1 14 clear = discarded NotUsingSa
protect 9184 = ForeignSource
protect 14 = ForeignSource
rest = 4 idle
step = idle
receive b 5 0 1 100 clear = discarded NotUsingSa
stopped = no
fail never
power-loss half
open
settings = Strict on 4294967295 EndStation none 2
calls = 1330
protect 62 = ForeignSource
calls = 0
numbers 9 1 = none
refill
fail 4 on
numbers 9 0 = none
protect 14 = ForeignSource
protect 9193 = TooLong
step = idle
next 0 = none
stopped = no
numbers b 2 = none
step = idle
step = idle
fail 0
protect 9193 = TooLong
fail 7
step = idle
calls = 0
refill
submit rx-add 9 = 1
refill = Busy
receive-plain 0 = discarded Runt
stopped = no
next 3 = none
receive 9 3 1 6 62 = discarded NotUsingSa
stopped = no
calls = 0
submit rx-remove 9 3 = 2
fail never
power-loss gate
open
rx-drop 9
numbers 9 1 = none
protect 9184 = ForeignSource
step = idle
numbers b 1 = none
receive b 5 0 3 14 = discarded NotUsingSa
rx-drop 9 = refused NoChannel
protect 9185 = ForeignSource
fail never
power-loss half
open
protect 62 = ForeignSource
submit set-sci-mode explicit = 1
stopped = no
fail 2
calls = 535
settings = Strict on 4294967295 EndStation none 1
fail 8 on
stopped = no
submit rx-drop 9 = 2
fail never
power-loss zeros
open
rest = 0 idle
fail 4 filled
stopped = no
refill
fail 6 filled
set-replay on 10
settings = Strict on 10 EndStation none 1
next 2 = none
receive b 5 2 1 62 = discarded NotUsingSa
next 2 = none
calls = 270
tx-use 3 = refused SlotEmpty

story random 99
format 0200000000010001 4 4
open
step = idle
settings = Strict on 0 Explicit none 0
receive-plain 14 = discarded NoTag
protect 14 = NoEncodingSa
rx-add 200000000010001 = refused OwnSci
settings = Strict on 0 Explicit none 0
settings = Strict on 0 Explicit none 0
step = idle
numbers 9 3 = none
tx-use 0 = refused SlotEmpty
settings = Strict on 0 Explicit none 0
calls = 524
protect 9193 = TooLong
receive-plain 9216 = discarded NoTag
receive 9 4 3 1 14 clear = discarded NoSci
receive-plain 0 = discarded Runt
submit tx-use 0 = 1
step = done 1 refused SlotEmpty
refill
settings = Strict on 0 Explicit none 0
receive 9 4 3 1 62 = discarded NoSci
receive 9 5 2 3 100 = discarded NoSci
step = idle
receive b 1 2 3 14 broken = discarded NoSci
next 3 = none
fail never
power-loss half
open
receive-plain 9217 = discarded Oversize
calls = 260
receive-plain 9217 = discarded Oversize
receive 9 1 3 1 14 = discarded NoSci
next 0 = none
protect 62 = NoEncodingSa
settings = Strict on 0 Explicit none 0
calls = 0
receive-plain 13 = discarded Runt
fail never
close
open
refill
receive-plain 0 = discarded Runt
submit rx-install b 0 1 1 7 = 1
receive-plain 13 = discarded Runt
submit set-replay on 3 = 2
receive-plain 62 = discarded NoTag
stopped = no
stopped = no
fail never
power-loss half
open
receive b 2 2 2 100 = discarded NoSci
numbers b 1 = none
step = idle
step = idle
submit tx-remove 3 = 1
refill = Busy
protect 13 = Runt
refill = Busy
step = done 1 refused SlotEmpty
protect 14 = NoEncodingSa
refill
submit tx-install 0 3 70 clear = 2
rx-install 200000000010001 2 1 4294967293 30 = Busy
rest = 4 idle
fail never
power-loss last
open
numbers 9 0 = none
receive 9 4 3 1 62 broken = discarded NoSci
step = idle
settings = Strict on 0 Explicit none 0
numbers 9 3 = none
next 3 = none
receive-plain 14 = discarded NoTag
refill
refill
step = idle
refill
next 0 = 74
rx-install b 3 5 1 = refused NoChannel
receive b 4 2 3 14 broken = discarded NoSci
receive b 1 1 1 62 clear = discarded NoSci
rest = 0 idle
calls = 785
step = idle
step = idle
step = idle
receive-plain 62 = discarded NoTag
submit rx-install b 1 2 1 = 1
numbers b 1 = none
next 0 = 74
receive-plain 13 = discarded Runt
rx-install 9 2 3 0 7 = Busy
fail never
power-loss half
open
stopped = no
stopped = no
rest = 0 idle
receive 9 2 0 1 100 = discarded NoSci
rx-add 9
step = idle
receive 9 1 2 3 14 = discarded NotUsingSa
protect 62 = NoEncodingSa
refill
receive 9 4 3 2 14 broken = discarded NotUsingSa
submit tx-remove 2 = 1
calls = 265
refill = Busy
step = done 1 refused SlotEmpty
protect 62 = NoEncodingSa
refill
refill
protect 62 = NoEncodingSa
protect 9193 = TooLong
rest = 0 idle
submit tx-remove 3 = 2
receive 9 2 0 1 62 = discarded NotUsingSa
rx-add 9 = Busy
protect 14 = NoEncodingSa
receive b 2 2 1 62 = discarded NoSci
protect 14 = NoEncodingSa
receive-plain 14 = discarded NoTag
rest = 1 idle
refill
settings = Strict on 0 Explicit none 1
receive 9 1 2 2 100 = discarded NotUsingSa
step = idle
numbers b 2 = none
next 2 = none
calls = 0
next 3 = none
receive 9 2 1 1 14 = discarded NotUsingSa
receive 9 2 1 1 62 clear = discarded NotUsingSa
tx-remove 3 = refused SlotEmpty
stopped = no
protect 14 = NoEncodingSa
set-validate strict
receive-plain 9217 = discarded Oversize
tx-remove 1 = refused SlotEmpty
submit rx-install 200000000010001 3 4 4294967293 50 = 3
protect 62 = NoEncodingSa
submit tx-use 2 = 4
rest = 2 idle
fail never
close
open
step = idle
receive 9 5 0 1 62 clear = discarded NotUsingSa
receive 9 1 1 1 62 = discarded NotUsingSa
submit rx-remove 9 3 = 1
step = done 1 refused SlotEmpty
rx-add b
step = idle
next 3 = none
stopped = no
stopped = no
receive-plain 9216 = discarded NoTag
receive-plain 14 = discarded NoTag
rest = 0 idle
protect 13 = Runt
step = idle
protect 62 = NoEncodingSa
rx-remove 200000000010001 3 = refused NoChannel
step = idle
rx-add b = refused ChannelTaken
receive b 1 3 6 62 clear broken = discarded NotUsingSa
step = idle
settings = Strict on 0 Explicit none 2
protect 62 = NoEncodingSa
numbers 9 3 = none
stopped = no
settings = Strict on 0 Explicit none 2
next 1 = none
step = idle
numbers b 2 = none
protect 9184 = NoEncodingSa
next 0 = 74
submit set-validate strict = 2
submit rx-install b 1 3 0 50 = 3
rx-remove 9 2 = Busy
protect 14 = NoEncodingSa
step = worked
receive b 2 0 1 62 clear = discarded NotUsingSa
stopped = no
step = worked
rest = 3 idle
receive b 3 1 1 14 = discarded NotUsingSa
step = idle
set-validate strict
receive b 3 2 1 62 = discarded NotUsingSa
next 1 = none
numbers 9 3 = none
rest = 0 idle
tx-install 2 5 1
receive-plain 9217 = discarded Oversize
fail never
power-loss ones
open
stopped = no
