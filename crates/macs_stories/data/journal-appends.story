# Appends to a journal, and stops at each device call. A recovery of a new journal makes 260 device
# calls: a sync, the reads of two head gates and a head body, of 255 gates behind the snapshot and
# of a body. An append makes four: the body, a sync, the gate, a sync.

setup new
format 12153524c0895e81 4 4

setup found
open-journal
identity = 12153524c0895e81 4 4

# Windows 1, 2 and 3 are appended until a call behind so many fails.
setup three appends
fail 260+$calls on
open-journal
append set-replay on 1 = $first
append set-replay on 2 = $second
append set-replay on 3 = $third
stopped = yes
append set-replay on 9 = Stopped
close
fail never

story appended records are found
with loss=last
with loss=durable
use new
use found
snapshot = 1
records = settings
each 1 3 append set-replay on $
full = no
power-loss $loss
use found
snapshot = 1
records = settings 1 2 3

story an area has 256 slots
with loss=last
with loss=durable
use new
use found
snapshot = 1
records = settings
each 1 255 append set-replay on $
full = yes
power-loss $loss
open-journal
count = 256
full = yes

# The last write of a gate stands, though its sync did not come.
story a stop at each call keeps what was answered
with calls=0..2 first=Disk second=Stopped third=Stopped found=settings loss=last
with calls=3 first=Disk second=Stopped third=Stopped found=settings,1 loss=last
with calls=4..6 first=ok second=Disk third=Stopped found=settings,1 loss=last
with calls=7 first=ok second=Disk third=Stopped found=settings,1,2 loss=last
with calls=8..10 first=ok second=ok third=Disk found=settings,1,2 loss=last
with calls=11 first=ok second=ok third=Disk found=settings,1,2,3 loss=last
with calls=0..3 first=Disk second=Stopped third=Stopped found=settings loss=durable
with calls=4..7 first=ok second=Disk third=Stopped found=settings,1 loss=durable
with calls=8..11 first=ok second=ok third=Disk found=settings,1,2 loss=durable
use new
use three appends
power-loss $loss
use found
snapshot = 1
records = $found

# The gate of the first append was written and is pending; a power loss leaves these octets in it.
story a torn gate is open or closed
with calls=3 first=Disk second=Stopped third=Stopped
and gate=4d5345434f50454e fill=zeros found=settings,1
and gate=4d5345434f50454e fill=ones found=settings,1
and gate=00 fill=zeros found=settings
and gate=ff fill=ones found=settings
and gate=4d5345434f5045 fill=zeros found=settings
use new
use three appends
tear 5 $gate $fill
power-loss torn
use found
snapshot = 1
records = $found

story what a power loss took is appended again
with calls=3 first=Disk second=Stopped third=Stopped
and loss=last
and loss=durable
use new
use three appends
tear 5 zeros
power-loss torn
use found
snapshot = 1
records = settings
append set-replay on 1
append set-replay on 2
full = no
power-loss $loss
use found
snapshot = 1
records = settings 1 2

# The gate of the first append reads open and is pending: the recovery makes sure of it.
story what a recovery found stays
with calls=3 first=Disk second=Stopped third=Stopped
and loss=last
and loss=durable
use new
use three appends
use found
snapshot = 1
records = settings 1
close
pending 5 = no
power-loss $loss
use found
snapshot = 1
records = settings 1

story a failed call of recovery is answered
with calls=0..4
with calls=258..259
use new
fail $calls on
open-journal = Disk
fail never
use found
snapshot = 1
records = settings

# No call comes behind one that fails: a recovery that fails behind so many makes one more.
story a recovery ends at the call that fails
with calls=0..4
with calls=258..259
use new
calls = 264
fail $calls
open-journal = Disk
calls = 1+$calls

story an append writes its body and an open gate
with calls=4 first=ok second=Disk third=Stopped
use new
use three appends
sector 4 = 4d524543070100000001
sector 5 = 4d5345434f50454e
zeros 6 1028 = yes
