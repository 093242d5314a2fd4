# What a power loss may leave in the pending sectors of an append or of a format that was stopped. A
# format makes 264 device calls of a disk of zeros: a sync, the reads of two head gates, two bodies,
# the reads of 256 gates, a sync, the head gate, a sync.

setup found
open-journal
identity = 12153524c0895e81 4 4

setup three appends
format 12153524c0895e81 4 4
fail 260+$calls on
open-journal
append set-replay on 1 = $first
append set-replay on 2 = $second
append set-replay on 3 = $third
stopped = yes
append set-replay on 9 = Stopped
close
fail never

# The body is pending: its gate is closed, whatever a power loss leaves in the body.
story an append with a torn body is not there
with calls=1 first=Disk second=Stopped third=Stopped body=4 found=settings
with calls=5 first=ok second=Disk third=Stopped body=6 found=settings,1
with calls=9 first=ok second=ok third=Disk body=8 found=settings,1,2
and way=durable
and way=last
and way=zeros
and way=ones
and way=gate
and way=half
use three appends
tear $body $way
power-loss torn
use found
snapshot = 1
records = $found

# The gate is pending, and the body durable: the record is there where the gate is left open.
story an append with a gate torn closed is not there
with calls=3 first=Disk second=Stopped third=Stopped body=4 found=settings
with calls=7 first=ok second=Disk third=Stopped body=6 found=settings,1
with calls=11 first=ok second=ok third=Disk body=8 found=settings,1,2
and way=durable
and way=zeros
and way=ones
use three appends
pending $body = no
tear $body+1 $way
power-loss torn
use found
snapshot = 1
records = $found

story an append with a gate torn open is there
with calls=3 first=Disk second=Stopped third=Stopped body=4 found=settings,1
with calls=7 first=ok second=Disk third=Stopped body=6 found=settings,1,2
with calls=11 first=ok second=ok third=Disk body=8 found=settings,1,2,3
and way=last
and way=gate
and way=half
use three appends
pending $body = no
tear $body+1 $way
power-loss torn
use found
snapshot = 1
records = $found

story a format stopped at a call is none
with calls=0..262
fail $calls on
format 12153524c0895e81 4 4 = Disk
fail never
power-loss last
open-journal = NotFormatted

# The last write of the head gate stands, though its sync did not come.
story a format stopped at its last call is done
fail 263 on
format 12153524c0895e81 4 4 = Disk
fail never
power-loss last
use found
snapshot = 1
records = settings

story a format that is not stopped is done
fail 264 on
format 12153524c0895e81 4 4
fail never
use found
snapshot = 1
records = settings

# The bodies of the head and of the first slot are pending.
story a format with torn bodies is none
with way=durable
with way=last
with way=zeros
with way=ones
with way=gate
with way=half
and other=durable
and other=last
and other=zeros
and other=ones
and other=gate
and other=half
fail 261 on
format 12153524c0895e81 4 4 = Disk
fail never
tear 0 $way
tear 2 $other
power-loss torn
open-journal = NotFormatted

# The bodies are durable, and the head gate is pending.
story a format with a gate torn closed is none
with way=durable
with way=zeros
with way=ones
fail 263 on
format 12153524c0895e81 4 4 = Disk
fail never
pending 0 = no
pending 2 = no
tear 1 $way
power-loss torn
open-journal = NotFormatted

story a format with a gate torn open is done
with way=last
with way=gate
with way=half
fail 263 on
format 12153524c0895e81 4 4 = Disk
fail never
pending 0 = no
pending 2 = no
tear 1 $way
power-loss torn
use found
snapshot = 1
records = settings
