# Captures that run through an endpoint. Stamps are in nanoseconds, each told from others by its
# place; a plain frame has its place in each octet. The header that is written has 24 octets, that
# of a record 16; a frame that is protected is longer by a SecTAG of 16 octets and an ICV of 16.

setup sender
format 0200000000010001 4 4
open
tx-install 0 07070707070707070707070707070707 1
tx-use 0

# Another endpoint with wide blocks, to which the sender's frames come.
setup receiver
disk 1028
format 0200000000020001 1000 1000
open
rx-add 0200000000010001
rx-install 0200000000010001 0 07070707070707070707070707070707 1

setup header
written-octets 0 24 = a1b23c4d0002000400000000000000000004000000000001

# Frames that wait for a number go out all the same, and those with a fault of their own do not.
# What goes out is delivered by the other endpoint as it was, each with its stamp.
story no frame is protected
use sender
capture
| header
protect-capture = passed 0 dropped 0
next 0 = 1
use header
written = 24
close
capture-written
use receiver
validate-capture = passed 0 dropped 0
use header
written = 24

story frames are protected: 60 60 60
use sender
capture
| header
| record 0 60 60
| fill 60 0
| record 1 60 60
| fill 60 1
| record 2 60 60
| fill 60 2
protect-capture = passed 3 dropped 0
next 0 = 4
use header
written = 348
written-stamp 1 = 00000000ffffffff; written-number 1 = 1
written-stamp 2 = 00000001fffffffe; written-number 2 = 2
written-stamp 3 = 00000002fffffffd; written-number 3 = 3
close
capture-written
use receiver
validate-capture = passed 3 dropped 0
use header
written = 252
written-stamp 1 = 00000000ffffffff; written-frame 1 = 60 0
written-stamp 2 = 00000001fffffffe; written-frame 2 = 60 1
written-stamp 3 = 00000002fffffffd; written-frame 3 = 60 2

story frames are protected: 60 60 60 60 60 60 60 60 60 60
use sender
capture
| header
| record 0 60 60
| fill 60 0
| record 1 60 60
| fill 60 1
| record 2 60 60
| fill 60 2
| record 3 60 60
| fill 60 3
| record 4 60 60
| fill 60 4
| record 5 60 60
| fill 60 5
| record 6 60 60
| fill 60 6
| record 7 60 60
| fill 60 7
| record 8 60 60
| fill 60 8
| record 9 60 60
| fill 60 9
protect-capture = passed 10 dropped 0
next 0 = 11
use header
written = 1104
written-stamp 1 = 00000000ffffffff; written-number 1 = 1
written-stamp 2 = 00000001fffffffe; written-number 2 = 2
written-stamp 3 = 00000002fffffffd; written-number 3 = 3
written-stamp 4 = 00000003fffffffc; written-number 4 = 4
written-stamp 5 = 00000004fffffffb; written-number 5 = 5
written-stamp 6 = 00000005fffffffa; written-number 6 = 6
written-stamp 7 = 00000006fffffff9; written-number 7 = 7
written-stamp 8 = 00000007fffffff8; written-number 8 = 8
written-stamp 9 = 00000008fffffff7; written-number 9 = 9
written-stamp 10 = 00000009fffffff6; written-number 10 = 10
close
capture-written
use receiver
validate-capture = passed 10 dropped 0
use header
written = 784
written-stamp 1 = 00000000ffffffff; written-frame 1 = 60 0
written-stamp 2 = 00000001fffffffe; written-frame 2 = 60 1
written-stamp 3 = 00000002fffffffd; written-frame 3 = 60 2
written-stamp 4 = 00000003fffffffc; written-frame 4 = 60 3
written-stamp 5 = 00000004fffffffb; written-frame 5 = 60 4
written-stamp 6 = 00000005fffffffa; written-frame 6 = 60 5
written-stamp 7 = 00000006fffffff9; written-frame 7 = 60 6
written-stamp 8 = 00000007fffffff8; written-frame 8 = 60 7
written-stamp 9 = 00000008fffffff7; written-frame 9 = 60 8
written-stamp 10 = 00000009fffffff6; written-frame 10 = 60 9

story frames are protected: 13
use sender
capture
| header
| record 0 13 13
| fill 13 0
protect-capture = passed 0 dropped 1
next 0 = 1
use header
written = 24
close
capture-written
use receiver
validate-capture = passed 0 dropped 0
use header
written = 24

story frames are protected: 13 60 13 14 9185 9184 60 60 60 13
use sender
capture
| header
| record 0 13 13
| fill 13 0
| record 1 60 60
| fill 60 1
| record 2 13 13
| fill 13 2
| record 3 14 14
| fill 14 3
| record 4 9185 9185
| fill 9185 4
| record 5 9184 9184
| fill 9184 5
| record 6 60 60
| fill 60 6
| record 7 60 60
| fill 60 7
| record 8 60 60
| fill 60 8
| record 9 13 13
| fill 13 9
protect-capture = passed 6 dropped 4
next 0 = 7
use header
written = 9750
written-stamp 1 = 00000001fffffffe; written-number 1 = 1
written-stamp 2 = 00000003fffffffc; written-number 2 = 2
written-stamp 3 = 00000005fffffffa; written-number 3 = 3
written-stamp 4 = 00000006fffffff9; written-number 4 = 4
written-stamp 5 = 00000007fffffff8; written-number 5 = 5
written-stamp 6 = 00000008fffffff7; written-number 6 = 6
close
capture-written
use receiver
validate-capture = passed 6 dropped 0
use header
written = 9558
written-stamp 1 = 00000001fffffffe; written-frame 1 = 60 1
written-stamp 2 = 00000003fffffffc; written-frame 2 = 14 3
written-stamp 3 = 00000005fffffffa; written-frame 3 = 9184 5
written-stamp 4 = 00000006fffffff9; written-frame 4 = 60 6
written-stamp 5 = 00000007fffffff8; written-frame 5 = 60 7
written-stamp 6 = 00000008fffffff7; written-frame 6 = 60 8

story frames are protected: 60 60 60 60 13 60
use sender
capture
| header
| record 0 60 60
| fill 60 0
| record 1 60 60
| fill 60 1
| record 2 60 60
| fill 60 2
| record 3 60 60
| fill 60 3
| record 4 13 13
| fill 13 4
| record 5 60 60
| fill 60 5
protect-capture = passed 5 dropped 1
next 0 = 6
use header
written = 564
written-stamp 1 = 00000000ffffffff; written-number 1 = 1
written-stamp 2 = 00000001fffffffe; written-number 2 = 2
written-stamp 3 = 00000002fffffffd; written-number 3 = 3
written-stamp 4 = 00000003fffffffc; written-number 4 = 4
written-stamp 5 = 00000005fffffffa; written-number 5 = 5
close
capture-written
use receiver
validate-capture = passed 5 dropped 0
use header
written = 404
written-stamp 1 = 00000000ffffffff; written-frame 1 = 60 0
written-stamp 2 = 00000001fffffffe; written-frame 2 = 60 1
written-stamp 3 = 00000002fffffffd; written-frame 3 = 60 2
written-stamp 4 = 00000003fffffffc; written-frame 4 = 60 3
written-stamp 5 = 00000005fffffffa; written-frame 5 = 60 5

setup published sender
format 12153524c0895e81 4 4
open
tx-install 2 ad7a2bd03eac835a6f620fdcb506b345 2999092325 clear
tx-use 2

setup published receiver
format 0200000000010001 4 4
open
rx-add 12153524c0895e81
rx-install 12153524c0895e81 2 ad7a2bd03eac835a6f620fdcb506b345 1

story the published frame goes out
use published sender
capture
| header
| record 9 54 54
| hex d609b1f056637a0d46df998d08000f101112131415161718191a1b1c1d1e1f202122232425262728292a2b2c2d2e2f30313233340001
protect-capture = passed 1 dropped 0
use header
written = 126
written-stamp 1 = 00000009fffffff6
written-octets 32 8 = 0000005600000056
written-frame 1 = 86 d609b1f056637a0d46df998d88e5222ab2c2846512153524c0895e8108000f101112131415161718191a1b1c1d1e1f202122232425262728292a2b2c2d2e2f30313233340001f09478a9b09007d06f46e9b6a1da25dd

# Its number is far above what is reserved at first, so that it is held back; the second time it
# comes late. Behind it comes a broken one, whose last octet is changed.
story the published frame is received 0 times, and a broken one
use published receiver
capture
| header
| record 0 86 86
| hex d609b1f056637a0d46df998d88e5222ab2c2846512153524c0895e8108000f101112131415161718191a1b1c1d1e1f202122232425262728292a2b2c2d2e2f30313233340001f09478a9b09007d06f46e9b6a1da2500
validate-capture = passed 0 dropped 1
use header
written = 24

story the published frame is received 1 times
use published receiver
capture
| header
| record 0 86 86
| hex d609b1f056637a0d46df998d88e5222ab2c2846512153524c0895e8108000f101112131415161718191a1b1c1d1e1f202122232425262728292a2b2c2d2e2f30313233340001f09478a9b09007d06f46e9b6a1da25dd
validate-capture = passed 1 dropped 0
use header
written = 94
written-stamp 1 = 00000000ffffffff
written-octets 32 8 = 0000003600000036
written-frame 1 = 54 d609b1f056637a0d46df998d08000f101112131415161718191a1b1c1d1e1f202122232425262728292a2b2c2d2e2f30313233340001

story the published frame is received 2 times
use published receiver
capture
| header
| record 0 86 86
| hex d609b1f056637a0d46df998d88e5222ab2c2846512153524c0895e8108000f101112131415161718191a1b1c1d1e1f202122232425262728292a2b2c2d2e2f30313233340001f09478a9b09007d06f46e9b6a1da25dd
| record 1 86 86
| hex d609b1f056637a0d46df998d88e5222ab2c2846512153524c0895e8108000f101112131415161718191a1b1c1d1e1f202122232425262728292a2b2c2d2e2f30313233340001f09478a9b09007d06f46e9b6a1da25dd
validate-capture = passed 1 dropped 1
use header
written = 94
written-stamp 1 = 00000000ffffffff
written-octets 32 8 = 0000003600000036
written-frame 1 = 54 d609b1f056637a0d46df998d08000f101112131415161718191a1b1c1d1e1f202122232425262728292a2b2c2d2e2f30313233340001

story the published frame is received 3 times, and a broken one
use published receiver
capture
| header
| record 0 86 86
| hex d609b1f056637a0d46df998d88e5222ab2c2846512153524c0895e8108000f101112131415161718191a1b1c1d1e1f202122232425262728292a2b2c2d2e2f30313233340001f09478a9b09007d06f46e9b6a1da25dd
| record 1 86 86
| hex d609b1f056637a0d46df998d88e5222ab2c2846512153524c0895e8108000f101112131415161718191a1b1c1d1e1f202122232425262728292a2b2c2d2e2f30313233340001f09478a9b09007d06f46e9b6a1da25dd
| record 2 86 86
| hex d609b1f056637a0d46df998d88e5222ab2c2846512153524c0895e8108000f101112131415161718191a1b1c1d1e1f202122232425262728292a2b2c2d2e2f30313233340001f09478a9b09007d06f46e9b6a1da25dd
| record 3 86 86
| hex d609b1f056637a0d46df998d88e5222ab2c2846512153524c0895e8108000f101112131415161718191a1b1c1d1e1f202122232425262728292a2b2c2d2e2f30313233340001f09478a9b09007d06f46e9b6a1da2500
validate-capture = passed 1 dropped 3
use header
written = 94
written-stamp 1 = 00000000ffffffff
written-octets 32 8 = 0000003600000036
written-frame 1 = 54 d609b1f056637a0d46df998d08000f101112131415161718191a1b1c1d1e1f202122232425262728292a2b2c2d2e2f30313233340001

# Five frames of 60 octets: four before the first refill, one behind it. The device passes the calls
# of an opening, those of two commands, and so many: the four of a refill fail in turn. A run of an
# endpoint that is stopped ends at its first frame.
setup five frames
capture
| header
| record 0 60 60
| fill 60 0
| record 1 60 60
| fill 60 1
| record 2 60 60
| fill 60 2
| record 3 60 60
| fill 60 3
| record 4 60 60
| fill 60 4

setup stopped
protect-capture = Stopped
use header
written = 24
validate-capture = Stopped
use header
written = 24
capture
| header
protect-capture = passed 0 dropped 0
use header
written = 24
validate-capture = passed 0 dropped 0
use header
written = 24

story a refill for a number fails
with calls=0..3
format 0200000000010001 4 4
fail 260+8+$calls on
open
tx-install 0 07070707070707070707070707070707 1
tx-use 0
use five frames
protect-capture = Disk
written = 24+4*108
use stopped

story a refill for a number that does not fail
format 0200000000010001 4 4
fail 260+8+4 on
open
tx-install 0 07070707070707070707070707070707 1
tx-use 0
use five frames
protect-capture = passed 5 dropped 0
written = 24+5*108

story a refill for a held back frame fails
with calls=0..3
format 0200000000010001 4 4
fail 260+8+$calls on
open
rx-add 12153524c0895e81
rx-install 12153524c0895e81 2 ad7a2bd03eac835a6f620fdcb506b345 1
capture
| header
| record 0 86 86
| hex d609b1f056637a0d46df998d88e5222ab2c2846512153524c0895e8108000f101112131415161718191a1b1c1d1e1f202122232425262728292a2b2c2d2e2f30313233340001f09478a9b09007d06f46e9b6a1da25dd
validate-capture = Disk
use header
written = 24
use stopped

story a refill for a held back frame that does not fail
format 0200000000010001 4 4
fail 260+8+4 on
open
rx-add 12153524c0895e81
rx-install 12153524c0895e81 2 ad7a2bd03eac835a6f620fdcb506b345 1
capture
| header
| record 0 86 86
| hex d609b1f056637a0d46df998d88e5222ab2c2846512153524c0895e8108000f101112131415161718191a1b1c1d1e1f202122232425262728292a2b2c2d2e2f30313233340001f09478a9b09007d06f46e9b6a1da25dd
validate-capture = passed 1 dropped 0
written = 24+16+54

# The header is written once it was read.
story the first fault ends a run
use sender
capture
| hex a1b23c4e0002000400000000000000000000ffff00000001
protect-capture = BadMagic
written = 0
validate-capture = BadMagic
written = 0
capture
| hex a1b23c4e0002000400000000000000000000ffff00000001
| record 3 60 60
| fill 60 5
protect-capture = BadMagic
written = 0
validate-capture = BadMagic
written = 0
capture
| hex a1b23c4d0002000400000000000000000000ffff00000001
| record 3 60 60
| fill 59 5
protect-capture = CutFile
written = 24; use header
validate-capture = CutFile
written = 24; use header
capture
| hex a1b23c4d0002000400000000000000000000ffff00000001
| record 3 60 64
| fill 60 5
protect-capture = CutRecord
written = 24; use header
validate-capture = CutRecord
written = 24; use header
capture
| hex a1b23c4d0002000400000000000000000000ffff00000001
| record 3 262145 262145
| fill 60 5
protect-capture = RecordTooLong
written = 24; use header
validate-capture = RecordTooLong
written = 24; use header
capture
| hex a1b23c4d0002000400000000000000000000ffff00000001
| record 3 262145 262146
| fill 60 5
protect-capture = RecordTooLong
written = 24; use header
validate-capture = RecordTooLong
written = 24; use header

# A header alone, a frame without octets, and one that is longer than it says it was.
story sound captures end
use sender
capture
| hex a1b23c4d0002000400000000000000000000ffff00000001
protect-capture = passed 0 dropped 0
written = 24; use header
capture
| hex a1b23c4d0002000400000000000000000000ffff00000001
| record 3 0 0
| fill 0 5
protect-capture = passed 0 dropped 1
written = 24; use header
capture
| hex a1b23c4d0002000400000000000000000000ffff00000001
| record 3 60 59
| fill 60 5
protect-capture = passed 1 dropped 0
written = 132; use header
