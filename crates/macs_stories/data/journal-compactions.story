# Journals that begin anew, and stops at each device call. A compaction with one record makes 263
# device calls where no gate of the other area reads open: the reads of 257 gates, a sync, the
# bodies of the head and of the record, a sync, the head gate, a sync. A recovery of one head makes
# 260 calls before it, and one of two heads 261.

setup new
format 12153524c0895e81 4 4

setup found
open-journal
identity = 12153524c0895e81 4 4

# The journal is begun anew with the window 7.
setup anew with 7
open-journal
compact set-replay on 7
close

setup anew with settings
open-journal
compact settings
close

setup stopped
stopped = yes
append set-replay on 9 = Stopped
close
fail never

# The other area has the next generation, and appends go on behind the snapshot; the area before it
# is left as it was.
story a journal begins anew in the other area
with loss=last
with loss=durable
use new
use found
snapshot = 1
records = settings
each 1 3 append set-replay on $
full = no
close
use anew with 7
power-loss $loss
use found
snapshot = 1
records = 7
close
sector 514 = 4d534543484541440000000200000000000000020000000112153524c0895e810000000400000004
sector 515 = 4d5345434f50454e
sector 516 = 4d524543070100000007
sector 517 = -
use found
snapshot = 1
records = 7
append set-replay on 8
full = no
power-loss $loss
use found
snapshot = 1
records = 7 8
close
sector 518 = 4d524543070100000008
sector 519 = 4d5345434f50454e
sector 0 = 4d534543484541440000000200000000000000010000000112153524c0895e810000000400000004
sector 1 = 4d5345434f50454e
sector 9 = 4d5345434f50454e

# The third compaction goes into the second area, whose head gate is open: 258 calls close it, a
# sync makes that durable, and the head's body is written.
story an old head gate is closed before its body changes
use new
use anew with 7
use anew with settings
fail 261+260 on
open-journal
compact set-replay on 7 = Disk
use stopped
pending 514 = yes
pending 515 = no

story a compaction that is answered stands
use new
use anew with 7
pending 515 = no

# The first area again: the gates of its old records are closed, that of slot 1 too, whose body is
# new.
story areas take turns
with loss=last
with loss=durable
use new
use found
snapshot = 1
records = settings
each 1 3 append set-replay on $
full = no
close
use anew with 7
open-journal
compact set-replay on 7, set-replay on 8
power-loss $loss
use found
snapshot = 2
records = 7 8
close
sector 0 = 4d534543484541440000000200000000000000030000000212153524c0895e810000000400000004
sector 5 = -
sector 7 = -
sector 9 = -
open-journal
compact settings, set-replay on 1, set-replay on 2, set-replay on 3
close
use found
snapshot = 4
records = settings 1 2 3
close
sector 514 = 4d534543484541440000000200000000000000040000000412153524c0895e810000000400000004

# A power loss leaves the last writes. That of the head gate stands, though its sync did not come.
story a compaction stopped at a call is none or done
with calls=0..261 loss=last found=settings
with calls=262 loss=last found=7
with calls=0..262 loss=durable found=settings
use new
fail 260+$calls on
open-journal
compact set-replay on 7 = Disk
use stopped
power-loss $loss
use found
snapshot = 1
records = $found

story a compaction that is not stopped is done
use new
fail 260+263 on
open-journal
compact set-replay on 7
close
fail never
use found
snapshot = 1
records = 7

# The bodies of the new head and of its record are pending.
story a compaction with torn bodies is none
with way=durable
with way=last
with way=zeros
with way=ones
with way=gate
with way=half
and other=durable
and other=last
and other=zeros
and other=ones
and other=gate
and other=half
use new
fail 260+260 on
open-journal
compact set-replay on 7 = Disk
use stopped
tear 514 $way
tear 516 $other
power-loss torn
use found
snapshot = 1
records = settings

# The bodies are durable, and the new head gate is pending.
story a compaction with a torn gate is none or done
with way=durable found=settings
with way=last found=7
with way=zeros found=settings
with way=ones found=settings
with way=gate found=7
with way=half found=7
use new
fail 260+262 on
open-journal
compact set-replay on 7 = Disk
use stopped
pending 514 = no
pending 516 = no
tear 515 $way
power-loss torn
use found
snapshot = 1
records = $found

# The gate of an earlier head is pending, while it is closed: that head is an earlier one, or none.
# The recovery reads the body of the earlier head too; then come the read and the write of its gate.
story a compaction with a torn old gate is none
with way=durable
with way=last
with way=zeros
with way=ones
with way=gate
with way=half
use new
use anew with 7
use anew with settings
fail 261+2 on
open-journal
compact set-replay on 7, set-replay on 8 = Disk
use stopped
pending 515 = yes
tear 515 $way
power-loss torn
use found
snapshot = 1
records = settings

# A journal of the last generation cannot begin anew, and nothing is written.
story the last generation does not begin anew
write 0 head 18446744073709551615 1 12153524c0895e81 4 4
write 1 gate
write 2 record settings
sync
fail 260 on
open-journal
compact set-replay on 7 = GenerationsSpent
close
fail never
pending 514 = no
use found
snapshot = 1
records = settings
each 1 3 append set-replay on $
full = no
close
use found
snapshot = 1
records = settings 1 2 3

# A journal that stopped answers so, though its generation is the last.
story a stopped journal of the last generation is stopped
write 0 head 18446744073709551615 1 12153524c0895e81 4 4
write 1 gate
write 2 record settings
sync
fail 260 on
open-journal
append set-replay on 1 = Disk
stopped = yes
compact set-replay on 7 = Stopped
