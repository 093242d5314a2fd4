# Journals whose work is done one device call at a time.

setup new
format 12153524c0895e81 4 4

setup found
open-journal
identity = 12153524c0895e81 4 4

# Each step of an append is one call of the disk, and a step with nothing under way is none: the disk
# passes on four calls and no more.
story an append is four steps of one call
use new
fail 260+4 on
open-journal
step = idle
start-append set-replay on 1
each 1 3 step = going
step = finished
each 1 2 step = idle
start-append set-replay on 2
step = Disk
each 1 2 step = Stopped
start-append set-replay on 3 = Stopped
start-compact set-replay on 7 = Stopped
close
fail never
use found
snapshot = 1
records = settings 1

# A disk whose other area has the gate of an earlier head, and 256 gates that were written by hand.
setup open gates
use new
open-journal
compact set-replay on 7
close
open-journal
compact settings
close
each 0 255 write 517+2*$ gate
sync

# All but the last of these calls go on; then the next compaction fails.
setup steps of a compaction
each 2 $calls step = going
step = finished
step = idle
start-compact set-replay on 7
step = Disk
step = Stopped
close
fail never

# A compaction makes the reads of 257 gates, a write of each open one, a sync, the bodies of the
# head and of the records, a sync, the head gate and a sync.
story a compaction with one record is a step for each call
with calls=263
use new
fail 260+$calls on
open-journal
start-compact set-replay on 7
use steps of a compaction
use found
snapshot = 1
records = 7

story a compaction with one record is a step for each call where all gates are open
with calls=520
use open gates
fail 261+$calls on
open-journal
start-compact set-replay on 7
use steps of a compaction
use found
snapshot = 1
records = 7

story a compaction with four records is a step for each call
with calls=266
use new
fail 260+$calls on
open-journal
start-compact settings, set-replay on 1, set-replay on 2, set-replay on 3
use steps of a compaction
use found
snapshot = 4
records = settings 1 2 3

story a compaction with four records is a step for each call where all gates are open
with calls=523
use open gates
fail 261+$calls on
open-journal
start-compact settings, set-replay on 1, set-replay on 2, set-replay on 3
use steps of a compaction
use found
snapshot = 4
records = settings 1 2 3

story a compaction with 256 records is a step for each call
with calls=518
use new
fail 260+$calls on
open-journal
start-compact 256 times set-replay on 5
use steps of a compaction
use found
snapshot = 256
count = 256
each 0 255 record $ = 5

story a compaction with 256 records is a step for each call where all gates are open
with calls=775
use open gates
fail 261+$calls on
open-journal
start-compact 256 times set-replay on 5
use steps of a compaction
use found
snapshot = 256
count = 256
each 0 255 record $ = 5

# A power loss leaves the last writes: that of the gate stands, though its sync did not come.
story an append stopped behind a step is none or done
with steps=0..2 loss=last found=settings
with steps=3 loss=last found=settings,1
with steps=0..3 loss=durable found=settings
use new
open-journal
start-append set-replay on 1
each 1 $steps step = going
power-loss $loss
use found
snapshot = 1
records = $found

story an append stopped behind its last step is done
with loss=last
with loss=durable
use new
open-journal
start-append set-replay on 1
each 1 3 step = going
step = finished
power-loss $loss
use found
snapshot = 1
records = settings 1

story a compaction stopped behind a step is none or done
with steps=0..261 loss=last found=settings
with steps=262 loss=last found=7
with steps=0..262 loss=durable found=settings
use new
open-journal
start-compact set-replay on 7
each 1 $steps step = going
power-loss $loss
use found
snapshot = 1
records = $found

story a compaction stopped behind its last step is done
with loss=last
with loss=durable
use new
open-journal
start-compact set-replay on 7
each 1 262 step = going
step = finished
power-loss $loss
use found
snapshot = 1
records = 7

# A compaction whose call fails in mid-course.
story a step that fails stops the journal
use new
fail 260+100 on
open-journal
start-compact set-replay on 7
each 1 100 step = going
step = Disk
each 1 2 step = Stopped
start-compact set-replay on 7 = Stopped
start-append set-replay on 1 = Stopped
close
fail never
use found
snapshot = 1
records = settings

# A journal of the last generation does not begin anew, and is appended to.
story the last generation is not started anew
write 0 head 18446744073709551615 1 12153524c0895e81 4 4
write 1 gate
write 2 record settings
sync
use found
snapshot = 1
records = settings
close
fail 260+4 on
open-journal
start-compact set-replay on 7 = GenerationsSpent
step = idle
start-append set-replay on 1
each 1 3 step = going
step = finished
start-compact set-replay on 7 = GenerationsSpent
close
fail never
use found
snapshot = 1
records = settings 1
