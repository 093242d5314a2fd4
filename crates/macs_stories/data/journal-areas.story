# Disks written by hand: two areas, and what is no journal. Heads are of a generation and a count of
# records.

setup new
format 12153524c0895e81 4 4

setup found
open-journal
identity = 12153524c0895e81 4 4

# A second area of the second generation, with one record.
setup second area
write 514 head 2 1 12153524c0895e81 4 4
write 515 gate
write 516 record set-replay on 9

story the greater generation is current
use new
use second area
sync
use found
snapshot = 1
records = 9

story the first area may be the newer
use new
write 0 head 3 1 12153524c0895e81 4 4
use second area
sync
use found
snapshot = 1
records = settings

story records go into the current area
with loss=last
with loss=durable
use new
use second area
sync
use found
snapshot = 1
records = 9
append set-replay on 3
full = no
close
sector 518 = 4d524543070100000003
sector 519 = 4d5345434f50454e
power-loss $loss
use found
snapshot = 1
records = 9 3

# Three records stand in the snapshot, behind closed gates, and one behind it.
story the gates of a snapshot are not looked at
use new
write 514 head 2 3 12153524c0895e81 4 4
write 515 gate
write 516 record set-replay on 1
write 518 record set-replay on 2
write 520 record set-replay on 3
write 522 record set-replay on 4
write 523 gate
sync
use found
snapshot = 3
records = 1 2 3 4

story a closed head gate hides its area
use new
use second area
write 515 zeros
sync
use found
snapshot = 1
records = settings

story a head gate without a head is refused beside a second area
use new
write 0 zeros
use second area
sync
open-journal = BadJournal

story a head gate without a head is refused alone
use new
write 0 zeros
sync
open-journal = BadJournal

# The head of a second area: of the same generation, of two other identities, and none.
story heads of one generation are refused
use new
use second area
write 514 head 1 1 12153524c0895e81 4 4
sync
open-journal = BadJournal

story heads of two SCIs are refused
use new
use second area
write 514 head 2 1 12153524c0895e82 4 4
sync
open-journal = BadJournal

story heads of two receive blocks are refused
use new
use second area
write 514 head 2 1 12153524c0895e81 4 5
sync
open-journal = BadJournal

# The version is in octets 8 to 11 of a head: 1 for format one, 2 for format two.
setup version one
write 0 4d534543484541440000000100000000000000010000000112153524c0895e810000000400000004
sync

story a journal of either format begins anew in format two
use new
use found
version = 2
close
use version one
use found
version = 1
snapshot = 1
records = settings
compact set-replay on 9, set-replay on 3
close
sector 514 = 4d534543484541440000000200000000000000020000000212153524c0895e810000000400000004
use found
version = 2
snapshot = 2
records = 9 3

story a head of another version is none
with head=4d534543484541440000000000000000000000010000000112153524c0895e810000000400000004
with head=4d534543484541440000000300000000000000010000000112153524c0895e810000000400000004
with head=4d534543484541440100000100000000000000010000000112153524c0895e810000000400000004
with head=4d534543484541440200000000000000000000010000000112153524c0895e810000000400000004
use new
write 0 $head
sync
open-journal = BadJournal

story a head gate without a head is refused in the second area
use new
use second area
write 514 zeros
sync
open-journal = BadJournal

story a gap is refused
with gate=7
with gate=513
use new
write $gate gate
sync
open-journal = BadJournal

# All bodies are those of records: the gap alone is wrong.
story a gap between records is refused
use new
write 4 record set-replay on 1
write 6 record set-replay on 2
write 7 gate
sync
open-journal = BadJournal

story a body that is no record is refused behind an open gate
use new
write 4 ones
write 5 gate
sync
open-journal = BadJournal

story a body that is no record is refused in the snapshot
use new
write 2 zeros
sync
open-journal = BadJournal

story a body that is no record stands behind a closed gate
use new
write 4 ones
sync
use found
snapshot = 1
records = settings
