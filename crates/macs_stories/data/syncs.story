# Each sync of the journal: what would show where it were left out. A format makes 264 device calls,
# an opening of a new journal 260, a command or a reservation four: the body, a sync, the gate, a
# sync.

setup new
format 0200000000010001 4 4

# A format was stopped at its last sync: the head gate is pending. The next format finds it open,
# and makes it durable.
story the first sync of a format
with loss=last
with loss=durable
fail 263 on
format 0200000000010001 4 4 = Disk
fail never
pending = 1
format 0200000000010001 4 4 = AlreadyFormatted
pending = 0
power-loss $loss
open

# The bodies are durable before the head gate is written.
story the sync of a format before its head gate
with loss=last
with loss=gate
fail 263 on
format 0200000000010001 4 4 = Disk
fail never
pending = 1
tear 0 zeros = no
tear 2 zeros = no
power-loss $loss
open
settings = Strict on 0 Explicit none 0

story the last sync of a format
with loss=last
with loss=durable
use new
pending = 0
power-loss $loss
open

# The body is durable before the gate is written.
story the sync behind the body of an append
with loss=last
with loss=gate
use new
fail 260+3 on
open
set-replay on 3 = Disk
close
fail never
pending = 1
tear 4 zeros = no
power-loss $loss
open
window = 3

# A command that is answered stands, and a packet number below a reserved ceiling is not given
# again.
story the sync behind the gate of an append
with loss=last
with loss=durable
use new
open
set-replay on 3
power-loss $loss
open
window = 3
tx-install 0 1 1
tx-use 0
each 1 2 protect 62 = $
refill
each 3 6 protect 62 = $
power-loss $loss
open
window = 3
next 0 = 9
refill
protect 62 = 9

# 256 slots are used in either area. The 511th command reads 257 gates of the other one and closes
# 256, then come a sync and the bodies of the head and of the settings. A gate that was closed stays
# closed.
story the sync of a compaction behind the closed gates
with loss=last
with loss=durable
with loss=gate
use new
open
each 1 510 set-replay on $
close
open
fail 257+256+1+2 on
set-replay on 511 = Disk
close
fail never
pending = 2
tear 1 gate = no
power-loss $loss
open
window = 510

# The bodies are durable before the head gate is written: 257 gates are read, none is open, then
# come a sync, two bodies, a sync and the head gate.
story the sync of a compaction behind the bodies
with loss=last
with loss=gate
use new
open
each 1 255 set-replay on $
fail 257+1+2+1+1 on
set-replay on 256 = Disk
close
fail never
pending = 1
tear 514 zeros = no
tear 516 zeros = no
power-loss $loss
open
window = 255

# The journal that began anew is the one that is found.
story the sync of a compaction behind the head gate
with loss=last
with loss=durable
use new
open-journal
compact set-replay on 7
close
pending = 0
power-loss $loss
open-journal
records = 7

# A command was stopped at its last sync: its gate is pending, and an opening finds it open. What it
# found stays.
story the sync of an opening
with loss=last
with loss=durable
use new
fail 260+3 on
open
set-replay on 3 = Disk
close
fail never
pending = 1
open
window = 3
close
pending = 0
power-loss $loss
open
window = 3
