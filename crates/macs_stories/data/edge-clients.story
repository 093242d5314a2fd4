# A relay with a desk that serves clients. Each line after `clients` is what a client does when the desk listens:
# `CLIENT LINE` sends a line, `gone CLIENT` goes away, `none` does nothing; `ended` is the wish to end the process. The
# desk listens after a quiet turn, after a command, and else at each 64th turn. After the last line nobody does
# anything. `said N` says to whom a text was said, and its lines; `clients-counts` how often the desk listened and slept,
# and how much it said.

setup left
format 0200000000010001 65536 65536
open
tx-install 0 07070707070707070707070707070707 1
tx-use 0

# The first turn is quiet: the desk sleeps before each turn after it, and takes a line then.
story what is asked is answered at once
use left
clients
| 1 show
| 2 counters
| 3 shows
| none
| 1 stop
serve-clients 20 = sent 0 delivered 0 dropped 0 faults 0
clients-counts = listened 5 slept 5 said 6
said 1 = 1 sci 0200000000010001 blocks tx 65536 rx 65536 validate strict replay on window 0 sci-mode explicit encoding 0 tx 0 confidential offset 0 next 1 spent tx 1 rx 0
said 2 = 1 end 0
said 3 = 2 tx protected 0 tx runt 0 tx too-long 0 *
said 4 = 2 end 0
said 5 = 3 end 2
said 6 = 1 end 0

# A request has one spelling.
story what is no request
use left
clients
| 1 SHOW
| 1 tx-use 01
| 1 tx-use 4
| 1 tx-use 1 2
| 1 set-replay on
| 1 tx-install 1 0808080808080808080808080808080 1 confidential 0
serve-clients 20 = sent 0 delivered 0 dropped 0 faults 0
clients-counts = listened 19 slept 19 said 6
each 1 6 said $ = 1 end 2

# 150 frames, and the change to a new key between them. The desk listens before the 64th turn, and before the two
# turns after it. Each command is done in four turns: those that come after the 71st go out under the new key.
story frames pass with commands between them
use left
each 0 149 push controlled 60 $
clients
| 1 tx-install 1 08080808080808080808080808080808 1 confidential 0
| 1 tx-use 1
serve-clients 200 = sent 150 delivered 0 dropped 0 faults 0
clients-counts = listened 53 slept 49 said 2
said 1 = 1 ok end 0
said 2 = 1 ok end 0
sent-number common 70 = 71
sent-number common 71 = 1
sent-number common 149 = 79

# A client that asks again and again is answered at each 64th turn while frames pass: they pass one a turn.
story requests hold no frame
use left
each 0 129 push controlled 60 $
clients
| 1 show
| 1 show
| 1 show
| 1 show
serve-clients 130 = sent 130 delivered 0 dropped 0 faults 0
clients-counts = listened 2 slept 0 said 4

# Commands come one before each turn, and every fourth turn is done with one. So the 21st is the 16th under way, and
# no line is taken after it until the quiet turn at the end.
story sixteen under way
with turns=21 listened=20 said=20 slept=1
with turns=22 listened=21 said=21 slept=1
with turns=23 listened=21 said=21 slept=1
with turns=86 listened=21 said=21 slept=1
use left
clients
| 1 set-replay on 1
| 2 set-replay on 2
| 1 set-replay on 3
| 2 set-replay on 4
| 1 set-replay on 5
| 2 set-replay on 6
| 1 set-replay on 7
| 2 set-replay on 8
| 1 set-replay on 9
| 2 set-replay on 10
| 1 set-replay on 11
| 2 set-replay on 12
| 1 set-replay on 13
| 2 set-replay on 14
| 1 set-replay on 15
| 2 set-replay on 16
| 1 set-replay on 17
| 2 set-replay on 18
| 1 set-replay on 19
| 2 set-replay on 20
| 1 set-replay on 21
| 2 set-replay on 22
serve-clients $turns = sent 0 delivered 0 dropped 0 faults 0
clients-counts = listened $listened slept $slept said $said
said 1 = 1 ok end 0
said 2 = 2 ok end 0
said 5 = 1 ok end 0

# The 22nd is taken after all of these are done: its own four turns follow.
story the one after sixteen
use left
clients
| 1 set-replay on 1
| 2 set-replay on 2
| 1 set-replay on 3
| 2 set-replay on 4
| 1 set-replay on 5
| 2 set-replay on 6
| 1 set-replay on 7
| 2 set-replay on 8
| 1 set-replay on 9
| 2 set-replay on 10
| 1 set-replay on 11
| 2 set-replay on 12
| 1 set-replay on 13
| 2 set-replay on 14
| 1 set-replay on 15
| 2 set-replay on 16
| 1 set-replay on 17
| 2 set-replay on 18
| 1 set-replay on 19
| 2 set-replay on 20
| 1 set-replay on 21
| 2 set-replay on 22
serve-clients 90 = sent 0 delivered 0 dropped 0 faults 0
clients-counts = listened 23 slept 2 said 22
each 1 11 said 2*$ = 2 ok end 0
window = 22

# Those under way at the end have failed, in the order of their tickets: each client is told of its own.
story stop with work under way
use left
clients
| 1 set-replay on 1
| 2 set-replay on 2
| 3 stop
serve-clients 20 = sent 0 delivered 0 dropped 0 faults 0
clients-counts = listened 3 slept 1 said 3
said 1 = 3 end 0
said 2 = 1 end 4
said 3 = 2 end 4
under-way = yes

# The same where the process is to end, which is looked at before a line is taken.
story an end from outside
use left
clients
| 1 set-replay on 1
| ended
| 2 show
serve-clients 20 = sent 0 delivered 0 dropped 0 faults 0
clients-counts = listened 1 slept 1 said 1
said 1 = 1 end 4

# The third device call of the first command fails, in the turn after the third command came.
story a device fault with commands under way
use left
fail 2 on
clients
| 1 set-replay on 1
| 2 set-replay on 2
| 1 set-replay on 3
| 2 show
serve-clients 20 = Disk
clients-counts = listened 3 slept 1 said 3
said 1 = 1 end 4
said 2 = 2 end 4
said 3 = 1 end 4

# A client that goes away is told nothing, and its command is kept. The other one is told of its own.
story a client goes away
use left
clients
| 1 set-replay on 1
| 2 set-replay on 2
| gone 1
serve-clients 20 = sent 0 delivered 0 dropped 0 faults 0
clients-counts = listened 13 slept 11 said 1
said 1 = 2 ok end 0
window = 2

# A refused command makes no device call: it is done in the turn for which it was wanted.
story a command is refused
use left
clients
| 1 tx-use 3
| 2 set-replay on 1
| 1 tx-install 1 07070707070707070707070707070707 1 confidential 0
serve-clients 20 = sent 0 delivered 0 dropped 0 faults 0
said 1 = 1 refused SlotEmpty end 3
said 2 = 2 ok end 0
said 3 = 1 refused KeySpent end 3
said 4 = none

# Commands that waited before the relay are no client's: nobody is told of them.
story commands of nobody
use left
submit set-replay on 5 = 1
submit set-replay on 6 = 2
clients
| 1 set-replay on 7
serve-clients 20 = sent 0 delivered 0 dropped 0 faults 0
said 1 = 1 ok end 0
said 2 = none
window = 7
