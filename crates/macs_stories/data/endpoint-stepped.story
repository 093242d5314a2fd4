# Endpoints whose work is cut into steps answer as where it is not.

setup new
format 0200000000010001 4 4
open

setup sender
use new
tx-install 0 1 1
tx-use 0

# A command that is kept takes four steps: three that go on, and the last.
setup receiver
use new
submit rx-add b = 1
finish = 3 done 1 ok
submit rx-install b 2 5 1 = 2
finish = 3 done 2 ok

story numbers wait for steps
with loss=last
with loss=durable
use sender
each 1 3 protect 62 = $
power-loss $loss
open
next 0 = 5
protect 62 = NoNumber
each 1 3 step = worked
protect 62 = NoNumber
step = reserved
each 5 6 protect 62 = $

# A reservation of four steps is made after the second of each four frames: `rest` finds the fifth
# step idle.
setup four frames
protect 62 = 4*$+1
rest = 0 idle
protect 62 = 4*$+2
rest = 4 idle
protect 62 = 4*$+3
rest = 0 idle
protect 62 = 4*$+4
rest = 0 idle

story a thousand frames need not wait
with loss=last
with loss=durable
use sender
each 0 249 use four frames
next 0 = 1001
power-loss $loss
open
next 0 = 1005

# The gate of an install was written by the third step, and is pending.
setup torn install
use new
submit tx-install 0 1 1 = 1
each 1 3 step = worked
close
tear 5 $way
power-loss torn
open

story a gate torn open keeps the command
with way=gate
with way=last
use torn install
next 0 = 5
submit tx-install 0 1 1 = 1
finish = 0 done 1 refused SlotTaken
submit tx-install 1 1 1 = 2
finish = 0 done 2 refused KeySpent

story a gate torn closed takes the command back
with way=zeros
with way=durable
use torn install
next 0 = none
submit tx-install 0 1 1 = 1
finish = 3 done 1 ok
next 0 = 1

story a key stays spent
with loss=last
with loss=durable
use new
submit tx-install 0 1 1 = 1
finish = 3 done 1 ok
submit tx-remove 0 = 2
finish = 3 done 2 ok
submit tx-install 1 1 1 = 3
finish = 0 done 3 refused KeySpent
power-loss $loss
open
submit tx-install 1 1 1 = 1
finish = 0 done 1 refused KeySpent

story numbers are taken below the ceiling
with loss=last
with loss=durable
use receiver
receive b 5 2 5 62 = held back
rest = 4 idle
receive b 5 2 5 62 = delivered Ok
numbers b 2 = 6 6
receive b 5 2 5 62 = discarded Late
receive b 5 2 4 62 = discarded Late
receive b 5 2 7 62 = delivered Ok
numbers b 2 = 8 8
power-loss $loss
open
numbers b 2 = 9 9
receive b 5 2 7 62 = discarded Late
receive b 5 2 8 62 = discarded Late
receive b 5 2 9 62 = held back
rest = 4 idle
receive b 5 2 9 62 = delivered Ok
numbers b 2 = 10 10

# A window of 5, to which 10 came, and 8 twice.
setup windowed
use receiver
submit set-replay on 5 = 3
finish = 3 done 3 ok
receive b 5 2 10 62 = held back
rest = 4 idle
receive b 5 2 10 62 = delivered Ok
numbers b 2 = 11 6
each 1 2 receive b 5 2 8 62 = delivered Ok

story a window changes
use windowed
submit set-replay on 0 = 4
finish = 3 done 4 ok
numbers b 2 = 11 11
receive b 5 2 8 62 = discarded Late

story a window is empty after an opening
with loss=last
with loss=durable
use windowed
power-loss $loss
open
numbers b 2 = 14 14
receive b 5 2 10 62 = discarded Late
