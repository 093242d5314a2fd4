# The wire in memory, and the wire before it that fails some calls.

# Frames of each length, pushed and sent by turns.
story frames keep their order
push common 60 0; send common 60 0
push common 0; send common 0
push common 9216 2; send common 9216 2
push common 9217 3; send common 9217 3
push common 1 4; send common 1 4
push common 60000 5; send common 60000 5
push common 60 6; send common 60 6
take common = frame 60 0; sent-frame common 0 = 60 0
take common = frame 0; sent-frame common 1 = 0
take common = frame 9216 2; sent-frame common 2 = 9216 2
take common = too long; sent-frame common 3 = 9217 3
take common = frame 1 4; sent-frame common 4 = 1 4
take common = too long; sent-frame common 5 = 60000 5
take common = frame 60 6; sent-frame common 6 = 60 6
take common = nothing
sent-frames common = 7

# A thousand frames that wait, told apart by their lengths, each of which is sent as it is received.
story a burst is handed on
each 1 1000 push common $ 7
each 1 1000 take common = frame $ 7; send common $ 7
take common = nothing
sent-frames common = 1000
each 0 999 sent-frame common $ = $+1 7

# Three frames wait. The receive of each number fails once and takes no frame: what it did not give
# waits on the wire behind. Some numbers no call has.
setup three frames
each 1 3 push common 60 $

setup what is left
mend common
each $next 3 take common = frame 60 $
take common = nothing
sent-frames common = 0

story no receive fails
with fails=0
with fails=6
with fails=18446744073709551615
and calls=0..3
wire common $fails 1
use three frames
each 1 $calls take common = frame 60 $
mend common
each $calls+1 3 take common = frame 60 $
take common = nothing
sent-frames common = 0

story no receive fails behind the last frame
with fails=0
with fails=6
with fails=18446744073709551615
and calls=1..2
wire common $fails 1
use three frames
each 1 3 take common = frame 60 $
each 1 $calls take common = nothing
mend common
take common = nothing
sent-frames common = 0

story a receive fails
with fails=1 frames=0 nothing=0 failed=0 first=1 last=0 nothing-then=0 next=1
with fails=1 frames=0 nothing=0 failed=1 first=1 last=0 nothing-then=0 next=1
with fails=1 frames=0 nothing=0 failed=1 first=1 last=1 nothing-then=0 next=2
with fails=1 frames=0 nothing=0 failed=1 first=1 last=2 nothing-then=0 next=3
with fails=1 frames=0 nothing=0 failed=1 first=1 last=3 nothing-then=0 next=4
with fails=1 frames=0 nothing=0 failed=1 first=1 last=3 nothing-then=1 next=4
with fails=2 frames=0 nothing=0 failed=0 first=1 last=0 nothing-then=0 next=1
with fails=2 frames=1 nothing=0 failed=0 first=2 last=1 nothing-then=0 next=2
with fails=2 frames=1 nothing=0 failed=1 first=2 last=1 nothing-then=0 next=2
with fails=2 frames=1 nothing=0 failed=1 first=2 last=2 nothing-then=0 next=3
with fails=2 frames=1 nothing=0 failed=1 first=2 last=3 nothing-then=0 next=4
with fails=2 frames=1 nothing=0 failed=1 first=2 last=3 nothing-then=1 next=4
with fails=3 frames=0 nothing=0 failed=0 first=1 last=0 nothing-then=0 next=1
with fails=3 frames=1 nothing=0 failed=0 first=2 last=1 nothing-then=0 next=2
with fails=3 frames=2 nothing=0 failed=0 first=3 last=2 nothing-then=0 next=3
with fails=3 frames=2 nothing=0 failed=1 first=3 last=2 nothing-then=0 next=3
with fails=3 frames=2 nothing=0 failed=1 first=3 last=3 nothing-then=0 next=4
with fails=3 frames=2 nothing=0 failed=1 first=3 last=3 nothing-then=1 next=4
with fails=4 frames=0 nothing=0 failed=0 first=1 last=0 nothing-then=0 next=1
with fails=4 frames=1 nothing=0 failed=0 first=2 last=1 nothing-then=0 next=2
with fails=4 frames=2 nothing=0 failed=0 first=3 last=2 nothing-then=0 next=3
with fails=4 frames=3 nothing=0 failed=0 first=4 last=3 nothing-then=0 next=4
with fails=4 frames=3 nothing=0 failed=1 first=4 last=3 nothing-then=0 next=4
with fails=4 frames=3 nothing=0 failed=1 first=4 last=3 nothing-then=1 next=4
with fails=5 frames=0 nothing=0 failed=0 first=1 last=0 nothing-then=0 next=1
with fails=5 frames=1 nothing=0 failed=0 first=2 last=1 nothing-then=0 next=2
with fails=5 frames=2 nothing=0 failed=0 first=3 last=2 nothing-then=0 next=3
with fails=5 frames=3 nothing=0 failed=0 first=4 last=3 nothing-then=0 next=4
with fails=5 frames=3 nothing=1 failed=0 first=4 last=3 nothing-then=0 next=4
with fails=5 frames=3 nothing=1 failed=1 first=4 last=3 nothing-then=0 next=4
wire common $fails 1
use three frames
each 1 $frames take common = frame 60 $
each 1 $nothing take common = nothing
each 1 $failed take common = Receive
each $first $last take common = frame 60 $
each 1 $nothing-then take common = nothing
use what is left

# The send of each number fails once and does not reach the wire behind.
story no send fails
with fails=0
with fails=6
with fails=18446744073709551615
wire common 1 $fails
use three frames
each 1 5 send common 50 $; sent-frames common = $; sent-octets common 50 = 1 *
sent-octets common 50 = 1 2 3 4 5
mend common
each 1 3 take common = frame 60 $
take common = nothing

story a send fails
with fails=1 before=0 sent=2,3,4,5
with fails=2 before=1 sent=1,3,4,5
with fails=3 before=2 sent=1,2,4,5
with fails=4 before=3 sent=1,2,3,5
with fails=5 before=4 sent=1,2,3,4
wire common 1 $fails
use three frames
each 1 $before send common 50 $; sent-frames common = $
send common 50 $fails = Send
sent-frames common = $before
each $fails+1 5 send common 50 $
sent-frames common = 4
sent-octets common 50 = $sent
mend common
each 1 3 take common = frame 60 $
take common = nothing

# Receives and sends are counted apart, and each fault has its own name.
story calls of both kinds fail
wire common 2 1
use three frames
send common 50 1 = Send
take common = frame 60 1
send common 50 2
take common = Receive
send common 50 3
each 2 3 take common = frame 60 $
take common = nothing
sent-octets common 50 = 2 3

# A wire in front of one that fails, too: the inner one counts the calls that reach it.
story one stands before another
wire common 2 2 2 3
use three frames
send common 50 7
send common 50 7 = Send
send common 50 7 = Send
send common 50 7
sent-frames common = 2
take common = frame 60 1
each 1 2 take common = Receive
each 2 3 take common = frame 60 $
take common = nothing

# What the wire behind answers is handed on as it is: frames that are too long.
story other answers are handed on
wire common 1 0
push common 9217 7
take common = Receive
take common = too long
take common = nothing
