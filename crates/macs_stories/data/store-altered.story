# Disks with sectors that no journal wrote: what is found, or that they are refused.

setup fresh
format 12153524c0895e81 4 4

setup nothing else
identity = 12153524c0895e81 4 4
each 0 3 tx-ceiling $ = none; rx-ceiling 12153524c0895e81 $ = none

story an open gate behind a closed one
use fresh
put 7 gate
put 5 zeros
open-store = BadJournal

story an open head gate without a head
use fresh
put 515 gate
put 514 zeros
open-store = BadJournal

story two heads of one generation
use fresh
put 514 copy 0
put 515 copy 1
open-store = BadJournal

story a record that does not fit
use fresh
put 4 record tx-use 0
put 5 gate
open-store = BadJournal

story a gate is open whatever follows its first octets
use fresh
put 4 record set-replay on 9
put 5 4d5345434f50454e ones
open-store
settings = Strict on 9 Explicit none 0
use nothing else
