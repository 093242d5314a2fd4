# Records that are replayed, and those that do not follow from one another. A command's record
# stands behind the snapshot; a snapshot is written by hand into the second area, under a head of
# generation 2. Fingerprints are by Python's hashlib: of a key on the transmit side, of an SCI and a
# key on the receive side.

setup new
format 0200000000010001 4 6

# The record that is appended behind a new snapshot does not follow from it.
setup not taken
close
open-store = BadJournal

story a command that does not fit is refused
with record=tx-use,0
with record=rx-drop,12153524c0895e81
with record=rx-add,0200000000010001
use new
open-journal
append $record
use not taken

story a key is spent once and for all
use new
open-journal
append tx-install 0 01010101010101010101010101010101 1 clear
append tx-remove 0
append tx-install 0 01010101010101010101010101010101 1 clear
use not taken

story parts of a snapshot stand in the snapshot alone
with record=settings
with record=channel,12153524c0895e81
with record=tx-association,0,01010101010101010101010101010101,clear,5
use new
open-journal
append $record
use not taken

# The ceiling of the install is 5.
story a ceiling rises
with ceiling=6
with ceiling=4294967296
use new
open-journal
append tx-install 0 01010101010101010101010101010101 1 clear
append tx-ceiling 0 $ceiling
close
open-store
tx-ceiling 0 = $ceiling

story a ceiling does not fall, nor stay
with ceiling=4
with ceiling=5
use new
open-journal
append tx-install 0 01010101010101010101010101010101 1 clear
append tx-ceiling 0 $ceiling
use not taken

story a ceiling rises where an association stands
with record=tx-ceiling,0,9
with record=rx-ceiling,12153524c0895e81,0,9
use new
open-journal
append $record
use not taken

story a ceiling goes with its association
use new
open-journal
append tx-install 0 01010101010101010101010101010101 1 clear
append tx-remove 0
append tx-ceiling 0 9
use not taken

# A whole snapshot: both sides have an association, whose key is spent.
setup whole 0
write 516+2*$ record settings check off 3 explicit 2
setup whole 1
write 516+2*$ record tx-association 2 01010101010101010101010101010101 clear 77
setup whole 2
write 516+2*$ record channel 12153524c0895e81
setup whole 3
write 516+2*$ record rx-association 12153524c0895e81 2 02020202020202020202020202020202 0 4294967296
setup whole 4
write 516+2*$ record spent tx cc8cd41cef907c4d216069122c4b89936211361f9050a717a1e37ad1862e952f
setup whole 5
write 516+2*$ record spent rx 175c5e3d52f3b9e3b39c1b6284e10a682199ed78cd36d6f2ce05e6120b952bc2

setup whole
each 0 0 use whole 0
each 1 1 use whole 1
each 2 2 use whole 2
each 3 3 use whole 3
each 4 4 use whole 4
each 5 5 use whole 5
write 514 head 2 6 0200000000010001 4 6; write 515 gate

story a snapshot is read with its ceilings
use new
use whole
open-store
tx-ceiling 2 = 77
rx-ceiling 12153524c0895e81 2 = 4294967296
tx-ceiling 1 = none
settings = Check off 3 Explicit 2 1
spent-tx 01010101010101010101010101010101 = yes
spent-rx 12153524c0895e81 01010101010101010101010101010101 = no
spent-tx 02020202020202020202020202020202 = no
spent-rx 12153524c0895e81 02020202020202020202020202020202 = yes

# Slot 6 is the first behind the six of the snapshot, whose ceiling is 77.
story records go on behind a snapshot
use new
use whole
write 528 record tx-ceiling 2 78; write 529 gate
open-store
tx-ceiling 2 = 78
rx-ceiling 12153524c0895e81 2 = 4294967296

story a ceiling that does not rise is refused behind a snapshot
use new
use whole
write 528 record tx-ceiling 2 77; write 529 gate
open-store = BadJournal

# The settings, an association that the settings name, a channel, spent keys.
story no record of a snapshot may be left out
with a=1 b=2 c=3 d=4 e=5
with a=0 b=2 c=3 d=4 e=5
with a=0 b=1 c=3 d=4 e=5
with a=0 b=1 c=2 d=3 e=5
with a=0 b=1 c=2 d=3 e=4
use new
each 0 0 use whole $a
each 1 1 use whole $b
each 2 2 use whole $c
each 3 3 use whole $d
each 4 4 use whole $e
write 514 head 2 5 0200000000010001 4 6; write 515 gate
open-store = BadJournal

# A whole snapshot in which a key of 256 bits, 000102030405060708090a0b0c0d0e0f101112131415161718191a1b1c1d1e1f, is spent too.
setup long spent
use new
use whole
write 524 record spent tx cc8cd41cef907c4d216069122c4b89936211361f9050a717a1e37ad1862e952f 630dcd2966c4336691125448bbb25b4ff412a49c732db2c8abc1b8581bd710dd
write 526 record spent rx 175c5e3d52f3b9e3b39c1b6284e10a682199ed78cd36d6f2ce05e6120b952bc2 acdbdc3b48684c920ea4415ea3dbff25c7b123304ef80d1283894f0855557eb1

# A fingerprint does not say how long its key is: it stands in areas of either format.
story spent keys of 256 bits are read
with head=head
with head=old-head
use long spent
write 514 $head 2 6 0200000000010001 4 6
open-store
tx-ceiling 2 = 77
spent-tx 000102030405060708090a0b0c0d0e0f101112131415161718191a1b1c1d1e1f = yes
spent-tx 000102030405060708090a0b0c0d0e0f = no
spent-rx 12153524c0895e81 000102030405060708090a0b0c0d0e0f101112131415161718191a1b1c1d1e1f = yes
spent-rx 0909090909090909 000102030405060708090a0b0c0d0e0f101112131415161718191a1b1c1d1e1f = no

story a snapshot with keys of 256 bits is read
use long spent
write 518 record tx-association 2 000102030405060708090a0b0c0d0e0f101112131415161718191a1b1c1d1e1f clear 77
write 522 record rx-association 12153524c0895e81 2 000102030405060708090a0b0c0d0e0f101112131415161718191a1b1c1d1e1f 0 80
open-store
tx-association 2 = 000102030405060708090a0b0c0d0e0f101112131415161718191a1b1c1d1e1f clear
tx-ceiling 2 = 77
rx-association 12153524c0895e81 2 = 000102030405060708090a0b0c0d0e0f101112131415161718191a1b1c1d1e1f 0
rx-ceiling 12153524c0895e81 2 = 80

story a snapshot with a key of 256 bits that is not spent is refused
with at=1 record=tx-association,2,000102030405060708090a0b0c0d0e0f101112131415161718191a1b1c1d1e1f,clear,77
with at=3 record=rx-association,12153524c0895e81,2,000102030405060708090a0b0c0d0e0f101112131415161718191a1b1c1d1e1f,0,80
use new
use whole
write 516+2*$at record $record
open-store = BadJournal

story a snapshot with a key of 256 bits is refused in an area of format one
with at=1 record=tx-association,2,000102030405060708090a0b0c0d0e0f101112131415161718191a1b1c1d1e1f,clear,77
with at=3 record=rx-association,12153524c0895e81,2,000102030405060708090a0b0c0d0e0f101112131415161718191a1b1c1d1e1f,0,80
use long spent
write 516+2*$at record $record
write 514 old-head 2 6 0200000000010001 4 6
open-store = BadJournal

# Records that install an association from packet number 1, by their octets: of kinds 9 and 14, and with a key of 256 bits
# of kinds 20 and 21.
story records that install go on behind a snapshot
with head=head
with head=old-head
use new
use whole
write 514 $head 2 6 0200000000010001 4 6
write 528 4d5245430900000102030405060708090a0b0c0d0e0f000000010000; write 529 gate
write 530 4d5245430e12153524c0895e8100000102030405060708090a0b0c0d0e0f0000000100; write 531 gate
open-store
tx-association 0 = 000102030405060708090a0b0c0d0e0f clear
tx-ceiling 0 = 5
rx-association 12153524c0895e81 0 = 000102030405060708090a0b0c0d0e0f 0
rx-ceiling 12153524c0895e81 0 = 1

story records that install keys of 256 bits go on after a snapshot
use new
use whole
write 528 4d5245431400000102030405060708090a0b0c0d0e0f101112131415161718191a1b1c1d1e1f000000010000; write 529 gate
write 530 4d5245431512153524c0895e8100000102030405060708090a0b0c0d0e0f101112131415161718191a1b1c1d1e1f0000000100; write 531 gate
open-store
tx-association 0 = 000102030405060708090a0b0c0d0e0f101112131415161718191a1b1c1d1e1f clear
tx-ceiling 0 = 5
rx-association 12153524c0895e81 0 = 000102030405060708090a0b0c0d0e0f101112131415161718191a1b1c1d1e1f 0
rx-ceiling 12153524c0895e81 0 = 1

story a record that installs a key of 256 bits is refused behind a snapshot of format one
with record=4d5245431400000102030405060708090a0b0c0d0e0f101112131415161718191a1b1c1d1e1f000000010000
with record=4d5245431512153524c0895e8100000102030405060708090a0b0c0d0e0f101112131415161718191a1b1c1d1e1f0000000100
use new
use whole
write 514 old-head 2 6 0200000000010001 4 6
write 528 $record; write 529 gate
open-store = BadJournal

story commands are no part of a snapshot
use new
write 516 record settings check off 3 explicit
write 518 record rx-add 12153524c0895e81
write 514 head 2 2 0200000000010001 4 6; write 515 gate
open-store = BadJournal

# The records of a snapshot with two transmit associations, two channels and three associations of
# theirs, by their places as an endpoint writes them.
setup part 0
write 516+2*$ record settings check off 3 explicit 1
setup part 1
write 516+2*$ record tx-association 0 01010101010101010101010101010101 clear 77
setup part 2
write 516+2*$ record tx-association 1 03030303030303030303030303030303 clear 78
setup part 3
write 516+2*$ record channel 0909090909090909
setup part 4
write 516+2*$ record channel 12153524c0895e81
setup part 5
write 516+2*$ record rx-association 0909090909090909 1 04040404040404040404040404040404 0 79
setup part 6
write 516+2*$ record rx-association 12153524c0895e81 0 02020202020202020202020202020202 0 80
setup part 7
write 516+2*$ record rx-association 12153524c0895e81 1 04040404040404040404040404040404 0 81
setup part 8
write 516+2*$ record spent tx cc8cd41cef907c4d216069122c4b89936211361f9050a717a1e37ad1862e952f 6399f6d863b08f4652b342c2e1350b4c01e291332d9d84d84b575bf7272897d2
setup part 9
write 516+2*$ record spent rx 761048c17855ab1ea895348d84dd52912ad45f76f329c3312d4e38cf0904b410 175c5e3d52f3b9e3b39c1b6284e10a682199ed78cd36d6f2ce05e6120b952bc2 b1b236ef6fd17eb8df267ce9c6b4f07dc35dd11ac2386164d25ddb0952ca0f32

setup ten parts
each 0 0 use part $a
each 1 1 use part $b
each 2 2 use part $c
each 3 3 use part $d
each 4 4 use part $e
each 5 5 use part $f
each 6 6 use part $g
each 7 7 use part $h
each 8 8 use part $i
each 9 9 use part $j
write 514 head 2 10 0200000000010001 4 6; write 515 gate

# An order as an endpoint writes it, and others within a kind: of transmit associations, of
# channels, of receive associations, and of all three.
story records of one kind stand in any order
with a=0 b=1 c=2 d=3 e=4 f=5 g=6 h=7 i=8 j=9
with a=0 b=2 c=1 d=3 e=4 f=5 g=6 h=7 i=8 j=9
with a=0 b=1 c=2 d=4 e=3 f=5 g=6 h=7 i=8 j=9
with a=0 b=1 c=2 d=3 e=4 f=7 g=5 h=6 i=8 j=9
with a=0 b=2 c=1 d=4 e=3 f=7 g=6 h=5 i=8 j=9
use new
use ten parts
open-store
tx-ceiling 0 = 77
tx-ceiling 1 = 78
tx-association 0 = 01010101010101010101010101010101 clear
tx-association 1 = 03030303030303030303030303030303 clear
channels = 0909090909090909 12153524c0895e81
rx-ceiling 0909090909090909 0 = none
rx-ceiling 0909090909090909 1 = 79
rx-ceiling 12153524c0895e81 0 = 80
rx-ceiling 12153524c0895e81 1 = 81
rx-association 12153524c0895e81 0 = 02020202020202020202020202020202 0
rx-association 12153524c0895e81 1 = 04040404040404040404040404040404 0
encoding = 1
spent-tx 03030303030303030303030303030303 = yes
spent-rx 12153524c0895e81 03030303030303030303030303030303 = no
spent-tx 04040404040404040404040404040404 = no
spent-rx 12153524c0895e81 04040404040404040404040404040404 = yes

# Orders in which a record stands in front of one of an earlier kind: of the settings, of a transmit
# association, of a channel, of a receive association, of the spent keys of the transmit side.
story kinds of a snapshot stand in their order
with a=1 b=0 c=2 d=3 e=4 f=5 g=6 h=7 i=8 j=9
with a=0 b=1 c=3 d=2 e=4 f=5 g=6 h=7 i=8 j=9
with a=0 b=1 c=2 d=3 e=5 f=4 g=6 h=7 i=8 j=9
with a=0 b=1 c=2 d=3 e=4 f=5 g=6 h=8 i=7 j=9
with a=0 b=1 c=2 d=3 e=4 f=5 g=6 h=7 i=9 j=8
use new
use ten parts
open-store = BadJournal
