# Frames that go out, and their numbers. Blocks are of 4 packet numbers on either side.

setup new
format 0200000000010001 4 4
open

setup sender
use new
tx-install 0 1 1
tx-use 0

# No number below the ceiling is used after a power loss.
story numbers wait for a reservation
with loss=last
with loss=durable
use sender
each 1 3 protect 62 = $
power-loss $loss
open
next 0 = 5
protect 62 = NoNumber
next 0 = 5
refill
each 5 8 protect 62 = $
protect 62 = NoNumber

# A reservation is made after the second of each four frames: 250 of them, of four device calls.
story a thousand frames need not wait
with loss=last
with loss=durable
use sender
calls = *
each 1 1000 protect 62 = $; refill
calls = 1000
next 0 = 1001
power-loss $loss
open
next 0 = 1005

# A SecTAG that spells the SCI out has 16 octets, and so has the ICV.
story frames that do not fit use no number
use sender
protect 13 = Runt
protect 9185 = TooLong
next 0 = 1
seal 9184 = 1 9216 2c00 0
protect 14 = 2
next 0 = 3
seal 14 = 3 46 2c02 0
next 0 = 4

# User Data of 30 octets, and of one more, which is encrypted.
story user data up to the offset goes in the clear
use new
tx-install 0 1 1 30
tx-use 0
seal 42 = 1 74 2c1e 30
seal 43 = 2 75 2c1f 30

# A SecTAG that does not spell the SCI out has 8 octets. The SCI is that of an address of sevens.
story an end station sends longer frames
format 0707070707070001 4 4
open
set-sci-mode end-station
tx-install 0 1 1
tx-use 0
protect 9193 = TooLong
seal 9192 = 1 9216 4c00 *

story nothing goes out before an association is used
use new
protect 62 = NoEncodingSa
next 0 = none

story the last number is used once
with loss=last
with loss=durable
use new
tx-install 0 1 4294967295
tx-use 0
protect 62 = 4294967295
protect 62 = Exhausted
power-loss $loss
open
next 0 = 4294967296
protect 62 = Exhausted
refill
protect 62 = Exhausted

# The numbers of an association go on where another one was used between.
story each association has its own numbers
with loss=last
with loss=durable
use sender
tx-install 3 2 70
protect 62 = 1
tx-use 3
protect 62 = 70
tx-use 0
protect 62 = 2
next 0 = 3
next 3 = 71
power-loss $loss
open
next 0 = 5
next 3 = 74
