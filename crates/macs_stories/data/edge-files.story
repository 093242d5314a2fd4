# Command files. The text of a file stands in the lines behind its act, each behind a bar. What is
# answered is how many commands it has, or its first fault; tables are counted from 1.

# A command of each word, with values at the ends of their ranges, and digits of either case.
story each word is read
command-file = 10
| [[command]]
| do = "set-validate"
| mode = "check"
|
| [[command]]
| do = "set-replay"
| on = true
| window = 4294967295
|
| [[command]]
| do = "set-sci-mode"
| mode = "end-station"
|
| [[command]]
| do = "tx-install"
| an = 3
| key = "000102030405060708090a0b0c0d0e0f"
| start = 4294967295
| confidential = true
| offset = 255
|
| [[command]]
| do = "tx-use"
| an = 1
|
| [[command]]
| do = "tx-remove"
| an = 2
|
| [[command]]
| do = "rx-add"
| sci = "12153524c0895e81"
|
| [[command]]
| do = "rx-drop"
| sci = "12153524C0895E81"
|
| [[command]]
| do = "rx-install"
| sci = "f0761e8dcd3d0001"
| an = 0
| key = "FFFEFDFCFBFAF9F8F7F6F5F4F3F2F1F0"
| start = 0
| offset = 0
|
| [[command]]
| do = "rx-remove"
| sci = "f0761e8dcd3d0001"
| an = 0
file-command 1 = set-validate check
file-command 2 = set-replay on 4294967295
file-command 3 = set-sci-mode end-station
file-command 4 = tx-install 3 000102030405060708090a0b0c0d0e0f 4294967295 255
file-command 5 = tx-use 1
file-command 6 = tx-remove 2
file-command 7 = rx-add 12153524c0895e81
file-command 8 = rx-drop 12153524c0895e81
file-command 9 = rx-install f0761e8dcd3d0001 0 fffefdfcfbfaf9f8f7f6f5f4f3f2f1f0 0 0
file-command 10 = rx-remove f0761e8dcd3d0001 0
file-command 11 = none

# The other words of the modes, and replay protection that is off.
story each mode is read
command-file = 1
| command = [{do = "set-validate", mode = "strict"}]
file-command 1 = set-validate strict
command-file = 1
| command = [{mode = "explicit", do = "set-sci-mode"}]
file-command 1 = set-sci-mode explicit
command-file = 1
| command = [{do = "set-sci-mode", mode = "implicit"}]
file-command 1 = set-sci-mode implicit
command-file = 1
| command = [{do = "set-replay", on = false, window = 0}]
file-command 1 = set-replay off 0

story no command is read
command-file = 0
command-file = 0
| # nothing
command-file = 0
| command = []

# The file of README's left end is given to an endpoint whole, and again: then its first command
# does not fit.
story a file is applied
format 0200000000010001 4 4
open
command-file = 4
| # The left end of a link, SCI 0200000000010001. The keys are examples: take random ones, and another one for each direction.
|
| # What goes out: association 0, encrypted whole.
| [[command]]
| do = "tx-install"
| an = 0
| key = "5a1c7e93d04b26f8a97d31e4026fb85c"
| start = 1
| confidential = true
| offset = 0
|
| [[command]]
| do = "tx-use"
| an = 0
|
| # What comes in from the right end.
| [[command]]
| do = "rx-add"
| sci = "0200000000020001"
|
| [[command]]
| do = "rx-install"
| sci = "0200000000020001"
| an = 0
| key = "e07b49d6158c32af6e90b7c4fd2a8113"
| start = 1
| offset = 0
apply = 4 ok
settings = Strict on 0 Explicit 0 1
tx-association 0 = 5a1c7e93d04b26f8a97d31e4026fb85c 0
rx-association 0200000000020001 0 = e07b49d6158c32af6e90b7c4fd2a8113 0
apply = 0 refused SlotTaken

# What stands outside the tables, or in their place, before what stands in them.
story the shape is wrong
command-file = Shape
| x = 1
command-file = Shape
| command = 1
command-file = Shape
| command = "tx-use"
command-file = Shape
| [command]
| do = "tx-use"
| an = 0
command-file = Shape
| command = [1]
command-file = Shape
| command = [{do = "tx-use", an = 0}, 1]
command-file = Shape
| command = [{do = "fly"}, []]
command-file = Shape
| x = 1
| command = []
command-file = Shape
| command = [{}]
| [x]

# A table without a word, or with one that is none.
story a word is wrong
command-file = Word { at: 1 }
| command = [{}]
command-file = Word { at: 1 }
| command = [{an = 4}]
command-file = Word { at: 1 }
| command = [{do = "fly"}]
command-file = Word { at: 1 }
| command = [{do = "TX-USE", an = 0}]
command-file = Word { at: 1 }
| command = [{do = 1}]
command-file = Word { at: 2 }
| command = [{do = "tx-use", an = 0}, {an = 0}]
command-file = Word { at: 2 }
| command = [{do = "tx-use", an = 0}, {do = "tx-uses", an = 0}, {do = "tx-use"}]

# A key is not there: the first such one in the order of the line, before one too many.
story a key is absent
command-file = Key { at: 1, name: Mode }
| command = [{do = "set-validate", x = 1}]
command-file = Key { at: 1, name: On }
| command = [{do = "set-replay", x = 1}]
command-file = Key { at: 1, name: Window }
| command = [{do = "set-replay", on = true, x = 1}]
command-file = Key { at: 1, name: Mode }
| command = [{do = "set-sci-mode", x = 1}]
command-file = Key { at: 1, name: An }
| command = [{do = "tx-install", x = 1}]
command-file = Key { at: 1, name: Key }
| command = [{do = "tx-install", an = 0, x = 1}]
command-file = Key { at: 1, name: Start }
| command = [{do = "tx-install", an = 0, key = "000102030405060708090a0b0c0d0e0f", x = 1}]
command-file = Key { at: 1, name: Confidential }
| command = [{do = "tx-install", an = 0, key = "000102030405060708090a0b0c0d0e0f", start = 1, x = 1}]
command-file = Key { at: 1, name: Offset }
| command = [{do = "tx-install", an = 0, key = "000102030405060708090a0b0c0d0e0f", start = 1, confidential = true, x = 1}]
command-file = Key { at: 1, name: An }
| command = [{do = "tx-use", x = 1}]
command-file = Key { at: 1, name: An }
| command = [{do = "tx-remove", x = 1}]
command-file = Key { at: 1, name: Sci }
| command = [{do = "rx-add", x = 1}]
command-file = Key { at: 1, name: Sci }
| command = [{do = "rx-drop", x = 1}]
command-file = Key { at: 1, name: Sci }
| command = [{do = "rx-install", x = 1}]
command-file = Key { at: 1, name: An }
| command = [{do = "rx-install", sci = "12153524c0895e81", x = 1}]
command-file = Key { at: 1, name: Key }
| command = [{do = "rx-install", sci = "12153524c0895e81", an = 0, x = 1}]
command-file = Key { at: 1, name: Start }
| command = [{do = "rx-install", sci = "12153524c0895e81", an = 0, key = "000102030405060708090a0b0c0d0e0f", x = 1}]
command-file = Key { at: 1, name: Offset }
| command = [{do = "rx-install", sci = "12153524c0895e81", an = 0, key = "000102030405060708090a0b0c0d0e0f", start = 1, x = 1}]
command-file = Key { at: 1, name: Sci }
| command = [{do = "rx-remove", x = 1}]
command-file = Key { at: 1, name: An }
| command = [{do = "rx-remove", sci = "12153524c0895e81", x = 1}]

# A value is of another kind or out of its range.
story a value is wrong
command-file = Key { at: 1, name: Mode }
| command = [{do = "set-validate", mode = 1}]
command-file = Key { at: 1, name: Mode }
| command = [{do = "set-validate", mode = "Strict"}]
command-file = Key { at: 1, name: Mode }
| command = [{do = "set-validate", mode = "implicit"}]
command-file = Key { at: 1, name: Mode }
| command = [{do = "set-sci-mode", mode = 1}]
command-file = Key { at: 1, name: Mode }
| command = [{do = "set-sci-mode", mode = "Strict"}]
command-file = Key { at: 1, name: Mode }
| command = [{do = "set-sci-mode", mode = "check"}]
command-file = Key { at: 1, name: On }
| command = [{do = "set-replay", on = 1, window = 0}]
command-file = Key { at: 1, name: On }
| command = [{do = "set-replay", on = "true", window = 0}]
command-file = Key { at: 1, name: Window }
| command = [{do = "set-replay", on = true, window = -1}]
command-file = Key { at: 1, name: Window }
| command = [{do = "set-replay", on = true, window = 4294967296}]
command-file = Key { at: 1, name: Window }
| command = [{do = "set-replay", on = true, window = "0"}]
command-file = Key { at: 1, name: Window }
| command = [{do = "set-replay", on = true, window = 1.0}]
command-file = Key { at: 1, name: An }
| command = [{do = "tx-install", an = -1, key = "000102030405060708090a0b0c0d0e0f", start = 1, confidential = true, offset = 0}]
command-file = Key { at: 1, name: An }
| command = [{do = "tx-install", an = 4, key = "000102030405060708090a0b0c0d0e0f", start = 1, confidential = true, offset = 0}]
command-file = Key { at: 1, name: An }
| command = [{do = "tx-install", an = "0", key = "000102030405060708090a0b0c0d0e0f", start = 1, confidential = true, offset = 0}]
command-file = Key { at: 1, name: Key }
| command = [{do = "tx-install", an = 0, key = 1, start = 1, confidential = true, offset = 0}]
command-file = Key { at: 1, name: Key }
| command = [{do = "tx-install", an = 0, key = "", start = 1, confidential = true, offset = 0}]
command-file = Key { at: 1, name: Key }
| command = [{do = "tx-install", an = 0, key = "000102030405060708090a0b0c0d0e", start = 1, confidential = true, offset = 0}]
command-file = Key { at: 1, name: Key }
| command = [{do = "tx-install", an = 0, key = "000102030405060708090a0b0c0d0e0f1", start = 1, confidential = true, offset = 0}]
command-file = Key { at: 1, name: Key }
| command = [{do = "tx-install", an = 0, key = "000102030405060708090a0b0c0d0e0f10", start = 1, confidential = true, offset = 0}]
command-file = Key { at: 1, name: Key }
| command = [{do = "tx-install", an = 0, key = "g00102030405060708090a0b0c0d0e0f", start = 1, confidential = true, offset = 0}]
command-file = Key { at: 1, name: Start }
| command = [{do = "tx-install", an = 0, key = "000102030405060708090a0b0c0d0e0f", start = -1, confidential = true, offset = 0}]
command-file = Key { at: 1, name: Start }
| command = [{do = "tx-install", an = 0, key = "000102030405060708090a0b0c0d0e0f", start = 4294967296, confidential = true, offset = 0}]
command-file = Key { at: 1, name: Start }
| command = [{do = "tx-install", an = 0, key = "000102030405060708090a0b0c0d0e0f", start = true, confidential = true, offset = 0}]
command-file = Key { at: 1, name: Confidential }
| command = [{do = "tx-install", an = 0, key = "000102030405060708090a0b0c0d0e0f", start = 1, confidential = 0, offset = 0}]
command-file = Key { at: 1, name: Confidential }
| command = [{do = "tx-install", an = 0, key = "000102030405060708090a0b0c0d0e0f", start = 1, confidential = "true", offset = 0}]
command-file = Key { at: 1, name: Offset }
| command = [{do = "tx-install", an = 0, key = "000102030405060708090a0b0c0d0e0f", start = 1, confidential = true, offset = -1}]
command-file = Key { at: 1, name: Offset }
| command = [{do = "tx-install", an = 0, key = "000102030405060708090a0b0c0d0e0f", start = 1, confidential = true, offset = 256}]
command-file = Key { at: 1, name: Offset }
| command = [{do = "tx-install", an = 0, key = "000102030405060708090a0b0c0d0e0f", start = 1, confidential = true, offset = []}]
command-file = Key { at: 1, name: Sci }
| command = [{do = "rx-install", sci = 1, an = 0, key = "000102030405060708090a0b0c0d0e0f", start = 1, offset = 0}]
command-file = Key { at: 1, name: Sci }
| command = [{do = "rx-install", sci = "12153524c0895e", an = 0, key = "000102030405060708090a0b0c0d0e0f", start = 1, offset = 0}]
command-file = Key { at: 1, name: Sci }
| command = [{do = "rx-install", sci = "12153524c0895e8100", an = 0, key = "000102030405060708090a0b0c0d0e0f", start = 1, offset = 0}]
command-file = Key { at: 1, name: Sci }
| command = [{do = "rx-install", sci = "12153524c0895e8 ", an = 0, key = "000102030405060708090a0b0c0d0e0f", start = 1, offset = 0}]
command-file = Key { at: 1, name: Sci }
| command = [{do = "rx-install", sci = "1215:3524:c0895e81", an = 0, key = "000102030405060708090a0b0c0d0e0f", start = 1, offset = 0}]

# A key too many.
story a key is too many
command-file = Extra { at: 1 }
| command = [{do = "tx-use", an = 0, sci = ""}]
command-file = Extra { at: 2 }
| command = [{do = "tx-use", an = 0}, {do = "rx-add", sci = "12153524c0895e81", an = 0}]
command-file = Extra { at: 1 }
| command = [{do = "set-validate", mode = "check", x = 1}]
command-file = Extra { at: 1 }
| command = [{do = "set-replay", on = true, window = 0, x = 1}]
command-file = Extra { at: 1 }
| command = [{do = "set-sci-mode", mode = "explicit", x = 1}]
command-file = Extra { at: 1 }
| command = [{do = "tx-install", an = 0, key = "000102030405060708090a0b0c0d0e0f", start = 1, confidential = true, offset = 0, x = 1}]
command-file = Extra { at: 1 }
| command = [{do = "tx-use", an = 0, x = 1}]
command-file = Extra { at: 1 }
| command = [{do = "tx-remove", an = 0, x = 1}]
command-file = Extra { at: 1 }
| command = [{do = "rx-add", sci = "12153524c0895e81", x = 1}]
command-file = Extra { at: 1 }
| command = [{do = "rx-drop", sci = "12153524c0895e81", x = 1}]
command-file = Extra { at: 1 }
| command = [{do = "rx-install", sci = "12153524c0895e81", an = 0, key = "000102030405060708090a0b0c0d0e0f", start = 1, offset = 0, x = 1}]
command-file = Extra { at: 1 }
| command = [{do = "rx-remove", sci = "12153524c0895e81", an = 0, x = 1}]

# The first of several faults.
story the first fault is told
command-file = Key { at: 1, name: An }
| command = [{do = "tx-use"}, {}]
command-file = Key { at: 2, name: Sci }
| command = [{do = "tx-use", an = 0}, {do = "rx-remove", an = 4}, {}]
command-file = Key { at: 1, name: An }
| command = [{do = "tx-use", an = 4, sci = ""}]
command-file = Extra { at: 1 }
| command = [{do = "tx-use", an = 0, sci = ""}, {}]

# A key of 128 or 256 bits has 32 or 64 digits: 48 are none, nor are 34 or 62.
story keys of other lengths are none
command-file = Key { at: 1, name: Key }
| command = [{do = "tx-install", an = 0, key = "000102030405060708090a0b0c0d0e0f1011121314151617", start = 1, confidential = true, offset = 0}]
command-file = Key { at: 1, name: Key }
| command = [{do = "rx-install", sci = "12153524c0895e81", an = 0, key = "000102030405060708090a0b0c0d0e0f1011121314151617", start = 1, offset = 0}]
command-file = Key { at: 1, name: Key }
| command = [{do = "tx-install", an = 0, key = "000102030405060708090a0b0c0d0e0f10", start = 1, confidential = true, offset = 0}]
command-file = Key { at: 1, name: Key }
| command = [{do = "tx-install", an = 0, key = "000102030405060708090a0b0c0d0e0f101112131415161718191a1b1c1d1e", start = 1, confidential = true, offset = 0}]

# Keys of 256 bits, with digits of either case.
story keys of 64 digits are read
command-file = 2
| [[command]]
| do = "tx-install"
| an = 1
| key = "000102030405060708090a0b0c0d0e0f101112131415161718191a1b1c1d1e1f"
| start = 1
| confidential = true
| offset = 0
|
| [[command]]
| do = "rx-install"
| sci = "f0761e8dcd3d0001"
| an = 0
| key = "000102030405060708090A0B0C0D0E0F101112131415161718191A1B1C1D1E1F"
| start = 7
| offset = 30
file-command 1 = tx-install 1 000102030405060708090a0b0c0d0e0f101112131415161718191a1b1c1d1e1f 1 0
file-command 2 = rx-install f0761e8dcd3d0001 0 000102030405060708090a0b0c0d0e0f101112131415161718191a1b1c1d1e1f 7 30
