# Disks that are formatted or opened.

story a disk is formatted once
format 0200000000010001 4 4
open
close
format 0200000000010001 1 65536 = AlreadyFormatted
power-loss last
open

# They are durable, and no further format changes them.
story the first sectors of a new journal
with loss=last
with loss=durable
format 12153524c0895e81 4 4
format 0200000000010001 1 65536 = AlreadyFormatted
pending = 0
power-loss $loss
sector 0 = 4d534543484541440000000200000000000000010000000112153524c0895e810000000400000004
sector 1 = 4d5345434f50454e
sector 2 = 4d5245430100010000000000ff

story a small disk is not formatted
disk 0 = Size
disk 1027
format 0200000000010001 1 65536 = TooSmall
open = TooSmall

story disks without a journal are refused
open = NotFormatted
format 0200000000010001 4 4
fail 259 on
open = Disk

story a format makes 264 device calls and an opening 260
format 0200000000010001 4 4
calls = 264
fail 259
open = Disk
calls = 260
open
calls = 260
