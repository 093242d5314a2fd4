# What a disk is formatted with, and which disks are not.

story a format writes a head and the settings
disk 1030
format 12153524c0895e81 4 4
sector 0 = 4d534543484541440000000200000000000000010000000112153524c0895e810000000400000004
sector 1 = 4d5345434f50454e
sector 2 = 4d5245430100010000000000ff
zeros 3 1030 = yes

story a format refuses a journal
format 12153524c0895e81 4 4
format 12153524c0895e81 4 4 = AlreadyFormatted
open-journal
identity = 12153524c0895e81 4 4
snapshot = 1
records = settings

story small disks are refused
disk 1027
format 12153524c0895e81 4 4 = TooSmall
open-journal = TooSmall

story a disk of zeros is not formatted
disk 1028
open-journal = NotFormatted

# Gates of slots and other sectors of both areas and behind them, before a format and after it. The
# open gates have more octets: `MSECOPEN and more`.
story a format closes the gates that read open alone
disk 1030
write 4 fill 11
write 5 4d5345434f50454e20616e64206d6f7265
write 7 ones
write 513 4d5345434f50454e20616e64206d6f7265
write 515 fill 22
write 517 4d5345434f50454e20616e64206d6f7265
write 1028 4d5345434f50454e20616e64206d6f7265
format 12153524c0895e81 4 4
sector 4 = - fill 11
sector 5 = -
sector 7 = - fill ff
sector 513 = -
sector 515 = - fill 22
sector 517 = 4d5345434f50454e20616e64206d6f7265
sector 1028 = 4d5345434f50454e20616e64206d6f7265
open-journal
identity = 12153524c0895e81 4 4
snapshot = 1
records = settings

# The gates behind that of the head are in sectors 3, 5 to 513: the format closes each.
story a format closes all gates that read open
each 1 256 write 1+2*$ gate
format 12153524c0895e81 4 4
each 1 256 sector 1+2*$ = -
open-journal
snapshot = 1
records = settings
