; x / y, rounded down as in Python; 0 where y is 0
mov64 r0, r1
sdiv64 r0, r2
smod64 r1, r2
jeq64 r1, 0, 4
jeq64 r2, 0, 3
xor64 r1, r2
jsge64 r1, 0, 1
sub64 r0, 1
exit
