; -1, 0 or 1: the sign of x
mov64 r0, r1
arsh64 r0, 63
jsle64 r1, 0, 1
mov64 r0, 1
exit
