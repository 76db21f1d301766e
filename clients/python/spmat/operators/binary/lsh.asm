; x shifted left by the low 6 bits of y
mov64 r0, r1
lsh64 r0, r2
exit
