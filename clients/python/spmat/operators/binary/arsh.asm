; x shifted right by the low 6 bits of y, the sign shifted in
mov64 r0, r1
arsh64 r0, r2
exit
