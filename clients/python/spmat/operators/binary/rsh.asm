; x shifted right by the low 6 bits of y, 0 shifted in
mov64 r0, r1
rsh64 r0, r2
exit
