; bitwise complement of exclusive or
mov64 r0, r1
xor64 r0, r2
xor64 r0, -1
exit
