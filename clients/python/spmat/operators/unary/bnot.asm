; bitwise complement of x
mov64 r0, r1
xor64 r0, -1
exit
