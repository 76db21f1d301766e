; bitwise exclusive or
mov64 r0, r1
xor64 r0, r2
exit
