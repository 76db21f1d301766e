; x * y
mov64 r0, r1
mul64 r0, r2
exit
