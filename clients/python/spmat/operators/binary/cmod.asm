; remainder of cdiv, with the sign of x as in C; x where y is 0
mov64 r0, r1
smod64 r0, r2
exit
