; 1 where just one of x and y is 0, else 0
mov64 r0, 0
jeq64 r1, 0, 1
mov64 r0, 1
jeq64 r2, 0, 1
xor64 r0, 1
exit
