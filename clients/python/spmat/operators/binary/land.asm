; 1 where neither is 0, else 0
mov64 r0, 0
jeq64 r1, 0, 2
jeq64 r2, 0, 1
mov64 r0, 1
exit
