; 1 where x is y, else 0: the same as eq
mov64 r0, 1
jeq64 r1, r2, 1
mov64 r0, 0
exit
