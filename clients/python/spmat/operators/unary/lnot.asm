; 1 where x is 0, else 0
mov64 r0, 1
jeq64 r1, 0, 1
mov64 r0, 0
exit
