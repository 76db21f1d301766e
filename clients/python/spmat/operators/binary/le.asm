; 1 where x is at most y, else 0
mov64 r0, 1
jsle64 r1, r2, 1
mov64 r0, 0
exit
