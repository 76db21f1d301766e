; 1 where x is less than t, else 0
mov64 r0, 1
jslt64 r1, r4, 1
mov64 r0, 0
exit
