; 1 where x is at least y, else 0
mov64 r0, 1
jsge64 r1, r2, 1
mov64 r0, 0
exit
