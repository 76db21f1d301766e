; the greater of x and y
mov64 r0, r1
jsge64 r1, r2, 1
mov64 r0, r2
exit
