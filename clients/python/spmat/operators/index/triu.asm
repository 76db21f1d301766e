; 1 where j - i is at least t: the triangle above diagonal t, and the diagonal; else 0
sub64 r3, r2
mov64 r0, 1
jsge64 r3, r4, 1
mov64 r0, 0
exit
