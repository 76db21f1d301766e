; 1 where j - i is not t: all but diagonal t; else 0
sub64 r3, r2
mov64 r0, 1
jne64 r3, r4, 1
mov64 r0, 0
exit
