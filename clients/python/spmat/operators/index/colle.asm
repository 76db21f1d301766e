; 1 where j is at most t, else 0
mov64 r0, 1
jsle64 r3, r4, 1
mov64 r0, 0
exit
