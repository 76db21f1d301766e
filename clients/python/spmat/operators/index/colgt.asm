; 1 where j is greater than t, else 0
mov64 r0, 1
jsgt64 r3, r4, 1
mov64 r0, 0
exit
