; 1 where i is greater than t, else 0
mov64 r0, 1
jsgt64 r2, r4, 1
mov64 r0, 0
exit
