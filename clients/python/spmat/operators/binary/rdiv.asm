; y / x, rounded toward 0 as in C; 0 where x is 0
mov64 r0, r2
sdiv64 r0, r1
exit
