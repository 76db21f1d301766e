; x / y, rounded toward 0 as in C; 0 where y is 0
mov64 r0, r1
sdiv64 r0, r2
exit
