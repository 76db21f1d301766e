; 1 / x, rounded toward 0; 0 where x is 0
mov64 r0, 1
sdiv64 r0, r1
exit
