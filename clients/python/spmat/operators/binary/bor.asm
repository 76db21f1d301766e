; bitwise or
mov64 r0, r1
or64 r0, r2
exit
