; y
mov64 r0, r2
exit
